/ A subroutine of FORTRAN: after `jsr r5` a word has the number of arguments in its low byte, as a branch over them, and their addresses
/ follow. `rts r5` comes back to the branch.
.globl _call, sqrt, _x, _y, csv, cret
_call:
	jsr	r5,csv
	mov	r5,-(sp)
	jsr	r5,sqrt
	br	1f
	_x
	_y
1:	mov	(sp)+,r5
	jmp	cret
