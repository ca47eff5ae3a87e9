/ csv and cret, with which each C function of the Seventh Edition begins and ends: csv saves the registers and comes back by `jmp (r0)`,
/ cret returns for the function. So `jsr r5,csv` is in the first word of a function, and the next line is executed.
.globl csv, cret, _f, _g
csv:
	mov	r5,r0
	mov	sp,r5
	mov	r4,-(sp)
	mov	r3,-(sp)
	mov	r2,-(sp)
	tst	-(sp)
	jmp	(r0)
cret:
	mov	r5,r1
	mov	-(r1),r4
	mov	-(r1),r3
	mov	-(r1),r2
	mov	r5,sp
	mov	(sp)+,r5
	rts	pc
_f:
	jsr	r5,csv
	mov	4(r5),(sp)
	jsr	pc,*$_g
	jbr	cret
