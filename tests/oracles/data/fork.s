/ fork comes back twice: in the child to the next word, a branch, and in the parent one word further. Both ways are right.
.globl _spawn, csv, cret, _par_uid
_spawn:
	jsr	r5,csv
	104402		/ sys fork
	br	1f
	bcc	2f
	mov	$-1,r0
	jmp	cret
1:	mov	r0,_par_uid
	clr	r0
2:	jmp	cret
