	.globl	start, csv, cret
	start:
		mov	$157776,sp
		jsr	pc,_main
		0
	csv:
		mov	r5,r0
		mov	sp,r5
		mov	r4,-(sp)
		mov	r3,-(sp)
		mov	r2,-(sp)
		tst	-(sp)
		jsr	pc,(r0)
	cret:
		mov	r5,r2
		mov	-(r2),r4
		mov	-(r2),r3
		mov	-(r2),r2
		mov	r5,sp
		mov	(sp)+,r5
		rts	pc
	.text
.even
	.globl _putch
_putch:
~~putch:
jsr	r5,csv
tst	-(sp)
L249:
L253:
mov	$177564,-12(r5)
cmp	4(r5),$12
jne	L255
mov	$15,(sp)
jsr	pc,*$_putch
L255:
L257:
mov	*-12(r5),r0
bic	$177577,r0
tst	r0
jne	L259
jbr	L257
L259:
mov	-12(r5),r0
mov	4(r5),2(r0)
L251:
jmp	cret
