	.text
.even
	.globl _say
_say:
~~say:
jsr	r5,csv
tst	-(sp)
L251:
L255:
L257:
tstb	*4(r5)
jeq	L259
mov	4(r5),-12(r5)
inc	4(r5)
movb	*-12(r5),r0
mov	r0,(sp)
jsr	pc,*$_putch
jbr	L257
L259:
L253:
jmp	cret
.even
	.globl _number
_number:
~~number:
jsr	r5,csv
L263:
L267:
cmp	4(r5),$11
jle	L269
mov	4(r5),r1
tst	r1
sxt	r0
div	$12,r0
mov	r0,(sp)
jsr	pc,*$_number
L269:
mov	4(r5),r1
mov	$12,r2
mov	r1,r1
sxt	r0
div	r2,r0
add	$60,r1
mov	r1,(sp)
jsr	pc,*$_putch
L265:
jmp	cret
