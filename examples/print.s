/ prints texts and numbers on the console
	.globl	_print, _number
	.comm	_digits, 6
tps = 177564
tpb = 177566

	.text
_print:				/ the text at r1, up to a NUL
	movb	(r1)+, r0
	beq	1f
	jsr	pc, putc
	br	_print
1:	rts	pc

putc:				/ the byte in r0, and waits until it is out
	movb	r0, tpb
2:	tstb	tps
	bpl	2b
	rts	pc

_number:			/ the number in r0, in decimal
	mov	r0, left
	mov	$_digits+5, r2	/ a NUL follows the last digit
3:	mov	left, r1
	clr	r0
	div	$10., r0
	mov	r0, left
	add	$'0, r1
	movb	r1, -(r2)
	tst	left
	bne	3b
	mov	r2, r1
	jmp	_print

	.bss
left:	.=.+2
