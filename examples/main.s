/ calls a function of twice.s, and reads a common that count.s defines
	.globl	_main, _twice
	.comm	_count, 2
	.text
_main:
	mov	_count, r0
	jsr	pc, _twice
	rts	pc
