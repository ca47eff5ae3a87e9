/ doubles a number
	.globl	_twice
	.text
_twice:
	asl	r0
	rts	pc
