/ doubles a number in another way: a second definition of _twice
	.globl	_twice
	.text
_twice:
	add	r0, r0
	rts	pc
