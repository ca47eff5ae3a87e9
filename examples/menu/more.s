/ the same common with more bytes, and bss of its own
	.globl	_next, _last
	.comm	_room, 12
	.text
_next:
	inc	_room + 10
	clr	_last
	rts	pc
	.bss
	.space	4
_last:
	.space	2
