/ a common of 6 bytes, and a word of bss
	.globl	_fill, _own
	.comm	_room, 6
	.text
_fill:
	mov	r0, _own
	mov	r0, _room
	rts	pc
	.bss
_own:
	.space	2
