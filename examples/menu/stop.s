/ what the second pointer of the table means
	.globl	_stop
	.text
_stop:
	mov	_room, r0
	rts	pc
