/ a table of pointers in data, and a call through it
	.globl	_main, _menu
	.text
_main:
	mov	$_menu, r2
	mov	(r2), r1
	jsr	pc, *2(r2)
	rts	pc
	.data
_menu:
	.word	title
	.word	_stop
	.word	_room + 2
title:
	<stop\0>
	.even
