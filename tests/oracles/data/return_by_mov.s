/ `mov (sp)+,pc` is a return: it writes the pc, as `rts pc` does. Two addresses follow, which other objects read by their name.
.globl _main, _x, ends
_main:
	tst	_x
	mov	(sp)+,pc
ends:
	_main
	ends
