/ A word of data between code: the branch goes over it. Read as an instruction it would be `add *N(r1),N(r7)`, and would take the
/ `jsr` after it for its operands.
.globl _main, _x, _f
_main:
	tst	_x
	br	1f
	067167
1:	jsr	pc,_f
	rts	pc
