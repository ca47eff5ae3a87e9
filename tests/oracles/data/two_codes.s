/ Condition codes may be cleared together in one word: 000243 is `clc|clv`.
.globl _main, _x
_main:
	tst	_x
	000243
	rts	pc
