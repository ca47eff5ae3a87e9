/ A table with a name, in text after a function: numbers and addresses of text, which other objects read. No word of it is executed.
.globl _main, _table
_main:
	rts	pc
_table:
	1
	_main
	2
	_main
