/ `clr pc` goes to 0, where a kernel restarts. A number follows: 7 is no instruction of the PDP-11.
.globl _restart, _x
_restart:
	tst	_x
	clr	pc
	7
