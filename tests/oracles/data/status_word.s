/ `mtps $340` and `mfps r0`, of the PDP-11/34 and the LSI-11: they write and read the processor's status. Other PDP-11s lack them.
.globl _spl7, _x
_spl7:
	tst	_x
	106700
	106427
	340
	rts	pc
