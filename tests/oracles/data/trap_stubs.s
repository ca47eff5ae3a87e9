/ Stubs of the Sixth Edition's low.s: an interrupt comes to kwlp, and `call` finds by r0 the address of the C function that handles it.
/ The word after `jsr r0` is that address. `call` ends with `rtt`.
.globl call, _clock, _klrint
kwlp:
	jsr	r0,call
	_clock
klin:
	jsr	r0,call
	_klrint
