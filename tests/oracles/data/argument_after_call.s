/ An argument after the call. _f takes the word through r5, (r5)+, and `rts r5` goes on after it: so the word after `jsr r5` is no
/ instruction, and the one after that is.
.globl _main, _f, _buf
_main:
	jsr	r5,_f
	_buf
	rts	pc
