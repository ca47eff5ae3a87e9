/ The low words of a kernel: a branch over the vectors, which are pairs of an address and a status, in text at 0, and the handlers.
.globl start, trap, _clock
	br	1f
	4
	trap
	340
	trap
	341
	kwlp
	300
1:	jmp	start
kwlp:
	mov	r0,-(sp)
	jsr	pc,_clock
	mov	(sp)+,r0
	000002		/ rti
