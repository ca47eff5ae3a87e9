/ `emt` and `bpt` come to a handler that skips the word after them: the number of a breakpoint, or the address of a name.
.globl _trace, csv, cret
_trace:
	jsr	r5,csv
	104003		/ emt 3
	name
	000003		/ bpt
	177777
	jmp	cret
name:
	<trace\0>
	.even
