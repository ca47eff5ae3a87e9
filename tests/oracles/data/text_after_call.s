/ A text after the call, which a message routine prints up to its NUL, rounds r5 up to a word, and returns behind. Each of three calls
/ has another text.
.globl _usage, mesg, csv, cret
_usage:
	jsr	r5,csv
	jsr	r5,mesg
	<usage: cp from to\n\0>
	.even
	jsr	r5,mesg
	<?\0>
	jsr	r5,mesg
	<\7\0>
	jmp	cret
