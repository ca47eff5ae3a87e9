/ Floating numbers after the function that loads them: 1 and 10, of four words each. The first word of a floating number may be any.
.globl _ten, csv, cret
_ten:
	jsr	r5,csv
	mov	$one,r0
	172410		/ movf (r0),fr0
	mov	$ten,r0
	171010		/ mulf (r0),fr0
	jmp	cret
one:
	40200
	0
	0
	0
ten:
	41040
	0
	0
	0
