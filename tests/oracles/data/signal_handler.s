/ A handler of signals: its address is an argument of the call. It ends with `rtt`, and a counter follows.
.globl _catch, csv, cret
_catch:
	jsr	r5,csv
	104460		/ sys signal
	2
	caught
	bcs	1f
	clr	r0
1:	jmp	cret
caught:
	inc	count
	000006		/ rtt
count:
	0
	076543
