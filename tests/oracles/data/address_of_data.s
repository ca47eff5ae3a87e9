/ A call over data gives its address: `jsr r0,1f` leaves in r0 where the numbers begin, and goes on after them.
.globl _squares, csv, cret
_squares:
	jsr	r5,csv
	jsr	r0,1f
	0
	1
	4
	11
	20
1:	mov	4(r5),r1
	asl	r1
	add	r0,r1
	mov	(r1),r0
	jmp	cret
