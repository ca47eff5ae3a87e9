/ A copy that is entered in its middle: r1 counts the words that are left out, and `jmp 1f(r1)` goes to the instruction after them.
.globl _copy8, csv, cret
_copy8:
	jsr	r5,csv
	mov	4(r5),r2
	mov	6(r5),r3
	mov	10(r5),r1
	asl	r1
	jmp	1f(r1)
1:	mov	(r2)+,(r3)+
	mov	(r2)+,(r3)+
	mov	(r2)+,(r3)+
	mov	(r2)+,(r3)+
	jmp	cret
