/ `mov table(r0),pc` jumps as `jmp *table(r0)` does. The table follows: addresses, and a zero that ends it.
.globl _go, csv
_go:
	jsr	r5,csv
	mov	4(r5),r0
	mov	table(r0),pc
table:
	first
	second
	0
first:
	mov	r5,sp
	mov	(sp)+,r5
	mov	(sp)+,pc
second:
	clr	r0
	br	first
