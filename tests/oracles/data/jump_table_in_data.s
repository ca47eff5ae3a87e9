/ The same with the table in data, as the C compiler of the Seventh Edition puts it: the words of data have the addresses of text.
.globl _switch, csv, cret
_switch:
	jsr	r5,csv
	mov	4(r5),r0
	sub	$101,r0
	cmp	r0,$2
	bhi	9f
	asl	r0
	jmp	*table(r0)
2:	mov	$1,r0
	br	9f
3:	clr	r0
9:	jmp	cret
.data
table:
	2b
	3b
	9b
