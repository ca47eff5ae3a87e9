/ A switch over few numbers far apart, as C compilers make it: numbers in data are compared one after another, and the jump goes by a
/ second table of as many words, 4 bytes after the first. The limit of the loop is the address between the two.
.globl _find, csv, cret
_find:
	jsr	r5,csv
	mov	4(r5),r0
	mov	$numbers,r1
1:	cmp	r0,(r1)+
	bne	2f
	jmp	*2(r1)
2:	cmp	r1,$places
	blo	1b
3:	clr	r0
	jmp	cret
4:	mov	$1,r0
	jmp	cret
.data
numbers:
	1
	1000
places:
	3b
	4b
