/ A switch: the number in r0 chooses a word of a table that follows the jump, in text. `jmp *1f(r0)` goes to one of its addresses.
.globl _switch, csv, cret
_switch:
	jsr	r5,csv
	mov	4(r5),r0
	cmp	r0,$3
	bhi	9f
	asl	r0
	jmp	*1f(r0)
1:	2f
	3f
	2f
	9f
2:	inc	r0
	br	9f
3:	dec	r0
9:	jmp	cret
