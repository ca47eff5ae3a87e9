/ `add r0,pc` jumps into a row of branches: it writes the pc, so what follows it is reached only with r0 = 0, 2, 4 or 6. The word after
/ the row stands for a fifth choice that is never taken.
.globl _choose, csv, cret
_choose:
	jsr	r5,csv
	mov	4(r5),r0
	bic	$177774,r0
	asl	r0
	add	r0,pc
	br	1f
	br	2f
	br	1f
	br	2f
	000010
1:	inc	r0
2:	jmp	cret
