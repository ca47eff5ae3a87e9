/ Coroutines: `jsr pc,*(sp)+` exchanges the pc with the top of the stack, so each of the two goes on where it last gave way. A reader
/ of numbers and a writer take turns; the words after the last exchange are never executed.
.globl _both, csv, cret, _get, _put
_both:
	jsr	r5,csv
	mov	$reader,-(sp)
1:	jsr	pc,*(sp)+
	jsr	pc,_put
	tst	r0
	bne	1b
	tst	(sp)+
	jmp	cret
reader:
	jsr	pc,_get
	jsr	pc,*(sp)+
	br	reader
	177777
