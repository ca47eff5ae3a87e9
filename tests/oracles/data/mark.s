/ The handbook's call with `mark`: the caller puts its arguments and the word `mark 2` on the stack, and the function returns by
/ `rts r5` to that word, which takes the arguments off. So 006402 is a number of the text, and an instruction on the stack.
.globl _call, _sum
_call:
	mov	r5,-(sp)
	mov	$1,-(sp)
	mov	$2,-(sp)
	mov	$006402,-(sp)
	mov	sp,r5
	jsr	pc,_sum
	rts	pc
