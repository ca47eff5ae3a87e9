# prints the squares of 1 to 5 on the console, and how many there are; in the syntax of GNU's assembler
	.globl	_start, _square, _print, _number
	.comm	_count, 2
	.text
_start:
	mov	$stack, sp
	mov	$first, r3
	clr	_count
again:
	mov	(r3)+, r0
	beq	done
	jsr	pc, _square
	jsr	pc, _number
	mov	$blank, r1
	jsr	pc, _print
	inc	_count
	br	again
done:
	mov	_count, r0
	jsr	pc, _number
	mov	last, r1
	jsr	pc, _print
	jmp	stop

_square:			# of the number in r0, in r0
	mov	r0, r1
	mul	r0, r1
	mov	r1, r0
	rts	pc

stop:	halt

	.data
first:	.word	1, 2, 3, 4, 5, 0
last:	.word	many
blank:	.asciz	" "
many:	.asciz	" squares\r\n"
	.even

	.bss
	.space	0400		# a bare machine wants its stack above 0400
stack:
