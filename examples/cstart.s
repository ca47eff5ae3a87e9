# starts a C program on a bare machine, and prints bytes on its console; in the syntax of GNU's assembler
	.globl	_start, _main, ___main, _put_byte
	.text
_start:
	mov	$stack, sp
	jsr	pc, _main
	halt

_put_byte:			# the word on the stack; waits until it is out
	movb	2(sp), @$0177566
1:	tstb	@$0177564
	bpl	1b
___main:			# GCC calls it at the beginning of main; there is nothing to do
	rts	pc

	.bss
	.=.+0400
stack:
