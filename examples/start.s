/ begins on a bare machine: prints _count, what _main makes of it, and halts
	.globl	_start, _main, _count, _print, _number
	.text
_start:
	mov	$stack, sp
	mov	_count, r0
	jsr	pc, _number
	mov	$is, r1
	jsr	pc, _print
	jsr	pc, _main
	jsr	pc, _number
	mov	last, r1
	jsr	pc, _print
	jmp	*exit
stop:	halt

	.data
is:	< doubled is \0>
nl:	<\r\n\0>
last:	nl
exit:	stop

	.bss
	.=.+400			/ a bare machine wants its stack above 400
stack:
