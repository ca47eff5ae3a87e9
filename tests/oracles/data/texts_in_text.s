/ Texts with names between functions: constant, so in text, which several processes share. `_second` is after an odd number of bytes.
.globl _say, _print, csv, cret, _first, _second
_say:
	jsr	r5,csv
	mov	$_first,(sp)
	jsr	pc,_print
	mov	$_second,(sp)
	jsr	pc,_print
	jmp	cret
_first:
	<what\0>
_second:
	<yes?\0>
	.even
_after:
	jsr	r5,csv
	clr	r0
	jmp	cret
