/ Two entries that share an end: `tst (pc)+` takes the word after it as its operand, so _no skips the `inc r0` with which _yes begins.
/ That word is an operand for one, and an instruction for the other; both are called here.
.globl _main, csv, cret
_main:
	jsr	r5,csv
	jsr	pc,_no
	jsr	pc,_yes
	jmp	cret
_no:
	clr	r0
	005727		/ tst (pc)+
_yes:
	inc	r0
	rts	pc
