/ System calls of the Seventh Edition with their arguments after them: write has two, indir the address of a call in data. exit does
/ not come back, so that a text follows it. `sys indir` takes a call whose argument is filled in while the program runs.
.globl _bye, csv
_bye:
	jsr	r5,csv
	mov	$1,r0
	104404		/ sys write
	message
	4
	mov	4(r5),9f+2
	mov	$1,r0
	104400		/ sys indir
	9f
	clr	r0
	104401		/ sys exit
message:
	<bye\n>
.data
9:	104404
	0
	2
