	.text
.even
_add:
~~add:
jsr	r5,csv
L257:
L261:
cmp	4(r5),_limit
jgt	L263
add	4(r5),_total
L263:
L259:
jmp	cret
.even
	.globl _main
_main:
~~main:
jsr	r5,csv
sub	$6,sp
L267:
L271:
mov	$1,-12(r5)
L277:
cmp	-12(r5),$6
jgt	L275
mov	-12(r5),(sp)
jsr	pc,*$_add
L273:
mov	-12(r5),-14(r5)
inc	-12(r5)
jbr	L277
L275:
mov	$L279,(sp)
jsr	pc,*$_say
mov	_total,(sp)
jsr	pc,*$_number
mov	$L281,(sp)
jsr	pc,*$_say
clr	-16(r5)
jbr	L269
L269:
mov	-16(r5),r0
jmp	cret
.comm _total,02
	.data
L281:
.byte 12,0
L279:
.byte 164,150,145,40,164,157,164,141,154,40,151,163,40,0
