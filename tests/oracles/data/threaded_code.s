/ Threaded code, of the Fortran and of the Basic of the Sixth Edition: a program is a list of addresses of routines, each of which
/ ends with `jmp *(r4)+`. Numbers are among them, where a routine takes one.
.globl _main, csv, cret
_main:
	jsr	r5,csv
	mov	$program,r4
	jmp	*(r4)+
program:
	value
	12
	value
	177776
	plus
	done
value:
	mov	(r4)+,-(sp)
	jmp	*(r4)+
plus:
	add	(sp)+,(sp)
	jmp	*(r4)+
done:
	mov	(sp)+,r0
	jmp	cret
