/* where the program starts and halts, what the compiler's functions begin and end with, and the console */
asm(".globl	start, csv, cret");
asm("start:");
asm("	mov	$157776,sp");
asm("	jsr	pc,_main");
asm("	0");
asm("csv:");
asm("	mov	r5,r0");
asm("	mov	sp,r5");
asm("	mov	r4,-(sp)");
asm("	mov	r3,-(sp)");
asm("	mov	r2,-(sp)");
asm("	tst	-(sp)");
asm("	jsr	pc,(r0)");
asm("cret:");
asm("	mov	r5,r2");
asm("	mov	-(r2),r4");
asm("	mov	-(r2),r3");
asm("	mov	-(r2),r2");
asm("	mov	r5,sp");
asm("	mov	(sp)+,r5");
asm("	rts	pc");

struct device {
	int status;
	int byte;
};

void putch(int byte)
{
	struct device *printer = (struct device *)0177564;

	if (byte == '\n')
		putch('\r');
	while ((printer->status & 0200) == 0)
		;
	printer->byte = byte;
}
