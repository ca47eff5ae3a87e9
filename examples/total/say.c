/* texts and numbers on the console */
extern void putch(int byte);

void say(char *text)
{
	while (*text)
		putch(*text++);
}

void number(int value)
{
	if (value > 9)
		number(value / 10);
	putch('0' + value % 10);
}
