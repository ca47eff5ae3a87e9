/* adds numbers up to a limit, and says their sum */
extern void say(char *text);
extern void number(int value);
extern int limit;

int total;

static void add(int value)
{
	if (value <= limit)
		total += value;
}

int main(void)
{
	int value;

	for (value = 1; value <= 6; value++)
		add(value);
	say("the total is ");
	number(total);
	say("\n");
	return 0;
}
