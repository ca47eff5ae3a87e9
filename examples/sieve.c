/* prints the primes under 0100 in octal on the console, without any library; for GCC's target pdp11-aout */
enum { END = 0100 };

extern void put_byte(int byte);

static char is_composite[END];

static void mark_multiples(int number)
{
	int multiple;

	for (multiple = number + number; multiple < END; multiple += number)
		is_composite[multiple] = 1;
}

static void print_octal(int number)
{
	if (number > 7)
		print_octal(number >> 3);
	put_byte('0' + (number & 7));
}

int main(void)
{
	int number;

	for (number = 2; number < END; number++)
		if (!is_composite[number]) {
			mark_multiples(number);
			if (number > 2)
				put_byte(' ');
			print_octal(number);
		}
	put_byte('\r');
	put_byte('\n');
	return 0;
}
