/* Functions with locals and constants of known sizes, for tests/sizes/check.py: whatever the compiler makes of them, they take at least that. */
#include <stdint.h>

static const uint8_t table[300] = { 1, 2, 3 };

__attribute__((noinline)) int local(int n)
{
	volatile uint8_t octets[1000];

	octets[n] = 1;
	return octets[n + 1];
}

__attribute__((noinline)) int third(int n)
{
	volatile uint8_t octets[1000];

	octets[n] = 1;
	return octets[n + 1] + table[n];
}

__attribute__((noinline)) int second(int n)
{
	volatile uint8_t octets[500];

	octets[n] = 1;
	return third(n) + octets[n + 1];
}

int first(int n)
{
	volatile uint8_t octets[100];

	octets[n] = 1;
	return second(n) + octets[n + 1];
}
