// Counts what the longest calls of the C functions copy by memcpy and memset, the two that the archive leaves to its user. The linker puts the functions
// below in their place: -Wl,--wrap=memcpy -Wl,--wrap=memset. Copies that the compiler made of single instructions are not seen here.
#include "longest.h"

enum { SCHEDULE = 176 }; // octets of a key schedule

void *__real_memcpy(void *to, const void *from, size_t n);
void *__real_memset(void *to, int octet, size_t n);
void *__wrap_memcpy(void *to, const void *from, size_t n);
void *__wrap_memset(void *to, int octet, size_t n);

static size_t copies, copied, schedules, fills, filled;

void *__wrap_memcpy(void *to, const void *from, size_t n)
{
	copies++;
	copied += n;
	schedules += n == SCHEDULE;
	return __real_memcpy(to, from, n);
}

void *__wrap_memset(void *to, int octet, size_t n)
{
	fills++;
	filled += n;
	return __real_memset(to, octet, n);
}

int main(void)
{
	make_inputs();
	for (int i = 0; i < CALLS; i++) {
		copies = copied = schedules = fills = filled = 0;
		calls[i].run();
		expect(&calls[i]);
		printf("%s %zu %zu %zu %zu %zu %s\n", calls[i].function, copies, copied, schedules, fills, filled, calls[i].what);
	}
	return 0;
}
