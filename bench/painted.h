// A stack of its own for a call, filled with a pattern before, to see how deep the call writes.
#ifndef PAINTED_H
#define PAINTED_H

#include <stddef.h>
#include <stdint.h>
#include <string.h>
#include <ucontext.h>

static _Alignas(16) uint8_t area[256 * 1024];
static ucontext_t back, there;

// Where the stack ends at the call of a function that stands in for the one that is measured, and whose first statement this is: its frame's address is
// below the return address and one register.
static uint8_t *top;
#define MARK_TOP() (top = (uint8_t *)__builtin_frame_address(0) + 16)

// Runs a call on the area, filled with the pattern; the lowest octet that is another then.
static uint8_t *lowest(void (*run)(void), uint8_t pattern)
{
	uint8_t *at = area;

	memset(area, pattern, sizeof area);
	getcontext(&there);
	there.uc_stack.ss_sp = area;
	there.uc_stack.ss_size = sizeof area;
	there.uc_link = &back;
	makecontext(&there, run, 0);
	swapcontext(&back, &there);
	while (at < area + sizeof area && *at == pattern)
		at++;
	return at;
}

#endif
