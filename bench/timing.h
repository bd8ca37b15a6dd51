// The clock, which is the wall's unless CLOCK names another, and the median of ROUNDS times.
#ifndef TIMING_H
#define TIMING_H

#include <stdlib.h>
#include <time.h>

#ifndef CLOCK
#define CLOCK CLOCK_MONOTONIC
#endif

enum { ROUNDS = 21 };

static double now(void)
{
	struct timespec t;

	clock_gettime(CLOCK, &t);
	return (double)t.tv_sec * 1e9 + (double)t.tv_nsec;
}

static int compare(const void *a, const void *b)
{
	double x = *(const double *)a, y = *(const double *)b;

	return (x > y) - (x < y);
}

static double median_of(double took[ROUNDS])
{
	qsort(took, ROUNDS, sizeof(double), compare);
	return took[ROUNDS / 2];
}

#endif
