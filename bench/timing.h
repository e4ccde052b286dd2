/* What every benchmark program takes: the clock, the median of its rounds, and random numbers that are the same in every run. */
#ifndef TIMING_H
#define TIMING_H

#include <stddef.h>
#include <stdint.h>

/* Nanoseconds. */
double now(void);

/* The median of an odd number of times, which it sorts. */
double median(double *times, size_t count);

uint64_t random_number(void);

#endif
