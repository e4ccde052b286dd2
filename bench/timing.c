#define _POSIX_C_SOURCE 199309L
#include "timing.h"
#include <stdlib.h>
#include <time.h>

double now(void)
{
    struct timespec t;
    clock_gettime(CLOCK_MONOTONIC, &t);
    return (double)t.tv_sec * 1e9 + (double)t.tv_nsec;
}

static int by_size(const void *a, const void *b)
{
    double x = *(const double *)a, y = *(const double *)b;
    return (x > y) - (x < y);
}

double median(double *times, size_t count)
{
    qsort(times, count, sizeof times[0], by_size);
    return times[count / 2];
}

uint64_t random_number(void)
{
    static uint64_t s = 1;
    s += 0x9e3779b97f4a7c15;
    uint64_t z = (s ^ s >> 30) * 0xbf58476d1ce4e5b9;
    z = (z ^ z >> 27) * 0x94d049bb133111eb;
    return z ^ z >> 31;
}
