/* Nanoseconds of processor time of this process: the machine may be shared.
 * Needs _GNU_SOURCE. */
#ifndef CLOCK_H
#define CLOCK_H
#include <time.h>

static double now(void)
{
    struct timespec t;
    clock_gettime(CLOCK_PROCESS_CPUTIME_ID, &t);
    return (double)t.tv_sec * 1e9 + (double)t.tv_nsec;
}

#endif
