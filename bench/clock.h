/* CPU time of the process in nanoseconds, and the line that a measured program prints: what bench/walk.c and bench/limit.c share.
 * What the machine's other work takes is no part of CPU time. A file that includes it asks for POSIX first. */
#ifndef CLOCK_H
#define CLOCK_H

#include <inttypes.h>
#include <stdint.h>
#include <stdio.h>
#include <stdlib.h>
#include <time.h>

static uint64_t cpu_time(void)
{
    struct timespec now;
    if (clock_gettime(CLOCK_PROCESS_CPUTIME_ID, &now) != 0)
        abort();
    return (uint64_t)now.tv_sec * UINT64_C(1000000000) + (uint64_t)now.tv_nsec;
}

/* Frames and sum are those of all walks together: the sums of two programs are equal where they read the same values as often. */
static void print_measured(uint64_t nanoseconds, uint64_t frames, uint64_t sum)
{
    printf("cpu %" PRIu64 " frames %" PRIu64 " sum %" PRIu64 "\n", nanoseconds, frames, sum);
}

#endif
