/* What bench.c, two.c and text.c share: the clock, and a row of numbers for memory that could be any. */
#ifndef SHARED_H
#define SHARED_H

#include <stdint.h>
#include <time.h>

static double now(clockid_t clock)
{
    struct timespec t;
    clock_gettime(clock, &t);
    return (double)t.tv_sec * 1e9 + (double)t.tv_nsec;
}

static uint64_t seed;

/* the next of a row of numbers, below a bound */
static unsigned any(unsigned below)
{
    seed = seed * 6364136223846793005u + 1442695040888963407u;
    return (unsigned)(seed >> 33) % below;
}

static void scatter(uint8_t *bytes, unsigned length)
{
    for (unsigned i = 0; i < length; i++)
        bytes[i] = (uint8_t)any(256);
}

#endif
