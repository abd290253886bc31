// For bench/python: many calls of production from C, and the nanoseconds of processor time of one.
#include "tawqeshim.h"

#include <time.h>

static double now(void)
{
    struct timespec t;
    clock_gettime(CLOCK_PROCESS_CPUTIME_ID, &t);
    return (double)t.tv_sec * 1e9 + (double)t.tv_nsec;
}

double loop_production(size_t times, size_t n, const uint64_t *d, const uint64_t *f, uint32_t budget, uint64_t *out, uint64_t *work)
{
    uint8_t number;
    size_t place;
    uint32_t rounds;
    double began = now();
    for (size_t k = 0; k < times; k++)
        tawqeshim_production(n, d, n * n, f, n, budget, out, n, work, n, &number, &place, &rounds);
    return (now() - began) / (double)times;
}
