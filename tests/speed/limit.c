/* The processor's clock, and the tables that the plain C versions make beforehand. */

#include "limit.h"
#include <time.h>

uint64_t limit_inverse[256];
uint32_t limit_twos[256];

uint64_t limit_clock(void)
{
    struct timespec t;
    clock_gettime(CLOCK_THREAD_CPUTIME_ID, &t);
    return (uint64_t)t.tv_sec * 1000000000 + (uint64_t)t.tv_nsec;
}

void limit_prepare(void)
{
    uint64_t odd = 1;
    limit_inverse[0] = 1;
    limit_twos[0] = 0;
    for (uint32_t e = 1; e < 256; e++) {
        uint32_t t = (uint32_t)__builtin_ctz(e);
        limit_twos[e] = limit_twos[e - 1] + t;
        odd *= e >> t;
        limit_inverse[e] = inverse_odd(odd);
    }
}
