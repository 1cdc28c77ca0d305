/* What recovery and the fit need, in plain C: the cells multiplied up, the columns counted by running sums. 8 where it is above the limit. */

#include "limit.h"

enum { LIMIT = 65536 };

/* base^variables, or 0 above the limit */
static uint64_t power(uint64_t base, size_t variables)
{
    uint64_t product = 1;
    for (size_t j = 0; j < variables; j++) {
        product *= base;
        if (product > LIMIT)
            return 0;
    }
    return product;
}

uint32_t limit_recovery_room(size_t variables, uint32_t degree, uint64_t counts[2])
{
    uint64_t cells = power(degree + 1, variables);
    counts[0] = cells;
    counts[1] = variables * cells * degree / 2;
    return cells ? 0 : 8;
}

uint32_t limit_fit_room(size_t variables, uint32_t max, uint32_t grid, uint64_t counts[3])
{
    uint64_t lists[256]; /* those of the variables so far with a sum of at most s */
    uint64_t rows = power(grid + 1, variables);
    uint32_t highest = max < grid ? max : grid;
    counts[0] = counts[1] = counts[2] = 0;
    if (!rows)
        return 8;
    for (uint32_t s = 0; s <= max; s++)
        lists[s] = 1;
    for (size_t j = 0; j < variables; j++) {
        for (uint32_t s = 1; s <= max; s++)
            lists[s] += lists[s - 1];
        for (uint32_t s = max; s > highest; s--)
            lists[s] -= lists[s - highest - 1];
    }
    if (rows * lists[max] > LIMIT)
        return 8;
    counts[0] = rows;
    counts[1] = lists[max];
    counts[2] = rows * lists[max];
    return 0;
}
