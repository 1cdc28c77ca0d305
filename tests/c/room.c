/* The calls of room: counts, refused settings with every count 0, NULL, supports of any length. */
#include "driver.h"

#include <stdlib.h>

static const uint64_t some[20] = {19, 0, 18, 1, 17, 2, 16, 3, 15, 4, 14, 5, 13, 6, 12, 7, 11, 8, 10, 9};

/* the call leaves its counts where 7 stood, and nothing beside them */
static void recovery(const uint64_t *support, size_t k, uint32_t total, uint32_t width,
                     uint8_t degree, uint32_t number, uint64_t cells, uint64_t subtractions)
{
    const uint64_t expected[5] = {7, cells, 7, subtractions, 7};
    uint64_t got[5] = {7, 7, 7, 7, 7};
    uint32_t said = cobra_recovery_room(support, k, total, width, degree, &got[1], &got[3]);
    check("the number of recovery's room", NULL, &number, &said, sizeof said);
    check("the counts of recovery's room", NULL, expected, got, sizeof got);
}

static void fit(const uint64_t *support, size_t k, uint32_t total, uint32_t width, uint8_t most,
                uint8_t grid, uint32_t number, uint64_t rows, uint64_t columns)
{
    const uint64_t expected[7] = {7, rows, 7, columns, 7, rows * columns, 7};
    uint64_t got[7] = {7, 7, 7, 7, 7, 7, 7};
    uint32_t said = cobra_fit_room(support, k, total, width, most, grid, &got[1], &got[3], &got[5]);
    check("the number of the fit's room", NULL, &number, &said, sizeof said);
    check("the counts of the fit's room", NULL, expected, got, sizeof got);
}

static void counted(void)
{
    static const struct { size_t k; uint8_t degree; uint32_t number; uint64_t cells, made; } grids[] = {
        {1, 2, 0, 3, 3}, {2, 1, 0, 4, 4}, {2, 63, 0, 4096, 258048}, {1, 255, 0, 256, 32640},
        {2, 255, 0, 65536, 16711680}, {4, 15, 0, 65536, 1966080}, {16, 1, 0, 65536, 524288},
        {1, 0, 4, 0, 0}, {17, 1, 8, 0, 0}, {3, 40, 8, 0, 0}, {8, 255, 8, 0, 0}, {20, 255, 8, 0, 0},
    };
    static const struct { size_t k; uint8_t most, grid; uint32_t number; uint64_t rows, columns; } fits[] = {
        {1, 1, 1, 0, 2, 2}, {3, 2, 1, 0, 8, 7}, {2, 4, 15, 0, 256, 15}, {2, 9, 31, 0, 1024, 55},
        {1, 255, 255, 0, 256, 256}, {8, 8, 1, 0, 256, 256}, {16, 0, 1, 0, 65536, 1},
        {20, 255, 0, 0, 1, 1}, {16, 1, 1, 8, 0, 0}, {16, 16, 1, 8, 0, 0}, {8, 0, 255, 8, 0, 0},
        {20, 255, 255, 8, 0, 0},
    };
    size_t i;
    for (i = 0; i < sizeof grids / sizeof *grids; i++)
        recovery(some, grids[i].k, 20, 64, grids[i].degree, grids[i].number, grids[i].cells,
                 grids[i].made);
    for (i = 0; i < sizeof fits / sizeof *fits; i++)
        fit(some, fits[i].k, 20, 64, fits[i].most, fits[i].grid, fits[i].number, fits[i].rows,
            fits[i].columns);
}

/* 7 where all indices are below the total, 5 where one is not, then 3, 2 and 1 */
static void refused(size_t n)
{
    uint64_t *support = malloc(8 * n);
    size_t i;
    if (!support)
        exit(2);
    for (i = 0; i < n; i++)
        support[i] = i % 20;
    recovery(support, n, 20, 8, 255, n > 20 ? 7 : 8, 0, 0);
    fit(support, n, 20, 8, 255, 255, n > 20 ? 7 : 8, 0, 0);
    support[n - 1] = UINT64_MAX;
    recovery(support, n, 20, 8, 255, 5, 0, 0);
    fit(support, n, 20, 8, 0, 255, 5, 0, 0);
    recovery(support, n, 20, 8, 0, 4, 0, 0);
    fit(support, n, 20, 8, 0, 0, 5, 0, 0);
    recovery(support, n, 20, 65, 0, 3, 0, 0);
    fit(support, n, 20, 1, 0, 0, 3, 0, 0);
    recovery(support, n, 21, 65, 0, 2, 0, 0);
    fit(support, n, UINT32_MAX, 0, 0, 0, 2, 0, 0);
    recovery(NULL, 0, 21, 65, 0, 1, 0, 0);
    fit(NULL, 0, 21, 65, 0, 0, 1, 0, 0);
    free(support);
}

void part_room(void)
{
    counted();
    refused(20);
    refused(21);
    refused(1000);
    refused(1000000);
}
