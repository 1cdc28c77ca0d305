/* Falling products: some of them with the factors taken, every width around the ends, tables of any
 * length, and NULL without entries. */
#include "driver.h"

#include <string.h>

/* the call leaves product and factors where 7 stood, and nothing beside them */
static void product(uint64_t x, uint64_t n, uint32_t width, uint32_t number, uint64_t value,
                    uint64_t factors)
{
    const uint64_t expected[5] = {7, value, 7, factors, 7};
    uint64_t got[5] = {7, 7, 7, 7, 7};
    uint32_t said = cobra_falling_product(x, n, width, &got[1], &got[3]);
    check("the number of a falling product", NULL, &number, &said, sizeof said);
    check("a falling product and its factors", NULL, expected, got, sizeof got);
}

#define MOST 100

/* the same for a table of `len` entries, of which the first `some` are told and the others zero, or
 * all as they were beside a refusal */
static void products(uint64_t x, uint32_t width, size_t len, uint32_t number, uint64_t factors,
                     const uint64_t *told, size_t some)
{
    const uint64_t counted[3] = {7, factors, 7};
    uint64_t got[3] = {7, 7, 7}, table[MOST + 2], expected[MOST + 2];
    uint32_t said;
    size_t i;
    for (i = 0; i < MOST + 2; i++)
        table[i] = expected[i] = 1000 + i;
    if (number == COBRA_OK && len) {
        memset(expected + 1, 0, len * sizeof *table);
        memcpy(expected + 1, told, some * sizeof *table);
    }
    said = cobra_falling_products(x, width, len ? table + 1 : NULL, len, &got[1]);
    check("the number of falling products", NULL, &number, &said, sizeof said);
    check("the factors of falling products", NULL, counted, got, sizeof got);
    check("the table of falling products", NULL, expected, table, sizeof table);
}

void part_falling(void)
{
    static const struct { uint64_t x, n; uint32_t width; uint64_t value, factors; } taken[] = {
        {5, 3, 8, 60, 3}, {3, 7, 8, 0, 4}, {0, 0, 2, 1, 0}, {0, 1, 2, 0, 1}, {5, 0, 64, 1, 0},
        {10, 4, 8, 176, 4}, {10, UINT64_MAX, 8, 0, 9}, {16, 100, 4, 0, 1}, {7, 7, 8, 176, 7},
        {20, 20, 64, UINT64_C(2432902008176640000), 20}, {20, 21, 64, 0, 21},
        {UINT64_MAX, 2, 64, 2, 2}, {UINT64_MAX, 65, 64, UINT64_C(1) << 63, 65},
        {UINT64_MAX, 66, 64, 0, 66}, {UINT64_MAX, UINT64_MAX, 64, 0, 66},
        {UINT64_MAX, UINT64_MAX, 2, 0, 4}, {UINT64_C(1) << 63, 1, 63, 0, 1},
        {UINT64_C(1) << 63, 1, 64, UINT64_C(1) << 63, 1},
    };
    static const uint32_t refused[] = {0, 1, 65, 66, 255, 258, UINT32_MAX};
    static const uint64_t five[] = {1, 5, 20, 60, 120, 120}, three[] = {1, 3, 6, 6};
    size_t i;
    for (i = 0; i < sizeof taken / sizeof *taken; i++)
        product(taken[i].x, taken[i].n, taken[i].width, COBRA_OK, taken[i].value, taken[i].factors);
    for (i = 0; i < sizeof refused / sizeof *refused; i++) {
        product(5, 3, refused[i], COBRA_OUT_OF_RANGE, 0, 0);
        product(0, UINT64_MAX, refused[i], COBRA_OUT_OF_RANGE, 0, 0);
        products(5, refused[i], 4, COBRA_OUT_OF_RANGE, 0, five, 4);
        products(5, refused[i], 0, COBRA_OUT_OF_RANGE, 0, five, 0);
    }
    for (i = 0; i <= MOST; i++) {
        products(5, 8, i, COBRA_OK, i < 7 ? (i ? i - 1 : 0) : 6, five, i < 6 ? i : 6);
        products(3, 64, i, COBRA_OK, i < 5 ? (i ? i - 1 : 0) : 4, three, i < 4 ? i : 4);
    }
}
