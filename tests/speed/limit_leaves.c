/* Both Stirling tables, falling products and the leaves in plain C. */

#include "limit.h"

void limit_stirling2(uint8_t degree, uint32_t width, uint64_t *table)
{
    size_t side = (size_t)degree + 1;
    memset(table, 0, side * side * sizeof *table);
    table[0] = 1;
    for (size_t i = 1; i < side; i++) {
        const uint64_t *above = table + (i - 1) * side;
        for (size_t j = 1; j <= i; j++)
            table[i * side + j] = (above[j - 1] + j * above[j]) & low_bits(width);
    }
}

void limit_stirling1(uint8_t degree, uint32_t width, uint64_t *table)
{
    size_t side = (size_t)degree + 1;
    memset(table, 0, side * side * sizeof *table);
    table[0] = 1;
    for (size_t i = 1; i < side; i++) {
        const uint64_t *above = table + (i - 1) * side;
        for (size_t j = 1; j <= i; j++)
            table[i * side + j] = (above[j - 1] - (i - 1) * above[j]) & low_bits(width);
    }
}

uint64_t limit_falling_product(uint64_t x, uint64_t n, uint32_t width, uint64_t *factors)
{
    uint64_t mask = low_bits(width), product = 1, taken = 0;
    while (taken < n) {
        product *= x - taken++;
        if ((product & mask) == 0)
            break;
    }
    *factors = taken;
    return product & mask;
}

uint64_t limit_falling_products(uint64_t x, uint32_t width, uint64_t *table, size_t len)
{
    uint64_t mask = low_bits(width), product = 1;
    size_t taken = 0;
    if (len == 0)
        return 0;
    table[0] = 1;
    while (taken + 1 < len) {
        product *= x - taken++;
        table[taken] = product & mask;
        if (table[taken] == 0) {
            memset(table + taken, 0, (len - taken) * sizeof *table);
            break;
        }
    }
    return taken;
}

uint64_t limit_bitmask(uint32_t width)
{
    return low_bits(width < 64 ? width : 64);
}

uint64_t limit_wrapping_mul(uint64_t a, uint64_t b)
{
    return a * b;
}

uint64_t limit_mod_add(uint64_t a, uint64_t b, uint32_t width)
{
    return (a + b) & low_bits(width);
}

uint64_t limit_mod_sub(uint64_t a, uint64_t b, uint32_t width)
{
    return (a - b) & low_bits(width);
}

uint64_t limit_mod_neg(uint64_t a, uint32_t width)
{
    return -a & low_bits(width);
}

uint32_t limit_precision_bits(uint32_t weight, uint32_t width)
{
    return weight < width ? width - weight : 0;
}

uint64_t limit_mod_mul(uint64_t a, uint64_t b, uint32_t width)
{
    return a * b & low_bits(width);
}

uint64_t limit_mod_inverse_odd(uint64_t x, uint32_t bits)
{
    return inverse_odd(x) & low_bits(bits);
}

uint32_t limit_twos_in_factorial(uint32_t k)
{
    return k - (uint32_t)__builtin_popcount(k);
}

uint32_t limit_degree_cap(uint32_t width)
{
    uint32_t d = 0;
    while (limit_twos_in_factorial(d) < width)
        d++;
    return d;
}

uint64_t limit_odd_part_factorial(uint32_t k, uint32_t width)
{
    uint64_t product = 1;
    for (uint32_t i = 2; i <= k; i++)
        product *= i >> __builtin_ctz(i);
    return product & low_bits(width);
}
