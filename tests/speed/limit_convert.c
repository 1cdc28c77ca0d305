/* Both conversions, the normal form and the moved form in plain C: passes along each variable, in place, modulo 2^64, which are
   synthetic division; then the bits that count. */

#include "limit.h"

static void to_falling(uint64_t *part, size_t stride, size_t degree)
{
    for (size_t pass = 1; pass < degree; pass++)
        for (size_t i = stride * degree; i-- > stride * pass;)
            part[i] += pass * part[i + stride];
}

static void to_powers(uint64_t *part, size_t stride, size_t degree)
{
    for (size_t pass = degree; pass-- > 1;)
        for (size_t i = stride * pass; i < stride * degree; i++)
            part[i] -= pass * part[i + stride];
}

static void convert(void (*line)(uint64_t *, size_t, size_t), const uint64_t *coeffs, size_t cells, uint8_t degree, uint64_t *out)
{
    size_t base = (size_t)degree + 1;
    memcpy(out, coeffs, cells * sizeof *out);
    for (size_t stride = 1; stride < cells; stride *= base)
        for (size_t at = 0; at < cells; at += stride * base)
            line(out + at, stride, degree);
}

static void keep(uint64_t *table, size_t cells, uint64_t mask)
{
    for (size_t i = 0; i < cells; i++)
        table[i] &= mask;
}

uint32_t limit_to_factorial(const uint64_t *coeffs, size_t cells, uint32_t width, uint8_t degree, uint64_t *out)
{
    convert(to_falling, coeffs, cells, degree, out);
    keep(out, cells, low_bits(width));
    return 0;
}

uint32_t limit_to_monomial(const uint64_t *coeffs, size_t cells, uint32_t width, uint8_t degree, uint64_t *out)
{
    convert(to_powers, coeffs, cells, degree, out);
    keep(out, cells, low_bits(width));
    return 0;
}

static void reduce(uint64_t *part, size_t cells, size_t base, uint32_t bits)
{
    if (cells > base) {
        size_t sub = cells / base;
        for (size_t e = 0; e < base; e++)
            reduce(part + e * sub, sub, base, bits_left(bits, e));
        return;
    }
    for (size_t e = 0; e < base; e++)
        part[e] &= low_bits(bits_left(bits, e));
}

uint32_t limit_normalize(const uint64_t *coeffs, size_t cells, uint32_t width, uint8_t degree, uint64_t *out)
{
    convert(to_falling, coeffs, cells, degree, out);
    reduce(out, cells, (size_t)degree + 1, width);
    return 0;
}

static void move(uint64_t *part, size_t stride, size_t degree, uint64_t offset)
{
    for (size_t pass = degree; pass-- > 0;)
        for (size_t e = pass; e < degree; e++) {
            uint64_t factor = offset + e - 2 * pass;
            for (size_t i = stride * e; i < stride * (e + 1); i++)
                part[i] += factor * part[i + stride];
        }
}

uint32_t limit_move(const uint64_t *coeffs, size_t cells, uint32_t width, uint8_t degree, const uint64_t *offsets, uint64_t *out)
{
    size_t base = (size_t)degree + 1;
    memcpy(out, coeffs, cells * sizeof *out);
    for (size_t stride = 1; stride < cells; stride *= base, offsets++)
        for (size_t at = 0; at < cells; at += stride * base)
            move(out + at, stride, degree, *offsets);
    reduce(out, cells, base, width);
    return 0;
}
