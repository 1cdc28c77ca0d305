/* Recovery and singletons in plain C: differences along each variable, highest cell first, modulo 2^64; then extraction by
   recursion over the last variable. */

#include "limit.h"

static void difference(uint64_t *part, size_t stride, size_t degree)
{
    for (size_t pass = 1; pass <= degree; pass++)
        for (size_t i = stride * (degree + 1); i-- > stride * pass;)
            part[i] -= part[i - stride];
}

static int extract(uint64_t *part, size_t cells, size_t base, uint32_t q, uint64_t v, uint32_t width, uint64_t mask)
{
    if (cells > base) {
        size_t sub = cells / base;
        for (size_t e = 0; e < base; e++)
            if (!extract(part + e * sub, sub, base, q + limit_twos[e], v * limit_inverse[e], width, mask))
                return 0;
        return 1;
    }
    for (size_t e = 0; e < base; e++) {
        uint64_t x = part[e] & mask;
        uint32_t t = q + limit_twos[e];
        if (t >= width) {
            if (x != 0)
                return 0;
            part[e] = 0;
        } else {
            if ((x & (((uint64_t)1 << t) - 1)) != 0)
                return 0;
            part[e] = (x >> t) * (v * limit_inverse[e]) & mask >> t;
        }
    }
    return 1;
}

uint32_t limit_recover(const uint64_t *values, size_t cells, uint32_t width, uint8_t degree, uint64_t *out)
{
    size_t base = (size_t)degree + 1;
    memcpy(out, values, cells * sizeof *out);
    for (size_t stride = 1; stride < cells; stride *= base)
        for (size_t at = 0; at < cells; at += stride * base)
            difference(out + at, stride, degree);
    if (extract(out, cells, base, 0, 1, width, low_bits(width)))
        return 0;
    memset(out, 0, cells * sizeof *out);
    return 6;
}

/* `cap` cells for each variable, which is degree_cap of the width. */
uint32_t limit_singletons(const uint64_t *values, size_t variables, size_t cap, uint32_t width, uint64_t *out)
{
    memcpy(out, values, variables * cap * sizeof *out);
    for (size_t at = 0; at < variables * cap; at += cap) {
        difference(out + at, 1, cap - 1);
        if (!extract(out + at, cap, cap, 0, 1, width, low_bits(width))) {
            memset(out, 0, variables * cap * sizeof *out);
            return 6;
        }
        out[at] = 0;
    }
    return 0;
}
