/* The plain C versions that the library is measured against, and what they share. They check no settings and no lengths. */

#ifndef LIMIT_H
#define LIMIT_H

#include <stddef.h>
#include <stdint.h>
#include <string.h>

extern uint64_t limit_inverse[256]; /* of the odd part of e!, modulo 2^64 */
extern uint32_t limit_twos[256];    /* in e! */

/* The lowest bits: none at 0, all at 64. */
static inline uint64_t low_bits(uint32_t bits)
{
    return bits == 0 ? 0 : ~(uint64_t)0 >> (64 - bits);
}

/* The bits that are left of `bits` at the exponent e. */
static inline uint32_t bits_left(uint32_t bits, size_t e)
{
    return limit_twos[e] < bits ? bits - limit_twos[e] : 0;
}

/* The inverse of an odd number modulo 2^64. */
static inline uint64_t inverse_odd(uint64_t odd)
{
    uint64_t x = odd; /* right to three bits, then doubled */
    for (int i = 0; i < 5; i++)
        x *= 2 - odd * x;
    return x;
}

/* A form: its coefficients and its settings, but for total and width. */
struct limit_form {
    const uint64_t *coeffs;
    size_t cells;
    const uint64_t *support;
    size_t variables;
    uint8_t degree;
};

int limit_solve(uint64_t *matrix, uint64_t *right, size_t rows, size_t cols, uint32_t width, uint64_t *answer);

#endif
