/* The solver in plain C: elimination with the pivot of the fewest twos, whole rows subtracted from the pivot's column on, then
   back-substitution. The entries are below 2^width already. */

#include "limit.h"

/* Of any size; with a constant number of rows and columns the compiler unrolls it. */
static inline __attribute__((always_inline)) int solve(uint64_t *matrix, uint64_t *right, size_t rows, size_t cols, uint32_t width, uint8_t *used, size_t *pivots, uint64_t *answer)
{
    uint64_t mask = low_bits(width);
    memset(used, 0, rows);
    for (size_t c = 0; c < cols; c++) {
        size_t best = rows;
        unsigned twos = width;
        for (size_t i = 0; i < rows; i++) {
            uint64_t x = matrix[i * cols + c];
            if (!used[i] && x != 0 && (unsigned)__builtin_ctzll(x) < twos) {
                twos = (unsigned)__builtin_ctzll(x);
                best = i;
            }
        }
        pivots[c] = best;
        if (best == rows)
            continue;
        used[best] = 1;
        const uint64_t *pivot = matrix + best * cols;
        uint64_t inv = inverse_odd(pivot[c] >> twos);
        for (size_t i = 0; i < rows; i++) {
            uint64_t *row = matrix + i * cols;
            if (used[i] || row[c] == 0)
                continue;
            uint64_t q = (row[c] >> twos) * inv & mask >> twos;
            for (size_t j = c; j < cols; j++)
                row[j] = (row[j] - q * pivot[j]) & mask;
            right[i] = (right[i] - q * right[best]) & mask;
        }
    }
    for (size_t c = 0; c < cols; c++)
        if (pivots[c] == rows)
            return 0;
    for (size_t i = 0; i < rows; i++)
        if (!used[i] && right[i] != 0)
            return 0;
    for (size_t c = cols; c-- > 0;) {
        const uint64_t *row = matrix + pivots[c] * cols;
        uint64_t rest = right[pivots[c]];
        for (size_t j = c + 1; j < cols; j++)
            rest -= row[j] * answer[j];
        rest &= mask;
        unsigned twos = (unsigned)__builtin_ctzll(row[c]);
        if (rest & (((uint64_t)1 << twos) - 1))
            return 0;
        answer[c] = (rest >> twos) * inverse_odd(row[c] >> twos) & mask >> twos;
    }
    return 1;
}

int limit_solve(uint64_t *matrix, uint64_t *right, size_t rows, size_t cols, uint32_t width, uint64_t *answer)
{
    static uint8_t used[65536];
    static size_t pivots[65536];
    return solve(matrix, right, rows, cols, width, used, pivots, answer);
}

int limit_solve4(const uint64_t *matrix, const uint64_t *right, uint32_t width, uint64_t *answer)
{
    uint8_t used[4];
    size_t pivots[4];
    uint64_t entries[16], sides[4];
    memcpy(entries, matrix, sizeof entries);
    memcpy(sides, right, sizeof sides);
    return solve(entries, sides, 4, 4, width, used, pivots, answer);
}
