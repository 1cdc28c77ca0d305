/* The fit in plain C: columns by total degree, the matrix of the weight times falling factorials, the solver, the coefficients
   cut to their bits. Matrix, right side and output are lent; at most 256 columns and 20 variables. */

#include "limit.h"

static uint8_t columns[256][20];
static size_t column_count;

static void list_columns(uint8_t *exponents, size_t variable, size_t variables, unsigned highest, unsigned left)
{
    if (variable == variables) {
        if (left == 0)
            memcpy(columns[column_count++], exponents, variables);
        return;
    }
    for (unsigned e = 0; e <= highest && e <= left; e++) {
        exponents[variable] = (uint8_t)e;
        list_columns(exponents, variable + 1, variables, highest, left - e);
    }
}

static void fill(const uint64_t *weights, const uint64_t *targets, size_t variables, unsigned highest, unsigned grid, size_t rows, uint64_t mask, uint64_t *matrix, uint64_t *right)
{
    uint64_t powers[20][256];
    for (size_t row = 0; row < rows; row++) {
        size_t rest = row;
        for (size_t j = 0; j < variables; j++) {
            uint64_t x = rest % (grid + 1), value = 1;
            rest /= grid + 1;
            for (unsigned e = 0; e <= highest; e++) {
                powers[j][e] = value;
                value *= x - e;
            }
        }
        for (size_t c = 0; c < column_count; c++) {
            uint64_t value = weights[row];
            for (size_t j = 0; j < variables; j++)
                value *= powers[j][columns[c][j]];
            matrix[row * column_count + c] = value & mask;
        }
        right[row] = targets[row] & mask;
    }
}

uint32_t limit_fit(const uint64_t *weights, const uint64_t *targets, size_t variables, uint32_t width, unsigned max, unsigned grid, uint64_t *matrix, uint64_t *right, uint64_t *out, uint64_t *degree_used)
{
    uint8_t exponents[20];
    uint64_t answer[256], mask = low_bits(width);
    unsigned highest = max < grid ? max : grid;
    size_t rows = 1, cells = 1;
    column_count = 0;
    for (unsigned degree = 0; degree <= max; degree++)
        list_columns(exponents, 0, variables, highest, degree);
    for (size_t j = 0; j < variables; j++) {
        rows *= grid + 1;
        cells *= highest + 1;
    }
    fill(weights, targets, variables, highest, grid, rows, mask, matrix, right);
    int solved = limit_solve(matrix, right, rows, column_count, width, answer);
    memset(matrix, 0, rows * column_count * sizeof *matrix);
    memset(right, 0, rows * sizeof *right);
    memset(out, 0, cells * sizeof *out);
    *degree_used = 0;
    if (!solved)
        return 10;
    for (size_t c = 0; c < column_count; c++) {
        unsigned twos = 0, total = 0;
        size_t cell = 0;
        for (size_t j = variables; j-- > 0;) {
            unsigned e = columns[c][j];
            twos += e - (unsigned)__builtin_popcount(e);
            total += e;
            cell = cell * (highest + 1) + e;
        }
        if (twos >= width)
            continue;
        out[cell] = answer[c] & mask >> twos;
        if (out[cell] != 0 && total > *degree_used)
            *degree_used = total;
    }
    return 0;
}
