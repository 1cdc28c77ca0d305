/*
 * Polynomials of level formulas modulo 2^width: recovery, weighted fit and value.
 * For C99 and C++. Link with libcobra.a (tools/library writes it to target/staticlib).
 *
 * WORDS
 *
 * Width. All values and coefficients count modulo 2^width. Values, weights, targets,
 * coordinates and coefficients may be any 64-bit number; the bits above the width do not count.
 *
 * Support. A list of distinct variable numbers, each below `total`: the variables that the
 * polynomial has. k is their count, 1 to 20.
 *
 * Box. A box of degree d over k support variables has (d+1)^k cells. A cell is a grid point, or
 * an exponent list, (e_1, .., e_k) with each e_i from 0 to d. Its number is the sum of
 * e_i * (d+1)^(i-1): the first support variable counts fastest.
 *
 * Coefficients are those of falling factorials: the cell (e_1, .., e_k) stands for
 * x_1 (x_1 - 1) .. (x_1 - e_1 + 1) * .. * x_k (x_k - 1) .. (x_k - e_k + 1).
 *
 * q of a cell is the number of times that 2 divides e_1! * .. * e_k!. A coefficient that a call
 * gives out is below 2^(width - q), and 0 where q is the width or more.
 *
 * HOW A TABLE CROSSES
 *
 * A table, the support too, crosses as two arguments: a pointer to its bytes, then the number of
 * bytes. It has eight bytes to an entry, the least significant first, on every machine. The bytes
 * may stand at any address. A table without entries has length 0, and its pointer may be NULL.
 * A little-endian program, as every x86-64 one is, may hand over its uint64_t array as it is.
 * A table that a call writes must not overlap another table of the call, nor *value or
 * *degree_used.
 *
 * The support's count crosses as a number besides; it may be any number, and one that does not
 * agree with the bytes is COBRA_WRONG_LENGTH.
 *
 * WHAT A CALL ANSWERS
 *
 * The number COBRA_OK, or the number of the first cause to turn it down, in this order:
 *
 *   COBRA_WRONG_LENGTH         the support's bytes are not eight times its count
 *   COBRA_EMPTY_SUPPORT        the support is empty
 *   COBRA_TOO_MANY_VARIABLES   total is above 20
 *   COBRA_WIDTH_OUT_OF_RANGE   width is not 2 to 64
 *   COBRA_DEGREE_ZERO          degree is 0 (recovery only)
 *   COBRA_SUPPORT_INDEX        a variable number of the support is total or more
 *   COBRA_REPEATED_INDEX       a variable number stands twice
 *   COBRA_TOO_LARGE            a table would have more than 4,096 entries
 *   COBRA_WRONG_LENGTH         another table's bytes are not eight times its entries
 *   COBRA_NOT_DIVISIBLE        recovery: no polynomial with whole-number coefficients, of
 *                              whatever degree, has these values
 *   COBRA_NO_ANSWER            fit: the elimination found no answer; there may be one
 *
 * Every number and every byte is allowed: whatever they are, the call returns with its answer.
 * Pointers are the caller's part: value and degree_used must not be NULL, nor a table's pointer
 * with a length above 0; such a call crashes, where it would be turned down too.
 * A degree is 0 to 255. C converts a larger number to uint8_t by cutting it to its low eight
 * bits, before the call sees it: the caller has to look at it first.
 * Tables that a call reads are never altered. Memory outside the tables is never touched.
 *
 * STACK AND THREADS
 *
 * The calls use the stack and nothing else: no heap, no global state, no file. At most
 * COBRA_RECOVER_STACK, COBRA_VALUE_STACK and COBRA_FIT_STACK bytes of the caller's stack; to 64
 * cells COBRA_RECOVER_STACK_SMALL and COBRA_VALUE_STACK_SMALL are enough, and to 128 entries of
 * the fit's matrix COBRA_FIT_STACK_SMALL.
 * Any number of threads may call at once; each must have tables of its own to write to.
 *
 * LINKING
 *
 * A shared object that links the archive gives out all of its names; link it with
 * -Wl,--exclude-libs,ALL to keep them inside.
 */
#ifndef COBRA_H
#define COBRA_H

#include <stddef.h>
#include <stdint.h>

#ifdef __cplusplus
extern "C" {
#endif

/* the numbers that a call answers */
#define COBRA_OK 0u
#define COBRA_EMPTY_SUPPORT 1u
#define COBRA_TOO_MANY_VARIABLES 2u
#define COBRA_WIDTH_OUT_OF_RANGE 3u
#define COBRA_DEGREE_ZERO 4u
#define COBRA_SUPPORT_INDEX 5u
#define COBRA_NOT_DIVISIBLE 6u
#define COBRA_REPEATED_INDEX 7u
#define COBRA_TOO_LARGE 8u
#define COBRA_WRONG_LENGTH 9u
#define COBRA_NO_ANSWER 10u

/* limits */
#define COBRA_MAX_ENTRIES 4096u  /* entries of a table, and of the fit's matrix */
#define COBRA_MAX_VARIABLES 20u  /* the highest total */
#define COBRA_ENTRY_BYTES 8u     /* bytes to an entry */

/* bytes of stack that are enough for a call */
#define COBRA_RECOVER_STACK 98304u
#define COBRA_VALUE_STACK 65536u
#define COBRA_FIT_STACK 327680u
#define COBRA_RECOVER_STACK_SMALL 12288u
#define COBRA_VALUE_STACK_SMALL 8192u
#define COBRA_FIT_STACK_SMALL 12288u

/*
 * Recovers a polynomial from its values on a grid.
 *
 * values   a value for each point of the grid {0, .., degree}^k: (degree+1)^k entries
 * support  count entries
 * total    how many variables there are in all, at most 20
 * width    2 to 64
 * degree   the highest exponent of each variable, 1 or more
 * out      a coefficient for each cell: (degree+1)^k entries
 *
 * COBRA_OK: out has the coefficients of the only polynomial function within the box that agrees
 * with the values at every grid point, each below 2^(width - q). At every point, on the grid or
 * off, it has the value of every polynomial with no exponent above degree that agrees. A formula
 * of a higher degree can have the same values and differ elsewhere, unless degree is at least 9
 * at width 8, 17 at 16, 33 at 32, 65 at 64: then it has the value of every polynomial, of
 * whatever degree, that has these values.
 * COBRA_NOT_DIVISIBLE: no polynomial with whole-number coefficients, of whatever degree, has
 * these values; every byte of out is 0. A reading is wrong, a variable is missing from the
 * support, the width is higher than the one at which the formula wraps, or the formula is no
 * polynomial. A larger grid with these values is refused too.
 * Any other number: out is as it was.
 */
uint32_t cobra_recover(const uint8_t *values, size_t values_bytes,
                       const uint8_t *support, size_t support_bytes, uint64_t count,
                       uint32_t total, uint32_t width, uint8_t degree,
                       uint8_t *out, size_t out_bytes);

/*
 * The value of a polynomial at a point, modulo 2^width.
 *
 * coeffs   a coefficient for each cell: (degree+1)^k entries
 * support  count entries
 * total    how many variables there are in all, at most 20
 * width    2 to 64
 * degree   the highest exponent of each variable, 0 or more
 * point    a coordinate for each support variable, in the support's order: count entries
 *          (it counts modulo 2^width: -1 is 2^64 - 1)
 * value    gets the value, below 2^width, with COBRA_OK, and 0 with every other number
 *
 * COBRA_DEGREE_ZERO, COBRA_NOT_DIVISIBLE and COBRA_NO_ANSWER are never said.
 */
uint32_t cobra_value(const uint8_t *coeffs, size_t coeffs_bytes,
                     const uint8_t *support, size_t support_bytes, uint64_t count,
                     uint32_t total, uint32_t width, uint8_t degree,
                     const uint8_t *point, size_t point_bytes,
                     uint64_t *value);

/*
 * Fits a polynomial to weighted targets on a grid: at every grid point its value times the
 * weight is the target, modulo 2^width.
 *
 * weights      a weight for each point of the grid {0, .., grid_degree}^k: rows entries, rows
 *              being (grid_degree+1)^k
 * targets      a target for each grid point: rows entries
 * support      count entries
 * total        how many variables there are in all, at most 20
 * width        2 to 64
 * max_degree   the highest sum of exponents
 * grid_degree  the highest coordinate of the grid
 * out          a coefficient for each cell of the box of degree d, the smaller of max_degree and
 *              grid_degree: (d+1)^k entries
 * degree_used  gets the largest sum of exponents among the coefficients that are not 0, or 0
 *              where all are 0; with every number but COBRA_OK it gets 0
 *
 * No exponent is above d. The unknowns are the exponent lists with no exponent above d and a sum
 * of at most max_degree; rows times their number must be at most 4,096 (else COBRA_TOO_LARGE).
 *
 * COBRA_OK: out has the coefficients, each below 2^(width - q).
 * COBRA_NO_ANSWER: every byte of out is 0. It does not say that there is no such polynomial.
 * Any other number: out is as it was. COBRA_DEGREE_ZERO and COBRA_NOT_DIVISIBLE are never said.
 */
uint32_t cobra_fit(const uint8_t *weights, size_t weights_bytes,
                   const uint8_t *targets, size_t targets_bytes,
                   const uint8_t *support, size_t support_bytes, uint64_t count,
                   uint32_t total, uint32_t width, uint8_t max_degree, uint8_t grid_degree,
                   uint8_t *out, size_t out_bytes,
                   uint64_t *degree_used);

#ifdef __cplusplus
}
#endif

#endif
