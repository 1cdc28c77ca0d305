/*
 * Polynomials modulo 2^width: the library's calls on tables of uint64_t, with boxes of up to 65,536
 * cells. For C99 and C++. Link with libcobra.a (tools/library writes it to target/staticlib).
 *
 * The database's three calls, cobra_recover, cobra_value and cobra_fit, take tables as bytes, of up
 * to 4,096 entries, and stand in cobra.h; it is included for the numbers that a call answers. The
 * words width, support, box, cell and q are explained there.
 *
 * SETTINGS
 *
 * support  a list of distinct variable numbers, each below total: the variables of the polynomial.
 *          Its length is k, 1 to 20. Here it is a table as any other: its count is its length.
 * total    how many variables there are in all, at most 20
 * width    2 to 64. All counts modulo 2^width; the bits above the width of a value, weight, target,
 *          coordinate, offset or coefficient do not count. cobra_box_is_valid alone reads
 *          coefficients whole.
 * degree   the highest exponent of each variable, and the highest coordinate of the grid. The box
 *          has cells = (degree+1)^k cells, at most 65,536. cobra_recovery_room and cobra_fit_room
 *          tell beforehand how long the tables have to be.
 *
 * A degree is 0 to 255. C converts a larger number to uint8_t by cutting it to its low eight bits,
 * before the call sees it: the caller has to look at it first. That is so of every uint8_t here.
 *
 * Coefficients are those of falling factorials, except where a call says powers: there the cell
 * (e_1, .., e_k) stands for x_1^e_1 * .. * x_k^e_k.
 *
 * A normal form is a box of coefficients each of which is below 2^(width - q), and 0 where q is the
 * width or more. Every polynomial with no exponent above degree has one normal form, and two of
 * them have the same one exactly when they have the same value at every point.
 *
 * HOW A TABLE CROSSES
 *
 * A table crosses as two arguments: a pointer to its first entry, then the number of ENTRIES, not
 * bytes. Entries are uint64_t, aligned as in C; in keys and exponent lists they are uint8_t. A
 * table without entries has length 0, and its pointer may be NULL. A table that a call writes must
 * not overlap another table of the call, nor *value. Two tables that are only read may be the same.
 * What is said of *value holds of each number that the calls of room and of falling products write.
 *
 * A table that crosses as a pointer to const is never altered. Every length but that of a key's
 * exponent list, and of the table of falling products, which may have any, is held to the exact
 * one: a table that is too long is COBRA_WRONG_LENGTH as one that is too short.
 *
 * WHAT A CALL ANSWERS
 *
 * A call on boxes answers COBRA_OK, or the number of the first cause to turn it down, in this
 * order:
 *
 *   1   COBRA_EMPTY_SUPPORT        the support is empty
 *   2   COBRA_TOO_MANY_VARIABLES   total is above 20
 *   3   COBRA_WIDTH_OUT_OF_RANGE   width is not 2 to 64
 *   4   COBRA_DEGREE_ZERO          degree is 0 (recovery and its room only)
 *   5   COBRA_SUPPORT_INDEX        a variable number of the support is total or more
 *   7   COBRA_REPEATED_INDEX       a variable number stands twice
 *   8   COBRA_TOO_LARGE            the box, or the fit's grid or matrix, has more than 65,536 cells
 *   9   COBRA_WRONG_LENGTH         another table does not have its exact length
 *   6   COBRA_NOT_DIVISIBLE        recovery: no polynomial has these values
 *   10  COBRA_NO_ANSWER            fit: the elimination found no answer; there may be one
 *
 * Singletons, solvers, keys and leaves have an order of their own, which they say. Keys and leaves
 * have one number more:
 *
 *   11  COBRA_OUT_OF_RANGE         an argument is outside its range
 *
 * 6 and 10 leave zeros in the output. After every other refusal all tables are as they were.
 * A call that gives a number writes it to *value, with every refusal 0.
 *
 * Every number and every entry is allowed: whatever they are, the call returns with its answer.
 * Pointers are the caller's part: value must not be NULL, nor a table's pointer with a length above
 * 0; such a call crashes, where it would be turned down too.
 * Memory outside the tables and *value is never touched.
 *
 * STACK AND THREADS
 *
 * The calls use the stack and nothing else: no heap, no global state, no file. COBRA_CALL_STACK
 * bytes of the caller's stack are enough for every call here but two. The bare solver,
 * cobra_solve_2adic, and the fit, cobra_recover_weighted_poly, take room for the marks of their
 * rows, in two sizes: COBRA_SOLVER_STACK_SMALL and COBRA_WEIGHTED_STACK_SMALL bytes are enough to
 * 256 rows, COBRA_SOLVER_STACK_LARGE and COBRA_WEIGHTED_STACK_LARGE for more.
 *
 * Any number of threads may call at once; each must have tables of its own to write to.
 */
#ifndef COBRA_TABLES_H
#define COBRA_TABLES_H

#include "cobra.h"

#ifdef __cplusplus
extern "C" {
#endif

/* the number that only keys and leaves answer; the others are in cobra.h */
#define COBRA_OUT_OF_RANGE 11u

/* limits */
#define COBRA_MAX_CELLS 65536u  /* cells of a box, entries of a matrix, columns of a system */
#define COBRA_KEY_BYTES 20u     /* bytes of a key */

/* bytes of stack that are enough for a call */
#define COBRA_CALL_STACK 16384u
#define COBRA_SOLVER_STACK_SMALL 4096u
#define COBRA_SOLVER_STACK_LARGE 98304u
#define COBRA_WEIGHTED_STACK_SMALL 24576u
#define COBRA_WEIGHTED_STACK_LARGE 131072u

/* ---- room */

/*
 * What a grid costs, from the settings alone: how many readings there are to take, how long the
 * tables are that recovery and the fit have to be lent, and how the work grows. A call takes a few
 * microseconds at most, the reading of a very long support apart.
 *
 * Their number is the one that recovery, or the fit, gives these settings with tables of exact
 * lengths, but for 6 and 10, which the values decide: after COBRA_OK no setting is in the way. With
 * every refusal all counts are 0. Each count needs a place of its own.
 */

/*
 * The room of cobra_recover_multivar_poly.
 *
 * degree        1 or more
 * cells         gets (degree+1)^k: the values to survey, and the entries of values and of out
 * subtractions  gets k * cells * degree / 2: along each variable, pass p from 1 to degree makes one
 *               at each cell whose coordinate is p or more. The time of a recovery grows no faster.
 *
 * Numbers: 1, 2, 3, 4, 5, 7, 8. cobra_recover takes the same settings to COBRA_MAX_ENTRIES cells.
 */
uint32_t cobra_recovery_room(const uint64_t *support, size_t support_len,
                             uint32_t total, uint32_t width, uint8_t degree,
                             uint64_t *cells, uint64_t *subtractions);

/*
 * The room of cobra_recover_weighted_poly.
 *
 * max_degree   the highest sum of exponents, 0 or more
 * grid_degree  the highest coordinate of the grid, 0 or more
 * rows         gets (grid_degree+1)^k, the points of the grid: the entries of weights, of targets
 *              and of right
 * columns      gets how many unknowns there are: the exponent lists with no exponent above the
 *              smaller of the two degrees and a sum of at most max_degree. They are counted, not
 *              listed: the time of this call grows with k * max_degree alone.
 * entries      gets rows * columns: the entries of matrix. The time of a fit grows no faster than
 *              entries * columns.
 *
 * out has (d+1)^k entries, d the smaller of the two degrees: never more than rows.
 *
 * Numbers: 1, 2, 3, 5, 7, 8. 8 where rows or entries is above 65,536. cobra_fit takes the same
 * settings where entries is at most COBRA_MAX_ENTRIES.
 */
uint32_t cobra_fit_room(const uint64_t *support, size_t support_len,
                        uint32_t total, uint32_t width, uint8_t max_degree, uint8_t grid_degree,
                        uint64_t *rows, uint64_t *columns, uint64_t *entries);

/* ---- recovery */

/*
 * Recovers a polynomial from its values on a grid.
 *
 * values   a value for each point of the grid {0, .., degree}^k: cells entries
 * degree   1 or more
 * out      a coefficient for each cell: cells entries
 *
 * Numbers: 1, 2, 3, 4, 5, 7, 8, 9, 6.
 * COBRA_OK: out has the normal form that agrees with the values at every grid point; there is only
 * one. At every point, on the grid or off, it has the value of every polynomial with no exponent
 * above degree that agrees. A formula of a higher degree can have the same values and differ
 * elsewhere, unless degree is at least cobra_degree_cap of the width less 1 (9 at width 8, 17 at
 * 16, 33 at 32, 65 at 64): then it has the value of every polynomial, of whatever degree, that has
 * these values. With a lower degree there is always another polynomial that has these values and
 * differs somewhere.
 * COBRA_NOT_DIVISIBLE: no polynomial with whole-number coefficients, of whatever degree, has these
 * values; every entry of out is 0. A larger grid with these values is refused too.
 * Any other number: out is as it was.
 */
uint32_t cobra_recover_multivar_poly(const uint64_t *values, size_t values_len,
                                     const uint64_t *support, size_t support_len,
                                     uint32_t total, uint32_t width, uint8_t degree,
                                     uint64_t *out, size_t out_len);

/*
 * Recovers, for each variable alone, the polynomial that a function has along that variable while
 * the others are 0. cap stands for cobra_degree_cap of the width.
 *
 * values     the values at 0, .., cap-1 of the first variable, then those of the second, and so on:
 *            variables * cap entries
 * variables  how many there are, 0 to 20
 * out        the coefficients of the falling factorials 0 to cap-1 of the first variable, then
 *            those of the second, and so on: variables * cap entries
 *
 * Numbers: 2 where variables is above 20, 3, 9, 6.
 * COBRA_OK: each variable's cap entries of out are what cobra_recover_multivar_poly gives for its
 * values alone, with 0 in place of the first, the constant. So many values decide: see there.
 * COBRA_NOT_DIVISIBLE: the values of some variable are those of no polynomial with whole-number
 * coefficients, of whatever degree; every entry of out is 0, those of the other variables too.
 * Any other number: out is as it was.
 */
uint32_t cobra_recover_singleton_powers(const uint64_t *values, size_t values_len,
                                        uint32_t variables, uint32_t width,
                                        uint64_t *out, size_t out_len);

/* ---- fit */

/*
 * Fits a polynomial to weighted targets on a grid: at every grid point its value times the weight
 * is the target, modulo 2^width. The unknowns are the coefficients of the exponent lists with no
 * exponent above d, the smaller of max_degree and grid_degree, and a sum of at most max_degree.
 * columns stands for their number, and rows for the number of grid points, (grid_degree+1)^k.
 * columns is (max_degree+k)! / (max_degree! * k!) where max_degree is at most grid_degree, and rows
 * where max_degree is k * grid_degree or more; cobra_fit_room counts them in every case.
 *
 * weights      a weight for each grid point: rows entries
 * targets      a target for each grid point: rows entries
 * max_degree   the highest sum of exponents, 0 or more
 * grid_degree  the highest coordinate of the grid, 0 or more
 * matrix       room to work in: rows * columns entries
 * right        room to work in: rows entries
 * out          a coefficient for each cell of the box of degree d: (d+1)^k entries
 * value        gets the largest sum of exponents among the coefficients that are not 0, or 0 where
 *              all are 0; with every refusal 0
 *
 * Numbers: 1, 2, 3, 5, 7, 8, 9, 10. 8 where rows, or rows * columns, is above 65,536.
 * COBRA_OK: out is a normal form that fits, with 0 where exponents sum to more than max_degree;
 * matrix and right are zero.
 * COBRA_NO_ANSWER: out, matrix and right are zero. The elimination found no answer. That does not
 * say that there is no such polynomial.
 * Any other number: the three tables are as they were.
 */
uint32_t cobra_recover_weighted_poly(const uint64_t *weights, size_t weights_len,
                                     const uint64_t *targets, size_t targets_len,
                                     const uint64_t *support, size_t support_len,
                                     uint32_t total, uint32_t width,
                                     uint8_t max_degree, uint8_t grid_degree,
                                     uint64_t *matrix, size_t matrix_len,
                                     uint64_t *right, size_t right_len,
                                     uint64_t *out, size_t out_len,
                                     uint64_t *value);

/* ---- boxes of coefficients */

/*
 * The value of a polynomial at a point.
 *
 * coeffs   a coefficient for each cell: cells entries
 * point    a coordinate for each support variable, in the support's order: k entries
 * value    gets the value, below 2^width; with every refusal 0
 *
 * Numbers: 1, 2, 3, 5, 7, 8, 9. A negative coordinate crosses as its remainder modulo 2^width.
 */
uint32_t cobra_box_value(const uint64_t *coeffs, size_t coeffs_len,
                         const uint64_t *support, size_t support_len,
                         uint32_t total, uint32_t width, uint8_t degree,
                         const uint64_t *point, size_t point_len,
                         uint64_t *value);

/*
 * The sum of two polynomials of the same settings.
 *
 * a, b     a coefficient for each cell: cells entries each
 * out      cells entries
 *
 * Numbers: 1, 2, 3, 5, 7, 8, 9.
 * COBRA_OK: out is the normal form of the sum: a + b cell by cell, modulo 2^(width - q), and 0
 * where q is the width or more.
 * Any other number: out is as it was.
 */
uint32_t cobra_box_sum(const uint64_t *a, size_t a_len,
                       const uint64_t *b, size_t b_len,
                       const uint64_t *support, size_t support_len,
                       uint32_t total, uint32_t width, uint8_t degree,
                       uint64_t *out, size_t out_len);

/*
 * The normal form of a polynomial in falling factorials, in place.
 *
 * coeffs   a coefficient for each cell: cells entries
 *
 * Numbers: 1, 2, 3, 5, 7, 8, 9.
 * COBRA_OK: each coefficient is what it was modulo 2^(width - q), and 0 where q is the width or
 * more; the polynomial has the same value modulo 2^width at every whole-number point.
 * Any other number: coeffs is as it was.
 */
uint32_t cobra_reduce(uint64_t *coeffs, size_t coeffs_len,
                      const uint64_t *support, size_t support_len,
                      uint32_t total, uint32_t width, uint8_t degree);

/*
 * A polynomial with its datum moved: each variable is replaced by itself plus its offset. When the
 * datum of a trench is re-levelled, the form that is filed moves with it and need not be surveyed
 * again.
 *
 * coeffs   a coefficient for each cell: cells entries. The box need not be a normal form; it counts
 *          as the polynomial that it holds.
 * degree   0 or more
 * offsets  an offset for each support variable, in the support's order: k entries, modulo 2^width.
 *          A negative offset crosses as its remainder modulo 2^width or 2^64.
 * out      cells entries
 *
 * Numbers: 1, 2, 3, 5, 7, 8, 9.
 * COBRA_OK: out is the normal form of the moved polynomial, a box of the same settings. Its value
 * at every whole-number point x, negative ones too, is that of coeffs at x plus the offsets, modulo
 * 2^width; no other normal form has these values. Offsets that are all 0 leave a normal form as it
 * is, and of another box what cobra_reduce leaves. To move by a and then by b is to move by a + b.
 * Any other number: out is as it was.
 *
 * 1200 + 65523 x + 2 x(x-1) at width 16, which is 1200 - 15 x + 2 x^2, moved by 37 is
 * 3383 + 135 x + 2 x(x-1).
 */
uint32_t cobra_move_datum(const uint64_t *coeffs, size_t coeffs_len,
                          const uint64_t *support, size_t support_len,
                          uint32_t total, uint32_t width, uint8_t degree,
                          const uint64_t *offsets, size_t offsets_len,
                          uint64_t *out, size_t out_len);

/*
 * Whether two polynomials are the same: one formula recovered at degree 3 and at degree 5, or with
 * its variables in another order, is one formula.
 *
 * a, b     the coefficients of the first and the second: as many as its box has cells
 * value    gets 1 where the totals are equal, the widths are equal, and both polynomials have the
 *          same value modulo 2^width at every whole-number point, negative ones too; else 0; with
 *          every refusal 0
 *
 * A point has a coordinate for each of the total variables; a variable that is not in a support
 * has exponent 0 in that polynomial. Supports, their order and the degrees may differ, and the
 * boxes need not be normal forms. Of two normal forms with equal settings a 1 says that all their
 * coefficients are equal.
 *
 * Numbers: 1, 2, 3, 5, 7, 8, 9 of the first, then those of the second; only then are unequal totals
 * or widths a no. The time grows with the cells of both boxes.
 */
uint32_t cobra_box_same(const uint64_t *a, size_t a_len,
                        const uint64_t *asupport, size_t asupport_len,
                        uint32_t atotal, uint32_t awidth, uint8_t adegree,
                        const uint64_t *b, size_t b_len,
                        const uint64_t *bsupport, size_t bsupport_len,
                        uint32_t btotal, uint32_t bwidth, uint8_t bdegree,
                        uint64_t *value);

/*
 * Whether a box is a normal form.
 *
 * coeffs   a coefficient for each cell, read whole: cells entries
 * value    gets 1 where width is 2 to 64, every coefficient is below 2^(width - q), and it is 0
 *          where q is the width or more; else 0; with every refusal 0
 *
 * Numbers: 1, 2, 5, 7, 8, 9. Another width is a no, COBRA_OK with 0 at value, and never 3.
 */
uint32_t cobra_box_is_valid(const uint64_t *coeffs, size_t coeffs_len,
                            const uint64_t *support, size_t support_len,
                            uint32_t total, uint32_t width, uint8_t degree,
                            uint64_t *value);

/* ---- powers and falling factorials */

/*
 * Three calls with one table in and one out, for each cell a coefficient: cells entries each.
 * Numbers: 1, 2, 3, 5, 7, 8, 9; with each of them out is as it was.
 */

/*
 * The normal form of a polynomial in powers: out is the only normal form that has the polynomial's
 * value at every point.
 */
uint32_t cobra_normalize_polynomial(const uint64_t *coeffs, size_t coeffs_len,
                                    const uint64_t *support, size_t support_len,
                                    uint32_t total, uint32_t width, uint8_t degree,
                                    uint64_t *out, size_t out_len);

/*
 * From powers to falling factorials: out has the coefficients of the same polynomial, each below
 * 2^width. It is not reduced to a normal form.
 */
uint32_t cobra_to_factorial_basis(const uint64_t *coeffs, size_t coeffs_len,
                                  const uint64_t *support, size_t support_len,
                                  uint32_t total, uint32_t width, uint8_t degree,
                                  uint64_t *out, size_t out_len);

/*
 * From falling factorials to powers, the way back: out has the coefficients of the same polynomial
 * in powers, each below 2^width. There and back gives the coefficients modulo 2^width.
 */
uint32_t cobra_to_monomial_basis(const uint64_t *coeffs, size_t coeffs_len,
                                 const uint64_t *support, size_t support_len,
                                 uint32_t total, uint32_t width, uint8_t degree,
                                 uint64_t *out, size_t out_len);

/* ---- linear systems */

/*
 * Solves a system of equations modulo 2^width, by elimination in the lent tables.
 *
 * matrix   the rows one behind the other, each of columns entries: rows * columns entries, at most
 *          65,536. The call takes rows from this length.
 * right    a right side for each row: rows entries
 * columns  how many unknowns there are, 1 to 65,536
 * width    2 to 64; entries are taken modulo 2^width
 * answer   a value for each unknown: columns entries
 *
 * Numbers: 3; 8 where the matrix's length or columns is above 65,536; 9 where columns is 0 or does
 * not divide the matrix's length, or another length is not the exact one; 10.
 * COBRA_OK: in every row the sum of entry times value is the right side, modulo 2^width; each value
 * is below 2^width.
 * COBRA_NO_ANSWER: answer is zero. That does not say that nothing solves the system. A matrix
 * without rows is 10 too.
 * With both, matrix and right are as the elimination left them: a caller that needs them keeps a
 * copy. Any other number: the three tables are as they were.
 */
uint32_t cobra_solve_2adic(uint64_t *matrix, size_t matrix_len,
                           uint64_t *right, size_t right_len,
                           size_t columns, uint32_t width,
                           uint64_t *answer, size_t answer_len);

/*
 * Four equations in four unknowns, with the number and the answer of cobra_solve_2adic; matrix and
 * right are not altered.
 *
 * matrix   the rows one behind the other: 16 entries
 * right    4 entries
 * width    2 to 64
 * answer   4 entries
 *
 * Numbers: 3, 9, 10. COBRA_NO_ANSWER: answer is zero. Any other refusal: it is as it was.
 */
uint32_t cobra_solve_2adic_fixed(const uint64_t *matrix, size_t matrix_len,
                                 const uint64_t *right, size_t right_len,
                                 uint32_t width,
                                 uint64_t *answer, size_t answer_len);

/* ---- keys */

/*
 * A key is an exponent list of twenty variables: a table of twenty bytes, one to an exponent.
 *
 * key        the key: 20 bytes
 * num_vars   how many of the key's exponents are read or written, the first ones: 0 to 20
 * var_index  the number of a variable: 0 to 19
 *
 * Numbers: COBRA_OUT_OF_RANGE, then COBRA_WRONG_LENGTH where key does not have 20 bytes. With them
 * tables are as they were, and *value is 0.
 */

/* Makes the key whose first num_vars exponents are those of exps, the others 0. exps has num_vars
 * entries or more (less is 11); those behind are not read. */
uint32_t cobra_key_from_exponents(const uint8_t *exps, size_t exps_len, uint8_t num_vars,
                                  uint8_t *key, size_t key_len);

/* Writes the key's first num_vars exponents to out, which has num_vars entries or more (less is
 * 11); those behind stay as they were. */
uint32_t cobra_key_to_exponents(const uint8_t *key, size_t key_len,
                                uint8_t *out, size_t out_len, uint8_t num_vars);

/* value gets the exponent of variable var_index. */
uint32_t cobra_key_exponent_at(const uint8_t *key, size_t key_len, uint8_t var_index,
                               uint64_t *value);

/* The exponent of variable var_index becomes new_val, in the lent key; the others stay. */
uint32_t cobra_key_with_exponent(uint8_t *key, size_t key_len, uint8_t var_index, uint8_t new_val);

/* value gets the sum of the first num_vars exponents. */
uint32_t cobra_key_total_degree(const uint8_t *key, size_t key_len, uint8_t num_vars,
                                uint64_t *value);

/* value gets the largest of the first num_vars exponents, 0 where num_vars is 0. */
uint32_t cobra_key_max_degree(const uint8_t *key, size_t key_len, uint8_t num_vars,
                              uint64_t *value);

/* value gets q of the first num_vars exponents: how often 2 divides the product of their
 * factorials. */
uint32_t cobra_key_v2_factorial_weight(const uint8_t *key, size_t key_len, uint8_t num_vars,
                                       uint64_t *value);

/* ---- leaves */

/* How often 2 divides k!. This is the result itself and no number of a refusal; every k is
 * allowed. */
uint32_t cobra_twos_in_factorial(uint32_t k);

/* How many bits of a coefficient count in a cell whose q is weight: width - weight, and 0 where
 * weight is the width or more. This is the result itself; every weight and width is allowed. */
uint32_t cobra_precision_bits(uint32_t weight, uint32_t width);

/* value gets the least n whose factorial 2^width divides: 4 at width 2, 10 at 8, 18 at 16, 34 at
 * 32, 66 at 64. So many values of each variable decide (see recovery). COBRA_OUT_OF_RANGE: width is
 * not 2 to 64; value is 0. */
uint32_t cobra_degree_cap(uint32_t width, uint64_t *value);

/* value gets the odd part of k!, modulo 2^width. COBRA_OUT_OF_RANGE: k is above 255 or width is not
 * 1 to 64; value is 0. */
uint32_t cobra_odd_part_factorial(uint32_t k, uint32_t width, uint64_t *value);

/* value gets the number below 2^bits whose product with x is 1 modulo 2^bits. COBRA_OUT_OF_RANGE: x
 * is even or bits is not 1 to 64; value is 0. */
uint32_t cobra_mod_inverse_odd(uint64_t x, uint32_t bits, uint64_t *value);

/*
 * The falling product of n factors, x * (x-1) * .. * (x-n+1), modulo 2^width. It stops as soon as
 * it is 0, since whatever factors follow it stays 0.
 *
 * x, n     any numbers; the product of 0 factors is 1
 * width    2 to 64
 * value    gets the product of all n factors, below 2^width
 * factors  gets how many were taken: the least number of leading factors whose product is 0, or n
 *          where there is none. It is never above n, x+1 or cobra_degree_cap of the width, so that
 *          the call is short however large n is. It needs a place of its own.
 *
 * x = 5, n = 3 at width 8 gives 60 with 3 factors, x = 3, n = 7 gives 0 with 4.
 *
 * COBRA_OUT_OF_RANGE: width is not 2 to 64; value and factors are 0.
 */
uint32_t cobra_falling_product(uint64_t x, uint64_t n, uint32_t width,
                               uint64_t *value, uint64_t *factors);

/*
 * The falling products of x with 0, 1, 2, .. factors, modulo 2^width.
 *
 * width    2 to 64
 * table    any number of entries: entry n gets the product of n factors, as above. They are
 *          multiplied up to the first that is 0; all behind it are 0.
 * factors  gets how many factors were taken, as above for n = table_len - 1; 0 where the table has
 *          no entry
 *
 * COBRA_OUT_OF_RANGE: width is not 2 to 64; table is as it was and factors is 0.
 */
uint32_t cobra_falling_products(uint64_t x, uint32_t width,
                                uint64_t *table, size_t table_len, uint64_t *factors);

/*
 * The Stirling numbers up to degree, modulo 2^width.
 *
 * degree   0 to 255
 * width    2 to 64
 * table    (degree+1)^2 entries: the number of i and j is entry i*(degree+1) + j, and 0 where j is
 *          above i
 *
 * Numbers: COBRA_OUT_OF_RANGE where width is not 2 to 64, then COBRA_WRONG_LENGTH; with them table
 * is as it was.
 *
 * Second kind: row i has the coefficients of x^i in falling factorials. First kind, with its sign:
 * row i has the coefficients of the falling factorial of i factors in powers; a negative one is its
 * remainder modulo 2^width.
 */
uint32_t cobra_stirling_second_kind(uint8_t degree, uint32_t width,
                                    uint64_t *table, size_t table_len);
uint32_t cobra_stirling_first_kind(uint8_t degree, uint32_t width,
                                   uint64_t *table, size_t table_len);

/* ---- arithmetic */

/*
 * These give the result itself and refuse nothing. A width may be any number: from 64 on all count
 * modulo 2^64, and at width 0 every result is 0. a and b may have bits above the width.
 */

/* 2^width - 1: all ones from 64 on, 0 at 0. */
uint64_t cobra_bitmask(uint32_t width);

/* a + b, a - b, a * b and -a, modulo 2^width. */
uint64_t cobra_mod_add(uint64_t a, uint64_t b, uint32_t width);
uint64_t cobra_mod_sub(uint64_t a, uint64_t b, uint32_t width);
uint64_t cobra_mod_mul(uint64_t a, uint64_t b, uint32_t width);
uint64_t cobra_mod_neg(uint64_t a, uint32_t width);

/* a * b, modulo 2^64. */
uint64_t cobra_wrapping_mul(uint64_t a, uint64_t b);

#ifdef __cplusplus
}
#endif

#endif
