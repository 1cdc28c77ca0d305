/* How much stack the calls take: a thread runs on a painted stack, and the paint that is left is
 * measured. The largest boxes and matrices are tried; the headers' numbers must be enough. */
#include "driver.h"

#include <pthread.h>
#include <stdio.h>
#include <stdlib.h>
#include <string.h>

#define SIZE (2u << 20)

static uint8_t first[8 * 4096], second[8 * 4096], out[8 * 4096], support[8 * 20];
static uint64_t a[65536], b[65536], c[65536], d[65536], e[4096], list[20];

static void *nothing(void *arg)
{
    return arg;
}

static void *recover(void *arg)
{
    cobra_recover(first, sizeof first, support, 8 * 12, 12, 20, 64, 1, out, sizeof out);
    cobra_recover(first, sizeof first, support, 8 * 2, 2, 20, 64, 63, out, sizeof out);
    return arg;
}

static void *value(void *arg)
{
    uint64_t at;
    cobra_value(first, sizeof first, support, 8 * 12, 12, 20, 64, 1, support, 8 * 12, &at);
    cobra_value(first, sizeof first, support, 8 * 2, 2, 20, 64, 63, support, 8 * 2, &at);
    return arg;
}

static void *fit(void *arg)
{
    uint64_t used;
    cobra_fit(first, sizeof first, second, sizeof second, support, 8 * 12, 12, 20, 64, 0, 1, out, 8, &used);
    cobra_fit(first, 8 * 64, second, 8 * 64, support, 8, 1, 20, 64, 63, 63, out, 8 * 64, &used);
    cobra_fit(first, 8 * 64, second, 8 * 64, support, 8 * 6, 6, 20, 64, 6, 1, out, 8 * 64, &used);
    return arg;
}

/* calls on bytes that have less room: to 64 cells, and to 128 entries of the matrix */
static void *small_recover(void *arg)
{
    cobra_recover(first, 8 * 64, support, 8 * 6, 6, 20, 64, 1, out, 8 * 64);
    cobra_recover(first, 8 * 64, support, 8, 1, 20, 64, 63, out, 8 * 64);
    return arg;
}

static void *small_value(void *arg)
{
    uint64_t at;
    cobra_value(first, 8 * 64, support, 8 * 6, 6, 20, 64, 1, support, 8 * 6, &at);
    cobra_value(first, 8 * 64, support, 8, 1, 20, 64, 63, support, 8, &at);
    cobra_value(first, 8, support, 8 * 20, 20, 20, 64, 0, support, 8 * 20, &at);
    return arg;
}

static void *small_fit(void *arg)
{
    uint64_t used;
    cobra_fit(first, 8 * 128, second, 8 * 128, support, 8 * 7, 7, 20, 64, 0, 1, out, 8, &used);
    cobra_fit(first, 8 * 11, second, 8 * 11, support, 8, 1, 20, 64, 10, 10, out, 8 * 11, &used);
    cobra_fit(first, 8 * 64, second, 8 * 64, support, 8, 1, 20, 64, 1, 63, out, 8 * 2, &used);
    return arg;
}

/* the calls on tables of u64 but fit and bare solver, on the largest boxes */
static void *boxes(void *arg)
{
    static const struct { size_t k, n; uint8_t degree; } shapes[] = {
        {20, 1, 0}, {16, 65536, 1}, {4, 65536, 15}, {2, 65536, 255},
    };
    uint64_t at, made, entries;
    size_t i;
    for (i = 0; i < sizeof shapes / sizeof *shapes; i++) {
        size_t k = shapes[i].k, n = shapes[i].n;
        uint8_t degree = shapes[i].degree;
        cobra_recovery_room(list, k, 20, 64, degree, &at, &made);
        cobra_fit_room(list, k, 20, 64, 255, degree, &at, &made, &entries);
        cobra_recover_multivar_poly(a, n, list, k, 20, 64, degree, b, n);
        cobra_box_value(a, n, list, k, 20, 64, degree, list, k, &at);
        cobra_box_sum(a, n, b, n, list, k, 20, 64, degree, c, n);
        cobra_reduce(c, n, list, k, 20, 64, degree);
        cobra_move_datum(a, n, list, k, 20, 64, degree, list, k, c, n);
        cobra_box_same(a, n, list, k, 20, 64, degree, a, n, list, k, 20, 64, degree, &at);
        cobra_box_is_valid(a, n, list, k, 20, 64, degree, &at);
        cobra_normalize_polynomial(a, n, list, k, 20, 64, degree, b, n);
        cobra_to_factorial_basis(a, n, list, k, 20, 64, degree, b, n);
        cobra_to_monomial_basis(a, n, list, k, 20, 64, degree, b, n);
    }
    cobra_recover_singleton_powers(a, 20 * 66, 20, 64, b, 20 * 66);
    cobra_solve_2adic_fixed(a, 16, b, 4, 64, c, 4);
    cobra_stirling_second_kind(255, 64, c, 65536);
    cobra_stirling_first_kind(255, 64, c, 65536);
    cobra_odd_part_factorial(255, 64, &at);
    cobra_mod_inverse_odd(3, 64, &at);
    cobra_falling_product(UINT64_MAX, UINT64_MAX, 64, &at, &made);
    cobra_falling_products(UINT64_MAX, 64, c, 65536, &at);
    cobra_key_from_exponents(first, 20, 20, second, 20);
    cobra_key_with_exponent(second, 20, 19, 255);
    cobra_key_to_exponents(second, 20, out, 20, 20);
    cobra_key_exponent_at(second, 20, 19, &at);
    cobra_key_total_degree(second, 20, 20, &at);
    cobra_key_max_degree(second, 20, 20, &at);
    cobra_key_v2_factorial_weight(second, 20, 20, &at);
    return arg;
}

/* a system of so many rows and columns, and a fit that has as many */
static void solved(size_t rows, size_t columns)
{
    cobra_solve_2adic(a, rows * columns, b, rows, columns, 64, c, columns);
}

static void fitted(size_t k, uint8_t grid, uint8_t most, size_t rows, size_t columns, size_t cells)
{
    uint64_t used;
    uint32_t number = cobra_recover_weighted_poly(a, rows, d, rows, list, k, 20, 64, most, grid,
                                                  b, rows * columns, c, rows, e, cells, &used);
    if (number != COBRA_OK && number != COBRA_NO_ANSWER)
        exit(2);
}

static void *small_systems(void *arg)
{
    solved(4, 4);
    solved(256, 256);
    solved(1, 65536);
    return arg;
}

static void *large_systems(void *arg)
{
    solved(257, 255);
    solved(4096, 16);
    solved(65536, 1);
    return arg;
}

static void *small_fits(void *arg)
{
    fitted(1, 63, 63, 64, 64, 64);
    fitted(6, 1, 255, 64, 64, 64);
    fitted(20, 0, 255, 1, 1, 1);
    fitted(1, 255, 255, 256, 256, 256);
    fitted(8, 1, 8, 256, 256, 256);
    return arg;
}

static void *large_fits(void *arg)
{
    fitted(2, 31, 9, 1024, 55, 100);
    fitted(12, 1, 1, 4096, 13, 4096);
    fitted(16, 1, 0, 65536, 1, 1);
    fitted(2, 255, 0, 65536, 1, 1);
    return arg;
}

/* the bytes of the stack that a thread touched */
static size_t touched(void *(*run)(void *))
{
    uint8_t *stack = aligned_alloc(4096, SIZE);
    pthread_attr_t how;
    pthread_t thread;
    size_t left = 0;
    if (!stack)
        exit(2);
    memset(stack, 0xc7, SIZE);
    if (pthread_attr_init(&how) || pthread_attr_setstack(&how, stack, SIZE) ||
        pthread_create(&thread, &how, run, NULL) || pthread_join(thread, NULL))
        exit(2);
    while (left < SIZE && stack[left] == 0xc7)
        left++;
    pthread_attr_destroy(&how);
    free(stack);
    return SIZE - left;
}

void part_stack(void)
{
    static const struct { const char *name; void *(*run)(void *); size_t enough; } calls[] = {
        {"cobra_recover", recover, COBRA_RECOVER_STACK},
        {"cobra_value", value, COBRA_VALUE_STACK},
        {"cobra_fit", fit, COBRA_FIT_STACK},
        {"cobra_recover to 64 cells", small_recover, COBRA_RECOVER_STACK_SMALL},
        {"cobra_value to 64 cells", small_value, COBRA_VALUE_STACK_SMALL},
        {"cobra_fit to 128 entries", small_fit, COBRA_FIT_STACK_SMALL},
        {"calls on u64 tables", boxes, COBRA_CALL_STACK},
        {"solver to 256 rows", small_systems, COBRA_SOLVER_STACK_SMALL},
        {"solver of more rows", large_systems, COBRA_SOLVER_STACK_LARGE},
        {"fit to 256 rows", small_fits, COBRA_WEIGHTED_STACK_SMALL},
        {"fit of more rows", large_fits, COBRA_WEIGHTED_STACK_LARGE},
    };
    size_t i, j, base = touched(nothing);
    for (i = 0; i < 20; i++)
        list[i] = support[8 * i] = (uint8_t)i;
    for (i = 0; i < 4096; i++)
        first[8 * i] = 1;
    for (i = 0; i < 65536; i++)
        a[i] = 1;
    for (j = 0; j < sizeof calls / sizeof *calls; j++) {
        size_t used = touched(calls[j].run);
        used -= used < base ? used : base;
        printf("driver: %s: %zu bytes of stack\n", calls[j].name, used);
        check_at_least("the headers' stack", (unsigned long)used, (unsigned long)calls[j].enough);
    }
}
