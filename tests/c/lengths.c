/* Byte lengths around each entry, tables at the limit and above it, any count, long supports, NULL. */
#include "driver.h"

#include <stdlib.h>
#include <string.h>

static struct job line(int call, uint8_t degree)
{
    struct job job = {call, {0}, {0}, {0}, {0}, 1, 1, 16, degree, degree};
    size_t i, n = 8 * ((size_t)degree + 1);
    table_set(&job.support, 8);
    entry_set(&job.support, 0, 0);
    table_set(&job.first, n);
    if (call != RECOVER)
        table_set(&job.second, call == FIT ? n : 8);
    if (call != VALUE)
        table_set(&job.out, n);
    for (i = 0; i <= degree; i++) {
        entry_set(&job.first, i, call == FIT ? 1 : 5 * i);
        if (call == FIT)
            entry_set(&job.second, i, 5 * i);
    }
    return job;
}

/* a table too short and too long, by bytes and by entries */
static void table_lengths(int call, size_t which)
{
    static const int by[] = {-16, -15, -9, -8, -7, -1, 1, 7, 8, 9, 16, 8 * 4096, 1 << 24};
    size_t i;
    for (i = 0; i < sizeof by / sizeof *by; i++) {
        struct job job = line(call, 3);
        struct table *const tables[] = {&job.first, &job.second, &job.out};
        struct table *table = tables[which];
        if (table->at) {
            long bytes = (long)table->bytes + by[i];
            table_set(table, bytes > 0 ? (size_t)bytes : 0);
            check_number(&job, 9);
        }
        job_free(&job);
    }
}

/* 16^3 = 4,096 cells pass and one more does not; of two variables 64^2 passes and 65^2 does not */
static void limit(int call)
{
    static const struct { size_t variables; uint8_t degree; size_t cells; uint32_t number; } boxes[] = {
        {3, 15, 4096, 0}, {2, 63, 4096, 0}, {12, 1, 4096, 0}, {2, 64, 4225, 8},
        {13, 1, 8192, 8}, {3, 16, 4913, 8}, {2, 255, 65536, 8},
    };
    size_t b, i;
    for (b = 0; b < sizeof boxes / sizeof *boxes; b++) {
        struct job job = {call, {0}, {0}, {0}, {0}, boxes[b].variables, 20, 64, 0, 0};
        job.grid = boxes[b].degree;
        job.degree = call == FIT ? 0 : boxes[b].degree; /* one column */
        table_set(&job.support, 8 * boxes[b].variables);
        for (i = 0; i < boxes[b].variables; i++)
            entry_set(&job.support, i, 19 - i);
        table_set(&job.first, 8 * boxes[b].cells);
        memset(job.first.at, 0, job.first.bytes);
        if (call != RECOVER)
            table_set(&job.second, call == FIT ? job.first.bytes : job.support.bytes);
        if (call == FIT) {
            memset(job.second.at, 0, job.second.bytes);
            for (i = 0; i < boxes[b].cells; i++)
                entry_set(&job.first, i, 1);
        }
        if (call != VALUE)
            table_set(&job.out, call == FIT ? 8 : job.first.bytes);
        check_number(&job, boxes[b].number);
        job_free(&job);
    }
}

/* rows times columns of the fit's matrix: 64 times 64 passes, 65 times 64 does not */
static void matrix(void)
{
    struct job job = line(FIT, 63);
    job.width = 64; /* else a column has no pivot */
    check_number(&job, 0);
    job_free(&job);
    job = line(FIT, 64);
    job.width = 64;
    check_number(&job, 8);
    job.degree = 62; /* 65 times 63 */
    table_set(&job.out, 8 * 63);
    check_number(&job, 0);
    job_free(&job);
}

/* counts that do not agree, among them those whose eightfold wraps to the bytes that are there */
static void counts(int call)
{
    static const uint64_t wrong[] = {
        0, 2, 8, 9, (uint64_t)1 << 61, ((uint64_t)1 << 61) + 1, ((uint64_t)7 << 61) + 1,
        (uint64_t)1 << 63, ((uint64_t)1 << 32) + 1, UINT64_MAX,
    };
    struct job job = line(call, 2);
    size_t i;
    for (i = 0; i < sizeof wrong / sizeof *wrong; i++) {
        job.count = wrong[i];
        check_number(&job, 9);
    }
    job.count = 1;
    check_number(&job, 0);
    for (i = 0; i < 24; i++)
        if (i != 8) {
            table_set(&job.support, i);
            check_number(&job, 9);
        }
    job_free(&job);
}

/* supports of more than twenty indices: 7 where all are below the total, 5 where one is not */
static void long_supports(int call)
{
    static const size_t lengths[] = {20, 21, 22, 4095, 4096, 4097, 1000000};
    size_t i, n, l;
    for (l = 0; l < sizeof lengths / sizeof *lengths; l++) {
        struct job job = line(call, 1);
        n = lengths[l];
        table_set(&job.support, 8 * n);
        for (i = 0; i < n; i++)
            entry_set(&job.support, i, i % 20);
        job.count = n;
        job.total = 20;
        check_number(&job, n > 20 ? 7 : 8);
        entry_set(&job.support, n - 1, 20);
        check_number(&job, 5);
        entry_set(&job.support, n - 1, UINT64_MAX - 3);
        check_number(&job, 5);
        if (call == RECOVER) {
            job.degree = 0;
            check_number(&job, 4);
        }
        job.width = 65;
        check_number(&job, 3);
        job.total = 21;
        check_number(&job, 2);
        job_free(&job);
    }
}

/* NULL with length 0 for each table alone and for all */
static void nulls(int call)
{
    struct job job = {call, {0}, {0}, {0}, {0}, 0, 1, 8, 1, 1};
    check_number(&job, 1);
    job.count = 1;
    check_number(&job, 9);
    job = line(call, 1);
    job.count = 0;
    free(job.support.at);
    job.support.at = NULL;
    job.support.bytes = 0;
    check_number(&job, 1);
    job_free(&job);
    for (int which = 0; which < 3; which++) {
        struct table *table;
        job = line(call, 1);
        table = which == 0 ? &job.first : which == 1 ? &job.second : &job.out;
        if (table->at) {
            free(table->at);
            table->at = NULL;
            table->bytes = 0;
            check_number(&job, 9);
        }
        job_free(&job);
    }
}

/* NULL with length 0 in the calls on tables of u64: what the call says and leaves at `value` */
static void said(uint32_t expected, uint32_t number, uint64_t value)
{
    uint64_t none = 0;
    check("the number of tables without entries", NULL, &expected, &number, sizeof number);
    check("the value of tables without entries", NULL, &none, &value, sizeof value);
}

static void null_tables(void)
{
    const uint64_t support[1] = {0}, entry[2] = {1, 1};
    uint64_t v, room[2] = {7, 7};
    uint8_t key[20] = {0};
    uint32_t n;
    size_t k;
    for (k = 0; k < 2; k++) { /* without a support and with one */
        const uint64_t *s = k ? support : NULL;
        uint32_t cause = k ? COBRA_WRONG_LENGTH : COBRA_EMPTY_SUPPORT;
        said(cause, cobra_recover_multivar_poly(NULL, 0, s, k, 1, 8, 1, NULL, 0), 0);
        said(cause, cobra_box_sum(NULL, 0, NULL, 0, s, k, 1, 8, 1, NULL, 0), 0);
        said(cause, cobra_reduce(NULL, 0, s, k, 1, 8, 1), 0);
        said(cause, cobra_move_datum(NULL, 0, s, k, 1, 8, 1, NULL, 0, NULL, 0), 0);
        said(cause, cobra_normalize_polynomial(NULL, 0, s, k, 1, 8, 1, NULL, 0), 0);
        said(cause, cobra_to_factorial_basis(NULL, 0, s, k, 1, 8, 1, NULL, 0), 0);
        said(cause, cobra_to_monomial_basis(NULL, 0, s, k, 1, 8, 1, NULL, 0), 0);
        v = 7;
        n = cobra_box_value(NULL, 0, s, k, 1, 8, 1, NULL, 0, &v);
        said(cause, n, v);
        v = 7;
        n = cobra_box_is_valid(NULL, 0, s, k, 1, 8, 1, &v);
        said(cause, n, v);
        v = 7;
        n = cobra_box_same(entry, 2, support, 1, 1, 8, 1, NULL, 0, s, k, 1, 8, 1, &v);
        said(cause, n, v);
        v = 7;
        n = cobra_recover_weighted_poly(NULL, 0, NULL, 0, s, k, 1, 8, 1, 1, NULL, 0, NULL, 0, NULL,
                                        0, &v);
        said(cause, n, v);
    }
    said(COBRA_OK, cobra_recover_singleton_powers(NULL, 0, 0, 8, NULL, 0), 0);
    said(COBRA_WRONG_LENGTH, cobra_solve_2adic(NULL, 0, NULL, 0, 0, 8, NULL, 0), 0);
    n = cobra_solve_2adic(NULL, 0, NULL, 0, 2, 8, room, 2);
    said(COBRA_NO_ANSWER, n, room[0] | room[1]);
    said(COBRA_WRONG_LENGTH, cobra_solve_2adic_fixed(NULL, 0, NULL, 0, 8, NULL, 0), 0);
    said(COBRA_WRONG_LENGTH, cobra_stirling_second_kind(0, 8, NULL, 0), 0);
    said(COBRA_WRONG_LENGTH, cobra_stirling_first_kind(0, 8, NULL, 0), 0);
    said(COBRA_OK, cobra_key_from_exponents(NULL, 0, 0, key, 20), 0);
    said(COBRA_OUT_OF_RANGE, cobra_key_from_exponents(NULL, 0, 1, NULL, 0), 0);
    said(COBRA_OK, cobra_key_to_exponents(key, 20, NULL, 0, 0), 0);
    said(COBRA_OUT_OF_RANGE, cobra_key_to_exponents(NULL, 0, NULL, 0, 1), 0);
    said(COBRA_WRONG_LENGTH, cobra_key_with_exponent(NULL, 0, 19, 1), 0);
    v = 7;
    n = cobra_key_total_degree(NULL, 0, 20, &v);
    said(COBRA_WRONG_LENGTH, n, v);
}

void part_lengths(void)
{
    int call;
    size_t which;
    for (call = RECOVER; call < CALLS; call++) {
        for (which = 0; which < 3; which++)
            table_lengths(call, which);
        limit(call);
        counts(call);
        long_supports(call);
        nulls(call);
    }
    matrix();
    null_tables();
}
