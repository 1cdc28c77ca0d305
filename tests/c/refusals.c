/* Every refusal of every call, and each pair of causes, from a call that is accepted. */
#include "driver.h"

#include <stdlib.h>
#include <string.h>

/* three variables in mixed order; the grid is that of 1 + 2x, the weights are 1 */
static struct job accepted(int call)
{
    struct job job = {call, {0}, {0}, {0}, {0}, 3, 5, 8, 2, 2};
    size_t i;
    table_set(&job.support, 24);
    entry_set(&job.support, 0, 3);
    entry_set(&job.support, 1, 0);
    entry_set(&job.support, 2, 2);
    table_set(&job.first, 8 * 27);
    if (call != RECOVER)
        table_set(&job.second, call == FIT ? 8 * 27 : 24);
    if (call != VALUE)
        table_set(&job.out, 8 * 27);
    for (i = 0; i < 27; i++) {
        entry_set(&job.first, i, call == FIT ? 1 : 1 + 2 * (i % 3));
        if (call == FIT)
            entry_set(&job.second, i, 1 + 2 * (i % 3));
    }
    return job;
}

/* the causes in the order of the paper; each spoils a job that an earlier one may have spoilt */
static void support_bytes(struct job *job) { table_set(&job->support, job->support.bytes + 1); }
static void no_support(struct job *job)
{
    table_set(&job->support, job->support.bytes % 8);
    job->count = 0;
}
static void many_variables(struct job *job) { job->total = 21; }
static void narrow(struct job *job) { job->width = 1; }
static void degree_zero(struct job *job) { job->degree = 0; }
static void index_past(struct job *job)
{
    if (job->support.bytes >= 8)
        entry_set(&job->support, job->support.bytes / 8 - 1, (uint64_t)1 << 32);
}
static void index_twice(struct job *job)
{
    if (job->support.bytes >= 16)
        entry_set(&job->support, 0, entry_get(&job->support, 1));
}
static void large(struct job *job) { job->grid = 16, job->degree = job->degree ? 16 : 0; }
static void first_bytes(struct job *job) { table_set(&job->first, job->first.bytes - 1); }
static void second_bytes(struct job *job) { table_set(&job->second, job->second.bytes + 8); }
static void out_bytes(struct job *job) { table_set(&job->out, job->out.bytes - 8); }
static void no_polynomial(struct job *job)
{
    entry_set(job->call == FIT ? &job->second : &job->first, 2, 2);
    if (job->call == FIT)
        job->degree = 1;
}

static const struct cause {
    uint32_t number[CALLS]; /* 0: not a cause of that call */
    void (*spoil)(struct job *job);
} causes[] = {
    {{9, 9, 9}, support_bytes}, {{1, 1, 1}, no_support},     {{2, 2, 2}, many_variables},
    {{3, 3, 3}, narrow},        {{4, 0, 0}, degree_zero},    {{5, 5, 5}, index_past},
    {{7, 7, 7}, index_twice},   {{8, 8, 8}, large},          {{9, 9, 9}, first_bytes},
    {{0, 9, 9}, second_bytes},  {{9, 0, 9}, out_bytes},      {{6, 0, 10}, no_polynomial},
};
#define CAUSES (sizeof causes / sizeof *causes)

/* after 6 and 10 all bytes of the output are 0 */
static void check_zero(const struct job *job)
{
    struct answer got = answer_of(job);
    uint8_t *zeros = calloc(job->out.bytes + 1, 1);
    if (!zeros)
        exit(2);
    check("zeros after 6 or 10", job, zeros, got.out, job->out.bytes);
    free(zeros);
    free(got.out);
}

/* The first cause in the list decides: degree_zero alone can undo `large`, which comes later. A
 * smaller max_degree makes the answer's box of a fit smaller, so that there out has a wrong length. */
static void pair(int call, size_t i, size_t j)
{
    struct job job = accepted(call);
    causes[i].spoil(&job);
    if (j != i)
        causes[j].spoil(&job);
    if (call == FIT && job.degree == 1 && job.out.bytes)
        table_set(&job.out, job.out.bytes % 27 ? job.out.bytes : 64);
    check_number(&job, causes[i].number[call]);
    if (causes[i].number[call] == 6 || causes[i].number[call] == 10)
        check_zero(&job);
    job_free(&job);
}

static void ends(int call)
{
    static const uint32_t widths[] = {0, 1, 65, 66, 255, 256, 258, 4294967295u};
    static const uint32_t totals[] = {21, 32, 276, 4294967295u};
    struct job job = accepted(call);
    size_t i;
    for (i = 0; i < sizeof widths / sizeof *widths; i++) {
        job.width = widths[i];
        check_number(&job, 3);
    }
    job.width = 64;
    check_number(&job, 0);
    job.width = 2;
    check_number(&job, 0);
    for (i = 0; i < sizeof totals / sizeof *totals; i++) {
        job.total = totals[i];
        check_number(&job, 2);
    }
    job.total = 20;
    check_number(&job, 0);
    job.total = 3; /* the support has index 3 */
    check_number(&job, 5);
    job_free(&job);
}

void part_refusals(void)
{
    int call;
    size_t i, j;
    for (call = RECOVER; call < CALLS; call++) {
        struct job job = accepted(call);
        check_number(&job, 0);
        job_free(&job);
        for (i = 0; i < CAUSES; i++)
            for (j = i; j < CAUSES; j++)
                if (causes[i].number[call] && causes[j].number[call])
                    pair(call, i, j);
        ends(call);
    }
}
