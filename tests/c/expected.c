/* What a call on bytes must say: document 01's refusals in their order, reckoned here, and where
 * none applies the answer of the call on u64 tables. */
#include "driver.h"

#include <stdlib.h>
#include <string.h>

#define MOST 4096

/* (degree + 1)^variables, or more than MOST */
static size_t cells_of(size_t variables, unsigned degree)
{
    size_t cells = 1;
    while (variables-- > 0 && cells <= MOST)
        cells *= degree + 1;
    return cells;
}

/* exponent lists with no exponent above degree and a sum of at most `most` */
static size_t fit_columns(size_t variables, unsigned degree, unsigned most)
{
    size_t count = 0;
    unsigned e;
    if (!variables)
        return 1;
    for (e = 0; e <= degree && e <= most && count <= MOST; e++)
        count += fit_columns(variables - 1, degree, most - e);
    return count;
}

static int length_is(const struct table *table, size_t entries)
{
    return table->bytes == 8 * entries;
}

static unsigned box_degree(const struct job *job)
{
    return job->call == FIT && job->grid < job->degree ? job->grid : job->degree;
}

static uint32_t settings(const struct job *job)
{
    size_t k = job->support.bytes / 8, i, j;
    if (job->support.bytes % 8 || k != job->count)
        return 9;
    if (!k)
        return 1;
    if (job->total > 20)
        return 2;
    if (job->width < 2 || job->width > 64)
        return 3;
    if (job->call == RECOVER && !job->degree)
        return 4;
    for (i = 0; i < k; i++)
        if (entry_get(&job->support, i) >= job->total)
            return 5;
    if (k > 20)
        return 7;
    for (i = 0; i < k; i++)
        for (j = 0; j < i; j++)
            if (entry_get(&job->support, i) == entry_get(&job->support, j))
                return 7;
    return 0;
}

static uint32_t refusal(const struct job *job)
{
    uint32_t number = settings(job);
    size_t k = job->support.bytes / 8, rows, cells;
    if (number)
        return number;
    cells = cells_of(k, box_degree(job));
    rows = job->call == FIT ? cells_of(k, job->grid) : cells;
    if (rows > MOST)
        return 8;
    if (job->call == FIT && rows * fit_columns(k, box_degree(job), job->degree) > MOST)
        return 8;
    if (!length_is(&job->first, rows))
        return 9;
    if (job->call != RECOVER && !length_is(&job->second, job->call == FIT ? rows : k))
        return 9;
    return job->call == VALUE || length_is(&job->out, cells) ? 0 : 9;
}

/* the entries of a table, in a block of just their size */
static uint64_t *words_of(const struct table *table)
{
    size_t i, n = table->bytes / 8;
    uint64_t *words = malloc(n ? 8 * n : 1);
    if (!words)
        exit(2);
    for (i = 0; i < n; i++)
        words[i] = entry_get(table, i);
    return words;
}

static void take(struct answer *answer, const struct job *job, const uint64_t *out)
{
    struct table bytes = {answer->out, job->out.bytes};
    size_t i;
    for (i = 0; i < job->out.bytes / 8; i++)
        entry_set(&bytes, i, out[i]);
}

struct answer expected_of(const struct job *job)
{
    struct answer answer = {refusal(job), 0, malloc(job->out.bytes ? job->out.bytes : 1)};
    uint64_t *first, *second, *support, *out;
    size_t k = job->support.bytes / 8, n = job->first.bytes / 8, m = job->out.bytes / 8;

    if (!answer.out)
        exit(2);
    if (job->out.bytes)
        memcpy(answer.out, job->out.at, job->out.bytes);
    if (answer.number)
        return answer;
    first = words_of(&job->first);
    second = words_of(&job->second);
    support = words_of(&job->support);
    out = words_of(&job->out);
    if (job->call == RECOVER) {
        answer.number = cobra_recover_multivar_poly(first, n, support, k, job->total, job->width,
                                                    job->degree, out, m);
    } else if (job->call == VALUE) {
        answer.number = cobra_box_value(first, n, support, k, job->total, job->width, job->degree,
                                        second, k, &answer.value);
    } else {
        size_t entries = n * fit_columns(k, box_degree(job), job->degree);
        uint64_t *matrix = calloc(entries + n, 8);
        if (!matrix)
            exit(2);
        answer.number = cobra_recover_weighted_poly(
            first, n, second, n, support, k, job->total, job->width, job->degree, job->grid, matrix,
            entries, matrix + entries, n, out, m, &answer.value);
        free(matrix);
    }
    if (job->call != VALUE)
        take(&answer, job, out);
    free(first);
    free(second);
    free(support);
    free(out);
    return answer;
}
