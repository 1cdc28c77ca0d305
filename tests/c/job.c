/* Jobs: tables, and the call on copies of them, between canaries, at odd addresses. */
#include "driver.h"

#include <stdio.h>
#include <stdlib.h>
#include <string.h>

static void *some(size_t bytes)
{
    void *at = malloc(bytes ? bytes : 1);
    if (!at) {
        fprintf(stderr, "driver: no memory\n");
        exit(2);
    }
    return at;
}

void table_set(struct table *table, size_t bytes)
{
    uint8_t *at = some(bytes);
    memset(at, 0x3c, bytes);
    if (table->at)
        memcpy(at, table->at, bytes < table->bytes ? bytes : table->bytes);
    free(table->at);
    table->at = at;
    table->bytes = bytes;
}

void entry_set(struct table *table, size_t i, uint64_t entry)
{
    int j;
    for (j = 0; j < 8; j++)
        table->at[8 * i + j] = (uint8_t)(entry >> 8 * j);
}

uint64_t entry_get(const struct table *table, size_t i)
{
    uint64_t entry = 0;
    int j;
    for (j = 8; j-- > 0;)
        entry = entry << 8 | table->at[8 * i + j];
    return entry;
}

void job_free(struct job *job)
{
    free(job->first.at);
    free(job->second.at);
    free(job->support.at);
    free(job->out.at);
    memset(job, 0, sizeof *job);
}

/* A copy of a table as it is lent: `before` bytes of canary, the table, `after` bytes of canary.
 * Without canary behind it the table ends with its block, where valgrind sees a read past it. */
struct lent {
    uint8_t *block, *at;
    size_t before, bytes, after;
};

static struct lent lend(const struct table *table, unsigned way)
{
    struct lent lent = {NULL, NULL, 1 + way % 8, table->bytes, way % 3 ? 8 + way % 5 : 0};
    if (!table->at)
        return lent;
    lent.block = some(lent.before + lent.bytes + lent.after);
    memset(lent.block, 0xa5, lent.before + lent.bytes + lent.after);
    lent.at = lent.block + lent.before;
    if (lent.bytes)
        memcpy(lent.at, table->at, lent.bytes);
    return lent;
}

static void canaries(const char *what, const struct job *job, const struct lent *lent)
{
    uint8_t canary[16];
    memset(canary, 0xa5, sizeof canary);
    if (!lent->block)
        return;
    check(what, job, canary, lent->block, lent->before);
    check(what, job, canary, lent->at + lent->bytes, lent->after);
}

static void give_back(const char *what, const struct job *job, const struct table *table,
                      struct lent *lent)
{
    canaries(what, job, lent);
    if (table)
        check(what, job, table->at, lent->at, lent->bytes);
    free(lent->block);
}

struct answer answer_of(const struct job *job)
{
    static _Thread_local unsigned way;
    struct lent first = lend(&job->first, way + 1), second = lend(&job->second, way + 3);
    struct lent support = lend(&job->support, way + 5), out = lend(&job->out, way);
    struct answer answer = {0, 0x5a5a5a5a5a5a5a5a, NULL};

    way++;
    if (job->call == RECOVER)
        answer.number = cobra_recover(first.at, first.bytes, support.at, support.bytes, job->count,
                                      job->total, job->width, job->degree, out.at, out.bytes);
    else if (job->call == VALUE)
        answer.number = cobra_value(first.at, first.bytes, support.at, support.bytes, job->count,
                                    job->total, job->width, job->degree, second.at, second.bytes,
                                    &answer.value);
    else
        answer.number = cobra_fit(first.at, first.bytes, second.at, second.bytes, support.at,
                                  support.bytes, job->count, job->total, job->width, job->degree,
                                  job->grid, out.at, out.bytes, &answer.value);
    answer.out = some(out.bytes);
    if (out.bytes)
        memcpy(answer.out, out.at, out.bytes);
    give_back("first table", job, &job->first, &first);
    give_back("second table", job, &job->second, &second);
    give_back("support", job, &job->support, &support);
    give_back("beside the output", job, NULL, &out);
    return answer;
}
