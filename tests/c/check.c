/* The one comparison. With a number planted, the comparison of that number sees a flipped bit. */
#include "check.h"

#include <stdatomic.h>
#include <stdio.h>
#include <stdlib.h>
#include <string.h>

unsigned long check_plant;
static atomic_ulong done;

unsigned long check_count(void)
{
    return done;
}

static const char *const names[] = {"cobra_recover", "cobra_value", "cobra_fit"};

static void tell(const char *what, const struct job *job)
{
    fprintf(stderr, "driver: comparison %lu: %s differs\n", check_count(), what);
    if (job)
        fprintf(stderr,
                "driver: %s, count %llu, total %lu, width %lu, degree %u, grid %u, bytes %zu %zu "
                "support %zu out %zu\n",
                names[job->call], (unsigned long long)job->count, (unsigned long)job->total,
                (unsigned long)job->width, job->degree, job->grid, job->first.bytes,
                job->second.bytes, job->support.bytes, job->out.bytes);
    exit(1);
}

void check(const char *what, const struct job *job, const void *expected, const void *got,
           size_t bytes)
{
    if (!bytes)
        return;
    if (++done == check_plant) {
        uint8_t *flipped = malloc(bytes);
        int differs;
        if (!flipped)
            exit(2);
        memcpy(flipped, got, bytes);
        flipped[check_plant % bytes] ^= (uint8_t)(1 << check_plant % 8);
        differs = memcmp(expected, flipped, bytes);
        free(flipped);
        if (differs)
            tell(what, job);
    }
    if (memcmp(expected, got, bytes))
        tell(what, job);
}

void check_at_least(const char *what, unsigned long least, unsigned long got)
{
    unsigned char fine = got >= least, yes = 1;
    check(what, NULL, &yes, &fine, 1);
}

static void check_answer(const struct job *job, const struct answer *expected)
{
    struct answer got = answer_of(job);
    check("the number", job, &expected->number, &got.number, sizeof got.number);
    if (job->call != RECOVER)
        check("the value", job, &expected->value, &got.value, sizeof got.value);
    check("the output", job, expected->out, got.out, job->out.bytes);
    free(got.out);
}

void check_number(const struct job *job, uint32_t number)
{
    struct answer expected = expected_of(job);
    check("the number in the order of the paper", job, &number, &expected.number, sizeof number);
    check_answer(job, &expected);
    free(expected.out);
}
