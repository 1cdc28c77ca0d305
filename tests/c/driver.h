/* What the parts of the driver share. */
#ifndef DRIVER_H
#define DRIVER_H

/* the calls on bytes, and those on tables of u64, with which they are compared */
#include "../../include/cobra_tables.h"

enum { RECOVER, VALUE, FIT, CALLS };

/* a table of bytes as it is lent; `at` is NULL where that is what is lent */
struct table {
    uint8_t *at;
    size_t bytes;
};

/* the arguments of a call. RECOVER: first has the values. VALUE: first has the coefficients, second
 * the point. FIT: first has the weights, second the targets; degree is max_degree. */
struct job {
    int call;
    struct table first, second, support, out;
    uint64_t count;
    uint32_t total, width;
    uint8_t degree, grid;
};

/* what a call says and leaves: out has as many bytes as the job's */
struct answer {
    uint32_t number;
    uint64_t value;
    uint8_t *out;
};

/* job.c: jobs own their tables */
void job_free(struct job *job);
void table_set(struct table *table, size_t bytes);             /* new length; what is there stays */
void entry_set(struct table *table, size_t i, uint64_t entry); /* eight bytes, least first */
uint64_t entry_get(const struct table *table, size_t i);
struct answer answer_of(const struct job *job); /* lends copies of the tables and calls */

/* expected.c: the paper's order of refusals, and the u64 calls for the rest */
struct answer expected_of(const struct job *job);

/* check.c: every comparison goes through here; one can be made to see a flipped bit */
void check(const char *what, const struct job *job, const void *expected, const void *got,
           size_t bytes);
void check_number(const struct job *job, uint32_t number); /* the answer is the expected one, with this number */
void check_at_least(const char *what, unsigned long least, unsigned long got);

/* the parts */
void part_refusals(void);
void part_lengths(void);
void part_room(void);
void part_falling(void);
void part_datum(void);
void part_stack(void);

#endif
