/* driver PART [--plant K]: runs a part, and prints how many comparisons it made. With --plant the
 * K-th comparison sees a flipped bit, which must be reported. */
#include "check.h"

#include <pthread.h>
#include <stdio.h>
#include <stdlib.h>
#include <string.h>

static void *refusals_and_lengths(void *none)
{
    part_refusals();
    part_lengths();
    return none;
}

/* two threads make the same calls at once, each with tables of its own */
static void part_threads(void)
{
    pthread_t threads[2];
    int i;
    for (i = 0; i < 2; i++)
        if (pthread_create(&threads[i], NULL, refusals_and_lengths, NULL))
            exit(2);
    for (i = 0; i < 2; i++)
        pthread_join(threads[i], NULL);
}

int main(int argc, char **argv)
{
    const char *part = argc > 1 ? argv[1] : "";
    if (argc == 4 && !strcmp(argv[2], "--plant"))
        check_plant = strtoul(argv[3], NULL, 10);
    if (!strcmp(part, "refusals"))
        part_refusals();
    else if (!strcmp(part, "lengths"))
        part_lengths();
    else if (!strcmp(part, "room"))
        part_room();
    else if (!strcmp(part, "falling"))
        part_falling();
    else if (!strcmp(part, "datum"))
        part_datum();
    else if (!strcmp(part, "threads"))
        part_threads();
    else if (!strcmp(part, "stack"))
        part_stack();
    else {
        fprintf(stderr, "usage: driver refusals|lengths|room|falling|datum|threads|stack [--plant K]\n");
        return 2;
    }
    printf("driver: %s: %lu comparisons\n", part, check_count());
    return 0;
}
