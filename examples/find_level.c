/*
 * Levels of three finds from a formula's values on a small grid: recovers the formula's polynomial
 * with cobra_recover and evaluates it at each find's readings with cobra_value.
 *
 * usage: find_level FILE. The file has decimal numbers: width, total, degree, count, then the
 * support, then a value for each grid point, first support variable fastest.
 */
#include "cobra.h"

#include <inttypes.h>
#include <stdio.h>
#include <stdlib.h>

/* a find's number and its readings: staff, tilt */
static const struct { int number; uint64_t reading[2]; } finds[] = {
    {1017, {1840, 3}}, {1018, {1902, 0}}, {1044, {65, 255}},
};

/* entry i of a table of bytes, eight to an entry, least first */
static void put(uint8_t *table, size_t i, uint64_t entry)
{
    int j;
    for (j = 0; j < 8; j++)
        table[8 * i + j] = (uint8_t)(entry >> 8 * j);
}

static uint64_t next_number(FILE *file)
{
    uint64_t number;
    if (fscanf(file, "%" SCNu64, &number) != 1) {
        fprintf(stderr, "find_level: the file ends too soon\n");
        exit(1);
    }
    return number;
}

int main(int argc, char **argv)
{
    static uint8_t support[8 * COBRA_MAX_VARIABLES];
    static uint8_t values[8 * COBRA_MAX_ENTRIES], coeffs[8 * COBRA_MAX_ENTRIES];
    uint64_t head[4]; /* width, total, degree, count */
    size_t cells = 1, i;
    uint32_t answer;
    FILE *file = argc == 2 ? fopen(argv[1], "r") : NULL;

    if (!file) {
        fprintf(stderr, "usage: find_level FILE\n");
        return 1;
    }
    for (i = 0; i < 4; i++)
        head[i] = next_number(file);
    if (head[0] > 64 || head[1] > COBRA_MAX_VARIABLES || head[2] > 255 || head[3] != 2) {
        fprintf(stderr, "find_level: the formula must have two variables\n");
        return 1;
    }
    for (i = 0; i < head[3]; i++) {
        put(support, i, next_number(file));
        cells *= head[2] + 1;
    }
    if (cells > COBRA_MAX_ENTRIES) {
        fprintf(stderr, "find_level: the grid has more than %u points\n", COBRA_MAX_ENTRIES);
        return 1;
    }
    for (i = 0; i < cells; i++)
        put(values, i, next_number(file));
    fclose(file);

    answer = cobra_recover(values, 8 * cells, support, 8 * head[3], head[3], (uint32_t)head[1],
                           (uint32_t)head[0], (uint8_t)head[2], coeffs, 8 * cells);
    if (answer != COBRA_OK) {
        printf("the values are turned down: %" PRIu32 "\n", answer);
        return 1;
    }
    for (i = 0; i < sizeof finds / sizeof *finds; i++) {
        uint8_t point[16];
        uint64_t level;
        put(point, 0, finds[i].reading[0]);
        put(point, 1, finds[i].reading[1]);
        answer = cobra_value(coeffs, 8 * cells, support, 8 * head[3], head[3], (uint32_t)head[1],
                             (uint32_t)head[0], (uint8_t)head[2], point, sizeof point, &level);
        if (answer != COBRA_OK) {
            printf("find %d is turned down: %" PRIu32 "\n", finds[i].number, answer);
            return 1;
        }
        printf("find %d: level %" PRIu64 "\n", finds[i].number, level);
    }
    return 0;
}
