/*
 * A trench datum is re-levelled: a staff reading x at the new datum is x + 37 at the old one. The
 * form that was recovered from levels at the old datum is moved by 37 and takes the new readings:
 * each find keeps its level. Moved back it is the form that it was.
 */
#include "cobra_tables.h"

#include <inttypes.h>
#include <stdio.h>
#include <stdlib.h>

#define WIDTH 16
#define DEGREE 2
#define CELLS (DEGREE + 1)

/* the form's settings, as the calls take them: one variable, number 0, the staff reading */
#define SETTINGS support, 1, 1, WIDTH, DEGREE

/* the levels 1200 - 15 x + 2 x^2 at the readings 0, 1, 2 of the old datum */
static const uint64_t levels[CELLS] = {1200, 1187, 1178};
static const uint64_t support[1] = {0};

/* an offset for each variable; a negative one crosses modulo 2^64 */
#define OFFSET 37
static const uint64_t offset[1] = {OFFSET}, back[1] = {(uint64_t)-OFFSET};

/* a find's number and its reading at the new datum */
static const struct { int number, reading; } finds[] = {{1017, 0}, {1018, 140}, {1044, -12}};

static void require(const char *call, uint32_t number)
{
    if (number == COBRA_OK)
        return;
    printf("%s is turned down: %" PRIu32 "\n", call, number);
    exit(1);
}

static void print(const char *what, const uint64_t *form)
{
    size_t i;
    printf("%s", what);
    for (i = 0; i < CELLS; i++)
        printf(" %" PRIu64, form[i]);
    printf("\n");
}

/* the level at a reading; a negative one crosses modulo 2^64 as well */
static uint64_t level(const uint64_t *form, int reading)
{
    const uint64_t point[1] = {(uint64_t)reading};
    uint64_t value;
    require("cobra_box_value", cobra_box_value(form, CELLS, SETTINGS, point, 1, &value));
    return value;
}

int main(void)
{
    uint64_t old[CELLS], moved[CELLS], again[CELLS], same;
    size_t i;

    require("cobra_recover_multivar_poly",
            cobra_recover_multivar_poly(levels, CELLS, SETTINGS, old, CELLS));
    print("at the old datum:", old);

    require("cobra_move_datum",
            cobra_move_datum(old, CELLS, SETTINGS, offset, 1, moved, CELLS));
    print("at the new datum:", moved);
    for (i = 0; i < sizeof finds / sizeof *finds; i++) {
        int reading = finds[i].reading, before = reading + OFFSET;
        printf("find %d: reading %d, level %" PRIu64, finds[i].number, reading,
               level(moved, reading));
        printf("; at the old datum %d, level %" PRIu64 "\n", before, level(old, before));
    }

    require("cobra_move_datum",
            cobra_move_datum(moved, CELLS, SETTINGS, back, 1, again, CELLS));
    require("cobra_box_same",
            cobra_box_same(old, CELLS, SETTINGS, again, CELLS, SETTINGS, &same));
    printf("moved back the same: %s\n", same ? "yes" : "no");
    return 0;
}
