/* The moved datum: forms that were moved by hand, values before and after, every refusal and each
 * pair of causes, lengths around each table's, long supports, and NULL without entries. */
#include "driver.h"

#include <stdlib.h>
#include <string.h>

enum { COEFFS, SUPPORT, OFFSETS, OUT, TABLES };
#define MOST 1000   /* entries of a table */
#define CANARIES 2  /* entries beside a table */

/* the arguments of a call; its output before it */
struct move {
    uint64_t table[TABLES][MOST];
    size_t len[TABLES];
    uint32_t total, width;
    uint8_t degree;
};

static size_t cells_of(size_t k, uint8_t degree)
{
    size_t cells = 1;
    while (k-- > 0)
        cells *= (size_t)degree + 1;
    return cells;
}

/* settings that pass: the last k of twenty variables, the highest first; all entries are filled */
static struct move passing(size_t k, uint8_t degree, uint32_t width)
{
    struct move move;
    size_t t, i;
    move.len[COEFFS] = move.len[OUT] = cells_of(k, degree);
    move.len[SUPPORT] = move.len[OFFSETS] = k;
    move.total = 20;
    move.width = width;
    move.degree = degree;
    for (t = 0; t < TABLES; t++)
        for (i = 0; i < MOST; i++)
            move.table[t][i] = t == SUPPORT ? 19 - i % 20 : 1000 * t + i;
    return move;
}

static void *some(size_t bytes)
{
    void *at = malloc(bytes);
    if (!at)
        exit(2);
    return at;
}

/* The call on copies of the tables. It says `number`, and leaves `moved` in the output, all else as
 * it was; without `moved` the output too. Before each table stand canaries, behind it in every
 * second call: in the others it ends with its block, where valgrind sees a read past it. A table
 * without entries is NULL. */
static void says(const struct move *move, uint32_t number, const uint64_t *moved)
{
    static const char *const names[TABLES] = {
        "the coefficients of a moved form", "its support", "its offsets", "the moved form",
    };
    static unsigned calls;
    uint64_t *block[TABLES], *expected[TABLES], *at[TABLES];
    size_t bytes[TABLES], t, behind = calls++ % 2 ? CANARIES : 0;
    uint32_t said;
    for (t = 0; t < TABLES; t++) {
        size_t len = move->len[t];
        bytes[t] = (CANARIES + len + behind) * sizeof **block;
        block[t] = some(bytes[t]);
        expected[t] = some(bytes[t]);
        memset(block[t], 0xa5, bytes[t]);
        memcpy(block[t] + CANARIES, move->table[t], len * sizeof **block);
        memcpy(expected[t], block[t], bytes[t]);
        at[t] = len ? block[t] + CANARIES : NULL;
    }
    if (moved)
        memcpy(expected[OUT] + CANARIES, moved, move->len[OUT] * sizeof *moved);
    said = cobra_move_datum(at[COEFFS], move->len[COEFFS], at[SUPPORT], move->len[SUPPORT],
                            move->total, move->width, move->degree, at[OFFSETS],
                            move->len[OFFSETS], at[OUT], move->len[OUT]);
    check("the number of a moved form", NULL, &number, &said, sizeof said);
    for (t = 0; t < TABLES; t++) {
        check(names[t], NULL, expected[t], block[t], bytes[t]);
        free(block[t]);
        free(expected[t]);
    }
}

static void by_hand(void)
{
    static const struct {
        size_t k;
        uint8_t degree;
        uint32_t width;
        uint64_t coeffs[9], offsets[2], moved[9];
    } forms[] = {
        /* 1200 - 15 x + 2 x^2 by 37, also with bits above the width, back again, and by 0 */
        {1, 2, 16, {1200, 65523, 2}, {37}, {3383, 135, 2}},
        {1, 2, 16, {1200, 65523, 2}, {65573}, {3383, 135, 2}},
        {1, 2, 16, {3383, 135, 2}, {UINT64_MAX - 36}, {1200, 65523, 2}},
        {1, 2, 16, {3383, 135, 2}, {65499}, {1200, 65523, 2}},
        {1, 2, 16, {1200, 65523, 2}, {0}, {1200, 65523, 2}},
        /* x(x-1)(x-2): x^2 and x^3 have a bit less than the width */
        {1, 3, 8, {0, 0, 0, 1}, {1}, {0, 0, 3, 1}},
        {1, 3, 8, {0, 0, 0, 1}, {2}, {0, 6, 6, 1}},
        {1, 3, 8, {0, 0, 0, 1}, {255}, {250, 6, 125, 1}},
        /* boxes that are no normal forms */
        {1, 2, 8, {256, 511, 129}, {0}, {0, 255, 1}},
        {1, 2, 8, {256, 511, 129}, {1}, {255, 1, 1}},
        {1, 4, 2, {0, 0, 0, 0, 1}, {3}, {0, 0, 0, 0, 0}},
        /* x y, each variable by its own offset; x(x-1) y(y-1) */
        {2, 1, 8, {0, 0, 0, 1}, {3, 5}, {15, 5, 3, 1}},
        {2, 2, 8, {0, 0, 0, 0, 0, 0, 0, 0, 1}, {2, 3}, {12, 24, 6, 12, 24, 6, 2, 4, 1}},
        /* all bits, and degree 0 */
        {1, 1, 64, {5, 3}, {UINT64_C(1) << 63}, {(UINT64_C(1) << 63) + 5, 3}},
        {1, 1, 64, {5, 3}, {UINT64_MAX}, {2, 3}},
        {1, 0, 8, {300}, {77}, {44}},
        {2, 0, 64, {UINT64_MAX}, {1, 2}, {UINT64_MAX}},
    };
    size_t i;
    for (i = 0; i < sizeof forms / sizeof *forms; i++) {
        struct move move = passing(forms[i].k, forms[i].degree, forms[i].width);
        memcpy(move.table[COEFFS], forms[i].coeffs, sizeof forms[i].coeffs);
        memcpy(move.table[OFFSETS], forms[i].offsets, sizeof forms[i].offsets);
        says(&move, COBRA_OK, forms[i].moved);
    }
}

static void passes(uint32_t said)
{
    const uint32_t number = COBRA_OK;
    check("the number of a call that passes", NULL, &number, &said, sizeof said);
}

static uint64_t value(const struct move *move, const uint64_t *coeffs, const uint64_t *point)
{
    size_t n = move->len[COEFFS], k = move->len[SUPPORT];
    uint64_t at;
    passes(cobra_box_value(coeffs, n, move->table[SUPPORT], k, move->total, move->width,
                           move->degree, point, k, &at));
    return at;
}

/* any coefficients and offsets at every width: the moved form is valid, and its values, at negative
 * points too, are those at the moved points */
static void values(size_t k, uint8_t degree)
{
    uint64_t state = 1, moved[MOST], point[20], there[20], valid, yes = 1;
    uint32_t width;
    size_t i, turn;
    for (width = 2; width <= 64; width++) {
        struct move move = passing(k, degree, width);
        size_t n = move.len[COEFFS];
        for (i = 0; i < n + k; i++) {
            state = state * UINT64_C(6364136223846793005) + UINT64_C(1442695040888963407);
            *(i < n ? &move.table[COEFFS][i] : &move.table[OFFSETS][i - n]) = state ^ state >> 29;
        }
        passes(cobra_move_datum(move.table[COEFFS], n, move.table[SUPPORT], k, 20, width, degree,
                                move.table[OFFSETS], k, moved, n));
        says(&move, COBRA_OK, moved);
        passes(cobra_box_is_valid(moved, n, move.table[SUPPORT], k, 20, width, degree, &valid));
        check("whether a moved form is valid", NULL, &yes, &valid, sizeof valid);
        for (turn = 0; turn < 4; turn++) {
            uint64_t expected, got;
            for (i = 0; i < k; i++) {
                point[i] = turn * i - turn; /* also below zero */
                there[i] = point[i] + move.table[OFFSETS][i];
            }
            expected = value(&move, move.table[COEFFS], there);
            got = value(&move, moved, point);
            check("the value of a moved form", NULL, &expected, &got, sizeof got);
        }
    }
}

/* the causes in the order of the paper; each spoils a call that an earlier one may have spoilt */
static void no_support(struct move *move) { move->len[SUPPORT] = 0; }
static void many_variables(struct move *move) { move->total = 21; }
static void narrow(struct move *move) { move->width = 1; }
static void index_past(struct move *move) { move->table[SUPPORT][2] = (uint64_t)1 << 32; }
static void index_twice(struct move *move) { move->table[SUPPORT][0] = move->table[SUPPORT][1]; }
static void large(struct move *move) { move->degree = 255; }
static void coeffs_length(struct move *move) { move->len[COEFFS]--; }
static void offsets_length(struct move *move) { move->len[OFFSETS]++; }
static void out_length(struct move *move) { move->len[OUT]++; }

static const struct cause {
    uint32_t number;
    void (*spoil)(struct move *move);
} causes[] = {
    {1, no_support},  {2, many_variables}, {3, narrow},         {5, index_past}, {7, index_twice},
    {8, large},       {9, coeffs_length},  {9, offsets_length}, {9, out_length},
};
#define CAUSES (sizeof causes / sizeof *causes)

static void refused(void)
{
    static const uint32_t widths[] = {0, 1, 65, 66, 255, 256, 258, UINT32_MAX};
    static const uint32_t totals[] = {21, 32, 276, UINT32_MAX};
    struct move move;
    size_t i, j;
    for (i = 0; i < CAUSES; i++)
        for (j = i; j < CAUSES; j++) {
            move = passing(3, 2, 8);
            causes[i].spoil(&move);
            if (j != i)
                causes[j].spoil(&move);
            says(&move, causes[i].number, NULL);
        }
    move = passing(3, 2, 8);
    for (i = 0; i < sizeof widths / sizeof *widths; i++) {
        move.width = widths[i];
        says(&move, COBRA_WIDTH_OUT_OF_RANGE, NULL);
    }
    move.width = 8;
    for (i = 0; i < sizeof totals / sizeof *totals; i++) {
        move.total = totals[i];
        says(&move, COBRA_TOO_MANY_VARIABLES, NULL);
    }
    move.total = 19; /* the support has index 19 */
    says(&move, COBRA_SUPPORT_INDEX, NULL);
    move = passing(3, 2, 8);
    move.degree = 40;
    says(&move, COBRA_TOO_LARGE, NULL);
}

/* every table without entries, an entry too short and too long, and very long */
static void lengths(size_t k, uint8_t degree)
{
    static const size_t tables[] = {COEFFS, OFFSETS, OUT};
    size_t i, j;
    for (i = 0; i < sizeof tables / sizeof *tables; i++) {
        struct move move = passing(k, degree, 8);
        size_t t = tables[i], exact = move.len[t];
        const size_t wrong[] = {0, exact - 1, exact + 1, MOST};
        for (j = 0; j < sizeof wrong / sizeof *wrong; j++) {
            move.len[t] = wrong[j];
            says(&move, COBRA_WRONG_LENGTH, NULL);
        }
    }
}

/* more than twenty indices: 7 where all are below the total, 5 where one is not */
static void long_supports(void)
{
    static const size_t longer[] = {21, 22, MOST};
    size_t i;
    for (i = 0; i < sizeof longer / sizeof *longer; i++) {
        struct move move = passing(1, 1, 8);
        move.len[SUPPORT] = move.len[OFFSETS] = longer[i];
        says(&move, COBRA_REPEATED_INDEX, NULL);
        move.table[SUPPORT][longer[i] - 1] = UINT64_MAX;
        says(&move, COBRA_SUPPORT_INDEX, NULL);
    }
}

void part_datum(void)
{
    by_hand();
    values(1, 3);
    values(1, 70);
    values(3, 3);
    values(2, 15);
    values(9, 1);
    values(20, 0);
    refused();
    lengths(1, 2);
    lengths(3, 2);
    lengths(20, 0);
    long_supports();
}
