/*
 * The normal form of a polynomial, in two ways: from its coefficients in powers, and from its
 * values on a grid. Both give the same table, though the polynomial can be written in several ways:
 * modulo 2^16 the term 32768 x^3 has the values of 32768 x. Recovered again from a larger grid it is
 * the same form, in a box of a higher degree. Then the normal form in powers.
 */
#include "cobra_tables.h"

#include <inttypes.h>
#include <stdio.h>
#include <stdlib.h>

#define WIDTH 16
#define DEGREE 3
#define CELLS (DEGREE + 1)
#define MORE_DEGREE 5
#define MORE_CELLS (MORE_DEGREE + 1)

/* the polynomial's settings, as the calls take them: one variable, number 0 */
#define SETTINGS support, 1, 1, WIDTH, DEGREE
#define MORE_SETTINGS support, 1, 1, WIDTH, MORE_DEGREE

/* 1200 - 15 x + 2 x^2 + 32768 x^3; the bits above the width do not count */
static const uint64_t powers[CELLS] = {1200, (uint64_t)-15, 2, 32768};
static const uint64_t support[1] = {0};

static void require(const char *call, uint32_t number)
{
    if (number == COBRA_OK)
        return;
    printf("%s is turned down: %" PRIu32 "\n", call, number);
    exit(1);
}

static void print(const char *what, const uint64_t *table, size_t cells)
{
    size_t i;
    printf("%s", what);
    for (i = 0; i < cells; i++)
        printf(" %" PRIu64, table[i]);
    printf("\n");
}

int main(void)
{
    uint64_t normal[CELLS], values[MORE_CELLS], recovered[CELLS], again[MORE_CELLS], back[CELLS];
    uint64_t same, x;

    require("cobra_normalize_polynomial",
            cobra_normalize_polynomial(powers, CELLS, SETTINGS, normal, CELLS));
    print("normal form:", normal, CELLS);

    for (x = 0; x < MORE_CELLS; x++)
        values[x] = powers[0] + x * (powers[1] + x * (powers[2] + x * powers[3]));
    require("cobra_recover_multivar_poly",
            cobra_recover_multivar_poly(values, CELLS, SETTINGS, recovered, CELLS));
    print("recovered:", recovered, CELLS);

    require("cobra_box_same",
            cobra_box_same(normal, CELLS, SETTINGS, recovered, CELLS, SETTINGS, &same));
    printf("the same: %s\n", same ? "yes" : "no");

    require("cobra_recover_multivar_poly",
            cobra_recover_multivar_poly(values, MORE_CELLS, MORE_SETTINGS, again, MORE_CELLS));
    print("recovered at degree 5:", again, MORE_CELLS);
    require("cobra_box_same",
            cobra_box_same(normal, CELLS, SETTINGS, again, MORE_CELLS, MORE_SETTINGS, &same));
    printf("the same: %s\n", same ? "yes" : "no");

    require("cobra_to_monomial_basis",
            cobra_to_monomial_basis(normal, CELLS, SETTINGS, back, CELLS));
    print("in powers:", back, CELLS);
    return 0;
}
