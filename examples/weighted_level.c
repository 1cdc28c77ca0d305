/*
 * A level that is only read times a weight: at each of four staff positions the instrument gives
 * weight times level, modulo 2^16. cobra_fit finds the polynomial of the level.
 *
 * The archive links into x86-64 programs, where a uint64_t has its bytes least first: its arrays
 * cross as they are.
 */
#include "cobra.h"

#include <inttypes.h>
#include <stdio.h>

enum { ROWS = 4, CELLS = 3 }; /* grid_degree 3, max_degree 2, one variable */

int main(void)
{
    const uint64_t support[1] = {0};
    const uint64_t weights[ROWS] = {3, 5, 1, 7};
    const uint64_t targets[ROWS] = {3600, 5935, 1178, 8211}; /* weight times 1200, 1187, 1178, 1173 */
    uint64_t coeffs[CELLS], degree_used;
    uint32_t answer;
    size_t i;

    answer = cobra_fit((const uint8_t *)weights, sizeof weights, (const uint8_t *)targets,
                       sizeof targets, (const uint8_t *)support, sizeof support, 1, 1, 16,
                       CELLS - 1, ROWS - 1, (uint8_t *)coeffs, sizeof coeffs, &degree_used);
    if (answer == COBRA_NO_ANSWER) {
        printf("no answer was found; there may be one\n");
        return 1;
    }
    if (answer != COBRA_OK) {
        printf("the fit is turned down: %" PRIu32 "\n", answer);
        return 1;
    }
    printf("degree %" PRIu64 "\n", degree_used);
    for (i = 0; i < CELLS; i++)
        printf("x falling %zu: %21" PRIu64 "\n", i, coeffs[i]);
    return 0;
}
