/* A proofer fixes black: cuts it out of a table of five inks at a grid line and looks colours up with the four others.
 *
 * Cyan and magenta have three lines, yellow two, black five and light black two. The light at a node is (1 - ink) * (1 - black) * (1 - light black / 2),
 * with cyan for red, magenta for green and yellow for blue. Black on line 2 of 0 to 4 is 0.5, so the inks 0.25, 0.5, 0.75 with light black 0.5 leave
 * 0.75, 0.5 and 0.25 times 0.5 * 0.75: 0.28125, 0.1875, 0.09375. */
#include <inttypes.h>
#include <stdio.h>
#include <string.h>
#include "tenahvar.h"

enum { N = 5, M = 3, BLACK = 4, LINE = 2, SLAB = 3 * 3 * 2 * 2 * M, TOTAL = SLAB * 5 };

static const uint8_t sizes[16] = {3, 3, 2, 5, 2};

/* What an ink leaves of the light at a node: 1 on its first line, 0 on its last. */
static float left(int node, int ink) {
    for (int after = N - 1; after > ink; after--) node /= sizes[after];
    return 1.0f - (float)(node % sizes[ink]) / (float)(sizes[ink] - 1);
}

static void fill(float table[TOTAL]) {
    for (int e = 0; e < TOTAL; e++) {
        int node = e / M, light = e % M;
        table[e] = left(node, light) * left(node, 3) * (1.0f + left(node, 4)) / 2.0f;
    }
}

static void show(const char *what, const float *colour) { printf("%s %.5f %.5f %.5f\n", what, colour[0], colour[1], colour[2]); }

int main(void) {
    float table[TOTAL], slab[SLAB], colour[M];
    const float inks[N] = {0.25f, 0.5f, 0.75f, 0.5f, 0.5f}, others[N - 1] = {0.25f, 0.5f, 0.75f, 0.5f};
    fill(table);

    if (tenahvar_lookup(sizes, N, M, table, TOTAL, inks, N, colour, M) != TENAHVAR_DONE) return 1;
    show("five inks", colour);

    /* The slab's sizes: black's is taken out, and those after it move up by one. */
    uint8_t other_sizes[16] = {0};
    memcpy(other_sizes, sizes, BLACK - 1);
    memcpy(other_sizes + BLACK - 1, sizes + BLACK, 16 - BLACK);
    if (tenahvar_cut_slab(sizes, N, M, table, TOTAL, BLACK, LINE, slab, SLAB) != TENAHVAR_DONE) return 1;
    if (tenahvar_lookup(other_sizes, N - 1, M, slab, SLAB, others, N - 1, colour, M) != TENAHVAR_DONE) return 1;
    show("four inks", colour);

    uint32_t number = tenahvar_cut_slab(sizes, N, M, table, TOTAL, BLACK, sizes[BLACK - 1], slab, SLAB);
    printf("black past its last line: refused %" PRIu32 "\n", number);
    return 0;
}
