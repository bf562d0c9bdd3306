/* A page uses four of twelve inks: its colours are looked up without the halves that count for nothing, and the node reads are told.
 *
 * Each ink has two lines. Ink i, from 0, takes 1/16 of each light, and of light i % 3 another 1/16: with all twelve nothing is left. A lookup of twelve inks
 * makes 6 * 2^9 = 3072 node reads. Here they are 6, doubled by each ink from the fourth on that stands between two lines. */
#include <inttypes.h>
#include <math.h>
#include <stdio.h>
#include "tenahvar.h"

enum { N = 12, M = 3, TOTAL = (1 << N) * M };

static const uint8_t sizes[16] = {2, 2, 2, 2, 2, 2, 2, 2, 2, 2, 2, 2};
static float table[TOTAL];

static void fill(void) {
    for (int e = 0; e < TOTAL; e++) {
        int node = e / M, light = e % M, left = 16;
        for (int ink = 0; ink < N; ink++)
            if (node >> (N - 1 - ink) & 1) left -= ink % M == light ? 2 : 1;
        table[e] = (float)left / 16.0f;
    }
}

/* The colour by both calls, and the reads. */
static int show(const char *what, const float inks[N]) {
    float plain[M], colour[M];
    uint32_t reads;
    if (tenahvar_lookup(sizes, N, M, table, TOTAL, inks, N, plain, M) != TENAHVAR_DONE) return 1;
    if (tenahvar_lookup_skipping(sizes, N, M, table, TOTAL, inks, N, colour, M, &reads) != TENAHVAR_DONE) return 1;
    printf("%s: lookup %.6f %.6f %.6f", what, plain[0], plain[1], plain[2]);
    printf(", skipping %.6f %.6f %.6f, %" PRIu32 " reads\n", colour[0], colour[1], colour[2], reads);
    return 0;
}

int main(void) {
    const float paper[N] = {0}, all[N] = {0.5f, 0.5f, 0.5f, 0.5f, 0.5f, 0.5f, 0.5f, 0.5f, 0.5f, 0.5f, 0.5f, 0.5f};
    const float first[N] = {0.5f, 0.25f, 0.75f, 0.5f}, last[N] = {0, 0, 0, 0, 0, 0, 0, 0, 0.25f, 0.5f, 0.5f, 0.75f};
    /* Ink 9 is full: it stands on its last line and costs nothing. */
    const float apart[N] = {0, 0.5f, 0, 0, 0.25f, 0, 0, 0, 1, 0, 0, 0.5f}, broken[N] = {0.5f, 0.25f, 0.75f, NAN};
    float colour[M];
    uint32_t reads;
    fill();
    if (show("paper", paper) || show("inks 1 to 4", first) || show("inks 9 to 12", last)) return 1;
    if (show("inks 2, 5, 9, 12", apart) || show("all inks", all)) return 1;

    uint32_t number = tenahvar_lookup_skipping(sizes, N, M, table, TOTAL, broken, N, colour, M, &reads);
    printf("a broken sensor's NaN: refused %" PRIu32 ", %" PRIu32 " reads\n", number, reads);
    return 0;
}
