/* Looks a colour of four inks up in a small table and prints its bits and decimals. */
#include <inttypes.h>
#include <math.h>
#include <stdio.h>
#include <string.h>
#include "tenahvar.h"

enum { G = 2, N = 4, M = 3, NODES = 16 };

/* Red, green and blue at the nodes of cyan, magenta, yellow and black: an ink takes its light away, black takes all. */
static void fill(float table[NODES * M]) {
    for (int node = 0; node < NODES; node++) {
        int black = node % 2;
        for (int light = 0; light < M; light++) {
            int ink = node >> (N - 1 - light) & 1;
            table[node * M + light] = black || ink ? 0.0f : 1.0f;
        }
    }
}

static uint32_t bits(float x) {
    uint32_t b;
    memcpy(&b, &x, sizeof b);
    return b;
}

static void show(const char *what, const float *colour) {
    printf("%s", what);
    for (int o = 0; o < M; o++) printf(" %08" PRIX32 " %.6f", bits(colour[o]), colour[o]);
    printf("\n");
}

int main(void) {
    uint8_t sizes[16];
    float table[NODES * M], answer[M];
    const float inks[N] = {0.1f, 0.2f, 0.3f, 0.4f}, broken[N] = {0.1f, NAN, 0.3f, 0.4f};
    const size_t red[N] = {0, 1, 1, 0};
    size_t offset;
    memset(sizes, G, sizeof sizes);
    fill(table);

    uint32_t number = tenahvar_lookup(sizes, N, M, table, NODES * M, inks, N, answer, M);
    if (number != TENAHVAR_DONE) return 1;
    show("colour", answer);

    number = tenahvar_node(sizes, N, M, table, NODES * M, red, N, &offset);
    if (number != TENAHVAR_DONE) return 1;
    show("node", table + offset);

    number = tenahvar_lookup(sizes, N, M, table, NODES * M - 1, inks, N, answer, M);
    printf("a table of one entry less: refused %" PRIu32 "\n", number);

    number = tenahvar_lookup(sizes, N, M, table, NODES * M, broken, N, answer, M);
    printf("a broken sensor's NaN: refused %" PRIu32 ", %s\n", number, tenahvar_refusal_text(number));
    return 0;
}
