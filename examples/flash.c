/* flash [FILE]: puts the table of a CLUT element into a table file, as for a controller's flash, takes it out again, and looks a colour up
 * before and after. With FILE the bytes are written there and read from there; without it they stay in memory. Then they are damaged.
 *
 * The element is of cyan, magenta, yellow and black with 3, 3, 2 and 3 lines. Red, green and blue are 1 - 0.4 * (cyan, magenta, yellow)
 * - 0.4 * black: the inks 0.1, 0.2, 0.3, 0.4 give 0.80, 0.76, 0.72. */
#include <inttypes.h>
#include <stdio.h>
#include <stdlib.h>
#include <string.h>
#include "tenahvar.h"

enum { N = 4, M = 3, HEAD = 20, TOTAL = 3 * 3 * 2 * 3 * M, BLOCK = 512 };

/* A table to look up in. */
struct table {
    uint8_t sizes[16];
    size_t n, m, total;
    float *entries;
};

/* The element: sixteen sizes, the precision, padding, then a byte for each entry. 0.2 is the byte 51. */
static void fill(uint8_t element[HEAD + TOTAL]) {
    const uint8_t head[HEAD] = {3, 3, 2, 3, [16] = 1};
    memcpy(element, head, HEAD);
    for (int e = 0; e < TOTAL; e++) {
        const int node = e / M, black = node % 3, lines[M] = {node / 18, node / 6 % 3, 2 * (node / 3 % 2)};
        element[HEAD + e] = (uint8_t)(51 * (5 - lines[e % M] - black));
    }
}

static uint32_t show(const char *what, const struct table *table) {
    const float inks[N] = {0.1f, 0.2f, 0.3f, 0.4f};
    float colour[M];
    uint32_t number = tenahvar_lookup(table->sizes, table->n, table->m, table->entries, table->total, inks, N, colour, M);
    if (number == TENAHVAR_DONE) printf("%s: %.6f %.6f %.6f\n", what, colour[0], colour[1], colour[2]);
    return number;
}

/* The file of a table, to be freed. */
static uint32_t written(const struct table *table, uint8_t **file, size_t *length) {
    uint64_t bytes = 0;
    uint32_t number = tenahvar_file_length(table->sizes, table->n, table->m, &bytes);
    *length = (size_t)bytes;
    *file = malloc(*length + 1);
    if (number != TENAHVAR_DONE || *file == NULL) return number;
    return tenahvar_write_table(table->sizes, table->n, table->m, table->entries, table->total, *file, *length);
}

/* The table of a file, its entries to be freed: block 0 tells how much room they need. */
static uint32_t read_back(const uint8_t *file, size_t length, struct table *table) {
    uint64_t total = 0;
    uint32_t number = tenahvar_file_layout(file, length < BLOCK ? length : BLOCK, table->sizes, &table->n, &table->m);
    if (number == TENAHVAR_DONE) number = tenahvar_total(table->sizes, table->n, table->m, &total);
    if (number != TENAHVAR_DONE) return number;
    table->total = (size_t)total;
    table->entries = malloc(table->total * sizeof *table->entries);
    if (table->entries == NULL) exit(1);
    return tenahvar_read_table(file, length, table->sizes, &table->n, &table->m, table->entries, table->total);
}

/* The bytes go to a file and come back; false where that cannot be. */
static int stored(const char *name, uint8_t *bytes, size_t length) {
    FILE *file = fopen(name, "wb");
    if (file == NULL) return 0;
    int done = fwrite(bytes, 1, length, file) == length;
    done = fclose(file) == 0 && done;
    memset(bytes, 0, length);
    file = done ? fopen(name, "rb") : NULL;
    if (file == NULL) return 0;
    done = fread(bytes, 1, length, file) == length;
    fclose(file);
    return done;
}

static void refused(const char *what, const uint8_t *file, size_t length) {
    struct table table = {{0}, 0, 0, 0, NULL};
    uint32_t number = read_back(file, length, &table);
    free(table.entries);
    printf("%s: refused %" PRIu32 ", %s\n", what, number, tenahvar_refusal_text(number));
}

int main(int count, char **words) {
    uint8_t element[HEAD + TOTAL], *file = NULL;
    float entries[TOTAL];
    size_t length = 0;
    struct table before = {{0}, N, M, TOTAL, entries}, after = {{0}, 0, 0, 0, NULL};
    fill(element);
    if (tenahvar_read_clut(element, sizeof element, N, M, before.sizes, entries, TOTAL) != TENAHVAR_DONE) return 1;
    if (show("before", &before) != TENAHVAR_DONE || written(&before, &file, &length) != TENAHVAR_DONE || file == NULL) return 1;
    if (count > 1 && !stored(words[1], file, length)) {
        fprintf(stderr, "%s: the file cannot be written and read\n", words[1]);
        free(file);
        return 1;
    }
    if (read_back(file, length, &after) != TENAHVAR_DONE) return 1;
    printf("table file: %zu inks in, %zu out, %zu entries, %zu bytes\n", after.n, after.m, after.total, length);
    if (show("after", &after) != TENAHVAR_DONE) return 1;
    printf("%s\n", memcmp(entries, after.entries, sizeof entries) == 0 ? "the entries are the same" : "the entries differ");

    refused("the last block is missing", file, length - BLOCK);
    file[BLOCK + 100] ^= 1;
    refused("a byte of block 1 is damaged", file, length);
    free(after.entries);
    free(file);
    return 0;
}
