/* Calls tenahvar_cut_slab: each refusal at its boundary, the order of the refusals, the entries, and that nothing else is written.
 * Prints what does not hold, then the count of checks. */
#include <stdio.h>
#include <stdlib.h>
#include <string.h>
#include "tenahvar.h"

static int checks, failed;
#define EXPECT(claim) (checks++, (claim) ? 0 : (failed++, printf("slab.c:%d: not so: %s\n", __LINE__, #claim)))

enum { ENTRIES = 1024, ROOM = 320 };

static const float UNTOUCHED = 7.5f;

/* A table whose entries are all different, and what is lent beside it. */
static float table[ENTRIES], slab[ROOM];
static uint8_t sizes[16];

static int same(float x, float y) { return memcmp(&x, &y, sizeof x) == 0; }

/* Sixteen sizes g. */
static void put(uint8_t g) { memset(sizes, g, sizeof sizes); }

/* The first sizes; those after them are not 0. */
static void put_own(const uint8_t *own, size_t n) {
    put(9);
    memcpy(sizes, own, n);
}

/* The entries from a place on are what they were before the call. */
static int untouched_from(size_t first) {
    for (size_t e = first; e < ROOM; e++)
        if (!same(slab[e], UNTOUCHED)) return 0;
    return 1;
}

/* The number of a call with the table's first `length` entries and `room` entries of the buffer. */
static uint32_t call(size_t n, size_t m, size_t length, size_t j, size_t k, size_t room) {
    for (size_t e = 0; e < ROOM; e++) slab[e] = UNTOUCHED;
    return tenahvar_cut_slab(sizes, n, m, table, length, j, k, slab, room);
}

/* A call is refused by this number and writes nothing. */
static int refused(uint32_t number, size_t n, size_t m, size_t length, size_t j, size_t k, size_t room) {
    return call(n, m, length, j, k, room) == number && untouched_from(0);
}

/* A call is done and writes these `total` entries of the table, by their places, and nothing past them. */
static int done(size_t n, size_t m, size_t length, size_t j, size_t k, size_t room, const size_t *places, size_t total) {
    if (call(n, m, length, j, k, room) != TENAHVAR_DONE) return 0;
    for (size_t e = 0; e < total; e++)
        if (!same(slab[e], table[places[e]])) return 0;
    return untouched_from(total);
}

/* By hand. g 3, n 2, m 2: node (a, b) stands at 6a + 2b.
 * Ink 1 at line 2: nodes (2,0), (2,1), (2,2), at 12, 14, 16. Ink 2 at line 1: nodes (0,1), (1,1), (2,1), at 2, 8, 14.
 * g 2, n 3, m 1: node (a, b, c) stands at 4a + 2b + c.
 * Ink 1 at line 1: (1,b,c) at 4, 5, 6, 7. Ink 2 at line 1: (a,1,c) at 2, 3, 6, 7. Ink 3 at line 0: (a,b,0) at 0, 2, 4, 6.
 * Sizes 2, 3, m 2: node (a, b) stands at 6a + 2b. Ink 1 at line 1: (1,b) at 6, 8, 10. Ink 2 at line 2: (a,2) at 4, 10. */
static const size_t square_1_2[] = {12, 13, 14, 15, 16, 17}, square_2_1[] = {2, 3, 8, 9, 14, 15};
static const size_t cube_1_1[] = {4, 5, 6, 7}, cube_2_1[] = {2, 3, 6, 7}, cube_3_0[] = {0, 2, 4, 6}, cube_3_1[] = {1, 3, 5, 7};
static const uint8_t oblong[] = {2, 3};
static const size_t oblong_1_1[] = {6, 7, 8, 9, 10, 11}, oblong_2_2[] = {4, 5, 10, 11};

static void by_hand(void) {
    put(3);
    EXPECT(done(2, 2, 18, 1, 2, 6, square_1_2, 6));
    EXPECT(done(2, 2, 18, 2, 1, 6, square_2_1, 6));
    EXPECT(done(2, 2, ENTRIES, 2, 1, ROOM, square_2_1, 6));
    put(2);
    EXPECT(done(3, 1, 8, 1, 1, 4, cube_1_1, 4));
    EXPECT(done(3, 1, 8, 2, 1, 4, cube_2_1, 4));
    EXPECT(done(3, 1, 8, 3, 0, 4, cube_3_0, 4));
    EXPECT(done(3, 1, 8, 3, 1, 4, cube_3_1, 4));
    put_own(oblong, 2);
    EXPECT(done(2, 2, 12, 1, 1, 6, oblong_1_1, 6));
    EXPECT(done(2, 2, 12, 2, 2, 4, oblong_2_2, 4));
    EXPECT(refused(TENAHVAR_NO_SUCH_LINE, 2, 2, 12, 1, 2, ROOM));
    EXPECT(refused(TENAHVAR_NO_SUCH_LINE, 2, 2, 12, 2, 3, ROOM));
}

/* Every ink and line of the grid whose sizes were put: entry e of the slab has the other inks' coordinates as the digits of its node, each in the base of
 * its own size. */
static void every_cut(size_t n, size_t m) {
    size_t places[ROOM], whole = m;
    for (size_t i = 0; i < n; i++) whole *= sizes[i];
    for (size_t j = 1; j <= n; j++) {
        size_t below = 1, lines = sizes[j - 1], total = whole / lines;
        for (size_t i = j; i < n; i++) below *= sizes[i];
        for (size_t k = 0; k < lines; k++) {
            for (size_t e = 0; e < total; e++) {
                size_t node = e / m;
                places[e] = ((node / below * lines + k) * below + node % below) * m + e % m;
            }
            EXPECT(done(n, m, whole, j, k, total, places, total));
            EXPECT(done(n, m, whole + 1, j, k, total + 3, places, total));
            EXPECT(refused(TENAHVAR_SHORT_ANSWER, n, m, whole, j, k, total - 1));
        }
        EXPECT(refused(TENAHVAR_NO_SUCH_LINE, n, m, whole, j, lines, total));
    }
    EXPECT(refused(TENAHVAR_NO_SUCH_INK, n, m, whole, 0, 0, ROOM));
    EXPECT(refused(TENAHVAR_NO_SUCH_INK, n, m, whole, n + 1, 0, ROOM));
    EXPECT(refused(TENAHVAR_SHORT_TABLE, n, m, whole - 1, 1, 0, ROOM));
}

/* Equal sizes, then different ones. */
static void every_cut_of_grids(void) {
    const struct { uint8_t g; size_t n, m; } equal[] = {{2, 2, 1}, {2, 4, 3}, {3, 3, 2}, {4, 4, 1}, {2, 9, 1}, {31, 2, 1}};
    const struct { uint8_t own[6]; size_t n, m; } unequal[] = {
        {{3, 2}, 2, 1}, {{5, 1, 4}, 3, 3}, {{2, 3, 4, 5}, 4, 2}, {{4, 3, 2, 1, 5}, 5, 1}, {{2, 3, 2, 4, 3, 2}, 6, 1}, {{9, 100}, 2, 1},
    };
    for (size_t i = 0; i < sizeof equal / sizeof *equal; i++) {
        put(equal[i].g);
        every_cut(equal[i].n, equal[i].m);
    }
    for (size_t i = 0; i < sizeof unequal / sizeof *unequal; i++) {
        put_own(unequal[i].own, unequal[i].n);
        every_cut(unequal[i].n, unequal[i].m);
    }
}

static void layouts(void) {
    const size_t outside[] = {0, 16, 17, 255, 256 + 2, ((size_t)1 << 32) + 2, ~(size_t)0};
    put(2);
    for (size_t i = 0; i < sizeof outside / sizeof *outside; i++) {
        EXPECT(refused(TENAHVAR_INPUT_INKS, outside[i], 1, ENTRIES, 1, 0, ROOM));
        EXPECT(refused(TENAHVAR_OUTPUT_INKS, 2, outside[i], ENTRIES, 1, 0, ROOM));
    }
    sizes[2] = 0;
    EXPECT(refused(TENAHVAR_ZERO_SIZE, 3, 1, ENTRIES, 1, 0, ROOM));
    EXPECT(call(2, 1, 4, 1, 0, 2) == TENAHVAR_DONE && untouched_from(2));
    put(4);
    EXPECT(refused(TENAHVAR_LARGE_TOTAL, 15, 4, ENTRIES, 1, 0, ROOM));
    EXPECT(refused(TENAHVAR_SHORT_TABLE, 15, 3, ENTRIES, 1, 0, ROOM));
    put(255);
    EXPECT(refused(TENAHVAR_LARGE_TOTAL, 4, 2, ENTRIES, 1, 0, ROOM));
    EXPECT(refused(TENAHVAR_SHORT_TABLE, 4, 1, ENTRIES, 1, 0, ROOM));
    sizes[1] = 1;
    EXPECT(refused(TENAHVAR_LARGE_TOTAL, 5, 2, ENTRIES, 2, 0, ROOM));
    /* One line: a cut leaves the table as it is. */
    const size_t all[] = {0, 1, 2, 3, 4, 5, 6, 7, 8, 9, 10, 11, 12, 13, 14};
    put(1);
    EXPECT(done(15, 15, 15, 1, 0, 15, all, 15));
    EXPECT(done(15, 15, 15, 15, 0, 15, all, 15));
}

/* Inks and lines that are there only after cutting to fewer bits, and one ink alone. */
static void inks_and_lines(void) {
    const size_t inks[] = {0, 4, 5, 16, 255, 256 + 1, ((size_t)1 << 32) + 1, ~(size_t)0};
    const size_t lines[] = {2, 3, 255, 256, (size_t)1 << 32, ((size_t)1 << 32) + 1, ~(size_t)0};
    put(2);
    for (size_t i = 0; i < sizeof inks / sizeof *inks; i++) EXPECT(refused(TENAHVAR_NO_SUCH_INK, 3, 1, 8, inks[i], 1, 4));
    for (size_t i = 0; i < sizeof lines / sizeof *lines; i++) EXPECT(refused(TENAHVAR_NO_SUCH_LINE, 3, 1, 8, 2, lines[i], 4));
    for (size_t j = 0; j < 3; j++) {
        EXPECT(refused(TENAHVAR_NO_SUCH_INK, 1, 2, 4, j, 0, ROOM));
        EXPECT(refused(TENAHVAR_NO_SUCH_INK, 1, 2, 4, j, 2, 0));
    }
}

/* Each fault stands with later ones: the first in the order 1, 2, 3, 5, 6, 11, 12, 8 is told. */
static void order(void) {
    put(0);
    sizes[1] = 3;
    EXPECT(refused(TENAHVAR_INPUT_INKS, 0, 0, 0, 0, 9, 0));
    EXPECT(refused(TENAHVAR_INPUT_INKS, 16, 16, 0, 0, 9, 0));
    EXPECT(refused(TENAHVAR_OUTPUT_INKS, 2, 0, 0, 0, 9, 0));
    EXPECT(refused(TENAHVAR_ZERO_SIZE, 2, 1, 0, 0, 9, 0));
    put(255);
    EXPECT(refused(TENAHVAR_LARGE_TOTAL, 15, 15, 0, 0, 255, 0));
    sizes[1] = 254;
    EXPECT(refused(TENAHVAR_LARGE_TOTAL, 15, 15, 0, 0, 255, 0));
    put(2);
    EXPECT(refused(TENAHVAR_SHORT_TABLE, 1, 1, 1, 1, 0, ROOM));
    EXPECT(refused(TENAHVAR_SHORT_TABLE, 2, 1, 3, 0, 2, 0));
    EXPECT(refused(TENAHVAR_SHORT_TABLE, 2, 1, 3, 3, 0, 2));
    EXPECT(refused(TENAHVAR_SHORT_TABLE, 2, 1, 3, 1, 2, 2));
    EXPECT(refused(TENAHVAR_SHORT_TABLE, 2, 1, 3, 1, 0, 1));
    EXPECT(refused(TENAHVAR_NO_SUCH_INK, 2, 1, 4, 0, 2, 0));
    EXPECT(refused(TENAHVAR_NO_SUCH_INK, 2, 1, 4, 3, 2, 2));
    EXPECT(refused(TENAHVAR_NO_SUCH_INK, 2, 1, 4, 0, 0, 1));
    EXPECT(refused(TENAHVAR_NO_SUCH_LINE, 2, 1, 4, 2, 2, 0));
    EXPECT(refused(TENAHVAR_NO_SUCH_LINE, 2, 1, 4, 1, 2, 1));
    EXPECT(refused(TENAHVAR_SHORT_ANSWER, 2, 1, 4, 2, 1, 0));
    EXPECT(refused(TENAHVAR_SHORT_ANSWER, 2, 1, 4, 1, 0, 1));
    EXPECT(call(2, 1, 4, 1, 0, 2) == TENAHVAR_DONE);
}

/* Table and buffer end where their memory ends, so that a checker sees a read or a write past them. */
static void exact_memory(void) {
    float *whole = (float *)malloc(16 * sizeof *whole), *part = (float *)malloc(8 * sizeof *part);
    if (whole == NULL || part == NULL) exit(2);
    memcpy(whole, table, 16 * sizeof *whole);
    put(2);
    for (size_t j = 1; j <= 3; j++)
        for (size_t k = 0; k < 2; k++) EXPECT(tenahvar_cut_slab(sizes, 3, 2, whole, 16, j, k, part, 8) == TENAHVAR_DONE);
    free(whole);
    free(part);
}

/* Every bit is kept: payloads of NaN, signs of zero. */
static void bits(void) {
    const uint32_t patterns[] = {0x7FA01234, 0xFFC05678, 0x80000000, 0x00000001};
    float entries[4], part[2];
    memcpy(entries, patterns, sizeof entries);
    put(2);
    for (size_t k = 0; k < 2; k++) {
        EXPECT(tenahvar_cut_slab(sizes, 2, 1, entries, 4, 2, k, part, 2) == TENAHVAR_DONE);
        EXPECT(memcmp(&part[0], &patterns[k], 4) == 0 && memcmp(&part[1], &patterns[2 + k], 4) == 0);
    }
}

/* The fourth ink on a line can be left out: of four, and of five, with ink 5 just under line 1. */
static void looked_up(void) {
    const uint32_t just_under = 0x3EFFFFFF;
    float inks[] = {0.3f, 0.8f, 0.55f, 0.5f, 0.0f}, others[] = {0.3f, 0.8f, 0.55f, 0.0f};
    float shares[243], answer, fewer;
    for (int e = 0; e < 243; e++) shares[e] = (float)(e * 37 % 64) / 64.0f;
    memcpy(&inks[4], &just_under, sizeof just_under);
    others[3] = inks[4];
    put(3);
    for (size_t n = 4, total = 81; n <= 5; n++, total *= 3) {
        answer = fewer = UNTOUCHED;
        EXPECT(tenahvar_cut_slab(sizes, n, 1, shares, total, 4, 1, slab, ROOM) == TENAHVAR_DONE);
        EXPECT(tenahvar_lookup(sizes, n, 1, shares, total, inks, n, &answer, 1) == TENAHVAR_DONE);
        EXPECT(tenahvar_lookup(sizes, n - 1, 1, slab, ROOM, others, n - 1, &fewer, 1) == TENAHVAR_DONE);
        EXPECT(same(answer, fewer) && answer > 0.0f);
    }
}

/* The same with a size for each ink: for the lookup in the slab that of the cut ink is taken out. */
static void looked_up_by_own_sizes(void) {
    const uint8_t own[] = {2, 3, 4, 5, 2}, others[16] = {2, 3, 4, 2};
    const float inks[] = {0.3f, 0.8f, 0.55f, 0.5f, 0.7f}, other_inks[] = {0.3f, 0.8f, 0.55f, 0.7f};
    float shares[240], answer = UNTOUCHED, fewer = UNTOUCHED;
    for (int e = 0; e < 240; e++) shares[e] = (float)(e * 37 % 64) / 64.0f;
    put_own(own, 5);
    EXPECT(tenahvar_cut_slab(sizes, 5, 1, shares, 240, 4, 2, slab, 48) == TENAHVAR_DONE);
    EXPECT(tenahvar_lookup(sizes, 5, 1, shares, 240, inks, 5, &answer, 1) == TENAHVAR_DONE);
    EXPECT(tenahvar_lookup(others, 4, 1, slab, 48, other_inks, 4, &fewer, 1) == TENAHVAR_DONE);
    EXPECT(same(answer, fewer) && answer > 0.0f && answer < 1.0f);
}

int main(void) {
    for (int e = 0; e < ENTRIES; e++) table[e] = (float)(e + 100);
    by_hand();
    every_cut_of_grids();
    layouts();
    inks_and_lines();
    order();
    exact_memory();
    bits();
    looked_up();
    looked_up_by_own_sizes();
    printf("slab: %d checks, %d failed\n", checks, failed);
    return failed != 0;
}
