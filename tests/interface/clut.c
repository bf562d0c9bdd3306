/* Calls tenahvar_read_clut: each refusal at its boundary, the order of the refusals, the entries, and that nothing else is written.
 * Prints what does not hold, then the count of checks. */
#include <stdio.h>
#include <string.h>
#include "tenahvar.h"

static int checks, failed;
#define EXPECT(claim) (checks++, (claim) ? 0 : (failed++, printf("clut.c:%d: not so: %s\n", __LINE__, #claim)))

enum { ROOM = 64, HEAD = 20 };

static const float UNTOUCHED = 7.5f;

/* An element with what is lent beside it. */
static uint8_t element[4096], sizes[16];
static float entries[ROOM];

/* An element whose sixteen sizes are g; padding and data are not 0. */
static void put(uint8_t g, uint8_t precision) {
    memset(element, 0xEE, sizeof element);
    memset(element, g, 16);
    element[16] = precision;
}

static int same(float x, float y) { return memcmp(&x, &y, sizeof x) == 0; }

/* The entries from a place on are what they were before the call. */
static int untouched_from(size_t first) {
    for (size_t e = first; e < ROOM; e++)
        if (!same(entries[e], UNTOUCHED)) return 0;
    return 1;
}

/* The sizes are the element's first n, then zeros. */
static int sizes_written(size_t n) {
    for (size_t i = 0; i < 16; i++)
        if (sizes[i] != (i < n ? element[i] : 0)) return 0;
    return 1;
}

static int sizes_untouched(void) {
    for (int i = 0; i < 16; i++)
        if (sizes[i] != 0xA5) return 0;
    return 1;
}

/* The number of a call with `length` bytes of the element and `room` entries of the buffer. */
static uint32_t call(size_t length, size_t n, size_t m, size_t room) {
    memset(sizes, 0xA5, sizeof sizes);
    for (size_t e = 0; e < ROOM; e++) entries[e] = UNTOUCHED;
    return tenahvar_read_clut(element, length, n, m, sizes, entries, room);
}

/* A call is refused by this number and writes nothing. */
static int refused(uint32_t number, size_t length, size_t n, size_t m, size_t room) {
    return call(length, n, m, room) == number && sizes_untouched() && untouched_from(0);
}

/* A call is done, writes the sizes and the entries of the total, and nothing past it. */
static int done(size_t length, size_t n, size_t m, size_t room, size_t total) {
    if (call(length, n, m, room) != TENAHVAR_DONE || !sizes_written(n)) return 0;
    for (size_t e = 0; e < total; e++) {
        const uint8_t *at = element + HEAD + e * element[16];
        float right = element[16] == 1 ? (float)at[0] / 255.0f : (float)(at[0] * 256 + at[1]) / 65535.0f;
        if (!same(entries[e], right)) return 0;
    }
    return untouched_from(total);
}

static void lengths(void) {
    put(1, 1);
    EXPECT(refused(TENAHVAR_SHORT_ELEMENT, 0, 1, 1, ROOM));
    EXPECT(refused(TENAHVAR_SHORT_ELEMENT, 16, 1, 1, ROOM));
    EXPECT(refused(TENAHVAR_SHORT_ELEMENT, 19, 1, 1, ROOM));
    EXPECT(refused(TENAHVAR_SHORT_DATA, 20, 1, 1, ROOM));
    EXPECT(done(21, 1, 1, ROOM, 1));
    /* g 2, n 3, m 4: 32 entries. */
    for (uint8_t precision = 1; precision <= 2; precision++) {
        size_t exact = HEAD + (size_t)precision * 32;
        put(2, precision);
        EXPECT(refused(TENAHVAR_SHORT_DATA, HEAD, 3, 4, ROOM));
        EXPECT(refused(TENAHVAR_SHORT_DATA, exact - 1, 3, 4, ROOM));
        EXPECT(done(exact, 3, 4, ROOM, 32));
        EXPECT(done(exact + 1, 3, 4, ROOM, 32));
        EXPECT(refused(TENAHVAR_SHORT_ANSWER, exact, 3, 4, 0));
        EXPECT(refused(TENAHVAR_SHORT_ANSWER, exact, 3, 4, 31));
        EXPECT(done(exact, 3, 4, 32, 32));
        EXPECT(done(exact, 3, 4, 33, 32));
    }
}

static void precisions(void) {
    const uint8_t neither[] = {0, 3, 4, 16, 128, 254, 255};
    for (size_t i = 0; i < sizeof neither; i++) {
        put(2, neither[i]);
        EXPECT(refused(TENAHVAR_PRECISION, sizeof element, 2, 2, ROOM));
    }
    put(2, 1);
    EXPECT(done(sizeof element, 2, 2, ROOM, 8));
    put(2, 2);
    EXPECT(done(sizeof element, 2, 2, ROOM, 8));
}

static void counts(void) {
    const size_t outside[] = {0, 16, 17, 255, 256 + 1, ((size_t)1 << 32) + 1, ~(size_t)0};
    put(1, 1);
    for (size_t i = 0; i < sizeof outside / sizeof *outside; i++) {
        EXPECT(refused(TENAHVAR_INPUT_INKS, sizeof element, outside[i], 1, ROOM));
        EXPECT(refused(TENAHVAR_OUTPUT_INKS, sizeof element, 1, outside[i], ROOM));
    }
    EXPECT(done(sizeof element, 1, 1, ROOM, 1));
    EXPECT(done(sizeof element, 15, 1, ROOM, 1));
    EXPECT(done(sizeof element, 1, 15, ROOM, 15));
    EXPECT(done(sizeof element, 15, 15, ROOM, 15));
}

static void grids(void) {
    put(2, 1);
    element[0] = 0;
    EXPECT(refused(TENAHVAR_ZERO_SIZE, sizeof element, 3, 2, ROOM));
    put(2, 1);
    element[2] = 0;
    EXPECT(refused(TENAHVAR_ZERO_SIZE, sizeof element, 3, 2, ROOM));
    EXPECT(done(sizeof element, 2, 2, ROOM, 8));
    element[1] = 3;
    EXPECT(refused(TENAHVAR_ZERO_SIZE, sizeof element, 3, 2, ROOM));
    EXPECT(done(sizeof element, 1, 2, ROOM, 4));
    put(4, 2);
    EXPECT(refused(TENAHVAR_LARGE_TOTAL, sizeof element, 15, 4, ROOM));
    EXPECT(refused(TENAHVAR_SHORT_DATA, sizeof element, 15, 3, ROOM));
    /* 2 * 4^15 * 2 is 2^32: a product of 32 bits would be 0. */
    EXPECT(refused(TENAHVAR_SHORT_DATA, sizeof element, 15, 2, ROOM));
    put(255, 1);
    EXPECT(refused(TENAHVAR_LARGE_TOTAL, sizeof element, 4, 2, ROOM));
    EXPECT(refused(TENAHVAR_SHORT_DATA, sizeof element, 4, 1, ROOM));
    EXPECT(refused(TENAHVAR_LARGE_TOTAL, sizeof element, 15, 15, ROOM));
}

/* Sizes per ink: 2 * 3 * 5 entries of one output, none fewer. */
static void unequal(void) {
    put(9, 1);
    memcpy(element, "\2\3\5", 3);
    EXPECT(refused(TENAHVAR_SHORT_DATA, HEAD + 29, 3, 1, ROOM));
    EXPECT(refused(TENAHVAR_SHORT_ANSWER, HEAD + 30, 3, 1, 29));
    EXPECT(done(HEAD + 30, 3, 1, 30, 30));
    EXPECT(done(HEAD + 12, 2, 2, ROOM, 12));
    element[16] = 2;
    EXPECT(refused(TENAHVAR_SHORT_DATA, HEAD + 59, 3, 1, ROOM));
    EXPECT(done(HEAD + 60, 3, 1, ROOM, 30));
    /* 2 * 128 * 128 * 128 * 128 * 8 is 2^32: a product of 32 bits would be 0. */
    put(128, 2);
    element[4] = 8;
    EXPECT(refused(TENAHVAR_SHORT_DATA, sizeof element, 5, 1, ROOM));
    EXPECT(refused(TENAHVAR_LARGE_TOTAL, sizeof element, 5, 2, ROOM));
}

/* Each fault stands with every later one: the first in the order 13, 1, 2, 3, 5, 14, 15, 8 is told. */
static void order(void) {
    put(0, 7);
    EXPECT(refused(TENAHVAR_SHORT_ELEMENT, 19, 0, 0, 0));
    EXPECT(refused(TENAHVAR_SHORT_ELEMENT, 19, 1, 16, 0));
    EXPECT(refused(TENAHVAR_INPUT_INKS, 20, 0, 0, 0));
    EXPECT(refused(TENAHVAR_INPUT_INKS, 20, 16, 16, 0));
    EXPECT(refused(TENAHVAR_OUTPUT_INKS, 20, 2, 0, 0));
    element[1] = 3;
    EXPECT(refused(TENAHVAR_ZERO_SIZE, 20, 2, 1, 0));
    put(255, 7);
    EXPECT(refused(TENAHVAR_LARGE_TOTAL, 20, 15, 15, 0));
    element[1] = 254;
    EXPECT(refused(TENAHVAR_LARGE_TOTAL, 20, 15, 15, 0));
    put(2, 0);
    EXPECT(refused(TENAHVAR_PRECISION, 20, 2, 1, 0));
    put(2, 3);
    EXPECT(refused(TENAHVAR_PRECISION, 31, 2, 1, 0));
    put(2, 2);
    EXPECT(refused(TENAHVAR_SHORT_DATA, 27, 2, 1, 0));
    EXPECT(refused(TENAHVAR_SHORT_DATA, 27, 2, 1, 3));
    EXPECT(refused(TENAHVAR_SHORT_ANSWER, 28, 2, 1, 3));
    EXPECT(done(28, 2, 1, 4, 4));
}

/* Every value of one byte; of two the first, the last, crosswise ones and 257, whose quotient is not its product with a rounded 1/65535. */
static void values(void) {
    put(16, 1);
    for (int first = 0; first < 256; first += 16) {
        for (int e = 0; e < 16; e++) element[HEAD + e] = (uint8_t)(first + e);
        EXPECT(done(HEAD + 16, 1, 1, 16, 16));
    }
    const uint8_t pairs[] = {0, 0, 0, 1, 1, 0, 0, 255, 255, 0, 127, 255, 128, 0, 255, 255, 1, 1};
    put(9, 2);
    memcpy(element + HEAD, pairs, sizeof pairs);
    EXPECT(done(HEAD + sizeof pairs, 1, 1, 10, 9));
    EXPECT(same(entries[0], 0.0f) && same(entries[7], 1.0f) && same(entries[3], 255.0f / 65535.0f) && same(entries[4], 65280.0f / 65535.0f));
}

/* What was read is a table to look up in, with the sizes that were written. */
static void looked_up(void) {
    const float inks[] = {0.5f, 0.25f};
    float answer = UNTOUCHED;
    put(2, 1);
    for (int e = 0; e < 4; e++) element[HEAD + e] = (uint8_t)(e == 3 ? 255 : 0);
    EXPECT(done(HEAD + 4, 2, 1, 4, 4));
    EXPECT(tenahvar_lookup(sizes, 2, 1, entries, 4, inks, 2, &answer, 1) == TENAHVAR_DONE && same(answer, 0.125f));
    /* Sizes 2 and 3, node (1, 1) alone is 1: ink 1 is halfway to its line 1, ink 2 as well. */
    put(3, 1);
    element[0] = 2;
    for (int e = 0; e < 6; e++) element[HEAD + e] = (uint8_t)(e == 4 ? 255 : 0);
    EXPECT(done(HEAD + 6, 2, 1, 6, 6));
    EXPECT(tenahvar_lookup(sizes, 2, 1, entries, 6, inks, 2, &answer, 1) == TENAHVAR_DONE && same(answer, 0.25f));
}

int main(void) {
    lengths();
    precisions();
    counts();
    grids();
    unequal();
    order();
    values();
    looked_up();
    printf("clut: %d checks, %d failed\n", checks, failed);
    return failed != 0;
}
