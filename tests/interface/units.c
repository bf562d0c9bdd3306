/* Calls tenahvar_read_units: each refusal at its boundary, the order of the refusals, the entries, and that nothing else is written.
 * Data and buffer stand in memory of their own that ends where they end, so that a checker sees each step past them.
 * Prints what does not hold, then the count of checks. */
#include <stdio.h>
#include <stdlib.h>
#include <string.h>
#include "tenahvar.h"

static int checks, failed;
#define EXPECT(claim) (checks++, (claim) ? 0 : (failed++, printf("units.c:%d: not so: %s\n", __LINE__, #claim)))

enum { BYTES = 160, ROOM = 80 };

/* The bits of an entry that was not written: a signalling NaN. */
static const uint32_t UNTOUCHED = 0x7FA5A5A5;

/* The data of all calls, and the entries as the last call left them; after its buffer they are untouched. */
static uint8_t data[BYTES];
static float entries[ROOM];

static int same(float x, float y) { return memcmp(&x, &y, sizeof x) == 0; }

/* Bytes that are all different. */
static void put(void) {
    for (int i = 0; i < BYTES; i++) data[i] = (uint8_t)(101 * i + 37);
}

/* The entries from a place on are what they were before the call. */
static int untouched_from(size_t first) {
    for (size_t e = first; e < ROOM; e++)
        if (memcmp(&entries[e], &UNTOUCHED, sizeof UNTOUCHED) != 0) return 0;
    return 1;
}

static void reset(float *x, size_t count) {
    for (size_t e = 0; e < count; e++) memcpy(&x[e], &UNTOUCHED, sizeof UNTOUCHED);
}

/* The number of a call with the first `length` bytes of the data and `room` entries, in `entries` with all that stands after them. */
static uint32_t call_here(size_t length, size_t precision, size_t count, size_t room) {
    reset(entries, ROOM);
    return tenahvar_read_units(data, length, precision, count, entries, room);
}

/* The same call in memory that ends where data and buffer end: it leaves the same number and entries, and the data as they were. */
static int agrees(uint32_t number, size_t length, size_t precision, size_t count, size_t room) {
    uint8_t *bytes = (uint8_t *)malloc(length + 1);
    float *exact = (float *)malloc((room + 1) * sizeof *exact);
    int agreed = 0;
    if (bytes != NULL && exact != NULL) {
        bytes[0] = 0xA5;
        memcpy(bytes + 1, data, length);
        reset(exact, room + 1);
        agreed = tenahvar_read_units(bytes + 1, length, precision, count, exact + 1, room) == number;
        agreed = agreed && memcmp(exact + 1, entries, room * sizeof *exact) == 0 && memcmp(exact, &UNTOUCHED, sizeof UNTOUCHED) == 0;
        agreed = agreed && bytes[0] == 0xA5 && memcmp(bytes + 1, data, length) == 0;
    }
    free(bytes);
    free(exact);
    return agreed;
}

/* A call is refused by this number and writes nothing. */
static int refused(uint32_t number, size_t length, size_t precision, size_t count, size_t room) {
    return call_here(length, precision, count, room) == number && untouched_from(0) && agrees(number, length, precision, count, room);
}

/* A call is done, writes `count` entries, and nothing past them. */
static int done(size_t length, size_t precision, size_t count, size_t room) {
    if (call_here(length, precision, count, room) != TENAHVAR_DONE) return 0;
    for (size_t e = 0; e < count; e++) {
        const uint8_t *at = data + precision * e;
        float right = precision == 1 ? (float)at[0] / 255.0f : (float)(at[0] * 256 + at[1]) / 65535.0f;
        if (!same(entries[e], right)) return 0;
    }
    return untouched_from(count) && agrees(TENAHVAR_DONE, length, precision, count, room);
}

/* Every count up to 70: with what is needed, with more, and with one less. Of no values nothing is needed. */
static void lengths(void) {
    for (size_t precision = 1; precision <= 2; precision++) {
        EXPECT(done(0, precision, 0, 0));
        EXPECT(done(BYTES, precision, 0, ROOM));
        for (size_t count = 1; count <= 70; count++) {
            size_t exact = precision * count;
            EXPECT(refused(TENAHVAR_SHORT_DATA, 0, precision, count, ROOM));
            EXPECT(refused(TENAHVAR_SHORT_DATA, exact - 1, precision, count, ROOM));
            EXPECT(refused(TENAHVAR_SHORT_ANSWER, exact, precision, count, 0));
            EXPECT(refused(TENAHVAR_SHORT_ANSWER, BYTES, precision, count, count - 1));
            EXPECT(done(exact, precision, count, count));
            EXPECT(done(exact + 1, precision, count, count + 1));
            EXPECT(done(BYTES, precision, count, ROOM));
        }
    }
}

/* None but 1 and 2, nor one that would be 1 or 2 if it were cut to fewer bits. */
static void precisions(void) {
    const size_t word = (size_t)1 << 32, half = (size_t)1 << 63;
    const size_t neither[] = {0, 3, 4, 16, 255, 256, 257, 258, 65536 + 1, 65536 + 2, word, word + 1, word + 2,
                              half, half + 1, half + 2, ~(size_t)0};
    for (size_t i = 0; i < sizeof neither / sizeof *neither; i++) {
        EXPECT(refused(TENAHVAR_PRECISION, BYTES, neither[i], 8, ROOM));
        EXPECT(refused(TENAHVAR_PRECISION, BYTES, neither[i], 0, ROOM));
        EXPECT(refused(TENAHVAR_PRECISION, 0, neither[i], 0, 0));
    }
}

/* Counts that would be small if they, or twice their number, were cut to 32 or 64 bits. */
static void counts(void) {
    const size_t word = (size_t)1 << 32, half = (size_t)1 << 63, most = ~(size_t)0;
    const size_t large[] = {BYTES + 1, word / 2, word / 2 + 4, word - 1, word, word + 4, half / 2, half / 2 + 2,
                            half - 1, half, half + 1, half + 4, most - 1, most};
    for (size_t i = 0; i < sizeof large / sizeof *large; i++) {
        for (size_t precision = 1; precision <= 2; precision++) {
            EXPECT(refused(TENAHVAR_SHORT_DATA, BYTES, precision, large[i], ROOM));
            EXPECT(refused(TENAHVAR_SHORT_DATA, 0, precision, large[i], 0));
        }
        EXPECT(refused(TENAHVAR_PRECISION, BYTES, 3, large[i], ROOM));
    }
}

/* Each fault stands with every later one: the first in the order 14, 15, 8 is told. */
static void order(void) {
    EXPECT(refused(TENAHVAR_PRECISION, 9, 3, 10, 9));
    EXPECT(refused(TENAHVAR_PRECISION, 9, 0, 10, 10));
    EXPECT(refused(TENAHVAR_PRECISION, 20, 0, 10, 9));
    EXPECT(refused(TENAHVAR_PRECISION, 29, 3, ~(size_t)0, 0));
    EXPECT(refused(TENAHVAR_SHORT_DATA, 9, 1, 10, 9));
    EXPECT(refused(TENAHVAR_SHORT_DATA, 19, 2, 10, 9));
    EXPECT(refused(TENAHVAR_SHORT_DATA, 19, 2, 10, 0));
    EXPECT(refused(TENAHVAR_SHORT_ANSWER, 10, 1, 10, 9));
    EXPECT(refused(TENAHVAR_SHORT_ANSWER, 20, 2, 10, 9));
    EXPECT(done(20, 2, 10, 10));
}

/* Every value of one byte and of two; then some by hand. */
static void values(void) {
    for (int first = 0; first < 256; first += 32) {
        for (int e = 0; e < 32; e++) data[e] = (uint8_t)(first + e);
        EXPECT(done(32, 1, 32, 32));
    }
    for (int first = 0; first < 65536; first += 64) {
        for (int e = 0; e < 64; e++) {
            data[2 * e] = (uint8_t)((first + e) / 256);
            data[2 * e + 1] = (uint8_t)(first + e);
        }
        EXPECT(done(128, 2, 64, 64));
    }
    EXPECT(same(entries[63], 1.0f));
    memcpy(data, "\0\0\1\1\377\0\0\377", 8);
    EXPECT(done(8, 2, 4, 4) && same(entries[0], 0.0f) && same(entries[1], 1.0f / 255.0f));
    EXPECT(same(entries[2], 65280.0f / 65535.0f) && same(entries[3], 255.0f / 65535.0f));
    EXPECT(done(8, 1, 8, 8) && same(entries[4], 1.0f) && same(entries[2], 1.0f / 255.0f));
}

/* A table of bytes without a header, and ink codes: what was read of both is looked up in and at. */
static void looked_up(void) {
    const uint8_t sizes[16] = {2, 2}, table[] = {0, 0, 0, 255}, inks[] = {255, 0x33, 0, 0xFF, 0xFF, 0x00};
    float nodes[4], at[3], answer = 0.0f;
    EXPECT(tenahvar_read_units(table, 4, 1, 4, nodes, 4) == TENAHVAR_DONE);
    EXPECT(tenahvar_read_units(inks, 2, 1, 2, at, 3) == TENAHVAR_DONE);
    EXPECT(tenahvar_lookup(sizes, 2, 1, nodes, 4, at, 2, &answer, 1) == TENAHVAR_DONE && same(answer, 0.2f));
    EXPECT(tenahvar_read_units(inks, 6, 2, 3, at, 3) == TENAHVAR_DONE);
    EXPECT(same(at[0], 65331.0f / 65535.0f) && same(at[1], 255.0f / 65535.0f) && same(at[2], 65280.0f / 65535.0f));
}

int main(void) {
    put();
    lengths();
    precisions();
    counts();
    order();
    values();
    looked_up();
    printf("units: %d checks, %d failed\n", checks, failed);
    return failed != 0;
}
