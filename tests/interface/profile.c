/* profile KIND TAG FILE: writes a small ICC profile with a table of 4 inks and 3 lights as the tag TAG. KIND, of those below, says how.
 *
 * Red, green and blue are 1 - 0.4 * (cyan, magenta, yellow) - 0.4 * black, at the nodes and between them: the inks 0.1 0.2 0.3 0.4 give
 * 0.80 0.76 0.72. An ink has 3 lines, from one to the next that is 0.2 less; yellow has 2, with 0.4 between them, where each ink may have
 * a size of its own. In one byte 0.2 is 51, in two it is 51 * 257, the same number.
 * What is to be ignored is not 0: padding, a CLUT element's sizes from the fifth on, the matrix, the input and output tables, whatever
 * follows the data. The header says nothing but the profile's length and that it is one. */
#include <stdint.h>
#include <stdio.h>
#include <string.h>

enum { N = 4, M = 3, ENTRY = 156, DUMMY = ENTRY + 12, DUMMY_SIZE = 40, TABLE = DUMMY + DUMMY_SIZE, AFTER = 5 };

/* A tag's type, yellow's lines, the bytes of a value, the values of an input table and of an output table; with a CLUT element there are no
 * such tables. */
struct kind {
    const char *name, *type;
    int yellow, precision, in, out;
};

static const struct kind kinds[] = {
    {"mAB1", "mAB ", 2, 1, 0, 0},     {"mAB2", "mAB ", 2, 2, 0, 0},   {"mBA1", "mBA ", 2, 1, 0, 0},   {"mBA2", "mBA ", 2, 2, 0, 0},
    {"mft1", "mft1", 3, 1, 256, 256}, {"mft2-2", "mft2", 3, 2, 2, 5}, {"mft2-5", "mft2", 3, 2, 5, 2}, {"mft2-259", "mft2", 3, 2, 259, 2},
};

static uint8_t profile[4096];
static size_t length, data_start, data_end;

static void byte(unsigned value) { profile[length++] = (uint8_t)value; }

static void half(unsigned value) {
    byte(value >> 8 & 0xFF);
    byte(value & 0xFF);
}

static void word(uint32_t value) {
    half(value >> 16);
    half(value & 0xFFFF);
}

static void text(const char *four) {
    for (int i = 0; i < 4; i++) byte((unsigned char)four[i]);
}

static void fill(size_t count, unsigned value) {
    for (size_t i = 0; i < count; i++) byte(value);
}

/* A number is put in at a place that was written before. */
static void put(size_t place, uint32_t value) {
    size_t end = length;
    length = place;
    word(value);
    length = end;
}

static void tag(const char *signature, uint32_t offset, uint32_t size) {
    text(signature);
    word(offset);
    word(size);
}

/* How much of a light a node leaves, in fifths. Black is the last ink and varies most rapidly. */
static unsigned fifths(const uint8_t *sizes, int node, int light) {
    int lines[N];
    for (int ink = N - 1; ink >= 0; ink--) {
        lines[ink] = node % sizes[ink];
        node /= sizes[ink];
    }
    return (unsigned)(5 - lines[light] * 2 / (sizes[light] - 1) - lines[N - 1]);
}

static void data(const uint8_t *sizes, int precision) {
    int nodes = sizes[0] * sizes[1] * sizes[2] * sizes[3];
    data_start = length;
    for (int e = 0; e < nodes * M; e++) fill((size_t)precision, 51 * fifths(sizes, e / M, e % M));
    data_end = length;
}

/* A CLUT element, at byte 32 of its tag, where bytes 24 to 27 say that it starts. The tag has no other parts. */
static void element(const uint8_t *sizes, int precision) {
    fill(14, 0);
    word(32);
    word(0);
    for (int i = 0; i < 16; i++) byte(i < N ? sizes[i] : 200u + (unsigned)i);
    byte((unsigned)precision);
    fill(3, 0xEE);
    data(sizes, precision);
    fill(AFTER, 0x77);
}

/* A lut8Type or lut16Type from its byte 10 on: the size of every ink, padding, the matrix, in a lut16Type the values of an input table and
 * of an output table, then the input tables, the data and the output tables. */
static void tables(const struct kind *kind, const uint8_t *sizes) {
    byte(sizes[0]);
    fill(1 + 36, 0xA5);
    if (kind->precision == 2) {
        half((unsigned)kind->in);
        half((unsigned)kind->out);
    }
    fill((size_t)(N * kind->in * kind->precision), 0x5A);
    data(sizes, kind->precision);
    fill((size_t)(M * kind->out * kind->precision), 0x77);
}

/* The header, three tags of which the last is the table, and a dummy of another type for the others. */
static void build(const struct kind *kind, const char *name) {
    const uint8_t sizes[N] = {3, 3, (uint8_t)kind->yellow, 3};
    fill(36, 0);
    text("acsp");
    fill(128 - 40, 0);
    word(3);
    tag("desc", DUMMY, DUMMY_SIZE);
    tag(strcmp(name, "A2B1") == 0 ? "A2B0" : "A2B2", DUMMY, DUMMY_SIZE);
    tag(name, TABLE, 0);
    text("text");
    fill(DUMMY_SIZE - 4, 'x');
    text(kind->type);
    word(0);
    byte(N);
    byte(M);
    if (kind->in == 0) element(sizes, kind->precision);
    else tables(kind, sizes);
    put(0, (uint32_t)length);
    put(ENTRY + 8, (uint32_t)(length - TABLE));
}

static int write_file(const char *name, size_t count) {
    FILE *file = fopen(name, "wb");
    if (file == NULL) return 0;
    size_t written = fwrite(profile, 1, count, file);
    return fclose(file) == 0 && written == count;
}

/* Builds the profile of a kind that is named; NULL where there is none. */
static const struct kind *build_named(const char *kind, const char *name) {
    for (size_t i = 0; i < sizeof kinds / sizeof kinds[0]; i++) {
        if (strcmp(kinds[i].name, kind) != 0) continue;
        build(&kinds[i], name);
        return &kinds[i];
    }
    return NULL;
}

int main(int count, char **words) {
    if (count != 4 || strlen(words[2]) != 4 || build_named(words[1], words[2]) == NULL) return 2;
    return write_file(words[3], length) ? 0 : 1;
}
