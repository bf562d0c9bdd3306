/* Calls of the functions of table files, held to format.h: the number, every byte of every buffer, and what is told of the layout. Each is
 * made twice: where file and buffer end, a page begins that nobody may touch; and with memory behind them, of which all is compared. */
#ifndef FILES_H
#define FILES_H

#define _DEFAULT_SOURCE /* for mmap */
#include <stdio.h>
#include <stdlib.h>
#include <sys/mman.h>
#include <unistd.h>
#include "format.h"

enum { ENTRIES = 4096, BYTES = 20480, ROOM = 65536, GARBAGE = 0xA5, OTHER = 99 };

static int checks, failed;
#define EXPECT(claim) (checks++, (claim) ? 0 : (failed++, printf("files.c:%d: not so: %s\n", __LINE__, #claim)))

/* What a writer is asked, and the file that a reader is given. */
static struct layout asked;
static uint32_t bits[ENTRIES + 4];
static uint8_t file[BYTES];
static size_t length;

static uint64_t state = 1;
static unsigned next(unsigned below) {
    state = state * 6364136223846793005u + 1442695040888963407u;
    return (unsigned)(state >> 33) % below;
}

/* Bits of every kind: signalling and quiet NaNs of both signs, zeros, subnormals, infinities, anything. */
static uint32_t any_bits(void) {
    static const uint32_t kinds[] = {0x7F800001, 0x7FBFFFFF, 0xFF800001, 0xFFBFFFFF, 0x7FC00000, 0xFFC12345, 0x7FFFFFFF, 0xFFFFFFFF,
                                     0x00000000, 0x80000000, 0x00000001, 0x807FFFFF, 0x7F800000, 0xFF800000, 0x3F800000, 0x7FA00000};
    return next(2) ? kinds[next(16)] : next(65536) * 65536u + next(65536);
}

/* The end of ROOM bytes before a page that nobody may touch. */
static uint8_t *end_of_room(void) {
    size_t page = (size_t)sysconf(_SC_PAGESIZE), room = (ROOM + page - 1) / page * page;
    uint8_t *memory = (uint8_t *)mmap(NULL, room + page, PROT_READ | PROT_WRITE, MAP_PRIVATE | MAP_ANONYMOUS, -1, 0);
    if (memory == MAP_FAILED || mprotect(memory + room, page, PROT_NONE) != 0) exit(2);
    return memory + room;
}

/* Memory of so many bytes, all garbage, at the end of one of four rooms. */
static uint8_t *lent(int room, size_t count) {
    static uint8_t *ends[4];
    if (ends[room] == NULL) ends[room] = end_of_room();
    return (uint8_t *)memset(ends[room] - count, GARBAGE, count);
}

/* What a reader tells of a layout, between words that it may not write. */
struct told {
    uint8_t before[8], sizes[16], after[8];
    size_t words[5]; /* the second is n, the fourth m */
};

static int right(const struct told *told, uint32_t number, const struct layout *layout) {
    struct told expected;
    memset(&expected, GARBAGE, sizeof expected);
    if (number == TENAHVAR_DONE) {
        memcpy(expected.sizes, layout->sizes, 16);
        expected.words[1] = layout->n;
        expected.words[3] = layout->m;
    }
    return memcmp(told, &expected, sizeof expected) == 0;
}

/* The file, with `rest` bytes behind it. */
static uint8_t *lent_file(size_t rest) { return (uint8_t *)memcpy(lent(0, length + rest), file, length); }

/* The layout of the file. */
static int head_right(size_t rest) {
    struct layout layout;
    struct told told;
    uint8_t *bytes = lent_file(rest);
    memset(&told, GARBAGE, sizeof told);
    uint32_t number = head_number(file, length, &layout);
    int so = tenahvar_file_layout(bytes, length, told.sizes, &told.words[1], &told.words[3]) == number;
    return so && right(&told, number, &layout) && memcmp(bytes, file, length) == 0;
}

/* The entries of the file. One entry before the buffer and `rest` behind it are garbage and stay so. An accepted file, written again, is
 * the same. */
static int table_right(uint32_t number, const struct layout *layout, size_t room, size_t rest) {
    struct told told;
    size_t all = 4 * (1 + room + rest);
    uint8_t *bytes = lent_file(rest), *again = lent(1, length), *memory = lent(2, all), *expected = lent(3, all);
    float *entries = (float *)memory + 1;
    memset(&told, GARBAGE, sizeof told);
    for (size_t e = 0; number == TENAHVAR_DONE && e < layout->total; e++) {
        uint32_t word = word_at(file + place_of(e));
        memcpy(expected + 4 + 4 * e, &word, 4);
    }
    int so = tenahvar_read_table(bytes, length, told.sizes, &told.words[1], &told.words[3], entries, room) == number;
    so = so && right(&told, number, layout) && memcmp(memory, expected, all) == 0 && memcmp(bytes, file, length) == 0;
    if (!so || number != TENAHVAR_DONE) return so;
    number = tenahvar_write_table(told.sizes, told.words[1], told.words[3], entries, room, again, length);
    return number == TENAHVAR_DONE && memcmp(again, file, length) == 0;
}

/* The number of the file with room for so many entries, where the library does in all what format.h says; else OTHER. */
static uint32_t read_with(size_t room) {
    struct layout layout;
    uint32_t number = file_number(file, length, room, &layout);
    int so = head_right(0) && head_right(3) && table_right(number, &layout, room, 0) && table_right(number, &layout, room, 3);
    return so ? number : (uint32_t)OTHER;
}

/* A writer's call. One byte before its buffer and `rest` behind it are garbage and stay so. */
static int file_right(uint32_t number, size_t given, size_t room, size_t rest) {
    uint8_t *table = lent(0, 4 * given), *memory = lent(1, 1 + room + rest), *expected = lent(2, 1 + room + rest);
    memcpy(table, bits, 4 * given);
    if (number == TENAHVAR_DONE) write_file(&asked, bits, expected + 1);
    int so = tenahvar_write_table(asked.sizes, asked.n, asked.m, (float *)table, given, memory + 1, room) == number;
    return so && memcmp(memory, expected, 1 + room + rest) == 0 && memcmp(table, bits, 4 * given) == 0;
}

/* The number of a writer with so many entries and bytes of room, and of the length alone; OTHER where one is not what format.h says. */
static uint32_t write_with(size_t given, size_t room) {
    uint64_t told[3] = {7, 7, 7};
    uint32_t number = laid_out(&asked);
    int so = tenahvar_file_length(asked.sizes, asked.n, asked.m, &told[1]) == number && told[0] == 7 && told[2] == 7;
    so = so && told[1] == (number == TENAHVAR_DONE ? length_of(asked.total) : 7);
    if (number == TENAHVAR_DONE && given < asked.total) number = TENAHVAR_SHORT_TABLE;
    if (number == TENAHVAR_DONE && room < length_of(asked.total)) number = TENAHVAR_SHORT_ANSWER;
    return so && file_right(number, given, room, 0) && file_right(number, given, room, 41) ? number : (uint32_t)OTHER;
}

/* n inks of g lines; sizes that are not in use are not 0. */
static void ask(size_t n, size_t m, uint8_t g) {
    memset(asked.sizes, 9, 16);
    memset(asked.sizes, g, n < 16 ? n : 16);
    asked.n = n;
    asked.m = m;
    asked.total = 0;
}

/* The file of what is asked, with any entries. */
static void make(void) {
    if (laid_out(&asked) != TENAHVAR_DONE || asked.total > ENTRIES) exit(2);
    for (size_t e = 0; e < asked.total + 4; e++) bits[e] = any_bits();
    length = (size_t)length_of(asked.total);
    write_file(&asked, bits, file);
}

/* Another byte at a place, in a block with the check that belongs to it. */
static void change(size_t place, uint8_t byte) {
    uint8_t *block = file + place / BLOCK * BLOCK;
    file[place] = byte;
    seal(block, word_at(block));
}

#endif
