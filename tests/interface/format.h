/* Table files by document 02 (E9), read and written here without the library, a byte at a time: what files.c holds the library to. */
#ifndef FORMAT_H
#define FORMAT_H

#include <string.h>
#include "tenahvar.h"

enum { BLOCK = 512, CHECK = 508, FIRST_SIZE = 6, EACH = 126 };

/* A layout, and how many entries it asks. */
struct layout {
    uint8_t sizes[16];
    size_t n, m;
    uint64_t total;
};

static uint32_t word_at(const uint8_t *at) { return at[0] * 16777216u + at[1] * 65536u + at[2] * 256u + at[3]; }

static void put_word(uint8_t *at, uint32_t word) {
    for (int i = 3; i >= 0; i--, word /= 256) at[i] = (uint8_t)(word % 256);
}

static uint32_t sum_of(const uint8_t *block) {
    uint64_t sum = 0;
    for (int word = 0; word < 127; word++) sum += word_at(block + 4 * word);
    return (uint32_t)(sum % 4294967296u);
}

/* Gives a block this number, and the check that belongs to what it then holds. */
static void seal(uint8_t *block, uint32_t number) {
    put_word(block, number);
    put_word(block + CHECK, sum_of(block));
}

/* A layout's number, and on 0 its total. */
static uint32_t laid_out(struct layout *layout) {
    if (layout->n < 1 || layout->n > 15) return TENAHVAR_INPUT_INKS;
    if (layout->m < 1 || layout->m > 15) return TENAHVAR_OUTPUT_INKS;
    for (size_t i = 0; i < layout->n; i++)
        if (layout->sizes[i] == 0) return TENAHVAR_ZERO_SIZE;
    layout->total = layout->m;
    for (size_t i = 0; i < layout->n; i++) {
        layout->total *= layout->sizes[i];
        if (layout->total > 4294967295u) return TENAHVAR_LARGE_TOTAL;
    }
    return TENAHVAR_DONE;
}

/* Block 0, and a block for each 126 entries that are begun. */
static uint64_t length_of(uint64_t total) { return BLOCK + total / EACH * BLOCK + (total % EACH != 0 ? BLOCK : 0); }

/* Where entry e stands. */
static size_t place_of(size_t e) { return BLOCK + e / EACH * BLOCK + 4 + e % EACH * 4; }

/* The file of a layout and the bits of its entries. */
static void write_file(const struct layout *layout, const uint32_t *bits, uint8_t *file) {
    size_t length = (size_t)length_of(layout->total);
    memset(file, 0, length);
    file[4] = (uint8_t)layout->n;
    file[5] = (uint8_t)layout->m;
    memcpy(file + FIRST_SIZE, layout->sizes, layout->n);
    for (size_t e = 0; e < layout->total; e++) put_word(file + place_of(e), bits[e]);
    for (size_t at = 0; at < length; at += BLOCK) seal(file + at, (uint32_t)(at / BLOCK));
}

/* A block's number: it must hold nothing but zeros from a place up to its check. */
static uint32_t block_number(const uint8_t *block, uint64_t number, size_t used) {
    if (word_at(block + CHECK) != sum_of(block)) return TENAHVAR_BLOCK_CHECK;
    if (word_at(block) != number) return TENAHVAR_BLOCK_NUMBER;
    for (size_t i = used; i < CHECK; i++)
        if (block[i] != 0) return TENAHVAR_BLOCK_FILLING;
    return TENAHVAR_DONE;
}

/* The number of tenahvar_file_layout. The sizes after the first n are filling: all sixteen with no ink, none with sixteen inks or more. */
static uint32_t head_number(const uint8_t *file, size_t length, struct layout *layout) {
    if (length < BLOCK) return TENAHVAR_FILE_LENGTH;
    memset(layout, 0, sizeof *layout);
    layout->n = file[4];
    layout->m = file[5];
    size_t sizes = layout->n > 16 ? 16 : layout->n;
    memcpy(layout->sizes, file + FIRST_SIZE, sizes);
    uint32_t number = block_number(file, 0, FIRST_SIZE + sizes);
    return number != TENAHVAR_DONE ? number : laid_out(layout);
}

/* The number of tenahvar_read_table with room for so many entries. */
static uint32_t file_number(const uint8_t *file, size_t length, size_t room, struct layout *layout) {
    uint32_t number = head_number(file, length, layout);
    if (number != TENAHVAR_DONE) return number;
    if (length != length_of(layout->total)) return TENAHVAR_FILE_LENGTH;
    uint64_t left = layout->total;
    for (size_t at = BLOCK; at < length; at += BLOCK) {
        size_t held = left < EACH ? (size_t)left : (size_t)EACH;
        number = block_number(file + at, at / BLOCK, 4 + 4 * held);
        if (number != TENAHVAR_DONE) return number;
        left -= held;
    }
    return room < layout->total ? TENAHVAR_SHORT_ANSWER : TENAHVAR_DONE;
}

#endif
