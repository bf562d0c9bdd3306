/* Calls the functions of table files: each refusal at its boundary and with later ones, files with each byte changed, cut off and torn,
 * entries bit for bit, and that nothing else is written. files.h makes the calls and holds them to an own reading of the format.
 * Prints what does not hold, then the count of checks. */
#include "files.h"

/* What is asked, written and read: with what is needed, with more, and with one less. */
static void round_trip(void) {
    make();
    size_t total = (size_t)asked.total;
    EXPECT(write_with(total, length) == TENAHVAR_DONE);
    EXPECT(write_with(total + 3, length + 7) == TENAHVAR_DONE);
    EXPECT(write_with(total - 1, length) == TENAHVAR_SHORT_TABLE);
    EXPECT(write_with(total - 1, next(BLOCK)) == TENAHVAR_SHORT_TABLE);
    EXPECT(write_with(total, length - 1) == TENAHVAR_SHORT_ANSWER);
    EXPECT(write_with(total, BLOCK) == TENAHVAR_SHORT_ANSWER);
    EXPECT(write_with(total, 0) == TENAHVAR_SHORT_ANSWER);
    EXPECT(read_with(total) == TENAHVAR_DONE);
    EXPECT(read_with(total + 2) == TENAHVAR_DONE);
    EXPECT(read_with(total - 1) == TENAHVAR_SHORT_ANSWER);
    EXPECT(read_with(0) == TENAHVAR_SHORT_ANSWER);
}

/* Any sizes of n inks, with at most ENTRIES entries. */
static void any_sizes(size_t n, size_t m) {
    ask(n, m, 1);
    unsigned left = ENTRIES / (unsigned)m;
    for (size_t i = 0; i < n; left /= asked.sizes[i++]) asked.sizes[i] = (uint8_t)(1 + next(left < 5 ? left : 5));
}

/* Totals on both sides of each multiple of 126, and at it; then every count of inks. */
static void round_trips(void) {
    for (unsigned g = 1; g <= 255; g++)
        for (size_t m = 1; m <= 2; m++) ask(1, m, (uint8_t)g), round_trip();
    for (size_t n = 1; n <= 15; n++)
        for (size_t m = 1; m <= 15; m++) any_sizes(n, m), round_trip();
    for (size_t m = 1; m <= 15; m++) {
        ask(2, m, 1), asked.sizes[1] = 126, round_trip();
        EXPECT(length == (m + 1) * BLOCK && file[m * BLOCK + 3] == m);
    }
}

/* Every length up to a block more than the file: block 0 must be there for the layout, and all for the table. */
static void lengths(uint8_t g) {
    ask(1, 1, g), make();
    size_t whole = length, total = g;
    memset(file + whole, 0, BLOCK + 1);
    for (length = 0; length <= whole + BLOCK + 1; length++) {
        EXPECT(read_with(total) == (length == whole ? TENAHVAR_DONE : TENAHVAR_FILE_LENGTH));
        EXPECT(read_with(0) == (length == whole ? TENAHVAR_SHORT_ANSWER : TENAHVAR_FILE_LENGTH));
    }
}

/* Each byte of a file changed: the check sees it. With a check that fits, a changed number is seen, and else what format.h says. */
static void every_byte(void) {
    ask(2, 1, 14), asked.sizes[1] = 10, make();
    for (size_t place = 0; place < length; place++) {
        uint8_t old = file[place];
        file[place] = (uint8_t)(old ^ 1u << next(8));
        EXPECT(read_with(140) == TENAHVAR_BLOCK_CHECK);
        if (place % BLOCK < CHECK) {
            change(place, file[place]);
            EXPECT(read_with(140) == TENAHVAR_BLOCK_NUMBER || (place % BLOCK >= 4 && read_with(140) != OTHER));
        }
        change(place, old);
        EXPECT(read_with(140) == TENAHVAR_DONE);
    }
}

/* From the first byte after the entries up to the check nothing but 0 may stand, not even the sign of a zero. */
static void fillings(void) {
    for (uint8_t g = 1; g <= 252; g++) {
        ask(1, 1, g), make();
        size_t last = length - BLOCK, end = place_of(g - 1u) + 4;
        for (size_t place = end; place < last + CHECK; place += 1 + next(40)) {
            change(place, place == end ? 0x80 : (uint8_t)(1 + next(255)));
            EXPECT(read_with(g) == TENAHVAR_BLOCK_FILLING && read_with(0) == TENAHVAR_BLOCK_FILLING);
            change(place, 0);
        }
        change(end - 1, (uint8_t)~file[end - 1]);
        EXPECT(read_with(g) == TENAHVAR_DONE);
        if (end == last + CHECK) continue;
        change(last + CHECK - 1, 1);
        EXPECT(read_with(g) == TENAHVAR_BLOCK_FILLING);
    }
}

/* A file that says n inks: its first n sizes are 1. A size after them is filling, but none is where n is 16 or more. */
static void sizes_of_inks(unsigned n) {
    uint32_t plain = n >= 1 && n <= 15 ? TENAHVAR_DONE : TENAHVAR_INPUT_INKS;
    ask(1, 1, 1), make();
    change(4, (uint8_t)n);
    for (unsigned i = 0; i < 16; i++) change(FIRST_SIZE + i, i < n);
    EXPECT(read_with(1) == plain);
    for (unsigned i = 0; i < 16; i++) {
        change(FIRST_SIZE + i, i < n ? 0 : 200);
        EXPECT(read_with(1) == (i >= n ? TENAHVAR_BLOCK_FILLING : n <= 15 ? TENAHVAR_ZERO_SIZE : TENAHVAR_INPUT_INKS));
        change(FIRST_SIZE + i, i < n);
    }
    const size_t places[] = {22, 23 + next(484), CHECK - 1};
    for (size_t i = 0; i < 3; i++) {
        change(places[i], 0x80);
        EXPECT(read_with(1) == TENAHVAR_BLOCK_FILLING);
        change(places[i], 0);
    }
}

/* Counts and sizes of a file that are no layout's: told before the length is looked at. Then totals that no file here has. */
static void counts(void) {
    const struct { uint8_t sizes[16], n, m; uint32_t number; } heads[] = {
        {{0}, 0, 0, TENAHVAR_INPUT_INKS}, {{1, 1}, 16, 0, TENAHVAR_INPUT_INKS}, {{1, 0}, 2, 0, TENAHVAR_OUTPUT_INKS},
        {{255, 255, 255, 255}, 4, 16, TENAHVAR_OUTPUT_INKS}, {{255, 255, 255, 255, 0}, 5, 15, TENAHVAR_ZERO_SIZE},
        {{0, 255, 255, 255, 255}, 5, 15, TENAHVAR_ZERO_SIZE}, {{255, 255, 255, 255}, 4, 2, TENAHVAR_LARGE_TOTAL},
        {{16, 128, 128, 128, 128}, 5, 1, TENAHVAR_LARGE_TOTAL}, {{127, 113, 215, 233, 6}, 5, 1, TENAHVAR_LARGE_TOTAL},
        {{127, 113, 215, 232, 6}, 5, 1, TENAHVAR_FILE_LENGTH}, {{255, 255, 255, 255}, 4, 1, TENAHVAR_FILE_LENGTH},
        {{4, 4, 4, 4, 4, 4, 4, 4, 4, 4, 4, 4, 4, 4, 4}, 15, 3, TENAHVAR_FILE_LENGTH},
    };
    for (size_t i = 0; i < sizeof heads / sizeof *heads; i++) {
        memset(file, 0, sizeof file);
        file[4] = heads[i].n;
        memcpy(file + FIRST_SIZE, heads[i].sizes, 16);
        change(5, heads[i].m);
        for (length = BLOCK; length <= 3 * BLOCK; length += 1 + next(200)) EXPECT(read_with(next(9)) == heads[i].number);
    }
    ask(1, 1, 1), make();
    for (unsigned m = 0; m < 256; m++) {
        change(5, (uint8_t)m);
        for (length = BLOCK; length <= 2 * BLOCK + 1; length += next(2) ? 512 : 1 + next(BLOCK))
            EXPECT(m >= 1 && m <= 15 ? read_with(15) != OTHER : read_with(15) == TENAHVAR_OUTPUT_INKS);
    }
}

/* A writer's layouts, also counts that would be good if they were cut to fewer bits, each with too little table and room. */
static void writers(void) {
    const size_t far = (size_t)1 << 32, wrong[] = {0, 16, 17, 255, 256 + 2, far, far + 2, ((size_t)1 << 63) + 2, ~(size_t)0};
    for (size_t i = 0; i < sizeof wrong / sizeof *wrong; i++) {
        ask(wrong[i], 0, 0);
        EXPECT(write_with(0, 0) == TENAHVAR_INPUT_INKS && write_with(ENTRIES, BYTES) == TENAHVAR_INPUT_INKS);
        ask(2, wrong[i], 0);
        EXPECT(write_with(0, 0) == TENAHVAR_OUTPUT_INKS && write_with(ENTRIES, BYTES) == TENAHVAR_OUTPUT_INKS);
    }
    for (size_t n = 1; n <= 15; n++) {
        ask(n, 15, 255), asked.sizes[next((unsigned)n)] = 0;
        EXPECT(write_with(0, 0) == TENAHVAR_ZERO_SIZE && write_with(ENTRIES, BYTES) == TENAHVAR_ZERO_SIZE);
        ask(n, 15, 255);
        EXPECT(write_with(0, 0) == (n >= 4 ? TENAHVAR_LARGE_TOTAL : TENAHVAR_SHORT_TABLE));
        ask(n, 1, n < 9 ? 15 : 4);
        EXPECT(write_with(14, BYTES) == TENAHVAR_SHORT_TABLE);
    }
}

/* Faults of a reader's call in the order of its refusals: of block 0, its layout, the length, blocks 1 and 2, the buffer. */
static const uint32_t fault_numbers[] = {18, 19, 20, 1, 2, 3, 5, 17, 18, 19, 18, 19, 20, 8};
enum { FAULTS = 14 };

/* A file of 189 entries with a set of these faults, as bits, is refused by the first. The checks come last, as they must fit the rest. */
static void with_faults(unsigned faults) {
    static const uint8_t wrong[] = {16, 17, 128, 255};
    unsigned first = 0;
    ask(5, 3, 1), asked.sizes[0] = 9, asked.sizes[3] = 7, make();
    if (faults & 4) file[22 + next(486)] = 0x80;
    if (faults & 64) memset(file + FIRST_SIZE, 255, 5);
    if (faults & 32) file[FIRST_SIZE + next(5)] = 0;
    if (faults & 16) file[5] = next(2) ? 0 : wrong[next(4)];
    if (faults & 8) file[4] = wrong[next(4)];
    if (faults & 4096) file[2 * BLOCK + 4 + 4 * 63 + next(252)] = 1;
    seal(file, faults & 2 ? 1 + next(9) : 0);
    seal(file + BLOCK, faults & 512 ? 2 : 1);
    seal(file + 2 * BLOCK, faults & 2048 ? 1 : 2);
    if (faults & 1) file[CHECK + next(4)] ^= 0x40;
    if (faults & 256) file[BLOCK + next(BLOCK)] ^= 1;
    if (faults & 1024) file[2 * BLOCK + next(BLOCK)] ^= 0x80;
    if (faults & 128) length = next(3) ? length - 1 - next(2 * BLOCK) : length + 1 + next(BLOCK);
    while (!(faults >> first & 1)) first++;
    EXPECT(read_with(faults & 8192 ? next(189) : 189) == fault_numbers[first]);
    length = next(BLOCK);
    EXPECT(read_with(189) == TENAHVAR_FILE_LENGTH);
}

/* All sets of up to three faults, then any. */
static void every_fault(void) {
    for (unsigned a = 0; a < FAULTS; a++)
        for (unsigned b = 0; b <= a; b++)
            for (unsigned c = 0; c <= b; c++) with_faults(1u << a | 1u << b | 1u << c);
    for (unsigned round = 0; round < 1000; round++) with_faults(1 + next((1u << FAULTS) - 1));
}

/* One to three changes of any file, each with or without the check that belongs to it, often in bytes that count. */
static void any_damage(void) {
    any_sizes(1 + next(15), 1 + next(15)), make();
    size_t total = (size_t)asked.total, whole = length;
    for (unsigned many = next(4); many > 0; many--) {
        size_t block = next(3) ? 0 : next((unsigned)(whole / BLOCK)), place = block * BLOCK + (next(4) ? next(24) : next(BLOCK));
        uint8_t byte = (uint8_t)(next(3) ? next(18) : next(256));
        if (next(8) == 0) file[place] = byte;
        else if (place % BLOCK < CHECK) change(place, byte);
    }
    if (next(8) == 0) length = next((unsigned)whole + 600);
    EXPECT(read_with(next(8) ? total + next(3) : total - 1) != OTHER);
}

/* The first bytes of a file in flash that was erased to ones, or to zeros where the rest of the file is not all zeros. */
static void power_loss(void) {
    ask(1, 1, 200), make();
    for (size_t written = 0; written < length; written++) {
        write_file(&asked, bits, file);
        memset(file + written, 0xFF, length - written);
        uint32_t number = read_with(200);
        EXPECT(number == TENAHVAR_BLOCK_CHECK);
        write_file(&asked, bits, file);
        int left = 0;
        for (size_t place = written; place < length; place++) left |= file[place];
        memset(file + written, 0, length - written);
        number = read_with(200);
        EXPECT(left == 0 ? number == TENAHVAR_DONE : number == 1 || number == 18 || number == 19);
    }
}

/* Exchanged blocks and words of two blocks are seen. Exchanged entries of one block, changes that cancel each other, and a whole block of
 * another file are not: the reader gives what stands there. */
static void not_seen(void) {
    uint8_t block[BLOCK];
    ask(1, 1, 252), make();
    memcpy(block, file + BLOCK, BLOCK);
    memcpy(file + BLOCK, file + 2 * BLOCK, BLOCK);
    memcpy(file + 2 * BLOCK, block, BLOCK);
    EXPECT(read_with(252) == TENAHVAR_BLOCK_NUMBER);
    bits[0] = 1, bits[1] = 2, bits[126] = 3;
    write_file(&asked, bits, file);
    put_word(file + place_of(0), 3), put_word(file + place_of(126), 1);
    EXPECT(read_with(252) == TENAHVAR_BLOCK_CHECK);
    put_word(file + place_of(0), 2), put_word(file + place_of(1), 1), put_word(file + place_of(126), 3);
    EXPECT(read_with(252) == TENAHVAR_DONE);
    put_word(file + place_of(0), 4), put_word(file + place_of(1), 0xFFFFFFFF);
    EXPECT(read_with(252) == TENAHVAR_DONE);
    memcpy(file + BLOCK, block, BLOCK);
    EXPECT(read_with(252) == TENAHVAR_DONE);
}

int main(void) {
    round_trips();
    lengths(2), lengths(126), lengths(127);
    every_byte();
    fillings();
    for (unsigned n = 0; n < 256; n++) sizes_of_inks(n);
    counts();
    writers();
    every_fault();
    for (unsigned round = 0; round < 3000; round++) any_damage();
    power_loss();
    not_seen();
    printf("files: %d checks, %d failed\n", checks, failed);
    return failed != 0;
}
