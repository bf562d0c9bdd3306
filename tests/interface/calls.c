/* Calls every function of the header: each refusal in its place, the checked numbers, and that nothing else is written.
 * Prints what does not hold, then the count of checks. */
#include <math.h>
#include <stdio.h>
#include <string.h>
#include "tenahvar.h"

static int checks, failed;
#define EXPECT(claim) (checks++, (claim) ? 0 : (failed++, printf("calls.c:%d: not so: %s\n", __LINE__, #claim)))

static const float UNTOUCHED = 7.5f;

static int all(const float *x, size_t count, float value) {
    for (size_t i = 0; i < count; i++)
        if (memcmp(&x[i], &value, sizeof value) != 0) return 0;
    return 1;
}

static void reset(float *x, size_t count) {
    for (size_t i = 0; i < count; i++) x[i] = UNTOUCHED;
}

/* Sixteen sizes g, of which the second may differ. */
static const uint8_t *sizes_of(uint8_t g, uint8_t second) {
    static uint8_t sizes[16];
    memset(sizes, g, sizeof sizes);
    sizes[1] = second;
    return sizes;
}

/* What the calls that take a layout refuse first. */
static const struct { uint8_t g, second; size_t n, m; uint32_t number; } layouts[] = {
    {2, 2, 0, 0, TENAHVAR_INPUT_INKS},      {2, 2, 16, 3, TENAHVAR_INPUT_INKS},   {2, 2, ((size_t)1 << 32) + 3, 3, TENAHVAR_INPUT_INKS},
    {0, 0, 3, 0, TENAHVAR_OUTPUT_INKS},     {2, 2, 3, 16, TENAHVAR_OUTPUT_INKS},  {2, 2, 3, ((size_t)1 << 32) + 3, TENAHVAR_OUTPUT_INKS},
    {0, 2, 2, 1, TENAHVAR_ZERO_SIZE},       {2, 0, 2, 1, TENAHVAR_ZERO_SIZE},     {255, 0, 15, 15, TENAHVAR_ZERO_SIZE},
    {4, 4, 15, 4, TENAHVAR_LARGE_TOTAL},    {255, 255, 4, 2, TENAHVAR_LARGE_TOTAL}, {255, 1, 5, 2, TENAHVAR_LARGE_TOTAL},
    {4, 5, 15, 4, TENAHVAR_LARGE_TOTAL},    {255, 255, 15, 15, TENAHVAR_LARGE_TOTAL},
};

static void layout_calls(void) {
    uint32_t strides[16], filling[16], untouched[16];
    float scale[16], one;
    size_t offset = 99;
    uint64_t total = 99, length = 99;
    uint32_t reads;
    uint8_t byte = 99;
    memset(untouched, 0xA5, sizeof untouched);
    memset(strides, 0xA5, sizeof strides);
    memset(filling, 0xA5, sizeof filling);
    reset(scale, 16);
    reset(&one, 1);
    for (size_t i = 0; i < sizeof layouts / sizeof *layouts; i++) {
        const uint8_t *sizes = sizes_of(layouts[i].g, layouts[i].second);
        size_t n = layouts[i].n, m = layouts[i].m;
        reads = 99;
        EXPECT(tenahvar_layout(sizes, n, m, strides, filling, scale) == layouts[i].number);
        EXPECT(tenahvar_total(sizes, n, m, &total) == layouts[i].number);
        EXPECT(tenahvar_lookup(sizes, n, m, &one, 0, &one, 0, &one, 0) == layouts[i].number);
        EXPECT(tenahvar_lookup_skipping(sizes, n, m, &one, 0, &one, 0, &one, 0, &reads) == layouts[i].number && reads == 0);
        EXPECT(tenahvar_node(sizes, n, m, &one, 0, &offset, 0, &offset) == layouts[i].number);
        EXPECT(tenahvar_file_length(sizes, n, m, &length) == layouts[i].number);
        EXPECT(tenahvar_write_table(sizes, n, m, &one, 0, &byte, 0) == layouts[i].number);
    }
    EXPECT(length == 99 && byte == 99);
    EXPECT(memcmp(strides, untouched, sizeof strides) == 0);
    EXPECT(memcmp(filling, untouched, sizeof filling) == 0);
    EXPECT(all(scale, 16, UNTOUCHED) && all(&one, 1, UNTOUCHED) && offset == 99 && total == 99);

    EXPECT(tenahvar_layout(sizes_of(17, 17), 4, 3, strides, filling, scale) == TENAHVAR_DONE);
    EXPECT(strides[0] == 4913 && strides[1] == 289 && strides[2] == 17 && strides[3] == 1 && strides[4] == 1 && strides[15] == 1);
    EXPECT(filling[0] == 14739 && filling[1] == 867 && filling[2] == 51 && filling[3] == 3 && filling[4] == 1 && filling[15] == 1);
    EXPECT(all(scale, 4, 16.0f) && all(scale + 4, 12, 0.0f));
    EXPECT(tenahvar_layout(sizes_of(4, 4), 15, 3, strides, filling, scale) == TENAHVAR_DONE && filling[0] == 805306368);
    EXPECT(tenahvar_layout(sizes_of(255, 255), 4, 1, strides, filling, scale) == TENAHVAR_DONE && strides[0] == 16581375);
    EXPECT(tenahvar_layout(sizes_of(2, 0), 1, 1, strides, filling, scale) == TENAHVAR_DONE);
}

/* Document 02's example of sizes per ink (E5), a size of 1, and totals on both sides of the largest, 4,294,967,295; sizes past n do not count. */
static void unequal_layouts(void) {
    const uint8_t four[16] = {5, 1, 4, 2, 0, 255, 9}, large[16] = {127, 113, 215, 232, 6}, larger[16] = {127, 113, 215, 233, 6};
    uint32_t strides[16], filling[16];
    float scale[16];
    EXPECT(tenahvar_layout(sizes_of(2, 3), 2, 4, strides, filling, scale) == TENAHVAR_DONE);
    EXPECT(strides[0] == 3 && strides[1] == 1 && strides[2] == 1 && filling[0] == 12 && filling[1] == 4 && filling[2] == 1);
    EXPECT(all(scale, 1, 1.0f) && all(scale + 1, 1, 2.0f) && all(scale + 2, 14, 0.0f));
    EXPECT(tenahvar_layout(sizes_of(3, 2), 2, 1, strides, filling, scale) == TENAHVAR_DONE && strides[0] == 2 && strides[1] == 1);
    EXPECT(tenahvar_layout(four, 4, 3, strides, filling, scale) == TENAHVAR_DONE);
    EXPECT(strides[0] == 8 && strides[1] == 8 && strides[2] == 2 && strides[3] == 1 && strides[4] == 1);
    EXPECT(filling[0] == 24 && filling[1] == 24 && filling[2] == 6 && filling[3] == 3 && filling[4] == 1);
    EXPECT(all(scale, 1, 4.0f) && all(scale + 1, 1, 0.0f) && all(scale + 2, 1, 3.0f) && all(scale + 3, 1, 1.0f) && all(scale + 4, 12, 0.0f));
    EXPECT(tenahvar_layout(large, 5, 1, strides, filling, scale) == TENAHVAR_DONE && filling[0] == 33818640);
    EXPECT(tenahvar_layout(larger, 5, 1, strides, filling, scale) == TENAHVAR_LARGE_TOTAL);
    EXPECT(tenahvar_layout(large, 5, 2, strides, filling, scale) == TENAHVAR_LARGE_TOTAL);
}

/* The total of an accepted layout; 0 of another. */
static uint64_t total_of(const uint8_t *sizes, size_t n, size_t m) {
    uint64_t total = ~(uint64_t)0;
    return tenahvar_total(sizes, n, m, &total) == TENAHVAR_DONE ? total : 0;
}

/* The product of the n sizes and m, up to the largest that is accepted; 2^32 is the next one above it. Sizes past n do not count. */
static void totals(void) {
    const uint8_t four[16] = {5, 1, 4, 2, 0, 255, 9}, large[16] = {127, 113, 215, 232, 6}, word[16] = {16, 128, 128, 128, 128};
    EXPECT(total_of(sizes_of(1, 0), 1, 1) == 1 && total_of(sizes_of(1, 1), 15, 15) == 15);
    EXPECT(total_of(sizes_of(2, 0), 1, 1) == 2 && total_of(sizes_of(2, 3), 2, 4) == 24 && total_of(sizes_of(3, 2), 2, 15) == 90);
    EXPECT(total_of(four, 4, 3) == 120 && total_of(four, 3, 3) == 60 && total_of(four, 5, 3) == 0);
    EXPECT(total_of(sizes_of(17, 17), 4, 3) == 250563 && total_of(sizes_of(255, 255), 1, 15) == 3825);
    EXPECT(total_of(sizes_of(4, 4), 15, 3) == 3221225472u && total_of(sizes_of(255, 255), 4, 1) == 4228250625u);
    EXPECT(total_of(large, 5, 1) == 4294967280u && total_of(large, 5, 2) == 0 && total_of(word, 5, 1) == 0);
    EXPECT(total_of(word, 4, 8) == 268435456 && total_of(word, 4, 15) == 503316480);
}

/* Entry e of a table is e, a linear function of the inks: a colour is the sum of p times the stride. A node stands at its number. */
static void unequal_lookups(void) {
    const uint8_t four[16] = {5, 1, 4, 2}, five[16] = {2, 2, 2, 3, 5};
    const float two_inks[] = {0.5f, 0.25f}, four_inks[] = {0.625f, 0.5f, 1.0f, 0.5f}, five_inks[] = {0.5f, 0.5f, 0.5f, 0.25f, 0.125f};
    const size_t last[] = {1, 2}, past_first[] = {2, 0}, past_second[] = {1, 3};
    float table[120], answer[2];
    size_t offset = 99;
    for (int e = 0; e < 120; e++) table[e] = (float)e;
    reset(answer, 2);
    EXPECT(tenahvar_lookup(sizes_of(2, 3), 2, 1, table, 5, two_inks, 2, answer, 2) == TENAHVAR_SHORT_TABLE && all(answer, 2, UNTOUCHED));
    EXPECT(tenahvar_lookup(sizes_of(2, 3), 2, 1, table, 6, two_inks, 2, answer, 2) == TENAHVAR_DONE && all(answer, 1, 2.0f));
    EXPECT(tenahvar_lookup(sizes_of(3, 2), 2, 1, table, 6, two_inks, 2, answer, 2) == TENAHVAR_DONE && all(answer, 1, 2.25f));
    EXPECT(tenahvar_lookup(four, 4, 1, table, 40, four_inks, 4, answer, 2) == TENAHVAR_DONE && all(answer, 1, 26.5f));
    EXPECT(tenahvar_lookup(five, 5, 1, table, 119, five_inks, 5, answer, 2) == TENAHVAR_SHORT_TABLE && all(answer, 1, 26.5f));
    EXPECT(tenahvar_lookup(five, 5, 1, table, 120, five_inks, 5, answer, 2) == TENAHVAR_DONE && all(answer, 1, 55.5f));
    EXPECT(all(answer + 1, 1, UNTOUCHED));
    EXPECT(tenahvar_node(sizes_of(2, 3), 2, 2, table, 12, past_first, 2, &offset) == TENAHVAR_OUTSIDE_GRID);
    EXPECT(tenahvar_node(sizes_of(2, 3), 2, 2, table, 12, past_second, 2, &offset) == TENAHVAR_OUTSIDE_GRID && offset == 99);
    EXPECT(tenahvar_node(sizes_of(2, 3), 2, 2, table, 12, last, 2, &offset) == TENAHVAR_DONE && offset == 10);
    EXPECT(tenahvar_node(sizes_of(3, 2), 2, 2, table, 12, past_first, 2, &offset) == TENAHVAR_DONE && offset == 8);
}

/* Document 01's case 12 with the answer of document 02 (E4): just under line 1 ink 5 is blended with line 1 and not with line 2. */
static void case_12(void) {
    const uint32_t just_under = 0x3EFFFFFF, nearly_one = 0x3F7FFFFF;
    float table[243] = {0}, inks[5] = {0}, answer = UNTOUCHED, weight;
    memcpy(&inks[4], &just_under, sizeof just_under);
    memcpy(&weight, &nearly_one, sizeof nearly_one);
    table[2] = 1.0f;
    EXPECT(tenahvar_lookup(sizes_of(3, 3), 5, 1, table, 243, inks, 5, &answer, 1) == TENAHVAR_DONE && all(&answer, 1, 0.0f));
    table[1] = 1.0f;
    table[2] = 0.0f;
    EXPECT(tenahvar_lookup(sizes_of(3, 3), 5, 1, table, 243, inks, 5, &answer, 1) == TENAHVAR_DONE && all(&answer, 1, weight));
}

static void lookup_calls(void) {
    const float line[] = {0.0f, 1.0f}, square[] = {0.0f, 1.0f, 2.0f, 3.0f}, cube[] = {0, 0, 0, 0, 0, 0, 0, 1};
    const float inks[] = {0.5f, 0.25f, 0.75f};
    float answer[3], ink = 2.0f;
    reset(answer, 3);
    EXPECT(tenahvar_lookup(sizes_of(2, 2), 2, 1, square, 3, inks, 1, answer, 0) == TENAHVAR_SHORT_TABLE);
    EXPECT(tenahvar_lookup(sizes_of(2, 2), 2, 1, square, 3, inks, 2, answer, 3) == TENAHVAR_SHORT_TABLE);
    EXPECT(tenahvar_lookup(sizes_of(2, 2), 2, 1, square, 4, inks, 3, answer, 3) == TENAHVAR_INPUT_COUNT);
    EXPECT(tenahvar_lookup(sizes_of(2, 2), 2, 1, square, 4, inks, 3, answer, 0) == TENAHVAR_INPUT_COUNT);
    EXPECT(tenahvar_lookup(sizes_of(2, 2), 1, 2, square, 4, inks, 1, answer, 1) == TENAHVAR_SHORT_ANSWER);
    EXPECT(all(answer, 3, UNTOUCHED));
    EXPECT(tenahvar_lookup(sizes_of(2, 9), 1, 1, line, 2, &ink, 1, answer, 3) == TENAHVAR_DONE && all(answer, 1, 1.0f));
    EXPECT(tenahvar_lookup(sizes_of(2, 2), 2, 1, square, 4, inks, 2, answer, 3) == TENAHVAR_DONE && all(answer, 1, 1.25f));
    EXPECT(tenahvar_lookup(sizes_of(2, 2), 3, 1, cube, 8, inks, 3, answer, 3) == TENAHVAR_DONE && all(answer, 1, 0.25f));
    EXPECT(all(answer + 1, 2, UNTOUCHED));
}

/* Ink `ink` of n has the lines 0.25 and 0.75 and the input with these bits, the others have one line and the input 0.5: a NaN is refused after 6, 7
 * and 8, and nothing is written; an infinity is clipped, and answers its line. */
static void nan_input(size_t n, size_t ink, uint32_t bits) {
    const float table[] = {0.25f, 0.75f, 0.25f, 0.75f};
    uint8_t sizes[16];
    float inks[17], answer[2];
    memset(sizes, 1, sizeof sizes);
    sizes[ink] = 2;
    for (size_t i = 0; i < 17; i++) inks[i] = 0.5f;
    memcpy(&inks[ink], &bits, sizeof bits);
    reset(answer, 2);
    EXPECT(tenahvar_lookup(sizes, n, 1, table, 2, inks, n, answer, 2) == TENAHVAR_NAN_INPUT);
    EXPECT(tenahvar_lookup(sizes, n, 1, table, 1, inks, n, answer, 2) == TENAHVAR_SHORT_TABLE);
    EXPECT(tenahvar_lookup(sizes, n, 1, table, 2, inks, n + 1, answer, 2) == TENAHVAR_INPUT_COUNT);
    EXPECT(tenahvar_lookup(sizes, n, 2, table, 4, inks, n, answer, 1) == TENAHVAR_SHORT_ANSWER);
    EXPECT(all(answer, 2, UNTOUCHED));
    inks[ink] = HUGE_VALF;
    EXPECT(tenahvar_lookup(sizes, n, 1, table, 2, inks, n, answer, 2) == TENAHVAR_DONE && all(answer, 1, 0.75f));
    inks[ink] = -HUGE_VALF;
    EXPECT(tenahvar_lookup(sizes, n, 1, table, 2, inks, n, answer, 2) == TENAHVAR_DONE && all(answer, 1, 0.25f));
    /* Behind the inks it is one input too many, or not lent at all. */
    memcpy(&inks[n], &bits, sizeof bits);
    EXPECT(tenahvar_lookup(sizes, n, 1, table, 2, inks, n + 1, answer, 2) == TENAHVAR_INPUT_COUNT);
    EXPECT(tenahvar_lookup(sizes, n, 1, table, 2, inks, n, answer, 2) == TENAHVAR_DONE && all(answer + 1, 1, UNTOUCHED));
}

/* Document 02, E8: NaNs of both kinds and signs, at each ink of one to fifteen. As an entry of the table none is refused: the colour is a NaN. */
static void nan_inputs(void) {
    static const uint32_t patterns[] = {0x7FC00000, 0xFFC00000, 0x7FFFFFFF, 0xFFFFFFFF, 0x7F800001, 0xFF800001, 0x7FBFFFFF, 0xFFBFFFFF};
    const float ink = 0.5f;
    float entry, answer = UNTOUCHED;
    for (size_t i = 0; i < sizeof patterns / sizeof *patterns; i++) {
        for (size_t n = 1; n <= 15; n++)
            for (size_t place = 0; place < n; place++) nan_input(n, place, patterns[i]);
        memcpy(&entry, &patterns[i], sizeof entry);
        EXPECT(tenahvar_lookup(sizes_of(1, 1), 1, 1, &entry, 1, &ink, 1, &answer, 1) == TENAHVAR_DONE && answer != answer);
    }
}

static void node_calls(void) {
    float table[18] = {0};
    const size_t inside[] = {1, 2, 0}, outside[] = {0, 3};
    size_t offset = 99;
    EXPECT(tenahvar_node(sizes_of(3, 3), 2, 2, table, 17, outside, 1, &offset) == TENAHVAR_SHORT_TABLE);
    EXPECT(tenahvar_node(sizes_of(3, 3), 2, 2, table, 18, outside, 1, &offset) == TENAHVAR_INPUT_COUNT);
    EXPECT(tenahvar_node(sizes_of(3, 3), 2, 2, table, 18, inside, 3, &offset) == TENAHVAR_INPUT_COUNT);
    EXPECT(tenahvar_node(sizes_of(3, 3), 2, 2, table, 18, outside, 2, &offset) == TENAHVAR_OUTSIDE_GRID);
    EXPECT(offset == 99);
    EXPECT(tenahvar_node(sizes_of(3, 3), 2, 2, table, 18, inside, 2, &offset) == TENAHVAR_DONE && offset == 10);
}

static void weight_calls(void) {
    size_t x[256], x_n[256], untouched[256];
    float w[256];
    memset(untouched, 0xA5, sizeof untouched);
    memset(x, 0xA5, sizeof x);
    memset(x_n, 0xA5, sizeof x_n);
    reset(w, 256);
    EXPECT(tenahvar_create_ranged_256(0, x, x_n, w) == TENAHVAR_ZERO_SIZE);
    EXPECT(memcmp(x, untouched, sizeof x) == 0 && memcmp(x_n, untouched, sizeof x_n) == 0 && all(w, 256, UNTOUCHED));
    EXPECT(tenahvar_create_ranged_256(33, x, x_n, w) == TENAHVAR_DONE);
    EXPECT(x[128] == 16 && x_n[128] == 17 && all(w + 128, 1, 32897.0f / 524288.0f));
    EXPECT(x[255] == 32 && x_n[255] == 32 && all(w + 255, 1, 0.0f));
    EXPECT(tenahvar_create_ranged_256(1, x, x_n, w) == TENAHVAR_DONE && x[200] == 0 && x_n[200] == 0 && all(w, 256, 0.0f));
}

typedef uint32_t cube_method(const size_t *, const size_t *, const float *, uint8_t, size_t, const float *, size_t, float *, size_t);

static void cube_calls(cube_method *method, float colour) {
    const size_t low[] = {0, 0, 0}, high[] = {1, 1, 1}, past[] = {1, 1, 2};
    const float w[] = {0.5f, 0.25f, 0.75f};
    float cube[24] = {0}, answer[4];
    cube[21] = cube[22] = cube[23] = 1.0f;
    reset(answer, 4);
    EXPECT(method(low, past, w, 0, 5, cube, 0, answer, 0) == TENAHVAR_OUTPUT_INKS);
    EXPECT(method(low, past, w, 0, 3, cube, 0, answer, 0) == TENAHVAR_ZERO_SIZE);
    EXPECT(method(low, past, w, 2, 3, cube, 23, answer, 0) == TENAHVAR_SHORT_TABLE);
    EXPECT(method(low, past, w, 2, 3, cube, 24, answer, 2) == TENAHVAR_SHORT_ANSWER);
    EXPECT(method(low, past, w, 2, 3, cube, 24, answer, 4) == TENAHVAR_OUTSIDE_GRID);
    EXPECT(method(past, high, w, 2, 3, cube, 24, answer, 4) == TENAHVAR_OUTSIDE_GRID);
    EXPECT(all(answer, 4, UNTOUCHED));
    EXPECT(method(high, low, w, 2, 3, cube, 24, answer, 4) == TENAHVAR_DONE);
    EXPECT(method(low, high, w, 2, 3, cube, 24, answer, 4) == TENAHVAR_DONE && all(answer, 3, colour) && all(answer + 3, 1, UNTOUCHED));
}

/* Each number has a text of its own that tells its fault; 4 and all that no call gives have one and the same. */
static void texts(void) {
    static const struct { uint32_t number; const char *fault; } faults[] = {
        {TENAHVAR_DONE, "done"},              {TENAHVAR_INPUT_INKS, "input inks"},      {TENAHVAR_OUTPUT_INKS, "output inks"},
        {TENAHVAR_ZERO_SIZE, "size"},         {TENAHVAR_LARGE_TOTAL, "4,294,967,295"},  {TENAHVAR_SHORT_TABLE, "the table is shorter"},
        {TENAHVAR_INPUT_COUNT, "coordinates"}, {TENAHVAR_SHORT_ANSWER, "buffer"},       {TENAHVAR_FOREIGN_RECORD, "record"},
        {TENAHVAR_OUTSIDE_GRID, "node"},      {TENAHVAR_NO_SUCH_INK, "the ink to cut"}, {TENAHVAR_NO_SUCH_LINE, "the line to cut"},
        {TENAHVAR_SHORT_ELEMENT, "20 bytes"}, {TENAHVAR_PRECISION, "precision"},        {TENAHVAR_SHORT_DATA, "data"},
        {TENAHVAR_NAN_INPUT, "not a number"}, {TENAHVAR_FILE_LENGTH, "as long as"},     {TENAHVAR_BLOCK_CHECK, "check"},
        {TENAHVAR_BLOCK_NUMBER, "a block's number"}, {TENAHVAR_BLOCK_FILLING, "filling"},
    };
    const uint32_t none[] = {21, 255, 256, 65536 + 14, 0x7FFFFFFF, 0xFFFFFFFF};
    for (size_t i = 0; i < sizeof faults / sizeof *faults; i++)
        EXPECT(strstr(tenahvar_refusal_text(faults[i].number), faults[i].fault) != NULL);
    for (uint32_t number = 1; number < 21; number++)
        for (uint32_t other = 0; other < number; other++)
            EXPECT(strcmp(tenahvar_refusal_text(number), tenahvar_refusal_text(other)) != 0);
    for (size_t i = 0; i < sizeof none / sizeof *none; i++) EXPECT(strcmp(tenahvar_refusal_text(none[i]), tenahvar_refusal_text(4)) == 0);
}

/* The version as text is its three numbers. */
static void version(void) {
    char text[64];
    snprintf(text, sizeof text, "%d.%d.%d", TENAHVAR_VERSION_MAJOR, TENAHVAR_VERSION_MINOR, TENAHVAR_VERSION_PATCH);
    EXPECT(strcmp(text, TENAHVAR_VERSION) == 0);
}

int main(void) {
    layout_calls();
    unequal_layouts();
    totals();
    lookup_calls();
    unequal_lookups();
    case_12();
    nan_inputs();
    node_calls();
    weight_calls();
    cube_calls(tenahvar_pyramidal, 0.25f);
    cube_calls(tenahvar_prismatic, 0.125f);
    cube_calls(tenahvar_trilinear, 0.09375f);
    texts();
    version();
    printf("calls: %d checks, %d failed\n", checks, failed);
    return failed != 0;
}
