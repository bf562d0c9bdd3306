/* Calls tenahvar_lookup_skipping: answers that are known or are the lookup's, the reads, nodes that must not count, each refusal with every later one, and
 * that nothing else is written. Inks and most tables are lent in memory that ends where they end, so that a checker sees each step past them.
 * Prints what does not hold, then the count of checks. */
#include <math.h>
#include <stdio.h>
#include <stdlib.h>
#include <string.h>
#include "tenahvar.h"

enum { MOST = 15, REST = 4, ROOM = MOST + REST };
static const float UNTOUCHED = 7.5f;
static const uint32_t GARBAGE = 0xA5A5A5A5;

/* The grid and the inks of a call. Of each ink also its place in grid lines, and whether it is used: an idle one stands on a line. */
static uint8_t sizes[16];
static size_t n, m, total;
static float inputs[MOST + 1];
static double line[MOST];
static int used[MOST];

/* What the last call left: the answer buffer, and *reads between two words that it may not write. */
static float answer[ROOM];
static uint32_t reads[3];

static int checks, failed;
#define EXPECT(claim) (checks++, (claim) ? 0 : (failed++, printf("skipping.c:%d: not so, %zu inks, %zu outputs: %s\n", __LINE__, n, m, #claim)))

static unsigned long state = 1;
static unsigned next(unsigned below) {
    state = state * 6364136223846793005ul + 1442695040888963407ul;
    return (unsigned)(state >> 33) % below;
}

static float of_bits(uint32_t bits) {
    float x;
    memcpy(&x, &bits, sizeof x);
    return x;
}

static float *lent(size_t entries) {
    float *memory = (float *)malloc(entries * sizeof *memory);
    if (memory == NULL) exit(2);
    return memory;
}

/* The same bits, or both a NaN. */
static int same(float x, float y) { return memcmp(&x, &y, sizeof x) == 0 || (x != x && y != y); }

/* The number of a call with these lengths. */
static uint32_t call(const float *table, size_t length, size_t given, size_t room) {
    float *inks = lent(given + 1);
    memcpy(inks + 1, inputs, given * sizeof *inks);
    for (size_t o = 0; o < ROOM; o++) answer[o] = UNTOUCHED;
    for (size_t i = 0; i < 3; i++) reads[i] = GARBAGE;
    uint32_t number = tenahvar_lookup_skipping(sizes, n, m, table, length, inks + 1, given, answer, room, &reads[1]);
    free(inks);
    return number;
}

/* The buffer from a place on, and the words beside *reads, are what they were before the call. */
static int untouched_from(size_t first) {
    for (size_t o = first; o < ROOM; o++)
        if (!same(answer[o], UNTOUCHED)) return 0;
    return reads[0] == GARBAGE && reads[2] == GARBAGE;
}

/* A call is done, sets m entries and no others, and reports these reads. */
static int done(const float *table, uint32_t right) {
    return call(table, total, n, m + next(REST + 1)) == TENAHVAR_DONE && untouched_from(m) && reads[1] == right;
}

/* The reads, with an own count of the weights. */
static uint32_t counted(void) {
    uint32_t count = n == 1 ? 2 : n == 2 ? 4 : 6;
    for (size_t i = 3; i < n; i++) {
        float ink = inputs[i] > 1.0f ? 1.0f : inputs[i] > 0.0f ? inputs[i] : 0.0f, p = ink * (float)(sizes[i] - 1);
        if (p != (float)(int)p) count *= 2;
    }
    return count;
}

/* A grid with g lines for each ink; sizes that are not in use are not 0. */
static void put(size_t inks, size_t outputs, uint8_t g) {
    memset(sizes, 9, sizeof sizes);
    memset(sizes, g, inks);
    n = inks;
    m = total = outputs;
    for (size_t i = 0; i < n; i++) total *= g;
}

/* One ink has g lines, the others have a single one; all inputs are 0.5. */
static void put_alone(size_t inks, size_t outputs, size_t ink, unsigned g) {
    put(inks, outputs, 1);
    sizes[ink] = (uint8_t)g;
    total *= g;
    for (size_t i = 0; i <= n; i++) inputs[i] = 0.5f;
}

/* Inks of two to five lines, fewer with more inks; now and then one has a single line, where its weight is always 0. */
static void put_any(size_t inks, size_t outputs) {
    put(inks, outputs, 1);
    for (size_t i = 0; i < n; i++) {
        sizes[i] = next(8) == 0 ? 1 : n <= 3 ? 5 : n <= 7 && next(2) ? 3 : 2;
        total *= sizes[i];
    }
}

/* The input of an idle ink. What lies outside 0 to 1 is clipped, to the first line or the last. */
static float idle(size_t i, unsigned at) {
    const float first[] = {0.0f, -0.0f, -3.0f, -HUGE_VALF}, last[] = {1.0f, 1.5f, of_bits(0x3F800001), HUGE_VALF};
    return at == 0 ? first[next(4)] : at == sizes[i] - 1u ? last[next(4)] : (float)at / (float)(sizes[i] - 1);
}

/* Which inks are used, as bits from the first ink on or, as the odd patterns, from the last: none, all, one, three, the fourth, four, others. */
static const unsigned patterns[] = {0, 0x7FFF, 0x1, 0x7, 0x8, 0xF, 0x7FF8, 0x1249, 0x5555, 0x912};
enum { PATTERNS = 2 * sizeof patterns / sizeof *patterns };

/* Used inks stand a quarter, a half or three quarters past a line. */
static void place(size_t pattern) {
    for (size_t i = 0; i < n; i++) {
        size_t bit = pattern % 2 ? n - 1 - i : i;
        unsigned lines = sizes[i], at = next(lines);
        used[i] = lines > 1 && (patterns[pattern / 2] >> bit & 1);
        line[i] = used[i] ? next(lines - 1) + (1 + next(3)) / 4.0 : at;
        inputs[i] = used[i] ? (float)(line[i] / (lines - 1)) : idle(i, at);
    }
}

/* Entries from 0 to 1 that are linear in each ink, and that no step rounds: output o with all inks on line 0, and what ink i adds from line to line. */
static float base(size_t o) { return (float)(100 + 10 * o) / 512.0f; }
static float rise(size_t i, size_t o) { return (float)((int)((7 * i + 3 * o) % 11) - 5) / 512.0f; }

/* The linear table, made ink by ink, each time from the end on, so that no entry is lost before it is used. With `hidden` it has that entry at each node
 * that lies off the line of an idle ink from the fourth on. */
static float *linear(const float *hidden) {
    float *table = lent(total);
    size_t nodes = 1;
    for (size_t o = 0; o < m; o++) table[o] = base(o);
    for (size_t i = 0; i < n; i++) {
        nodes *= sizes[i];
        for (size_t e = nodes * m; e-- > 0;) {
            size_t o = e % m, node = e / m, at = node % sizes[i];
            float before = table[node / sizes[i] * m + o];
            int unread = hidden != NULL && i >= 3 && !used[i] && (double)at != line[i];
            table[e] = unread ? *hidden : before + rise(i, o) * (float)at;
        }
    }
    return table;
}

/* The answer in the linear table is known without the rule of a lookup. */
static int known(void) {
    for (size_t o = 0; o < m; o++) {
        double value = base(o);
        for (size_t i = 0; i < n; i++) value += rise(i, o) * line[i];
        if (answer[o] != (float)value) return 0;
    }
    return 1;
}

/* The plain lookup answers the same, zeros of both signs counting as equal. */
static int as_lookup(const float *table) {
    float plain[MOST];
    if (tenahvar_lookup(sizes, n, m, table, total, inputs, n, plain, m) != TENAHVAR_DONE) return 0;
    for (size_t o = 0; o < m; o++)
        if (answer[o] != plain[o]) return 0;
    return 1;
}

/* Every count of inks and outputs with every pattern, in the linear table and in one with any entries from 0 to 1, where used inks stand anywhere. */
static void every_count(size_t inks, size_t outputs) {
    put_any(inks, outputs);
    float *table = linear(NULL), *other = lent(total);
    for (size_t e = 0; e < total; e++) other[e] = e % 16 ? (float)next(65536) / 65535.0f : e % 32 ? 0.0f : -0.0f;
    for (size_t pattern = 0; pattern < PATTERNS; pattern++) {
        place(pattern);
        EXPECT(done(table, counted()) && known());
        for (size_t i = 0; i < n; i++)
            if (used[i]) inputs[i] = (float)(1 + next(65534)) / 65535.0f;
        EXPECT(done(other, counted()) && as_lookup(other));
    }
    free(table);
    free(other);
}

/* What stands off the line of an idle ink from the fourth on does not count. The plain lookup gives a NaN if such an ink, from the fifth on, is not on its
 * last line. */
static void hidden_nodes(size_t inks, size_t pattern) {
    const float hidden[] = {of_bits(0x7FC00000), HUGE_VALF, -HUGE_VALF, of_bits(0x7F800001)};
    float plain[MOST];
    int reached = 0;
    put_any(inks, 1 + (inks + pattern) % MOST);
    place(pattern);
    float *table = linear(&hidden[next(4)]);
    for (size_t i = 4; i < n; i++) reached |= !used[i] && line[i] < sizes[i] - 1;
    EXPECT(done(table, counted()) && known());
    EXPECT(tenahvar_lookup(sizes, n, m, table, total, inputs, n, plain, m) == TENAHVAR_DONE);
    for (size_t o = 0; o < m; o++) EXPECT(reached ? plain[o] != plain[o] : same(plain[o], answer[o]));
    free(table);
}

/* In any table the answer is, bit for bit, the plain lookup's in the slab without the idle inks from the fourth on. At inks one to three nothing is
 * skipped: an infinity where they stand is made a NaN by the weight 0. */
static void without_idle_inks(size_t inks, size_t outputs, unsigned kinds) {
    const float entries[] = {0.0f, -0.0f, 1.0f, -2.5f, 3e38f, -3e38f, of_bits(1), HUGE_VALF, -HUGE_VALF, of_bits(0x7FC00000)};
    float table[1024], parts[2][1024], others[MOST], plain[MOST];
    uint8_t fewer[16];
    size_t left = inks, part = 0;
    put(inks, outputs, 2);
    place(next(PATTERNS));
    for (size_t e = 0; e < total; e++) parts[0][e] = table[e] = entries[next(kinds)];
    memcpy(fewer, sizes, sizeof fewer);
    memcpy(others, inputs, sizeof others);
    for (size_t i = n; i-- > 3;) {
        if (used[i]) continue;
        EXPECT(tenahvar_cut_slab(fewer, left, m, parts[part], 1024, i + 1, (size_t)line[i], parts[1 - part], 1024) == TENAHVAR_DONE);
        memmove(fewer + i, fewer + i + 1, 15 - i);
        memmove(others + i, others + i + 1, (14 - i) * sizeof *others);
        part = 1 - part, left--;
    }
    EXPECT(tenahvar_lookup(fewer, left, m, parts[part], 1024, others, left, plain, m) == TENAHVAR_DONE && done(table, counted()));
    for (size_t o = 0; o < m; o++) EXPECT(same(answer[o], plain[o]));
}

/* The least weights of an ink from the fourth on count too, but for both zeros: between 0 and 2^127 the answer is the weight times 2^127, not rounded. */
static void small_weights(size_t inks, size_t ink) {
    const uint32_t weights[] = {0x00000000, 0x80000000, 0x00000001, 0x007FFFFF, 0x00800000, 0x2B800000, 0x33800000, 0x34000000, 0x3F7FFFFF};
    const float table[] = {0.0f, of_bits(0x7F000000)};
    put_alone(inks, 1, ink, 2);
    for (size_t i = 0; i < sizeof weights / sizeof *weights; i++) {
        inputs[ink] = of_bits(weights[i]);
        EXPECT(done(table, i < 2 ? 6 : 12) && answer[0] == inputs[ink] * table[1]);
    }
}

/* An ink from the fourth on of g lines, at each: the rounded product says whether it falls on the line. */
static void every_line(unsigned g) {
    float *table = lent(g);
    for (unsigned e = 0; e < g; e++) table[e] = (float)(e * 37 % 64) / 64.0f;
    for (unsigned at = 0; at < g; at++) {
        unsigned ink = 3 + (g + at) % 12;
        put_alone(ink + 1 + next(MOST - ink), 1, ink, g);
        inputs[ink] = (float)at / (float)(g - 1);
        EXPECT(done(table, counted()) && as_lookup(table));
    }
    free(table);
}

/* Counts by hand: a page with four of twelve inks; twelve; the most; and one to three inks, idle and used. */
static void by_hand(void) {
    const struct { size_t n; unsigned used; uint32_t reads; } pages[] = {
        {12, 0x00F, 12}, {12, 0x912, 48}, {12, 0xF00, 96}, {12, 0, 6}, {12, 0xFFF, 3072}, {15, 0x7FFF, 24576}, {15, 0x7FF8, 24576}, {15, 0x7, 6},
        {4, 0x7, 6}, {4, 0xF, 12}, {3, 0, 6}, {3, 0x7, 6}, {2, 0, 4}, {2, 0x3, 4}, {1, 0, 2}, {1, 1, 2},
    };
    for (size_t k = 0; k < sizeof pages / sizeof *pages; k++) {
        put(pages[k].n, 3, 2);
        for (size_t i = 0; i < n; i++) line[i] = inputs[i] = pages[k].used >> i & 1 ? 0.25f : 0.0f;
        float *table = linear(NULL);
        EXPECT(done(table, pages[k].reads) && known());
        free(table);
    }
}

/* A call with a set of faults, as bits in the order of the refusals, is refused by the first; it reports 0 and writes nothing else. */
static void with_faults(size_t inks, unsigned faults, unsigned kind) {
    static const uint32_t numbers[] = {TENAHVAR_INPUT_INKS,  TENAHVAR_OUTPUT_INKS, TENAHVAR_ZERO_SIZE,    TENAHVAR_LARGE_TOTAL,
                                       TENAHVAR_SHORT_TABLE, TENAHVAR_INPUT_COUNT, TENAHVAR_SHORT_ANSWER, TENAHVAR_NAN_INPUT};
    static const uint32_t nans[] = {0x7FC00000, 0xFFC00000, 0x7F800001, 0xFFBFFFFF};
    const size_t wrong[] = {0, 16, ((size_t)1 << 32) + 2, ~(size_t)0};
    const float table[] = {0.25f, 0.5f, 0.75f, 1.0f};
    unsigned first = 0;
    put_alone(inks, 2, 0, 2);
    EXPECT(done(table, counted()) && same(answer[0], 0.5f) && same(answer[1], 0.75f));
    if (faults & 8) memset(sizes, 255, inks);
    if (faults & 4) sizes[next((unsigned)inks)] = 0;
    if (faults & 128) inputs[next((unsigned)inks)] = of_bits(nans[kind]);
    n = faults & 1 ? wrong[kind] : n, m = faults & 2 ? wrong[kind] : m;
    while (!(faults >> first & 1)) first++;
    size_t length = faults & 16 ? kind : 4, given = faults & 32 ? inks + 1 - kind / 2 * 2 : inks, room = faults & 64 ? kind % 2 : 2;
    EXPECT(call(table, length, given, room) == numbers[first] && reads[1] == 0 && untouched_from(0));
}

int main(void) {
    by_hand();
    for (size_t inks = 1; inks <= MOST; inks++) {
        for (size_t outputs = 1; outputs <= MOST; outputs++) every_count(inks, outputs);
        for (size_t pattern = 0; pattern < PATTERNS; pattern++) hidden_nodes(inks, pattern);
        for (size_t ink = 3; ink < inks; ink++) small_weights(inks, ink);
        /* With fewer than four inks and two outputs no total is too large. */
        for (unsigned faults = 1; faults < 256; faults++)
            for (unsigned kind = 0; kind < 4; kind++)
                if (inks >= 4 || !(faults & 8)) with_faults(inks, faults, kind);
    }
    for (unsigned round = 0; round < 8000; round++) without_idle_inks(1 + round % 8, 1 + round / 8 % 4, round % 3 ? 7 : 10);
    for (unsigned g = 2; g <= 255; g++) every_line(g);
    printf("skipping: %d checks, %d failed\n", checks, failed);
    return failed != 0;
}
