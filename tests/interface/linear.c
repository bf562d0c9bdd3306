/* Lookups of every count of inks and outputs in tables that are linear in each ink, with numbers that no step rounds: every answer is then known
 * without the rule of a lookup. Tables are no longer than asked, so that a reading past one is seen where memory is watched, and of a longer answer
 * buffer the rest must stay. Prints what does not hold, then the count of checks. */
#include <stdio.h>
#include <stdlib.h>
#include <string.h>
#include "tenahvar.h"

enum { MOST = 15, REST = 5, PATTERNS = 8 };
static const float UNTOUCHED = 7.5f;
static int checks, failed;

static unsigned long state = 1;
static unsigned next(unsigned below) {
    state = state * 6364136223846793005ul + 1442695040888963407ul;
    return (unsigned)(state >> 33) % below;
}

/* Output o where all inks stand on line 0, and what ink i adds to it from one line to the next. */
static int base(size_t o) { return 10 * (int)o - 40; }
static int rise(size_t i, size_t o) { return (int)((7 * i + 3 * o) % 11) - 5; }

/* The entries of the whole table, the first ink varying least. */
static float *table_of(const uint8_t *sizes, size_t n, size_t m, size_t total) {
    float *table = (float *)malloc(total * sizeof *table);
    if (table == NULL) exit(2);
    for (size_t entry = 0; entry < total; entry++) {
        size_t o = entry % m, node = entry / m;
        int value = base(o);
        for (size_t i = n; i-- > 0; node /= sizes[i]) value += rise(i, o) * (int)(node % sizes[i]);
        table[entry] = (float)value;
    }
    return table;
}

/* Inks in quarters of a grid line: all on the first line, all on the last, then any. */
static void lookups(const uint8_t *sizes, size_t n, size_t m, const float *table, size_t total) {
    for (int pattern = 0; pattern < PATTERNS; pattern++) {
        float inputs[MOST], answer[MOST + REST];
        double line[MOST];
        for (size_t i = 0; i < n; i++) {
            unsigned most = 4u * (sizes[i] - 1u);
            unsigned quarters = pattern == 0 ? 0 : pattern == 1 ? most : next(most + 1);
            line[i] = quarters / 4.0;
            inputs[i] = (float)(line[i] / (sizes[i] - 1));
        }
        size_t room = m + next(REST + 1);
        for (size_t o = 0; o < MOST + REST; o++) answer[o] = UNTOUCHED;
        uint32_t number = tenahvar_lookup(sizes, n, m, table, total, inputs, n, answer, room);
        int right = number == TENAHVAR_DONE;
        for (size_t o = 0; o < MOST + REST; o++) {
            double value = base(o);
            for (size_t i = 0; i < n; i++) value += rise(i, o) * line[i];
            if (answer[o] != (o < m ? (float)value : UNTOUCHED)) right = 0;
        }
        checks++;
        if (right) continue;
        failed++;
        printf("linear.c: not so: %zu inks, %zu outputs, pattern %d: number %u\n", n, m, pattern, (unsigned)number);
    }
}

int main(void) {
    for (size_t n = 1; n <= MOST; n++)
        for (size_t m = 1; m <= MOST; m++) {
            uint8_t sizes[16] = {0};
            size_t total = m;
            for (size_t i = 0; i < n; i++) {
                sizes[i] = n <= 3 ? 5 : n <= 7 && next(2) ? 3 : 2;
                total *= sizes[i];
            }
            float *table = table_of(sizes, n, m, total);
            lookups(sizes, n, m, table, total);
            free(table);
        }
    printf("linear: %d checks, %d failed\n", checks, failed);
    return failed != 0;
}
