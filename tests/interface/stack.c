/* The stack that a call takes: each function is called on a stack of its own that was painted before, with arguments that let it go deepest, and what is
 * painted over is counted. No call may take more than the header's TENAHVAR_STACK. Refused calls take less. */
#define _XOPEN_SOURCE 700
#include <stdio.h>
#include <stdlib.h>
#include <string.h>
#include <ucontext.h>
#include "tenahvar.h"

enum { STACK = 1 << 16, PAINT = 0xA5, N = 15, M = 15, ENTRIES = (1 << N) * M, FILE_BYTES = 512 * (1 + (ENTRIES + 125) / 126) };

static ucontext_t outside, inside;
static unsigned char stack[STACK];
static float *table, *slab, answer[M], inputs[N], six_idle[N], w[256], scale[16];
static uint8_t sizes[16], bytes[20 + ENTRIES], file[FILE_BYTES];
static size_t coordinates[N], x[256], x_n[256], offset, n, m;
static uint32_t strides[16], filling[16], number, reads;
static uint64_t total, length;

static void layout(void) { number = tenahvar_layout(sizes, N, M, strides, filling, scale); }
static void count(void) { number = tenahvar_total(sizes, N, M, &total); }
static void lookup(void) { number = tenahvar_lookup(sizes, N, M, table, ENTRIES, inputs, N, answer, M); }
static void lookup_9(void) { number = tenahvar_lookup(sizes, 9, M, table, ENTRIES, inputs, 9, answer, M); }
static void skipping(void) { number = tenahvar_lookup_skipping(sizes, N, M, table, ENTRIES, inputs, N, answer, M, &reads); }
static void skipping_9(void) { number = tenahvar_lookup_skipping(sizes, N, M, table, ENTRIES, six_idle, N, answer, M, &reads); }
static void node(void) { number = tenahvar_node(sizes, N, M, table, ENTRIES, coordinates, N, &offset); }
static void clut(void) { number = tenahvar_read_clut(bytes, sizeof bytes, N, M, sizes, table, ENTRIES); }
static void units(void) { number = tenahvar_read_units(bytes, sizeof bytes, 2, ENTRIES / 2, table, ENTRIES); }
static void cut(void) { number = tenahvar_cut_slab(sizes, N, M, table, ENTRIES, 1, 1, slab, ENTRIES); }
static void measure(void) { number = tenahvar_file_length(sizes, N, M, &length); }
static void write_file(void) { number = tenahvar_write_table(sizes, N, M, table, ENTRIES, file, FILE_BYTES); }
static void file_layout(void) { number = tenahvar_file_layout(file, FILE_BYTES, sizes, &n, &m); }
static void read_file(void) { number = tenahvar_read_table(file, FILE_BYTES, sizes, &n, &m, table, ENTRIES); }
static void ranged(void) { number = tenahvar_create_ranged_256(33, x, x_n, w); }
static void pyramid(void) { number = tenahvar_pyramidal(coordinates, coordinates, inputs, 2, 4, table, ENTRIES, answer, M); }
static void prism(void) { number = tenahvar_prismatic(coordinates, coordinates, inputs, 2, 4, table, ENTRIES, answer, M); }
static void trilinear(void) { number = tenahvar_trilinear(coordinates, coordinates, inputs, 2, 4, table, ENTRIES, answer, M); }
static void nothing(void) { number = 0; }

/* The bytes that a call painted over. It is made twice: at the first the loader may look memcpy up, on the same stack. */
static size_t taken(void (*call)(void)) {
    call();
    memset(stack, PAINT, STACK);
    if (getcontext(&inside) != 0) exit(2);
    inside.uc_stack.ss_sp = stack;
    inside.uc_stack.ss_size = STACK;
    inside.uc_link = &outside;
    makecontext(&inside, call, 0);
    if (swapcontext(&outside, &inside) != 0) exit(2);
    size_t left = 0;
    while (left < STACK && stack[left] == PAINT) left++;
    return STACK - left;
}

int main(void) {
    static const struct { const char *name; void (*call)(void); } calls[] = {
        {"layout", layout}, {"total", count}, {"lookup", lookup}, {"lookup of 9", lookup_9}, {"lookup_skipping", skipping},
        {"lookup_skipping of 9 in 15", skipping_9}, {"node", node}, {"read_clut", clut}, {"read_units", units}, {"cut_slab", cut},
        {"file_length", measure}, {"write_table", write_file}, {"file_layout", file_layout}, {"read_table", read_file},
        {"create_ranged_256", ranged}, {"pyramidal", pyramid}, {"prismatic", prism}, {"trilinear", trilinear},
    };
    table = calloc(ENTRIES, sizeof *table);
    slab = calloc(ENTRIES, sizeof *slab);
    if (table == NULL || slab == NULL) return 2;
    memset(sizes, 2, sizeof sizes);
    memset(bytes, 2, 16);
    bytes[16] = 1;
    for (int i = 0; i < N; i++) inputs[i] = 0.5f;
    for (int i = 0; i < 9; i++) six_idle[i] = 0.5f;
    size_t around = taken(nothing), most = 0;
    for (size_t i = 0; i < sizeof calls / sizeof *calls; i++) {
        size_t bytes_taken = taken(calls[i].call) - around;
        if (number != TENAHVAR_DONE) {
            printf("stack: %s is refused with %u\n", calls[i].name, (unsigned)number);
            return 1;
        }
        printf("%s%s %zu", i == 0 ? "stack: " : ", ", calls[i].name, bytes_taken);
        if (bytes_taken > most) most = bytes_taken;
    }
    printf(" bytes\n");
    free(table);
    free(slab);
    if (most <= TENAHVAR_STACK) return 0;
    printf("stack: %zu bytes, and the header says at most %d\n", most, TENAHVAR_STACK);
    return 1;
}
