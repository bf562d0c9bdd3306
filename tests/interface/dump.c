/* The file of docs/TABLE-FILES.md, written and read by the program on that page, a byte in each line. snippet.h is that program. */
#include <stdio.h>
#include <string.h>
#include "snippet.h"

int main(void) {
    const uint8_t sizes[16] = {2};
    const float table[] = {0.0f, 1.0f};
    uint8_t told[16];
    size_t n = 0, m = 0;
    uint64_t length = 0;
    uint8_t *file = store(sizes, 1, 1, table, 2, &length);
    if (file == NULL) return 1;
    for (uint64_t i = 0; i < length; i++) printf("%02X\n", file[i]);
    float *entries = fetch(file, length, told, &n, &m);
    int same = entries != NULL && memcmp(entries, table, sizeof table) == 0 && memcmp(told, sizes, 16) == 0 && n == 1 && m == 1;
    /* Too little flash, too few entries, and a damaged file. */
    same = same && fetch(file, length - 1, told, &n, &m) == NULL && store(sizes, 1, 1, table, 1, &length) == NULL;
    file[520] ^= 1;
    same = same && fetch(file, length, told, &n, &m) == NULL;
    free(entries);
    free(file);
    return same ? 0 : 1;
}
