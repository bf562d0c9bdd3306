/* profile FILE [TAG]: reads the table of an ICC profile, lets the profile go, and looks colours up. TAG is the name of the tag that has the
 * table; without it that is A2B1, or A2B0 where there is no A2B1.
 * Where the table stands in the file is this program's own reading, which it checks; what stands there the library checks. */
#define _POSIX_C_SOURCE 200809L /* for stat */
#include <errno.h>
#include <inttypes.h>
#include <stdio.h>
#include <stdlib.h>
#include <string.h>
#include <sys/stat.h>
#include "tenahvar.h"

/* A stretch of the file. */
struct part {
    const uint8_t *at;
    size_t length;
};

/* A CLUT as it stands in a tag. */
struct clut {
    uint8_t sizes[16];
    size_t n, m;
    size_t precision; /* the bytes of a value; 0 for a CLUT element, which has a header of its own that says it */
    struct part data;
};

/* A table to look up in. */
struct table {
    uint8_t sizes[16];
    size_t n, m, total;
    float *entries;
};

/* The types of tags that have a CLUT: how long the part is that each such tag begins with, and the precision, as above. */
struct kind {
    const char *type;
    size_t header, precision;
};

static const struct kind kinds[] = {{"mAB ", 32, 0}, {"mBA ", 32, 0}, {"mft1", 48, 1}, {"mft2", 52, 2}};

static uint32_t word(const uint8_t *at) {
    return (uint32_t)at[0] << 24 | (uint32_t)at[1] << 16 | (uint32_t)at[2] << 8 | at[3];
}

/* `length` bytes of a part from an offset on; false where they are not all there. */
static int within(struct part whole, size_t offset, size_t length, struct part *found) {
    if (offset > whole.length || length > whole.length - offset) return 0;
    found->at = whole.at + offset;
    found->length = length;
    return 1;
}

/* All bytes of a part from an offset on: none where it ends before. */
static struct part from(struct part whole, size_t offset) {
    size_t skipped = offset < whole.length ? offset : whole.length;
    struct part rest = {whole.at + skipped, whole.length - skipped};
    return rest;
}

/* The entries of the tag table, 12 bytes each. Before it stand a header of 128 bytes, the profile's length first, and the count of tags. */
static const char *tags_of(struct part profile, struct part *tags) {
    if (profile.length < 132) return "the file is too short for a profile";
    if (memcmp(profile.at + 36, "acsp", 4) != 0) return "this is no ICC profile";
    if (word(profile.at) > profile.length) return "the profile is cut off";
    return within(profile, 132, 12 * (size_t)word(profile.at + 128), tags) ? NULL : "the tag table is cut off";
}

/* The entry of a tag; NULL where there is none. */
static const uint8_t *entry_of(struct part tags, const char *name) {
    for (size_t i = 0; i < tags.length; i += 12) {
        if (memcmp(tags.at + i, name, 4) == 0) return tags.at + i;
    }
    return NULL;
}

/* The tag that is named, or else A2B1, or else A2B0. Its entry has its name, offset and size. */
static const char *find_tag(struct part profile, const char *named, struct part *tag) {
    struct part tags;
    const char *complaint = tags_of(profile, &tags);
    if (complaint != NULL) return complaint;
    const uint8_t *entry = entry_of(tags, named != NULL ? named : "A2B1");
    if (entry == NULL && named == NULL) entry = entry_of(tags, "A2B0");
    if (entry == NULL) return named != NULL ? "there is no such tag" : "there is no tag A2B1 and no A2B0";
    return within(profile, word(entry + 4), word(entry + 8), tag) ? NULL : "the tag is not in the file";
}

/* The CLUT element of a lutAToBType or lutBToAType: bytes 24 to 27 say where it starts. It is lent with all that follows in the tag. */
static const char *find_element(struct part tag, struct clut *clut) {
    size_t offset = word(tag.at + 24);
    if (offset == 0) return "the tag has no CLUT";
    if (offset > tag.length) return "the CLUT is not in the tag";
    clut->data = from(tag, offset);
    if (clut->data.length >= sizeof clut->sizes) memcpy(clut->sizes, clut->data.at, sizeof clut->sizes);
    return NULL;
}

/* The values of a lut8Type or lut16Type: they follow the input tables, one for each ink, of 256 values in a lut8Type and in a lut16Type of
 * as many as bytes 48 and 49 say. Byte 10 is the size of every ink. The values are lent with all that follows in the tag. */
static void find_values(struct part tag, size_t header, struct clut *clut) {
    size_t each = clut->precision == 1 ? 256 : (size_t)tag.at[48] << 8 | tag.at[49];
    memset(clut->sizes, tag.at[10], sizeof clut->sizes);
    clut->data = from(tag, header + clut->n * each * clut->precision);
}

/* The CLUT of a tag. The tag's first four bytes are its type, bytes 8 and 9 the counts of inks in and out. */
static const char *find_clut(struct part tag, struct clut *clut) {
    for (size_t i = 0; i < sizeof kinds / sizeof kinds[0]; i++) {
        if (tag.length < 4 || memcmp(tag.at, kinds[i].type, 4) != 0) continue;
        if (tag.length < kinds[i].header) return "the tag is too short for its type";
        clut->n = tag.at[8];
        clut->m = tag.at[9];
        clut->precision = kinds[i].precision;
        if (clut->precision == 0) return find_element(tag, clut);
        find_values(tag, kinds[i].header, clut);
        return NULL;
    }
    return "the tag's type is not mAB, mBA, mft1 or mft2";
}

/* Reads the table of a CLUT; a complaint where that cannot be. A refusal goes to `number`. Where the sizes are refused, or there is not a
 * byte for each entry, no room is made; reading is then refused as well, and for that reason, as it looks at the room last. */
static const char *read_table(const struct clut *clut, struct table *table, uint32_t *number) {
    struct part data = clut->data;
    uint64_t total = 0;
    *number = tenahvar_total(clut->sizes, clut->n, clut->m, &total);
    memcpy(table->sizes, clut->sizes, sizeof table->sizes);
    table->n = clut->n;
    table->m = clut->m;
    table->total = total <= data.length ? (size_t)total : 0;
    table->entries = malloc(table->total * sizeof *table->entries + 1);
    if (table->entries == NULL) return "no memory for the table";
    if (clut->precision == 0) {
        *number = tenahvar_read_clut(data.at, data.length, clut->n, clut->m, table->sizes, table->entries, table->total);
    } else if (*number == TENAHVAR_DONE) {
        *number = tenahvar_read_units(data.at, data.length, clut->precision, (size_t)total, table->entries, table->total);
    }
    return *number == TENAHVAR_DONE ? NULL : tenahvar_refusal_text(*number);
}

/* What a file cannot be read for, by the system's number. */
static const char *reason(int error) {
    if (error == ENOENT) return "no such file";
    return error == EACCES || error == EPERM ? "no permission to read it" : "the file cannot be read";
}

/* A whole file, to be freed. What is no regular file is not opened: opening a pipe could wait for ever. */
static const char *read_file(const char *name, uint8_t **bytes, size_t *length) {
    struct stat about;
    if (stat(name, &about) != 0) return reason(errno);
    if (S_ISDIR(about.st_mode)) return "this is a directory";
    if (!S_ISREG(about.st_mode)) return "this is no regular file";
    if (about.st_size > (off_t)UINT32_MAX) return "the file is larger than a profile can be";
    FILE *file = fopen(name, "rb");
    if (file == NULL) return reason(errno);
    size_t size = (size_t)about.st_size;
    *bytes = malloc(size + (size == 0));
    *length = *bytes == NULL ? 0 : fread(*bytes, 1, size, file);
    const char *complaint = ferror(file) ? "the file cannot be read" : NULL;
    fclose(file);
    return *bytes == NULL ? "no memory for the file" : complaint;
}

/* The table of a profile in a file. */
static const char *table_of(const char *name, const char *tag_name, struct table *table, uint32_t *number) {
    struct part profile = {NULL, 0}, tag;
    struct clut clut = {{0}, 0, 0, 0, {NULL, 0}};
    uint8_t *bytes = NULL;
    const char *complaint = read_file(name, &bytes, &profile.length);
    profile.at = bytes;
    if (complaint == NULL) complaint = find_tag(profile, tag_name, &tag);
    if (complaint == NULL) complaint = find_clut(tag, &clut);
    if (complaint == NULL) complaint = read_table(&clut, table, number);
    free(bytes);
    return complaint;
}

/* Prints one colour: its inks, then the m outputs. */
static uint32_t show(const struct table *table, const float *inks) {
    float answer[15];
    uint32_t number = tenahvar_lookup(table->sizes, table->n, table->m, table->entries, table->total, inks, table->n, answer, 15);
    if (number != TENAHVAR_DONE) return number;
    printf("inks");
    for (size_t i = 0; i < table->n; i++) printf(" %.2f", inks[i]);
    printf(" give");
    for (size_t o = 0; o < table->m; o++) printf(" %.4f", answer[o]);
    printf("\n");
    return number;
}

/* Four colours: paper, the first ink alone, all inks in full, and a tenth of the first, two of the second and so on. */
static const char *show_colours(const struct table *table, uint32_t *number) {
    float inks[4][15] = {{0.0f}};
    inks[1][0] = 1.0f;
    for (int i = 0; i < 15; i++) {
        inks[2][i] = 1.0f;
        inks[3][i] = (float)(i + 1) / 10.0f;
    }
    printf("%zu inks in, %zu out, %zu entries\n", table->n, table->m, table->total);
    printf("curves and matrix around the CLUT are not applied\n");
    for (int colour = 0; colour < 4 && *number == TENAHVAR_DONE; colour++) *number = show(table, inks[colour]);
    if (*number != TENAHVAR_DONE) return tenahvar_refusal_text(*number);
    return fflush(stdout) != 0 || ferror(stdout) ? "the colours cannot be written" : NULL;
}

/* Status 1 where the file gives no colours, 2 where the command line asks for none. */
int main(int count, char **words) {
    struct table table = {{0}, 0, 0, 0, NULL};
    uint32_t number = TENAHVAR_DONE;
    if (count != 2 && count != 3) {
        fprintf(stderr, "usage: profile FILE [TAG]\n");
        return 2;
    }
    const char *name = words[1], *tag_name = count == 3 ? words[2] : NULL;
    if (tag_name != NULL && strlen(tag_name) != 4) {
        fprintf(stderr, "%s: a tag's name has four characters\n", tag_name);
        return 2;
    }
    const char *complaint = table_of(name, tag_name, &table, &number);
    if (complaint == NULL) complaint = show_colours(&table, &number);
    free(table.entries);
    if (complaint == NULL) return 0;
    if (number != TENAHVAR_DONE) fprintf(stderr, "%s: refused %" PRIu32 ": %s\n", name, number, complaint);
    else fprintf(stderr, "%s: %s\n", name, complaint);
    return 1;
}
