/* damage KIND FOLDER: writes damaged copies of profile.c's profile of a kind, each a file in FOLDER whose name says what was done:
 * cut-L      its first L bytes alone;
 * short-L    its tag, and with it the file, ends after L bytes, before all data; both lengths are said so;
 * long-L     the same, but all data is there;
 * unread-P-B the byte at place P, which says nothing about the table, is B;
 * byte-P-B   the byte at place P, another one before the data, is B;
 * word-P-W   the count, offset or length at place P is W. */
#define main profile_main
#include "profile.c"
#undef main

static const struct kind *kind;
static const char *folder;
static int failed;

static void write_copy(const char *what, size_t place, const char *value, size_t count) {
    char name[512];
    int needed = snprintf(name, sizeof name, "%s/%s-%zu%s", folder, what, place, value);
    if (needed < 0 || (size_t)needed >= sizeof name || !write_file(name, count)) failed = 1;
}

static void cut_off(void) {
    for (size_t count = 0; count < length; count++) write_copy("cut", count, "", count);
}

static void shorten(void) {
    for (size_t end = TABLE; end < length; end++) {
        put(0, (uint32_t)end);
        put(ENTRY + 8, (uint32_t)(end - TABLE));
        write_copy(end < data_end ? "short" : "long", end - TABLE, "", end);
    }
    put(0, (uint32_t)length);
    put(ENTRY + 8, (uint32_t)(length - TABLE));
}

/* Stretches that say nothing about the table, each from a place up to another: of every profile, of one with a CLUT element, of another. */
enum { ALL, ELEMENT, TABLES };
static const struct stretch {
    int of;
    size_t from, to;
} unread_ones[] = {
    {ALL, 4, 36}, {ALL, 40, 128}, {ALL, 136, 144}, {ALL, 148, ENTRY}, {ALL, DUMMY, TABLE}, {ALL, TABLE + 4, TABLE + 8},
    {ELEMENT, TABLE + 10, TABLE + 24}, {ELEMENT, TABLE + 28, TABLE + 32}, {ELEMENT, TABLE + 32 + N, TABLE + 48},
    {ELEMENT, TABLE + 49, TABLE + 52}, {TABLES, TABLE + 11, TABLE + 48}, {TABLES, TABLE + 50, TABLE + 56},
};

static int unread(size_t place) {
    int own = kind->in == 0 ? ELEMENT : TABLES;
    for (size_t i = 0; i < sizeof unread_ones / sizeof unread_ones[0]; i++) {
        struct stretch stretch = unread_ones[i];
        if ((stretch.of == ALL || stretch.of == own) && place >= stretch.from && place < stretch.to) return 1;
    }
    return place >= data_end;
}

/* A byte is set to 0 and to 255, and its lowest and its highest bit are flipped. */
static void change_byte(size_t place) {
    const uint8_t old = profile[place], others[] = {0x00, 0xFF, old ^ 0x01, old ^ 0x80};
    for (size_t i = 0; i < sizeof others; i++) {
        char value[8];
        profile[place] = others[i];
        snprintf(value, sizeof value, "-%02X", others[i]);
        write_copy(unread(place) ? "unread" : "byte", place, value, length);
    }
    profile[place] = old;
}

/* The four bytes at a place become an extreme number, or one near a border. */
static void change_word(size_t place) {
    const uint32_t whole = (uint32_t)length, size = whole - TABLE;
    const uint32_t words[] = {0, 1, 2, 4, 20, 31, 32, TABLE, size - 20, size - 1, size, size + 1, whole - 132, whole - 1, whole, whole + 1,
                              0x15555555, 0x15555556, 0x7FFFFFFF, 0x80000000, 0xFFFF0000, 0xFFFFFFF4, 0xFFFFFFFF};
    uint8_t old[4];
    memcpy(old, profile + place, 4);
    for (size_t i = 0; i < sizeof words / sizeof words[0]; i++) {
        char value[12];
        put(place, words[i]);
        snprintf(value, sizeof value, "-%08X", (unsigned)words[i]);
        write_copy("word", place, value, length);
    }
    memcpy(profile + place, old, 4);
}

int main(int count, char **words) {
    const size_t places[] = {0, 128, ENTRY + 4, ENTRY + 8, TABLE + 8, TABLE + 24, TABLE + 48};
    kind = count == 3 ? build_named(words[1], "A2B1") : NULL;
    if (kind == NULL) return 2;
    folder = words[2];
    cut_off();
    shorten();
    for (size_t place = 0; place < length; place++) {
        int header = place < TABLE + 56 && place < data_start;
        if (header || (place >= data_end && place < data_end + AFTER)) change_byte(place);
    }
    for (size_t i = 0; i < sizeof places / sizeof places[0]; i++) change_word(places[i]);
    return failed;
}
