/* Tenahvar: colour lookup of 1 to 15 inks in a grid of binary32 entries.
 *
 * Each function answers a number: 0, done, or the first refusal that applies. On a refusal it has written nothing, but for tenahvar_lookup_skipping's
 * *reads, which it sets to 0.
 * Memory: it is lent for the time of the call alone; nothing is kept, allocated or freed.
 * Threads: there is no state, so any function may be called from any thread at any time.
 * Pointers: none may be null, also where a length is 0; each is aligned as its type asks, and what a function writes to may overlap nothing else that it is
 * given.
 * Lengths count entries, not bytes, and are true: so many entries are there to be read or written. A length may be larger than what a call uses.
 * Arithmetic: a 64-bit processor is asked for, size_t has 64 bits, float is IEEE 754 binary32. The caller leaves the processor's rounding at nearest, and
 * does not have it flush subnormal numbers to zero.
 * Stack: TENAHVAR_STACK below. The archive imports two symbols, memcpy and memset.
 */
#ifndef TENAHVAR_H
#define TENAHVAR_H

#include <stddef.h>
#include <stdint.h>

#ifdef __cplusplus
extern "C" {
#endif

/* The version of this header, and of the archive that it goes with. */
#define TENAHVAR_VERSION "0.2.0"
#define TENAHVAR_VERSION_MAJOR 0
#define TENAHVAR_VERSION_MINOR 2
#define TENAHVAR_VERSION_PATCH 0

/* No call takes more bytes of stack. By the frames of the x86-64 archive it is at most 4,136 bytes, for a lookup, whatever the counts: no function calls
 * itself. memcpy's and memset's own are not among them. */
#define TENAHVAR_STACK 8192

/* What a call answers. */
#define TENAHVAR_DONE 0            /* done */
#define TENAHVAR_INPUT_INKS 1      /* n is outside 1..15 */
#define TENAHVAR_OUTPUT_INKS 2     /* m is outside 1..15; cube methods: m is not 3 or 4 */
#define TENAHVAR_ZERO_SIZE 3       /* a size in use is 0 */
/* 4 is withdrawn: it is not given, and not used again. */
#define TENAHVAR_LARGE_TOTAL 5     /* the total is above 4,294,967,295 */
#define TENAHVAR_SHORT_TABLE 6     /* the table is shorter than the total */
#define TENAHVAR_INPUT_COUNT 7     /* the number of inputs, or of node coordinates, is not n */
#define TENAHVAR_SHORT_ANSWER 8    /* a buffer to be written is shorter than m, than the total of a CLUT, a slab or a table file, than the
                                    * count of values, or than a table file */
#define TENAHVAR_FOREIGN_RECORD 9  /* a layout record is not one that an accepted layout gives: no function below takes a record */
#define TENAHVAR_OUTSIDE_GRID 10   /* a cell's node is not below g, or a node coordinate not below its own ink's size */
#define TENAHVAR_NO_SUCH_INK 11    /* the ink to cut is not one of 1..n, or n is 1 */
#define TENAHVAR_NO_SUCH_LINE 12   /* the line to cut at is not below the size of the ink to cut */
#define TENAHVAR_SHORT_ELEMENT 13  /* a CLUT element has under 20 bytes */
#define TENAHVAR_PRECISION 14      /* the precision, the bytes of a value, is neither 1 nor 2 */
#define TENAHVAR_SHORT_DATA 15     /* too little data: for the total of a CLUT element, or for the count of values */
#define TENAHVAR_NAN_INPUT 16      /* an input of a lookup is a NaN */
#define TENAHVAR_FILE_LENGTH 17    /* a table file is not exactly block 0 and the blocks that its total needs */
#define TENAHVAR_BLOCK_CHECK 18    /* the check of a table file's block is not the sum of the words before it */
#define TENAHVAR_BLOCK_NUMBER 19   /* the number of a table file's block is not its place, counted from 0 */
#define TENAHVAR_BLOCK_FILLING 20  /* a table file's filling, or a size that is not in use, is not 0 */

/* What a number says, in words for a log. A number that no function gives has a text too. */
static inline const char *tenahvar_refusal_text(uint32_t number) {
    switch (number) {
    case 0: return "done";
    case 1: return "the number of input inks is outside 1..15";
    case 2: return "the number of output inks is outside 1..15, or for a cube method not 3 or 4";
    case 3: return "a grid size in use is 0";
    case 5: return "the table would have more than 4,294,967,295 entries";
    case 6: return "the table is shorter than the sizes ask";
    case 7: return "the number of inputs or coordinates is not that of the input inks";
    case 8: return "a buffer to be written is too short";
    case 9: return "the record is not one that an accepted layout gives";
    case 10: return "a node is outside the grid";
    case 11: return "the ink to cut is not an ink, or it is the only one";
    case 12: return "the line to cut at is not one of the ink";
    case 13: return "the CLUT element has under 20 bytes";
    case 14: return "the precision is neither 1 nor 2";
    case 15: return "there is too little data";
    case 16: return "an input is not a number";
    case 17: return "the table file is not as long as its layout asks";
    case 18: return "a block's check is not the sum of its words";
    case 19: return "a block's number is not its place in the table file";
    case 20: return "the table file's filling or an unused size is not 0";
    default: return "no refusal of this version";
    }
}

/* A layout: the first n of the sixteen sizes are in use, the number of grid lines of each ink; the others may be anything. There are n inks in and m out,
 * and as many entries as the product of the n sizes times m, the total. In the table the first ink varies least rapidly, the last most rapidly, and the m
 * entries of a node stand together. */

/* Refusals 1, 2, 3, 5, in that order. On 0 it writes, for ink i from 0, the nodes and the table entries from one line of the ink to its next, and its size
 * less 1; unused places are set to 1, 1 and +0.0. */
uint32_t tenahvar_layout(const uint8_t sizes[16], size_t n, size_t m,
                         uint32_t grid_strides[16], uint32_t grid_filling_size[16], float grid_scale[16]);

/* The entries that a table needs: refusals 1, 2, 3, 5. On 0 *total is the product of the n sizes and m, at most 4,294,967,295. */
uint32_t tenahvar_total(const uint8_t sizes[16], size_t n, size_t m, uint64_t *total);

/* The colour at `inputs`: a layout's refusals, then 6, 7, 8, 16. On 0 it sets the first m entries of `answer` and no others.
 * An input below 0 counts as 0 and one above 1 as 1, the infinities too. A NaN, as a broken sensor may give, is refusal 16, whatever its kind, sign and
 * payload. Entries of the table may be anything. */
uint32_t tenahvar_lookup(const uint8_t sizes[16], size_t n, size_t m,
                         const float *table, size_t table_length,
                         const float *inputs, size_t inputs_length,
                         float *answer, size_t answer_length);

/* The same without the half that counts for nothing: where an ink from the fourth on falls on a grid line, so that its weight is 0, only its lower node is
 * visited, and the answer there is taken as it stands. Refusals as of tenahvar_lookup. On 0 it sets the first m entries of `answer` and no others, and
 * *reads to the number of node reads, whatever m is: 2 for one ink, 4 for two, else 6 times 2 to the power k, where k inks from the fourth on have another
 * weight than 0: at most 24,576. On a refusal it sets *reads to 0 and writes nothing else. `reads` may overlap nothing else.
 * If the first total entries of the table are from 0 to 1, the answers equal the lookup's, zeros of both signs counting as equal. In other tables they need
 * not: the lookup adds 0 times what the upper node gives, a NaN where that is an infinity or a NaN, and here that is left out. */
uint32_t tenahvar_lookup_skipping(const uint8_t sizes[16], size_t n, size_t m,
                                  const float *table, size_t table_length,
                                  const float *inputs, size_t inputs_length,
                                  float *answer, size_t answer_length,
                                  uint32_t *reads);

/* Where a node's m entries stand in the table: a layout's refusals, then 6, 7, 10. On 0 the node is table[*offset] .. table[*offset + m - 1]. */
uint32_t tenahvar_node(const uint8_t sizes[16], size_t n, size_t m,
                       const float *table, size_t table_length,
                       const size_t *coordinates, size_t coordinates_length,
                       size_t *offset);

/* Reads the CLUT element of an ICC.1 lutAToBType: sixteen sizes, a precision byte, three bytes of padding, then the data. An entry is v / 255 of one byte
 * (precision 1) or v / 65535 of two, the first counting most (precision 2). Padding, sizes from n on and data past the total are ignored.
 * Refusals 13, then a layout's, then 14, 15, 8. On 0 it writes the element's first n sizes and then zeros to `sizes`, and sets the first total entries of
 * `entries` and no others. What was read is for the functions here, with the same n and m; the element is needed no more. */
uint32_t tenahvar_read_clut(const uint8_t *element, size_t element_length, size_t n, size_t m,
                            uint8_t sizes[16], float *entries, size_t entries_length);

/* Values of one byte (precision 1) or of two, the first counting most (precision 2), as numbers from 0 to 1: v / 255 or v / 65535. For the table of an ICC.1
 * lut8Type or lut16Type, whose data has no header of its own, and for ink codes of 8 or 16 bits. Refusals 14, 15 (less than `count` values), 8 (`entries`
 * shorter than `count`). On 0 it sets the first `count` entries and no others; data past them is ignored. */
uint32_t tenahvar_read_units(const uint8_t *data, size_t data_length, size_t precision, size_t count,
                             float *entries, size_t entries_length);

/* Cuts out the table that remains when ink j, counted from 1, stands on grid line k, counted from 0: the slab. It has as many entries as the product of the
 * other sizes times m and holds, bit for bit and in their old order, the entries of the nodes whose coordinate for ink j is k.
 * A layout's refusals, then 6, 11, 12, 8. On 0 it sets the first entries of `slab`, as many as the slab has, and no others.
 * The slab is a table for the functions here. For a lookup in it with the other inks' inputs take size j out, so that those after it move up by one; give
 * n-1 inks and the same m. */
uint32_t tenahvar_cut_slab(const uint8_t sizes[16], size_t n, size_t m,
                           const float *table, size_t table_length,
                           size_t j, size_t k,
                           float *slab, size_t slab_length);

/* Table files: a layout and its table in blocks of 512 bytes, for a controller's flash; docs/TABLE-FILES.md in the repository has the
 * format. No file is opened here: the functions know bytes in memory, and to store and fetch these is the caller's. A table is lent as it
 * stands, and its entries are kept bit for bit, NaNs of both kinds with their payloads and the signs of zeros too.
 * A writer needs room for the bytes that tenahvar_file_length tells. A reader gives the first 512 bytes to tenahvar_file_layout; for the
 * layout in them tenahvar_file_length tells how many bytes to fetch, and tenahvar_total for how many entries to have room.
 * A file that is there in part, as after a power loss, is refused: by 17 where its end is missing, by 18 or 19 where a block is not yet
 * written, by 1 where block 0 is all zeros. But whole blocks of an older file with the same layout are as good as new ones: a writer that
 * spoils block 0 first and writes it last leaves no such mixture.
 * The check is a sum and no signature. Any change within one of a block's words is seen; changes that cancel each other in the sum, or
 * entries of one block that were exchanged, are not. */

/* The bytes of a layout's table file: refusals 1, 2, 3, 5. On 0 *length is 512 * (1 + (total + 125) / 126). */
uint32_t tenahvar_file_length(const uint8_t sizes[16], size_t n, size_t m, uint64_t *length);

/* Writes a table file: a layout's refusals, then 6, then 8 where `file` is shorter than tenahvar_file_length tells. On 0 the file stands
 * in the first bytes of `file`, and no others are set. Sizes from n on and entries past the total do not count. */
uint32_t tenahvar_write_table(const uint8_t sizes[16], size_t n, size_t m,
                              const float *table, size_t table_length,
                              uint8_t *file, size_t file_length);

/* The layout of a table file. Block 0, its first 512 bytes, is enough; what follows is not looked at. Refusals 17 for under 512 bytes,
 * then 18, 19, 20 of block 0, then a layout's. On 0 it writes the first n sizes and then zeros to `sizes`, and the counts to *n and *m. */
uint32_t tenahvar_file_layout(const uint8_t *file, size_t file_length,
                              uint8_t sizes[16], size_t *n, size_t *m);

/* Reads a table file: the refusals of tenahvar_file_layout, then 17 for the whole length, then 18, 19, 20 of each later block in turn,
 * last 8 where `entries` is shorter than the total. On 0 it writes `sizes`, *n and *m as tenahvar_file_layout does, and sets the first
 * total entries and no others. A file that is accepted, written again, has the same bytes. */
uint32_t tenahvar_read_table(const uint8_t *file, size_t file_length,
                             uint8_t sizes[16], size_t *n, size_t *m,
                             float *entries, size_t entries_length);

/* For each 8-bit ink code its lower node, upper node and weight on an axis of g lines: refusal 3. */
uint32_t tenahvar_create_ranged_256(uint8_t g, size_t x[256], size_t x_n[256], float w[256]);

/* A colour in a cube of g^3 nodes with m entries each, by the lower nodes, upper nodes and weights on its three axes:
 * refusals 2, 3, 6, 8, 10. On 0 the first m entries of `answer` are set and no others. */
uint32_t tenahvar_pyramidal(const size_t x[3], const size_t x_n[3], const float w[3], uint8_t g, size_t m,
                            const float *cube, size_t cube_length, float *answer, size_t answer_length);
uint32_t tenahvar_prismatic(const size_t x[3], const size_t x_n[3], const float w[3], uint8_t g, size_t m,
                            const float *cube, size_t cube_length, float *answer, size_t answer_length);
uint32_t tenahvar_trilinear(const size_t x[3], const size_t x_n[3], const float w[3], uint8_t g, size_t m,
                            const float *cube, size_t cube_length, float *answer, size_t answer_length);

#ifdef __cplusplus
}
#endif

#endif
