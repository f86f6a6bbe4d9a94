/* SPDX-License-Identifier: Apache-2.0 */
/*
 * What splits lines and counts them for the command hll: whole lines (lines.c), and columns and values by key (rows.c). The Python
 * package loads these (hll_sketches/_splitter.py), and reads by hll_sketches/lines.py where they aren't there. Both have the same
 * results: change both, and LINES_VERSION with each change of a call.
 *
 * They are linked with no other library than that of C. The package hands over the calls of libhll, so values go to the libhll that
 * the package has loaded, wherever that is.
 */
#ifndef HLL_LINES_H
#define HLL_LINES_H
#include "hll.h"

#define LINES_VERSION 1

/* Which lines count. */
typedef struct lines_rules {
    size_t longest;             /* the most bytes of a line */
    const uint8_t *missing;     /* values that are left out, concatenated */
    const size_t *missing_ends; /* the end of each of these */
    size_t missing_count;
} lines_rules;

/* What was read: numbers of lines. */
typedef struct lines_sums {
    size_t lines;
    size_t missing;      /* those that are left out */
    size_t ending_in_cr; /* those whose value does, also if it is left out */
    size_t is_left; /* 1: some line is unusual, and Python has to read all of them. The other numbers don't count then */
} lines_sums;

uint32_t lines_version(void);

/* ---- whole lines (lines.c) */

/* hll_counter_add */
typedef hll_status (*lines_call)(hll_counter *counter, const uint8_t *value, size_t len);

/* Returns whether a value is left out. */
int lines_is_missing(const lines_rules *rules, const uint8_t *value, size_t size);

/* Adds lines, between which an LF is, to a counter. No bytes are one empty line. A line that is too long is left to Python: then
 * lines before it were added.
 * Returns HLL_OK, or what `add` returned for a line, after which no line is read. */
hll_status lines_add(lines_call add, hll_counter *counter, const uint8_t *bytes, size_t len, const lines_rules *rules,
                     lines_sums *sums);

/* ---- values by key (rows.c) */

/* The calls of libhll: hll_counter_init, _free, _add, _settle and _image; and what allocates, or NULL for malloc. */
typedef struct rows_calls {
    hll_status (*init)(hll_counter *counter, unsigned lg_k, hll_allocator allocator, void *context);
    void (*free)(hll_counter *counter);
    lines_call add;
    hll_status (*settle)(hll_counter *counter);
    hll_status (*image)(const hll_counter *counter, unsigned width, uint8_t *out, size_t room, size_t *size);
    hll_allocator allocator;
} rows_calls;

typedef struct rows_field {
    const uint8_t *at;
    size_t size;
} rows_field;

/* Where the parts of the key and the value are in a line. */
typedef struct rows_rules {
    lines_rules lines;
    size_t separator;      /* a byte */
    const size_t *places;  /* the column of each part, and then that of the value, from 0 */
    const size_t *lengths; /* the characters of each part that count; 0: all */
    size_t last;           /* the greatest of the places */
} rows_rules;

typedef struct rows rows;

/* Returns an empty table of keys of this number of parts, or NULL if an allocation fails. The seed is to be random. */
rows *rows_new(const rows_calls *calls, unsigned lg_k, size_t parts, const uint64_t seed[2]);
void rows_free(rows *all);

/* Returns the number of keys, the bytes in memory, and the bytes of all keys, which rows_keys writes: each part after its length, in
 * four bytes as the processor has them. */
size_t rows_count(const rows *all);
size_t rows_memory(const rows *all);
size_t rows_keys_size(const rows *all);
void rows_keys(const rows *all, uint8_t *out);

/* Adds rows: for each row the parts of its key and its value, concatenated and delimited by `ends`.
 * Returns HLL_OK or HLL_MEMORY, after which some rows were added. */
hll_status rows_add(rows *all, const uint8_t *bytes, const size_t *ends, size_t count);

/* Adds lines, between which an LF is. If one has too few columns, a NUL, or a part of the key that has to be cut and isn't ASCII, or is
 * too long, all of them are left to Python, and none was added.
 * Returns HLL_OK or HLL_MEMORY, after which some lines were added. */
hll_status rows_add_lines(rows *all, const uint8_t *bytes, size_t len, const rows_rules *rules, lines_sums *sums);

/* Writes the images of keys, named by their numbers in the order in which they came, and the end of each, as long as there is room.
 * *done is their number.
 * Returns HLL_OK, HLL_MEMORY, or HLL_BUFFER if there is no room for the first. */
hll_status rows_images(rows *all, const size_t *numbers, size_t count, unsigned width, uint8_t *out, size_t room,
                       size_t *ends, size_t *done);
#endif
