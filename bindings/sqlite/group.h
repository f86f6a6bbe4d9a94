/* SPDX-License-Identifier: Apache-2.0 */
/*
 * What an aggregate keeps of a group: a counter of the library (hll.h, "counters"), in memory allocated by SQLite. Each row is
 * added to it by one call.
 */
#ifndef HLL_GROUP_H
#define HLL_GROUP_H

#include "hll_sqlite.h"

typedef struct Group {
    bool is_begun;
    bool has_failed;
    uint8_t lg_k;           /* for a sketch of values its lg_k; for a union the bound, or 0 if there is none */
    uint8_t width;          /* of the result; 0 for the width of the images, or 8 if they differ */
    hll_counter counter;    /* made by the first value or image; its allocator is NULL until then */
} Group;

/* Adds the value or image of a row: returns HLL_OK, HLL_MEMORY, HLL_OTHER_LG_K, or why the image is rejected. */
typedef hll_status Add(Group *group, hll_bytes bytes);

Add add_value;
Add add_image;

/* Returns whether a value or an image has come. */
bool has_rows(const Group *group);

/* Returns what the sketch of a group with rows is. */
hll_state_summary summary_of(const Group *group);

/* Writes the image of a group with rows. */
hll_status write_group(Group *group, Output *out);

/* Writes the estimate of a group with rows, rounded to an integer. */
hll_status count_group(const Group *group, sqlite3_int64 *count);

void free_group(Group *group);

#endif
