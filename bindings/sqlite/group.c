/* SPDX-License-Identifier: Apache-2.0 */
#include "group.h"

#define MIN(a, b) ((a) < (b) ? (a) : (b))

/* The allocator of counters: that of SQLite. */
static void *allocate(void *context, void *memory, size_t size)
{
    (void)context;
    if (size > 0)
        return sqlite3_realloc64(memory, size);
    sqlite3_free(memory);
    return NULL;
}

bool has_rows(const Group *group)
{
    return group->counter.allocator != NULL;
}

/* Returns the counter, which the first value or image makes. Without an lg_k that is open: what is merged decides it. */
static hll_counter *counter_of(Group *group)
{
    if (!has_rows(group))
        (void)hll_counter_init(&group->counter, group->lg_k, allocate, NULL);
    return &group->counter;
}

hll_state_summary summary_of(const Group *group)
{
    hll_state_summary summary = {0};

    (void)hll_counter_info(&group->counter, &summary, sizeof summary);
    return summary;
}

/* ---- rows */

hll_status add_value(Group *group, hll_bytes value)
{
    return hll_counter_add(counter_of(group), value.bytes, value.len);
}

hll_status add_image(Group *group, hll_bytes image)
{
    return hll_counter_join(counter_of(group), image.bytes, image.len);
}

/* ---- the result */

static hll_status write_counter(void *given, Output *out)
{
    const Group *group = given;
    uint8_t width = group->width == 0 ? summary_of(group).width : group->width;

    return hll_counter_image(&group->counter, width, OUTPUT(out));
}

hll_status write_group(Group *group, Output *out)
{
    hll_state_summary summary = summary_of(group);

    /* (4-bit registers with many exceptions need more.) */
    return write_image(write_counter, group, MIN(summary.size, HLL_IMAGE_ROOM(summary.lg_k, 8)), out);
}

hll_status count_group(const Group *group, sqlite3_int64 *count)
{
    hll_estimation found;
    hll_status status = hll_counter_estimate(&group->counter, &found);

    if (status == HLL_OK)   /* (full registers have an infinite estimate) */
        *count = found.estimate < 0x1p62 ? (sqlite3_int64)(found.estimate + 0.5) : INT64_MAX;
    return status;
}

void free_group(Group *group)
{
    if (has_rows(group))
        hll_counter_free(&group->counter);
}
