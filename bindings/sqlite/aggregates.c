/* SPDX-License-Identifier: Apache-2.0 */
/*
 * The aggregates of values and of images, which are window functions, too.
 */
#include "group.h"

/* ---- arguments */

/* What is used for missing arguments after the first. */
typedef struct Options {
    const char *lg_k_name;
    uint8_t lg_k;
    uint8_t width;
} Options;

static const Options of_values = {"lg_k", 12, 8}, of_images = {"lg_max_k", 0, 0};

/* Returns whether the arguments after the first are right and the same as in all rows before. */
static bool options_in(sqlite3_context *context, int n, sqlite3_value **values, const Options *options, Group *group)
{
    uint8_t lg_k = options->lg_k, width = options->width;

    if (n == 1 && group->is_begun)  /* the common case */
        return true;
    if (n > 1 && !lg_k_in(context, values[1], options->lg_k_name, &lg_k))
        return false;
    if (n > 2 && !width_in(context, values[2], &width))
        return false;
    if (group->is_begun && (group->lg_k != lg_k || group->width != width)) {
        sqlite3_result_error(context, "lg_k and width must be the same for all rows of a group", -1);
        return false;
    }
    group->is_begun = true;
    group->lg_k = lg_k;
    group->width = width;
    return true;
}

/* Returns the group for the next row, or NULL if an error was returned, now or before. */
static Group *next_row(sqlite3_context *context, int n, sqlite3_value **values, const Options *options)
{
    Group *group = sqlite3_aggregate_context(context, sizeof *group);

    if (group == NULL) {
        sqlite3_result_error_nomem(context);
        return NULL;
    }
    if (group->has_failed)
        return NULL;
    group->has_failed = !options_in(context, n, values, options, group);
    return group->has_failed ? NULL : group;
}

/* ---- the aggregates */

static void step_images(sqlite3_context *context, int n, sqlite3_value **values)
{
    Group *group = next_row(context, n, values, &of_images);
    hll_bytes image;
    hll_status status;

    if (group == NULL || sqlite3_value_type(values[0]) == SQLITE_NULL)
        return;
    group->has_failed = !image_in(context, values[0], 0, &image);
    if (group->has_failed)
        return;
    status = add_image(group, image);
    group->has_failed = status != HLL_OK;
    if (status == HLL_OTHER_LG_K)
        refuse_other_lg_k(context, summary_of(group).lg_k, named_lg_k(image), "hll_image_union_agg(image");
    else if (group->has_failed)
        refuse(context, status, "");
}

static void step_values(sqlite3_context *context, int n, sqlite3_value **values)
{
    Group *group = next_row(context, n, values, &of_values);
    uint8_t eight[8];
    hll_bytes value;
    hll_status status;

    if (group == NULL || sqlite3_value_type(values[0]) == SQLITE_NULL)
        return;
    group->has_failed = !hashed_in(context, values[0], eight, &value);
    if (group->has_failed)
        return;
    status = add_value(group, value);
    group->has_failed = status != HLL_OK;
    if (group->has_failed)
        refuse(context, status, "");
}

/* ---- results: of a group, or of the rows of a window so far */

/* Returns the image of the rows so far to SQLite, unless none came or an error was returned. */
static void answer_sketch(sqlite3_context *context)
{
    Group *group = sqlite3_aggregate_context(context, 0);
    Output out;
    hll_status status;

    if (group == NULL || group->has_failed || !has_rows(group))
        return;
    status = write_group(group, &out);
    if (status == HLL_OK)
        answer_image(context, &out);
    else
        refuse(context, status, "");
}

/* Returns the rounded estimate of the rows so far to SQLite: 0 if none came, as count does. */
static void answer_count(sqlite3_context *context)
{
    Group *group = sqlite3_aggregate_context(context, 0);
    sqlite3_int64 count = 0;
    hll_status status = HLL_OK;

    if (group != NULL && group->has_failed)
        return;
    if (group != NULL && has_rows(group))
        status = count_group(group, &count);
    if (status == HLL_OK)
        sqlite3_result_int64(context, count);
    else
        refuse(context, status, "");
}

static void end_group(sqlite3_context *context)
{
    Group *group = sqlite3_aggregate_context(context, 0);

    if (group != NULL)
        free_group(group);
}

static void finish_sketch(sqlite3_context *context)
{
    answer_sketch(context);
    end_group(context);
}

static void finish_count(sqlite3_context *context)
{
    answer_count(context);
    end_group(context);
}

/* SQLite calls this if the frame of a window has left a row behind. */
static void remove_row(sqlite3_context *context, int n, sqlite3_value **values)
{
    (void)n;
    (void)values;
    sqlite3_result_error(context,
                         "a sketch can't remove a row, so the frame of a window must start at UNBOUNDED PRECEDING; for a moving "
                         "frame write a subquery: SELECT day, (SELECT hll_union_agg(image) FROM days WHERE day BETWEEN "
                         "date(d.day, '-6 days') AND d.day) FROM days AS d",
                         -1);
}

/* ---- registration */

typedef void Step(sqlite3_context *context, int n, sqlite3_value **values);
typedef void Result(sqlite3_context *context);

typedef struct Entry {
    const char *name;
    int most;           /* arguments, of which one is not optional */
    Step *step;
    Result *finish;
    Result *value;      /* of the rows of a window so far */
} Entry;

static const Entry entries[] = {
    {"hyperloglog_agg", 3, step_values, finish_sketch, answer_sketch},
    {"hyperloglog_union_agg", 3, step_images, finish_sketch, answer_sketch},
    {"hll_image_union_agg", 3, step_images, finish_sketch, answer_sketch},
    {"hll_image_add_agg", 3, step_values, finish_sketch, answer_sketch},
    {"hll_union_agg", 3, step_images, finish_sketch, answer_sketch},
    {"hll_add_agg", 3, step_values, finish_sketch, answer_sketch},
    {"hll_count_distinct", 2, step_values, finish_count, answer_count},
};

int register_aggregates(sqlite3 *db)
{
    int code = SQLITE_OK, n;
    size_t i;

    for (i = 0; i < sizeof entries / sizeof *entries; i++)
        for (n = 1; n <= entries[i].most && code == SQLITE_OK; n++)
            code = sqlite3_create_window_function(db, entries[i].name, n, HLL_FLAGS, NULL, entries[i].step, entries[i].finish,
                                                  entries[i].value, remove_row, NULL);
    return code;
}
