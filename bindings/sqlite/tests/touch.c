/* SPDX-License-Identifier: Apache-2.0 */
/* An aggregate touch(x) for bench.py: it asks for the bytes or the number of each row, and does nothing with them. */
#include <sqlite3ext.h>
#include <stddef.h>

SQLITE_EXTENSION_INIT1

typedef struct Touched {
    sqlite3_int64 sum;
} Touched;

static void step(sqlite3_context *context, int n, sqlite3_value **values)
{
    Touched *touched = sqlite3_aggregate_context(context, sizeof *touched);
    int type = sqlite3_value_type(values[0]);

    (void)n;
    if (touched == NULL)
        return;
    if (type == SQLITE_INTEGER)
        touched->sum += sqlite3_value_int64(values[0]);
    else if (type == SQLITE_TEXT)
        touched->sum += sqlite3_value_text(values[0])[0] + sqlite3_value_bytes(values[0]);
    else
        touched->sum += ((const unsigned char *)sqlite3_value_blob(values[0]))[0] + sqlite3_value_bytes(values[0]);
}

static void final(sqlite3_context *context)
{
    Touched *touched = sqlite3_aggregate_context(context, sizeof *touched);

    sqlite3_result_int64(context, touched == NULL ? 0 : touched->sum);
}

int sqlite3_touch_init(sqlite3 *db, char **error, const sqlite3_api_routines *api)
{
    (void)error;
    SQLITE_EXTENSION_INIT2(api);
    return sqlite3_create_function_v2(db, "touch", 1, SQLITE_UTF8, NULL, NULL, step, final, NULL);
}
