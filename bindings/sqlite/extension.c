/* SPDX-License-Identifier: Apache-2.0 */
/*
 * The entry point of the extension, and what its functions share.
 */
#include "hll_sqlite.h"

#include <string.h>

SQLITE_EXTENSION_INIT1

/* ---- errors */

/* Returns an error with a text allocated by SQLite, which is freed. */
static void answer_error(sqlite3_context *context, char *text)
{
    if (text == NULL)
        sqlite3_result_error_nomem(context);
    else
        sqlite3_result_error(context, text, -1);
    sqlite3_free(text);
}

/* How to find the row of a rejected image, which has no number in a query. */
#define FINDING "SELECT .. WHERE NOT hll_is_image(image) finds such rows"

void refuse(sqlite3_context *context, hll_status status, const char *place)
{
    bool is_image = HLL_TRUNCATED <= status && status <= HLL_REGISTER;
    const char *format = is_image ? "invalid HLL image%s: %s (" FINDING ")" : "unexpected status of the HLL library%s: %s";

    if (status == HLL_MEMORY)
        sqlite3_result_error_nomem(context);
    else
        answer_error(context, sqlite3_mprintf(format, place, hll_reason(status)));
}

/* The error of the image that is this argument, from 1. */
void refuse_numbered(sqlite3_context *context, hll_status status, int argument)
{
    char place[64];

    sqlite3_snprintf(sizeof place, place, " in argument %d", argument);
    refuse(context, status, place);
}

/* The error of bytes after an image, which is this argument, from 1, or 0 if there is one image only. */
static void refuse_more(sqlite3_context *context, int argument, size_t more)
{
    char place[64] = "";

    if (argument != 0)
        sqlite3_snprintf(sizeof place, place, " in argument %d", argument);
    answer_error(context, sqlite3_mprintf("invalid HLL image%s: %llu byte%s it (hll_merge merges images, || puts one after "
                                          "another; hll_first_image cuts off what follows; " FINDING ")",
                                          place, (sqlite3_uint64)more, more == 1 ? " follows" : "s follow"));
}

/* The error of an argument that is not such a number. The format has its name and optionally the number. */
void refuse_argument(sqlite3_context *context, const char *format, const char *name, sqlite3_int64 number)
{
    answer_error(context, sqlite3_mprintf(format, name, number));
}

void refuse_other_lg_k(sqlite3_context *context, int lg_k, int other, const char *call)
{
    int bound = lg_k < other ? lg_k : other;

    answer_error(context,
                 sqlite3_mprintf("sketches of lg_k %d and %d can't be merged without a bound: %s, %d) merges them at "
                                 "lg_k %d (SELECT json_extract(hll_info(image), '$.lg_k'), count(*) .. GROUP BY 1 "
                                 "counts the sketches of each lg_k)",
                                 lg_k, other, call, bound, bound));
}

/* ---- arguments */

/* Returns the bytes of a text or a blob. */
bool bytes_in(sqlite3_context *context, sqlite3_value *value, hll_bytes *bytes)
{
    bytes->bytes = sqlite3_value_type(value) == SQLITE_TEXT ? sqlite3_value_text(value) : sqlite3_value_blob(value);
    bytes->len = (size_t)sqlite3_value_bytes(value);
    if (bytes->bytes == NULL && bytes->len > 0) {
        sqlite3_result_error_nomem(context);
        return false;
    }
    if (bytes->bytes == NULL)
        bytes->bytes = (const uint8_t *)"";
    return true;
}

/* Returns what the header of an image and its counts say. */
static hll_head head_of(hll_bytes image)
{
    hll_head head = {0};

    (void)hll_image_head(image.bytes, image.len, &head, sizeof head);
    return head;
}

/* The head says how many bytes an image has: `own`. If its first bytes are no image, the call that reads it reports that. */
static hll_status whole_status(hll_bytes image, size_t *own)
{
    hll_status status;
    size_t more;

    *own = image.len;
    if (hll_image_trailing(image.bytes, image.len, &more) == HLL_OK && more == 0)
        return HLL_OK;
    status = hll_image_check(image.bytes, image.len - more);
    if (status == HLL_OK)
        *own -= more;
    return status == HLL_MEMORY ? status : HLL_OK;
}

bool image_in(sqlite3_context *context, sqlite3_value *value, int argument, hll_bytes *image)
{
    hll_status status;
    size_t own;

    if (sqlite3_value_type(value) != SQLITE_BLOB) {
        sqlite3_result_error(context, "an HLL image must be a blob (" FINDING ")", -1);
        return false;
    }
    if (!bytes_in(context, value, image))
        return false;
    status = whole_status(*image, &own);
    if (status != HLL_OK)
        refuse(context, status, "");
    else if (own < image->len)
        refuse_more(context, argument, image->len - own);
    return status == HLL_OK && own == image->len;
}

/* Returns a number that is an integer. */
static bool integer_in(sqlite3_context *context, sqlite3_value *value, const char *name, sqlite3_int64 *number)
{
    int type = sqlite3_value_type(value);

    *number = sqlite3_value_int64(value);
    if (type == SQLITE_INTEGER)
        return true;
    refuse_argument(context, type == SQLITE_NULL ? "%s must not be null" : "%s must be an integer", name, 0);
    return false;
}

bool lg_k_in(sqlite3_context *context, sqlite3_value *value, const char *name, uint8_t *lg_k)
{
    sqlite3_int64 number;

    if (!integer_in(context, value, name, &number))
        return false;
    *lg_k = (uint8_t)number;
    if (4 <= number && number <= 21)
        return true;
    refuse_argument(context, "%s must be between 4 and 21, not %lld", name, number);
    return false;
}

bool width_in(sqlite3_context *context, sqlite3_value *value, uint8_t *width)
{
    sqlite3_int64 number;

    if (!integer_in(context, value, "width", &number))
        return false;
    *width = (uint8_t)number;
    if (number == 4 || number == 6 || number == 8)
        return true;
    refuse_argument(context, "%s must be 4, 6 or 8, not %lld", "width", number);
    return false;
}

bool deviations_in(sqlite3_context *context, sqlite3_value *value, int *deviations)
{
    sqlite3_int64 number;

    if (!integer_in(context, value, "deviations", &number))
        return false;
    *deviations = (int)number;
    if (1 <= number && number <= 3)
        return true;
    refuse_argument(context, "%s must be 1, 2 or 3, not %lld", "deviations", number);
    return false;
}

uint8_t named_lg_k(hll_bytes image)
{
    return head_of(image).lg_k;
}

/* ---- images that are written */

hll_status write_image(Writer *writer, void *given, size_t room, Output *out)
{
    hll_status status;

    out->size = room;
    do {
        out->room = out->size;
        out->bytes = sqlite3_malloc64(out->room);
        if (out->bytes == NULL)
            return HLL_MEMORY;
        status = writer(given, out);
        if (status != HLL_OK)
            sqlite3_free(out->bytes);
    } while (status == HLL_BUFFER);
    return status;
}

void answer_image(sqlite3_context *context, const Output *out)
{
    sqlite3_result_blob64(context, out->bytes, out->size, sqlite3_free);
}

/* ---- the entry point, whose name SQLite makes from that of the file, hll_sketches.so */

int sqlite3_hllsketches_init(sqlite3 *db, char **error, const sqlite3_api_routines *api);

int sqlite3_hllsketches_init(sqlite3 *db, char **error, const sqlite3_api_routines *api)
{
    int code;

    (void)error;
    SQLITE_EXTENSION_INIT2(api);
    code = register_functions(db);
    return code == SQLITE_OK ? register_aggregates(db) : code;
}
