/* SPDX-License-Identifier: Apache-2.0 */
/*
 * Functions of one or two images. Each makes one call of the library.
 */
#include "group.h"

#include <math.h>
#include <stdio.h>
#include <string.h>

#define MIN(a, b) ((a) < (b) ? (a) : (b))

/* A function whose arguments are not NULL. */
typedef void Function(sqlite3_context *context, int n, sqlite3_value **values);

/* The arguments of a call of the library. */
typedef struct Call {
    hll_bytes image;
    hll_bytes other;
    uint8_t lg_k;
    uint8_t width;
    size_t failed;
} Call;

#define IMAGE(bytes_) (bytes_).bytes, (bytes_).len

/* A guess at the size of an image at another width or lg_k. Only many exceptions of 4-bit registers need more. */
static size_t changed_room(hll_bytes image)
{
    return MIN(2 * image.len + 64, HLL_IMAGE_MAX(21));
}

/* Returns the image that a call writes to SQLite, or the error of the call. */
static void answer_written(sqlite3_context *context, Writer *writer, Call *call, size_t room)
{
    Output out;
    hll_status status = write_image(writer, call, room, &out);

    if (status == HLL_OK)
        answer_image(context, &out);
    else
        refuse(context, status, "");
}

/* ---- images from images */

static hll_status write_empty(void *given, Output *out)
{
    const Call *call = given;

    return hll_image_new(call->lg_k, call->width, OUTPUT(out));
}

static void empty(sqlite3_context *context, int n, sqlite3_value **values)
{
    Call call = {.lg_k = 12, .width = 8};

    if (n > 0 && !lg_k_in(context, values[0], "lg_k", &call.lg_k))
        return;
    if (n > 1 && !width_in(context, values[1], &call.width))
        return;
    answer_written(context, write_empty, &call, 64);
}

static hll_status write_fold(void *given, Output *out)
{
    const Call *call = given;

    return hll_image_fold(IMAGE(call->image), call->lg_k, OUTPUT(out));
}

static void fold(sqlite3_context *context, int n, sqlite3_value **values)
{
    Call call;
    Output out;
    hll_status status;

    (void)n;
    if (!image_in(context, values[0], 0, &call.image) || !lg_k_in(context, values[1], "lg_k", &call.lg_k))
        return;
    status = write_image(write_fold, &call, changed_room(call.image), &out);
    if (status == HLL_OK)
        answer_image(context, &out);
    else if (status == HLL_ARGUMENT)
        refuse_argument(context, "%s must be at most that of the image, not %lld", "lg_k", call.lg_k);
    else
        refuse(context, status, "");
}

static hll_status write_converted(void *given, Output *out)
{
    const Call *call = given;

    return hll_image_convert(IMAGE(call->image), call->width, OUTPUT(out));
}

static void convert(sqlite3_context *context, int n, sqlite3_value **values)
{
    Call call;

    (void)n;
    if (image_in(context, values[0], 0, &call.image) && width_in(context, values[1], &call.width))
        answer_written(context, write_converted, &call, changed_room(call.image));
}

static hll_status write_with_fields(void *given, Output *out)
{
    const Call *call = given;

    return hll_image_set_estimator_fields(IMAGE(call->image), OUTPUT(out));
}

static void set_estimator_fields(sqlite3_context *context, int n, sqlite3_value **values)
{
    Call call;

    (void)n;
    if (image_in(context, values[0], 0, &call.image))
        answer_written(context, write_with_fields, &call, MIN(call.image.len + 64, HLL_IMAGE_MAX(21)));
}

static hll_status write_added(void *given, Output *out)
{
    const Call *call = given;

    return hll_image_add(IMAGE(call->image), IMAGE(call->other), &call->other.len, 1, OUTPUT(out));
}

/* The image with one more value; for a NULL the image, as aggregates ignore NULL. */
static void add(sqlite3_context *context, int n, sqlite3_value **values)
{
    Call call;
    uint8_t eight[8];

    (void)n;
    if (sqlite3_value_type(values[1]) == SQLITE_NULL)
        sqlite3_result_value(context, values[0]);
    else if (image_in(context, values[0], 0, &call.image) && hashed_in(context, values[1], eight, &call.other))
        answer_written(context, write_added, &call, changed_room(call.image));
}

/* ---- two images */

static bool two_images_in(sqlite3_context *context, sqlite3_value **values, Call *call)
{
    return image_in(context, values[0], 1, &call->image) && image_in(context, values[1], 2, &call->other);
}

/* Merges both images into a new state. `failed` is the number of the rejected image, from 0. */
static hll_status join_both(Group *state, Call *call)
{
    hll_status status = add_image(state, call->image);

    call->failed = 0;
    if (status != HLL_OK)
        return status;
    call->failed = 1;
    return add_image(state, call->other);
}

/* The union, at the lg_k of both, or under the given bound. */
static void merge(sqlite3_context *context, int n, sqlite3_value **values)
{
    Call call;
    Group state = {.lg_k = 0};
    Output out;
    hll_status status;

    if (!two_images_in(context, values, &call) || (n > 2 && !lg_k_in(context, values[2], "lg_max_k", &state.lg_k)))
        return;
    status = join_both(&state, &call);
    if (status == HLL_OTHER_LG_K)
        refuse_other_lg_k(context, summary_of(&state).lg_k, named_lg_k(call.other), "hll_merge(a, b");
    else if (status != HLL_OK)
        refuse_numbered(context, status, (int)call.failed + 1);
    else if ((status = write_group(&state, &out)) == HLL_OK)
        answer_image(context, &out);
    else
        refuse(context, status, "");
    free_group(&state);
}

static void agree(sqlite3_context *context, int n, sqlite3_value **values)
{
    Call call = {.failed = 0};
    uint8_t same;
    hll_status status;

    (void)n;
    if (!two_images_in(context, values, &call))
        return;
    status = hll_images_agree(IMAGE(call.image), IMAGE(call.other), &same, &call.failed);
    if (status == HLL_OK)
        sqlite3_result_int(context, same);
    else
        refuse_numbered(context, status, (int)call.failed + 1);
}

/* ---- what an image says */

/* Writes the word of the reason why a value is not an image into `fault`, or NULL if it is one. Returns false if it returned
 * an error to SQLite. */
static bool fault_of(sqlite3_context *context, sqlite3_value *value, const char **fault)
{
    hll_bytes bytes;
    hll_status status;
    size_t more;

    *fault = "type";
    if (sqlite3_value_type(value) != SQLITE_BLOB)
        return true;
    if (!bytes_in(context, value, &bytes))
        return false;
    status = hll_image_check(IMAGE(bytes));
    if (status > HLL_REGISTER) {
        refuse(context, status, "");
        return false;
    }
    *fault = NULL;
    if (status != HLL_OK)
        *fault = hll_reason(status);
    else if (hll_image_trailing(IMAGE(bytes), &more) != HLL_OK || more != 0)
        *fault = hll_reason(HLL_TRAILING);
    return true;
}

static void fault(sqlite3_context *context, int n, sqlite3_value **values)
{
    const char *found;

    (void)n;
    if (fault_of(context, values[0], &found) && found != NULL)
        sqlite3_result_text(context, found, -1, SQLITE_STATIC);
}

static void is_image(sqlite3_context *context, int n, sqlite3_value **values)
{
    const char *found;

    (void)n;
    if (fault_of(context, values[0], &found))
        sqlite3_result_int(context, found == NULL);
}

/* Returns the image with which bytes begin. */
static void first_image(sqlite3_context *context, int n, sqlite3_value **values)
{
    hll_bytes bytes;
    hll_status status;
    size_t size;

    (void)n;
    if (sqlite3_value_type(values[0]) != SQLITE_BLOB) {
        sqlite3_result_error(context, "an HLL image must be a blob", -1);
        return;
    }
    if (!bytes_in(context, values[0], &bytes))
        return;
    status = hll_image_size(IMAGE(bytes), &size);
    if (status == HLL_OK)
        sqlite3_result_blob64(context, bytes.bytes, size, SQLITE_TRANSIENT);
    else
        refuse(context, status, "");
}

/* Returns a text allocated by SQLite. */
static void answer_text(sqlite3_context *context, char *text)
{
    if (text == NULL)
        sqlite3_result_error_nomem(context);
    else
        sqlite3_result_text(context, text, -1, sqlite3_free);
}

static void info(sqlite3_context *context, int n, sqlite3_value **values)
{
    static const char *const stages[] = {"list", "set", "registers"};
    hll_bytes image;
    hll_info told;
    hll_status status;

    (void)n;
    if (!image_in(context, values[0], 0, &image))
        return;
    status = hll_image_info(IMAGE(image), &told, sizeof told);
    if (status == HLL_OK)
        answer_text(context, sqlite3_mprintf("{\"lg_k\":%d,\"width\":%d,\"stage\":\"%s\",\"coupons\":%lld,\"zeros\":%lld}",
                                             told.lg_k, told.width, stages[told.stage], (sqlite3_int64)told.coupons,
                                             (sqlite3_int64)told.zeros));
    else
        refuse(context, status, "");
}

/* The version of the library in this extension. */
static void version(sqlite3_context *context, int n, sqlite3_value **values)
{
    uint32_t number = hll_version();

    (void)n;
    (void)values;
    answer_text(context, sqlite3_mprintf("%u.%u.%u", number / 1000000, number / 1000 % 1000, number % 1000));
}

/* For which processors the code of the library was compiled that runs. */
static void processor(sqlite3_context *context, int n, sqlite3_value **values)
{
    (void)n;
    (void)values;
    sqlite3_result_text(context, hll_processor(), -1, SQLITE_STATIC);
}

/* ---- estimates */

static bool estimation_of(sqlite3_context *context, sqlite3_value *value, hll_estimation *found)
{
    hll_bytes image;
    hll_status status;

    if (!image_in(context, value, 0, &image))
        return false;
    status = hll_estimate(IMAGE(image), found);
    if (status != HLL_OK)
        refuse(context, status, "");
    return status == HLL_OK;
}

static void estimate(sqlite3_context *context, int n, sqlite3_value **values)
{
    hll_estimation found;

    (void)n;
    if (estimation_of(context, values[0], &found))
        sqlite3_result_double(context, found.estimate);
}

/* Returns the HIP estimate in the image, or NULL. */
static void hip_estimate(sqlite3_context *context, int n, sqlite3_value **values)
{
    hll_bytes image;
    hll_estimation found;
    hll_status status;

    (void)n;
    if (!image_in(context, values[0], 0, &image))
        return;
    status = hll_hip_estimate(IMAGE(image), &found);
    if (status == HLL_OK)
        sqlite3_result_double(context, found.estimate);
    else if (status != HLL_ARGUMENT)
        refuse(context, status, "");
}

/* Writes a number with all its digits, and with a point in any locale. JSON has no infinity: it is written as a number
 * greater than every binary64. */
static void put_number(char *text, size_t room, double number)
{
    char *point;
    size_t len;

    if (isinf(number)) {
        snprintf(text, room, "9e999");
        return;
    }
    snprintf(text, room, "%.17g", number);
    point = text + strspn(text, "-0123456789");
    if (*point == '\0' || *point == 'e')
        return;
    len = strcspn(point, "0123456789");
    memmove(point + 1, point + len, strlen(point + len) + 1);
    *point = '.';
}

static void estimate_bounds(sqlite3_context *context, int n, sqlite3_value **values)
{
    char lower[64], upper[64];
    hll_estimation found;
    int deviations = 2;

    if (n > 1 && !deviations_in(context, values[1], &deviations))
        return;
    if (!estimation_of(context, values[0], &found))
        return;
    put_number(lower, sizeof lower, found.lower[deviations - 1]);
    put_number(upper, sizeof upper, found.upper[deviations - 1]);
    answer_text(context, sqlite3_mprintf("{\"lower\":%s,\"upper\":%s}", lower, upper));
}

/* ---- registration */

typedef struct Entry {
    const char *name;
    int n;
    Function *function;
} Entry;

static const Entry entries[] = {
    {"hll_image_empty", 0, empty},
    {"hll_image_empty", 1, empty},
    {"hll_image_empty", 2, empty},
    {"hll_fold", 2, fold},
    {"hll_convert", 2, convert},
    {"hll_set_estimator_fields", 1, set_estimator_fields},
    {"hll_add", 2, add},
    {"hll_merge", 2, merge},
    {"hll_merge", 3, merge},
    {"hll_agree", 2, agree},
    {"hll_fault", 1, fault},
    {"hll_is_image", 1, is_image},
    {"hll_first_image", 1, first_image},
    {"hll_info", 1, info},
    {"hll_estimate", 1, estimate},
    {"hll_hip_estimate", 1, hip_estimate},
    {"hll_estimate_bounds", 1, estimate_bounds},
    {"hll_estimate_bounds", 2, estimate_bounds},
    {"hll_version", 0, version},
    {"hll_processor", 0, processor},
};

/* Calls the function of an entry. If an argument is NULL, the result is NULL, but hll_add of a NULL returns the image. */
static void call_strict(sqlite3_context *context, int n, sqlite3_value **values)
{
    const Entry *entry = sqlite3_user_data(context);
    int strict = entry->function == add ? 1 : n, i;

    for (i = 0; i < strict; i++)
        if (sqlite3_value_type(values[i]) == SQLITE_NULL)
            return;
    entry->function(context, n, values);
}

/* An index or a generated column can't have the version, as an update changes it. */
static int flags_of(const Entry *entry)
{
    return entry->function == version || entry->function == processor ? HLL_FLAGS & ~SQLITE_DETERMINISTIC : HLL_FLAGS;
}

int register_functions(sqlite3 *db)
{
    int code = SQLITE_OK;
    size_t i;

    for (i = 0; i < sizeof entries / sizeof *entries && code == SQLITE_OK; i++)
        code = sqlite3_create_function_v2(db, entries[i].name, entries[i].n, flags_of(&entries[i]), (void *)&entries[i],
                                          call_strict, NULL, NULL, NULL);
    return code;
}
