/* SPDX-License-Identifier: Apache-2.0 */
/*
 * What the files of the extension share: arguments, errors of SQLite, and room for an image. The extension allocates by
 * SQLite, so SQLite's limits count its memory, and a failed allocation is SQLITE_NOMEM. A call of the library allocates by
 * malloc while it runs, frees everything, and returns HLL_MEMORY if an allocation fails.
 */
#ifndef HLL_SQLITE_H
#define HLL_SQLITE_H

#include <sqlite3ext.h>
#include <stdbool.h>

#include "hll.h"

SQLITE_EXTENSION_INIT3

/* ---- arguments: each function returns false if it has returned an error to SQLite */

bool bytes_in(sqlite3_context *context, sqlite3_value *value, hll_bytes *bytes);
/* Reads an image without bytes after it. `argument` is its number in errors, from 1, if a function has several images, or 0. */
bool image_in(sqlite3_context *context, sqlite3_value *value, int argument, hll_bytes *image);

/* Reads the bytes that are hashed for a value. Those of a number are little-endian, in `eight`. */
bool hashed_in(sqlite3_context *context, sqlite3_value *value, uint8_t *eight, hll_bytes *bytes);

bool lg_k_in(sqlite3_context *context, sqlite3_value *value, const char *name, uint8_t *lg_k);
bool width_in(sqlite3_context *context, sqlite3_value *value, uint8_t *width);
bool deviations_in(sqlite3_context *context, sqlite3_value *value, int *deviations);

/* ---- errors */

/* Returns the error of a status that is not HLL_OK. `place` says which image was rejected, if there are several. */
void refuse(sqlite3_context *context, hll_status status, const char *place);
void refuse_numbered(sqlite3_context *context, hll_status status, int argument);
void refuse_argument(sqlite3_context *context, const char *format, const char *name, sqlite3_int64 number);

/* Returns the error of sketches of different lg_k that are merged without a bound. `call` is the start of a call that merges
 * them. */
void refuse_other_lg_k(sqlite3_context *context, int lg_k, int other, const char *call);

/* Returns the lg_k in the header of an image. */
uint8_t named_lg_k(hll_bytes image);

/* ---- images that are written */

/* An image, or the room for one, in memory allocated by SQLite. */
typedef struct Output {
    uint8_t *bytes;
    size_t room;
    size_t size;
} Output;

#define OUTPUT(out) (out)->bytes, (out)->room, &(out)->size

/* A call of the library that writes an image. */
typedef hll_status Writer(void *given, Output *out);

/* Calls it to write an image. The room is a guess: if the call needs more, it is made again. On any other status than HLL_OK
 * there is no memory to free. */
hll_status write_image(Writer *writer, void *given, size_t room, Output *out);

/* Returns the image as the result of the function. SQLite becomes the owner of its memory. */
void answer_image(sqlite3_context *context, const Output *out);

/* ---- registration */

int register_functions(sqlite3 *db);
int register_aggregates(sqlite3 *db);

/* All functions but hll_version and hll_processor are deterministic, and all are innocuous: a schema from an untrusted source may
 * call them. */
#define HLL_FLAGS (SQLITE_UTF8 | SQLITE_DETERMINISTIC | SQLITE_INNOCUOUS)

#endif
