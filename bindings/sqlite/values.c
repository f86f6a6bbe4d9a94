/* SPDX-License-Identifier: Apache-2.0 */
/*
 * The bytes that are hashed for a value: docs/FORMAT.md, "What values are hashed as".
 */
#include "hll_sqlite.h"

#include <string.h>

/* (Compilers turn these into one store, but not a loop.) */
static void put_eight(uint8_t *eight, uint64_t word)
{
    eight[0] = (uint8_t)word;
    eight[1] = (uint8_t)(word >> 8);
    eight[2] = (uint8_t)(word >> 16);
    eight[3] = (uint8_t)(word >> 24);
    eight[4] = (uint8_t)(word >> 32);
    eight[5] = (uint8_t)(word >> 40);
    eight[6] = (uint8_t)(word >> 48);
    eight[7] = (uint8_t)(word >> 56);
}

/* The binary64 of a real: 0.0 for -0.0. SQLite has no NaN; it stores NULL instead. */
static uint64_t word_of_real(double real)
{
    uint64_t word;

    real += 0.0;
    memcpy(&word, &real, sizeof word);
    return word;
}

/* Returns whether a text has half a surrogate pair, as char(55296) makes: ED and a byte from A0 to BF. UTF-8 has no such bytes. */
static bool has_half_pair(hll_bytes text)
{
    const uint8_t *at = text.bytes, *end = at + text.len;

    while ((at = memchr(at, 0xed, (size_t)(end - at))) != NULL) {
        at++;
        if (at < end && *at >= 0xa0 && *at <= 0xbf)
            return true;
    }
    return false;
}

/* Returns the bytes of a text. */
static bool text_in(sqlite3_context *context, sqlite3_value *value, hll_bytes *bytes)
{
    if (!bytes_in(context, value, bytes))
        return false;
    if (!has_half_pair(*bytes))
        return true;
    sqlite3_result_error(context, "a TEXT has half a surrogate pair, so it is no UTF-8: leave it out, or count CAST(value AS BLOB)", -1);
    return false;
}

bool hashed_in(sqlite3_context *context, sqlite3_value *value, uint8_t *eight, hll_bytes *bytes)
{
    int type = sqlite3_value_type(value);

    if (type == SQLITE_TEXT)
        return text_in(context, value, bytes);
    if (type == SQLITE_BLOB)
        return bytes_in(context, value, bytes);
    put_eight(eight, type == SQLITE_INTEGER ? (uint64_t)sqlite3_value_int64(value) : word_of_real(sqlite3_value_double(value)));
    bytes->bytes = eight;
    bytes->len = 8;
    return true;
}
