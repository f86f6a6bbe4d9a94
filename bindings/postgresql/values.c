/* SPDX-License-Identifier: Apache-2.0 */
/*
 * The steps of the aggregates that count values, and the functions that add one value. The bytes of each type are those of
 * docs/FORMAT.md, "What values are hashed as".
 */
#include "expanded.h"
#include "group.h"

#include <math.h>

#include "mb/pg_wchar.h"
#include "port/pg_bswap.h"
#include "utils/builtins.h"
#include "utils/date.h"
#include "utils/timestamp.h"
#include "utils/uuid.h"

/* The days from 1970-01-01, from which other programs count, to the server's 2000-01-01. */
#define DAYS_BETWEEN (POSTGRES_EPOCH_JDATE - UNIX_EPOCH_JDATE)

/* The bytes that are hashed for a value. */
typedef struct Value
{
	const uint8 *bytes;
	size_t		size;
	uint64		word;			/* of those that are no longer, themselves */
} Value;

static void
set_bytes(Value *value, const void *bytes, size_t size)
{
	value->bytes = bytes;
	value->size = size;
}

/* Eight bytes, little-endian. */
static void
set_word(Value *value, uint64 word)
{
#ifdef WORDS_BIGENDIAN
	word = pg_bswap64(word);
#endif
	value->word = word;
	set_bytes(value, &value->word, sizeof(value->word));
}

/* A number in the form that all numbers equal to it have: -0.0 as 0.0, and one NaN for all. */
static void
set_float(Value *value, float8 number)
{
	uint64		word;

	if (isnan(number))
		word = UINT64CONST(0x7ff8000000000000);
	else
	{
		number = number == 0 ? 0 : number;
		memcpy(&word, &number, sizeof(word));
	}
	set_word(value, word);
}

/* Days since 1970-01-01. */
static void
set_date(Value *value, DateADT date)
{
	if (DATE_IS_NOBEGIN(date))
		set_word(value, (uint64) PG_INT64_MIN);
	else if (DATE_IS_NOEND(date))
		set_word(value, (uint64) PG_INT64_MAX);
	else
		set_word(value, (uint64) ((int64) date + DAYS_BETWEEN));
}

/* Microseconds since 1970-01-01. Times past 2^63 microseconds are hashed like integers past it, by the eight bytes of an
 * unsigned number. */
static void
set_timestamp(Value *value, Timestamp timestamp)
{
	if (TIMESTAMP_IS_NOBEGIN(timestamp) || TIMESTAMP_IS_NOEND(timestamp))
		set_word(value, (uint64) timestamp);
	else
		set_word(value, (uint64) timestamp + (uint64) DAYS_BETWEEN * (uint64) USECS_PER_DAY);
}

/* A text is hashed as its bytes in UTF-8, in databases of any encoding. */
static void
set_text(Value *value, text *own)
{
	const char *bytes = (const char *) BYTES(own);
	const char *utf8 = pg_server_to_any(bytes, (int) LENGTH(own), PG_UTF8);

	set_bytes(value, utf8, utf8 == bytes ? LENGTH(own) : strlen(utf8));
}

static void
set_bytea(Value *value, bytea *own)
{
	set_bytes(value, BYTES(own), LENGTH(own));
}

/* For a type: the step that adds the value of a row, and the function that adds a value to a sketch. Neither adds NULL. */
#define VALUE_FUNCTIONS(name, set) \
	PG_FUNCTION_INFO_V1(hll_pg_add_##name##_trans); \
	Datum \
	hll_pg_add_##name##_trans(PG_FUNCTION_ARGS) \
	{ \
		Group	   *group = next_row(fcinfo, "lg_k", 12, 8); \
		Value		value; \
	\
		if (!PG_ARGISNULL(1)) \
		{ \
			set; \
			add_value(group, value.bytes, value.size); \
		} \
		PG_RETURN_POINTER(group); \
	} \
	PG_FUNCTION_INFO_V1(hll_pg_add_##name); \
	Datum \
	hll_pg_add_##name(PG_FUNCTION_ARGS) \
	{ \
		Value		value; \
	\
		if (PG_ARGISNULL(0)) \
			PG_RETURN_NULL(); \
		if (PG_ARGISNULL(1)) \
			PG_RETURN_DATUM(PG_GETARG_DATUM(0)); \
		set; \
		PG_RETURN_DATUM(sketch_with(fcinfo, value.bytes, value.size)); \
	}

VALUE_FUNCTIONS(text, check_text(fcinfo); set_text(&value, PG_GETARG_TEXT_PP(1)))
VALUE_FUNCTIONS(char, set_text(&value, DatumGetTextPP(DirectFunctionCall1(char_text, PG_GETARG_DATUM(1)))))
VALUE_FUNCTIONS(bytea, set_bytea(&value, PG_GETARG_BYTEA_PP(1)))
VALUE_FUNCTIONS(int2, set_word(&value, (uint64) (int64) PG_GETARG_INT16(1)))
VALUE_FUNCTIONS(int4, set_word(&value, (uint64) (int64) PG_GETARG_INT32(1)))
VALUE_FUNCTIONS(int8, set_word(&value, (uint64) PG_GETARG_INT64(1)))
VALUE_FUNCTIONS(bool, set_word(&value, PG_GETARG_BOOL(1) ? 1 : 0))
VALUE_FUNCTIONS(float4, set_float(&value, (float8) PG_GETARG_FLOAT4(1)))
VALUE_FUNCTIONS(float8, set_float(&value, PG_GETARG_FLOAT8(1)))
VALUE_FUNCTIONS(date, set_date(&value, PG_GETARG_DATEADT(1)))
VALUE_FUNCTIONS(timestamp, set_timestamp(&value, PG_GETARG_TIMESTAMP(1)))
VALUE_FUNCTIONS(uuid, set_bytes(&value, PG_GETARG_UUID_P(1)->data, UUID_LEN))

/* ---- types that are rejected */

/* For a type that is rejected: the step and the addition. */
#define REFUSING_FUNCTIONS(name, refuse) \
	PG_FUNCTION_INFO_V1(hll_pg_add_##name##_trans); \
	Datum \
	hll_pg_add_##name##_trans(PG_FUNCTION_ARGS) \
	{ \
		refuse; \
		PG_RETURN_NULL(); \
	} \
	PG_FUNCTION_INFO_V1(hll_pg_add_##name); \
	Datum \
	hll_pg_add_##name(PG_FUNCTION_ARGS) \
	{ \
		refuse; \
		PG_RETURN_NULL(); \
	}

static void
refuse_sketch(void)
{
	ereport(ERROR,
			(errcode(ERRCODE_DATATYPE_MISMATCH),
			 errmsg("sketches are not counted as values"),
			 errhint("Merge them with hyperloglog_union_agg or hll_merge, or cast them to bytea to count how many different "
					 "ones there are.")));
}

REFUSING_FUNCTIONS(sketch, refuse_sketch())
/* All other types are rejected. One of them is numeric, which would otherwise become a float8 implicitly and lose digits. */
REFUSING_FUNCTIONS(other, refuse_type(get_fn_expr_argtype(fcinfo->flinfo, 1)))
