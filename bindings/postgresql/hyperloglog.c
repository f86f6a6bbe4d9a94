/* SPDX-License-Identifier: Apache-2.0 */
/*
 * The type hyperloglog: the bytes of one image, read and written like those of bytea. Its modifier is an lg_k, or an lg_k
 * and a width.
 */
#include "expanded.h"

#include "libpq/pqformat.h"
#include "utils/array.h"
#include "utils/builtins.h"

/* A modifier is the lg_k, and in the higher bits the width, or 0 if any width is allowed. */
#define MODIFIER(lg_k, width) ((int32) (lg_k) | (int32) (width) << 8)
#define LG_K_IN(modifier) ((modifier) & 0xff)
#define WIDTH_IN(modifier) ((modifier) >> 8)

/* ---- what a modifier asks for */

/* How long an image may be: 8-bit or 6-bit registers, which are at least as long as a set with its table; 4-bit registers
 * with their exceptions. */
static size_t
largest_size(int32 modifier)
{
	size_t		count = (size_t) 1 << LG_K_IN(modifier);

	switch (WIDTH_IN(modifier))
	{
		case 8:
			return 40 + count;
		case 6:
			return 40 + count / 4 * 3 + 1;
		default:
			return HLL_IMAGE_MAX(LG_K_IN(modifier));
	}
}

static void
refuse_header(const char *what, int wanted, int found)
{
	ereport(ERROR,
			(errcode(ERRCODE_DATA_EXCEPTION),
			 errmsg("expected an HLL image of %s %d, not %d", what, wanted, found)));
}

/* Raises an error for an image that the modifier doesn't allow, before it is read. */
static void
check_header(Header header, int32 modifier)
{
	if (modifier < 0)
		return;
	if (header.lg_k != LG_K_IN(modifier))
		refuse_header("lg_k", LG_K_IN(modifier), header.lg_k);
	if (WIDTH_IN(modifier) != 0 && header.width != WIDTH_IN(modifier))
		refuse_header("width", WIDTH_IN(modifier), header.width);
	if (header.size > largest_size(modifier))
		ereport(ERROR,
				(errcode(ERRCODE_DATA_EXCEPTION),
				 errmsg("expected an HLL image of at most %zu bytes, not %zu", largest_size(modifier), header.size)));
}

/* Raises an error for bytes that aren't one image, or that the modifier doesn't allow. It checks the header first, as the
 * rest may be slow to read. */
static void
check_image(bytea *bytes, int32 modifier)
{
	size_t		size;
	hll_status	status = hll_image_size(BYTES(bytes), Min(LENGTH(bytes), 8), &size);

	if (status == HLL_TRUNCATED && LENGTH(bytes) > 8)
		status = HLL_OK;
	check_status(status);
	check_header(header_of(PointerGetDatum(bytes)), modifier);
	check_whole(IMAGE(bytes), 0);
	check_status(hll_image_check(IMAGE(bytes)));
}

/* ---- in and out */

PG_FUNCTION_INFO_V1(hll_pg_type_in);

Datum
hll_pg_type_in(PG_FUNCTION_ARGS)
{
	Datum		bytes = DirectFunctionCall1(byteain, PG_GETARG_DATUM(0));

	check_image(DatumGetByteaPP(bytes), PG_GETARG_INT32(2));
	return bytes;
}

PG_FUNCTION_INFO_V1(hll_pg_type_out);

/* Written in hexadecimal, with any setting of bytea_output. */
Datum
hll_pg_type_out(PG_FUNCTION_ARGS)
{
	bytea	   *image = PG_GETARG_BYTEA_PP(0);
	char	   *text = palloc(2 + 2 * LENGTH(image) + 1);

	text[0] = '\\';
	text[1] = 'x';
	text[2 + hex_encode((const char *) BYTES(image), LENGTH(image), text + 2)] = '\0';
	PG_RETURN_CSTRING(text);
}

PG_FUNCTION_INFO_V1(hll_pg_type_recv);

Datum
hll_pg_type_recv(PG_FUNCTION_ARGS)
{
	StringInfo	message = (StringInfo) PG_GETARG_POINTER(0);
	int			size = message->len - message->cursor;
	bytea	   *bytes = palloc(VARHDRSZ + size);

	SET_VARSIZE(bytes, VARHDRSZ + size);
	pq_copymsgbytes(message, VARDATA(bytes), size);
	check_image(bytes, PG_GETARG_INT32(2));
	PG_RETURN_BYTEA_P(bytes);
}

/* ---- modifiers */

PG_FUNCTION_INFO_V1(hll_pg_typmod_in);

Datum
hll_pg_typmod_in(PG_FUNCTION_ARGS)
{
	int			n;
	int32	   *numbers = ArrayGetIntegerTypmods(PG_GETARG_ARRAYTYPE_P(0), &n);

	if (n > 2)
		ereport(ERROR,
				(errcode(ERRCODE_INVALID_PARAMETER_VALUE),
				 errmsg("hyperloglog takes an lg_k, or an lg_k and a width")));
	PG_RETURN_INT32(MODIFIER(checked_lg_k("lg_k", numbers[0]), n > 1 ? checked_width(numbers[1]) : 0));
}

PG_FUNCTION_INFO_V1(hll_pg_typmod_out);

Datum
hll_pg_typmod_out(PG_FUNCTION_ARGS)
{
	int32		modifier = PG_GETARG_INT32(0);

	if (WIDTH_IN(modifier) == 0)
		PG_RETURN_CSTRING(psprintf("(%d)", LG_K_IN(modifier)));
	PG_RETURN_CSTRING(psprintf("(%d,%d)", LG_K_IN(modifier), WIDTH_IN(modifier)));
}

/* ---- casts */

PG_FUNCTION_INFO_V1(hll_pg_of_type);

/* Returns a value of the type at a modifier, unchanged. */
Datum
hll_pg_of_type(PG_FUNCTION_ARGS)
{
	if (PG_GETARG_INT32(1) >= 0)
		check_header(header_of(PG_GETARG_DATUM(0)), PG_GETARG_INT32(1));
	PG_RETURN_DATUM(PG_GETARG_DATUM(0));
}

PG_FUNCTION_INFO_V1(hll_pg_of_bytea);

Datum
hll_pg_of_bytea(PG_FUNCTION_ARGS)
{
	bytea	   *bytes = PG_GETARG_BYTEA_PP(0);

	check_image(bytes, PG_GETARG_INT32(1));
	PG_RETURN_BYTEA_P(bytes);
}
