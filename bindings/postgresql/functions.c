/* SPDX-License-Identifier: Apache-2.0 */
/*
 * Functions of one or two images. Each makes one call of the library.
 */
#include "hll_pg.h"

#include "access/htup_details.h"
#include "funcapi.h"
#include "miscadmin.h"
#include "utils/builtins.h"

PG_MODULE_MAGIC;

/* A guess at the size of an image at another width or lg_k. Only many exceptions of 4-bit registers need more. */
#define CHANGED_ROOM(image) (2 * LENGTH(image) + 64)

bytea *
image_in(FunctionCallInfo fcinfo, int argument)
{
	bytea	   *image = PG_GETARG_BYTEA_PP(argument);

	check_whole(IMAGE(image), 0);
	return image;
}

bytea *
numbered_image_in(FunctionCallInfo fcinfo, int argument)
{
	bytea	   *image = PG_GETARG_BYTEA_PP(argument);

	check_whole(IMAGE(image), argument + 1);
	return image;
}

hll_head
head_of(const uint8 *image, size_t size)
{
	hll_head	head;

	check_status(hll_image_head(image, size, &head, sizeof head));
	return head;
}

uint8
named_lg_k(const uint8 *image, size_t size)
{
	hll_head	head = head_of(image, size);

	return head.lg_k == 0 ? 4 : head.lg_k;
}

uint8
named_width(const uint8 *image, size_t size)
{
	hll_head	head = head_of(image, size);

	return head.width == 0 ? 8 : head.width;
}

PG_FUNCTION_INFO_V1(hll_pg_version);

/* The version of the library in this module. A session keeps the module that it has loaded. */
Datum
hll_pg_version(PG_FUNCTION_ARGS)
{
	uint32		number = hll_version();

	PG_RETURN_TEXT_P(cstring_to_text(psprintf("%u.%u.%u", number / 1000000, number / 1000 % 1000, number % 1000)));
}

PG_FUNCTION_INFO_V1(hll_pg_processor);

/* For which processors the code of the library was compiled that runs. */
Datum
hll_pg_processor(PG_FUNCTION_ARGS)
{
	PG_RETURN_TEXT_P(cstring_to_text(hll_processor()));
}

PG_FUNCTION_INFO_V1(hll_pg_empty);

Datum
hll_pg_empty(PG_FUNCTION_ARGS)
{
	uint8		lg_k = checked_lg_k("lg_k", PG_GETARG_INT64(0));
	uint8		width = checked_width(PG_GETARG_INT64(1));
	hll_status	status;
	Output		out;

	WRITE_OUTPUT(out, 64, status, hll_image_new(lg_k, width, OUTPUT(out)));
	check_status(status);
	PG_RETURN_BYTEA_P(end_output(&out));
}

PG_FUNCTION_INFO_V1(hll_pg_fold);

Datum
hll_pg_fold(PG_FUNCTION_ARGS)
{
	bytea	   *image = image_in(fcinfo, 0);
	uint8		lg_k = checked_lg_k("lg_k", PG_GETARG_INT64(1));
	hll_status	status;
	Output		out;

	WRITE_OUTPUT(out, CHANGED_ROOM(image), status, hll_image_fold(IMAGE(image), lg_k, OUTPUT(out)));
	if (status == HLL_ARGUMENT)
		ereport(ERROR,
				(errcode(ERRCODE_INVALID_PARAMETER_VALUE),
				 errmsg("lg_k must be at most that of the image, not %d", lg_k)));
	check_status(status);
	PG_RETURN_BYTEA_P(end_output(&out));
}

PG_FUNCTION_INFO_V1(hll_pg_convert);

Datum
hll_pg_convert(PG_FUNCTION_ARGS)
{
	bytea	   *image = image_in(fcinfo, 0);
	uint8		width = checked_width(PG_GETARG_INT64(1));
	hll_status	status;
	Output		out;

	WRITE_OUTPUT(out, CHANGED_ROOM(image), status, hll_image_convert(IMAGE(image), width, OUTPUT(out)));
	check_status(status);
	PG_RETURN_BYTEA_P(end_output(&out));
}

PG_FUNCTION_INFO_V1(hll_pg_set_estimator_fields);

Datum
hll_pg_set_estimator_fields(PG_FUNCTION_ARGS)
{
	bytea	   *image = image_in(fcinfo, 0);
	hll_status	status;
	Output		out;

	WRITE_OUTPUT(out, LENGTH(image) + 64, status, hll_image_set_estimator_fields(IMAGE(image), OUTPUT(out)));
	check_status(status);
	PG_RETURN_BYTEA_P(end_output(&out));
}

/* Returns the image that is an argument, counted from 0. If it may be slow to read, returns one with the same registers that
 * isn't: images of 6-bit and 8-bit registers are quick to read, and so are coupons that the library has sorted. */
static bytea *
quick_image_in(FunctionCallInfo fcinfo, int argument)
{
	bytea	   *image = numbered_image_in(fcinfo, argument);
	hll_status	status;
	Output		out;

	if (LENGTH(image) < SLOW_IMAGE || (head_of(IMAGE(image)).stage == HLL_REGISTERS && named_width(IMAGE(image)) != 4))
		return image;
	WRITE_OUTPUT(out, CHANGED_ROOM(image), status, hll_image_convert(IMAGE(image), 8, OUTPUT(out)));
	check_argument_status(status, argument);
	return end_output(&out);
}

PG_FUNCTION_INFO_V1(hll_pg_agree);

/* Reads slow images apart: see SLOW_IMAGE. */
Datum
hll_pg_agree(PG_FUNCTION_ARGS)
{
	bytea	   *left = quick_image_in(fcinfo, 0);
	bytea	   *right = quick_image_in(fcinfo, 1);
	uint8		same = 0;
	size_t		failed = 0;
	hll_status	status = hll_images_agree(IMAGE(left), IMAGE(right), &same, &failed);

	check_argument_status(status, failed);
	PG_RETURN_BOOL(same != 0);
}

/* Returns the word of the reason why bytes are not an image, or NULL. */
static const char *
fault_of(const uint8 *bytes, size_t size)
{
	hll_status	status;
	size_t		more;

	CHECK_FOR_INTERRUPTS();
	status = hll_image_check(bytes, size);
	if (status == HLL_OK)
		return hll_image_trailing(bytes, size, &more) == HLL_OK && more == 0 ? NULL : hll_reason(HLL_TRAILING);
	if (status > HLL_REGISTER)
		check_status(status);
	return hll_reason(status);
}

PG_FUNCTION_INFO_V1(hll_pg_fault);

Datum
hll_pg_fault(PG_FUNCTION_ARGS)
{
	bytea	   *bytes = PG_GETARG_BYTEA_PP(0);
	const char *fault = fault_of(IMAGE(bytes));

	if (fault == NULL)
		PG_RETURN_NULL();
	PG_RETURN_TEXT_P(cstring_to_text(fault));
}

PG_FUNCTION_INFO_V1(hll_pg_is_image);

Datum
hll_pg_is_image(PG_FUNCTION_ARGS)
{
	bytea	   *bytes = PG_GETARG_BYTEA_PP(0);

	PG_RETURN_BOOL(fault_of(IMAGE(bytes)) == NULL);
}

PG_FUNCTION_INFO_V1(hll_pg_first_image);

/* Returns the image with which bytes begin. */
Datum
hll_pg_first_image(PG_FUNCTION_ARGS)
{
	bytea	   *bytes = PG_GETARG_BYTEA_PP(0);
	bytea	   *image;
	size_t		size;

	CHECK_FOR_INTERRUPTS();
	check_status(hll_image_size(IMAGE(bytes), &size));
	image = palloc(VARHDRSZ + size);
	SET_VARSIZE(image, VARHDRSZ + size);
	memcpy(VARDATA(image), BYTES(bytes), size);
	PG_RETURN_BYTEA_P(image);
}

/* Makes the row that the function returns, of values that are not NULL. */
static Datum
row_of(FunctionCallInfo fcinfo, Datum *values)
{
	bool		nulls[8] = {false};
	TupleDesc	columns;

	if (get_call_result_type(fcinfo, NULL, &columns) != TYPEFUNC_COMPOSITE)
		elog(ERROR, "the function returns a row");
	return HeapTupleGetDatum(heap_form_tuple(BlessTupleDesc(columns), values, nulls));
}

PG_FUNCTION_INFO_V1(hll_pg_info);

Datum
hll_pg_info(PG_FUNCTION_ARGS)
{
	static const char *const stages[] = {"list", "set", "registers"};
	bytea	   *image = image_in(fcinfo, 0);
	hll_info	info;
	Datum		values[5];

	check_status(hll_image_info(IMAGE(image), &info, sizeof info));
	values[0] = Int32GetDatum(info.lg_k);
	values[1] = Int32GetDatum(info.width);
	values[2] = CStringGetTextDatum(stages[info.stage]);
	values[3] = Int64GetDatum((int64) info.coupons);
	values[4] = Int64GetDatum((int64) info.zeros);
	return row_of(fcinfo, values);
}

PG_FUNCTION_INFO_V1(hll_pg_estimate);

Datum
hll_pg_estimate(PG_FUNCTION_ARGS)
{
	bytea	   *image = image_in(fcinfo, 0);
	hll_estimation found;

	check_status(hll_estimate(IMAGE(image), &found));
	PG_RETURN_FLOAT8(found.estimate);
}

PG_FUNCTION_INFO_V1(hll_pg_hip_estimate);

/* Returns the HIP estimate in an image, or NULL. */
Datum
hll_pg_hip_estimate(PG_FUNCTION_ARGS)
{
	bytea	   *image = image_in(fcinfo, 0);
	hll_estimation found;
	hll_status	status = hll_hip_estimate(IMAGE(image), &found);

	if (status == HLL_ARGUMENT)
		PG_RETURN_NULL();
	check_status(status);
	PG_RETURN_FLOAT8(found.estimate);
}

PG_FUNCTION_INFO_V1(hll_pg_estimate_bounds);

Datum
hll_pg_estimate_bounds(PG_FUNCTION_ARGS)
{
	bytea	   *image = image_in(fcinfo, 0);
	int64		deviations = PG_GETARG_INT64(1);
	hll_estimation found;
	Datum		values[2];

	if (deviations < 1 || deviations > 3)
		ereport(ERROR,
				(errcode(ERRCODE_INVALID_PARAMETER_VALUE),
				 errmsg("deviations must be 1, 2 or 3, not " INT64_FORMAT, deviations)));
	check_status(hll_estimate(IMAGE(image), &found));
	values[0] = Float8GetDatum(found.lower[deviations - 1]);
	values[1] = Float8GetDatum(found.upper[deviations - 1]);
	return row_of(fcinfo, values);
}
