/* SPDX-License-Identifier: Apache-2.0 */
/*
 * Errors of the library as errors of PostgreSQL, and the room for what it writes. A rejected image is 22P03
 * (invalid_binary_representation), a number out of range is 22023 (invalid_parameter_value), and a failed allocation is
 * 53200 (out_of_memory).
 */
#include "hll_pg.h"

#include "miscadmin.h"

/* How to find the row of a rejected image. The number of the row wouldn't say it: it depends on the plan, and on the worker. */
#define FINDING "SELECT .. WHERE NOT hll_is_image(image) finds such rows"

/* Raises an error. `place` says which image was rejected, if there are several. */
static void
refuse(hll_status status, const char *place)
{
	if (status == HLL_MEMORY)
		ereport(ERROR,
				(errcode(ERRCODE_OUT_OF_MEMORY),
				 errmsg("out of memory"),
				 errdetail("An allocation for an HLL sketch failed.")));
	if (status < HLL_TRUNCATED || status > HLL_REGISTER)
		elog(ERROR, "unexpected status of the HLL library: %s", hll_reason(status));
	ereport(ERROR,
			(errcode(ERRCODE_INVALID_BINARY_REPRESENTATION),
			 errmsg("invalid HLL image%s: %s", place, hll_reason(status)),
			 errdetail("%s", hll_message(status)),
			 errhint(FINDING ", and hll_fault(image) says why.")));
}

void
check_status(hll_status status)
{
	if (status != HLL_OK)
		refuse(status, "");
}

/* In a call with several images: the number of the image at fault, from 0. */
void
check_argument_status(hll_status status, size_t argument)
{
	if (status != HLL_OK)
		refuse(status, psprintf(" in argument %d", (int) argument + 1));
}

/* The head says how many bytes an image has. If its first bytes are no image, the call that reads it reports that. */
void
check_whole(const uint8 *image, size_t size, int argument)
{
	size_t		more,
				own;
	hll_status	status;

	CHECK_FOR_INTERRUPTS();
	if (hll_image_trailing(image, size, &more) == HLL_OK && more == 0)
		return;
	own = size - more;
	status = hll_image_check(image, own);
	CHECK_FOR_INTERRUPTS();
	if (status == HLL_MEMORY)
		refuse(status, "");
	if (status != HLL_OK)
		return;
	ereport(ERROR,
			(errcode(ERRCODE_INVALID_BINARY_REPRESENTATION),
			 errmsg_plural("invalid HLL image%s: %zu byte follows it", "invalid HLL image%s: %zu bytes follow it", size - own,
						   argument == 0 ? "" : psprintf(" in argument %d", argument), size - own),
			 errdetail("The image takes %zu bytes of %zu.", own, size),
			 errhint("hll_merge merges two images; || puts one bytea after another. hll_first_image cuts off what follows. "
					 FINDING ".")));
}

uint8
checked_lg_k(const char *name, int64 lg_k)
{
	if (lg_k < 4 || lg_k > 21)
		ereport(ERROR,
				(errcode(ERRCODE_INVALID_PARAMETER_VALUE),
				 errmsg("%s must be between 4 and 21, not " INT64_FORMAT, name, lg_k)));
	return (uint8) lg_k;
}

uint8
checked_width(int64 width)
{
	if (width != 4 && width != 6 && width != 8)
		ereport(ERROR,
				(errcode(ERRCODE_INVALID_PARAMETER_VALUE),
				 errmsg("width must be 4, 6 or 8, not " INT64_FORMAT, width)));
	return (uint8) width;
}

/* Makes room for at most the largest image that the library writes. An argument may be a gigabyte long with an image only at
 * its start, and the server would not allocate more. */
void
start_output(Output *out, size_t room)
{
	out->room = Min(room, HLL_IMAGE_MAX(21));
	out->size = 0;
	out->bytes = palloc(VARHDRSZ + out->room);
}

/* Returns whether the room was too small. Then there is enough now, and the call has to be made again, unless the query is
 * cancelled. */
bool
grow_output(Output *out, hll_status status)
{
	if (status != HLL_BUFFER)
		return false;
	CHECK_FOR_INTERRUPTS();
	pfree(out->bytes);
	start_output(out, out->size);
	return true;
}

bytea *
end_output(Output *out)
{
	SET_VARSIZE(out->bytes, VARHDRSZ + out->size);
	return out->bytes;
}
