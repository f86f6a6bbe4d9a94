/* SPDX-License-Identifier: Apache-2.0 */
#include "state.h"

#include "miscadmin.h"

/* The allocator of counters: that of a memory context. It has to return (hll.h), so it raises no error if there is no memory. (A chunk
 * is only made smaller, for which there is always memory.) */
static void *
allocate(void *context, void *memory, size_t size)
{
	if (memory == NULL)
		return MemoryContextAllocExtended(context, size, MCXT_ALLOC_NO_OOM);
	if (size > 0)
		return repalloc(memory, size);
	pfree(memory);
	return NULL;
}

hll_state_summary
summary_of(const hll_counter *counter)
{
	hll_state_summary summary;

	check_status(hll_counter_info(counter, &summary, sizeof(summary)));
	return summary;
}

/* Makes an empty counter. With lg_k 0 its lg_k is open: what is merged into it decides it, and sketches of another are refused. */
void
make_counter(hll_counter *counter, MemoryContext context, uint8 lg_k)
{
	check_status(hll_counter_init(counter, lg_k, allocate, context));
}

/* Makes a copy, with no more memory than it needs. */
void
make_copy(hll_counter *counter, MemoryContext context, const hll_counter *other)
{
	make_counter(counter, context, 0);
	check_status(hll_counter_copy(counter, other));
}

void
add_to_counter(hll_counter *counter, const uint8 *value, size_t size)
{
	check_status(hll_counter_add(counter, value, size));
}

/* Merges an image, unless the query is cancelled: it may be slow to read. Returns HLL_OK, HLL_MEMORY, HLL_OTHER_LG_K, or why it
 * is rejected. */
hll_status
join_image(hll_counter *counter, const uint8 *image, size_t size)
{
	CHECK_FOR_INTERRUPTS();
	return hll_counter_join(counter, image, size);
}

/* Merges another counter, unless the query is cancelled. Returns HLL_OK or HLL_OTHER_LG_K. */
hll_status
join_counter(hll_counter *counter, const hll_counter *other)
{
	hll_status	status;

	CHECK_FOR_INTERRUPTS();
	status = hll_counter_join_counter(counter, other);
	if (status != HLL_OTHER_LG_K)
		check_status(status);
	return status;
}

/* Returns the image at this width, in the current context. */
bytea *
image_of_counter(const hll_counter *counter, uint8 width)
{
	hll_state_summary summary = summary_of(counter);
	hll_status	status;
	Output		out;

	CHECK_FOR_INTERRUPTS();
	/* 4-bit registers with many exceptions need more. */
	WRITE_OUTPUT(out, Min(summary.size, HLL_IMAGE_ROOM(summary.lg_k, 8)), status,
				 hll_counter_image(counter, width, OUTPUT(out)));
	check_status(status);
	return end_output(&out);
}
