/* SPDX-License-Identifier: Apache-2.0 */
#include "expanded.h"

#include "access/detoast.h"
#include "miscadmin.h"
#include "utils/memutils.h"

/* ---- objects */

/* Returns the image of an object, which keeps it. */
static bytea *
kept_image(ExpandedSketch *object)
{
	if (object->image == NULL)
	{
		MemoryContext before = MemoryContextSwitchTo(object->header.eoh_context);

		object->image = image_of_counter(&object->counter, summary_of(&object->counter).width);
		MemoryContextSwitchTo(before);
	}
	return object->image;
}

static Size
flat_size(ExpandedObjectHeader *header)
{
	return VARSIZE(kept_image((ExpandedSketch *) header));
}

static void
flatten_into(ExpandedObjectHeader *header, void *result, Size allocated_size)
{
	memcpy(result, kept_image((ExpandedSketch *) header), allocated_size);
}

static const ExpandedObjectMethods methods = {flat_size, flatten_into};

/* Makes an object with a copy of a counter, in a context of its own below this one, in which a large chunk takes only its own
 * bytes. */
static ExpandedSketch *
object_of_counter(MemoryContext parent, const hll_counter *counter)
{
	MemoryContext context = AllocSetContextCreate(parent, "hyperloglog", ALLOCSET_SMALL_SIZES);
	ExpandedSketch *object = MemoryContextAllocZero(context, sizeof(ExpandedSketch));

	EOH_init_header(&object->header, &methods, context);
	make_copy(&object->counter, context, counter);
	return object;
}

ExpandedSketch *
expanded_of(Datum value)
{
	ExpandedObjectHeader *header;

	if (!VARATT_IS_EXTERNAL_EXPANDED(DatumGetPointer(value)))
		return NULL;
	header = DatumGetEOHP(value);
	return header->eoh_methods == &methods ? (ExpandedSketch *) header : NULL;
}

/* Returns what the header of a value says. Of a flat value no more than the header is fetched. */
Header
header_of(Datum value)
{
	ExpandedSketch *object = expanded_of(value);
	Header		header;
	bytea	   *start;

	if (object != NULL)
	{
		hll_state_summary summary = summary_of(&object->counter);

		header.lg_k = summary.lg_k;
		header.width = summary.width;
		header.size = 0;
		return header;
	}
	start = PG_DETOAST_DATUM_SLICE(value, 0, 8);
	header.lg_k = named_lg_k(IMAGE(start));
	header.width = named_width(IMAGE(start));
	header.size = toast_raw_datum_size(value) - VARHDRSZ;
	return header;
}

/* The context of a function's object: in an aggregate it lives as long as the state. */
static MemoryContext
context_of_value(FunctionCallInfo fcinfo)
{
	MemoryContext context;

	return AggCheckCallContext(fcinfo, &context) ? context : CurrentMemoryContext;
}

/* Returns the value of a counter: an object if it has registers, since a further call may need them, and otherwise an image. */
static Datum
value_of_counter(MemoryContext parent, const hll_counter *counter)
{
	hll_state_summary summary = summary_of(counter);

	if (summary.stage != HLL_REGISTERS)
		return PointerGetDatum(image_of_counter(counter, summary.width));
	return EOHPGetRWDatum(&object_of_counter(parent, counter)->header);
}

/* Returns the value of a new image, likewise. */
static Datum
value_of_image(MemoryContext parent, bytea *image)
{
	hll_counter counter;

	if (head_of(IMAGE(image)).stage != HLL_REGISTERS)
		return PointerGetDatum(image);
	make_counter(&counter, CurrentMemoryContext, 0);
	check_status(join_image(&counter, IMAGE(image)));
	return value_of_counter(parent, &counter);
}

/* Returns the object of a value that may be changed: the value itself if the caller gave it away, or a copy. */
static ExpandedSketch *
own_object(MemoryContext parent, Datum value)
{
	ExpandedSketch *object = expanded_of(value);

	if (VARATT_IS_EXTERNAL_EXPANDED_RW(DatumGetPointer(value)))
		return object;
	return object_of_counter(parent, &object->counter);
}

/* Returns the value of an object whose counter has changed. */
static Datum
changed_object(ExpandedSketch *object)
{
	if (object->image != NULL)
		pfree(object->image);
	object->image = NULL;
	return EOHPGetRWDatum(&object->header);
}

/* ---- merges */

static void
refuse_other_lg_k(uint8 lg_k, uint8 other)
{
	ereport(ERROR,
			(errcode(ERRCODE_DATA_EXCEPTION),
			 errmsg("sketches of lg_k %d and %d can't be merged without a bound", lg_k, other),
			 errhint("Give the bound: hll_merge(a, b, %d) merges them at lg_k %d.", Min(lg_k, other), Min(lg_k, other))));
}

/* An argument of a merge: an object or an image. */
typedef struct Side
{
	ExpandedSketch *object;		/* NULL if the argument is flat */
	bytea	   *image;			/* of a flat argument */
} Side;

static Side
side_in(FunctionCallInfo fcinfo, int argument)
{
	Side		side = {expanded_of(PG_GETARG_DATUM(argument)), NULL};

	if (side.object == NULL)
		side.image = numbered_image_in(fcinfo, argument);
	return side;
}

/* Merges a side, the argument of this number (from 0), into a counter. */
static void
join_side(hll_counter *counter, Side side, size_t number)
{
	hll_status	status;
	uint8		lg_k;

	if (side.object != NULL)
	{
		lg_k = summary_of(&side.object->counter).lg_k;
		status = join_counter(counter, &side.object->counter);
	}
	else
	{
		lg_k = named_lg_k(IMAGE(side.image));
		status = join_image(counter, IMAGE(side.image));
	}
	if (status == HLL_OTHER_LG_K)
		refuse_other_lg_k(summary_of(counter).lg_k, lg_k);
	check_argument_status(status, number);
}

/* Returns the bound of a merge, its third argument, or 0 if there is none. */
static uint8
bound_in(FunctionCallInfo fcinfo)
{
	return PG_NARGS() > 2 ? checked_lg_k("lg_max_k", PG_GETARG_INT64(2)) : 0;
}

/* Makes a counter of the union of both sides, in the current context. */
static void
merge_sides(hll_counter *counter, uint8 lg_max_k, Side left, Side right)
{
	make_counter(counter, CurrentMemoryContext, lg_max_k);
	join_side(counter, left, 0);
	CHECK_FOR_INTERRUPTS();
	join_side(counter, right, 1);
}

/* Returns whether both sides are lists or sets of one lg_k and width, which are also those of their union, there is no bound or
 * that lg_k is the bound, and one call may read both. */
static bool
are_alike(uint8 lg_max_k, Side left, Side right)
{
	uint8		lg_k;

	if (left.image == NULL || right.image == NULL || LENGTH(left.image) >= SLOW_IMAGE || LENGTH(right.image) >= SLOW_IMAGE)
		return false;
	lg_k = named_lg_k(IMAGE(left.image));
	return (lg_max_k == 0 || lg_max_k == lg_k) && lg_k == named_lg_k(IMAGE(right.image)) &&
		named_width(IMAGE(left.image)) == named_width(IMAGE(right.image)) &&
		head_of(IMAGE(left.image)).stage != HLL_REGISTERS && head_of(IMAGE(right.image)).stage != HLL_REGISTERS;
}

/* Returns the image of the union of such sides, by the call that merges images. It takes a third of the time of a counter. */
static bytea *
merged_image(Side left, Side right)
{
	uint8		lg_k = named_lg_k(IMAGE(left.image));
	uint8		width = named_width(IMAGE(left.image));
	size_t		failed = 0;
	hll_status	status;
	Output		out;

	WRITE_OUTPUT(out, LENGTH(left.image) + LENGTH(right.image) + 64, status,
				 hll_image_merge(lg_k, width, IMAGE(left.image), IMAGE(right.image), OUTPUT(out), &failed));
	check_argument_status(status, failed);
	return end_output(&out);
}

PG_FUNCTION_INFO_V1(hll_pg_merge);

/* Returns the union of two images. */
Datum
hll_pg_merge(PG_FUNCTION_ARGS)
{
	uint8		lg_max_k = bound_in(fcinfo);
	Side		left = side_in(fcinfo, 0);
	Side		right = side_in(fcinfo, 1);
	hll_counter counter;

	if (are_alike(lg_max_k, left, right))
		PG_RETURN_BYTEA_P(merged_image(left, right));
	merge_sides(&counter, lg_max_k, left, right);
	PG_RETURN_BYTEA_P(image_of_counter(&counter, summary_of(&counter).width));
}

PG_FUNCTION_INFO_V1(hll_pg_merge_sketches);

/* Does what hll_pg_merge does, for the type. */
Datum
hll_pg_merge_sketches(PG_FUNCTION_ARGS)
{
	uint8		lg_max_k = bound_in(fcinfo);
	Side		left = side_in(fcinfo, 0);
	Side		right = side_in(fcinfo, 1);
	MemoryContext parent = context_of_value(fcinfo);
	ExpandedSketch *object;
	hll_counter counter;

	CHECK_FOR_INTERRUPTS();
	if (are_alike(lg_max_k, left, right))
		return value_of_image(parent, merged_image(left, right));
	if (left.object == NULL || left.object == right.object ||
		(lg_max_k != 0 && lg_max_k < summary_of(&left.object->counter).lg_k))
	{
		merge_sides(&counter, lg_max_k, left, right);
		return value_of_counter(parent, &counter);
	}
	object = own_object(parent, PG_GETARG_DATUM(0));
	check_status(hll_counter_bind(&object->counter, lg_max_k));
	join_side(&object->counter, right, 1);
	return changed_object(object);
}

/* ---- additions */

/* Returns the image of a sketch with one more value, by the call that reads and writes images. */
static bytea *
image_with(bytea *image, const uint8 *value, size_t size)
{
	hll_status	status;
	Output		out;

	WRITE_OUTPUT(out, LENGTH(image) + 64, status, hll_image_add(IMAGE(image), value, size, &size, 1, OUTPUT(out)));
	check_status(status);
	return end_output(&out);
}

/* An object adds the value to its counter. An image becomes an object if it has registers, since another value may follow. */
Datum
sketch_with(FunctionCallInfo fcinfo, const uint8 *value, size_t size)
{
	Datum		sketch = PG_GETARG_DATUM(0);
	ExpandedSketch *object = expanded_of(sketch);
	MemoryContext parent = context_of_value(fcinfo);

	if (object != NULL)
	{
		object = own_object(parent, sketch);
		add_to_counter(&object->counter, value, size);
		return changed_object(object);
	}
	return value_of_image(parent, image_with(image_in(fcinfo, 0), value, size));
}
