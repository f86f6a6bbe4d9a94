/* SPDX-License-Identifier: Apache-2.0 */
/*
 * The aggregates: the step of a union, and what all aggregates share. The steps of values are in values.c.
 */
#include "group.h"

#include "miscadmin.h"
#include "nodes/memnodes.h"
#include "nodes/primnodes.h"
#include "utils/lsyscache.h"
#include "utils/memutils.h"

/* ---- memory */

/* The context for the groups of an aggregate. */
static MemoryContext
aggregate_context(FunctionCallInfo fcinfo)
{
	MemoryContext context;

	if (!AggCheckCallContext(fcinfo, &context))
		elog(ERROR, "called outside an aggregate");
	return context;
}

/* The name of the contexts of states. Its address distinguishes them from other contexts. */
static const char states_name[] = "HLL states";

/* The number of contexts that are looked at: other aggregates may have many contexts, and newer ones. */
#define MOST_LOOKS 8

/*
 * A context below that of an aggregate, in which a large chunk takes only its own bytes. In the context of the aggregate
 * chunks are powers of two, so the registers of lg_k 12 with the header of their state would take 8 kilobytes.
 */
static MemoryContext
context_of_states(MemoryContext parent)
{
	MemoryContext child = parent->firstchild;

	for (int n = 0; child != NULL && n < MOST_LOOKS; n++)
	{
		if (child->name == states_name)
			return child;
		child = child->nextchild;
	}
	return AllocSetContextCreateInternal(parent, states_name, ALLOCSET_SMALL_SIZES);
}

/* ---- rows */

/* An argument of the aggregate that has to be the same in all rows. */
static int64
option(FunctionCallInfo fcinfo, int number, const char *name)
{
	if (PG_ARGISNULL(number))
		ereport(ERROR,
				(errcode(ERRCODE_NULL_VALUE_NOT_ALLOWED),
				 errmsg("%s must not be null", name)));
	return PG_GETARG_INT64(number);
}

static void
check_same(const Group *group, uint8 lg_k, uint8 width)
{
	if (group->lg_k != lg_k || group->width != width)
		ereport(ERROR,
				(errcode(ERRCODE_INVALID_PARAMETER_VALUE),
				 errmsg("the size and the width of a sketch must be the same for all rows of a group")));
}

/* Returns the group for the next row. The arguments are the group, the value of the row, lg_k and width. */
Group *
next_row(FunctionCallInfo fcinfo, const char *lg_k_name, uint8 lg_k, uint8 width)
{
	Group	   *group;

	if (PG_NARGS() > 2)
		lg_k = checked_lg_k(lg_k_name, option(fcinfo, 2, lg_k_name));
	if (PG_NARGS() > 3)
		width = checked_width(option(fcinfo, 3, "width"));

	/* The server looks for interrupts when it reads rows, but not when it passes rows that it has sorted. */
	CHECK_FOR_INTERRUPTS();
	if (PG_ARGISNULL(0))
		group = new_group(context_of_states(aggregate_context(fcinfo)), lg_k, width);
	else
		group = (Group *) PG_GETARG_POINTER(0);
	check_same(group, lg_k, width);
	return group;
}

/* Raises an error for a sketch of another lg_k without a bound. */
static void
refuse_other_lg_k(FunctionCallInfo fcinfo, uint8 lg_k, uint8 other)
{
	Aggref	   *aggregate = AggGetAggref(fcinfo);
	const char *name = aggregate == NULL ? "hyperloglog_union_agg" : get_func_name(aggregate->aggfnoid);

	ereport(ERROR,
			(errcode(ERRCODE_DATA_EXCEPTION),
			 errmsg("sketches of lg_k %d and %d can't be merged without a bound", lg_k, other),
			 errhint("Give the bound: %s(sketch, %d) merges them at lg_k %d. SELECT (hll_info(sketch)).lg_k, count(*) .. GROUP BY 1 "
					 "counts the sketches of each lg_k.", name, Min(lg_k, other), Min(lg_k, other))));
}

/* Merges the image of a row into its group. */
static void
join_row(FunctionCallInfo fcinfo, Group *group, bytea *image)
{
	hll_counter *counter = counter_of(group);
	hll_status	status = join_image(counter, IMAGE(image));

	if (status == HLL_OTHER_LG_K)
		refuse_other_lg_k(fcinfo, summary_of(counter).lg_k, named_lg_k(IMAGE(image)));
	check_status(status);
}

PG_FUNCTION_INFO_V1(hll_pg_union_trans);

/* The step of unions of the type, whose values are known to be single images. */
Datum
hll_pg_union_trans(PG_FUNCTION_ARGS)
{
	Group	   *group = next_row(fcinfo, "lg_max_k", 0, 0);

	if (!PG_ARGISNULL(1))
		join_row(fcinfo, group, PG_GETARG_BYTEA_PP(1));
	PG_RETURN_POINTER(group);
}

PG_FUNCTION_INFO_V1(hll_pg_union_bytea_trans);

/* The step of unions of bytea, whose values may be any bytes. */
Datum
hll_pg_union_bytea_trans(PG_FUNCTION_ARGS)
{
	Group	   *group = next_row(fcinfo, "lg_max_k", 0, 0);

	if (!PG_ARGISNULL(1))
	{
		bytea	   *image = PG_GETARG_BYTEA_PP(1);

		check_whole(IMAGE(image), 0);
		join_row(fcinfo, group, image);
	}
	PG_RETURN_POINTER(group);
}

/* ---- workers */

PG_FUNCTION_INFO_V1(hll_pg_combine);

/* Merges the second group into the first. */
Datum
hll_pg_combine(PG_FUNCTION_ARGS)
{
	MemoryContext context = aggregate_context(fcinfo);
	Group	   *group = PG_ARGISNULL(0) ? NULL : (Group *) PG_GETARG_POINTER(0);
	Group	   *other = PG_ARGISNULL(1) ? NULL : (Group *) PG_GETARG_POINTER(1);

	if (other == NULL)
	{
		if (group == NULL)
			PG_RETURN_NULL();
		PG_RETURN_POINTER(group);
	}
	CHECK_FOR_INTERRUPTS();
	if (group == NULL)
		group = new_group(context_of_states(context), other->lg_k, other->width);
	check_same(group, other->lg_k, other->width);
	if (has_rows(other) && join_counter(counter_of(group), &other->counter) == HLL_OTHER_LG_K)
		refuse_other_lg_k(fcinfo, summary_of(&group->counter).lg_k, summary_of(&other->counter).lg_k);
	PG_RETURN_POINTER(group);
}

/* What a worker sends: a header, and the image of the sketch if there is one. Sender and receiver are one server, but they may have
 * loaded two versions of the module, if the package was replaced after the session began: so the header stays as it is. */
typedef struct Sent
{
	uint8		lg_k;
	uint8		width;
} Sent;

static Datum
bytes_to_send(const Group *group, const uint8 *image, size_t size)
{
	Sent		sent = {group->lg_k, group->width};
	bytea	   *bytes = palloc(VARHDRSZ + sizeof(Sent) + size);

	SET_VARSIZE(bytes, VARHDRSZ + sizeof(Sent) + size);
	memcpy(VARDATA(bytes), &sent, sizeof(Sent));
	if (size > 0)
		memcpy(VARDATA(bytes) + sizeof(Sent), image, size);
	return PointerGetDatum(bytes);
}

PG_FUNCTION_INFO_V1(hll_pg_serial);

/* Sends the image at the width of the images so far. (If they have different widths, the width is 8 from then on, as it would
 * be for all together.) */
Datum
hll_pg_serial(PG_FUNCTION_ARGS)
{
	Group	   *group = (Group *) PG_GETARG_POINTER(0);
	bytea	   *image;

	(void) aggregate_context(fcinfo);
	if (!has_rows(group))
		return bytes_to_send(group, NULL, 0);
	image = image_of_counter(&group->counter, summary_of(&group->counter).width);
	return bytes_to_send(group, IMAGE(image));
}

PG_FUNCTION_INFO_V1(hll_pg_deserial);

Datum
hll_pg_deserial(PG_FUNCTION_ARGS)
{
	bytea	   *bytes = PG_GETARG_BYTEA_PP(0);
	const uint8 *image = BYTES(bytes) + sizeof(Sent);
	size_t		size = LENGTH(bytes) - sizeof(Sent);
	Sent		sent = {0};
	Group	   *group;

	(void) aggregate_context(fcinfo);
	if (LENGTH(bytes) >= sizeof(Sent))
		memcpy(&sent, BYTES(bytes), sizeof(Sent));
	if (LENGTH(bytes) < sizeof(Sent))
		elog(ERROR, "the bytes are no state of an HLL aggregate");
	group = new_group(CurrentMemoryContext, sent.lg_k, sent.width);
	if (size > 0)
		check_status(join_image(counter_of(group), image, size));
	PG_RETURN_POINTER(group);
}

/* ---- the result */

PG_FUNCTION_INFO_V1(hll_pg_final);

/* As a window function it is called again for each row. */
Datum
hll_pg_final(PG_FUNCTION_ARGS)
{
	Group	   *group;

	(void) aggregate_context(fcinfo);
	if (PG_ARGISNULL(0))
		PG_RETURN_NULL();
	group = (Group *) PG_GETARG_POINTER(0);
	if (!has_rows(group))
		PG_RETURN_NULL();
	PG_RETURN_BYTEA_P(image_of_counter(&group->counter, group->width == 0 ? summary_of(&group->counter).width : group->width));
}

PG_FUNCTION_INFO_V1(hll_pg_count_final);

/* Returns the rounded estimate: 0 if nothing came, as count does. */
Datum
hll_pg_count_final(PG_FUNCTION_ARGS)
{
	hll_estimation found = {0};
	Group	   *group;

	(void) aggregate_context(fcinfo);
	group = PG_ARGISNULL(0) ? NULL : (Group *) PG_GETARG_POINTER(0);
	if (group != NULL && has_rows(group))
		check_status(hll_counter_estimate(&group->counter, &found));
	/* Full registers have an infinite estimate. */
	PG_RETURN_INT64(found.estimate < 0x1p62 ? (int64) (found.estimate + 0.5) : PG_INT64_MAX);
}
