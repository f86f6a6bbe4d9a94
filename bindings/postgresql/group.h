/* SPDX-License-Identifier: Apache-2.0 */
/*
 * What an aggregate keeps of a group: a counter of the library, to which each row is added.
 */
#ifndef HLL_GROUP_H
#define HLL_GROUP_H

#include "state.h"

typedef struct Group
{
	uint8		lg_k;			/* for a sketch of values its lg_k; for a union the bound, or 0 if there is none */
	uint8		width;			/* of the result; 0 for the width of the images, or 8 if they differ */
	hll_counter counter;		/* made when the first value or image comes; its allocator is NULL until then */
} Group;

/* Returns, in the step of an aggregate, the group for the row, with these options unless the call has others (aggregates.c). */
extern Group *next_row(FunctionCallInfo fcinfo, const char *lg_k_name, uint8 lg_k, uint8 width);

extern Group *new_group(MemoryContext context, uint8 lg_k, uint8 width);
extern bool has_rows(const Group *group);
extern hll_counter *counter_of(Group *group);
extern void add_value(Group *group, const uint8 *value, size_t size);

#endif
