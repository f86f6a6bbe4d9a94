/* SPDX-License-Identifier: Apache-2.0 */
#include "group.h"

#include "utils/memutils.h"

Group *
new_group(MemoryContext context, uint8 lg_k, uint8 width)
{
	Group	   *group = MemoryContextAllocZero(context, sizeof(Group));

	group->lg_k = lg_k;
	group->width = width;
	return group;
}

/* Returns whether a value or an image has come. */
bool
has_rows(const Group *group)
{
	return group->counter.allocator != NULL;
}

/* Returns the counter, and makes it if there is none yet. */
hll_counter *
counter_of(Group *group)
{
	if (!has_rows(group))
		make_counter(&group->counter, GetMemoryChunkContext(group), group->lg_k);
	return &group->counter;
}

void
add_value(Group *group, const uint8 *value, size_t size)
{
	add_to_counter(counter_of(group), value, size);
}
