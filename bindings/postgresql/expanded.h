/* SPDX-License-Identifier: Apache-2.0 */
/*
 * Expanded values of the type hyperloglog: the results of merges and additions that have registers. The next merge or
 * addition, in a loop or in an aggregate, then needn't read and write their image again.
 */
#ifndef HLL_EXPANDED_H
#define HLL_EXPANDED_H

#include "state.h"

#include "utils/expandeddatum.h"

/* A counter with registers, and its image. */
typedef struct ExpandedSketch
{
	ExpandedObjectHeader header;
	hll_counter counter;
	bytea	   *image;			/* NULL if the counter has changed since the image was written */
} ExpandedSketch;

/* What a value's header says. */
typedef struct Header
{
	uint8		lg_k;
	uint8		width;
	size_t		size;			/* the size of the image; 0 for an object, whose image is never too long */
} Header;

/* Returns the object of a value, or NULL if the value is flat. */
extern ExpandedSketch *expanded_of(Datum value);
extern Header header_of(Datum value);

/* Returns the sketch that is the first argument of a function, with one more value. */
extern Datum sketch_with(FunctionCallInfo fcinfo, const uint8 *value, size_t size);

#endif
