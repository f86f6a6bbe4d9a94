/* SPDX-License-Identifier: Apache-2.0 */
/*
 * What the files of the extension share: images as arguments, errors, and room for an image. A call of the library returns
 * before any ereport, and has freed its memory by then. Buffers are palloc'd. So an error, a cancelled query or a timeout
 * leaks nothing.
 */
#ifndef HLL_PG_H
#define HLL_PG_H

#include "postgres.h"
#include "fmgr.h"
#if PG_VERSION_NUM >= 160000
#include "varatt.h"
#endif

#include "hll.h"

#define BYTES(varlena) ((const uint8 *) VARDATA_ANY(varlena))
#define LENGTH(varlena) ((size_t) VARSIZE_ANY_EXHDR(varlena))

/* bytes and their length, as the library expects them */
#define IMAGE(varlena) BYTES(varlena), LENGTH(varlena)

/*
 * An image of this size can take longer than a few milliseconds to read, if its coupons or exceptions were chosen to be slow
 * (docs/OPERATING.md). A call of the library can't be stopped. So no call reads two such images, and the server looks for
 * interrupts before each call that reads one. (Smaller sets are merged by one call, which takes a third of the time.)
 */
#define SLOW_IMAGE ((size_t) 65536)

/* The bytea that a call writes an image into. */
typedef struct Output
{
	bytea	   *bytes;
	size_t		room;
	size_t		size;
} Output;

#define OUTPUT(out) (uint8 *) VARDATA((out).bytes), (out).room, &(out).size

extern void start_output(Output *out, size_t room);
extern bool grow_output(Output *out, hll_status status);
extern bytea *end_output(Output *out);

/*
 * Makes a call that writes an image into OUTPUT(out). The first room is a guess. If the call returns that it is too small,
 * the output is enlarged to the size that is needed, and the call is made again.
 */
#define WRITE_OUTPUT(out, guess, status, call) \
	do \
	{ \
		start_output(&(out), guess); \
		do \
			(status) = (call); \
		while (grow_output(&(out), status)); \
	} while (0)

/* Each function raises an error unless the status is HLL_OK, or the number is in range. */
extern void check_status(hll_status status);
extern void check_argument_status(hll_status status, size_t argument);
extern uint8 checked_lg_k(const char *name, int64 lg_k);
extern uint8 checked_width(int64 width);

/* Raises an error if bytes follow an image. `argument` is its number, from 1, if a function has several images, or 0. It
 * looks for interrupts: the caller reads the image next. */
extern void check_whole(const uint8 *image, size_t size, int argument);

/* Returns the image that is an argument, counted from 0, and the argument whose number an error will name. */
extern bytea *image_in(FunctionCallInfo fcinfo, int argument);
extern bytea *numbered_image_in(FunctionCallInfo fcinfo, int argument);

/* Raises an error for texts that are not compared by their bytes, once per query, in a function whose second argument is a
 * text (texts.c). */
extern void check_text(FunctionCallInfo fcinfo);
extern void refuse_type(Oid type);

/* What the header of an image and its counts say, before the image is read. */
extern hll_head head_of(const uint8 *image, size_t size);

/* The lg_k and the width of a head. If the header has a fault, it is any number in range. */
extern uint8 named_lg_k(const uint8 *image, size_t size);
extern uint8 named_width(const uint8 *image, size_t size);

#endif
