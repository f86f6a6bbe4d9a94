/* SPDX-License-Identifier: Apache-2.0 */
/*
 * Compiled into a build for tests/looks.py before each file (-include): a NOTICE with the process for each look for interrupts,
 * and for each image that a call of the library reads and that may be slow to read.
 */
#include "postgres.h"
#include "miscadmin.h"

#include "hll.h"

#undef CHECK_FOR_INTERRUPTS
#define CHECK_FOR_INTERRUPTS() elog(NOTICE, "look of %d", MyProcPid)

/* Sets and 4-bit registers of this size may be slow. A compact set whose coupons ascend isn't: no table is searched. */
#define SLOW 65536

static inline uint32 looks_number(const uint8 *bytes)
{
	return bytes[0] | (uint32) bytes[1] << 8 | (uint32) bytes[2] << 16 | (uint32) bytes[3] << 24;
}

static inline bool looks_ascending(const uint8 *image, size_t size)
{
	for (size_t at = 16; at + 4 <= size; at += 4)
		if (looks_number(image + at) <= looks_number(image + at - 4))
			return false;
	return (image[5] & 8) != 0;
}

static inline void looks_read(const uint8 *image, size_t size)
{
	hll_head	head;

	(void) hll_image_head(image, size, &head, sizeof head);
	if (size >= SLOW && (head.stage == HLL_SET ? !looks_ascending(image, size) : head.width == 4))
		elog(NOTICE, "image of %d", MyProcPid);
}

/* Calls whose first image is their first argument, and others. */
#define READING(name, image, size, ...) (looks_read(image, size), (name)(image, size, ##__VA_ARGS__))
#define READING_TWO(name, left, left_size, right, right_size, ...) \
	(looks_read(left, left_size), looks_read(right, right_size), (name)(left, left_size, right, right_size, ##__VA_ARGS__))
#define MERGING(name, lg_k, width, left, left_size, right, right_size, ...) \
	(looks_read(left, left_size), looks_read(right, right_size), \
	 (name)(lg_k, width, left, left_size, right, right_size, ##__VA_ARGS__))
#define JOINING(name, counter, image, size) (looks_read(image, size), (name)(counter, image, size))

#define hll_image_info(...) READING(hll_image_info, __VA_ARGS__)
#define hll_image_check(...) READING(hll_image_check, __VA_ARGS__)
#define hll_image_size(...) READING(hll_image_size, __VA_ARGS__)
#define hll_image_add(...) READING(hll_image_add, __VA_ARGS__)
#define hll_image_fold(...) READING(hll_image_fold, __VA_ARGS__)
#define hll_image_convert(...) READING(hll_image_convert, __VA_ARGS__)
#define hll_image_set_estimator_fields(...) READING(hll_image_set_estimator_fields, __VA_ARGS__)
#define hll_estimate(...) READING(hll_estimate, __VA_ARGS__)
#define hll_hip_estimate(...) READING(hll_hip_estimate, __VA_ARGS__)
#define hll_images_agree(...) READING_TWO(hll_images_agree, __VA_ARGS__)
#define hll_image_merge(...) MERGING(hll_image_merge, __VA_ARGS__)
#define hll_counter_join(...) JOINING(hll_counter_join, __VA_ARGS__)
