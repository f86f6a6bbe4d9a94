/* SPDX-License-Identifier: Apache-2.0 */
/*
 * Sketches that grow: counters of the library (hll.h, "counters") in memory of the server, which live as long as the context
 * that they were made in.
 */
#ifndef HLL_STATE_H
#define HLL_STATE_H

#include "hll_pg.h"

extern hll_state_summary summary_of(const hll_counter *counter);
extern void make_counter(hll_counter *counter, MemoryContext context, uint8 lg_k);
extern void make_copy(hll_counter *counter, MemoryContext context, const hll_counter *other);
extern void add_to_counter(hll_counter *counter, const uint8 *value, size_t size);
extern hll_status join_image(hll_counter *counter, const uint8 *image, size_t size);
extern hll_status join_counter(hll_counter *counter, const hll_counter *other);
extern bytea *image_of_counter(const hll_counter *counter, uint8 width);

#endif
