/* SPDX-License-Identifier: Apache-2.0 */
/*
 * States: a sketch in caller-owned memory, coupons while it is small and registers later, for programs that map, share or move that
 * memory themselves. hll_counter of hll.h is a state whose memory grows by itself. The caller frees the memory of a state, and nothing
 * else.
 *
 *     size_t room = HLL_STATE_NEW, size;
 *     void *state = malloc(room);
 *     hll_state_new(12, state, room);
 *     while (hll_state_add_value(state, room, &size, value, len) == HLL_BUFFER)
 *         state = realloc(state, room = size);
 *     hll_state_estimate(state, room, &found);
 *     hll_state_image(state, room, 8, out, sizeof out, &size);
 *
 * (A program also checks the statuses, and that malloc and realloc don't return NULL.)
 *
 * On HLL_BUFFER the sketch is unchanged, and *size bytes are enough for the same call. For coupons they are enough for half as
 * many again and eight more, but no more than the largest set needs. For registers they are exactly what is needed, and they are
 * at most HLL_STATE_MOST. So a loop reallocates only a few times. The bytes may be moved, and need no alignment. They are the
 * same on processors of either byte order. They change with the version of the library, which rejects bytes of another version
 * (HLL_ARGUMENT; hll_state_check distinguishes them): store images in files and columns, not states.
 *
 * The image of a state is the image that hll_image_add and hll_images_union would make of an empty sketch with the same values
 * and sketches. Without values it is the image of an empty list. If the bytes are not a state, a call returns HLL_ARGUMENT. If
 * other code changed the bytes, a call may return any result, but reads and writes nothing outside the room. If a register
 * is above 63, calls that read it return HLL_REGISTER.
 *
 * A state takes 40 bytes, and four for each coupon. It takes more if values repeat, because a repeated coupon stays until the
 * coupons are sorted. Before a call returns HLL_BUFFER it sorts the coupons, if more than half of them are unsorted, or more than a
 * sixteenth if *size is HLL_STATE_MOST.
 * When coupons become registers it needs HLL_STATE_MOST, because the registers are made next to the coupons.
 *
 * Use a state in one thread at a time, because calls on a state may change its bytes. hll_state_info, hll_state_settled_image and
 * hll_state_settled_estimate write no byte of it: any number of threads may make these calls on one state at once, in memory that is
 * only readable, too. As the other state of hll_state_join_state, a settled state changes no byte either.
 *
 * Statuses, arguments and what is proved of these calls are described at the top of hll.h.
 */
#ifndef HLL_STATE_H
#define HLL_STATE_H

#include "hll.h"

#ifdef __cplusplus
extern "C" {
#endif

/* The size of a new state, in bytes. */
#define HLL_STATE_NEW HLL_CAST(size_t, 40)

/* Enough bytes for every state of this lg_k: 40, one for each register, and half of that number (64 if lg_k is below 7) for the
 * coupons that become registers. */
#define HLL_STATE_MOST(lg_k)                                                                                               \
    (HLL_STATE_NEW + (HLL_CAST(size_t, 1) << (lg_k)) +                                                                     \
     ((lg_k) < 7 ? HLL_CAST(size_t, 64) : HLL_CAST(size_t, 1) << ((lg_k)-1)))

/* Makes the state of an empty sketch. If lg_k is 0, its lg_k is open: the first image or state with values that is merged into it
 * decides its lg_k, or the first lg_max_k (hll_state_join). Until then adding a value returns HLL_ARGUMENT, its estimate is 0, and
 * its image is the empty list of the greatest lg_k of the empty images that were merged, or of lg_k 4.
 * Returns HLL_OK, HLL_ARGUMENT, or HLL_BUFFER if room is below HLL_STATE_NEW. Allocates nothing. */
hll_status hll_state_new(unsigned lg_k, void *state, size_t room);

/* Reports what a state says: its size, its lg_k, the width of the images that were merged into it, whether it has registers,
 * whether it is empty. summary_size is sizeof *summary. If it is not the size in this version of the library, the caller was
 * compiled for another version, and the call returns HLL_ARGUMENT.
 *
 * If a state has no values, an image with values counts alone for the width: the images before it no longer count. If a state has
 * values, an image without values doesn't count. Coupons are reported as they are kept: the image of a state is a list if at most
 * seven of them are distinct, and has registers if there are too many for a set.
 * Returns HLL_OK or HLL_ARGUMENT. Changes no byte of the state. Allocates nothing. */
hll_status hll_state_info(const void *state, size_t room, hll_state_summary *summary, size_t summary_size);

/* Returns whether bytes are a state: HLL_OK, HLL_STATE if a library with another version of states wrote them, or HLL_ARGUMENT.
 * After another call returned HLL_ARGUMENT, it says whether processes with different versions exchanged a state. (The other calls
 * don't look, as that would cost every added value a nanosecond.) Changes no byte of the state. Allocates nothing. Not proved. */
hll_status hll_state_check(const void *state, size_t room);

/* Adds n values to a state, delimited by `ends`, as hll_image_add does.
 * Returns HLL_OK, HLL_ARGUMENT or HLL_BUFFER. Allocates nothing. */
hll_status hll_state_add(void *state, size_t room, size_t *size, const uint8_t *values, size_t values_len,
                         const size_t *ends, size_t n);

/* Adds one value to a state.
 * Returns HLL_OK, HLL_ARGUMENT or HLL_BUFFER. Allocates nothing. */
hll_status hll_state_add_value(void *state, size_t room, size_t *size, const uint8_t *value, size_t len);

/* Adds n raw coupons to a state, as hll_coupons writes them. If a raw coupon has the value 0, the call returns HLL_ARGUMENT.
 * Returns HLL_OK, HLL_ARGUMENT or HLL_BUFFER. Allocates nothing. */
hll_status hll_state_add_coupons(void *state, size_t room, size_t *size, const uint32_t *coupons, size_t n);

/* Merges the sketch of an image into a state: at each slot the state gets the greater value of both, at the smaller lg_k, as in
 * hll_images_union with the lg_k of the state as its lg_max_k. The state keeps the smaller lg_k. An empty image adds nothing.
 *
 *     lg_max_k 0     Only sketches of one lg_k are merged. If the state has values, and the image has values of another lg_k,
 *                    the call returns HLL_OTHER_LG_K. A state without values takes the lg_k of the first image with values,
 *                    and until then the greatest lg_k of the empty images. Make the state with hll_state_new(0, ..).
 *     lg_max_k 4-21  Images of any lg_k are merged. Make the state with hll_state_new(lg_max_k, ..), or with lg_k 0: then
 *                    the first call that returns HLL_OK makes it that state. If lg_max_k is below the lg_k of a state that
 *                    isn't open, the call returns HLL_ARGUMENT.
 *
 * On HLL_BUFFER *size bytes are enough for the same call, at most HLL_STATE_MOST of the greater lg_k. A loop over images:
 *
 *     while ((status = hll_state_join(0, state, room, &size, image, len)) == HLL_BUFFER)
 *         state = realloc(state, room = size);
 *
 * Returns HLL_OK, 1 to 11, HLL_ARGUMENT, HLL_MEMORY, HLL_BUFFER or HLL_OTHER_LG_K. Allocates as hll_image_check does. */
hll_status hll_state_join(unsigned lg_max_k, void *state, size_t room, size_t *size, const uint8_t *image, size_t len);

/* Merges the sketch of another state into a state, as hll_state_join does with an image. The bytes of the other state may
 * change if it has coupons, but not its sketch. The two states must not overlap.
 * Returns HLL_OK, HLL_REGISTER, HLL_ARGUMENT, HLL_BUFFER or HLL_OTHER_LG_K. Allocates nothing. */
hll_status hll_state_join_state(unsigned lg_max_k, void *state, size_t room, size_t *size, void *other, size_t other_room);

/* Writes the image of a state at this width. The bytes of the state may change if it has coupons, because these are sorted, but
 * not its sketch. If the call returns HLL_OK, calls that read the state change no byte of it until something is added or merged.
 * Returns HLL_OK, HLL_REGISTER, HLL_ARGUMENT, HLL_MEMORY or HLL_BUFFER (*size is the size of the image). Allocates the image,
 * and for 4-bit registers with exceptions a map and two copies of them. */
hll_status hll_state_image(void *state, size_t room, unsigned width, uint8_t *out, size_t out_room, size_t *size);

/* Estimates from a state, as hll_estimate does. The bytes of the state may change if it has coupons, but not its sketch, as in
 * hll_state_image.
 * Returns HLL_OK, HLL_REGISTER or HLL_ARGUMENT. Allocates nothing. */
hll_status hll_state_estimate(void *state, size_t room, hll_estimation *estimation);

/* Writes the image of a settled state at this width, and no byte of the state. A state is settled after hll_state_image or
 * hll_state_estimate has read it, until something is added or merged; a state with registers always is.
 * Returns HLL_OK, HLL_REGISTER, HLL_ARGUMENT (also if the state isn't settled), HLL_MEMORY or HLL_BUFFER. Allocates as
 * hll_state_image does. */
hll_status hll_state_settled_image(const void *state, size_t room, unsigned width, uint8_t *out, size_t out_room,
                                   size_t *size);

/* Estimates from a settled state, and writes no byte of it.
 * Returns HLL_OK, HLL_REGISTER or HLL_ARGUMENT (also if the state isn't settled). Allocates nothing. */
hll_status hll_state_settled_estimate(const void *state, size_t room, hll_estimation *estimation);

#ifdef __cplusplus
}
#endif

#endif
