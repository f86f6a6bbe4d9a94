/* SPDX-License-Identifier: Apache-2.0 */
/*
 * States: the bytes of a caller are passed to the proved calls as elements of four bytes. And whether bytes are a state of another
 * version. Plain C, not proved.
 */
#include "hll_state.h"

/* Declares the proved calls that are wrapped, which have the prefix proved_ here. */
struct estimate; /* of estimate.c */
#define CALL(type, name, parameters, arguments)
#define WRAPPED(type, name, parameters, arguments) type proved_##name parameters;
#include "proved_calls.h"

hll_status hll_state_new(unsigned lg_k, void *state, size_t room)
{
    return proved_hll_state_new(lg_k, state, room / 4);
}

hll_status hll_state_info(const void *state, size_t room, hll_state_summary *summary, size_t summary_size)
{
    return proved_hll_state_info(state, room / 4, summary, summary_size);
}

hll_status hll_state_add(void *state, size_t room, size_t *size, const uint8_t *values, size_t values_len,
                         const size_t *ends, size_t n)
{
    return proved_hll_state_add(state, room / 4, size, values, values_len, ends, n);
}

hll_status hll_state_add_value(void *state, size_t room, size_t *size, const uint8_t *value, size_t len)
{
    return proved_hll_state_add_value(state, room / 4, size, value, len);
}

hll_status hll_state_add_coupons(void *state, size_t room, size_t *size, const uint32_t *coupons, size_t n)
{
    return proved_hll_state_add_coupons(state, room / 4, size, coupons, n);
}

hll_status hll_state_join(unsigned lg_max_k, void *state, size_t room, size_t *size, const uint8_t *image, size_t len)
{
    return proved_hll_state_join(lg_max_k, state, room / 4, size, image, len);
}

hll_status hll_state_join_state(unsigned lg_max_k, void *state, size_t room, size_t *size, void *other,
                                size_t other_room)
{
    return proved_hll_state_join_state(lg_max_k, state, room / 4, size, other, other_room / 4);
}

hll_status hll_state_image(void *state, size_t room, unsigned width, uint8_t *out, size_t out_room, size_t *size)
{
    return proved_hll_state_image(state, room / 4, width, out, out_room, size);
}

hll_status hll_state_settled_image(const void *state, size_t room, unsigned width, uint8_t *out, size_t out_room,
                                   size_t *size)
{
    return proved_hll_state_settled_image(state, room / 4, width, out, out_room, size);
}

/* The first number of a state is a kind in one byte, two bytes that all versions have, and the version. */
hll_status hll_state_check(const void *state, size_t room)
{
    const uint8_t *bytes = state;
    uint8_t own[HLL_STATE_NEW];
    hll_state_summary summary;
    hll_status status = hll_state_info(state, room, &summary, sizeof summary);

    if (status == HLL_OK || room < HLL_STATE_NEW)
        return status;
    (void)hll_state_new(4, own, sizeof own);
    return bytes[1] == own[1] && bytes[2] == own[2] && bytes[3] != own[3] ? HLL_STATE : status;
}
