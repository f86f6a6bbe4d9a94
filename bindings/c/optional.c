/* SPDX-License-Identifier: Apache-2.0 */
/*
 * Calls with results that a caller may not want: for NULL they pass memory that is thrown away, so the proved call that each
 * of them makes, whose name the Makefile changes, always gets a pointer. And how many bytes follow an image. Plain C, not proved.
 */
#include "hll.h"

/* Declares the proved calls that are wrapped, which have the prefix proved_ here. */
struct estimate; /* of estimate.c */
#define CALL(type, name, parameters, arguments)
#define WRAPPED(type, name, parameters, arguments) type proved_##name parameters;
#include "proved_calls.h"

hll_status hll_image_merge(unsigned lg_max_k, unsigned width, const uint8_t *left, size_t left_len, const uint8_t *right,
                           size_t right_len, uint8_t *out, size_t room, size_t *size, size_t *failed)
{
    size_t unwanted = 0;
    return proved_hll_image_merge(lg_max_k, width, left, left_len, right, right_len, out, room, size,
                                  failed ? failed : &unwanted);
}

hll_status hll_images_union(unsigned lg_max_k, unsigned width, const uint8_t *images, size_t images_len, const size_t *ends,
                            size_t n, uint8_t *out, size_t room, size_t *size, size_t *failed)
{
    size_t unwanted = 0;
    return proved_hll_images_union(lg_max_k, width, images, images_len, ends, n, out, room, size,
                                   failed ? failed : &unwanted);
}

hll_status hll_images_unionv(unsigned lg_max_k, unsigned width, const hll_bytes *parts, size_t n, uint8_t *out, size_t room,
                             size_t *size, size_t *failed)
{
    size_t unwanted = 0;
    return proved_hll_images_unionv(lg_max_k, width, parts, n, out, room, size, failed ? failed : &unwanted);
}

hll_status hll_images_agree(const uint8_t *left, size_t left_len, const uint8_t *right, size_t right_len, uint8_t *same,
                            size_t *failed)
{
    size_t unwanted = 0;
    return proved_hll_images_agree(left, left_len, right, right_len, same, failed ? failed : &unwanted);
}

hll_status hll_registers_merge(uint8_t *registers, size_t count, const uint8_t *image, size_t len, uint8_t *lg_k)
{
    uint8_t unwanted = 0;
    return proved_hll_registers_merge(registers, count, image, len, lg_k ? lg_k : &unwanted);
}

hll_status hll_registers_merge_registers(uint8_t *registers, size_t count, const uint8_t *others, size_t others_count,
                                         uint8_t *lg_k)
{
    uint8_t unwanted = 0;
    return proved_hll_registers_merge_registers(registers, count, others, others_count, lg_k ? lg_k : &unwanted);
}

static int is_zero(const uint8_t *bytes, size_t len)
{
    while (len > 0 && bytes[len - 1] == 0)
        len--;
    return len == 0;
}

hll_status hll_image_trailing(const uint8_t *bytes, size_t len, size_t *more)
{
    enum { BUCKETS = 32 }; /* the bytes of the eight buckets of a list */
    hll_head head;

    *more = 0;
    if (hll_image_head(bytes, len, &head, sizeof head) != HLL_OK || head.fault != HLL_OK || len <= head.size)
        return HLL_OK;
    if (head.size == 8 && len == 8 + BUCKETS && (head.flags & (HLL_EMPTY | HLL_COMPACT)) == HLL_EMPTY &&
        is_zero(bytes + 8, BUCKETS))
        return HLL_OK;
    *more = len - (size_t)head.size;
    return HLL_OK;
}
