/* SPDX-License-Identifier: Apache-2.0 */
/* Images at lg_k 12 that the programs of this folder measure calls of libhll with. */
#ifndef BENCH_IMAGES_H
#define BENCH_IMAGES_H

#include "hll.h"

#include <stdio.h>
#include <stdlib.h>
#include <string.h>

enum { LG_K = 12, COUNT = 1 << LG_K, VALUES = 1000, SET_VALUES = 20, SET_HEADER = 12, COMPACT = 8, LG_BUCKETS = 5, BUCKETS = 1 << LG_BUCKETS };

/* How the coupons of a set lie: ascending as libhll writes them, in the order of the buckets of their table, or in these. */
enum order { ASCENDING, PLACED, UPDATABLE };

struct image {
    size_t len;
    uint8_t bytes[HLL_IMAGE_MAX(LG_K)];
};

/* Values of value_size bytes, and where each ends. */
static uint8_t values[64 * VALUES];
static size_t value_ends[VALUES], value_size;

static void need(hll_status status)
{
    if (status != HLL_OK) {
        fprintf(stderr, "%s\n", hll_reason(status));
        exit(1);
    }
}

/* A thousand values of so many bytes, 4 or more: numbers from this one on, and bytes of 7 after eight of them. */
static void make_values(uint64_t from, size_t bytes)
{
    size_t i;
    value_size = bytes;
    memset(values, 7, bytes * VALUES);
    for (i = 0; i < VALUES; i++) {
        uint64_t value = from + i;
        memcpy(values + bytes * i, &value, bytes < 8 ? bytes : 8);
        value_ends[i] = bytes * (i + 1);
    }
}

/* Adds the first values, up to a thousand, to an image. */
static void add_values(struct image *to, size_t count)
{
    struct image before = *to;
    need(hll_image_add(before.bytes, before.len, values, value_size * count, value_ends, count, to->bytes, sizeof to->bytes, &to->len));
}

static void make_empty(struct image *to, uint8_t width)
{
    need(hll_image_new(LG_K, width, to->bytes, sizeof to->bytes, &to->len));
}

/* Registers of 20,000 values from a number on. */
static void make_registers(struct image *to, uint64_t from, uint8_t width)
{
    int thousand;
    make_empty(to, width);
    for (thousand = 0; thousand < 20; thousand++) {
        make_values(from + VALUES * (uint64_t)thousand, 8);
        add_values(to, VALUES);
    }
}

static uint32_t word_at(const uint8_t *from)
{
    uint32_t word;
    memcpy(&word, from, 4);
    return word;
}

/* Puts coupons into the buckets of a table, where searches find them. */
static void put_coupons(uint8_t buckets[4 * BUCKETS], const uint8_t *coupons)
{
    int i;
    memset(buckets, 0, 4 * BUCKETS);
    for (i = 0; i < SET_VALUES; i++) {
        uint32_t coupon = word_at(coupons + 4 * i), stride = HLL_COUPON_SLOT(coupon) >> LG_BUCKETS | 1, at = coupon % BUCKETS;
        while (word_at(buckets + 4 * at) != 0)
            at = (at + stride) % BUCKETS;
        memcpy(buckets + 4 * at, coupons + 4 * i, 4);
    }
}

/* A set of 20 values from a number on, whose coupons lie in this order. */
static void make_set(struct image *to, uint64_t from, enum order order)
{
    uint8_t buckets[4 * BUCKETS];
    size_t at;
    make_empty(to, 8);
    make_values(from, 8);
    add_values(to, SET_VALUES);
    if (order == ASCENDING)
        return;
    put_coupons(buckets, to->bytes + SET_HEADER);
    to->len = SET_HEADER;
    if (order == UPDATABLE)
        to->bytes[5] &= (uint8_t)~COMPACT;
    for (at = 0; at < BUCKETS; at++)
        if (order == UPDATABLE || word_at(buckets + 4 * at) != 0)
            memcpy(to->bytes + to->len, buckets + 4 * at, 4), to->len += 4;
}

#endif
