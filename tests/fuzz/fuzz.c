/* SPDX-License-Identifier: Apache-2.0 */
/*
 * A fuzz target over the C library. An input is a small program: records, each of which is one call with its arguments.
 *
 *     byte 0      the kind of the call; its three highest bits say which allocation fails
 *     bytes 1-3   numbers, which the parts of the target read as bounds, widths, and places of images, states and counters
 *     bytes 4, 5  the size of what follows: an image, values, coupons, or the bytes of a state
 *
 * Each call is compared with the plain model (plain.h). A comparison that fails ends the program.
 */
#include "fuzz.h"

#include <stdio.h>
#include <stdlib.h>
#include <string.h>

int LLVMFuzzerTestOneInput(const uint8_t *data, size_t size);

enum { HEADER = 6, MOST_RECORDS = 64, LARGE = 14 };

/* ---- records ---- */

/* Reads a record. What is cut off is left out. Returns its size, or 0 if there is none. */
static size_t read_record(const uint8_t *data, size_t size, record *r)
{
    size_t len;
    if (size < HEADER)
        return 0;
    len = data[4] + 256u * data[5];
    r->op = data[0];
    r->a = data[1];
    r->b = data[2];
    r->c = data[3];
    r->bytes = data + HEADER;
    r->len = len < size - HEADER ? len : size - HEADER;
    return HEADER + r->len;
}

int is_heavy(const record *r, unsigned lg_k)
{
    return lg_k > LARGE && r->c != 255;
}

int coupons_of(const record *r, const uint32_t **coupons, size_t *n)
{
    uint8_t *at;
    size_t i;
    int have_values = 1;
    *n = r->len / 4;
    at = edge(EDGE_COUPONS, 4 * *n);
    if (*n > 0)
        memcpy(at, r->bytes, 4 * *n);
    *coupons = (const uint32_t *)(const void *)at;
    for (i = 0; i < *n; i++)
        have_values = have_values && HLL_COUPON_VALUE((*coupons)[i]) != 0;
    return have_values;
}

/* The values of a record: its bytes in pieces of one length; or, if it has two bytes, so many numbers of eight bytes. */
batch batch_of(const record *r)
{
    batch made = {0};
    size_t step = 1 + r->b % 13u, i, first;
    uint8_t *values;
    made.len = r->len == 2 ? 8 * (r->bytes[0] + 4u * r->bytes[1]) : r->len;
    step = r->len == 2 ? 8 : step;
    made.step = step;
    made.n = (made.len + step - 1) / step;
    made.values = values = edge(EDGE_VALUES, made.len);
    for (i = 0; i < made.len; i++)
        values[i] = r->len == 2 ? (uint8_t)(i % 8 == 0 ? i / 8 + r->b : i % 8 == 1 ? i / 2048 : 0) : r->bytes[i];
    made.ends = (size_t *)(void *)edge(EDGE_ENDS, made.n * sizeof(size_t));
    made.coupons = malloc(4 * made.n + 4);
    made.coupons[0] = plain_coupon(made.values, 0); /* for a call that adds one value, which is empty here */
    for (i = 0, first = 0; i < made.n; first = made.ends[i++]) {
        made.ends[i] = first + step < made.len ? first + step : made.len;
        made.coupons[i] = plain_coupon(made.values + first, made.ends[i] - first);
    }
    made.is_argument = made.n > 1 && r->c / 8 % 8 == 7;
    if (made.is_argument && r->b % 2 == 0)
        made.ends[made.n - 1] = made.len + 1;
    else if (made.is_argument)
        made.ends[made.n / 2] = made.ends[made.n / 2 - 1] - 1;
    return made;
}

void free_batch(batch *b)
{
    free(b->coupons);
}

/* ---- the world ---- */

void keep_image(world *w, const uint8_t *bytes, size_t len)
{
    held *h = &w->images[w->next];
    uint8_t *at = edge(EDGE_IMAGE + (int)w->next, len);
    if (len > 0)
        memcpy(at, bytes, len);
    plain_free(&h->x);
    h->at = at;
    h->len = len;
    h->reason = plain_read(at, len, &h->x, &h->size);
    w->next = (w->next + 1) % IMAGES;
}

static world new_world(void)
{
    world w;
    int i;
    memset(&w, 0, sizeof w);
    memset(&heap, 0, sizeof heap);
    for (i = 0; i < IMAGES; i++)
        keep_image(&w, (const uint8_t *)"\2\1\7\14\3\14\0\10", i % 2 == 0 ? 8 : 0);
    for (i = 0; i < PAIRS; i++) {
        w.states[i] = edge(EDGE_STATE + i, HLL_STATE_NEW);
        w.rooms[i] = HLL_STATE_NEW;
        (void)hll_state_new(12, w.states[i], HLL_STATE_NEW);
        w.registers[i] = edge(EDGE_REGISTERS + i, 16);
        w.counts[i] = 16;
        memset(w.registers[i], 0, 16);
    }
    return w;
}

static void end_world(world *w)
{
    int i;
    heap.fail_from = 0;
    for (i = 0; i < PAIRS; i++) {
        if (w->counters[i].is_begun)
            hll_counter_free(&w->counters[i].counter);
        plain_free(&w->counters[i].x);
    }
    for (i = 0; i < IMAGES; i++)
        plain_free(&w->images[i].x);
    CHECK(heap.live == 0, "%zu pieces of memory are left", heap.live);
}

static void carry_out(world *w, const record *r)
{
    static void (*const parts[])(world *, const record *) = {on_image,     on_counter, on_union, on_chain,
                                                             on_registers, on_state,   on_state, on_counter};
    static const uint8_t failing[] = {0, 0, 0, 0, 0, 1, 2, 4};
    heap.fail_from = failing[r->op >> 5];
    if (r->op % 32 == 8)
        on_values(w, r);
    else if (r->op % 32 == 16)
        on_cpp(w, r);
    else
        parts[r->op % 8](w, r);
}

int LLVMFuzzerTestOneInput(const uint8_t *data, size_t size)
{
    world w = new_world();
    record r;
    size_t read;
    int records = 0;
    while (records++ < MOST_RECORDS && (read = read_record(data, size, &r)) != 0) {
        carry_out(&w, &r);
        data += read;
        size -= read;
    }
    end_world(&w);
    return 0;
}
