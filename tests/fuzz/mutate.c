/* SPDX-License-Identifier: Apache-2.0 */
/*
 * Mutations of inputs that know what an input is: records are added, dropped, repeated and changed, and payloads become images of
 * every stage and width, whole or with one thing wrong, which no change of single bytes would find. One in four inputs is left to
 * libFuzzer's own mutations.
 */
#include "fuzz.h"

#include <stdlib.h>
#include <string.h>

size_t LLVMFuzzerMutate(uint8_t *data, size_t size, size_t most);
size_t LLVMFuzzerCustomMutator(uint8_t *data, size_t size, size_t most, unsigned seed);

enum { HEADER = 6, MOST_RECORDS = 64, MOST_PAYLOAD = 65535 };

static uint64_t state;

/* splitmix64, below a number */
static unsigned below(unsigned n)
{
    uint64_t word = state += UINT64_C(0x9e3779b97f4a7c15);
    word = (word ^ (word >> 30)) * UINT64_C(0xbf58476d1ce4e5b9);
    word = (word ^ (word >> 27)) * UINT64_C(0x94d049bb133111eb);
    return (unsigned)((word ^ (word >> 31)) >> 32) % n;
}

/* ---- records ---- */

/* A record in memory of its own. */
typedef struct piece {
    uint8_t head[4];
    uint8_t *bytes;
    size_t len;
} piece;

static unsigned taken;

/* The memory of the next record, until the next mutation. */
static uint8_t *some_bytes(void)
{
    static uint8_t all[MOST_RECORDS + 1][MOST_PAYLOAD + 1];
    return all[taken++];
}

static size_t split(const uint8_t *data, size_t size, piece *pieces)
{
    size_t n = 0, len;
    while (size >= HEADER && n < MOST_RECORDS) {
        len = data[4] + 256u * data[5];
        len = len < size - HEADER ? len : size - HEADER;
        memcpy(pieces[n].head, data, 4);
        pieces[n].bytes = some_bytes();
        memcpy(pieces[n].bytes, data + HEADER, len);
        pieces[n++].len = len;
        data += HEADER + len;
        size -= HEADER + len;
    }
    return n;
}

/* Writes records as far as they have room. */
static size_t join(piece *pieces, size_t n, uint8_t *data, size_t most)
{
    size_t size = 0, i;
    for (i = 0; i < n; i++) {
        if (size + HEADER + pieces[i].len <= most) {
            memcpy(data + size, pieces[i].head, 4);
            data[size + 4] = (uint8_t)pieces[i].len;
            data[size + 5] = (uint8_t)(pieces[i].len >> 8);
            memcpy(data + size + HEADER, pieces[i].bytes, pieces[i].len);
            size += HEADER + pieces[i].len;
        }
    }
    return size;
}

/* ---- images ---- */

static uint32_t some_coupon(void)
{
    uint32_t value = below(4) == 0 ? 1 + below(63) : 1 + below(4);
    return value << 26 | (below(3) == 0 ? below(64) : below(1u << 26));
}

static unsigned some_lg_k(void)
{
    return below(8) == 0 ? 4 + below(18) : 4 + below(7);
}

/* A sketch of coupons, at times in a larger or a fuller table than it needs. */
static plain some_coupons(unsigned lg_k, unsigned width)
{
    plain x = plain_empty(lg_k, width);
    size_t n = lg_k >= 8 && below(2) == 0 ? 1 + below(3u << (lg_k < 11 ? lg_k - 5 : 6)) : below(9), i;
    uint32_t *coupons = malloc(4 * n + 4);
    for (i = 0; i < n; i++)
        coupons[i] = some_coupon();
    plain_add(&x, coupons, n);
    free(coupons);
    if (x.size != 0 && lg_k >= 8 && below(4) == 0)
        x.size = 5 + below(lg_k - 7);
    return x;
}

static plain some_registers(unsigned lg_k, unsigned width)
{
    plain x = plain_empty(lg_k, width);
    size_t k = (size_t)1 << lg_k, i;
    unsigned least = below(3) == 0 ? below(64) : 0, most = 1 + below(64 - least), rare = 1 + below(16), kind = below(4);
    uint32_t forced[1] = {1u << 26};
    while (x.size != 0) {
        forced[0]++;
        plain_add(&x, forced, 1);
    }
    for (i = 0; i < k; i++)
        x.registers[i] = (uint8_t)(least + (below(rare) == 0 ? below(most) : below(most < 4 ? most : 4)));
    if (below(4) == 0)
        x.registers[below((unsigned)k)] = 63;
    plain_clear(&x);
    if (kind == 0)
        plain_set_fields(&x);
    if (kind == 1) {
        x.fields[0] = UINT64_C(0x4059000000000000) + below(1u << 30);
        x.out_of_order = (int)below(2);
    }
    return x;
}

/* Reverses or exchanges the last numbers of four bytes, which are coupons or exceptions. */
static void shuffle(uint8_t *image, size_t start, size_t len)
{
    size_t n = start < len ? (len - start) / 4 : 0, i;
    uint8_t kept[4];
    for (i = 1; i < n; i++) {
        uint8_t *one = image + start + 4 * i, *other = image + start + 4 * below((unsigned)i + 1);
        memcpy(kept, one, 4);
        memmove(one, other, 4);
        memcpy(other, kept, 4);
    }
}

/* Makes an updatable image of a compact one: its numbers of four bytes are spread over all buckets of their table. */
static size_t spread(uint8_t *image, size_t start, size_t len)
{
    unsigned lg = (image[7] & 3) == 0 ? 3 : (image[7] & 3) == 1 ? image[4] : 1 + below(9);
    size_t n = (len - start) / 4, buckets = (size_t)1 << lg, i, at = 0;
    uint8_t *numbers;
    if (n > buckets || start + 4 * buckets > MOST_PAYLOAD)
        return len;
    numbers = calloc(4, buckets);
    for (i = 0; i < n; i++) {
        at = buckets - n == 0 ? i : at + below((unsigned)((buckets - at - (n - i)) / 2 + 1));
        memcpy(numbers + 4 * at++, image + start + 4 * i, 4);
    }
    memcpy(image + start, numbers, 4 * buckets);
    free(numbers);
    image[5] &= (uint8_t)~8;
    image[4] = (uint8_t)lg;
    return start + 4 * buckets;
}

/* Writes an image of any stage and width. Returns its size, or 0 if it has no room. */
static size_t some_image(uint8_t *image)
{
    unsigned lg_k = some_lg_k(), width = 4 + 2 * below(3);
    plain x = below(2) == 0 ? some_coupons(lg_k, width) : some_registers(lg_k < 13 ? lg_k : 12, width);
    size_t start = x.size == 3 ? 8 : x.size != 0 ? 12 : 40 + ((size_t)1 << x.lg_k) / 2, len = 0;
    int has_numbers = x.size != 0 || width == 4;
    if (plain_room(&x) <= MOST_PAYLOAD)
        len = plain_write(&x, image);
    if (len != 0 && has_numbers && below(3) == 0)
        shuffle(image, start, len);
    if (len != 0 && has_numbers && below(4) == 0)
        len = spread(image, start, len);
    plain_free(&x);
    return len;
}

/* Changes one thing in an image. */
static size_t spoil(uint8_t *image, size_t len)
{
    static const uint8_t places[] = {0, 3, 4, 5, 6, 7, 8, 9, 32, 33, 36, 37, 39};
    static const uint8_t limits[] = {0, 1, 3, 4, 5, 7, 8, 9, 15, 21, 22, 26, 27, 62, 63, 64, 65, 128, 192, 255};
    size_t at;
    if (len < 8)
        return len;
    switch (below(8)) {
    case 0:
        return len - 1 - below((unsigned)len);
    case 1:
        at = places[below(sizeof places)];
        if (at < len)
            image[at] = (uint8_t)(below(2) == 0 ? image[at] ^ 1u << below(8) : below(256));
        return len;
    case 2:
        image[len - 1 - below(len < 40 ? (unsigned)len : 12)] ^= (uint8_t)(1u << below(8));
        return len;
    case 3: /* a number twice */
        if (len >= 20)
            memcpy(image + len - 4, image + len - 8, 4);
        return len;
    case 4: /* more or fewer of what is counted */
        at = (image[7] & 3) == 0 ? 6 : (image[7] & 3) == 1 ? 8 : 36;
        if (at < len)
            image[at] = (uint8_t)(image[at] + (below(2) == 0 ? 1 : 255));
        return len;
    case 5:
        image[below((unsigned)len)] = (uint8_t)below(256);
        return len;
    case 6:
        at = places[below(sizeof places)];
        if (at < len)
            image[at] = limits[below(sizeof limits)];
        return len;
    default:
        image[len > 40 ? 40 + below((unsigned)len - 40) : below((unsigned)len)] = limits[below(sizeof limits)];
        return len;
    }
}

/* ---- states ---- */

/* The header of a state, with what it announces at times. */
static size_t some_state(uint8_t *state)
{
    unsigned lg_k = some_lg_k(), used = below(16), size = below(2) == 0 ? 3 : 5 + below(3), i;
    uint32_t numbers[10] = {0};
    size_t len = 40 + 4 * (size_t)below(700);
    int has_registers = below(2) == 0;
    numbers[0] = 0x02484c41 + (uint32_t)has_registers;
    numbers[1] = lg_k + (below(8) == 0 ? 32 : 0);
    numbers[2] = below(8);
    numbers[3] = has_registers ? below(2) : size;
    numbers[4] = has_registers ? 0 : below(2);
    numbers[5] = has_registers ? 0 : below(used + 1);
    numbers[6] = has_registers ? 0 : used;
    for (i = 0; i < 40; i++)
        state[i] = (uint8_t)(numbers[i / 4] >> 8 * (i % 4));
    for (; i < len; i++)
        state[i] = (uint8_t)(below(8) == 0 ? below(256) : below(64));
    return len;
}

/* ---- mutations ---- */

static void renew(piece *p)
{
    size_t len = some_image(p->bytes);
    p->len = below(3) == 0 ? spoil(p->bytes, len) : len;
}

/* A new record, whose payload fits its kind. */
static void fresh(piece *p)
{
    int i;
    for (i = 0; i < 4; i++)
        p->head[i] = (uint8_t)below(256);
    if (below(4) != 0)
        p->head[0] &= 31;
    if (below(5) == 0)
        p->head[0] &= 0xe0; /* an image */
    p->bytes = some_bytes();
    p->len = below(3) == 0 ? 2 : below(24); /* two bytes are a number of values */
    for (i = 0; i < 24; i++)
        p->bytes[i] = (uint8_t)below(256);
    if (p->head[0] % 8 == 0)
        renew(p);
    else if ((p->head[0] % 8 == 5 || p->head[0] % 8 == 6) && (p->head[1] >> 1 & 15) == 7 && p->head[3] % 2 == 0)
        p->len = some_state(p->bytes);
}

static void change(piece *p)
{
    switch (below(6)) {
    case 0:
        p->head[below(4)] = (uint8_t)below(256);
        break;
    case 1:
        p->head[1 + below(3)] ^= (uint8_t)(1u << below(8));
        break;
    case 2:
        p->len = LLVMFuzzerMutate(p->bytes, p->len, p->len < 4096 ? 4096 : p->len);
        break;
    case 3:
        p->len = spoil(p->bytes, p->len);
        break;
    case 4:
        if (p->head[0] % 8 == 0)
            renew(p);
        else
            p->len = below(4);
        break;
    default:
        p->head[0] = (uint8_t)((p->head[0] & 31) | below(8) << 5);
    }
}

size_t LLVMFuzzerCustomMutator(uint8_t *data, size_t size, size_t most, unsigned seed)
{
    piece pieces[MOST_RECORDS + 1], kept;
    size_t n, at, other;
    state = seed;
    taken = 0;
    if (below(4) == 0)
        return LLVMFuzzerMutate(data, size, most);
    n = split(data, size, pieces);
    switch (n == 0 ? 0 : below(5)) {
    case 0:
        if (n < MOST_RECORDS) {
            at = below((unsigned)n + 1);
            memmove(pieces + at + 1, pieces + at, (n++ - at) * sizeof *pieces);
            fresh(&pieces[at]);
        }
        break;
    case 1:
        at = below((unsigned)n);
        memmove(pieces + at, pieces + at + 1, (--n - at) * sizeof *pieces);
        break;
    case 2:
        at = below((unsigned)n);
        other = below((unsigned)n);
        kept = pieces[at];
        pieces[at] = pieces[other];
        pieces[other] = kept;
        break;
    default:
        change(&pieces[below((unsigned)n)]);
    }
    return join(pieces, n, data, most);
}
