/* SPDX-License-Identifier: Apache-2.0 */
#include "plain.h"

#include <math.h>
#include <stdio.h>
#include <stdlib.h>
#include <string.h>

enum { LIST_SIZE = 3, SET_SIZE = 5 };

static void *allocated(size_t size)
{
    void *made = calloc(size != 0 ? size : 1, 1);
    if (made == NULL) {
        fputs("no memory for the plain model\n", stderr);
        abort();
    }
    return made;
}

static size_t count_of(unsigned lg_k)
{
    return (size_t)1 << lg_k;
}

static uint32_t slot_of(uint32_t coupon)
{
    return coupon & 0x3ffffff;
}

static uint8_t value_of(uint32_t coupon)
{
    return (uint8_t)(coupon >> 26);
}

/* ---- sketches ---- */

plain plain_empty(unsigned lg_k, unsigned width)
{
    plain made = {0};
    made.lg_k = lg_k;
    made.width = width;
    made.size = LIST_SIZE;
    made.coupons = allocated(0);
    return made;
}

void plain_free(plain *x)
{
    free(x->coupons);
    free(x->registers);
    memset(x, 0, sizeof *x);
}

plain plain_copy(const plain *x)
{
    plain made = *x;
    made.coupons = NULL;
    made.registers = NULL;
    if (x->size != 0) {
        made.coupons = allocated(4 * x->n);
        memcpy(made.coupons, x->coupons, 4 * x->n);
    } else {
        made.registers = allocated(count_of(x->lg_k));
        memcpy(made.registers, x->registers, count_of(x->lg_k));
    }
    return made;
}

int plain_is_empty(const plain *x)
{
    size_t i;
    if (x->size != 0)
        return x->n == 0;
    for (i = 0; i < count_of(x->lg_k); i++)
        if (x->registers[i] != 0)
            return 0;
    return 1;
}

int plain_is_legal(const plain *x)
{
    size_t i;
    for (i = 0; x->size != 0 && i < x->n; i++)
        if (value_of(x->coupons[i]) == 0)
            return 0;
    for (i = 0; x->size == 0 && i < count_of(x->lg_k); i++)
        if (x->registers[i] > 63)
            return 0;
    return 1;
}

int plain_is_same(const plain *x, const plain *y)
{
    if (x->lg_k != y->lg_k || x->size != y->size)
        return 0;
    if (x->size != 0)
        return x->n == y->n && memcmp(x->coupons, y->coupons, 4 * x->n) == 0;
    return memcmp(x->registers, y->registers, count_of(x->lg_k)) == 0 &&
           memcmp(x->fields, y->fields, sizeof x->fields) == 0 && x->out_of_order == y->out_of_order;
}

/* ---- estimator state ---- */

void plain_clear(plain *x)
{
    memset(x->fields, 0, sizeof x->fields);
    x->out_of_order = 1;
}

void plain_set_fields(plain *x)
{
    double low = 0.0, high = 0.0;
    size_t i;
    if (x->size != 0)
        return;
    for (i = 0; i < count_of(x->lg_k); i++) {
        if (x->registers[i] < 32)
            low += ldexp(1.0, -(int)x->registers[i]);
        else
            high += ldexp(1.0, -(int)x->registers[i]);
    }
    plain_clear(x);
    memcpy(&x->fields[1], &low, 8);
    memcpy(&x->fields[2], &high, 8);
}

void plain_fill(plain *x)
{
    if (x->out_of_order && x->fields[0] == 0 && x->fields[1] == 0 && x->fields[2] == 0)
        plain_set_fields(x);
}

/* ---- adding, folding and merging ---- */

void plain_registers(const plain *x, unsigned lg_k, uint8_t *registers)
{
    size_t mask = count_of(lg_k) - 1, i;
    memset(registers, 0, count_of(lg_k));
    for (i = 0; x->size != 0 && i < x->n; i++) {
        uint8_t *at = registers + (slot_of(x->coupons[i]) & mask);
        *at = value_of(x->coupons[i]) > *at ? value_of(x->coupons[i]) : *at;
    }
    for (i = 0; x->size == 0 && i < count_of(x->lg_k); i++)
        if (x->registers[i] > registers[i & mask])
            registers[i & mask] = x->registers[i];
}

/* Makes registers of an lg_k of a sketch, with a cleared state. */
static void become_registers(plain *x, unsigned lg_k)
{
    uint8_t *registers = allocated(count_of(lg_k));
    plain_registers(x, lg_k, registers);
    free(x->coupons);
    free(x->registers);
    x->coupons = NULL;
    x->registers = registers;
    x->lg_k = lg_k;
    x->size = 0;
    x->n = 0;
    plain_clear(x);
}

/* The least size of a table, from one on, that holds n coupons, or 0 if there is none. */
static unsigned size_for(unsigned lg_k, unsigned least, size_t n)
{
    unsigned size;
    if (least <= LIST_SIZE && n <= 7)
        return LIST_SIZE;
    for (size = least < SET_SIZE ? SET_SIZE : least; size + 3 <= lg_k; size++)
        if (4 * n <= 3 * count_of(size))
            return size;
    return 0;
}

int plain_is_canonical(const plain *x)
{
    plain filled;
    int is_same;
    if (x->size != 0)
        return x->size == size_for(x->lg_k, LIST_SIZE, x->n);
    filled = plain_copy(x);
    plain_set_fields(&filled);
    is_same = plain_is_same(x, &filled);
    plain_clear(&filled);
    is_same = is_same || plain_is_same(x, &filled);
    plain_free(&filled);
    return is_same;
}

/* Puts coupons into the table that holds them, or makes registers. */
static void settle(plain *x, unsigned least)
{
    unsigned size = size_for(x->lg_k, least, x->n);
    if (size == 0)
        become_registers(x, x->lg_k);
    else
        x->size = size;
}

static int by_number(const void *left, const void *right)
{
    uint32_t a = *(const uint32_t *)left, b = *(const uint32_t *)right;
    return (a > b) - (a < b);
}

/* Sorts numbers, and keeps each once. Returns how many are left. */
static size_t distinct(uint32_t *numbers, size_t n)
{
    size_t kept = 0, i;
    qsort(numbers, n, sizeof *numbers, by_number);
    for (i = 0; i < n; i++)
        if (kept == 0 || numbers[kept - 1] != numbers[i])
            numbers[kept++] = numbers[i];
    return kept;
}

static void add_to_registers(plain *x, const uint32_t *coupons, size_t n)
{
    size_t mask = count_of(x->lg_k) - 1, i;
    int is_changed = 0;
    for (i = 0; i < n; i++) {
        uint8_t *at = x->registers + (slot_of(coupons[i]) & mask);
        if (value_of(coupons[i]) > *at) {
            *at = value_of(coupons[i]);
            is_changed = 1;
        }
    }
    if (is_changed)
        plain_clear(x);
}

void plain_add(plain *x, const uint32_t *coupons, size_t n)
{
    uint32_t *all;
    if (n == 0)
        return;
    if (x->size == 0) {
        add_to_registers(x, coupons, n);
        return;
    }
    all = allocated(4 * (x->n + n));
    memcpy(all, x->coupons, 4 * x->n);
    memcpy(all + x->n, coupons, 4 * n);
    free(x->coupons);
    x->coupons = all;
    x->n = distinct(all, x->n + n);
    settle(x, x->size);
}

void plain_fold(plain *x, unsigned lg_k)
{
    if (x->size != 0) {
        x->lg_k = lg_k;
        settle(x, LIST_SIZE);
    } else if (lg_k != x->lg_k) {
        become_registers(x, lg_k);
    }
}

/* Merges registers that are not all 0. */
static void merge_registers(unsigned bound, plain *gadget, const plain *x)
{
    unsigned lg_k = gadget->lg_k < x->lg_k ? gadget->lg_k : x->lg_k;
    uint8_t *registers;
    size_t i;
    if (plain_is_empty(gadget) && x->lg_k <= bound) {
        plain_free(gadget);
        *gadget = plain_copy(x);
        gadget->width = 8;
        return;
    }
    registers = allocated(count_of(lg_k));
    plain_registers(x, lg_k, registers);
    become_registers(gadget, lg_k);
    for (i = 0; i < count_of(lg_k); i++)
        if (registers[i] > gadget->registers[i])
            gadget->registers[i] = registers[i];
    free(registers);
}

void plain_merge(unsigned bound, plain *gadget, const plain *x)
{
    plain copied;
    if (plain_is_empty(x))
        return;
    if (x->size == 0) {
        merge_registers(bound, gadget, x);
    } else if (plain_is_empty(gadget) && gadget->lg_k == x->lg_k) {
        copied = plain_copy(x);
        plain_free(gadget);
        *gadget = copied;
        gadget->width = 8;
    } else {
        plain_add(gadget, x->coupons, x->n);
    }
}

/* ---- values ---- */

static uint64_t rotated(uint64_t x, int n)
{
    return x << n | x >> (64 - n);
}

static uint64_t mixed(uint64_t x)
{
    x = (x ^ x >> 33) * UINT64_C(0xff51afd7ed558ccd);
    x = (x ^ x >> 33) * UINT64_C(0xc4ceb9fe1a85ec53);
    return x ^ x >> 33;
}

static uint64_t number_of(const uint8_t *at, int bytes)
{
    uint64_t number = 0;
    while (bytes-- > 0)
        number = number << 8 | at[bytes];
    return number;
}

uint32_t plain_coupon(const uint8_t *value, size_t len)
{
    const uint64_t c1 = UINT64_C(0x87c37b91114253d5), c2 = UINT64_C(0x4cf5ad432745937f);
    uint64_t h1 = 9001, h2 = 9001, low, high;
    uint8_t rest[16] = {0};
    size_t at;
    uint32_t zeros = 0;
    for (at = 0; at + 16 <= len; at += 16) {
        h1 = (rotated(h1 ^ rotated(number_of(value + at, 8) * c1, 31) * c2, 27) + h2) * 5 + 0x52dce729;
        h2 = (rotated(h2 ^ rotated(number_of(value + at + 8, 8) * c2, 33) * c1, 31) + h1) * 5 + 0x38495ab5;
    }
    if (at < len)
        memcpy(rest, value + at, len - at);
    h2 ^= rotated(number_of(rest + 8, 8) * c2, 33) * c1 ^ len;
    h1 ^= rotated(number_of(rest, 8) * c1, 31) * c2 ^ len;
    h1 += h2;
    h2 += h1;
    low = mixed(h1);
    high = mixed(h2);
    low += high;
    high += low;
    while (zeros < 62 && !(high >> (63 - zeros) & 1))
        zeros++;
    return (zeros + 1) << 26 | (uint32_t)(low & 0x3ffffff);
}

/* ---- reading images ---- */

enum { TRUNCATED = 1, FAMILY, VERSION, LG_K, WIDTH, STAGE, PREAMBLE, LG_ARR, COUNT, COUPON, REGISTER };
enum { EMPTY_FLAG = 4, COMPACT_FLAG = 8, ORDER_FLAG = 16 };

/* An image that is read. */
typedef struct reading {
    const uint8_t *bytes;
    size_t len;
    size_t end; /* of what was read */
    int is_compact;
    plain *x;
} reading;

static int header_fault(const uint8_t *bytes, size_t len)
{
    static const uint8_t preambles[] = {2, 3, 10};
    if (len < 8)
        return TRUNCATED;
    if (bytes[2] != 7)
        return FAMILY;
    if (bytes[1] != 1)
        return VERSION;
    if (bytes[3] < 4 || bytes[3] > 21)
        return LG_K;
    if ((bytes[7] >> 2 & 3) == 3)
        return WIDTH;
    if ((bytes[7] & 3) == 3)
        return STAGE;
    return bytes[0] == preambles[bytes[7] & 3] ? 0 : PREAMBLE;
}

/* Reads the numbers of buckets after `start`: those that are not 0 unless the image is compact. */
static int read_buckets(reading *r, size_t start, size_t buckets, uint32_t **numbers, size_t *n)
{
    size_t i;
    r->end = start + 4 * buckets;
    if (r->len < r->end)
        return TRUNCATED;
    *numbers = allocated(4 * buckets);
    *n = 0;
    for (i = 0; i < buckets; i++) {
        uint32_t number = (uint32_t)number_of(r->bytes + start + 4 * i, 4);
        if (r->is_compact || number != 0)
            (*numbers)[(*n)++] = number;
    }
    for (i = 0; i < *n; i++)
        if (value_of((*numbers)[i]) == 0)
            return COUPON;
    return 0;
}

static int read_coupons(reading *r, size_t start, size_t buckets, size_t count)
{
    plain *x = r->x;
    size_t n;
    int reason = read_buckets(r, start, buckets, &x->coupons, &n);
    if (reason != 0)
        return reason;
    x->n = distinct(x->coupons, n);
    if (x->n != n)
        return COUPON;
    return n == count ? 0 : COUNT;
}

static int read_list(reading *r)
{
    const uint8_t *bytes = r->bytes;
    int is_empty = (bytes[5] & EMPTY_FLAG) != 0;
    if (bytes[4] != LIST_SIZE)
        return LG_ARR;
    if (bytes[6] > 8 || is_empty != (bytes[6] == 0))
        return COUNT;
    r->x->size = LIST_SIZE;
    if (!is_empty)
        return read_coupons(r, 8, r->is_compact ? bytes[6] : 8, bytes[6]);
    r->end = 8;
    r->x->coupons = allocated(0);
    return 0;
}

static int read_set(reading *r)
{
    size_t count;
    if (r->bytes[4] < SET_SIZE || r->bytes[4] + 3u > r->x->lg_k)
        return LG_ARR;
    if (r->len < 12)
        return TRUNCATED;
    r->x->size = r->bytes[4];
    count = number_of(r->bytes + 8, 4);
    if (count >= count_of(r->x->size))
        return COUNT;
    return read_coupons(r, 12, r->is_compact ? count : count_of(r->x->size), count);
}

/* Reads registers of 6 or 8 bits, with their counts. */
static int read_wide(reading *r, size_t zeros, size_t exceptions)
{
    size_t k = count_of(r->x->lg_k), i;
    if (zeros > k || exceptions != 0)
        return COUNT;
    r->end = 40 + (r->x->width == 8 ? k : 3 * k / 4 + 1);
    if (r->len < r->end)
        return TRUNCATED;
    r->x->registers = allocated(k);
    for (i = 0; i < k; i++) {
        size_t bit = 6 * i;
        if (r->x->width == 8)
            r->x->registers[i] = r->bytes[40 + i];
        else
            r->x->registers[i] = (uint8_t)(number_of(r->bytes + 40 + bit / 8, 2) >> bit % 8 & 63);
        if (r->x->registers[i] > 63)
            return REGISTER;
    }
    return 0;
}

/* Takes nibbles and exceptions together. `values` has the value of the exception at each slot, or 0. */
static int take_nibbles(reading *r, const uint8_t *values)
{
    size_t k = count_of(r->x->lg_k), i;
    int least = r->bytes[6], nibble;
    for (i = 0; i < k; i++) {
        nibble = r->bytes[40 + i / 2] >> i % 2 * 4 & 15;
        if (values[i] == 0 && (nibble == 15 || least + nibble > 63))
            return REGISTER;
        if (values[i] != 0 && (nibble != 15 || values[i] < least + 15))
            return REGISTER;
        r->x->registers[i] = (uint8_t)(values[i] != 0 ? values[i] : least + nibble);
    }
    return 0;
}

/* Takes the exceptions by slots, none of which comes twice. */
static int take_exceptions(reading *r, const uint32_t *entries, size_t n, size_t exceptions)
{
    size_t k = count_of(r->x->lg_k), i;
    uint8_t *values = allocated(k);
    int reason = 0;
    for (i = 0; i < n && reason == 0; i++) {
        uint8_t *at = values + (slot_of(entries[i]) & (k - 1));
        reason = *at != 0 ? COUPON : 0;
        *at = value_of(entries[i]);
    }
    if (reason == 0 && n != exceptions)
        reason = COUNT;
    if (reason == 0)
        reason = take_nibbles(r, values);
    free(values);
    return reason;
}

static int read_nibbles(reading *r, size_t at_least, size_t exceptions)
{
    size_t k = count_of(r->x->lg_k), n = 0;
    uint32_t *entries = NULL;
    int reason;
    if (at_least > k || exceptions > k)
        return COUNT;
    if (!r->is_compact && exceptions != 0 && r->bytes[4] > 26)
        return LG_ARR;
    if (r->len < 40 + k / 2)
        return TRUNCATED;
    r->x->registers = allocated(k);
    reason = read_buckets(r, 40 + k / 2, r->is_compact || exceptions == 0 ? exceptions : count_of(r->bytes[4]), &entries,
                          &n);
    if (reason == 0)
        reason = take_exceptions(r, entries, n, exceptions);
    free(entries);
    return reason;
}

static int read_registers(reading *r)
{
    int i;
    size_t count, exceptions;
    if (r->len < 40)
        return TRUNCATED;
    for (i = 0; i < 3; i++)
        r->x->fields[i] = number_of(r->bytes + 8 + 8 * i, 8);
    r->x->out_of_order = (r->bytes[5] & ORDER_FLAG) != 0;
    count = number_of(r->bytes + 32, 4);
    exceptions = number_of(r->bytes + 36, 4);
    return r->x->width == 4 ? read_nibbles(r, count, exceptions) : read_wide(r, count, exceptions);
}

int plain_read(const uint8_t *bytes, size_t len, plain *x, size_t *size)
{
    reading r = {bytes, len, 0, 0, x};
    int reason = header_fault(bytes, len);
    memset(x, 0, sizeof *x);
    if (reason != 0)
        return reason;
    x->lg_k = bytes[3];
    x->width = 4 + 2 * (bytes[7] >> 2 & 3u);
    r.is_compact = (bytes[5] & COMPACT_FLAG) != 0;
    reason = (bytes[7] & 3) == 0 ? read_list(&r) : (bytes[7] & 3) == 1 ? read_set(&r) : read_registers(&r);
    if (reason != 0)
        plain_free(x);
    else
        *size = r.end;
    return reason;
}

/* ---- writing images ---- */

size_t plain_room(const plain *x)
{
    return x->size != 0 ? 12 + 4 * x->n : 40 + 5 * count_of(x->lg_k);
}

static uint8_t *put(uint8_t *out, uint64_t number, int bytes)
{
    while (bytes-- > 0) {
        *out++ = (uint8_t)number;
        number >>= 8;
    }
    return out;
}

static size_t write_coupons(const plain *x, uint8_t *out)
{
    int is_list = x->size == LIST_SIZE;
    uint8_t header[8] = {3, 1, 7, 0, 0, COMPACT_FLAG, 0, 1}, *at = out + 8;
    size_t i;
    header[0] = is_list ? 2 : 3;
    header[3] = (uint8_t)x->lg_k;
    header[4] = (uint8_t)x->size;
    header[5] = is_list && x->n == 0 ? COMPACT_FLAG | EMPTY_FLAG : COMPACT_FLAG;
    header[6] = (uint8_t)(is_list ? x->n : 0);
    header[7] = (uint8_t)(2 * x->width - 8 + !is_list);
    memcpy(out, header, 8);
    if (!is_list)
        at = put(at, x->n, 4);
    for (i = 0; i < x->n; i++)
        at = put(at, x->coupons[i], 4);
    return (size_t)(at - out);
}

/* Packs registers, what they are above the least at 4 bits. */
static uint8_t *pack(const plain *x, unsigned least, uint8_t *at)
{
    size_t k = count_of(x->lg_k), i;
    for (i = 0; x->width == 8 && i < k; i++)
        *at++ = x->registers[i];
    for (i = 0; x->width == 6 && i < k; i += 4)
        at = put(at,
                 x->registers[i] | (uint32_t)x->registers[i + 1] << 6 | (uint32_t)x->registers[i + 2] << 12 |
                     (uint32_t)x->registers[i + 3] << 18,
                 3);
    if (x->width == 6)
        *at++ = 0;
    for (i = 0; x->width == 4 && i < k; i++) {
        unsigned nibble = x->registers[i] - least < 15 ? x->registers[i] - least : 15;
        *at = (uint8_t)(i % 2 == 0 ? nibble : *at | nibble << 4);
        at += i % 2;
    }
    return at;
}

/* Writes the exceptions in ascending order. Returns the end. */
static uint8_t *write_exceptions(const plain *x, unsigned least, uint8_t *at)
{
    size_t i;
    unsigned value;
    for (value = least + 15; value <= 63; value++)
        for (i = 0; i < count_of(x->lg_k); i++)
            if (x->registers[i] == value)
                at = put(at, value << 26 | (uint32_t)i, 4);
    return at;
}

static size_t write_registers(const plain *x, uint8_t *out)
{
    uint8_t header[8] = {10, 1, 7, 0, 0, 0, 0, 0}, *at = out + 8, *after;
    unsigned least = x->width == 4 ? 63 : 0;
    size_t count = 0, i;
    for (i = 0; i < count_of(x->lg_k); i++)
        least = x->registers[i] < least ? x->registers[i] : least;
    for (i = 0; i < count_of(x->lg_k); i++)
        count += x->registers[i] == least;
    header[3] = (uint8_t)x->lg_k;
    header[5] = (uint8_t)((x->width == 4 ? COMPACT_FLAG : 0) | (x->out_of_order ? ORDER_FLAG : 0));
    header[6] = (uint8_t)least;
    header[7] = (uint8_t)(2 * x->width - 6);
    memcpy(out, header, 8);
    for (i = 0; i < 3; i++)
        at = put(at, x->fields[i], 8);
    at = put(at, count, 4);
    at = after = pack(x, least, at + 4);
    if (x->width == 4)
        at = write_exceptions(x, least, at);
    (void)put(out + 36, (uint64_t)(at - after) / 4, 4);
    return (size_t)(at - out);
}

size_t plain_write(const plain *x, uint8_t *out)
{
    return x->size != 0 ? write_coupons(x, out) : write_registers(x, out);
}

/* ---- states ---- */

static unsigned most_used(unsigned lg_k)
{
    return 1u << (lg_k < 7 ? 4 : lg_k - 3);
}

size_t plain_elements_for(unsigned lg_k, size_t n)
{
    int are_few = lg_k < 8 ? n <= 7 : 4 * n <= 3 * count_of(lg_k - 3);
    return are_few ? n : count_of(lg_k - 2) + most_used(lg_k);
}

static int is_table(unsigned lg_k, unsigned size)
{
    return size == LIST_SIZE || (size >= SET_SIZE && size + 3 <= lg_k);
}

static int read_state_coupons(const uint8_t *bytes, size_t elements, plain_state *s)
{
    plain *x = &s->sketch;
    size_t i;
    x->size = (unsigned)number_of(bytes + 12, 4) % 32;
    s->is_added = number_of(bytes + 16, 4) == 1;
    s->run = number_of(bytes + 20, 4);
    s->used = number_of(bytes + 24, 4);
    if (!is_table(x->lg_k, x->size) || s->run > s->used || s->used > most_used(x->lg_k) ||
        plain_elements_for(x->lg_k, s->used) > elements)
        return 0;
    if (!s->is_added && (x->size == LIST_SIZE ? s->used > 8 : s->used >= count_of(x->size)))
        return 0;
    x->coupons = allocated(4 * s->used);
    for (i = 0; i < s->used; i++)
        x->coupons[i] = (uint32_t)number_of(bytes + 40 + 4 * i, 4);
    x->n = distinct(x->coupons, s->used);
    if (s->is_added)
        settle(x, x->size);
    return 1;
}

static int read_state_registers(const uint8_t *bytes, size_t elements, plain_state *s)
{
    plain *x = &s->sketch;
    int i;
    if (elements < count_of(x->lg_k - 2))
        return 0;
    for (i = 0; i < 3; i++)
        x->fields[i] = number_of(bytes + 16 + 8 * i, 8);
    x->out_of_order = number_of(bytes + 12, 4) == 1;
    x->registers = allocated(count_of(x->lg_k));
    memcpy(x->registers, bytes + 40, count_of(x->lg_k));
    return 1;
}

int plain_read_state(const uint8_t *bytes, size_t room, plain_state *s)
{
    memset(s, 0, sizeof *s);
    if (room < 40)
        return 0;
    s->sketch.lg_k = (unsigned)number_of(bytes + 4, 4) % 32;
    s->sketch.width = 8;
    s->is_open = bytes[4] >> 5 & 1;
    s->widths = bytes[8] % 8;
    if (s->sketch.lg_k < 4 || s->sketch.lg_k > 21)
        return 0;
    if (number_of(bytes, 4) == 0x02484c41)
        return read_state_coupons(bytes, room / 4 - 10, s);
    if (number_of(bytes, 4) == 0x02484c42)
        return read_state_registers(bytes, room / 4 - 10, s);
    return 0;
}
