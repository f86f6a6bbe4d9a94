/* SPDX-License-Identifier: Apache-2.0 */
/* Calls over images and caller-owned registers, next to the plain model. */
#include "fuzz.h"

#include <stdlib.h>
#include <string.h>

enum { UNTOUCHED = 77 };

/* ---- calls that write an image ---- */

enum kind { CONVERT, FOLD, SET_FIELDS, CLEAR_FIELDS, ADD, ADD_COUPON, MERGE, UNION, UNIONV, NEW, OF_REGISTERS };

/* A call that writes an image: its kind and arguments. */
typedef struct call {
    enum kind kind;
    const held *left, *right;
    unsigned lg_k, width; /* or a slot and a value */
    uint32_t slot;
    const batch *values;
    const hll_bytes *parts; /* n images */
    size_t n;
    const uint8_t *joined; /* the same, concatenated */
    const size_t *ends;
    const uint8_t *registers;
    size_t count;
    size_t *failed;
} call;

static const char *const names[] = {"hll_image_convert",
                                    "hll_image_fold",
                                    "hll_image_set_estimator_fields",
                                    "hll_image_clear_estimator_fields",
                                    "hll_image_add",
                                    "hll_image_add_coupon",
                                    "hll_image_merge",
                                    "hll_images_union",
                                    "hll_images_unionv",
                                    "hll_image_new",
                                    "hll_registers_image"};

static hll_status make(const call *c, uint8_t *out, size_t room, size_t *size)
{
    const held *h = c->left;
    switch (c->kind) {
    case CONVERT:
        return hll_image_convert(h->at, h->len, c->width, out, room, size);
    case FOLD:
        return hll_image_fold(h->at, h->len, c->lg_k, out, room, size);
    case SET_FIELDS:
        return hll_image_set_estimator_fields(h->at, h->len, out, room, size);
    case CLEAR_FIELDS:
        return hll_image_clear_estimator_fields(h->at, h->len, out, room, size);
    case ADD:
        return hll_image_add(h->at, h->len, c->values->values, c->values->len, c->values->ends, c->values->n, out, room,
                             size);
    case ADD_COUPON:
        return hll_image_add_coupon(h->at, h->len, c->slot, c->width, out, room, size);
    case MERGE:
        return hll_image_merge(c->lg_k, c->width, h->at, h->len, c->right->at, c->right->len, out, room, size, c->failed);
    case UNION:
        return hll_images_union(c->lg_k, c->width, c->joined, c->ends[c->n], c->ends + 1, c->n, out, room, size, c->failed);
    case UNIONV:
        return hll_images_unionv(c->lg_k, c->width, c->parts, c->n, out, room, size, c->failed);
    case NEW:
        return hll_image_new(c->lg_k, c->width, out, room, size);
    default:
        return hll_registers_image(c->registers, c->count, c->width, out, room, size);
    }
}

/* Makes the call with so much room, and checks the status and the bytes. */
static void try_room(const call *c, int wanted, size_t room, const uint8_t *image, size_t len)
{
    uint8_t *out = edge(EDGE_OUT, room);
    size_t size = UNTOUCHED;
    hll_status status;
    set_pattern(out, room);
    begin();
    status = make(c, out, room, &size);
    (void)ended(names[c->kind], status, wanted);
    check_edge(EDGE_OUT, room);
    if (status == HLL_OK)
        CHECK(size == len && memcmp(out, image, len) == 0 && is_pattern(out + len, room - len),
              "%s: %zu bytes, plainly %zu", names[c->kind], size, len);
    else
        CHECK(is_pattern(out, room) && size == (status == HLL_BUFFER ? len : UNTOUCHED), "%s: changed, size %zu",
              names[c->kind], size);
}

/* Checks a call: its status, and the image of a sketch, which is freed; in exactly the room that it needs, and in less. */
static void written(const call *c, int reason, plain *x)
{
    uint8_t *image = NULL;
    size_t len = 0;
    if (reason != HLL_OK) {
        try_room(c, reason, 64, NULL, 0);
        return;
    }
    image = malloc(plain_room(x));
    len = plain_write(x, image);
    try_room(c, HLL_OK, len, image, len);
    try_room(c, HLL_BUFFER, len - 1 - len / 3, image, len);
    free(image);
    plain_free(x);
}

/* ---- one image from another ---- */

static void check_convert(const held *h, unsigned width)
{
    call c = {0};
    plain x = {0};
    c.kind = CONVERT;
    c.left = h;
    c.width = width;
    if (width != 0 && !is_width(width)) {
        written(&c, HLL_ARGUMENT, &x);
        return;
    }
    if (h->reason == 0) {
        x = plain_copy(&h->x);
        x.width = width != 0 ? width : x.width;
        plain_fill(&x);
    }
    written(&c, h->reason, &x);
}

static void check_fold(const held *h, unsigned lg_k)
{
    call c = {0};
    plain x = {0};
    int reason = is_lg_k(lg_k) ? h->reason : HLL_ARGUMENT;
    c.kind = FOLD;
    c.left = h;
    c.lg_k = lg_k;
    if (reason == 0 && lg_k > h->x.lg_k)
        reason = HLL_ARGUMENT;
    if (reason == 0) {
        x = plain_copy(&h->x);
        plain_fold(&x, lg_k);
        plain_fill(&x);
    }
    written(&c, reason, &x);
}

static void check_fields(const held *h, enum kind kind)
{
    call c = {0};
    plain x = {0};
    c.kind = kind;
    c.left = h;
    if (h->reason == 0) {
        x = plain_copy(&h->x);
        if (x.size == 0 && kind == CLEAR_FIELDS)
            plain_clear(&x);
        else
            plain_set_fields(&x);
    }
    written(&c, h->reason, &x);
}

static void check_add_coupon(const held *h, uint32_t slot, unsigned value)
{
    call c = {0};
    plain x = {0};
    uint32_t coupon = value << 26 | slot;
    int reason = slot >> 26 == 0 && 1 <= value && value <= 63 ? h->reason : HLL_ARGUMENT;
    c.kind = ADD_COUPON;
    c.left = h;
    c.slot = slot;
    c.width = value;
    if (reason == 0) {
        x = plain_copy(&h->x);
        plain_add(&x, &coupon, 1);
        plain_fill(&x);
    }
    written(&c, reason, &x);
}

static void check_new(unsigned lg_k, unsigned width)
{
    call c = {0};
    plain x = {0};
    int reason = is_lg_k(lg_k) && is_width(width) ? HLL_OK : HLL_ARGUMENT;
    c.kind = NEW;
    c.lg_k = lg_k;
    c.width = width;
    if (reason == HLL_OK)
        x = plain_empty(lg_k, width);
    written(&c, reason, &x);
}

/* ---- what an image says ---- */

static void count_registers(const plain *x, hll_histogram *histogram)
{
    size_t k = (size_t)1 << x->lg_k, i;
    uint8_t *registers = malloc(k);
    memset(histogram, 0, sizeof *histogram);
    plain_registers(x, x->lg_k, registers);
    for (i = 0; i < k; i++)
        histogram->counts[registers[i] & 63]++;
    free(registers);
}

/* The sum of 2^(63 - register) in two halves. */
static void add_units(const hll_histogram *histogram, uint64_t *high, uint64_t *low)
{
    int value;
    uint64_t before;
    *high = *low = 0;
    for (value = 0; value < 64; value++) {
        before = *low;
        *low += histogram->counts[value] << (63 - value);
        *high += (value == 0 ? 0 : histogram->counts[value] >> value >> 1) + (*low < before);
    }
    *high += histogram->counts[0] >> 1;
}

static void check_info(const held *h)
{
    hll_info info, wanted;
    hll_histogram histogram;
    memset(&info, 0xa5, sizeof info);
    begin();
    if (!ended("hll_image_info", hll_image_info(h->at, h->len, &info, sizeof info), h->reason)) {
        CHECK(is_pattern(&info, sizeof info), "hll_image_info changed *info");
        return;
    }
    memset(&wanted, 0, sizeof wanted);
    wanted.lg_k = (uint8_t)h->x.lg_k;
    wanted.width = (uint8_t)h->x.width;
    wanted.stage = h->x.size == 0 ? HLL_REGISTERS : h->x.size == 3 ? HLL_LIST : HLL_SET;
    wanted.is_empty = (uint8_t)plain_is_empty(&h->x);
    wanted.coupons = h->x.n;
    if (h->x.size == 0) {
        count_registers(&h->x, &histogram);
        wanted.zeros = histogram.counts[0];
        add_units(&histogram, &wanted.units_high, &wanted.units_low);
        wanted.hip = h->x.fields[0];
        wanted.kxq0 = h->x.fields[1];
        wanted.kxq1 = h->x.fields[2];
        wanted.out_of_order = (uint8_t)h->x.out_of_order;
    }
    CHECK(info.coupons == wanted.coupons && info.zeros == wanted.zeros && info.units_high == wanted.units_high &&
              info.units_low == wanted.units_low && info.hip == wanted.hip && info.kxq0 == wanted.kxq0 &&
              info.kxq1 == wanted.kxq1 && info.lg_k == wanted.lg_k && info.width == wanted.width &&
              info.stage == wanted.stage && info.is_empty == wanted.is_empty && info.out_of_order == wanted.out_of_order,
          "lg_k %d, width %d, stage %d, zeros %d", info.lg_k, info.width, info.stage, (int)info.zeros);
}

static void check_size(const held *h)
{
    size_t size = UNTOUCHED;
    hll_head head, first;
    begin();
    CHECK(hll_image_head(h->at, h->len, &head, sizeof head) == HLL_OK, "hll_image_head");
    begin();
    (void)ended("hll_image_check", hll_image_check(h->at, h->len), h->reason);
    begin();
    if (ended("hll_image_size", hll_image_size(h->at, h->len, &size), h->reason)) {
        CHECK(size == h->size, "%zu in place of %zu", size, h->size);
        CHECK(head.size == size && head.fault == HLL_OK, "%zu by the head", (size_t)head.size);
        CHECK(head.lg_k == h->x.lg_k && head.width == h->x.width, "the head");
    } else {
        CHECK(size == UNTOUCHED, "hll_image_size changed *size");
        CHECK(head.fault == HLL_OK || head.fault == h->reason, "%d by the head", head.fault);
        CHECK((head.fault == HLL_OK && h->len < head.size) == (h->reason == HLL_TRUNCATED && head.size > 0),
              "%zu by the head", (size_t)head.size);
    }
    begin();
    CHECK(hll_image_head(h->at, h->len < 40 ? h->len : 40, &first, sizeof first) == HLL_OK && first.size == head.size &&
              first.fault == head.fault,
          "%zu by the first 40 bytes", (size_t)first.size);
}

/* The HIP estimate, if the image keeps one. */
static void check_hip(const held *h)
{
    hll_estimation found;
    double kept = 0;
    int is_kept = h->reason == 0 && h->x.size == 0 && !h->x.out_of_order;
    if (is_kept)
        memcpy(&kept, &h->x.fields[0], 8);
    is_kept = kept > 0 && kept <= 1.7976931348623157e308;
    begin();
    if (ended("hll_hip_estimate", hll_hip_estimate(h->at, h->len, &found),
              h->reason != 0 ? h->reason
              : is_kept      ? 0
                             : HLL_ARGUMENT))
        CHECK(found.estimate >= kept && found.lower[0] <= found.estimate && found.estimate <= found.upper[0], "%g",
              found.estimate);
}

static void check_histogram(const held *h)
{
    hll_histogram found, wanted;
    hll_estimation estimation, other;
    set_pattern(&found, sizeof found);
    begin();
    if (!ended("hll_image_histogram", hll_image_histogram(h->at, h->len, &found), h->reason)) {
        CHECK(is_pattern(&found, sizeof found), "hll_image_histogram changed *histogram");
        return;
    }
    count_registers(&h->x, &wanted);
    CHECK(memcmp(&found, &wanted, sizeof found) == 0, "hll_image_histogram: another one");
    begin();
    if (h->x.size == 0 && ended("hll_estimate", hll_estimate(h->at, h->len, &estimation), 0)) {
        CHECK(hll_histogram_estimate(&found, &other) == HLL_OK && memcmp(&estimation, &other, sizeof other) == 0,
              "%g, by the histogram %g", estimation.estimate, other.estimate);
    }
}

static void check_estimate(const held *h)
{
    hll_estimation found;
    set_pattern(&found, sizeof found);
    begin();
    if (ended("hll_estimate", hll_estimate(h->at, h->len, &found), h->reason))
        check_estimation(&h->x, &found);
    else
        CHECK(is_pattern(&found, sizeof found), "hll_estimate changed *estimation");
}

/* Checks the status of a call that writes coupons, and the coupons: in the room that they need, and in less. */
static void check_coupons(const char *call, const batch *b, hll_status status, int wanted, const uint32_t *coupons)
{
    CHECK(status == wanted, "%s: %d in place of %d", call, status, wanted);
    if (status == HLL_OK)
        CHECK(b->n == 0 || memcmp(coupons, b->coupons, 4 * b->n) == 0, "%s: other coupons", call);
    else
        CHECK(is_pattern(coupons, 4 * b->n), "%s changed its output", call);
    check_edge(EDGE_OUT, 4 * b->n);
    set_pattern((void *)coupons, 4 * b->n);
}

/* The coupons of values, by each call that writes them. */
static void check_coupons_of(const batch *b)
{
    uint32_t *coupons = (uint32_t *)(void *)edge(EDGE_OUT, 4 * b->n);
    int32_t *offsets = (int32_t *)(void *)edge(EDGE_SPARE, 4 * (b->n + 1));
    int wanted = b->is_argument ? HLL_ARGUMENT : HLL_OK;
    size_t i;
    offsets[0] = 0;
    for (i = 0; i < b->n; i++)
        offsets[i + 1] = (int32_t)b->ends[i];
    set_pattern(coupons, 4 * b->n);
    check_coupons("hll_coupons", b, hll_coupons(b->values, b->len, b->ends, b->n, coupons, b->n), wanted, coupons);
    check_coupons("hll_coupons_ends32", b, hll_coupons_ends32(b->values, b->len, offsets, b->n + 1, coupons, b->n), wanted,
                  coupons);
    wanted = b->len % b->step != 0 ? HLL_ARGUMENT : HLL_OK;
    check_coupons("hll_coupons_fixed", b, hll_coupons_fixed(b->values, b->len, b->step, coupons, b->n), wanted, coupons);
    if (b->n > 0 && wanted == HLL_OK)
        check_coupons("hll_coupons_fixed", b, hll_coupons_fixed(b->values, b->len, b->step, coupons, b->n - 1), HLL_BUFFER,
                      coupons);
    CHECK(b->n == 0 || hll_coupon(b->values, b->ends[0]) == b->coupons[0], "hll_coupon: another coupon");
}

/* Values that are added to an image. */
void on_values(world *w, const record *r)
{
    held *h = &w->images[r->c % IMAGES];
    batch values = batch_of(r);
    call c = {0};
    plain x = {0};
    int reason = values.is_argument ? HLL_ARGUMENT : h->reason;
    check_coupons_of(&values);
    c.kind = ADD;
    c.left = h;
    c.values = &values;
    if (reason == 0) {
        x = plain_copy(&h->x);
        plain_add(&x, values.coupons, values.n);
        plain_fill(&x);
    }
    written(&c, reason, &x);
    free_batch(&values);
}

/* ---- unions ---- */

/* The union of images under a bound. Returns 0, or the reason of the first image that has one, and its number. */
static int plain_union(unsigned bound, unsigned width, held *const *images, size_t n, plain *x, size_t *failed)
{
    size_t i;
    *x = plain_empty(bound, 8);
    for (i = 0; i < n; i++) {
        if (images[i]->reason != 0) {
            *failed = i;
            plain_free(x);
            return images[i]->reason;
        }
        plain_merge(bound, x, &images[i]->x);
    }
    x->width = width;
    plain_fill(x);
    return 0;
}

/* The images of a union, which a record names. */
typedef struct chosen {
    held *images[2 * IMAGES];
    hll_bytes parts[2 * IMAGES];
    size_t *ends, n;
    uint8_t *joined;
} chosen;

static chosen choose(world *w, const record *r)
{
    chosen made;
    size_t i, len = 0;
    uint8_t *at;
    made.n = r->len < 2 * IMAGES ? r->len : 2 * IMAGES;
    for (i = 0; i < made.n; i++) {
        made.images[i] = &w->images[r->bytes[i] % IMAGES];
        made.parts[i].bytes = made.images[i]->at;
        made.parts[i].len = made.images[i]->len;
        len += made.images[i]->len;
    }
    at = made.joined = edge(EDGE_JOINED, len);
    made.ends = (size_t *)(void *)edge(EDGE_ENDS, (made.n + 1) * sizeof(size_t));
    made.ends[0] = 0;
    for (i = 0; i < made.n; i++) {
        if (made.parts[i].len > 0)
            memcpy(at, made.parts[i].bytes, made.parts[i].len);
        at += made.parts[i].len;
        made.ends[i + 1] = made.ends[i] + made.parts[i].len;
    }
    return made;
}

static void check_union(call *c, held *const *images, size_t n, int wants_failed)
{
    plain x = {0};
    size_t failed = UNTOUCHED, wanted = UNTOUCHED;
    int reason = HLL_ARGUMENT;
    if (is_lg_k(c->lg_k) && is_width(c->width))
        reason = plain_union(c->lg_k, c->width, images, n, &x, &wanted);
    c->failed = wants_failed ? &failed : NULL;
    written(c, reason, &x);
    CHECK(failed == (wants_failed && !heap.failed ? wanted : UNTOUCHED), "%s: image %zu failed", names[c->kind], failed);
}

static void check_agree(held *left, held *right)
{
    uint8_t same = UNTOUCHED, *first, *second;
    size_t failed = UNTOUCHED, k;
    unsigned lg_k = left->x.lg_k < right->x.lg_k ? left->x.lg_k : right->x.lg_k;
    int reason = left->reason != 0 ? left->reason : right->reason, agree;
    begin();
    if (!ended("hll_images_agree", hll_images_agree(left->at, left->len, right->at, right->len, &same, &failed), reason)) {
        CHECK(same == UNTOUCHED, "hll_images_agree changed *same");
        CHECK(heap.failed || failed == (left->reason == 0), "hll_images_agree: image %zu", failed);
        return;
    }
    k = (size_t)1 << lg_k;
    first = malloc(k);
    second = malloc(k);
    plain_registers(&left->x, lg_k, first);
    plain_registers(&right->x, lg_k, second);
    agree = memcmp(first, second, k) == 0;
    CHECK(same == agree && failed == UNTOUCHED, "hll_images_agree: %d in place of %d", same, agree);
    free(first);
    free(second);
}

/* Unions of the images that a record names, and comparisons of two. */
void on_union(world *w, const record *r)
{
    chosen made = choose(w, r);
    held *pair[2];
    call c = {0};
    c.lg_k = r->a % 32;
    c.width = r->b % 16 == 15 ? r->c : 4u + 2u * (r->b % 3u);
    c.parts = made.parts;
    c.n = made.n;
    c.joined = made.joined;
    c.ends = made.ends;
    c.kind = UNION;
    check_union(&c, made.images, made.n, r->c & 1);
    c.kind = UNIONV;
    check_union(&c, made.images, made.n, r->c & 2);
    if (made.n < 2)
        return;
    c.kind = MERGE;
    c.left = pair[0] = made.images[0];
    c.right = pair[1] = made.images[1];
    check_union(&c, pair, 2, r->c & 4);
    if (pair[0]->reason != 0 || pair[1]->reason != 0 || !is_heavy(r, pair[0]->x.lg_k) || !is_heavy(r, pair[1]->x.lg_k))
        check_agree(pair[0], pair[1]);
}

/* ---- one union by many calls ---- */

/* A union that was made in several ways: its image by the plain model. */
typedef struct whole {
    plain x;
    uint8_t *image;
    size_t len;
    unsigned bound, width;
    int is_canonical;
} whole;

static void check_image(const char *way, const whole *u, hll_status status, const uint8_t *image, size_t len)
{
    CHECK(status == HLL_OK, "%s: %d", way, status);
    CHECK(len == u->len && memcmp(image, u->image, len) == 0, "%s: another union, %zu bytes in place of %zu", way, len,
          u->len);
}

/* Merges images one after another. */
static void chain_of_merges(const whole *u, held *const *images, size_t n)
{
    uint8_t *left = malloc(HLL_IMAGE_MAX(u->bound)), *right = malloc(HLL_IMAGE_MAX(u->bound)), *other;
    size_t len, size = 0, i;
    hll_status status = hll_image_new(u->bound, 8, left, HLL_IMAGE_MAX(u->bound), &len);
    for (i = 0; i < n && status == HLL_OK; i++) {
        status = hll_image_merge(u->bound, 4 + 2 * (i % 3), left, len, images[i]->at, images[i]->len, right,
                                 HLL_IMAGE_MAX(u->bound), &size, NULL);
        other = left;
        left = right;
        right = other;
        len = size;
    }
    if (status == HLL_OK)
        status = hll_image_convert(left, len, u->width, right, HLL_IMAGE_MAX(u->bound), &size);
    if (u->is_canonical)
        check_image("a chain of merges", u, status, right, size);
    CHECK(status == HLL_OK, "a chain of merges: %d", status);
    free(left);
    free(right);
}

/* Joins images to a state, in more room where it asks for it. */
static void chain_of_joins(const whole *u, held *const *images, size_t n)
{
    size_t room = HLL_STATE_NEW, size = 0, len = 0, i;
    uint8_t *state = edge(EDGE_SPARE, room), *image = malloc(u->len);
    hll_status status = hll_state_new(u->bound, state, room);
    for (i = 0; i < n && status == HLL_OK; i++)
        while ((status = hll_state_join(u->bound, state, room, &size, images[i]->at, images[i]->len)) == HLL_BUFFER) {
            uint8_t *moved = edge(EDGE_SPARE, size);
            CHECK(room < size && size <= HLL_STATE_MOST(u->bound), "%zu bytes, after %zu", size, room);
            memmove(moved, state, room);
            state = moved;
            room = size;
        }
    if (status == HLL_OK)
        status = hll_state_image(state, room, u->width, image, u->len, &len);
    check_image("a state", u, status, image, len);
    free(image);
}

static void chain_of_counts(const whole *u, held *const *images, size_t n)
{
    hll_counter counter;
    uint8_t *image = malloc(u->len);
    size_t len = 0, i;
    hll_status status = hll_counter_init(&counter, u->bound, NULL, NULL);
    for (i = 0; i < n && status == HLL_OK; i++)
        status = hll_counter_join(&counter, images[i]->at, images[i]->len);
    if (status == HLL_OK)
        status = hll_counter_image(&counter, u->width, image, u->len, &len);
    check_image("a counter", u, status, image, len);
    hll_counter_free(&counter);
    free(image);
}

/* Merges images into caller-owned registers of the union's lg_k. */
static void chain_of_registers(const whole *u, held *const *images, size_t n)
{
    size_t count = (size_t)1 << u->x.lg_k, i;
    uint8_t *registers = edge(EDGE_SPARE, count), lg_k = 0, *wanted = malloc(count);
    memset(registers, 0, count);
    for (i = 0; i < n; i++)
        CHECK(hll_registers_merge(registers, count, images[i]->at, images[i]->len, &lg_k) == HLL_OK, "image %zu, lg_k %d",
              i, lg_k);
    plain_registers(&u->x, u->x.lg_k, wanted);
    CHECK(memcmp(registers, wanted, count) == 0, "registers of lg_k %u", u->x.lg_k);
    free(wanted);
}

/* Makes one union in many ways, of the images that a record names and that are images. */
void on_chain(world *w, const record *r)
{
    chosen made = choose(w, r);
    whole u = {0};
    size_t n = 0, i, failed;
    u.bound = 4 + r->a % 18u;
    u.width = 4 + 2 * (r->b % 3u);
    u.is_canonical = 1;
    for (i = 0; i < made.n; i++)
        if (made.images[i]->reason == 0) {
            u.is_canonical = u.is_canonical && plain_is_canonical(&made.images[i]->x);
            made.parts[n] = made.parts[i];
            made.images[n++] = made.images[i];
        }
    heap.fail_from = 0;
    begin();
    (void)plain_union(u.bound, u.width, made.images, n, &u.x, &failed);
    u.image = malloc(plain_room(&u.x));
    u.len = plain_write(&u.x, u.image);
    chain_of_merges(&u, made.images, n);
    chain_of_joins(&u, made.images, n);
    chain_of_counts(&u, made.images, n);
    if (!is_heavy(r, u.x.lg_k))
        chain_of_registers(&u, made.images, n);
    (void)ended("calls of a union", HLL_OK, HLL_OK);
    free(u.image);
    plain_free(&u.x);
}

/* ---- caller-owned registers ---- */

static plain of_registers(const uint8_t *registers, size_t count)
{
    plain x = plain_empty(0, 8);
    free(x.coupons);
    x.coupons = NULL;
    x.size = 0;
    while ((size_t)1 << x.lg_k < count)
        x.lg_k++;
    x.registers = malloc(count);
    memcpy(x.registers, registers, count);
    return x;
}

/* Checks that the registers are those of a sketch now, or are unchanged. */
static void check_registers(const char *call, world *w, int i, int is_changed, const plain *wanted, const uint8_t *before)
{
    CHECK(memcmp(w->registers[i], is_changed ? wanted->registers : before, w->counts[i]) == 0, "%s: other registers", call);
    check_edge(EDGE_REGISTERS + i, w->counts[i]);
}

/* Adds values or coupons to registers by one of the calls. */
static hll_status add_registers(world *w, int i, const record *r, const batch *b, int *wanted)
{
    const uint32_t *coupons;
    size_t n;
    *wanted = b->is_argument ? HLL_ARGUMENT : HLL_OK;
    if (r->c % 4 <= 1)
        return hll_registers_add(w->registers[i], w->counts[i], b->values, b->len, b->ends, b->n);
    if (r->c % 4 == 3) {
        *wanted = b->len % b->step == 0 ? HLL_OK : HLL_ARGUMENT;
        return hll_registers_add_fixed(w->registers[i], w->counts[i], b->values, b->len, b->step);
    }
    *wanted = coupons_of(r, &coupons, &n) ? HLL_OK : HLL_ARGUMENT;
    return hll_registers_add_coupons(w->registers[i], w->counts[i], coupons, n);
}

static void check_adding(world *w, int i, const record *r)
{
    batch b = batch_of(r);
    const uint32_t *coupons;
    size_t n;
    plain x = of_registers(w->registers[i], w->counts[i]);
    uint8_t *before = malloc(w->counts[i]);
    hll_status status;
    int wanted, is_added;
    memcpy(before, w->registers[i], w->counts[i]);
    begin();
    status = add_registers(w, i, r, &b, &wanted);
    is_added = ended("calls that add to registers", status, wanted);
    if (r->c % 4 == 2) {
        (void)coupons_of(r, &coupons, &n);
        plain_add(&x, coupons, n);
    } else {
        plain_add(&x, b.coupons, b.n);
    }
    check_registers("calls that add to registers", w, i, is_added, &x, before);
    plain_free(&x);
    free(before);
    free_batch(&b);
}

static void check_merging(world *w, int i, const held *h)
{
    plain x = of_registers(w->registers[i], w->counts[i]);
    uint8_t *before = malloc(w->counts[i]), *other = malloc(w->counts[i]), lg_k = UNTOUCHED;
    int wanted = h->reason, is_changed;
    size_t s;
    memcpy(before, w->registers[i], w->counts[i]);
    if (wanted == 0 && h->x.size == 0 && h->x.lg_k < x.lg_k && !plain_is_empty(&h->x))
        wanted = HLL_COARSER;
    begin();
    is_changed = ended("hll_registers_merge", hll_registers_merge(w->registers[i], w->counts[i], h->at, h->len, &lg_k),
                       wanted);
    if (is_changed && !(h->x.size == 0 && h->x.lg_k < x.lg_k)) {
        plain_registers(&h->x, x.lg_k, other);
        for (s = 0; s < w->counts[i]; s++)
            x.registers[s] = other[s] > x.registers[s] ? other[s] : x.registers[s];
    }
    CHECK(lg_k == (wanted == HLL_COARSER && !heap.failed ? h->x.lg_k : UNTOUCHED), "hll_registers_merge: lg_k %d", lg_k);
    check_registers("hll_registers_merge", w, i, is_changed, &x, before);
    plain_free(&x);
    free(before);
    free(other);
}

static void check_registers_merged(world *w, int i)
{
    plain x = of_registers(w->registers[i], w->counts[i]), y = of_registers(w->registers[1 - i], w->counts[1 - i]);
    uint8_t *before = malloc(w->counts[i]), *other = malloc(w->counts[i]), lg_k = UNTOUCHED;
    int is_coarser = y.lg_k < x.lg_k && !plain_is_empty(&y), is_changed;
    size_t s;
    memcpy(before, w->registers[i], w->counts[i]);
    begin();
    is_changed = ended(
        "hll_registers_merge_registers",
        hll_registers_merge_registers(w->registers[i], w->counts[i], w->registers[1 - i], w->counts[1 - i], &lg_k),
        !plain_is_legal(&y) ? HLL_REGISTER
        : is_coarser        ? HLL_COARSER
                            : HLL_OK);
    if (is_changed && y.lg_k >= x.lg_k) {
        plain_registers(&y, x.lg_k, other);
        for (s = 0; s < w->counts[i]; s++)
            x.registers[s] = other[s] > x.registers[s] ? other[s] : x.registers[s];
    }
    check_registers("hll_registers_merge_registers", w, i, is_changed, &x, before);
    plain_free(&x);
    plain_free(&y);
    free(before);
    free(other);
}

static void check_registers_read(world *w, int i, const record *r)
{
    plain x = of_registers(w->registers[i], w->counts[i]);
    call c = {0};
    hll_estimation estimation;
    hll_histogram found, wanted;
    int status = plain_is_legal(&x) ? HLL_OK : HLL_REGISTER;
    begin();
    if (ended("hll_registers_estimate", hll_registers_estimate(w->registers[i], w->counts[i], &estimation), status))
        check_estimation(&x, &estimation);
    begin();
    if (ended("hll_registers_histogram", hll_registers_histogram(w->registers[i], w->counts[i], &found), status)) {
        count_registers(&x, &wanted);
        CHECK(memcmp(&found, &wanted, sizeof found) == 0, "hll_registers_histogram: another one");
    }
    c.kind = OF_REGISTERS;
    c.registers = w->registers[i];
    c.count = w->counts[i];
    c.width = r->b % 16 == 15 ? r->c : 4u + 2u * (r->b % 3u);
    plain_set_fields(&x);
    x.width = c.width;
    status = is_width(c.width) ? status : HLL_ARGUMENT;
    written(&c, status, &x);
    if (status != HLL_OK)
        plain_free(&x);
}

static void check_registers_folded(world *w, int i, unsigned to)
{
    plain x = of_registers(w->registers[i], w->counts[i]);
    uint8_t *wanted = malloc(w->counts[i]);
    int is_folded, status = !is_lg_k(to) || to > x.lg_k ? HLL_ARGUMENT : plain_is_legal(&x) ? HLL_OK : HLL_REGISTER;
    memcpy(wanted, w->registers[i], w->counts[i]);
    begin();
    is_folded = ended("hll_registers_fold", hll_registers_fold(w->registers[i], w->counts[i], to), status);
    if (is_folded)
        plain_registers(&x, to, wanted);
    CHECK(memcmp(w->registers[i], wanted, w->counts[i]) == 0, "hll_registers_fold: other registers");
    check_edge(EDGE_REGISTERS + i, w->counts[i]);
    plain_free(&x);
    free(wanted);
}

/* Makes registers of an lg_k of 4 to 12, with the first bytes of the record. */
static void new_registers(world *w, int i, const record *r)
{
    w->counts[i] = (size_t)1 << (4 + r->b % 9);
    w->registers[i] = edge(EDGE_REGISTERS + i, w->counts[i]);
    memset(w->registers[i], 0, w->counts[i]);
    if (r->len > 0)
        memcpy(w->registers[i], r->bytes, r->len < w->counts[i] ? r->len : w->counts[i]);
}

/* Calls over caller-owned registers. */
void on_registers(world *w, const record *r)
{
    int i = r->a & 1;
    uint8_t lg_k;
    switch (r->a >> 1 & 7) {
    case 0:
        new_registers(w, i, r);
        break;
    case 1:
    case 2:
        check_adding(w, i, r);
        break;
    case 3:
        check_merging(w, i, &w->images[r->c % IMAGES]);
        break;
    case 4:
        check_registers_merged(w, i);
        break;
    case 5:
        check_registers_folded(w, i, r->b % 32);
        break;
    default:
        check_registers_read(w, i, r);
        CHECK(hll_registers_merge(w->registers[i], w->counts[i] - 1 - r->c % 5, NULL, 0, &lg_k) == HLL_ARGUMENT,
              "registers of a count");
    }
}

/* ---- each image ---- */

/* Merges an image into each of what can be merged into: a union, registers and a state. */
static void check_merges(world *w, held *h, const record *r)
{
    call c = {0};
    hll_bytes part;
    part.bytes = h->at;
    part.len = h->len;
    c.kind = UNIONV;
    c.lg_k = 4 + r->c % 18u;
    c.width = 4 + 2 * (r->a % 3u);
    c.parts = &part;
    c.n = 1;
    check_union(&c, &h, 1, 1);
    check_merging(w, r->b & 1, h);
    join_image(w, r->c & 1, r->c & 2 ? 0 : 12, h);
}

/* Calls over one image. */
void on_image(world *w, const record *r)
{
    held *h;
    keep_image(w, r->bytes, r->len);
    h = &w->images[(w->next + IMAGES - 1) % IMAGES];
    check_size(h);
    check_info(h);
    check_estimate(h);
    check_hip(h);
    check_convert(h, r->a % 16 == 15 ? r->b : 2u * (r->a % 5u));
    check_fold(h, r->b % 32);
    check_fields(h, SET_FIELDS);
    check_fields(h, CLEAR_FIELDS);
    check_add_coupon(h, (uint32_t)r->a << 18 | (uint32_t)r->b << 8 | r->c, r->c % 65);
    check_new(r->a % 32, r->b % 16);
    CHECK(hll_version() == HLL_VERSION_NUMBER, "the version is %u", hll_version());
    check_merges(w, h, r);
    if (h->reason != 0 || !is_heavy(r, h->x.lg_k))
        check_histogram(h);
}
