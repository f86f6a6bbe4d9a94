/* SPDX-License-Identifier: Apache-2.0 */
/* Calls over counters, whose allocations fail. */
#include "fuzz.h"

#include <stdlib.h>
#include <string.h>

static void *allocate(void *context, void *memory, size_t size)
{
    CHECK(context == &heap, "another context");
    if (size > 0)
        return fuzz_realloc(memory, size);
    fuzz_free(memory);
    return NULL;
}

/* ---- the plain model of a counter ---- */

static void be_empty(counted *m)
{
    plain_free(&m->x);
    m->is_open = m->bound == 0;
    m->x = plain_empty(m->is_open ? 4 : m->bound, 8);
    m->widths = 0;
}

static int join_plainly(counted *m, const plain *y, unsigned widths)
{
    int status, was_empty = plain_is_empty(&m->x);
    status = plain_join(&m->x, m->bound, y);
    if (status != 0)
        return status;
    m->widths = widths_after(m->widths, widths, was_empty, plain_is_empty(y));
    m->is_open = m->is_open && plain_is_empty(y);
    return 0;
}

static int join_image_plainly(counted *m, const held *h)
{
    return h->reason != 0 ? h->reason : join_plainly(m, &h->x, 1u << (h->x.width / 2 - 2));
}

static int bind_plainly(counted *m, unsigned lg_max_k)
{
    unsigned lg_k = m->is_open ? 0 : m->x.lg_k;
    if (lg_max_k != 0 && (!is_lg_k(lg_max_k) || lg_max_k < lg_k))
        return HLL_ARGUMENT;
    m->bound = lg_max_k;
    if (m->is_open && lg_max_k != 0)
        be_empty(m);
    return 0;
}

static counted copy_of(const counted *m)
{
    counted made = *m;
    made.x = plain_copy(&m->x);
    return made;
}

/* ---- calls ---- */

enum {
    INIT,
    ADD,
    ADD_MANY,
    ADD_COUPONS,
    JOIN,
    JOIN_COUNTER,
    BIND,
    COPY,
    SETTLE,
    RESERVE,
    SHRINK,
    RESET,
    FREE,
    READ
};

/* A call on a counter with its arguments. */
typedef struct call {
    world *w;
    int i, kind;
    const record *r;
    batch values;
    const uint32_t *coupons;
    size_t n_coupons;
    int have_values;
    size_t added;
} call;

/* Adds values one by one, and counts those that are added. */
static hll_status add_each(call *c, hll_counter *counter)
{
    size_t n = c->values.is_argument ? 1 : c->values.n, first = 0;
    hll_status status = HLL_OK;
    while (c->added < n && status == HLL_OK) {
        status = hll_counter_add(counter, c->values.values + first, c->values.ends[c->added] - first);
        first = c->values.ends[c->added];
        c->added += status == HLL_OK;
    }
    return status;
}

static hll_status change(call *c)
{
    hll_counter *counter = &c->w->counters[c->i].counter, *other = &c->w->counters[1 - c->i].counter;
    switch (c->kind) {
    case ADD:
        return add_each(c, counter);
    case ADD_MANY:
        return hll_counter_add_many(counter, c->values.values, c->values.len, c->values.ends, c->values.n);
    case ADD_COUPONS:
        return hll_counter_add_coupons(counter, c->coupons, c->n_coupons);
    case JOIN:
        return hll_counter_join(counter, c->w->images[c->r->c % IMAGES].at, c->w->images[c->r->c % IMAGES].len);
    case JOIN_COUNTER:
        return hll_counter_join_counter(counter, c->r->c & 1 ? counter : other);
    case BIND:
        return hll_counter_bind(counter, c->r->b % 32);
    case COPY:
        return hll_counter_copy(counter, c->r->c & 1 ? counter : other);
    case SETTLE:
        return hll_counter_settle(counter);
    default:
        return hll_counter_reserve(counter);
    }
}

/* Calls that return nothing. */
static hll_status keep(call *c)
{
    hll_counter *counter = &c->w->counters[c->i].counter;
    if (c->kind == SHRINK)
        hll_counter_shrink(counter);
    else if (c->kind == RESET)
        hll_counter_reset(counter);
    else
        hll_counter_free(counter);
    return HLL_OK;
}

static int called(call *c)
{
    return c->kind == SHRINK || c->kind == RESET || c->kind == FREE ? keep(c) : change(c);
}

/* Changes the model of a counter as the call changes it. Returns the status. */
static int change_plainly(call *c, counted *m)
{
    const counted *other = &c->w->counters[1 - c->i];
    int status = 0;
    switch (c->kind) {
    case ADD:
        plain_add(&m->x, c->values.coupons, c->added);
        return m->is_open && c->values.n > 0 ? HLL_ARGUMENT : 0;
    case ADD_MANY:
        status = m->is_open || c->values.is_argument ? HLL_ARGUMENT : 0;
        plain_add(&m->x, c->values.coupons, status != 0 ? 0 : c->values.n);
        return status;
    case ADD_COUPONS:
        status = m->is_open || !c->have_values ? HLL_ARGUMENT : 0;
        plain_add(&m->x, c->coupons, status != 0 ? 0 : c->n_coupons);
        return status;
    case JOIN:
        return join_image_plainly(m, &c->w->images[c->r->c % IMAGES]);
    case JOIN_COUNTER:
        return c->r->c & 1 ? 0 : join_plainly(m, &other->x, other->widths);
    case BIND:
        return bind_plainly(m, c->r->b % 32);
    case RESERVE:
        return m->is_open ? HLL_ARGUMENT : 0;
    default:
        return 0;
    }
}

/* Changes the model as calls do that replace the sketch. */
static void replace_plainly(call *c, counted *m)
{
    const counted *other = &c->w->counters[1 - c->i];
    hll_counter kept = m->counter;
    if (c->kind == COPY && !(c->r->c & 1)) {
        plain_free(&m->x);
        *m = copy_of(other);
        m->counter = kept;
    } else if (c->kind == RESET || c->kind == FREE) {
        be_empty(m);
    }
}

/* ---- reading ---- */

static void check_info(const counted *m)
{
    hll_state_summary said;
    CHECK(hll_counter_info(&m->counter, &said, sizeof said - 1) == HLL_ARGUMENT, "hll_counter_info of another version");
    CHECK(hll_counter_info(&m->counter, &said, sizeof said) == HLL_OK, "hll_counter_info");
    CHECK(said.lg_k == m->x.lg_k && said.is_open == m->is_open && said.is_empty == plain_is_empty(&m->x),
          "lg_k %d, open %d, empty %d; plainly %u, %d, %d", said.lg_k, said.is_open, said.is_empty, m->x.lg_k, m->is_open,
          plain_is_empty(&m->x));
    CHECK(said.width == (m->widths == 1 ? 4 : m->widths == 2 ? 6 : 8), "width %d of %u", said.width, m->widths);
    CHECK(said.stage != HLL_REGISTERS || m->x.size == 0, "stage %d", said.stage);
}

/* Returns the bytes of a counter and of its state, before a call that only reads them. */
static uint8_t *bytes_of(const counted *m)
{
    uint8_t *bytes = malloc(sizeof m->counter + m->counter.room);
    memcpy(bytes, &m->counter, sizeof m->counter);
    if (m->counter.room > 0)
        memcpy(bytes + sizeof m->counter, m->counter.at.state, m->counter.room);
    return bytes;
}

/* Checks that they are the same, and frees the copy. */
static void check_kept(const char *name, const counted *m, uint8_t *bytes)
{
    CHECK(memcmp(bytes, &m->counter, sizeof m->counter) == 0, "%s changed the counter", name);
    CHECK(m->counter.room == 0 || memcmp(bytes + sizeof m->counter, m->counter.at.state, m->counter.room) == 0,
          "%s changed the state of a counter", name);
    free(bytes);
}

/* Checks the image of a counter, in exactly the room that it needs, and that reading leaves the struct. */
static void check_image(const counted *m, unsigned width)
{
    plain x = plain_copy(&m->x);
    uint8_t *image, *out;
    size_t len, size = 0;
    uint8_t *kept = bytes_of(m);
    x.width = is_width(width) ? width : 8;
    plain_fill(&x);
    image = malloc(plain_room(&x));
    len = plain_write(&x, image);
    out = edge(EDGE_OUT, len);
    begin();
    if (ended("hll_counter_image", hll_counter_image(&m->counter, width, out, len, &size),
              is_width(width) ? HLL_OK : HLL_ARGUMENT))
        CHECK(size == len && memcmp(out, image, len) == 0, "hll_counter_image: %zu bytes, plainly %zu", size, len);
    check_edge(EDGE_OUT, len);
    check_kept("hll_counter_image", m, kept);
    free(image);
    plain_free(&x);
}

static void check_estimate(const counted *m)
{
    hll_estimation found;
    uint8_t *kept = bytes_of(m);
    begin();
    if (ended("hll_counter_estimate", hll_counter_estimate(&m->counter, &found), HLL_OK))
        check_estimation(&m->x, &found);
    check_kept("hll_counter_estimate", m, kept);
}

/* ---- records ---- */

static void start(counted *m, unsigned lg_k)
{
    if (m->is_begun)
        hll_counter_free(&m->counter);
    plain_free(&m->x);
    CHECK(hll_counter_init(&m->counter, 3, allocate, &heap) == HLL_ARGUMENT, "a counter of lg_k 3");
    CHECK(hll_counter_init(&m->counter, is_lg_k(lg_k) ? lg_k : 0, allocate, &heap) == HLL_OK, "hll_counter_init");
    m->bound = is_lg_k(lg_k) ? lg_k : 0;
    m->is_begun = 1;
    be_empty(m);
}

static void prepare(call *c)
{
    c->values = batch_of(c->r);
    c->have_values = coupons_of(c->r, &c->coupons, &c->n_coupons);
}

/* Changes a counter by a call: it is what the model is afterwards, or as it was. */
static void check_change(call *c)
{
    counted *m = &c->w->counters[c->i], old = copy_of(m);
    int wanted, status;
    prepare(c);
    begin();
    status = called(c);
    wanted = change_plainly(c, m);
    replace_plainly(c, m);
    CHECK(status == wanted || (heap.failed && status == HLL_MEMORY),
          "call %d on a counter: %d in place of %d", c->kind, status, wanted);
    if (status != HLL_OK) { /* as it was, with the values that were added before */
        hll_counter kept = m->counter;
        plain_free(&m->x);
        *m = old;
        m->counter = kept;
        plain_add(&m->x, c->values.coupons, c->added);
    } else {
        plain_free(&old.x);
    }
    free_batch(&c->values);
}

/* Calls over counters. */
void on_counter(world *w, const record *r)
{
    call c = {0};
    counted *m = &w->counters[r->a & 1];
    size_t failing = heap.fail_from;
    unsigned width = r->b % 16 == 15 ? r->c : 4u + 2u * (r->b % 3u);
    c.w = w;
    c.i = r->a & 1;
    c.r = r;
    c.kind = r->a >> 1 & 15;
    if (!w->counters[0].is_begun) {
        start(&w->counters[0], 13);
        start(&w->counters[1], 13);
    }
    if (c.kind == INIT)
        start(m, r->b % 32);
    else if (c.kind < READ)
        check_change(&c);
    else
        check_image(m, width);
    check_estimate(m);
    heap.fail_from = 0;
    check_info(m);
    check_image(m, 4 + 2 * (r->b % 3u));
    heap.fail_from = failing;
}
