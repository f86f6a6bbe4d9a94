/* SPDX-License-Identifier: Apache-2.0 */
/* Calls over states, whole and damaged: what they make of the bytes is read again by the plain model. */
#include "fuzz.h"

#include <stdlib.h>
#include <string.h>

enum { UNTOUCHED = 77 };

/* A state before a call: its bytes, and what the plain model reads. */
typedef struct before {
    uint8_t *bytes;
    size_t room;
    int is_state;
    plain_state s;
} before;

static before look(const world *w, int i)
{
    before made;
    made.room = w->rooms[i];
    made.bytes = malloc(made.room + 1);
    if (made.room > 0)
        memcpy(made.bytes, w->states[i], made.room);
    made.is_state = plain_read_state(made.bytes, made.room, &made.s);
    return made;
}

static void free_before(before *b)
{
    free(b->bytes);
    plain_free(&b->s.sketch);
}

/* Checks that no byte of a state has changed. */
static void check_unchanged(const char *call, const world *w, int i, const before *b)
{
    CHECK(b->room == 0 || memcmp(w->states[i], b->bytes, b->room) == 0, "%s changed the bytes of a state", call);
    check_edge(EDGE_STATE + i, b->room);
}

/* Checks that the bytes are a state of this sketch, with these widths. */
static void check_state(const char *call, const world *w, int i, const plain *x, unsigned widths, int is_open)
{
    plain_state found;
    CHECK(plain_read_state(w->states[i], w->rooms[i], &found), "%s left no state", call);
    CHECK(plain_is_same(&found.sketch, x), "%s: lg_k %u, size %u, %zu coupons in place of lg_k %u, size %u, %zu coupons",
          call, found.sketch.lg_k, found.sketch.size, found.sketch.n, x->lg_k, x->size, x->n);
    CHECK(found.widths == widths && found.is_open == is_open, "%s: widths %u, open %d", call, found.widths, found.is_open);
    check_edge(EDGE_STATE + i, w->rooms[i]);
    plain_free(&found.sketch);
}

/* Moves a state to other room, in which what comes after it is not known. */
static void move_state(world *w, int i, size_t room)
{
    size_t kept = room < w->rooms[i] ? room : w->rooms[i];
    uint8_t *copy = malloc(kept + 1);
    if (kept > 0)
        memcpy(copy, w->states[i], kept);
    w->states[i] = edge(EDGE_STATE + i, room);
    set_pattern(w->states[i], room);
    if (kept > 0)
        memcpy(w->states[i], copy, kept);
    w->rooms[i] = room;
    free(copy);
}

/* ---- room ---- */

static size_t bytes_for(const plain_state *s, size_t n)
{
    size_t more = s->sketch.registers != NULL && s->used == 0 ? (size_t)1 << (s->sketch.lg_k - 2)
                                                              : plain_elements_for(s->sketch.lg_k, s->used + n);
    return 40 + 4 * more;
}

/* Whether the header says registers: a sketch may have them while the state has coupons still. */
static int has_registers(const uint8_t *state)
{
    return state[0] == 0x42;
}

/* The bytes that are asked for if n coupons have no room in a state, header included: enough for half as many again and eight
 * more, but no more than the largest set needs, unless they become registers. */
static size_t asked(const uint8_t *state, const plain_state *s, size_t n)
{
    unsigned lg_k = s->sketch.lg_k;
    size_t used = s->used + n, half_more = used + used / 2 + 8, most = lg_k < 8 ? 7 : (size_t)3 << (lg_k - 5);
    if (has_registers(state))
        return bytes_for(s, 0);
    if (used > most)
        return 40 + 4 * plain_elements_for(lg_k, used);
    return 40 + 4 * (half_more < most ? half_more : most);
}

/* Whether other code put a coupon without a value into a state. Then a call that reads it may return any result. */
static int is_damaged(const plain *x)
{
    return x->size != 0 && !plain_is_legal(x);
}

/* ---- adding ---- */

/* Adds by one of the calls. Returns the coupons that it adds. */
static hll_status add_by(world *w, int i, const record *r, const batch *b, size_t *size, const uint32_t **coupons,
                         size_t *n)
{
    *coupons = b->coupons;
    *n = b->n;
    if (r->c % 3 == 0)
        return hll_state_add(w->states[i], w->rooms[i], size, b->values, b->len, b->ends, b->n);
    if (r->c % 3 == 1) {
        *n = 1;
        return hll_state_add_value(w->states[i], w->rooms[i], size, b->values, b->n == 0 ? 0 : b->ends[0]);
    }
    (void)coupons_of(r, coupons, n);
    return hll_state_add_coupons(w->states[i], w->rooms[i], size, *coupons, *n);
}

/* Adds to a state, and again in the room that it asks for. */
static void check_add(world *w, int i, const record *r)
{
    batch b = batch_of(r);
    before old = look(w, i);
    size_t size = UNTOUCHED, n;
    const uint32_t *coupons;
    plain_state now;
    hll_status status;
    int is_argument = r->c % 3 == 2 ? !coupons_of(r, &coupons, &n) : r->c % 3 == 0 && b.is_argument;
    is_argument = is_argument || !old.is_state || old.s.is_open;
    begin();
    status = add_by(w, i, r, &b, &size, &coupons, &n);
    if (status == HLL_BUFFER) {
        CHECK(!is_argument && bytes_for(&old.s, n) > old.room, "room for %zu coupons is there", n);
        check_state("adding without room", w, i, &old.s.sketch, old.s.widths, 0);
        (void)plain_read_state(w->states[i], w->rooms[i], &now);
        CHECK(size == asked(w->states[i], &now, n) && size > w->rooms[i] && size <= HLL_STATE_MOST(now.sketch.lg_k),
              "%zu bytes are asked for", size);
        plain_free(&now.sketch);
        move_state(w, i, size);
        size = UNTOUCHED;
        status = add_by(w, i, r, &b, &size, &coupons, &n);
    }
    CHECK(size == UNTOUCHED, "adding set *size to %zu", size);
    if (ended("calls that add to a state", status, is_argument ? HLL_ARGUMENT : HLL_OK)) {
        plain_add(&old.s.sketch, coupons, n);
        check_state("adding", w, i, &old.s.sketch, old.s.widths, 0);
    } else {
        check_unchanged("adding", w, i, &old);
    }
    free_before(&old);
    free_batch(&b);
}

/* ---- joining ---- */

unsigned widths_after(unsigned widths, unsigned other, int is_first_empty, int is_second_empty)
{
    if (is_first_empty)
        return is_second_empty ? widths | other : other;
    return is_second_empty ? widths : widths | other;
}

int plain_join(plain *x, unsigned lg_max_k, const plain *y)
{
    unsigned lg_k = x->lg_k;
    int is_empty = plain_is_empty(x);
    if (plain_is_empty(y)) {
        if (lg_max_k == 0 && is_empty && y->lg_k > lg_k) {
            plain_free(x);
            *x = plain_empty(y->lg_k, 8);
        }
        return 0;
    }
    if (lg_max_k == 0 && lg_k != y->lg_k) {
        if (!is_empty)
            return HLL_OTHER_LG_K;
        plain_free(x);
        *x = plain_empty(y->lg_k, 8);
    }
    plain_merge(x->lg_k, x, y);
    return 0;
}

/* What is joined to a state: an image, or the other state. */
typedef struct joinable {
    const held *image;   /* or NULL */
    const plain *sketch; /* or NULL if it can't be read */
    unsigned widths;
    int reason;
} joinable;

static hll_status join_by(world *w, int i, unsigned lg_max_k, const joinable *y, size_t *size)
{
    if (y->image != NULL)
        return hll_state_join(lg_max_k, w->states[i], w->rooms[i], size, y->image->at, y->image->len);
    return hll_state_join_state(lg_max_k, w->states[i], w->rooms[i], size, w->states[1 - i], w->rooms[1 - i]);
}

/* Checks what a state is after a join that returned HLL_OK or HLL_OTHER_LG_K. */
static void check_joined(world *w, int i, unsigned lg_max_k, const joinable *y, const before *old, hll_status status)
{
    plain x = plain_copy(&old->s.sketch);
    int is_open = old->s.is_open, unused = !has_registers(old->bytes) && old->s.used == 0, other;
    unsigned widths = old->s.widths;
    if (is_open && lg_max_k != 0) {
        plain_free(&x);
        x = plain_empty(lg_max_k, 8);
        is_open = widths = 0;
        unused = 1;
    }
    if (x.size == 0 && plain_is_empty(&x)) { /* damaged: nothing is said */
        plain_free(&x);
        return;
    }
    other = plain_join(&x, lg_max_k, y->sketch);
    CHECK(status == other, "a join returned %d in place of %d", status, other);
    if (other == 0) {
        widths = widths_after(widths, y->widths, unused, plain_is_empty(y->sketch));
        is_open = is_open && plain_is_empty(y->sketch);
        check_state("a join", w, i, &x, widths, is_open);
    } else {
        check_unchanged("a join of another lg_k", w, i, old);
    }
    plain_free(&x);
}

/* The reason for which a join fails before it begins. */
static int join_fault(const before *old, unsigned lg_max_k, const joinable *y)
{
    unsigned least;
    if (!old->is_state)
        return HLL_ARGUMENT;
    least = old->s.is_open ? 4 : old->s.sketch.lg_k;
    if (lg_max_k != 0 && (lg_max_k < least || lg_max_k > 21))
        return HLL_ARGUMENT;
    return y->reason;
}

static void join(world *w, int i, unsigned lg_max_k, const joinable *y)
{
    before old = look(w, i);
    int reason = join_fault(&old, lg_max_k, y), turns = 0;
    size_t size = UNTOUCHED;
    hll_status status;
    begin();
    while ((status = join_by(w, i, lg_max_k, y, &size)) == HLL_BUFFER) {
        CHECK(reason == 0 && ++turns == 1 && size > w->rooms[i] && size <= HLL_STATE_MOST(21), "%zu bytes, turn %d", size,
              turns);
        if (old.s.is_open && lg_max_k != 0)
            check_unchanged("a join without room", w, i, &old);
        else
            check_state("a join without room", w, i, &old.s.sketch, old.s.widths, old.s.is_open);
        move_state(w, i, size);
        size = UNTOUCHED;
    }
    CHECK(size == UNTOUCHED, "a join set *size to %zu", size);
    if (status == HLL_MEMORY && heap.failed)
        reason = HLL_MEMORY;
    if (status == HLL_REGISTER && y->image == NULL && reason == 0 && is_damaged(y->sketch))
        reason = HLL_REGISTER;
    CHECK(heap.live == heap.kept && heap.failed == (status == HLL_MEMORY), "a join kept memory, or failed for none");
    if (reason == 0)
        check_joined(w, i, lg_max_k, y, &old, status);
    else
        CHECK(status == reason, "a join returned %d in place of %d", status, reason);
    if (reason != 0 && turns == 0)
        check_unchanged("a join", w, i, &old);
    free_before(&old);
}

void join_image(world *w, int i, unsigned lg_max_k, const held *h)
{
    joinable y = {h, &h->x, h->reason != 0 ? 0 : 1u << (h->x.width / 2 - 2), h->reason};
    join(w, i, lg_max_k, &y);
}

static void check_join_state(world *w, int i, unsigned lg_max_k)
{
    before other = look(w, 1 - i);
    joinable y = {NULL, &other.s.sketch, other.s.widths, 0};
    if (!other.is_state)
        y.reason = HLL_ARGUMENT;
    else if (!plain_is_legal(&other.s.sketch))
        y.reason = is_damaged(&other.s.sketch) ? 0 : HLL_REGISTER;
    join(w, i, lg_max_k, &y);
    if (other.is_state)
        check_state("a join, of the other state", w, 1 - i, &other.s.sketch, other.s.widths, other.s.is_open);
    free_before(&other);
}

/* ---- reading ---- */

/* Whether the first number is that of a state, but for its kind and its version. */
static int is_of_another_version(const uint8_t *state)
{
    return state[1] == 0x4c && state[2] == 0x48 && state[3] != 2;
}

static void check_state_info(const world *w, int i)
{
    before b = look(w, i);
    hll_state_summary said;
    unsigned widths = b.s.widths;
    begin();
    if (ended("hll_state_info", hll_state_info(w->states[i], w->rooms[i], &said, sizeof said),
              b.is_state ? HLL_OK : HLL_ARGUMENT)) {
        int registers = has_registers(b.bytes);
        CHECK(said.size == bytes_for(&b.s, 0) && said.lg_k == b.s.sketch.lg_k && said.is_open == b.s.is_open, "size %d",
              (int)said.size);
        CHECK(said.width == (widths == 1 ? 4 : widths == 2 ? 6 : 8), "width %d", said.width);
        CHECK(said.stage == (registers ? HLL_REGISTERS : HLL_SET), "stage %d", said.stage);
        CHECK(registers || said.is_empty == (b.s.used == 0), "empty %d", said.is_empty);
    }
    check_unchanged("hll_state_info", w, i, &b);
    begin();
    (void)ended("hll_state_check", hll_state_check(w->states[i], w->rooms[i]),
                b.is_state                                                            ? HLL_OK
                : w->rooms[i] >= HLL_STATE_NEW && is_of_another_version(w->states[i]) ? HLL_STATE
                                                                                      : HLL_ARGUMENT);
    check_unchanged("hll_state_check", w, i, &b);
    free_before(&b);
}

/* A state that was read is settled: the calls that write no byte of it give the same image and estimate. */
static void check_settled(world *w, int i, unsigned width, const uint8_t *image, size_t len)
{
    before b = look(w, i);
    uint8_t *out = edge(EDGE_OUT, len);
    size_t size = UNTOUCHED;
    hll_estimation found;
    set_pattern(out, len);
    begin();
    if (ended("hll_state_settled_image", hll_state_settled_image(w->states[i], w->rooms[i], width, out, len, &size),
              HLL_OK))
        CHECK(size == len && memcmp(out, image, len) == 0, "%zu bytes, plainly %zu", size, len);
    check_edge(EDGE_OUT, len);
    begin();
    if (ended("hll_state_settled_estimate", hll_state_settled_estimate(w->states[i], w->rooms[i], &found), HLL_OK))
        check_estimation(&b.s.sketch, &found);
    check_unchanged("reading a settled state", w, i, &b);
    free_before(&b);
}

/* The image of a state, in exactly the room that it needs. */
static void check_state_image(world *w, int i, unsigned width)
{
    before b = look(w, i);
    uint8_t *image = NULL, *out;
    size_t len = 0, size = UNTOUCHED;
    hll_status status;
    int wanted = !b.is_state || !is_width(width) ? HLL_ARGUMENT : plain_is_legal(&b.s.sketch) ? HLL_OK : HLL_REGISTER;
    if (wanted == HLL_OK) {
        plain x = plain_copy(&b.s.sketch);
        x.width = width;
        plain_fill(&x);
        image = malloc(plain_room(&x));
        len = plain_write(&x, image);
        plain_free(&x);
    }
    out = edge(EDGE_OUT, len);
    set_pattern(out, len);
    begin();
    status = hll_state_image(w->states[i], w->rooms[i], width, out, len, &size);
    if (wanted == HLL_REGISTER && is_damaged(&b.s.sketch))
        CHECK(status == HLL_REGISTER || status == HLL_BUFFER || status == HLL_MEMORY, "hll_state_image: %d", status);
    else if (ended("hll_state_image", status, wanted)) {
        CHECK(size == len && memcmp(out, image, len) == 0, "%zu bytes, plainly %zu", size, len);
        check_settled(w, i, width, image, len);
    } else
        CHECK(is_pattern(out, len) && size == UNTOUCHED, "hll_state_image changed its output");
    check_edge(EDGE_OUT, len);
    if (b.is_state)
        check_state("hll_state_image", w, i, &b.s.sketch, b.s.widths, b.s.is_open);
    else
        check_unchanged("hll_state_image", w, i, &b);
    free(image);
    free_before(&b);
}

static void check_state_estimate(world *w, int i)
{
    before b = look(w, i);
    hll_estimation found;
    hll_status status;
    int wanted = !b.is_state ? HLL_ARGUMENT : plain_is_legal(&b.s.sketch) ? HLL_OK : HLL_REGISTER;
    begin();
    status = hll_state_estimate(w->states[i], w->rooms[i], &found);
    if (wanted == HLL_REGISTER && is_damaged(&b.s.sketch))
        CHECK(status == HLL_REGISTER || status == HLL_OK, "hll_state_estimate: %d", status);
    else if (ended("hll_state_estimate", status, wanted))
        check_estimation(&b.s.sketch, &found);
    if (b.is_state)
        check_state("hll_state_estimate", w, i, &b.s.sketch, b.s.widths, b.s.is_open);
    free_before(&b);
}

/* Each call rejects a copy of a state that lacks some of its last bytes, and reads nothing after it. */
static void check_cut(const before *b, size_t room, const held *h)
{
    uint8_t *copy = edge(EDGE_SPARE, room), out[8], other[HLL_STATE_NEW];
    uint32_t coupon = 1u << 26;
    size_t size, end = 0;
    hll_estimation found;
    hll_state_summary said;
    memcpy(copy, b->bytes, room);
    CHECK(hll_state_info(copy, room, &said, sizeof said) == HLL_ARGUMENT &&
              hll_state_estimate(copy, room, &found) == HLL_ARGUMENT &&
              hll_state_image(copy, room, 8, out, sizeof out, &size) == HLL_ARGUMENT &&
              hll_state_add(copy, room, &size, NULL, 0, &end, 1) == HLL_ARGUMENT &&
              hll_state_add_value(copy, room, &size, NULL, 0) == HLL_ARGUMENT &&
              hll_state_add_coupons(copy, room, &size, &coupon, 1) == HLL_ARGUMENT &&
              hll_state_join(0, copy, room, &size, h->at, h->len) == HLL_ARGUMENT &&
              hll_state_new(12, other, sizeof other) == HLL_OK &&
              hll_state_join_state(0, copy, room, &size, other, sizeof other) == HLL_ARGUMENT &&
              hll_state_join_state(0, other, sizeof other, &size, copy, room) == HLL_ARGUMENT,
          "%zu bytes of a state", room);
    CHECK(memcmp(copy, b->bytes, room) == 0, "%zu bytes of a state were changed", room);
}

/* A copy of the bytes that a state takes is the same state, and a copy of fewer is none. */
static void check_prefix(const world *w, int i, const held *h)
{
    before b = look(w, i);
    hll_state_summary said, copied;
    size_t size, cut;
    uint8_t *copy;
    if (b.is_state) {
        size = bytes_for(&b.s, 0);
        copy = edge(EDGE_SPARE, size);
        memcpy(copy, w->states[i], size);
        CHECK(hll_state_info(copy, size, &copied, sizeof copied) == HLL_OK &&
                  hll_state_info(w->states[i], w->rooms[i], &said, sizeof said) == HLL_OK && copied.size == said.size &&
                  copied.lg_k == said.lg_k && copied.stage == said.stage && copied.is_empty == said.is_empty,
              "a prefix of %zu bytes", size);
        for (cut = 1; cut <= 4; cut++)
            check_cut(&b, size - cut, h);
    }
    free_before(&b);
}

/* Moves a state to exactly the room that it takes and a few bytes more or fewer, to a part of its room, or to more. */
static void move_somewhere(world *w, int i, const record *r)
{
    before b = look(w, i);
    size_t room = w->rooms[i];
    if (b.is_state && r->c % 4 < 2)
        move_state(w, i, bytes_for(&b.s, 0) + r->b % 8u - 3);
    else if (room >= HLL_STATE_NEW)
        move_state(w, i, r->c % 4 == 2 ? room + r->b : room - (room - HLL_STATE_NEW) * r->b / 255);
    free_before(&b);
}

/* ---- making ---- */

static void check_state_new(world *w, int i, unsigned lg_k, size_t room)
{
    plain x;
    int wanted = lg_k != 0 && !is_lg_k(lg_k) ? HLL_ARGUMENT : room < 40 ? HLL_BUFFER : HLL_OK;
    w->states[i] = edge(EDGE_STATE + i, room);
    w->rooms[i] = room;
    set_pattern(w->states[i], room);
    begin();
    if (!ended("hll_state_new", hll_state_new(lg_k, w->states[i], room), wanted)) {
        CHECK(is_pattern(w->states[i], room), "hll_state_new changed the bytes");
        return;
    }
    x = plain_empty(lg_k == 0 ? 4 : lg_k, 8);
    check_state("hll_state_new", w, i, &x, 0, lg_k == 0);
    plain_free(&x);
}

/* Any bytes as a state; or some of a state changed. */
static void damage(world *w, int i, const record *r)
{
    size_t at;
    if (r->c % 2 == 0) {
        w->states[i] = edge(EDGE_STATE + i, r->len);
        w->rooms[i] = r->len;
        if (r->len > 0)
            memcpy(w->states[i], r->bytes, r->len);
        return;
    }
    for (at = 0; at + 2 < r->len && w->rooms[i] > 0; at += 3)
        w->states[i][(r->bytes[at] + 256u * (r->bytes[at + 1] % 4u)) % w->rooms[i]] ^= r->bytes[at + 2];
}

/* Calls over states. */
void on_state(world *w, const record *r)
{
    int i = r->a & 1;
    unsigned lg_max_k = r->b % 32;
    const held *h = &w->images[r->c % IMAGES];
    switch (r->a >> 1 & 15) {
    case 0:
        check_state_new(w, i, lg_max_k, r->c);
        break;
    case 1:
    case 2:
    case 3:
        check_add(w, i, r);
        break;
    case 4:
    case 5:
        join_image(w, i, r->c & 128 ? 0 : lg_max_k, h);
        break;
    case 6:
        check_join_state(w, i, r->c & 128 ? 0 : lg_max_k);
        break;
    case 7:
        damage(w, i, r);
        break;
    case 8:
        move_somewhere(w, i, r);
        break;
    case 9:
        check_state_estimate(w, i);
        break;
    case 10:
        check_prefix(w, i, h);
        break;
    default:
        check_state_image(w, i, r->b % 16 == 15 ? r->c : 4u + 2u * (r->b % 3u));
    }
    check_state_info(w, i);
}
