/* SPDX-License-Identifier: Apache-2.0 */
/* States: each code, room that is asked for before anything is added, and random walks of all calls beside images that
 * the same values make. states [WALKS [small]]; small: no lg_k above 12. */
#include "test.h"

/* A state in exactly so many bytes, and the image of the same values. */
typedef struct pair {
    uint8_t *state;
    size_t room;
    bytes image;
    uint8_t lg_k;
} pair;

static pair new_pair(uint8_t lg_k)
{
    pair made = {malloc(HLL_STATE_NEW), HLL_STATE_NEW, with_room(HLL_IMAGE_MAX(lg_k)), lg_k};
    need(made.state != NULL && hll_state_new(lg_k, made.state, made.room) == HLL_OK &&
             hll_image_new(lg_k, 8, made.image.at, made.image.len, &made.image.len) == HLL_OK,
         "a new state");
    return made;
}

static void free_pair(pair *p)
{
    free(p->state);
    free(p->image.at);
}

/* Puts another image in the place of that of a pair. */
static void take_image(pair *p, bytes image)
{
    free(p->image.at);
    p->image = image;
}

/* What the state says. */
static hll_state_summary summary_of(const pair *p)
{
    hll_state_summary summary;
    need(hll_state_info(p->state, p->room, &summary, sizeof summary) == HLL_OK, "a state says what it is");
    return summary;
}

/* Moves the state to so many bytes, where no byte beyond those that it takes is known. */
static void move_to(pair *p, size_t room)
{
    uint8_t *moved = malloc(room);
    size_t size = summary_of(p).size;
    need(moved != NULL, "memory for a test");
    CHECK(size <= room && size <= p->room, "%zu of %zu, to %zu", size, p->room, room);
    memset(moved, 0xa5, room);
    memcpy(moved, p->state, size < room ? size : room);
    free(p->state);
    p->state = moved;
    p->room = room;
}

/* ---- reading ---- */

/* Whether the state gives the image at this width. */
static int gives(pair *p, uint8_t width)
{
    size_t room = HLL_IMAGE_MAX(p->lg_k), size = 0, wanted_size = 0;
    bytes found = with_room(room), wanted = with_room(room);
    hll_status status = hll_state_image(p->state, p->room, width, found.at, room, &size);
    int same = status == HLL_OK &&
               hll_image_convert(p->image.at, p->image.len, width, wanted.at, room, &wanted_size) == HLL_OK &&
               size == wanted_size && memcmp(found.at, wanted.at, size) == 0;
    free(found.at);
    free(wanted.at);
    return same;
}

/* Whether the state is estimated as the image is. */
static int estimates_alike(pair *p)
{
    hll_estimation found, wanted;
    memset(&found, 0, sizeof found);
    memset(&wanted, 0, sizeof wanted);
    return hll_state_estimate(p->state, p->room, &found) == HLL_OK && hll_estimate(p->image.at, p->image.len, &wanted) == HLL_OK &&
           memcmp(&found, &wanted, sizeof found) == 0;
}

/* ---- adding ---- */

/* Values of eight bytes with their ends: distinct ones from `from` on, or of few again and again. */
typedef struct values {
    uint8_t *at;
    size_t *ends;
    uint32_t *coupons;
    size_t n;
} values;

static values some_values(uint64_t from, uint64_t distinct, size_t n)
{
    values made = {malloc(8 * n + 1), malloc((n + 1) * sizeof(size_t)), malloc((n + 1) * sizeof(uint32_t)), n};
    size_t i, byte;
    need(made.at != NULL && made.ends != NULL && made.coupons != NULL, "memory for a test");
    for (i = 0; i < n; i++) {
        for (byte = 0; byte < 8; byte++)
            made.at[8 * i + byte] = (uint8_t)((from + i % distinct) >> (8 * byte));
        made.ends[i] = 8 * (i + 1);
        made.coupons[i] = hll_coupon(made.at + 8 * i, 8);
    }
    return made;
}

static void free_values(values *v)
{
    free(v->at);
    free(v->ends);
    free(v->coupons);
}

/* Adds values by one of the calls. */
static hll_status call_state(pair *p, const values *v, int by, size_t *size)
{
    switch (by) {
    case 0:
        return hll_state_add(p->state, p->room, size, v->at, 8 * v->n, v->ends, v->n);
    case 1:
        return hll_state_add_coupons(p->state, p->room, size, v->coupons, v->n);
    default:
        return hll_state_add_value(p->state, p->room, size, v->at, 8);
    }
}

/* Adds values to both, and to the state in more room where it asks for it, which it does once. */
static void add(pair *p, uint64_t from, uint64_t distinct, size_t n, int by)
{
    values v = some_values(from, distinct, by < 2 ? n : 1);
    bytes image = with_room(HLL_IMAGE_MAX(p->lg_k));
    size_t size = 77;
    hll_status status = call_state(p, &v, by, &size);
    if (status == HLL_BUFFER) {
        CHECK(p->room < size && size <= HLL_STATE_MOST(p->lg_k), "%zu, after %zu", size, p->room);
        if (from % 8 == 0)
            CHECK(gives(p, 8), "lg_k %d: what was not added is in the image", p->lg_k);
        move_to(p, size);
        size = 77;
        status = call_state(p, &v, by, &size);
    }
    CHECK(status == HLL_OK && size == 77, "lg_k %d, %zu values: %d", p->lg_k, v.n, status);
    need(hll_image_add(p->image.at, p->image.len, v.at, 8 * v.n, v.ends, v.n, image.at, image.len, &image.len) == HLL_OK,
         "hll_image_add for a test");
    take_image(p, image);
    free_values(&v);
}

/* ---- joins ---- */

/* Moves a pair to an lg_k, and its image to that of a union of the images. */
static void expect_union(pair *p, unsigned lg_max_k, bytes own, bytes other)
{
    bytes merged = with_room(HLL_IMAGE_MAX(lg_max_k));
    size_t failed;
    need(hll_image_merge(lg_max_k, 8, own.at, own.len, other.at, other.len, merged.at, merged.len, &merged.len,
                         &failed) == HLL_OK,
         "hll_image_merge for a test");
    take_image(p, merged);
    p->lg_k = head_of(merged.at, merged.len).lg_k;
}

static int is_empty(bytes image)
{
    hll_info info;
    need(hll_image_info(image.at, image.len, &info, sizeof info) == HLL_OK, "hll_image_info for a test");
    return info.is_empty;
}

/* An image, and the state of the same sketch. */
typedef struct joinable {
    bytes image;
    uint8_t *state;
    size_t room;
} joinable;

/* Joins an image, or the state of it where there is one. */
static hll_status call_join(pair *p, unsigned lg_max_k, joinable *other, size_t *size)
{
    if (other->state != NULL)
        return hll_state_join_state(lg_max_k, p->state, p->room, size, other->state, other->room);
    return hll_state_join(lg_max_k, p->state, p->room, size, other->image.at, other->image.len);
}

/* Joins, in more room where the state asks for it, which it does once; what is not joined changes nothing. */
static void join(pair *p, unsigned lg_max_k, joinable *other)
{
    uint8_t lg_k = head_of(other->image.at, other->image.len).lg_k, most = p->lg_k < lg_k ? lg_k : p->lg_k;
    int differ = lg_max_k == 0 && p->lg_k != lg_k && !is_empty(other->image), refused = differ && !is_empty(p->image);
    int rises = lg_max_k == 0 && p->lg_k < lg_k && is_empty(p->image);
    size_t size = 77;
    bytes before = with_room(p->room);
    hll_status status;
    memcpy(before.at, p->state, p->room);
    status = call_join(p, lg_max_k, other, &size);
    if (status == HLL_BUFFER) {
        CHECK(p->room < size && size <= HLL_STATE_MOST(most), "%zu, after %zu", size, p->room);
        CHECK(!refused && gives(p, 8), "lg_k %d: no room, and the sketch changed", p->lg_k);
        move_to(p, size);
        size = 77;
        status = call_join(p, lg_max_k, other, &size);
    }
    CHECK(size == 77, "lg_k %d and %d: %zu", p->lg_k, lg_k, size);
    CHECK(status == (refused ? HLL_OTHER_LG_K : HLL_OK), "lg_k %d and %d: %s", p->lg_k, lg_k, hll_reason(status));
    if (refused)
        CHECK(memcmp(before.at, p->state, before.len) == 0, "lg_k %d and %d: refused, and changed", p->lg_k, lg_k);
    else
        expect_union(p, differ || rises ? lg_k : p->lg_k, p->image, other->image);
    free(before.at);
}

/* What is joined: of any stage and width, empty ones too, with registers of another program's fields at times, and of a slot that
 * alone has a value. */
static joinable some_joinable(uint64_t *random, uint8_t most_lg_k)
{
    uint64_t word = random_word(random);
    uint8_t lg_k = (uint8_t)(4 + word % (most_lg_k - 3)), width = (uint8_t)(4 + 2 * ((word >> 8) % 3));
    size_t count = (word >> 16) % ((size_t)2 << ((word >> 32) % lg_k)), size = 0;
    joinable made = {image_of_values(lg_k, width, word >> 40, count), NULL, HLL_STATE_NEW};
    bytes cleared = with_room(HLL_IMAGE_MAX(lg_k));
    if ((word >> 12) % 4 == 0) {
        need(hll_image_clear_estimator_fields(made.image.at, made.image.len, cleared.at, cleared.len, &cleared.len) == HLL_OK,
             "hll_image_clear_estimator_fields for a test");
        free(made.image.at);
        made.image = cleared;
    } else {
        free(cleared.at);
    }
    if ((word >> 14) % 2 == 0)
        return made;
    made.room = HLL_STATE_MOST(lg_k);
    made.state = malloc(made.room);
    need(made.state != NULL && hll_state_new(lg_k, made.state, made.room) == HLL_OK &&
             hll_state_join(0, made.state, made.room, &size, made.image.at, made.image.len) == HLL_OK,
         "a state of an image");
    return made;
}

/* The widths that a state has seen: of empty sketches only where all are empty. */
static unsigned widths_after(unsigned widths, unsigned other, int is_first_empty, int is_second_empty)
{
    if (is_first_empty)
        return is_second_empty ? widths | other : other;
    return is_second_empty ? widths : widths | other;
}

/* Random joins to a state, with values between them. */
static void walk_of_joins(uint64_t *random, uint8_t most_lg_k)
{
    pair p = new_pair((uint8_t)(4 + random_word(random) % (most_lg_k - 3)));
    int steps = 1 + (int)(random_word(random) % 12), bounded = random_word(random) % 2 == 0, step;
    unsigned widths = 0;
    for (step = 0; step < steps; step++) {
        uint64_t word = random_word(random);
        joinable other = some_joinable(random, most_lg_k);
        hll_state_summary summary;
        uint8_t lg_k = p.lg_k, width = head_of(other.image.at, other.image.len).width;
        int joins;
        if (word % 4 == 0)
            add(&p, word >> 32, 1 + (word >> 8) % 50, (word >> 16) % 60, (int)(word % 3));
        joins = bounded || lg_k == head_of(other.image.at, other.image.len).lg_k || is_empty(p.image);
        widths = widths_after(widths, 1u << (width / 2 - 2), is_empty(p.image), is_empty(other.image) || !joins);
        join(&p, bounded ? lg_k + (unsigned)(word >> 20) % (22u - lg_k) : 0, &other);
        width = widths == 1 ? 4 : widths == 2 ? 6 : 8;
        summary = summary_of(&p);
        CHECK(summary.width == width, "width %d of %u", summary.width, widths);
        CHECK(summary.lg_k == p.lg_k, "lg_k %d: %d", p.lg_k, summary.lg_k);
        CHECK(summary.is_empty == is_empty(p.image) && !summary.is_open, "lg_k %d: empty %d", p.lg_k, summary.is_empty);
        if (other.state != NULL) {
            pair q = {other.state, other.room, other.image, head_of(other.image.at, other.image.len).lg_k};
            CHECK(gives(&q, 8), "lg_k %d: a joined state changed", q.lg_k);
        }
        free(other.state);
        free(other.image.at);
        CHECK(gives(&p, (uint8_t)(4 + 2 * (word % 3))), "lg_k %d, step %d", p.lg_k, step);
    }
    CHECK(gives(&p, 4) && gives(&p, 6) && gives(&p, 8) && estimates_alike(&p), "lg_k %d", p.lg_k);
    free_pair(&p);
}

/* ---- an open lg_k ---- */

/* No call adds a value while the lg_k is open, and none changes a byte then. */
static void refuses_values(pair *p)
{
    values v = some_values(1, 3, 3);
    bytes before = with_room(p->room);
    size_t size = 77;
    int by;
    memcpy(before.at, p->state, p->room);
    for (by = 0; by < 3; by++)
        CHECK(call_state(p, &v, by, &size) == HLL_ARGUMENT, "call %d added to a state whose lg_k is open", by);
    CHECK(hll_state_add(p->state, p->room, &size, NULL, 0, NULL, 0) == HLL_ARGUMENT,
          "no values were added to an open state");
    CHECK(gives(p, 8) && estimates_alike(p), "lg_k %d", p->lg_k);
    CHECK(size == 77 && memcmp(before.at, p->state, p->room) == 0, "an open state changed");
    free(before.at);
    free_values(&v);
}

/* Makes a state whose lg_k is open, which a bound decides, the new one of that lg_k. */
static void expect_decided(pair *p, unsigned lg_max_k)
{
    bytes image = with_room(HLL_IMAGE_MAX(lg_max_k));
    need(hll_image_new(lg_max_k, 8, image.at, image.len, &image.len) == HLL_OK, "an empty image");
    take_image(p, image);
    p->lg_k = (uint8_t)lg_max_k;
}

/* Gives an open state the room that a join under a bound needs. Without room that join changes no byte. */
static void make_room(pair *p, unsigned lg_max_k, joinable *other)
{
    bytes before = with_room(p->room);
    size_t size = 77;
    hll_status status;
    memcpy(before.at, p->state, p->room);
    status = call_join(p, lg_max_k, other, &size);
    if (status == HLL_BUFFER) {
        CHECK(p->room < size && size <= HLL_STATE_MOST(lg_max_k), "%zu, after %zu", size, p->room);
        CHECK(memcmp(before.at, p->state, before.len) == 0, "lg_max_k %u: no room, and an open state changed", lg_max_k);
        move_to(p, size);
    } else {
        memcpy(p->state, before.at, before.len);
    }
    free(before.at);
}

/* Random joins to a state whose lg_k is open, until one decides it and after that. */
static void walk_of_open_states(uint64_t *random, uint8_t most_lg_k)
{
    pair p = new_pair(4);
    int steps = 1 + (int)(random_word(random) % 8), is_open = 1, step;
    need(hll_state_new(0, p.state, p.room) == HLL_OK, "an open state");
    for (step = 0; step < steps; step++) {
        uint64_t word = random_word(random);
        joinable other = some_joinable(random, most_lg_k);
        unsigned least = is_open ? 4 : p.lg_k, lg_max_k = word % 4 == 0 ? least + (unsigned)(word >> 8) % (22 - least) : 0;
        if (is_open)
            refuses_values(&p);
        if (is_open && lg_max_k != 0) {
            make_room(&p, lg_max_k, &other);
            expect_decided(&p, lg_max_k);
        }
        is_open = is_open && lg_max_k == 0 && is_empty(other.image);
        join(&p, lg_max_k, &other);
        CHECK(summary_of(&p).is_open == is_open && summary_of(&p).lg_k == p.lg_k, "lg_k %d, step %d", p.lg_k, step);
        if ((word >> 16) % 2 == 0)
            move_to(&p, summary_of(&p).size + (word >> 24) % 5);
        CHECK(gives(&p, (uint8_t)(4 + 2 * ((word >> 32) % 3))) && estimates_alike(&p), "lg_k %d, step %d", p.lg_k, step);
        free(other.state);
        free(other.image.at);
    }
    free_pair(&p);
}

/* ---- walks ---- */

/* Random calls, with reads between them; so many values that some walks stay coupons. */
static void walk(uint64_t *random, uint8_t most_lg_k)
{
    pair p = new_pair((uint8_t)(4 + random_word(random) % (most_lg_k - 3)));
    uint64_t most = (uint64_t)1 << (1 + random_word(random) % (p.lg_k + 1));
    int steps = 1 + (int)(random_word(random) % 60), step;
    for (step = 0; step < steps; step++) {
        uint64_t word = random_word(random);
        add(&p, word >> 32, 1 + (word >> 8) % most, (word >> 16) % (2 * most), (int)(word % 3));
        if ((word >> 2) % 8 == 0)
            move_to(&p, summary_of(&p).size + (word >> 5) % 5);
        if ((word >> 24) % 16 == 0)
            CHECK(gives(&p, (uint8_t)(4 + 2 * (word % 3))), "lg_k %d, step %d", p.lg_k, step);
        if ((word >> 24) % 16 == 1)
            CHECK(estimates_alike(&p), "lg_k %d, step %d", p.lg_k, step);
    }
    CHECK(gives(&p, 4) && gives(&p, 6) && gives(&p, 8) && estimates_alike(&p), "lg_k %d", p.lg_k);
    CHECK(summary_of(&p).lg_k == p.lg_k, "lg_k %d: %d", p.lg_k, summary_of(&p).lg_k);
    CHECK((summary_of(&p).stage == HLL_REGISTERS) == (p.image.at[7] % 4 == HLL_REGISTERS), "lg_k %d", p.lg_k);
    free_pair(&p);
}

/* One value after another, and a read after each: each number of coupons at which a list, a set or registers begin. */
static void each_count(uint8_t lg_k)
{
    pair p = new_pair(lg_k);
    size_t count, most = ((size_t)3 << lg_k) / 32 + 20;
    for (count = 0; count < most; count++) {
        CHECK(gives(&p, 8) && estimates_alike(&p), "lg_k %d, %zu values", lg_k, count);
        add(&p, 1000 * (uint64_t)lg_k + count, 1, 1, 2);
    }
    free_pair(&p);
}

/* ---- codes ---- */

static void refusals(void)
{
    static const size_t descending[] = {2, 1}, past[] = {1, 4};
    uint8_t state[HLL_STATE_NEW], before[HLL_STATE_NEW], out[8];
    uint32_t no_coupon = 5;
    size_t size = 77;
    hll_estimation found;
    hll_state_summary summary;
    memset(state, 7, sizeof state);
    memcpy(before, state, sizeof state);
    CHECK(hll_state_new(3, state, sizeof state) == HLL_ARGUMENT && hll_state_new(22, state, sizeof state) == HLL_ARGUMENT, "lg_k");
    CHECK(hll_state_new(1, state, sizeof state) == HLL_ARGUMENT && hll_state_new(256, state, sizeof state) == HLL_ARGUMENT,
          "lg_k");
    CHECK(hll_state_new(12, state, HLL_STATE_NEW - 1) == HLL_BUFFER, "39 bytes");
    CHECK(hll_state_new(0, state, HLL_STATE_NEW - 1) == HLL_BUFFER, "39 bytes");
    CHECK(hll_state_add_value(state, sizeof state, &size, (const uint8_t *)"a", 1) == HLL_ARGUMENT, "no state");
    CHECK(hll_state_add_value(NULL, 0, &size, (const uint8_t *)"a", 1) == HLL_ARGUMENT, "no bytes");
    CHECK(hll_state_estimate(state, sizeof state, &found) == HLL_ARGUMENT, "no state");
    CHECK(hll_state_info(state, sizeof state, &summary, sizeof summary) == HLL_ARGUMENT, "no state");
    CHECK(hll_state_image(state, sizeof state, 8, out, sizeof out, &size) == HLL_ARGUMENT, "no state");
    CHECK(memcmp(before, state, sizeof state) == 0 && size == 77, "refused calls changed something");
    need(hll_state_new(12, state, sizeof state) == HLL_OK, "a new state");
    memcpy(before, state, sizeof state);
    CHECK(hll_state_info(state, 39, &summary, sizeof summary) == HLL_ARGUMENT, "39 bytes");
    CHECK(hll_state_info(state, sizeof state, &summary, sizeof summary - 1) == HLL_ARGUMENT,
          "another size of the structure");
    CHECK(hll_state_info(state, sizeof state, &summary, sizeof summary) == HLL_OK && summary.size == HLL_STATE_NEW &&
              summary.lg_k == 12 && summary.width == 8 && summary.stage == HLL_SET && summary.is_empty == 1 &&
              summary.is_open == 0,
          "a new state says something else");
    CHECK(hll_state_add(state, sizeof state, &size, (const uint8_t *)"abc", 3, descending, 2) == HLL_ARGUMENT, "ends");
    CHECK(hll_state_add(state, sizeof state, &size, (const uint8_t *)"abc", 3, past, 2) == HLL_ARGUMENT, "ends");
    CHECK(hll_state_add_coupons(state, sizeof state, &size, &no_coupon, 1) == HLL_ARGUMENT, "no coupon");
    CHECK(hll_state_image(state, sizeof state, 5, out, sizeof out, &size) == HLL_ARGUMENT, "width");
    CHECK(hll_state_image(state, sizeof state, 0, out, sizeof out, &size) == HLL_ARGUMENT, "width 0");
    CHECK(memcmp(before, state, sizeof state) == 0 && size == 77, "refused calls changed something");
    CHECK(hll_state_image(state, sizeof state, 8, out, 7, &size) == HLL_BUFFER && size == 8, "%zu", size);
    CHECK(hll_state_add(state, sizeof state, &size, NULL, 0, NULL, 0) == HLL_OK && size == 8, "no values");
}

/* Calls that fail may change bytes of a state, which then still means the same: here they sort its coupons. */
static void changed_bytes(void)
{
    static const uint32_t coupons[] = {0x0c0001f4, 0x08000007, 0x24000001}, more = 0x04000002;
    uint8_t state[HLL_STATE_NEW + 12], before[sizeof state], image[64], later[64];
    size_t size, later_size;
    need(hll_state_new(12, state, sizeof state) == HLL_OK &&
             hll_state_add_coupons(state, sizeof state, &size, coupons, 3) == HLL_OK,
         "a full state");
    memcpy(before, state, sizeof state);
    CHECK(hll_state_add_coupons(state, sizeof state, &size, &more, 1) == HLL_BUFFER && size > sizeof state, "%zu", size);
    CHECK(memcmp(before, state, sizeof state) != 0, "the coupons were sorted before");
    CHECK(hll_state_image(before, sizeof before, 8, image, sizeof image, &size) == HLL_OK &&
              hll_state_image(state, sizeof state, 8, later, sizeof later, &later_size) == HLL_OK && size == later_size &&
              memcmp(image, later, size) == 0,
          "the sketch changed");
}

/* States as they began before they had a version, and as a later version may write them: no call takes them for states. */
static void other_versions(void)
{
    static const uint8_t coupons[HLL_STATE_NEW] = {0x41, 0x4c, 0x48, 0x4c, 4, 0, 0, 0, 0, 0, 0, 0, 3},
                         registers[HLL_STATE_NEW] = {0x42, 0x4c, 0x48, 0x4c, 4},
                         later[HLL_STATE_NEW] = {0x43, 0x4c, 0x48, 3, 4};
    const uint8_t *const heads[] = {coupons, registers, later};
    uint8_t state[HLL_STATE_NEW + 16], before[sizeof state], own[HLL_STATE_MOST(4)], out[64];
    hll_state_summary summary;
    hll_estimation found;
    size_t size = 77, i;
    need(hll_state_new(4, own, sizeof own) == HLL_OK, "a new state");
    for (i = 0; i < 3; i++) {
        memset(state, 0, sizeof state);
        memcpy(state, heads[i], HLL_STATE_NEW);
        memcpy(before, state, sizeof state);
        CHECK(hll_state_check(state, sizeof state) == HLL_STATE, "the version, %zu", i);
        CHECK(hll_state_check(state, HLL_STATE_NEW - 1) == HLL_ARGUMENT, "too few bytes, %zu", i);
        CHECK(hll_state_info(state, sizeof state, &summary, sizeof summary) == HLL_ARGUMENT, "info, %zu", i);
        CHECK(hll_state_add_value(state, sizeof state, &size, (const uint8_t *)"a", 1) == HLL_ARGUMENT, "a value, %zu", i);
        CHECK(hll_state_image(state, sizeof state, 8, out, sizeof out, &size) == HLL_ARGUMENT, "an image, %zu", i);
        CHECK(hll_state_estimate(state, sizeof state, &found) == HLL_ARGUMENT, "an estimate, %zu", i);
        CHECK(hll_state_join_state(0, own, sizeof own, &size, state, sizeof state) == HLL_ARGUMENT, "the other state, %zu",
              i);
        CHECK(hll_state_join_state(0, state, sizeof state, &size, own, sizeof own) == HLL_ARGUMENT, "the state, %zu", i);
        CHECK(size == 77 && memcmp(before, state, sizeof state) == 0, "a state of another version changed, %zu", i);
        memcpy(state, own, 4); /* and with what this version begins with, it is one */
        CHECK(i > 0 || hll_state_info(state, sizeof state, &summary, sizeof summary) == HLL_OK, "this version, %zu", i);
        CHECK(i > 0 || hll_state_check(state, sizeof state) == HLL_OK, "it is a state, %zu", i);
    }
}

/* Bytes that no version wrote: a change of any of the first four bytes, and what this version's first number begins. */
static void no_states(void)
{
    uint8_t state[HLL_STATE_NEW];
    size_t i;
    for (i = 0; i < 4; i++) {
        need(hll_state_new(4, state, sizeof state) == HLL_OK && hll_state_check(state, sizeof state) == HLL_OK,
             "a new state");
        state[i] ^= 0x80;
        CHECK(hll_state_check(state, sizeof state) == (i == 3 ? HLL_STATE : HLL_ARGUMENT), "byte %zu", i);
    }
    need(hll_state_new(4, state, sizeof state) == HLL_OK, "a new state");
    state[4] = 3; /* an lg_k */
    CHECK(hll_state_check(state, sizeof state) == HLL_ARGUMENT, "this version, but no state");
    memset(state, 0, sizeof state);
    CHECK(hll_state_check(state, sizeof state) == HLL_ARGUMENT, "zeros");
    CHECK(hll_state_check(NULL, 0) == HLL_ARGUMENT, "no bytes");
}

/* Reads a state by the calls that write no byte of it. Returns HLL_OK if they say what the image says, HLL_ARGUMENT if they say
 * that the state isn't settled, and else -1. */
static int read_settled(const pair *p)
{
    bytes out = with_room(HLL_IMAGE_MAX(p->lg_k)), wanted = with_room(HLL_IMAGE_MAX(p->lg_k));
    size_t size = 77, wanted_size = 0;
    hll_estimation found, wanted_found;
    hll_status image = hll_state_settled_image(p->state, p->room, 6, out.at, out.len, &size), estimate;
    int same;
    memset(&found, 0, sizeof found);
    memset(&wanted_found, 0, sizeof wanted_found);
    estimate = hll_state_settled_estimate(p->state, p->room, &found);
    same = image == HLL_ARGUMENT
               ? size == 77
               : hll_image_convert(p->image.at, p->image.len, 6, wanted.at, wanted.len, &wanted_size) == HLL_OK &&
                     size == wanted_size && memcmp(out.at, wanted.at, size) == 0 &&
                     hll_estimate(p->image.at, p->image.len, &wanted_found) == HLL_OK &&
                     memcmp(&found, &wanted_found, sizeof found) == 0;
    free(out.at);
    free(wanted.at);
    return same && image == estimate ? (int)image : -1;
}

/* A state that was read is read again without a change, also by the calls that join it to another. Calls that write no byte of a
 * state read it only then. */
static void settled(void)
{
    static const size_t counts[] = {0, 1, 7, 8, 100, 300, 383, 384, 5000};
    size_t i, unsettled = 0;
    for (i = 0; i < sizeof counts / sizeof *counts; i++) {
        pair p = new_pair(12), other = new_pair(12);
        bytes before, out = with_room(HLL_IMAGE_MAX(12));
        size_t size = 0;
        int unread;
        if (counts[i] != 0)
            add(&p, 1, counts[i], 2 * counts[i], 1);
        unread = read_settled(&p);
        CHECK(unread == HLL_OK || (unread == HLL_ARGUMENT && 0 < counts[i] && counts[i] < 5000), "%zu values, not read",
              counts[i]);
        unsettled += unread == HLL_ARGUMENT;
        CHECK(estimates_alike(&p) && read_settled(&p) == HLL_OK, "%zu values", counts[i]);
        before = with_room(p.room);
        memcpy(before.at, p.state, p.room);
        move_to(&other, HLL_STATE_MOST(12));
        CHECK(hll_state_image(p.state, p.room, 6, out.at, out.len, &size) == HLL_OK && estimates_alike(&p) &&
                  hll_state_join_state(12, other.state, other.room, &size, p.state, p.room) == HLL_OK,
              "%zu values", counts[i]);
        CHECK(memcmp(before.at, p.state, p.room) == 0, "%zu values: reading changed a state that was read", counts[i]);
        CHECK(read_settled(&p) == HLL_OK, "%zu values, read", counts[i]);
        free(before.at);
        free(out.at);
        free_pair(&p);
        free_pair(&other);
    }
    CHECK(unsettled != 0, "each state was settled before it was read");
}

/* Joins that are refused, each of which changes nothing. */
static void refused_joins(void)
{
    pair p = new_pair(10), other = new_pair(11);
    bytes image = image_of_values(11, 8, 0, 30);
    uint8_t before[HLL_STATE_NEW + 8];
    size_t size = 77;
    add(&p, 1, 1, 1, 2);
    add(&other, 1, 1, 1, 2);
    move_to(&p, HLL_STATE_NEW + 8);
    memcpy(before, p.state, sizeof before);
    CHECK(hll_state_join(9, p.state, p.room, &size, image.at, image.len) == HLL_ARGUMENT, "lg_max_k below the state's");
    CHECK(hll_state_join(22, p.state, p.room, &size, image.at, image.len) == HLL_ARGUMENT, "lg_max_k 22");
    CHECK(hll_state_join(266, p.state, p.room, &size, image.at, image.len) == HLL_ARGUMENT, "lg_max_k 266");
    CHECK(hll_state_join(0, p.state, p.room, &size, image.at, image.len) == HLL_OTHER_LG_K, "another lg_k");
    CHECK(hll_state_join(0, p.state, p.room, &size, image.at, image.len - 1) == HLL_TRUNCATED, "a truncated image");
    CHECK(hll_state_join(12, p.state, p.room, &size, image.at, 7) == HLL_TRUNCATED, "a truncated image");
    CHECK(hll_state_join(12, p.state, 39, &size, image.at, image.len) == HLL_ARGUMENT, "39 bytes");
    CHECK(hll_state_join_state(0, p.state, p.room, &size, other.state, other.room) == HLL_OTHER_LG_K, "another lg_k");
    CHECK(hll_state_join_state(12, p.state, p.room, &size, other.state, 39) == HLL_ARGUMENT, "39 bytes");
    CHECK(hll_state_join_state(9, p.state, p.room, &size, other.state, other.room) == HLL_ARGUMENT, "lg_max_k below the state's");
    CHECK(size == 77 && memcmp(before, p.state, sizeof before) == 0, "refused joins changed something");
    CHECK(hll_state_join(12, p.state, p.room, &size, image.at, image.len) == HLL_BUFFER && p.room < size && gives(&p, 8), "%zu", size);
    CHECK(HLL_STATE_NEW + 4 * 31 <= size && size < HLL_STATE_MOST(10), "%zu bytes for 31 coupons", size);
    free(image.at);
    free_pair(&p);
    free_pair(&other);
}

/* Joins to bytes that no call made, and of them to a state. */
static void strange_joins(uint64_t *random, uint8_t *state, size_t room)
{
    joinable other = some_joinable(random, 10);
    pair p = new_pair(10);
    size_t size = 0;
    unsigned lg_max_k = random_word(random) % 2 == 0 ? 0 : 21;
    hll_status status = hll_state_join(lg_max_k, state, room, &size, other.image.at, other.image.len);
    CHECK(status == HLL_OK || status == HLL_ARGUMENT || status == HLL_OTHER_LG_K ||
              (status == HLL_BUFFER && room < size), "%zu bytes: %d", room, status);
    move_to(&p, HLL_STATE_MOST(10));
    status = hll_state_join_state(21, p.state, p.room, &size, state, room);
    CHECK(status == HLL_OK || status == HLL_ARGUMENT || status == HLL_REGISTER, "%zu bytes: %d", room, status);
    free(other.state);
    free(other.image.at);
    free_pair(&p);
}

/* Bytes that no call made, behind headers that are likely: each call answers with a code of its own, and no byte after the
 * room is written. */
static void strange_bytes(uint64_t *random)
{
    enum { AFTER = 64 };
    uint8_t lg_k = (uint8_t)(4 + random_word(random) % 6), value[8];
    size_t room = 40 + random_word(random) % HLL_STATE_MOST(lg_k), i, size = 0;
    bytes state = with_room(room + AFTER), out = with_room(HLL_IMAGE_MAX(lg_k));
    hll_estimation found;
    hll_status status;
    for (i = 0; i < room + AFTER; i++)
        state.at[i] = (uint8_t)random_word(random);
    memset(state.at + room, 0x5a, AFTER);
    need(hll_state_new(lg_k, state.at, room) == HLL_OK, "a new state");
    if (random_word(random) % 2 == 0)
        state.at[0] = 0x42;
    state.at[12] = random_word(random) % 2 == 0 ? 3 : (uint8_t)(5 + random_word(random) % 3);
    state.at[16] = random_word(random) % 4 != 0;
    state.at[24] = (uint8_t)random_word(random);
    state.at[20] = (uint8_t)(random_word(random) % (state.at[24] + 2u));
    for (i = 0; i < 300; i++) {
        memcpy(value, &i, sizeof value);
        status = hll_state_add_value(state.at, room, &size, value, 8);
        CHECK(status == HLL_OK || status == HLL_ARGUMENT || (status == HLL_BUFFER && room < size), "%zu bytes: %d", room, status);
        if (i % 64 != 0)
            continue;
        status = hll_state_estimate(state.at, room, &found);
        CHECK(status == HLL_OK || status == HLL_ARGUMENT || status == HLL_REGISTER, "%zu bytes: %d", room, status);
    }
    status = hll_state_image(state.at, room, 4, out.at, out.len, &size);
    CHECK(status == HLL_OK || status == HLL_ARGUMENT || status == HLL_REGISTER || status == HLL_BUFFER, "%zu bytes: %d", room, status);
    strange_joins(random, state.at, room);
    for (i = 0; i < AFTER; i++)
        CHECK(state.at[room + i] == 0x5a, "byte %zu after the room of %zu", i, room);
    free(state.at);
    free(out.at);
}

int main(int argc, char **argv)
{
    long walks = argc > 1 ? atol(argv[1]) : 1000, number;
    uint8_t most_lg_k = argc > 2 ? 12 : 15, lg_k;
    uint64_t random = 20261128;
    refusals();
    refused_joins();
    changed_bytes();
    other_versions();
    no_states();
    settled();
    for (lg_k = 4; lg_k <= 10; lg_k++)
        each_count(lg_k);
    for (number = 0; number < walks; number++)
        walk(&random, most_lg_k);
    for (number = 0; number < walks; number++)
        walk_of_joins(&random, most_lg_k - 1);
    for (number = 0; number < walks; number++)
        walk_of_open_states(&random, most_lg_k - 1);
    for (number = 0; number < walks; number++)
        strange_bytes(&random);
    return finish("states");
}
