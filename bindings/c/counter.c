/* SPDX-License-Identifier: Apache-2.0 */
/*
 * Counters: a state, and the memory that it is in. Plain C over the proved calls on states, not proved.
 *
 * Nothing here knows what a state holds. A state begins in the struct. If a proved call asks for more bytes, the state is copied to
 * as many, and the call is made again: then it has enough (the laws `moved`, `asked` and `asked_to_join` of hll_state). A proved call
 * that fails leaves the sketch as it was, so a call that fails here does, too.
 */
#include "hll_state.h"

#include <stdlib.h>
#include <string.h>

/* The crate for Rust declares the struct, too, and with this size. */
typedef char size_of_a_counter[sizeof(void *) != 8 || sizeof(hll_counter) == 120 ? 1 : -1];

/* A copy for a reader is on the stack if it is at most this large. */
#define ON_STACK 2048

static size_t min(size_t a, size_t b)
{
    return a < b ? a : b;
}

/* ---- memory ---- */

static void *by_malloc(void *context, void *memory, size_t size)
{
    (void)context;
    if (size > 0)
        return realloc(memory, size);
    free(memory);
    return NULL;
}

/* Calls the allocator of a counter. With HLL_MALLOC_ONLY that of every counter is malloc's, and no function is called by a
 * pointer, for which WebAssembly needs a table of functions (bindings/javascript). */
#ifdef HLL_MALLOC_ONLY
#define ALLOCATOR(function) NULL
#define CALL(counter, memory, size) ((void)(counter), by_malloc(NULL, memory, size))
#else
#define ALLOCATOR(function) (function)
#define CALL(counter, memory, size) (counter)->allocator((counter)->context, memory, size)
#endif

static uint8_t *state_of(const hll_counter *counter)
{
    return counter->room != 0 ? counter->at.state : (uint8_t *)counter->at.first;
}

static size_t room_of(const hll_counter *counter)
{
    return counter->room != 0 ? counter->room : sizeof counter->at.first;
}

static hll_state_summary summary_of(const hll_counter *counter)
{
    hll_state_summary said = {0};
    (void)hll_state_info(state_of(counter), room_of(counter), &said, sizeof said);
    return said;
}

static void release(hll_counter *counter)
{
    if (counter->room != 0)
        (void)CALL(counter, counter->at.state, 0);
    counter->room = 0;
}

/* Copies the state to more memory. */
static hll_status grow(hll_counter *counter, size_t room)
{
    uint8_t *state = CALL(counter, NULL, room);
    if (state == NULL)
        return HLL_MEMORY;
    memcpy(state, state_of(counter), room_of(counter));
    release(counter);
    counter->at.state = state;
    counter->room = (uint32_t)room;
    return HLL_OK;
}

/* Frees the memory after the first `size` bytes, in which the state is. A small state moves into the struct. If the allocator returns
 * NULL, nothing changes. */
static void shrink(hll_counter *counter, size_t size)
{
    uint8_t *state = counter->at.state;
    if (size >= counter->room)
        return;
    if (size <= sizeof counter->at.first) {
        memcpy(counter->at.first, state, size);
        counter->room = 0;
        (void)CALL(counter, state, 0);
    } else if ((state = CALL(counter, state, size)) != NULL) {
        counter->at.state = state;
        counter->room = (uint32_t)size;
    }
}

/* Grows if a call has asked for memory. Returns whether the call is to be made again. */
static int has_grown(hll_counter *counter, hll_status *status, size_t room)
{
    if (*status != HLL_BUFFER)
        return 0;
    *status = grow(counter, room);
    return *status == HLL_OK;
}

/* Frees what registers don't need, after coupons have become registers, or registers were folded. */
static void trim(hll_counter *counter)
{
    hll_state_summary said;
    int has_registers;
    if (counter->is_reserved)
        return;
    said = summary_of(counter);
    has_registers = said.stage == HLL_REGISTERS;
    counter->has_spare_room = !has_registers && counter->room >= HLL_STATE_MOST(said.lg_k);
    if (has_registers)
        shrink(counter, (size_t)said.size);
}

/* Trims after a call for which the state grew. If it grew to the room of registers, sorts its coupons: then they become registers,
 * unless some of them were repeated. */
static void trim_grown(hll_counter *counter)
{
    hll_estimation unwanted;
    trim(counter);
    if (counter->has_spare_room) {
        (void)hll_state_estimate(state_of(counter), room_of(counter), &unwanted);
        trim(counter);
    }
}

/* ---- adding and joining ---- */

hll_status hll_counter_add(hll_counter *counter, const uint8_t *value, size_t len)
{
    size_t room;
    hll_status status = hll_state_add_value(state_of(counter), room_of(counter), &room, value, len);
    if (has_grown(counter, &status, room)) {
        status = hll_state_add_value(state_of(counter), room_of(counter), &room, value, len);
        trim_grown(counter);
    } else if (counter->has_spare_room)
        trim(counter);
    return status;
}

hll_status hll_counter_add_many(hll_counter *counter, const uint8_t *values, size_t values_len, const size_t *ends,
                                size_t n)
{
    size_t room;
    hll_status status = hll_state_add(state_of(counter), room_of(counter), &room, values, values_len, ends, n);
    if (has_grown(counter, &status, room)) {
        status = hll_state_add(state_of(counter), room_of(counter), &room, values, values_len, ends, n);
        trim_grown(counter);
    } else if (counter->has_spare_room)
        trim(counter);
    return status;
}

hll_status hll_counter_add_coupons(hll_counter *counter, const uint32_t *coupons, size_t n)
{
    size_t room;
    hll_status status = hll_state_add_coupons(state_of(counter), room_of(counter), &room, coupons, n);
    if (has_grown(counter, &status, room)) {
        status = hll_state_add_coupons(state_of(counter), room_of(counter), &room, coupons, n);
        trim_grown(counter);
    } else if (counter->has_spare_room)
        trim(counter);
    return status;
}

/* Makes room for a large image where the state is still in the struct, so that few images are read twice. How much is a guess by the
 * head of the image: the call that merges it decides. */
static hll_status make_room(hll_counter *counter, const uint8_t *image, size_t len)
{
    unsigned most = counter->lg_max_k == 0 ? 21 : counter->lg_max_k;
    size_t room;
    hll_head head;
    if (counter->room != 0 || len <= sizeof counter->at.first)
        return HLL_OK;
    (void)hll_image_head(image, len, &head, sizeof head);
    if (head.fault != HLL_OK || len < head.size)
        return HLL_OK;
    room = (size_t)summary_of(counter).size;
    room += head.stage == HLL_REGISTERS ? (size_t)1 << min(head.lg_k, most) : 4 * (size_t)head.count;
    return room <= sizeof counter->at.first ? HLL_OK : grow(counter, min(room, HLL_STATE_MOST(most)));
}

hll_status hll_counter_join(hll_counter *counter, const uint8_t *image, size_t len)
{
    size_t room;
    hll_status status = make_room(counter, image, len);
    if (status != HLL_OK)
        return status;
    status = hll_state_join(counter->lg_max_k, state_of(counter), room_of(counter), &room, image, len);
    if (has_grown(counter, &status, room)) {
        status = hll_state_join(counter->lg_max_k, state_of(counter), room_of(counter), &room, image, len);
        trim_grown(counter);
    } else
        trim(counter);
    return status;
}

/* Joins another state, which changes if it has coupons that are not sorted. */
static hll_status join_state(hll_counter *counter, uint8_t *other, size_t other_room)
{
    size_t room;
    hll_status status = hll_state_join_state(counter->lg_max_k, state_of(counter), room_of(counter), &room, other, other_room);
    if (has_grown(counter, &status, room)) {
        status = hll_state_join_state(counter->lg_max_k, state_of(counter), room_of(counter), &room, other, other_room);
        trim_grown(counter);
    } else
        trim(counter);
    return status;
}

/* ---- reading ---- */

/* A copy of a state, which calls may sort. */
typedef struct copy {
    uint8_t *state;
    size_t room;
    uint8_t on_stack[ON_STACK];
} copy;

static hll_status make_copy(const hll_counter *counter, copy *made)
{
    size_t size = room_of(counter);
    made->state = made->on_stack;
    made->room = ON_STACK;
    if (size > ON_STACK) {
        size = (size_t)summary_of(counter).size;
        made->room = counter->room; /* sorting is faster with free room */
        made->state = CALL(counter, NULL, made->room);
        if (made->state == NULL)
            return HLL_MEMORY;
    }
    memcpy(made->state, state_of(counter), size);
    return HLL_OK;
}

static void free_copy(const hll_counter *counter, copy *made)
{
    if (made->state != NULL && made->state != made->on_stack)
        (void)CALL(counter, made->state, 0);
}

hll_status hll_counter_image(const hll_counter *counter, unsigned width, uint8_t *out, size_t room, size_t *size)
{
    copy made;
    hll_status status = hll_state_settled_image(state_of(counter), room_of(counter), width, out, room, size);
    if (status != HLL_ARGUMENT)
        return status;
    status = make_copy(counter, &made);
    if (status == HLL_OK)
        status = hll_state_image(made.state, made.room, width, out, room, size);
    free_copy(counter, &made);
    return status;
}

hll_status hll_counter_estimate(const hll_counter *counter, hll_estimation *estimation)
{
    copy made;
    hll_status status = hll_state_settled_estimate(state_of(counter), room_of(counter), estimation);
    if (status != HLL_ARGUMENT)
        return status;
    status = make_copy(counter, &made);
    if (status == HLL_OK)
        status = hll_state_estimate(made.state, made.room, estimation);
    free_copy(counter, &made);
    return status;
}

hll_status hll_counter_info(const hll_counter *counter, hll_state_summary *summary, size_t summary_size)
{
    return hll_state_info(state_of(counter), room_of(counter), summary, summary_size);
}

/* Returns whether merging a counter into another one changes no byte of it (hll_state.h). Copying a small state takes less time than
 * finding out. */
static int is_settled(const hll_counter *counter)
{
    hll_estimation unwanted;
    return summary_of(counter).stage == HLL_REGISTERS ||
           (room_of(counter) > ON_STACK &&
            hll_state_settled_estimate(state_of(counter), room_of(counter), &unwanted) == HLL_OK);
}

hll_status hll_counter_join_counter(hll_counter *counter, const hll_counter *other)
{
    copy made;
    hll_status status;
    if (counter == other)
        return HLL_OK;
    if (is_settled(other))
        return join_state(counter, state_of(other), room_of(other));
    status = make_copy(other, &made);
    if (status == HLL_OK)
        status = join_state(counter, made.state, made.room);
    free_copy(other, &made);
    return status;
}

/* ---- the whole ---- */

hll_status hll_counter_init(hll_counter *counter, unsigned lg_k, hll_allocator allocator, void *context)
{
    static const uint8_t none[sizeof counter->at.first - HLL_STATE_NEW]; /* (WebAssembly's build has no memset) */
    hll_status status = hll_state_new(lg_k, counter->at.first, sizeof counter->at.first);
    if (status != HLL_OK)
        return status;
    memcpy(counter->at.first + HLL_STATE_NEW, none, sizeof none);
    counter->allocator = allocator != NULL ? allocator : ALLOCATOR(by_malloc);
    counter->context = context;
    counter->room = 0;
    counter->lg_max_k = (uint8_t)lg_k;
    counter->has_spare_room = counter->is_reserved = 0;
    return HLL_OK;
}

void hll_counter_free(hll_counter *counter)
{
    release(counter);
    (void)hll_state_new(counter->lg_max_k, counter->at.first, sizeof counter->at.first);
    counter->has_spare_room = counter->is_reserved = 0;
}

void hll_counter_reset(hll_counter *counter)
{
    (void)hll_state_new(counter->lg_max_k, state_of(counter), room_of(counter));
    counter->is_reserved = 0;
    trim(counter);
}

hll_status hll_counter_bind(hll_counter *counter, unsigned lg_max_k)
{
    hll_state_summary said = summary_of(counter);
    if (lg_max_k != 0 && (lg_max_k < 4 || 21 < lg_max_k || (!said.is_open && lg_max_k < said.lg_k)))
        return HLL_ARGUMENT;
    counter->lg_max_k = (uint8_t)lg_max_k;
    if (said.is_open && lg_max_k != 0)
        hll_counter_reset(counter);
    return HLL_OK;
}

hll_status hll_counter_copy(hll_counter *to, const hll_counter *from)
{
    hll_counter made = *from;
    size_t size = from->room != 0 ? (size_t)summary_of(from).size : 0;
    if (to == from)
        return HLL_OK;
    made.allocator = to->allocator;
    made.context = to->context;
    made.has_spare_room = made.is_reserved = 0;
    if (size > sizeof made.at.first) {
        made.room = (uint32_t)size;
        made.at.state = CALL(to, NULL, size);
        if (made.at.state == NULL)
            return HLL_MEMORY;
        memcpy(made.at.state, from->at.state, size);
    } else if (size > 0) {
        made.room = 0;
        memcpy(made.at.first, from->at.state, size);
    }
    release(to);
    *to = made;
    return HLL_OK;
}

hll_status hll_counter_settle(hll_counter *counter)
{
    hll_estimation unwanted;
    hll_status status = hll_state_estimate(state_of(counter), room_of(counter), &unwanted); /* which sorts the coupons */
    if (counter->has_spare_room)
        trim(counter);
    return status;
}

hll_status hll_counter_reserve(hll_counter *counter)
{
    hll_state_summary said = summary_of(counter);
    size_t most = HLL_STATE_MOST(said.lg_k);
    hll_status status = HLL_OK;
    if (said.is_open)
        return HLL_ARGUMENT;
    if (said.stage != HLL_REGISTERS && room_of(counter) < most)
        status = grow(counter, most);
    if (status == HLL_OK) {
        counter->is_reserved = 1;
        counter->has_spare_room = 0;
    }
    return status;
}

void hll_counter_shrink(hll_counter *counter)
{
    counter->has_spare_room = counter->is_reserved = 0;
    shrink(counter, (size_t)summary_of(counter).size);
}
