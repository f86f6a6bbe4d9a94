/* SPDX-License-Identifier: Apache-2.0 */
/* Each request for memory of each call is refused in turn: the call answers HLL_MEMORY, leaves its output as it was and
 * gives back what it has; or it makes the same image in another way. Link with --wrap of malloc, calloc, realloc,
 * aligned_alloc, posix_memalign and free. */
#include "test.h"

void *__real_malloc(size_t size);
void *__real_calloc(size_t count, size_t size);
void *__real_realloc(void *old, size_t size);
#ifndef _WIN32 /* which lacks these two */
void *__real_aligned_alloc(size_t alignment, size_t size);
int __real_posix_memalign(void **made, size_t alignment, size_t size);
#endif
void __real_free(void *old);

/* How many requests are still granted before one is refused; none is where it is below 0. */
static long granted = -1;

/* What was taken and not given back. */
static long held;

static int is_refused(void)
{
    return granted >= 0 && granted-- == 0;
}

static void *taken(void *made)
{
    held += made != NULL;
    return made;
}

void *__wrap_malloc(size_t size)
{
    return is_refused() ? NULL : taken(__real_malloc(size));
}

void *__wrap_calloc(size_t count, size_t size)
{
    return is_refused() ? NULL : taken(__real_calloc(count, size));
}

void *__wrap_realloc(void *old, size_t size)
{
    void *made;
    if (is_refused())
        return NULL;
    made = __real_realloc(old, size);
    held += old == NULL && made != NULL;
    return made;
}

#ifndef _WIN32
void *__wrap_aligned_alloc(size_t alignment, size_t size)
{
    return is_refused() ? NULL : taken(__real_aligned_alloc(alignment, size));
}

int __wrap_posix_memalign(void **made, size_t alignment, size_t size)
{
    int status = is_refused() ? 12 : __real_posix_memalign(made, alignment, size);
    held += status == 0;
    return status;
}
#endif

void __wrap_free(void *old)
{
    held -= old != NULL;
    __real_free(old);
}

/* The union call of test.h joins its images in memory of its own, so unions are made of images that lie joined. */
static uint8_t joined[3 * HLL_IMAGE_MAX(12)];
static size_t joined_ends[3];

static void join(bytes image)
{
    memcpy(joined, other_image, sizeof other_image);
    memcpy(joined + sizeof other_image, image.at, image.len);
    memcpy(joined + sizeof other_image + image.len, image.at, image.len);
    joined_ends[0] = sizeof other_image;
    joined_ends[1] = joined_ends[0] + image.len;
    joined_ends[2] = joined_ends[1] + image.len;
}

static hll_status call_joined(const uint8_t *image, size_t len, uint8_t *out, size_t room, size_t *size)
{
    size_t failed = 77;
    hll_status status = hll_images_union(12, 6, joined, joined_ends[2], joined_ends, 3, out, room, size, &failed);
    (void)image;
    (void)len;
    return failed == 77 ? status : 200;
}

static hll_status call_parts(const uint8_t *image, size_t len, uint8_t *out, size_t room, size_t *size)
{
    const hll_bytes parts[] = {{other_image, sizeof other_image}, {image, len}, {image, len}};
    size_t failed = 77;
    hll_status status = hll_images_unionv(12, 6, parts, 3, out, room, size, &failed);
    return failed == 77 ? status : 200;
}

/* A join into registers of the caller, which a refusal leaves as they were, and their image. */
static hll_status call_registers(const uint8_t *image, size_t len, uint8_t *out, size_t room, size_t *size)
{
    static uint8_t registers[1 << 12], zeros[sizeof registers];
    uint8_t lg_k = 77;
    hll_status status;
    memset(registers, 0, sizeof registers);
    status = hll_registers_merge(registers, sizeof registers, image, len, &lg_k);
    if (status != HLL_OK)
        return lg_k == 77 && memcmp(registers, zeros, sizeof zeros) == 0 ? status : 200;
    return hll_registers_image(registers, sizeof registers, 4, out, room, size);
}

/* The image of a state of as many values as make the stage of the image. Adding takes no memory. */
static hll_status call_state(const uint8_t *image, size_t len, uint8_t *out, size_t room, size_t *size)
{
    static uint8_t state[HLL_STATE_MOST(12)];
    uint32_t values = head_of(image, len).stage == HLL_REGISTERS ? 2000 : (uint32_t)len, value;
    size_t unused = 0;
    if (hll_state_new(12, state, sizeof state) != HLL_OK)
        return 200;
    for (value = 0; value < values; value++)
        if (hll_state_add_value(state, sizeof state, &unused, (const uint8_t *)&value, sizeof value) != HLL_OK)
            return 200;
    return hll_state_image(state, sizeof state, head_of(image, len).width, out, room, size);
}

/* A join to a state, and the image that is made once the state is settled. */
static hll_status call_settled(const uint8_t *image, size_t len, uint8_t *out, size_t room, size_t *size)
{
    static uint8_t state[HLL_STATE_MOST(12)];
    size_t unused = 0;
    hll_estimation found;
    hll_status status = hll_state_new(12, state, sizeof state);
    if (status == HLL_OK)
        status = hll_state_join(0, state, sizeof state, &unused, image, len);
    if (status == HLL_OK)
        status = hll_state_estimate(state, sizeof state, &found);
    return status == HLL_OK ? hll_state_settled_image(state, sizeof state, head_of(image, len).width, out, room, size)
                            : status;
}

/* A join to a state, whose bytes a refusal leaves as they were, and its image. */
static hll_status call_join(const uint8_t *image, size_t len, uint8_t *out, size_t room, size_t *size)
{
    static uint8_t state[HLL_STATE_MOST(12)], before[sizeof state];
    size_t unused = 77;
    hll_state_summary summary;
    hll_status status;
    memset(state, 0, sizeof state);
    if (hll_state_new(12, state, sizeof state) != HLL_OK)
        return 200;
    memcpy(before, state, sizeof state);
    status = hll_state_join(0, state, sizeof state, &unused, image, len);
    if (status != HLL_OK)
        return unused == 77 && memcmp(state, before, sizeof state) == 0 ? status : 200;
    if (hll_state_info(state, sizeof state, &summary, sizeof summary) != HLL_OK)
        return 200;
    return hll_state_image(state, sizeof state, summary.width, out, room, size);
}

/* Sixty new values, which make a set of a list, and registers of the largest set. */
static hll_status call_grow(const uint8_t *image, size_t len, uint8_t *out, size_t room, size_t *size)
{
    static uint8_t values[60];
    static size_t ends[60];
    size_t i;
    for (i = 0; i < 60; i++) {
        values[i] = (uint8_t)i;
        ends[i] = i + 1;
    }
    return hll_image_add(image, len, values, 60, ends, 60, out, room, size);
}

static uint8_t out[HLL_IMAGE_MAX(12)], unchanged[sizeof out];
static long refused;

/* Whether a call can do without this request: its first two are for a map of the exceptions of 4-bit registers, and without that
 * map it makes their sketch. */
static int has_another_way(writes *call, bytes image, long first)
{
    return first < 2 && (image.at[7] & 15) == 2 && (call == call_add || call == call_add_coupon || call == call_convert_4);
}

/* A call with its first requests granted and the next refused; whether there was one to refuse. */
static int refuse_writer(const char *name, writes *call, bytes image, long first)
{
    size_t size = 4711;
    long before = held;
    hll_status status;
    int was_refused;
    memcpy(out, unchanged, sizeof out);
    granted = first;
    status = call(image.at, image.len, out, sizeof out, &size);
    was_refused = granted < 0;
    granted = -1;
    CHECK(held == before, "%s, request %ld: %ld are not given back", name, first, held - before);
    if (!was_refused) {
        CHECK(status == HLL_OK, "%s: %s with all memory", name, hll_reason(status));
        return 0;
    }
    refused++;
    if (status == HLL_OK && has_another_way(call, image, first)) {
        static uint8_t wanted[sizeof out];
        size_t wanted_size;
        status = call(image.at, image.len, wanted, sizeof wanted, &wanted_size);
        CHECK(status == HLL_OK && size == wanted_size && memcmp(out, wanted, size) == 0, "%s, without a map: another image",
              name);
        return 1;
    }
    CHECK(status == HLL_MEMORY, "%s, request %ld: %s", name, first, hll_reason(status));
    CHECK(size == 4711 && memcmp(out, unchanged, sizeof out) == 0, "%s, request %ld: output changed", name, first);
    return 1;
}

static int refuse_teller(const struct teller *teller, bytes image, long first)
{
    answer told, told_before;
    long before = held;
    hll_status status;
    int was_refused;
    memset(&told_before, 0xa5, sizeof told_before);
    memcpy(&told, &told_before, sizeof told);
    granted = first;
    status = teller->call(image.at, image.len, &told);
    was_refused = granted < 0;
    granted = -1;
    CHECK(held == before, "%s, request %ld: %ld are not given back", teller->name, first, held - before);
    if (!was_refused) {
        CHECK(status == HLL_OK, "%s: %s with all memory", teller->name, hll_reason(status));
        return 0;
    }
    refused++;
    CHECK(status == HLL_MEMORY, "%s, request %ld: %s", teller->name, first, hll_reason(status));
    CHECK(memcmp(&told, &told_before, sizeof told) == 0, "%s, request %ld: answer changed", teller->name, first);
    return 1;
}

/* Whether a call makes its image of one of registers without memory: at its own width, if it has no exceptions, or, with 8 or 6
 * bits, with one more coupon. */
static int makes_without_memory(writes *call, bytes image)
{
    static const uint8_t none[4];
    unsigned stage = image.at[7] & 3, width = image.at[7] >> 2 & 3;
    if (stage != 2)
        return 0;
    if (width == 0)
        return call == call_convert_4 && memcmp(image.at + 36, none, sizeof none) == 0;
    return call == call_add_coupon || (call == call_convert && width == 1);
}

static void refuse_each(const char *name, writes *call, bytes image)
{
    long first = 0;
    while (refuse_writer(name, call, image, first))
        first++;
    if (makes_without_memory(call, image))
        CHECK(first == 0, "%s takes memory", name);
    else if (call == call_convert_4 && (image.at[7] & 15) == 2)
        CHECK(first == 2, "%s takes %ld requests, and not two for a map", name, first);
    else
        CHECK(first > 0 || call == call_new, "%s takes no memory, so nothing was tested", name);
}

static void test_image(bytes image)
{
    size_t i;
    join(image);
    for (i = 0; i < WRITERS; i++)
        if (writers[i].call != call_union)
            refuse_each(writers[i].name, writers[i].call, image);
    refuse_each("union", call_joined, image);
    refuse_each("union of parts", call_parts, image);
    refuse_each("join into registers, and their image", call_registers, image);
    refuse_each("image of a state", call_state, image);
    refuse_each("image of a settled state", call_settled, image);
    refuse_each("join to a state, and its image", call_join, image);
    refuse_each("add of sixty values", call_grow, image);
    for (i = 0; i < TELLERS; i++) {
        long first = 0;
        while (refuse_teller(&tellers[i], image, first))
            first++;
    }
}

/* Sets of few coupons, in a table that their header says is large. No call here makes that table, so none needs memory for it.
 * Those that write an image need memory for the image alone. */
static void test_few_in_a_large_table(void)
{
    static const uint8_t none[] = {3, 1, 7, 21, 18, 8, 0, 9, 0, 0, 0, 0};
    static const uint8_t one[] = {3, 1, 7, 21, 18, 8, 0, 9, 1, 0, 0, 0, 5, 0, 0, 12};
    static const uint8_t twice[] = {3, 1, 7, 21, 18, 8, 0, 9, 2, 0, 0, 0, 5, 0, 0, 12, 5, 0, 0, 12};
    static const struct {
        const uint8_t *at;
        size_t len;
        hll_status status;
    } sets[] = {{none, sizeof none, HLL_OK}, {one, sizeof one, HLL_OK}, {twice, sizeof twice, HLL_COUPON}};
    static uint8_t registers[1 << 12];
    uint8_t state[HLL_STATE_NEW + 16], lg_k;
    size_t size, number, i;
    hll_info info;
    hll_estimation found;
    for (number = 0; number < 3; number++) {
        const uint8_t *at = sets[number].at;
        size_t len = sets[number].len;
        hll_status status = sets[number].status;
        static writes *const from_bytes[] = {call_fold, call_convert, call_words, call_no_words};
        need(hll_state_new(21, state, sizeof state) == HLL_OK, "a new state");
        granted = 0;
        CHECK(hll_image_check(at, len) == status, "check, set %zu", number);
        CHECK(hll_image_size(at, len, &size) == status, "size, set %zu", number);
        CHECK(hll_registers_merge(registers, sizeof registers, at, len, &lg_k) == status, "registers, set %zu", number);
        CHECK(hll_state_join(0, state, sizeof state, &size, at, len) == status, "join, set %zu", number);
        CHECK(hll_image_info(at, len, &info, sizeof info) == status, "info, set %zu", number);
        CHECK(hll_estimate(at, len, &found) == status, "estimate, set %zu", number);
        for (i = 0; i < sizeof from_bytes / sizeof *from_bytes; i++) {
            granted = 1;
            CHECK(from_bytes[i](at, len, out, sizeof out, &size) == status, "one request, for the image: call %zu, set %zu", i, number);
        }
        granted = -1;
    }
    CHECK(held == 0, "%ld", held);
}

int main(void)
{
    static const size_t values[] = {0, 5, 8, 100, 380, 20000};
    unsigned width;
    size_t i;
    held = 0; /* without what the C library took before */
    memset(unchanged, 0xa5, sizeof unchanged);
    for (width = 4; width <= 8; width += 2)
        for (i = 0; i < 6; i++) {
            bytes image = image_of_values(12, (uint8_t)width, 1000, values[i]);
            test_image(image);
            free(image.at);
        }
    test_few_in_a_large_table();
    CHECK(refused > 500, "only %ld requests were refused", refused);
    printf("%ld requests for memory were refused\n", refused);
    return finish("each request for memory refused in turn");
}
