/* SPDX-License-Identifier: Apache-2.0 */
/* Calls with more arguments than a system passes in registers: on Windows more than four. Each line names a call, and prints its
 * status, each number that it wrote, and a checksum of the bytes. The lines have to be the same on each system. Every argument has
 * another value, and results depend on each. */
#include "test.h"

static uint8_t out[HLL_IMAGE_MAX(12)], state[HLL_STATE_MOST(12)], other_state[HLL_STATE_MOST(12)], registers[4096], others[4096];

static uint64_t sum_of(const void *data, size_t len)
{
    const uint8_t *at = data;
    uint64_t sum = UINT64_C(0xcbf29ce484222325);
    while (len-- > 0)
        sum = (sum ^ *at++) * UINT64_C(0x100000001b3);
    return sum;
}

/* The numbers are what the call wrote, or NULL. */
static void show(const char *name, hll_status status, const size_t *first, const size_t *second, const void *data, size_t len)
{
    printf("%s %s %lu %lu %08lx%08lx\n", name, hll_reason(status), (unsigned long)(first ? *first : 0),
           (unsigned long)(second ? *second : 0), (unsigned long)(sum_of(data, len) >> 32),
           (unsigned long)(sum_of(data, len) & 0xffffffff));
    memset(out, 0xa5, sizeof out);
}

/* ---- images */

static void show_image_calls(bytes left, bytes right)
{
    static const uint8_t values[] = "one two three";
    static const size_t ends[] = {3, 7, 13};
    size_t size = 1, failed = 2;
    uint8_t same = 3;
    show("hll_image_new", hll_image_new(11, 6, out, 77, &size), &size, NULL, out, sizeof out);
    show("hll_image_add", hll_image_add(left.at, left.len, values, 13, ends, 3, out, sizeof out, &size), &size, NULL, out, sizeof out);
    show("hll_image_add_coupon", hll_image_add_coupon(left.at, left.len, 4095, 62, out, sizeof out, &size), &size, NULL, out, sizeof out);
    show("hll_image_fold", hll_image_fold(left.at, left.len, 5, out, sizeof out, &size), &size, NULL, out, sizeof out);
    show("hll_image_convert", hll_image_convert(left.at, left.len, 4, out, sizeof out, &size), &size, NULL, out, sizeof out);
    show("hll_image_set_estimator_fields", hll_image_set_estimator_fields(left.at, left.len, out, sizeof out, &size), &size, NULL, out,
         sizeof out);
    show("hll_image_clear_estimator_fields", hll_image_clear_estimator_fields(right.at, right.len, out, sizeof out, &size), &size, NULL,
         out, sizeof out);
    show("hll_images_agree", hll_images_agree(left.at, left.len, right.at, right.len, &same, &failed), &failed, NULL, &same, 1);
    show("hll_images_agree", hll_images_agree(left.at, left.len, right.at, 7, &same, &failed), &failed, NULL, &same, 1);
}

static void show_unions(bytes left, bytes right)
{
    hll_bytes parts[2];
    bytes both = with_room(left.len + right.len);
    size_t size = 1, failed = 2, ends[2];
    memcpy(both.at, left.at, left.len);
    memcpy(both.at + left.len, right.at, right.len);
    ends[0] = left.len;
    ends[1] = left.len + right.len;
    parts[0].bytes = left.at;
    parts[0].len = left.len;
    parts[1].bytes = right.at;
    parts[1].len = right.len;
    show("hll_image_merge", hll_image_merge(11, 4, left.at, left.len, right.at, right.len, out, sizeof out, &size, &failed), &size,
         &failed, out, sizeof out);
    show("hll_images_union", hll_images_union(11, 6, both.at, both.len, ends, 2, out, sizeof out, &size, &failed), &size, &failed, out,
         sizeof out);
    show("hll_images_unionv", hll_images_unionv(11, 8, parts, 2, out, sizeof out, &size, &failed), &size, &failed, out, sizeof out);
    /* too little room, and an image that ends too soon */
    show("hll_image_merge", hll_image_merge(12, 8, left.at, left.len, right.at, right.len, out, 99, &size, &failed), &size, &failed, out,
         sizeof out);
    show("hll_image_merge", hll_image_merge(12, 8, left.at, left.len, right.at, 7, out, sizeof out, &size, &failed), &size, &failed, out,
         sizeof out);
    ends[1]--;
    parts[1].len = 5;
    show("hll_images_union", hll_images_union(12, 8, both.at, both.len, ends, 2, out, sizeof out, &size, &failed), &size, &failed, out,
         sizeof out);
    show("hll_images_unionv", hll_images_unionv(12, 8, parts, 2, out, sizeof out, &size, &failed), &size, &failed, out, sizeof out);
    free(both.at);
}

/* ---- coupons and registers */

static void show_coupons(void)
{
    static const uint8_t values[] = "one two three";
    static const size_t ends[] = {3, 7, 13};
    static const int32_t offsets[] = {1, 4, 4, 12};
    uint32_t coupons[8];
    memset(coupons, 0xa5, sizeof coupons);
    show("hll_coupons", hll_coupons(values, 13, ends, 3, coupons, 8), NULL, NULL, coupons, sizeof coupons);
    show("hll_coupons", hll_coupons(values, 13, ends, 3, coupons, 2), NULL, NULL, coupons, sizeof coupons);
    show("hll_coupons_fixed", hll_coupons_fixed(values, 12, 4, coupons, 8), NULL, NULL, coupons, sizeof coupons);
    show("hll_coupons_ends32", hll_coupons_ends32(values, 13, offsets, 4, coupons, 8), NULL, NULL, coupons, sizeof coupons);
}

static void show_registers(bytes coarse, bytes right)
{
    static const uint8_t values[] = "one two three";
    static const size_t ends[] = {3, 7, 13};
    uint8_t lg_k = 9;
    size_t size = 1;
    others[17] = 33;
    show("hll_registers_add", hll_registers_add(registers, 4096, values, 13, ends, 3), NULL, NULL, registers, sizeof registers);
    show("hll_registers_add_fixed", hll_registers_add_fixed(registers, 4096, values, 12, 4), NULL, NULL, registers,
         sizeof registers);
    show("hll_registers_merge", hll_registers_merge(registers, 4096, right.at, right.len, &lg_k), NULL, NULL, registers, sizeof registers);
    show("hll_registers_merge", hll_registers_merge(registers, 4096, coarse.at, coarse.len, &lg_k), NULL, NULL, &lg_k, 1);
    show("hll_registers_merge_registers", hll_registers_merge_registers(registers, 4096, others, 4096, &lg_k), NULL, NULL, registers,
         sizeof registers);
    show("hll_registers_merge_registers", hll_registers_merge_registers(registers, 4096, others, 1024, &lg_k), NULL, NULL, &lg_k, 1);
    show("hll_registers_image", hll_registers_image(registers, 4096, 6, out, sizeof out, &size), &size, NULL, out, sizeof out);
}

/* ---- states and counters */

static void show_states(bytes right)
{
    static const uint8_t values[] = "one two three";
    static const size_t ends[] = {3, 7, 13};
    static const uint32_t coupons[] = {67108869, 134217735};
    size_t size = 1;
    need(hll_state_new(12, state, sizeof state) == HLL_OK && hll_state_new(11, other_state, sizeof other_state) == HLL_OK, "states");
    show("hll_state_add", hll_state_add(state, sizeof state, &size, values, 13, ends, 3), &size, NULL, state, 52);
    show("hll_state_add_value", hll_state_add_value(other_state, sizeof other_state, &size, values, 5), &size, NULL, other_state, 44);
    show("hll_state_add_coupons", hll_state_add_coupons(state, sizeof state, &size, coupons, 2), &size, NULL, state, 60);
    show("hll_state_add_coupons", hll_state_add_coupons(state, 60, &size, coupons, 2), &size, NULL, state, 60);
    show("hll_state_join_state", hll_state_join_state(12, state, sizeof state, &size, other_state, sizeof other_state), &size, NULL, state,
         40);
    show("hll_state_join", hll_state_join(12, state, sizeof state, &size, right.at, right.len), &size, NULL, state, 40);
    show("hll_state_join", hll_state_join(12, state, 100, &size, right.at, right.len), &size, NULL, state, 40);
    show("hll_state_image", hll_state_image(state, sizeof state, 4, out, sizeof out, &size), &size, NULL, out, sizeof out);
    show("hll_state_settled_image", hll_state_settled_image(state, sizeof state, 6, out, sizeof out, &size), &size, NULL,
         out, sizeof out);
}

static void show_counters(void)
{
    static const uint8_t values[] = "one two three";
    static const size_t ends[] = {3, 7, 13};
    hll_counter counter;
    size_t size = 1;
    need(hll_counter_init(&counter, 12, NULL, NULL) == HLL_OK, "a counter");
    show("hll_counter_add_many", hll_counter_add_many(&counter, values, 13, ends, 3), NULL, NULL, counter.at.first, 52);
    show("hll_counter_image", hll_counter_image(&counter, 8, out, sizeof out, &size), &size, NULL, out, sizeof out);
    show("hll_counter_image", hll_counter_image(&counter, 8, out, 3, &size), &size, NULL, out, sizeof out);
    hll_counter_free(&counter);
}

/* ---- results */

/* What C code on a system takes a status from. A result that doesn't fill it would be read as another number. */
#if defined(__riscv)
typedef uint64_t filled;
#elif defined(__APPLE__)
typedef uint32_t filled;
#else
typedef uint8_t filled;
#endif

typedef filled checks(const uint8_t *image, size_t len);
typedef filled folds(uint8_t *registers, size_t count, unsigned to);
typedef filled makes(unsigned lg_k, void *state, size_t room);

/* (volatile, as a compiler that sees the call rejects it for its type) */
typedef void any(void);
static any *volatile check = (any *)hll_image_check, *volatile fold = (any *)hll_registers_fold, *volatile make = (any *)hll_state_new;

static void show_filled(const char *name, filled result)
{
    printf("%s fills its register: %s\n", name, result <= HLL_OTHER_LG_K ? "yes" : "no");
}

static void show_results(bytes left)
{
    size_t len;
    for (len = 0; len < 12; len++)
        show_filled("hll_image_check", ((checks *)check)(left.at, len));
    show_filled("hll_image_check", ((checks *)check)(left.at, left.len));
    show_filled("hll_registers_fold", ((folds *)fold)(registers, 4096, 3));
    show_filled("hll_registers_fold", ((folds *)fold)(registers, 4096, 12));
    show_filled("hll_state_new", ((makes *)make)(12, state, 39));
    show_filled("hll_state_new", ((makes *)make)(22, state, 40));
}

int main(void)
{
    bytes left = image_of_values(12, 8, 1, 9000), right = image_of_values(12, 6, 5000, 9000), coarse = image_of_values(10, 8, 1, 9000);
    memset(out, 0xa5, sizeof out);
    show_image_calls(left, right);
    show_unions(left, right);
    show_coupons();
    show_registers(coarse, right);
    show_states(right);
    show_counters();
    show_results(left);
    return 0;
}
