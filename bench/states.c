/* SPDX-License-Identifier: Apache-2.0 */
/* Times calls on states at lg_k 12 compared with calls over images, pair by pair, and prints a table for docs/NUMBERS.md, "States". A
 * second table has values, images and orders that were chosen to be slow, compared with random ones. bench/states.py builds and
 * runs it. */
#define _POSIX_C_SOURCE 199309L
#include "hll_state.h"
#include "images.h"

#include <time.h>

enum { IMAGES = 1000, TURNS = 31, MOST_LG_K = 18, MANY = 100000 };

static uint8_t state[HLL_STATE_MOST(MOST_LG_K)], out[HLL_IMAGE_MAX(LG_K)];
static uint8_t *images;
static size_t ends[IMAGES], count_of_values, size, failed;
static uint64_t numbers[MANY];
static size_t number_ends[MANY];
static uint32_t coupons[MANY];

/* ---- values ---- */

static void make_numbers(void)
{
    static uint64_t from = 1;
    size_t i;
    for (i = 0; i < MANY; i++) {
        numbers[i] = from++;
        number_ends[i] = 8 * (i + 1);
    }
}

static void run_new(void)
{
    int i;
    for (i = 0; i < IMAGES; i++)
        need(hll_state_new(LG_K, state, sizeof state));
}

static void beside_new(void)
{
    int i;
    for (i = 0; i < IMAGES; i++)
        need(hll_image_new(LG_K, 8, out, sizeof out, &size));
}

/* New states of so many values each, one call for a value. */
static void run_one_by_one(void)
{
    size_t i, at;
    for (at = 0; at + count_of_values <= MANY; at += count_of_values) {
        need(hll_state_new(LG_K, state, sizeof state));
        for (i = at; i < at + count_of_values; i++)
            need(hll_state_add_value(state, sizeof state, &size, (const uint8_t *)&numbers[i], 8));
    }
}

/* The same with a call for each hundred values. */
static void run_in_hundreds(void)
{
    size_t i, at;
    for (at = 0; at + count_of_values <= MANY; at += count_of_values) {
        need(hll_state_new(LG_K, state, sizeof state));
        for (i = at; i < at + count_of_values; i += 100) {
            size_t left = at + count_of_values - i;
            need(hll_state_add(state, sizeof state, &size, (const uint8_t *)&numbers[i], 800, number_ends,
                               left < 100 ? left : 100));
        }
    }
}

static void beside_hash(void)
{
    need(hll_coupons((const uint8_t *)numbers, sizeof numbers, number_ends, MANY, coupons, MANY));
}

/* ---- joins ---- */

static void make_images(uint8_t width, size_t values_of_each)
{
    struct image one;
    size_t at = 0, i, thousand;
    for (i = 0; i < IMAGES; i++) {
        make_empty(&one, width);
        for (thousand = 0; thousand * VALUES < values_of_each; thousand++) {
            make_values(i * 20000 + thousand * VALUES, 8);
            add_values(&one, values_of_each < VALUES ? values_of_each : VALUES);
        }
        memcpy(images + at, one.bytes, one.len);
        ends[i] = at += one.len;
    }
}

static void run_joins(void)
{
    size_t i, start = 0;
    need(hll_state_new(LG_K, state, sizeof state));
    for (i = 0; i < IMAGES; i++) {
        need(hll_state_join(0, state, sizeof state, &size, images + start, ends[i] - start));
        start = ends[i];
    }
    need(hll_state_image(state, sizeof state, 8, out, sizeof out, &size));
}

static void beside_joins(void)
{
    need(hll_images_union(LG_K, 8, images, ends[IMAGES - 1], ends, IMAGES, out, sizeof out, &size, &failed));
}

static void run_image(void)
{
    int i;
    for (i = 0; i < 100; i++)
        need(hll_state_image(state, sizeof state, 8, out, sizeof out, &size));
}

static void beside_image(void)
{
    static uint8_t copy[HLL_IMAGE_MAX(LG_K)];
    int i;
    for (i = 0; i < 100; i++)
        need(hll_image_convert(out, size, 8, copy, sizeof copy, &size));
}

static void begin_image(uint8_t width, size_t values_of_each)
{
    make_images(width, values_of_each);
    need(hll_state_new(LG_K, state, sizeof state));
    need(hll_state_join(0, state, sizeof state, &size, images, ends[0]));
    run_image();
}

/* ---- chosen inputs and random ones ---- */

/* A state of so many coupons at lg_k 18, which become registers at 24,577, and then the first ones again. */
static void add_in_order(size_t distinct, int descending)
{
    size_t i;
    need(hll_state_new(MOST_LG_K, state, sizeof state));
    for (i = 0; i < MANY; i++) {
        size_t at = i % distinct;
        need(hll_state_add_coupons(state, sizeof state, &size, &coupons[descending ? distinct - 1 - at : at], 1));
    }
}

static int by_coupon(const void *left, const void *right)
{
    uint32_t a = *(const uint32_t *)left, b = *(const uint32_t *)right;
    return (a > b) - (a < b);
}

static void sort_coupons(void)
{
    qsort(coupons, MANY, sizeof coupons[0], by_coupon);
}

static void run_descending(void) { add_in_order(24576, 1); }
static void run_repeated(void) { add_in_order(24576, 0); }
static void beside_random(void) { add_in_order(MANY, 0); }

/* Lists joined to registers at lg_k 18, of which one alone, the last, is not 0. */
static void join_lists(int only_last)
{
    size_t i, start = 0;
    uint32_t last = UINT32_C(1) << 26 | ((UINT32_C(1) << MOST_LG_K) - 1);
    need(hll_state_new(MOST_LG_K, state, sizeof state));
    if (only_last) {
        for (i = 0; i < 30000; i++)
            need(hll_state_add_coupons(state, sizeof state, &size, &last, 1));
    } else {
        need(hll_state_add_coupons(state, sizeof state, &size, coupons, 30000));
    }
    for (i = 0; i < IMAGES; i++) {
        need(hll_state_join(MOST_LG_K, state, sizeof state, &size, images + start, ends[i] - start));
        start = ends[i];
    }
}

static void run_lists_to_one(void) { join_lists(1); }
static void run_lists_to_many(void) { join_lists(0); }

/* ---- rows ---- */

static double now(void)
{
    struct timespec time;
    clock_gettime(CLOCK_THREAD_CPUTIME_ID, &time);
    return (double)time.tv_sec * 1e9 + (double)time.tv_nsec;
}

static int compare(const void *left, const void *right)
{
    double a = *(const double *)left, b = *(const double *)right;
    return (a > b) - (a < b);
}

static double median(double of[TURNS])
{
    qsort(of, TURNS, sizeof of[0], compare);
    return of[TURNS / 2];
}

static double timed(void (*call)(void))
{
    double start = now();
    call();
    return now() - start;
}

static void row(const char *name, void (*run)(void), const char *other, void (*beside)(void), double each)
{
    double call[TURNS], loop[TURNS], ratio[TURNS];
    int turn;
    for (turn = 0; turn < TURNS; turn++) {
        call[turn] = timed(run) / each;
        loop[turn] = timed(beside) / each;
        ratio[turn] = call[turn] / loop[turn];
    }
    printf("| %s | %s | %.1f | %.1f | %.2f |\n", name, other, median(call), median(loop), median(ratio));
    fflush(stdout);
}

int main(void)
{
    static const size_t counts[] = {1, 7, 20, 300, MANY};
    static const struct { uint8_t width; size_t values; const char *name; } kinds[] = {
        {8, 5, "lists of 5"}, {8, 20, "sets of 20"}, {8, 300, "sets of 300"},
        {8, 20000, "registers of 8 bits"}, {6, 20000, "registers of 6 bits"}, {4, 20000, "registers of 4 bits"}};
    char name[80];
    size_t i;
    if ((images = malloc(IMAGES * sizeof out)) == NULL)
        return 1;
    make_numbers();
    printf("| on states | compared with | ns | that, ns | ratio |\n|---|---|---|---|---|\n");
    row("`hll_state_new`", run_new, "`hll_image_new`", beside_new, IMAGES);
    for (i = 0; i < sizeof counts / sizeof counts[0]; i++) {
        count_of_values = counts[i];
        snprintf(name, sizeof name, "a value of %zu in a new state, one by one", counts[i]);
        row(name, run_one_by_one, "`hll_coupons`", beside_hash, MANY);
        snprintf(name, sizeof name, "the same, a hundred in a call");
        row(name, run_in_hundreds, "`hll_coupons`", beside_hash, MANY);
    }
    for (i = 0; i < sizeof kinds / sizeof kinds[0]; i++) {
        make_images(kinds[i].width, kinds[i].values);
        snprintf(name, sizeof name, "a join, of 1,000 %s", kinds[i].name);
        row(name, run_joins, "`hll_images_union`", beside_joins, IMAGES);
    }
    begin_image(8, 300);
    row("`hll_state_image` of a set of 300", run_image, "`hll_image_convert`", beside_image, 100);
    begin_image(8, 20000);
    row("`hll_state_image` of registers", run_image, "`hll_image_convert`", beside_image, 100);
    printf("\n| chosen | random | ns | random, ns | ratio |\n|---|---|---|---|---|\n");
    beside_hash();
    row("a coupon of the most that stay coupons, again and again", run_repeated, "distinct coupons", beside_random, MANY);
    sort_coupons();
    row("the same in descending order", run_descending, "ascending coupons", beside_random, MANY);
    make_images(8, 5);
    row("a list joined to registers of which one is not 0", run_lists_to_one, "to full registers", run_lists_to_many, IMAGES);
    return 0;
}
