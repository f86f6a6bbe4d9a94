/* SPDX-License-Identifier: Apache-2.0 */
/* Times calls of libhll at lg_k 12 compared with loops over the same bytes, pair by pair, and prints a row for each: its name,
 * the nanoseconds of the call and of the loop, and the median of their ratios. What both make is compared before they are
 * timed. `compare NAME ROUNDS call|loop` runs one of a row alone so many times, so that its instructions can be counted. */
#define _POSIX_C_SOURCE 199309L
#include "loops.h"

#include <time.h>

#define IMAGES 1000
#define TURNS 31

static uint8_t *images[3], registers[COUNT], out[HLL_IMAGE_MAX(LG_K)];
static struct image set, stored[3];
static size_t ends[3][IMAGES], size, failed;
static uint32_t coupons[VALUES];
static int width_at;

/* ---- values ---- */

static void run_coupons(void)
{
    need(hll_coupons(values, value_size * VALUES, value_ends, VALUES, coupons, VALUES));
}

static void loop_coupons(void)
{
    size_t i, start = 0;
    for (i = 0; i < VALUES; i++) {
        coupons[i] = plain_coupon(values + start, value_ends[i] - start);
        start = value_ends[i];
    }
}

/* ---- values added ---- */

static void run_add_to_set(void)
{
    need(hll_image_add(set.bytes, set.len, values, 8 * 300, value_ends, 300, out, sizeof out, &size));
}

static void loop_set_coupons(void)
{
    need(hll_coupons(values, 8 * 300, value_ends, 300, coupons, VALUES));
}

static void run_add_to_registers(void)
{
    need(hll_image_add(stored[0].bytes, stored[0].len, values, 8 * VALUES, value_ends, VALUES, out, sizeof out, &size));
}

/* ---- unions of registers ---- */

static void run_union(void)
{
    const size_t *of = ends[width_at];
    need(hll_images_union(LG_K, 8, images[width_at], of[IMAGES - 1], of, IMAGES, out, sizeof out, &size, &failed));
}

/* How registers of four bits are merged, and whether each image is checked first. */
static enum { BY_HAND, CHECKED, PLAINLY } how;

static void loop_union(void)
{
    size_t i, start = 0;
    memset(registers, 0, sizeof registers);
    for (i = 0; i < IMAGES; i++) {
        const uint8_t *at = images[width_at] + start;
        if (how == CHECKED && !is_legal(at, ends[width_at][i] - start, 8 - 2 * width_at))
            fputs("compare: an image is refused\n", stderr), exit(1);
        if (width_at == 0)
            merge_eight(registers, at + HEADER);
        else if (width_at == 1)
            merge_six(registers, at + HEADER);
        else {
            (how == PLAINLY ? plain_merge_four : merge_four)(registers, at + HEADER, at[6]);
            merge_exceptions(registers, at);
        }
        start = ends[width_at][i];
    }
}

/* ---- estimates ---- */

static void run_estimate(void)
{
    hll_estimation found;
    need(hll_estimate(stored[width_at].bytes, stored[width_at].len, &found));
}

static void loop_check(void)
{
    need(hll_image_check(stored[width_at].bytes, stored[width_at].len));
}

/* ---- rows ---- */

static const struct {
    const char *name, *loop;
    int width_at, how, rounds, each;
    size_t bytes;
    void (*run)(void), (*beside)(void);
} rows[] = {
    {"hll_coupons of 4 bytes", "plain C", 0, 0, 40, VALUES, 4, run_coupons, loop_coupons},
    {"hll_coupons of 8 bytes", "plain C", 0, 0, 40, VALUES, 8, run_coupons, loop_coupons},
    {"hll_coupons of 16 bytes", "plain C", 0, 0, 40, VALUES, 16, run_coupons, loop_coupons},
    {"hll_coupons of 32 bytes", "plain C", 0, 0, 40, VALUES, 32, run_coupons, loop_coupons},
    {"hll_coupons of 64 bytes", "plain C", 0, 0, 40, VALUES, 64, run_coupons, loop_coupons},
    {"hll_image_add of 300 values to a set", "hll_coupons of them", 0, 0, 40, 1, 8, run_add_to_set, loop_set_coupons},
    {"hll_image_add of 1,000 values to registers of 8 bits", "hll_coupons of them", 0, 0, 40, 1, 8, run_add_to_registers, run_coupons},
    {"union, each image of 8 bits", "AVX2 by hand, checked", 0, CHECKED, 4, IMAGES, 8, run_union, loop_union},
    {"union, each image of 6 bits", "AVX2 by hand, checked", 1, CHECKED, 4, IMAGES, 8, run_union, loop_union},
    {"union, each image of 4 bits", "AVX2 by hand, checked", 2, CHECKED, 4, IMAGES, 8, run_union, loop_union},
    {"union, each image of 8 bits, unchecked", "AVX2 by hand", 0, BY_HAND, 4, IMAGES, 8, run_union, loop_union},
    {"union, each image of 6 bits, unchecked", "AVX2 by hand", 1, BY_HAND, 4, IMAGES, 8, run_union, loop_union},
    {"union, each image of 4 bits, unchecked", "AVX2 by hand", 2, BY_HAND, 4, IMAGES, 8, run_union, loop_union},
    {"union, each image of 4 bits, plainly", "plain C, -O3", 2, PLAINLY, 4, IMAGES, 8, run_union, loop_union},
    {"hll_estimate of registers of 8 bits", "hll_image_check", 0, 0, 200, 1, 8, run_estimate, loop_check},
    {"hll_estimate of registers of 6 bits", "hll_image_check", 1, 0, 200, 1, 8, run_estimate, loop_check},
    {"hll_estimate of registers of 4 bits", "hll_image_check", 2, 0, 200, 1, 8, run_estimate, loop_check},
};
enum { ROWS = sizeof rows / sizeof rows[0] };

static void begin(int row)
{
    width_at = rows[row].width_at;
    how = rows[row].how;
    make_values(5000000, rows[row].bytes);
}

/* What a call and its loop have made is the same. */
static void compare_with_loops(void)
{
    uint32_t by_call[VALUES];
    int row;
    for (row = 0; row < ROWS; row++) {
        begin(row);
        rows[row].run();
        if (rows[row].run == run_coupons) {
            memcpy(by_call, coupons, sizeof by_call);
            loop_coupons();
            if (memcmp(by_call, coupons, sizeof by_call) != 0)
                fprintf(stderr, "compare: other coupons of %zu bytes\n", value_size), exit(1);
        } else if (rows[row].run == run_union) {
            rows[row].beside();
            if (size != HEADER + COUNT || memcmp(out + HEADER, registers, COUNT) != 0)
                fprintf(stderr, "compare: other registers in '%s'\n", rows[row].name), exit(1);
        }
    }
}

static void make_images(void)
{
    struct image one;
    size_t at, i;
    for (width_at = 0; width_at < 3; width_at++) {
        uint8_t width = (uint8_t)(8 - 2 * width_at);
        if ((images[width_at] = malloc(IMAGES * sizeof out)) == NULL)
            need(HLL_MEMORY);
        for (at = i = 0; i < IMAGES; i++) {
            make_registers(&one, i * 20000, width);
            memcpy(images[width_at] + at, one.bytes, one.len);
            ends[width_at][i] = at += one.len;
        }
        make_registers(&stored[width_at], 1000000, width);
    }
    make_set(&set, 1, ASCENDING);
}

/* ---- times ---- */

static double now(void)
{
    struct timespec time;
    clock_gettime(CLOCK_THREAD_CPUTIME_ID, &time);
    return (double)time.tv_sec * 1e9 + (double)time.tv_nsec;
}

static double timed(void (*call)(void), int rounds)
{
    double start = now();
    int round;
    for (round = 0; round < rounds; round++)
        call();
    return (now() - start) / rounds;
}

static int compare(const void *left, const void *right)
{
    double a = *(const double *)left, b = *(const double *)right;
    return (a > b) - (a < b);
}

static double median(double of[TURNS])
{
    qsort(of, TURNS, sizeof of[0], compare);
    return of[TURNS / 2];
}

static void time_row(int row)
{
    double call[TURNS], loop[TURNS], ratio[TURNS];
    int turn;
    begin(row);
    for (turn = 0; turn < TURNS; turn++) {
        call[turn] = timed(rows[row].run, rows[row].rounds) / rows[row].each;
        loop[turn] = timed(rows[row].beside, rows[row].rounds) / rows[row].each;
        ratio[turn] = call[turn] / loop[turn];
    }
    printf("| %s | %s | %.1f | %.1f | %.2f |\n", rows[row].name, rows[row].loop, median(call), median(loop), median(ratio));
}

/* Runs the call or the loop of a row alone. */
static int run_alone(const char *name, int rounds, const char *which)
{
    int row;
    for (row = 0; row < ROWS; row++)
        if (strcmp(rows[row].name, name) == 0) {
            begin(row);
            while (rounds-- > 0)
                (strcmp(which, "call") == 0 ? rows[row].run : rows[row].beside)();
            return 0;
        }
    fprintf(stderr, "compare: no row '%s'\n", name);
    return 1;
}

int main(int count, char **arguments)
{
    int row;
    make_images();
    if (count == 4)
        return run_alone(arguments[1], atoi(arguments[2]), arguments[3]);
    compare_with_loops();
    printf("| call | compared with | ns | that, ns | ratio |\n|---|---|---|---|---|\n");
    for (row = 0; row < ROWS; row++)
        time_row(row);
    return 0;
}
