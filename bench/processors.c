/* SPDX-License-Identifier: Apache-2.0 */
/* Times calls of libhll with the code for two kinds of processors, in one process and in turn, at lg_k 12, and prints a table.
 *
 *   processors LIBRARY HLL_CPU LIBRARY HLL_CPU
 *
 * The libraries are two files, since a library chooses its code once. HLL_CPU is the variable that each finds, or `-` for none.
 * bench/processors.py builds and runs it. */
#define _POSIX_C_SOURCE 200112L
#include "hll_state.h"

#include <dlfcn.h>
#include <stdio.h>
#include <stdlib.h>
#include <string.h>
#include <time.h>

enum { LG_K = 12, COUNT = 1 << LG_K, IMAGES = 16, VALUES = 20000, TURNS = 41, ROOM = HLL_IMAGE_MAX(LG_K) };

#define CALLS(CALL)                                                                                                        \
    CALL(hll_processor)                                                                                                    \
    CALL(hll_coupon)                                                                                                       \
    CALL(hll_coupons)                                                                                                      \
    CALL(hll_image_new)                                                                                                    \
    CALL(hll_image_add)                                                                                                    \
    CALL(hll_image_check)                                                                                                  \
    CALL(hll_image_merge)                                                                                                  \
    CALL(hll_image_convert)                                                                                                \
    CALL(hll_image_fold)                                                                                                   \
    CALL(hll_images_unionv)                                                                                                \
    CALL(hll_images_agree)                                                                                                 \
    CALL(hll_estimate)                                                                                                     \
    CALL(hll_registers_merge)                                                                                              \
    CALL(hll_state_new)                                                                                                    \
    CALL(hll_state_add_value)                                                                                              \
    CALL(hll_state_join)                                                                                                   \
    CALL(hll_state_image)                                                                                                  \
    CALL(hll_state_estimate)

struct library {
#define MEMBER(name) __typeof__(name) *name;
    CALLS(MEMBER)
    uint8_t state[HLL_STATE_MOST(LG_K)], registers[COUNT];
};

static struct library libraries[2], *lib;
static uint8_t images[3][IMAGES][ROOM], twenty[IMAGES][ROOM], out[ROOM];
static size_t sizes[3][IMAGES], sizes_of_twenty[IMAGES];
static int width; /* its index */

static void stop(const char *why)
{
    fprintf(stderr, "processors: %s\n", why);
    exit(1);
}

static void need(hll_status status)
{
    if (status != HLL_OK)
        stop(hll_reason(status));
}

static void find(void *handle, const char *name, void *call)
{
    void *found = dlsym(handle, name);
    if (found == NULL)
        stop(dlerror());
    memcpy(call, &found, sizeof found);
}

static void load(struct library *to, const char *path, const char *processor)
{
    void *handle = dlopen(path, RTLD_NOW | RTLD_LOCAL);
    if (handle == NULL)
        stop(dlerror());
#define FIND(name) find(handle, #name, &to->name);
    CALLS(FIND)
    if (strcmp(processor, "-") != 0)
        setenv("HLL_CPU", processor, 1);
    printf("%s%s", to == libraries ? "" : ", ", to->hll_processor());
    unsetenv("HLL_CPU");
}

/* ---- what is timed ---- */

static void run_coupon(void)
{
    static uint64_t value;
    value += lib->hll_coupon((const uint8_t *)&value, 8);
}

static void run_coupons(void)
{
    static uint64_t values[1000];
    static size_t ends[1000];
    static uint32_t coupons[1000];
    size_t i;
    if (ends[0] == 0)
        for (i = 0; i < 1000; i++)
            values[i] = i, ends[i] = 8 * (i + 1);
    need(lib->hll_coupons((const uint8_t *)values, sizeof values, ends, 1000, coupons, 1000));
}

static void run_check(void)
{
    need(lib->hll_image_check(images[width][0], sizes[width][0]));
}

static void run_estimate(void)
{
    hll_estimation found;
    need(lib->hll_estimate(images[width][0], sizes[width][0], &found));
}

static void run_agree(void)
{
    uint8_t same;
    need(lib->hll_images_agree(images[width][0], sizes[width][0], images[width][0], sizes[width][0], &same, NULL));
}

static void run_merge(void)
{
    size_t size;
    need(lib->hll_image_merge(LG_K, 4 + 2 * (unsigned)width, images[width][0], sizes[width][0], images[width][1],
                              sizes[width][1], out, sizeof out, &size, NULL));
}

static void run_union(void)
{
    hll_bytes parts[64];
    size_t size, i;
    for (i = 0; i < 64; i++)
        parts[i].bytes = images[width][i % IMAGES], parts[i].len = sizes[width][i % IMAGES];
    need(lib->hll_images_unionv(LG_K, 4 + 2 * (unsigned)width, parts, 64, out, sizeof out, &size, NULL));
}

static void run_union_of_twenty(void)
{
    hll_bytes parts[64];
    size_t size, i;
    for (i = 0; i < 64; i++)
        parts[i].bytes = twenty[i % IMAGES], parts[i].len = sizes_of_twenty[i % IMAGES];
    need(lib->hll_images_unionv(LG_K, 8, parts, 64, out, sizeof out, &size, NULL));
}

static void run_convert(void)
{
    size_t size;
    need(lib->hll_image_convert(images[width][0], sizes[width][0], 8 - 2 * (unsigned)(width == 2), out, sizeof out, &size));
}

static void run_fold(void)
{
    size_t size;
    need(lib->hll_image_fold(images[width][0], sizes[width][0], LG_K - 2, out, sizeof out, &size));
}

static void run_add(void)
{
    static uint64_t value;
    size_t end = 8, size;
    value++;
    need(
        lib->hll_image_add(images[width][0], sizes[width][0], (const uint8_t *)&value, 8, &end, 1, out, sizeof out, &size));
}

static void run_registers_merge(void)
{
    need(lib->hll_registers_merge(lib->registers, COUNT, images[width][0], sizes[width][0], NULL));
}

static void run_join(void)
{
    size_t size;
    need(lib->hll_state_join(LG_K, lib->state, sizeof lib->state, &size, images[width][0], sizes[width][0]));
}

static void run_state_value(void)
{
    static uint64_t value;
    size_t size;
    value++;
    need(lib->hll_state_add_value(lib->state, sizeof lib->state, &size, (const uint8_t *)&value, 8));
}

static void run_state_image(void)
{
    size_t size;
    need(lib->hll_state_image(lib->state, sizeof lib->state, 4 + 2 * (unsigned)width, out, sizeof out, &size));
}

static void run_state_estimate(void)
{
    hll_estimation found;
    need(lib->hll_state_estimate(lib->state, sizeof lib->state, &found));
}

static const struct row {
    const char *name;
    void (*run)(void);
    int rounds, parts;
    int has_widths;
} rows[] = {
    {"union, each of 64 images", run_union, 20, 64, 1},
    {"union of 64 sketches of 20 values, each", run_union_of_twenty, 20, 64, 0},
    {"`hll_image_merge` of two images", run_merge, 300, 1, 1},
    {"`hll_image_check`", run_check, 4000, 1, 1},
    {"`hll_estimate`", run_estimate, 500, 1, 1},
    {"`hll_images_agree`, of the same bytes", run_agree, 2000, 1, 1},
    {"`hll_image_convert` from 8 bits to 6, from others to 8", run_convert, 800, 1, 1},
    {"`hll_image_fold` to `lg_k` 10", run_fold, 400, 1, 1},
    {"`hll_image_add` of 1", run_add, 400, 1, 1},
    {"`hll_registers_merge`", run_registers_merge, 1000, 1, 1},
    {"`hll_state_join`", run_join, 1000, 1, 1},
    {"`hll_state_image`", run_state_image, 800, 1, 1},
    {"`hll_state_estimate`", run_state_estimate, 500, 1, 0},
    {"`hll_state_add_value`, to registers", run_state_value, 20000, 1, 0},
    {"`hll_coupon` of 8 bytes", run_coupon, 40000, 1, 0},
    {"`hll_coupons` of 1,000 values of 8 bytes, each", run_coupons, 60, 1000, 0},
};

/* ---- timing ---- */

static double nanoseconds(const struct row *row)
{
    struct timespec begin, end;
    int i;
    clock_gettime(CLOCK_MONOTONIC, &begin);
    for (i = 0; i < row->rounds; i++)
        row->run();
    clock_gettime(CLOCK_MONOTONIC, &end);
    return ((double)(end.tv_sec - begin.tv_sec) * 1e9 + (double)(end.tv_nsec - begin.tv_nsec)) / row->rounds / row->parts;
}

/* The least times of many turns, with one library and then the other. */
static void time_both(const struct row *row, double *least)
{
    int turn, at;
    least[0] = least[1] = 1e18;
    for (turn = 0; turn < TURNS; turn++) {
        for (at = 0; at < 2; at++) {
            double time;
            lib = &libraries[(turn + at) % 2];
            time = nanoseconds(row);
            if (time < least[(turn + at) % 2])
                least[(turn + at) % 2] = time;
        }
    }
}

static void print_row(const struct row *row)
{
    double least[3][2];
    int w, columns = row->has_widths ? 3 : 1;
    for (w = 0; w < columns; w++) {
        width = 2 - w;
        time_both(row, least[w]);
    }
    printf("| %s |", row->name);
    for (w = 0; w < columns; w++)
        printf(w == 0 ? " %.1f → %.1f" : "; %.1f → %.1f", least[w][0], least[w][1]);
    printf(" |");
    for (w = 0; w < columns; w++)
        printf(w == 0 ? " %.2f" : "; %.2f", least[w][1] / least[w][0]);
    printf(" |\n");
}

static void make_image(int w, size_t n, uint64_t from, uint8_t *image, size_t *size)
{
    static uint64_t values[VALUES];
    static size_t ends[VALUES];
    uint8_t empty[8];
    size_t i, empty_size;
    for (i = 0; i < n; i++)
        values[i] = from + i, ends[i] = 8 * (i + 1);
    need(lib->hll_image_new(LG_K, 4 + 2 * (unsigned)w, empty, sizeof empty, &empty_size));
    need(lib->hll_image_add(empty, empty_size, (const uint8_t *)values, 8 * n, ends, n, image, ROOM, size));
}

int main(int argc, char **argv)
{
    size_t i;
    int w;
    if (argc != 5)
        stop("it takes two libraries, each with a kind of processor");
    load(&libraries[0], argv[1], argv[2]);
    load(&libraries[1], argv[3], argv[4]);
    lib = &libraries[0];
    for (i = 0; i < IMAGES; i++) {
        for (w = 0; w < 3; w++)
            make_image(w, VALUES, 1000000 * i, images[w][i], &sizes[w][i]);
        make_image(2, 20, 1000000 * i, twenty[i], &sizes_of_twenty[i]);
    }
    for (i = 0; i < 2; i++) {
        size_t size;
        need(libraries[i].hll_state_new(LG_K, libraries[i].state, sizeof libraries[i].state));
        need(libraries[i].hll_state_join(LG_K, libraries[i].state, sizeof libraries[i].state, &size, images[2][0],
                                         sizes[2][0]));
    }
    printf("\n\n| call | ns; at 8, 6 and 4 bits | ratio |\n|---|---|---|\n");
    for (i = 0; i < sizeof rows / sizeof rows[0]; i++)
        print_row(&rows[i]);
    return 0;
}
