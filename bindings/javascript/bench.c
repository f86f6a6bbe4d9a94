/* SPDX-License-Identifier: Apache-2.0 */
/*
 * Times calls of libhll, to compare bench.mjs with, which makes the same calls on the same images in the WebAssembly module.
 *
 *     cc -O2 -I../c -o build/bench bench.c ../c/build/libhll.a && build/bench
 */
#include "hll.h"

#include <stdio.h>
#include <string.h>
#include <time.h>

#define IMAGES 32
#define VALUES 9000
#define MANY 100000

static uint8_t images[3][IMAGES][HLL_IMAGE_MAX(12)], values[8 * MANY], out[HLL_IMAGE_MAX(12)], registers[4096];
static size_t sizes[3][IMAGES], ends[VALUES];
static const unsigned widths[3] = {8, 6, 4};
static hll_counter counter;

static double now(void)
{
    struct timespec time;
    clock_gettime(CLOCK_MONOTONIC, &time);
    return (double)time.tv_sec * 1e9 + (double)time.tv_nsec;
}

static void fill(size_t n)
{
    static uint64_t next = 1;
    size_t i;
    int byte;
    for (i = 0; i < n; i++, next++)
        for (byte = 0; byte < 8; byte++)
            values[8 * i + (size_t)byte] = (uint8_t)(next >> 8 * byte);
}

static void make_images(void)
{
    uint8_t empty[8];
    size_t i, w, size;
    for (i = 0; i < VALUES; i++)
        ends[i] = 8 * (i + 1);
    for (w = 0; w < 3; w++)
        for (i = 0; i < IMAGES; i++) {
            fill(VALUES);
            (void)hll_image_new(12, widths[w], empty, sizeof empty, &size);
            (void)hll_image_add(empty, size, values, sizeof ends, ends, VALUES, images[w][i], sizeof images[w][i],
                                &sizes[w][i]);
        }
}

typedef void job(size_t w, size_t n);

static void join(size_t w, size_t n)
{
    size_t k;
    hll_counter_reset(&counter);
    for (k = 0; k < n; k++)
        (void)hll_counter_join(&counter, images[w][k % IMAGES], sizes[w][k % IMAGES]);
}

static void merge(size_t w, size_t n)
{
    size_t k, size, next;
    for (k = 0; k < n; k++) {
        next = (k + 1) % IMAGES;
        (void)hll_image_merge(12, widths[w], images[w][k % IMAGES], sizes[w][k % IMAGES], images[w][next], sizes[w][next],
                              out, sizeof out, &size, NULL);
    }
}

static void estimate(size_t w, size_t n)
{
    hll_estimation found;
    size_t k;
    for (k = 0; k < n; k++)
        (void)hll_estimate(images[w][k % IMAGES], sizes[w][k % IMAGES], &found);
}

static void check(size_t w, size_t n)
{
    size_t k;
    for (k = 0; k < n; k++)
        (void)hll_image_check(images[w][k % IMAGES], sizes[w][k % IMAGES]);
}

static void add(size_t w, size_t n)
{
    size_t k;
    (void)w;
    for (k = 0; k < n; k++)
        (void)hll_counter_add(&counter, values + 8 * k, 8);
}

static void add_to_registers(size_t w, size_t n)
{
    (void)w;
    (void)hll_registers_add_fixed(registers, sizeof registers, values, 8 * n, 8);
}

static void time_of(const char *name, job *work, size_t w, size_t n)
{
    double best = 1e300, taken;
    int round;
    for (round = 0; round < 15; round++) {
        taken = now();
        work(w, n);
        taken = (now() - taken) / (double)n;
        if (taken < best)
            best = taken;
    }
    printf("%-36s %10.1f ns\n", name, best);
}

int main(void)
{
    size_t w;
    char name[64];
    make_images();
    fill(MANY);
    if (hll_counter_init(&counter, 12, NULL, NULL) != HLL_OK)
        return 1;
    for (w = 0; w < 3; w++) {
        sprintf(name, "join an image, width %u", widths[w]);
        time_of(name, join, w, 3200);
        sprintf(name, "merge two images, width %u", widths[w]);
        time_of(name, merge, w, 320);
        sprintf(name, "estimate from an image, width %u", widths[w]);
        time_of(name, estimate, w, 320);
    }
    time_of("check an image, width 8", check, 0, 3200);
    time_of("add 8 bytes to a counter", add, 0, MANY);
    time_of("add 8 bytes to registers", add_to_registers, 0, MANY);
    hll_counter_free(&counter);
    return 0;
}
