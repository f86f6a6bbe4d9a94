/* SPDX-License-Identifier: Apache-2.0 */
/* The seconds that each call of libhll takes for a megabyte of images: `small_images FILE`, where FILE has for each image its
 * length in four bytes, the lowest byte first, and the image. All images have one lg_k. bench/small_images.py makes the files. */
#include "../bindings/c/hll_state.h"

#include <stdio.h>
#include <stdlib.h>
#include <string.h>
#include <time.h>

#define MOST 200000
#define SECONDS 0.3

static uint8_t *file;
static const uint8_t *images[MOST];
static size_t lens[MOST], count, total;
static uint8_t out[HLL_IMAGE_MAX(21)], registers[1 << 21], state[HLL_STATE_MOST(21)];
static hll_bytes parts[MOST];
static uint8_t lg_k;

static void need(int holds, const char *what)
{
    if (!holds) {
        fprintf(stderr, "small_images: %s\n", what);
        exit(1);
    }
}

static double now(void)
{
    struct timespec at;
    clock_gettime(CLOCK_MONOTONIC, &at);
    return (double)at.tv_sec + 1e-9 * (double)at.tv_nsec;
}

/* ---- calls over the image with a number ---- */

static void check(size_t i)
{
    need(hll_image_check(images[i], lens[i]) == HLL_OK, "check");
}

static void info(size_t i)
{
    hll_info found;
    need(hll_image_info(images[i], lens[i], &found, sizeof found) == HLL_OK, "info");
}

static void estimate(size_t i)
{
    hll_estimation found;
    need(hll_estimate(images[i], lens[i], &found) == HLL_OK, "estimate");
}

static void histogram(size_t i)
{
    hll_histogram found;
    need(hll_image_histogram(images[i], lens[i], &found) == HLL_OK, "histogram");
}

static void convert(size_t i)
{
    size_t size;
    need(hll_image_convert(images[i], lens[i], 4, out, sizeof out, &size) == HLL_OK, "convert");
}

static void fold(size_t i)
{
    size_t size;
    need(hll_image_fold(images[i], lens[i], lg_k - 1u, out, sizeof out, &size) == HLL_OK, "fold");
}

static void add(size_t i)
{
    static const uint8_t value[8];
    size_t size, end = sizeof value;
    need(hll_image_add(images[i], lens[i], value, sizeof value, &end, 1, out, sizeof out, &size) == HLL_OK, "add");
}

static void add_coupon(size_t i)
{
    size_t size;
    need(hll_image_add_coupon(images[i], lens[i], 5, 2, out, sizeof out, &size) == HLL_OK, "add_coupon");
}

static void set_fields(size_t i)
{
    size_t size;
    need(hll_image_set_estimator_fields(images[i], lens[i], out, sizeof out, &size) == HLL_OK, "set_estimator_fields");
}

static void clear_fields(size_t i)
{
    size_t size;
    need(hll_image_clear_estimator_fields(images[i], lens[i], out, sizeof out, &size) == HLL_OK, "clear_estimator_fields");
}

static void merge(size_t i)
{
    size_t size, failed, j = i + 1 < count ? i + 1 : 0;
    need(hll_image_merge(lg_k, 8, images[i], lens[i], images[j], lens[j], out, sizeof out, &size, &failed) == HLL_OK, "merge");
}

static void agree(size_t i)
{
    uint8_t same;
    size_t failed, j = i + 1 < count ? i + 1 : 0;
    need(hll_images_agree(images[i], lens[i], images[j], lens[j], &same, &failed) == HLL_OK, "agree");
}

static void join(size_t i)
{
    size_t size;
    need(hll_state_join(lg_k, state, sizeof state, &size, images[i], lens[i]) == HLL_OK, "join");
}

static void merge_into_registers(size_t i)
{
    need(hll_registers_merge(registers, (size_t)1 << lg_k, images[i], lens[i], NULL) == HLL_OK, "registers");
}

/* ---- calls over all images ---- */

static void unionv(size_t i)
{
    size_t size, failed;
    (void)i;
    need(hll_images_unionv(lg_k, 8, parts, count, out, sizeof out, &size, &failed) == HLL_OK, "unionv");
}

/* The seconds a megabyte of a call: for each image, or once for all. */
static double seconds(void (*call)(size_t), int is_for_all)
{
    double start = now(), bytes = 0, passed;
    size_t i = 0;
    do {
        call(i);
        bytes += (double)(is_for_all ? total : lens[i]);
        i = i + 1 < count ? i + 1 : 0;
        passed = now() - start;
    } while (passed < SECONDS);
    return passed / bytes * 1e6;
}

static void read_file(const char *path)
{
    FILE *from = fopen(path, "rb");
    long size;
    uint8_t *at;
    need(from != NULL && fseek(from, 0, SEEK_END) == 0 && (size = ftell(from)) > 0, "the file can't be read");
    rewind(from);
    file = malloc((size_t)size);
    need(file != NULL && fread(file, 1, (size_t)size, from) == (size_t)size, "the file can't be read");
    fclose(from);
    for (at = file; at < file + size && count < MOST; count++) {
        lens[count] = at[0] | (size_t)at[1] << 8 | (size_t)at[2] << 16 | (size_t)at[3] << 24;
        images[count] = at + 4;
        parts[count].bytes = at + 4;
        parts[count].len = lens[count];
        total += lens[count];
        at += 4 + lens[count];
    }
    lg_k = images[0][3];
}

int main(int argc, char **argv)
{
    static const struct {
        const char *name;
        void (*call)(size_t);
        int is_for_all;
    } calls[] = {{"hll_image_check", check, 0},       {"hll_image_info", info, 0},
                 {"hll_estimate", estimate, 0},       {"hll_image_histogram", histogram, 0},
                 {"hll_image_convert", convert, 0},   {"hll_image_merge", merge, 0},
                 {"hll_images_agree", agree, 0},      {"hll_state_join", join, 0},
                 {"hll_registers_merge", merge_into_registers, 0}, {"hll_images_unionv", unionv, 1},
                 {"hll_image_fold", fold, 0},         {"hll_image_add", add, 0},
                 {"hll_image_add_coupon", add_coupon, 0}, {"hll_image_set_estimator_fields", set_fields, 0},
                 {"hll_image_clear_estimator_fields", clear_fields, 0}};
    size_t i;
    need(argc == 2, "a file of images is needed");
    read_file(argv[1]);
    for (i = 0; i < sizeof calls / sizeof *calls; i++) {
        memset(registers, 0, sizeof registers);
        need(hll_state_new(lg_k, state, sizeof state) == HLL_OK, "a new state");
        printf("%s %.6f\n", calls[i].name, seconds(calls[i].call, calls[i].is_for_all));
    }
    return 0;
}
