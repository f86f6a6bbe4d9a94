/* SPDX-License-Identifier: Apache-2.0 */
/* Times calls of two shared libraries of libhll in turn, and prints a table. bench/against.py builds both and runs it.
 *
 *   against EARLIER LATER [WORD ..]     all rows, or those whose names contain a word */
#define _POSIX_C_SOURCE 200112L
#include "hll_state.h"

#include <dlfcn.h>
#include <stdio.h>
#include <stdlib.h>
#include <string.h>
#include <time.h>

enum { IMAGES = 16, MOST = 14, TURNS = 300, FEW = 300, SET_HEADER = 12, UPDATABLE_BYTE = 5, COMPACT = 8 };

/* ---- the calls of a library ---- */

struct library {
    hll_status (*image_new)(unsigned, unsigned, uint8_t *, size_t, size_t *);
    hll_status (*image_add)(const uint8_t *, size_t, const uint8_t *, size_t, const size_t *, size_t, uint8_t *, size_t, size_t *);
    hll_status (*image_convert)(const uint8_t *, size_t, unsigned, uint8_t *, size_t, size_t *);
    hll_status (*image_merge)(unsigned, unsigned, const uint8_t *, size_t, const uint8_t *, size_t, uint8_t *, size_t, size_t *, size_t *);
    hll_status (*unionv)(unsigned, unsigned, const hll_bytes *, size_t, uint8_t *, size_t, size_t *, size_t *);
    hll_status (*registers_merge)(uint8_t *, size_t, const uint8_t *, size_t, uint8_t *);
    hll_status (*new)(unsigned, void *, size_t);
    hll_status (*add)(void *, size_t, size_t *, const uint8_t *, size_t, const size_t *, size_t);
    hll_status (*add_value)(void *, size_t, size_t *, const uint8_t *, size_t);
    hll_status (*add_coupons)(void *, size_t, size_t *, const uint32_t *, size_t);
    hll_status (*join)(unsigned, void *, size_t, size_t *, const uint8_t *, size_t);
    hll_status (*image)(void *, size_t, unsigned, uint8_t *, size_t, size_t *);
    hll_status (*estimate)(void *, size_t, hll_estimation *);
    hll_status (*estimate_of_image)(const uint8_t *, size_t, hll_estimation *);
    uint32_t (*coupon)(const uint8_t *, size_t);
    /* (a state's registers begin 40 bytes after its start) */
    uint8_t state[HLL_STATE_MOST(MOST) + 64], registers[1 << MOST];
};

static struct library libraries[2], *lib;

static void need(hll_status status)
{
    if (status != HLL_OK) {
        fprintf(stderr, "status %d\n", (int)status);
        exit(1);
    }
}

static void find(void *handle, const char *name, void *call)
{
    void *found = dlsym(handle, name);
    if (found == NULL) {
        fprintf(stderr, "%s\n", dlerror());
        exit(1);
    }
    memcpy(call, &found, sizeof found);
}

static void load(struct library *to, const char *path)
{
    void *handle = dlopen(path, RTLD_NOW | RTLD_LOCAL);
    if (handle == NULL) {
        fprintf(stderr, "%s\n", dlerror());
        exit(1);
    }
    find(handle, "hll_image_new", &to->image_new);
    find(handle, "hll_image_add", &to->image_add);
    find(handle, "hll_image_convert", &to->image_convert);
    find(handle, "hll_image_merge", &to->image_merge);
    find(handle, "hll_images_unionv", &to->unionv);
    find(handle, "hll_registers_merge", &to->registers_merge);
    find(handle, "hll_state_new", &to->new);
    find(handle, "hll_state_add", &to->add);
    find(handle, "hll_state_add_value", &to->add_value);
    find(handle, "hll_state_add_coupons", &to->add_coupons);
    find(handle, "hll_state_join", &to->join);
    find(handle, "hll_state_image", &to->image);
    find(handle, "hll_state_estimate", &to->estimate);
    find(handle, "hll_estimate", &to->estimate_of_image);
    find(handle, "hll_coupon", &to->coupon);
}

/* ---- images ---- */

static uint8_t images[IMAGES][HLL_IMAGE_MAX(MOST)], out[HLL_IMAGE_MAX(MOST)];
static size_t lens[IMAGES], size, failed, count;
static hll_bytes parts[IMAGES];
static unsigned k, width;
static uint64_t numbers[4096], next, raising[IMAGES];
static size_t ends[4096];
static uint32_t coupons[4096];

static void number_from(uint64_t from)
{
    size_t i;
    for (i = 0; i < 4096; i++) {
        numbers[i] = from + i;
        ends[i] = 8 * (i + 1);
    }
}

static void add_to_image(uint8_t *image, size_t *len, uint64_t from, size_t n)
{
    static uint8_t before[HLL_IMAGE_MAX(MOST)];
    number_from(from);
    memcpy(before, image, *len);
    need(lib->image_add(before, *len, (uint8_t *)numbers, 8 * n, ends, n, image, HLL_IMAGE_MAX(MOST), len));
}

static void make_images(void)
{
    size_t i, at;
    for (i = 0; i < IMAGES; i++) {
        need(lib->image_new(k, width, images[i], sizeof images[i], &lens[i]));
        for (at = 0; at < count; at += 4096)
            add_to_image(images[i], &lens[i], 1 + i * 1000003 + at, count - at < 4096 ? count - at : 4096);
        parts[i].bytes = images[i];
        parts[i].len = lens[i];
    }
}

static uint32_t word_at(const uint8_t *from)
{
    uint32_t word;
    memcpy(&word, from, 4);
    return word;
}

/* Puts the coupons of the images, which are sets, into the order of their tables, with the empty buckets or without. */
static void place_coupons(int updatable)
{
    static uint8_t buckets[4 << MOST];
    size_t i, c;
    for (i = 0; i < IMAGES; i++) {
        uint8_t lg_size = images[i][4];
        uint32_t mask = (1u << lg_size) - 1, at;
        memset(buckets, 0, (size_t)4 << lg_size);
        for (c = SET_HEADER; c < lens[i]; c += 4) {
            uint32_t coupon = word_at(images[i] + c), stride = HLL_COUPON_SLOT(coupon) >> lg_size | 1;
            for (at = coupon & mask; word_at(buckets + 4 * at) != 0;)
                at = (at + stride) & mask;
            memcpy(buckets + 4 * at, &coupon, 4);
        }
        lens[i] = SET_HEADER;
        if (updatable)
            images[i][UPDATABLE_BYTE] &= (uint8_t)~COMPACT;
        for (at = 0; at <= mask; at++)
            if (updatable || word_at(buckets + 4 * at) != 0) {
                memcpy(images[i] + lens[i], buckets + 4 * at, 4);
                lens[i] += 4;
            }
        parts[i].len = lens[i];
    }
}

/* ---- what is timed: IMAGES calls each ---- */

static void fresh(void)
{
    size_t i;
    need(lib->new(k, lib->state, sizeof lib->state));
    memset(lib->registers, 0, sizeof lib->registers);
    for (i = 0; i < IMAGES; i++)
        need(lib->join(0, lib->state, sizeof lib->state, &size, images[i], lens[i]));
}

static void run_join(void)
{
    size_t i;
    for (i = 0; i < IMAGES; i++)
        need(lib->join(0, lib->state, sizeof lib->state, &size, images[i], lens[i]));
}

static void run_new_join(void)
{
    size_t i;
    for (i = 0; i < IMAGES; i++) {
        need(lib->new(k, lib->state, sizeof lib->state));
        need(lib->join(0, lib->state, sizeof lib->state, &size, images[i], lens[i]));
    }
}

static void run_registers(void)
{
    size_t i;
    uint8_t lg_k;
    for (i = 0; i < IMAGES; i++)
        need(lib->registers_merge(lib->registers, (size_t)1 << k, images[i], lens[i], &lg_k));
}

static void run_union(void)
{
    need(lib->unionv(k, 8, parts, IMAGES, out, sizeof out, &size, &failed));
}

static void run_merge(void)
{
    size_t i;
    for (i = 0; i < IMAGES; i++)
        need(lib->image_merge(k, 8, images[i], lens[i], images[i ^ 1], lens[i ^ 1], out, sizeof out, &size, &failed));
}

static void run_held(void)
{
    int i;
    for (i = 0; i < IMAGES; i++) {
        uint64_t value = 1 + (next++ & 0xfff);
        need(lib->add_value(lib->state, sizeof lib->state, &size, (uint8_t *)&value, 8));
    }
}

static void run_held_values(void)
{
    int i;
    number_from(1);
    for (i = 0; i < IMAGES; i++)
        need(lib->add(lib->state, sizeof lib->state, &size, (uint8_t *)numbers, 8 * 100, ends, 100));
}

static void run_held_coupons(void)
{
    int i;
    for (i = 0; i < IMAGES; i++)
        need(lib->add_coupons(lib->state, sizeof lib->state, &size, coupons, 100));
}

static void run_rise(void)
{
    int i;
    size_t registers = (size_t)1 << k;
    memset(lib->state + 40, 0, registers);
    for (i = 0; i < IMAGES; i++) {
        uint64_t value = 1000000 + (uint64_t)i;
        need(lib->add_value(lib->state, sizeof lib->state, &size, (uint8_t *)&value, 8));
    }
}

static void run_new_values(void)
{
    int i, v;
    number_from(next += 4096);
    for (i = 0; i < IMAGES; i++) {
        need(lib->new(k, lib->state, sizeof lib->state));
        for (v = 0; v < FEW; v++)
            need(lib->add_value(lib->state, sizeof lib->state, &size, (uint8_t *)&numbers[v], 8));
    }
}

static void run_image(unsigned bits)
{
    int i;
    for (i = 0; i < IMAGES; i++)
        need(lib->image(lib->state, sizeof lib->state, bits, out, sizeof out, &size));
}

static void run_image_8(void) { run_image(8); }
static void run_image_6(void) { run_image(6); }
static void run_image_4(void) { run_image(4); }

static void run_estimate(void)
{
    int i;
    hll_estimation estimation;
    for (i = 0; i < IMAGES; i++)
        need(lib->estimate(lib->state, sizeof lib->state, &estimation));
}

static void run_estimate_of_image(void)
{
    int i;
    hll_estimation estimation;
    for (i = 0; i < IMAGES; i++)
        need(lib->estimate_of_image(images[i], lens[i], &estimation));
}

static void run_convert(void)
{
    int i;
    for (i = 0; i < IMAGES; i++)
        need(lib->image_convert(images[i], lens[i], 0, out, sizeof out, &size));
}

/* A value that each image has. */
static void run_image_held(void)
{
    int i;
    for (i = 0; i < IMAGES; i++) {
        uint64_t value = 1 + (uint64_t)i * 1000003;
        need(lib->image_add(images[i], lens[i], (uint8_t *)&value, 8, ends, 1, out, sizeof out, &size));
    }
}

static int changes_register(int i, uint64_t value)
{
    need(lib->image_add(images[i], lens[i], (uint8_t *)&value, 8, ends, 1, out, sizeof out, &size));
    return size != lens[i] || memcmp(out, images[i], size) != 0;
}

/* A value for each image that changes a register of it. */
static void find_raising(void)
{
    int i;
    for (i = 0; i < IMAGES; i++)
        for (raising[i] = (uint64_t)1 << 40; !changes_register(i, raising[i]); raising[i]++)
            ;
}

static void run_image_raised(void)
{
    int i;
    for (i = 0; i < IMAGES; i++)
        need(lib->image_add(images[i], lens[i], (uint8_t *)&raising[i], 8, ends, 1, out, sizeof out, &size));
}

/* ---- rows ---- */

struct call {
    const char *name;
    void (*run)(void);
};

static const struct call of_registers[] = {
    {"join", run_join},
    {"hll_registers_merge", run_registers},
    {"union", run_union},
    {"add a held value", run_held},
    {"add 100 held values", run_held_values},
    {"add 100 held coupons", run_held_coupons},
    {"add a value that changes a register", run_rise},
    {"300 new values", run_new_values},
    {"image, 8 bits", run_image_8},
    {"image, 6 bits", run_image_6},
    {"image, 4 bits", run_image_4},
    {"estimate", run_estimate},
    {"estimate of an image", run_estimate_of_image},
    {"convert an image to its own width", run_convert},
    {"add a value that an image has", run_image_held},
    {"add a value that changes an image", run_image_raised},
    {NULL, NULL},
};
static const struct call of_coupons[] = {
    {"join", run_join},
    {"join into a new state", run_new_join},
    {"union", run_union},
    {"merge", run_merge},
    {"image, 8 bits", run_image_8},
    {"estimate", run_estimate},
    {"estimate of an image", run_estimate_of_image},
    {NULL, NULL},
};

static double now(void)
{
    struct timespec t;
    clock_gettime(CLOCK_MONOTONIC, &t);
    return 1e9 * (double)t.tv_sec + (double)t.tv_nsec;
}

/* Nanoseconds for one of IMAGES calls, with this library. */
static double timed(const struct call *call, struct library *with, int times)
{
    double start;
    int i;
    lib = with;
    start = now();
    for (i = 0; i < times; i++)
        call->run();
    return (now() - start) / times / IMAGES;
}

static int wanted(const char *name, char **words)
{
    if (*words == NULL)
        return 1;
    for (; *words != NULL; words++)
        if (strstr(name, *words) != NULL)
            return 1;
    return 0;
}

static void print_row(const char *name, const struct call *call)
{
    double least[2] = { 1e18, 1e18 };
    int turn, l, times;
    for (l = 0; l < 2; l++) {
        lib = &libraries[l];
        fresh();
    }
    times = 1 + (int)(20000 / (timed(call, &libraries[0], 1) * IMAGES));
    for (turn = 0; turn < TURNS; turn++)
        for (l = 0; l < 2; l++) {
            double t = timed(call, &libraries[(l + turn) % 2], times);
            if (t < least[(l + turn) % 2])
                least[(l + turn) % 2] = t;
        }
    printf("%-50s %9.1f %9.1f %6.2f\n", name, least[0], least[1], least[1] / least[0]);
    fflush(stdout);
}

static void print_rows(const char *what, const struct call *call, char **words)
{
    char name[100];
    for (; call->name != NULL; call++) {
        sprintf(name, "lg_k %u, %s: %s", k, what, call->name);
        if (wanted(name, words))
            print_row(name, call);
    }
}

static void make(unsigned lg_k, unsigned bits, size_t n)
{
    lib = &libraries[0];
    k = lg_k, width = bits, count = n;
    make_images();
}

static void print_registers(unsigned lg_k, char **words)
{
    static const unsigned widths[] = { 8, 6, 4 };
    char what[20];
    int w;
    for (w = 0; w < 3; w++) {
        make(lg_k, widths[w], (size_t)5 << lg_k);
        find_raising();
        sprintf(what, "%u bits", widths[w]);
        print_rows(what, of_registers, words);
    }
}

static void print_coupons(unsigned lg_k, size_t n, char **words)
{
    static const char *const orders[] = { "ascending", "in table order", "updatable" };
    char what[40];
    int order;
    for (order = 0; order < (n > 8 ? 3 : 1); order++) {
        make(lg_k, 8, n);
        if (order > 0)
            place_coupons(order == 2);
        sprintf(what, "%u coupons %s", (unsigned)n, orders[order]);
        print_rows(what, of_coupons, words);
    }
}

static void make_coupons(void)
{
    int i;
    for (i = 0; i < 4096; i++) {
        uint64_t value = 1 + (uint64_t)i;
        coupons[i] = libraries[0].coupon((uint8_t *)&value, 8);
    }
}

int main(int argc, char **argv)
{
    static const unsigned lg_ks[] = { 10, 12, 14 };
    int i;
    if (argc < 3)
        return 2;
    load(&libraries[0], argv[1]);
    load(&libraries[1], argv[2]);
    make_coupons();
    printf("%-50s %9s %9s %6s\n", "ns a call", "earlier", "later", "ratio");
    for (i = 0; i < 3; i++) {
        print_registers(lg_ks[i], argv + 3);
        print_coupons(lg_ks[i], 1, argv + 3);
        print_coupons(lg_ks[i], 5, argv + 3);
        print_coupons(lg_ks[i], 20, argv + 3);
    }
    print_coupons(14, FEW, argv + 3);
    return 0;
}
