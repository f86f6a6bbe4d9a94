/* SPDX-License-Identifier: Apache-2.0 */
/* Times hll_images_unionv of two shared libraries of libhll in turn, and prints a table. bench/unions.py builds both and runs it.
 *
 *   unions EARLIER LATER */
#define _POSIX_C_SOURCE 200112L
#include "hll.h"

#include <dlfcn.h>
#include <stdio.h>
#include <stdlib.h>
#include <string.h>
#include <time.h>

enum { LG_K = 12, MOST = 1000, TURNS = 60, MOST_VALUES = 9000 };

typedef hll_status (*new_call)(unsigned, unsigned, uint8_t *, size_t, size_t *);
typedef hll_status (*add_call)(const uint8_t *, size_t, const uint8_t *, size_t, const size_t *, size_t, uint8_t *, size_t,
                               size_t *);
typedef hll_status (*union_call)(unsigned, unsigned, const hll_bytes *, size_t, uint8_t *, size_t, size_t *, size_t *);

static struct library {
    new_call image_new;
    add_call image_add;
    union_call images_unionv;
} libraries[2];

static uint8_t images[MOST][HLL_IMAGE_MAX(LG_K)], out[HLL_IMAGE_MAX(LG_K)];
static hll_bytes parts[MOST];
static size_t ends[MOST_VALUES], size, failed;
static uint64_t values[MOST_VALUES];

static void need(hll_status status)
{
    if (status != HLL_OK) {
        fprintf(stderr, "status %d\n", (int)status);
        exit(1);
    }
}

static void find(void *handle, const char *name, void *call)
{
    void *found = dlsym(handle, name);
    if (found == NULL) {
        fprintf(stderr, "%s\n", dlerror());
        exit(1);
    }
    memcpy(call, &found, sizeof found);
}

static void load(struct library *to, const char *path)
{
    void *handle = dlopen(path, RTLD_NOW | RTLD_LOCAL);
    if (handle == NULL) {
        fprintf(stderr, "%s\n", dlerror());
        exit(1);
    }
    find(handle, "hll_image_new", &to->image_new);
    find(handle, "hll_image_add", &to->image_add);
    find(handle, "hll_images_unionv", &to->images_unionv);
}

/* Makes images of this many values each, no two of them with the same values. */
static void make_images(unsigned width, size_t count)
{
    static uint8_t empty[HLL_IMAGE_MAX(LG_K)];
    size_t i, j, len;
    for (j = 0; j < count; j++)
        ends[j] = 8 * (j + 1);
    for (i = 0; i < MOST; i++) {
        for (j = 0; j < count; j++)
            values[j] = 1 + i * 1000003 + j;
        need(libraries[0].image_new(LG_K, width, empty, sizeof empty, &len));
        need(libraries[0].image_add(empty, len, (uint8_t *)values, 8 * count, ends, count, images[i], sizeof images[i],
                                    &parts[i].len));
        parts[i].bytes = images[i];
    }
}

static double now(void)
{
    struct timespec t;
    clock_gettime(CLOCK_PROCESS_CPUTIME_ID, &t);
    return 1e9 * (double)t.tv_sec + (double)t.tv_nsec;
}

/* Nanoseconds of CPU time of one union of this many images. */
static double timed(const struct library *with, size_t n, int times)
{
    double start = now();
    int i;
    for (i = 0; i < times; i++)
        need(with->images_unionv(LG_K, 8, parts, n, out, sizeof out, &size, &failed));
    return (now() - start) / times;
}

static void print_row(const char *what, size_t n)
{
    double least[2] = {1e18, 1e18};
    int turn, l, times = 1 + (int)(100000 / timed(&libraries[0], n, 1));
    for (turn = 0; turn < TURNS; turn++)
        for (l = 0; l < 2; l++) {
            double t = timed(&libraries[(l + turn) % 2], n, times);
            if (t < least[(l + turn) % 2])
                least[(l + turn) % 2] = t;
        }
    printf("| %s | %u | %.0f | %.2f |\n", what, (unsigned)n, least[1], least[1] / least[0]);
    fflush(stdout);
}

int main(int argc, char **argv)
{
    static const struct {
        const char *what;
        unsigned width;
        size_t count;
    } kinds[] = {{"empty lists", 8, 0},
                 {"lists of 5", 8, 5},
                 {"sets of 20", 8, 20},
                 {"sets of 300", 8, 300},
                 {"registers of 8 bits", 8, 9000},
                 {"of 6 bits", 6, 9000},
                 {"of 4 bits", 4, 9000}};
    static const size_t numbers[] = {1, 2, 3, 10, 64, 1000};
    size_t i, j;
    if (argc != 3)
        return 2;
    load(&libraries[0], argv[1]);
    load(&libraries[1], argv[2]);
    printf("| images | number | ns | ratio |\n|---|---|---|---|\n");
    for (i = 0; i < sizeof kinds / sizeof kinds[0]; i++) {
        make_images(kinds[i].width, kinds[i].count);
        for (j = 0; j < sizeof numbers / sizeof numbers[0]; j++)
            print_row(kinds[i].what, numbers[j]);
    }
    return 0;
}
