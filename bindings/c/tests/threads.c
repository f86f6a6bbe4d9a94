/* SPDX-License-Identifier: Apache-2.0 */
/* Eight threads merge, unite, add and estimate at once, from the same inputs, and get what one thread gets; so they do
 * with registers, each with its own. */
#include "test.h"

#include <pthread.h>

#define THREADS 8
#define ROUNDS 300
#define STAGES 9

static bytes images[STAGES];
static bytes wanted[STAGES][WRITERS];
static hll_estimation estimations[STAGES];
static long differ[THREADS], done[THREADS];

/* One round: each call on each image, compared with what one thread got. */
static void run_round(size_t thread, uint8_t *out, size_t room)
{
    size_t i, j, size;
    for (i = 0; i < STAGES; i++) {
        hll_estimation found;
        for (j = 0; j < WRITERS; j++) {
            bytes image = images[(i + thread) % STAGES], want = wanted[(i + thread) % STAGES][j];
            hll_status status = writers[j].call(image.at, image.len, out, room, &size);
            differ[thread] += status != HLL_OK || size != want.len || memcmp(out, want.at, size) != 0;
            done[thread]++;
        }
        differ[thread] += hll_estimate(images[i].at, images[i].len, &found) != HLL_OK;
        differ[thread] += found.estimate != estimations[i].estimate || found.upper[2] != estimations[i].upper[2];
        done[thread]++;
    }
}

/* ---- registers, and unions of images that lie apart ---- */

#define VALUES ((size_t)500)

/* What the calls over registers make of the images and the values. */
typedef struct kept {
    uint8_t registers[1 << 12];
    uint8_t others[1 << 13];
    uint8_t folded[1 << 12];
    uint8_t image[HLL_IMAGE_MAX(12)];
    uint8_t united[HLL_IMAGE_MAX(12)];
    size_t image_size;
    size_t united_size;
    hll_histogram histogram;
    hll_estimation estimation;
} kept;

static uint8_t values[8 * VALUES];
static size_t ends[VALUES];
static uint32_t coupons[VALUES];
static hll_bytes parts[STAGES];
static kept one;

static void make_values(void)
{
    size_t i;
    for (i = 0; i < VALUES; i++) {
        values[8 * i] = (uint8_t)i;
        values[8 * i + 1] = (uint8_t)(i >> 8);
        ends[i] = 8 * (i + 1);
        coupons[i] = (uint32_t)(1 + i % 63) << 26 | (uint32_t)(i * 7919);
    }
    for (i = 0; i < STAGES; i++) {
        parts[i].bytes = images[i].at;
        parts[i].len = images[i].len;
    }
}

/* Each call over registers, and hll_images_unionv; how many were refused. */
static long run_kept(kept *made)
{
    size_t i, failed;
    uint8_t lg_k;
    long refused = 0;
    memset(made, 0, sizeof *made);
    for (i = 0; i < STAGES; i++)
        refused += hll_registers_merge(made->registers, sizeof made->registers, images[i].at, images[i].len, &lg_k) != HLL_OK;
    refused += hll_registers_add(made->others, sizeof made->others, values, sizeof values, ends, VALUES) != HLL_OK;
    refused += hll_registers_add_coupons(made->others, sizeof made->others, coupons, VALUES) != HLL_OK;
    refused += hll_registers_merge_registers(made->registers, sizeof made->registers, made->others, sizeof made->others, &lg_k)
               != HLL_OK;
    memcpy(made->folded, made->registers, sizeof made->folded);
    refused += hll_registers_fold(made->folded, sizeof made->folded, 9) != HLL_OK;
    refused += hll_registers_histogram(made->registers, sizeof made->registers, &made->histogram) != HLL_OK;
    refused += hll_registers_estimate(made->registers, sizeof made->registers, &made->estimation) != HLL_OK;
    refused += hll_registers_image(made->registers, sizeof made->registers, 6, made->image, sizeof made->image,
                                   &made->image_size) != HLL_OK;
    refused += hll_images_unionv(12, 4, parts, STAGES, made->united, sizeof made->united, &made->united_size, &failed) != HLL_OK;
    return refused;
}

static void run_kept_round(size_t thread, kept *made)
{
    differ[thread] += run_kept(made) != 0 || memcmp(made, &one, sizeof one) != 0;
    done[thread]++;
}

static void *run(void *argument)
{
    size_t thread = *(size_t *)argument;
    bytes out = with_room(HLL_IMAGE_MAX(12));
    kept *made = malloc(sizeof *made);
    int round;
    need(made != NULL, "memory for registers");
    for (round = 0; round < ROUNDS; round++) {
        run_round(thread, out.at, out.len);
        run_kept_round(thread, made);
    }
    free(made);
    free(out.at);
    return NULL;
}

static void make_images(void)
{
    size_t i, j;
    for (i = 0; i < STAGES; i++) {
        images[i] = image_of_values(12, (uint8_t)(4 + i % 3 * 2), 100 * i, values_of_stage[i / 3]);
        need(hll_estimate(images[i].at, images[i].len, &estimations[i]) == HLL_OK, "hll_estimate in threads");
        for (j = 0; j < WRITERS; j++) {
            wanted[i][j] = with_room(HLL_IMAGE_MAX(12));
            need(writers[j].call(images[i].at, images[i].len, wanted[i][j].at, wanted[i][j].len, &wanted[i][j].len)
                     == HLL_OK, "a call in threads");
        }
    }
}

int main(void)
{
    pthread_t threads[THREADS];
    size_t numbers[THREADS], i, j;
    make_images();
    make_values();
    need(run_kept(&one) == 0, "calls over registers");
    for (i = 0; i < THREADS; i++) {
        numbers[i] = i;
        need(pthread_create(&threads[i], NULL, run, &numbers[i]) == 0, "a thread");
    }
    for (i = 0; i < THREADS; i++) {
        need(pthread_join(threads[i], NULL) == 0, "the end of a thread");
        CHECK(differ[i] == 0, "%ld of %ld answers of thread %d differ", differ[i], done[i], (int)i);
        CHECK(done[i] == ROUNDS * (STAGES * (long)(WRITERS + 1) + 1), "thread %d did %ld calls", (int)i, done[i]);
    }
    for (i = 0; i < STAGES; i++) {
        for (j = 0; j < WRITERS; j++)
            free(wanted[i][j].at);
        free(images[i].at);
    }
    printf("%d threads of %ld calls each\n", THREADS, done[0]);
    return finish("eight threads at once");
}
