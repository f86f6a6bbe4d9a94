/* SPDX-License-Identifier: Apache-2.0 */
/* Threads read one counter at once, with sorted coupons and with others. */
#include "test.h"

#include <pthread.h>

static hll_counter counter, sum_of[4];
static uint8_t wanted[HLL_IMAGE_MAX(12)];
static size_t wanted_len;
static hll_estimation estimate;
static long right[4];

static unsigned lg_k_of(const hll_counter *of)
{
    hll_state_summary said;
    return hll_counter_info(of, &said, sizeof said) == HLL_OK ? said.lg_k : 0;
}

static void *read_it(void *given)
{
    size_t me = (size_t)given;
    int i;
    for (i = 0; i < 50; i++) {
        uint8_t out[HLL_IMAGE_MAX(12)];
        size_t len;
        hll_estimation found;
        hll_counter copy;
        right[me] += hll_counter_image(&counter, 6, out, sizeof out, &len) == HLL_OK && len == wanted_len &&
                     memcmp(out, wanted, len) == 0;
        right[me] += hll_counter_estimate(&counter, &found) == HLL_OK && memcmp(&found, &estimate, sizeof found) == 0;
        hll_counter_init(&copy, 12, NULL, NULL);
        right[me] += hll_counter_copy(&copy, &counter) == HLL_OK && lg_k_of(&copy) == 12;
        hll_counter_free(&copy);
        right[me] += hll_counter_join_counter(&sum_of[me], &counter) == HLL_OK;
    }
    return NULL;
}

int main(void)
{
    static const int sizes[] = {0, 1, 7, 16, 17, 20, 100, 300, 380, 390, 5000};
    size_t i, t;
    for (i = 0; i < sizeof sizes / sizeof *sizes; i++) {
        int settled;
        for (settled = 0; settled < 2; settled++) {
            pthread_t threads[4];
            uint64_t value;
            hll_counter alone, before;
            hll_counter_init(&counter, 12, NULL, NULL);
            hll_counter_init(&alone, 12, NULL, NULL);
            for (value = 0; value < (uint64_t)sizes[i]; value++)
                hll_counter_add(&counter, (const uint8_t *)&value, 8);
            hll_counter_copy(&alone, &counter);
            hll_counter_settle(&alone);
            hll_counter_image(&alone, 6, wanted, sizeof wanted, &wanted_len);
            hll_counter_estimate(&alone, &estimate);
            if (settled)
                hll_counter_settle(&counter);
            before = counter;
            for (t = 0; t < 4; t++) {
                right[t] = 0;
                hll_counter_init(&sum_of[t], 12, NULL, NULL);
                pthread_create(&threads[t], NULL, read_it, (void *)t);
            }
            for (t = 0; t < 4; t++) {
                pthread_join(threads[t], NULL);
                CHECK(right[t] == 200, "%ld of 200 at %d values, settled %d", right[t], sizes[i], settled);
                hll_counter_free(&sum_of[t]);
            }
            CHECK(memcmp(&before, &counter, sizeof counter) == 0, "%d values, settled %d: readers changed the counter",
                  sizes[i], settled);
            hll_counter_free(&counter);
            hll_counter_free(&alone);
        }
    }
    return finish("counter_threads");
}
