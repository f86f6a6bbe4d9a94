/* SPDX-License-Identifier: Apache-2.0 */
/*
 * The estimates of the library on random streams. bench/estimates.py compiles it, and calls it with the
 * number of the first stream and how many there are. A stream is a million distinct values of eight bytes, which the
 * library hashes; each of its fronts of 1, 2, 3, 5 .. values is estimated at each lg_k, from coupons as long as the library
 * keeps them, and then from registers.
 *
 * For each lg_k and number of values a line is printed: both, the number of streams, the sums of the relative errors,
 * of their squares, and of the squares of the standard errors that were told, how often the number was below the bounds at 1, 2
 * and 3 deviations, and how often it was above them.
 */
#include "../bindings/c/estimate.c"

#include <stdio.h>
#include <stdlib.h>
#include <string.h>

#define LARGEST 21
#define VALUES 1000000
#define BATCH 10000
#define LG_TABLE 19

#define SMALLEST 4
static const long fronts[] = {1,     2,     3,     5,      8,      9,      10,     12,     14,     16,     20,    24,
                              28,    32,    40,    50,     70,     100,    130,    150,    200,    300,    400,   500,
                              700,   1000,  1500,  2000,   3000,   4000,   5000,   7000,   8200,   10000,  15000, 20000,
                              30000, 50000, 70000, 100000, 190000, 200000, 300000, 500000, 700000, 1000000};

#define LG_KS (LARGEST - SMALLEST + 1)
#define FRONTS (int)(sizeof fronts / sizeof fronts[0])

static struct sums {
    long streams, below[3], above[3];
    double errors, squares, told;
} sums[LG_KS][FRONTS];

/* ---- a stream: its registers, and its distinct coupons while they are few ---- */

static uint8_t registers[1 << LARGEST];
static uint32_t table[1 << LG_TABLE];
static long distinct;

static void begin(void)
{
    memset(registers, 0, sizeof registers);
    memset(table, 0, sizeof table);
    distinct = 0;
}

/* More coupons than a table may have are not counted: no lg_k keeps so many. */
static void count_coupon(uint32_t coupon)
{
    uint32_t place = coupon * UINT32_C(2654435761) >> (32 - LG_TABLE);
    if (distinct > 1 << (LG_TABLE - 1))
        return;
    while (table[place] != 0 && table[place] != coupon)
        place = (place + 1) % (1 << LG_TABLE);
    distinct += table[place] == 0;
    table[place] = coupon;
}

static void add(uint32_t coupon)
{
    uint8_t *at = &registers[HLL_COUPON_SLOT(coupon) % (1 << LARGEST)];
    uint8_t value = HLL_COUPON_VALUE(coupon);
    if (value > *at)
        *at = value;
    count_coupon(coupon);
}

/* Whether the library keeps so many coupons in a list or a set. */
static int are_coupons(int lg_k, long count)
{
    return count <= 7 || (lg_k >= 8 && 4 * count <= 3L << (lg_k - 3));
}

/* ---- estimates ---- */

/* Registers of 2^from, folded to 2^to: each half is put upon the other, so the greater ones stay. */
static void fold(uint8_t *at, int from, int to)
{
    long half, slot;
    for (half = 1L << from >> 1; half >= 1L << to; half /= 2)
        for (slot = 0; slot < half; slot++)
            at[slot] = at[slot] > at[half + slot] ? at[slot] : at[half + slot];
}

static hll_estimation estimation_of_bytes(const uint8_t *at, int lg_k)
{
    hll_estimation found;
    if (hll_registers_estimate(at, (size_t)1 << lg_k, &found) != HLL_OK)
        exit(1);
    return found;
}

static void take(struct sums *to, hll_estimation found, double values)
{
    double error = found.estimate / values - 1;
    int d;
    to->streams++;
    to->errors += error;
    to->squares += error * error;
    to->told += found.relative_standard_error * found.relative_standard_error;
    for (d = 0; d < 3; d++) {
        to->below[d] += values < found.lower[d];
        to->above[d] += values > found.upper[d];
    }
}

/* ---- streams ---- */

/* The coupons of the values of a stream from a number on, by the library's hash. */
static void hash(uint64_t stream, long from, uint32_t *coupons)
{
    static uint8_t values[8 * BATCH];
    static size_t ends[BATCH];
    long i;
    int byte;
    for (i = 0; i < BATCH; i++) {
        uint64_t value = (stream << 32) + (uint64_t)(from + i);
        for (byte = 0; byte < 8; byte++)
            values[8 * i + byte] = (uint8_t)(value >> (8 * byte));
        ends[i] = 8 * (size_t)(i + 1);
    }
    if (hll_coupons(values, sizeof values, ends, BATCH, coupons, BATCH) != HLL_OK)
        exit(1);
}

/* Estimates what there is at each lg_k, from the largest on, as registers are folded from one to the next. */
static void take_front(int front)
{
    static uint8_t folded[1 << LARGEST];
    hll_estimation of_coupons = estimation_of_coupons((uint64_t)distinct);
    int lg_k = LARGEST, k;
    for (k = LARGEST; k >= SMALLEST && are_coupons(k, distinct); k--)
        take(&sums[k - SMALLEST][front], of_coupons, (double)fronts[front]);
    if (k < SMALLEST)
        return;
    memcpy(folded, registers, sizeof folded);
    for (; k >= SMALLEST; k--) {
        fold(folded, lg_k, k);
        lg_k = k;
        take(&sums[k - SMALLEST][front], estimation_of_bytes(folded, k), (double)fronts[front]);
    }
}

static void run(uint64_t stream)
{
    static uint32_t coupons[BATCH];
    long value;
    int front = 0;
    begin();
    for (value = 0; value < VALUES; value++) {
        if (value % BATCH == 0)
            hash(stream, value, coupons);
        add(coupons[value % BATCH]);
        if (value + 1 == fronts[front])
            take_front(front++);
    }
}

int main(int argc, char **argv)
{
    uint64_t first = argc > 2 ? strtoull(argv[1], NULL, 10) : 0, count = argc > 2 ? strtoull(argv[2], NULL, 10) : 0, i;
    int k, front;
    for (i = 0; i < count; i++)
        run(first + i);
    for (k = 0; k < LG_KS; k++)
        for (front = 0; front < FRONTS; front++) {
            struct sums *is = &sums[k][front];
            printf("%d %ld %ld %.17g %.17g %.17g %ld %ld %ld %ld %ld %ld\n", SMALLEST + k, fronts[front], is->streams,
                   is->errors, is->squares, is->told, is->below[0], is->below[1], is->below[2], is->above[0], is->above[1],
                   is->above[2]);
        }
    return 0;
}
