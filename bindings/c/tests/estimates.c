/* SPDX-License-Identifier: Apache-2.0 */
/* Estimates of streams whose number of values is known, of images whose numbers were computed elsewhere (expected.py),
 * and of those that the other tests don't reach. */
#include "test.h"

#include <math.h>

struct numbers {
    double estimate, error, lower[3], upper[3];
};

struct histogram_row {
    uint8_t lg_k;
    struct { uint8_t value; uint32_t count; } runs[6];
    struct numbers wanted;
};

struct coupons_row {
    uint8_t lg_k;
    uint32_t count;
    struct numbers wanted;
};

#include "expected.h"

static int is_near(double is, double wanted, double part)
{
    double off = is > wanted ? is - wanted : wanted - is;
    return off <= part * wanted;
}

/* An estimate between its bounds, which are wider at more deviations. */
static void check_order(const hll_estimation *found, const char *what)
{
    CHECK(found->lower[2] <= found->lower[1] && found->lower[1] <= found->lower[0], "%s: lower bounds", what);
    CHECK(found->lower[0] <= found->estimate && found->estimate <= found->upper[0], "%s: an estimate outside", what);
    CHECK(found->upper[0] <= found->upper[1] && found->upper[1] <= found->upper[2], "%s: upper bounds", what);
}

/* What is estimated from the histogram of registers is that of the image. */
static void check_parts(const bytes *image, const hll_info *info, const hll_estimation *wanted)
{
    hll_estimation found;
    hll_histogram histogram;
    memset(&found, 0, sizeof found);
    if (info->stage != HLL_REGISTERS)
        return;
    CHECK(hll_image_histogram(image->at, image->len, &histogram) == HLL_OK, "histogram");
    CHECK(hll_histogram_estimate(&histogram, &found) == HLL_OK, "from a histogram");
    CHECK(memcmp(&found, wanted, sizeof found) == 0, "stage %d: %g for %g", info->stage, found.estimate, wanted->estimate);
}

/* Histograms of another number of registers are refused, however large their counts are. */
static void test_other_histograms(void)
{
    hll_histogram histogram;
    hll_estimation found, before;
    unsigned value, shift;
    memset(&found, 0xa5, sizeof found), before = found;
    memset(&histogram, 0, sizeof histogram);
    CHECK(hll_histogram_estimate(&histogram, &found) == HLL_ARGUMENT, "no registers");
    for (value = 0; value < 64; value++)
        for (shift = 0; shift < 64; shift++) {
            int is_lg_k = 4 <= shift && shift <= 21;
            hll_status status;
            histogram.counts[value] = (uint64_t)1 << shift;
            status = hll_histogram_estimate(&histogram, &found);
            CHECK(status == (is_lg_k ? HLL_OK : HLL_ARGUMENT), "2^%u of %u: %d", shift, value, status);
            CHECK(!is_lg_k || found.estimate >= (value ? 1 : 0) * (double)((uint64_t)1 << shift), "%g", found.estimate);
            found = before;
            histogram.counts[value] += 3;
            CHECK(hll_histogram_estimate(&histogram, &found) == HLL_ARGUMENT, "2^%u and 3 of %u", shift, value);
            found = before;
            histogram.counts[value] = 0;
        }
    for (value = 0; value < 64; value++)
        histogram.counts[value] = UINT64_MAX;
    CHECK(hll_histogram_estimate(&histogram, &found) == HLL_ARGUMENT, "the greatest counts");
    histogram.counts[0] = 16;
    histogram.counts[1] = UINT64_MAX - 1;
    CHECK(hll_histogram_estimate(&histogram, &found) == HLL_ARGUMENT, "counts whose sum would wrap around");
    CHECK(memcmp(&found, &before, sizeof found) == 0, "a refusal writes nothing");
}

/* ---- bounds of many registers, and of many streams ---- */

/* Numbers that look random, and are the same at each run (splitmix64). */
static uint64_t next_number(uint64_t *state)
{
    uint64_t x = *state += UINT64_C(0x9e3779b97f4a7c15);
    x = (x ^ x >> 30) * UINT64_C(0xbf58476d1ce4e5b9);
    x = (x ^ x >> 27) * UINT64_C(0x94d049bb133111eb);
    return x ^ x >> 31;
}

/* Puts 2^lg_k registers into a histogram, of which `seen` are above 0: half of them have a value, half of the others the next value,
 * and so on; if not `is_usual`, each part is any part. The value after 63 is 1. */
static void fill(hll_histogram *to, unsigned lg_k, uint64_t seen, unsigned first, int is_usual, uint64_t *state)
{
    uint64_t left = seen;
    unsigned value = first;
    memset(to, 0, sizeof *to);
    to->counts[0] = ((uint64_t)1 << lg_k) - seen;
    while (left != 0) {
        uint64_t part = is_usual ? (left + 1) / 2 : next_number(state) % left + 1;
        to->counts[value] += part;
        left -= part;
        value = value % 63 + 1;
    }
}

/* Adds the bits of a number to a sum of all. */
static void sum_bits(uint64_t *sum, double number)
{
    uint64_t bits;
    memcpy(&bits, &number, sizeof bits);
    *sum = (*sum ^ bits) * UINT64_C(0x100000001b3);
    *sum ^= *sum >> 29;
}

/* Checks the order of the bounds of a histogram, that they are numbers of values, and that the lower ones are at least the number of
 * registers above 0. */
static void check_bounds(const hll_histogram *histogram, uint64_t seen, uint64_t *sum)
{
    hll_estimation found;
    int d;
    CHECK(hll_histogram_estimate(histogram, &found) == HLL_OK, "%d seen", (int)seen);
    check_order(&found, "a histogram");
    CHECK(found.lower[2] >= (double)seen, "%d seen: %.17g below", (int)seen, found.lower[2]);
    CHECK(found.upper[2] < INFINITY || found.estimate == INFINITY, "%d seen: %.17g above", (int)seen, found.upper[2]);
    for (d = 0; d < 3; d++) {
        sum_bits(sum, found.lower[d]);
        sum_bits(sum, found.upper[d]);
    }
}

/* Registers of each lg_k, from one above 0 to all, with usual values and with any. Their bounds have the same bits on every
 * processor, of which BITS is a sum. */
#define BITS UINT64_C(0xbdc332221cb34d9a)

static void test_bounds(void)
{
    uint64_t state = 1, sum = 0;
    hll_histogram histogram;
    unsigned lg_k, first;
    for (lg_k = 4; lg_k <= 21; lg_k++) {
        uint64_t count = (uint64_t)1 << lg_k, seen;
        for (seen = 1; seen <= count; seen += seen / 64 + 1) {
            fill(&histogram, lg_k, seen, 1, 1, &state);
            check_bounds(&histogram, seen, &sum);
            fill(&histogram, lg_k, seen, 1 + (unsigned)(next_number(&state) % 63), 0, &state);
            check_bounds(&histogram, seen, &sum);
        }
        for (first = 1; first < 64; first++) {
            fill(&histogram, lg_k, count, first, 1, &state);
            check_bounds(&histogram, count, &sum);
        }
    }
    CHECK(sum == BITS, "other bits: 0x%08lx%08lx", (unsigned long)(sum >> 32), (unsigned long)(sum & 0xffffffff));
}

/* In how many of STREAMS streams the number of values may be below the bounds at 1, 2 and 3 deviations, in how many it may be above
 * them, and in how many it may be outside: as in the tails of a normal distribution, and 3.5 standard errors of this trial. */
#define STREAMS 2000
static const int fewest_missed[3] = {261, 23, 0}, most_missed[3] = {374, 68, 8}, most_outside[3] = {707, 123, 13};

/* In how many streams the number of values is below the bounds, and above them. */
struct missed {
    int below[3], above[3];
};

static void count_missed(struct missed *missed, const hll_estimation *found, double values)
{
    int d;
    for (d = 0; d < 3; d++) {
        missed->below[d] += values < found->lower[d];
        missed->above[d] += values > found->upper[d];
    }
}

/* Counts streams of n values, no two of which are equal, in 2^lg_k registers. */
static struct missed run_streams(unsigned lg_k, size_t n, uint64_t seed)
{
    static uint8_t registers[1024];
    static uint64_t values[4096];
    struct missed missed = {{0, 0, 0}, {0, 0, 0}};
    hll_estimation found;
    int stream;
    size_t i;
    for (stream = 0; stream < STREAMS; stream++) {
        memset(registers, 0, sizeof registers);
        for (i = 0; i < n; i++)
            values[i] = next_number(&seed);
        need(hll_registers_add_fixed(registers, (size_t)1 << lg_k, (const uint8_t *)values, 8 * n, 8) == HLL_OK, "values");
        need(hll_registers_estimate(registers, (size_t)1 << lg_k, &found) == HLL_OK, "registers");
        count_missed(&missed, &found, (double)n);
    }
    return missed;
}

/* Whether as many streams are below or above bounds at d + 1 deviations as of a normal distribution. */
static int is_normal(int missed, int d)
{
    return fewest_missed[d] <= missed && missed <= most_missed[d];
}

static void check_missed(unsigned lg_k, size_t n, const struct missed *missed)
{
    int d;
    for (d = 0; d < 3; d++) {
        int below = missed->below[d], above = missed->above[d];
        CHECK(below + above <= most_outside[d], "lg_k %u, %d values, %d: %d and %d", lg_k, (int)n, d + 1, below, above);
        CHECK(n <= 100 || is_normal(below, d), "lg_k %u, %d values, %d: %d below", lg_k, (int)n, d + 1, below);
        CHECK(n <= 100 || is_normal(above, d), "lg_k %u, %d values, %d: %d above", lg_k, (int)n, d + 1, above);
    }
}

/* Random streams, the same at each run. Up to 100 values bounds miss at most as often as those of a normal distribution; above, they
 * miss as often on each side. bench/estimates.py makes a larger trial. */
static void test_missed(void)
{
    static const struct {
        unsigned lg_k;
        size_t n;
    } rows[] = {{4, 8},   {4, 11},   {4, 24},  {4, 64},  {5, 9},   {5, 12},  {5, 32},   {6, 5},    {6, 12},
                {6, 20},  {7, 9},    {7, 16},  {7, 32},  {8, 3},   {8, 28},  {8, 48},   {4, 128},  {4, 1000},
                {5, 150}, {5, 1000}, {6, 150}, {6, 500}, {7, 200}, {8, 300}, {8, 3000}, {10, 1000}};
    size_t i;
    for (i = 0; i < sizeof rows / sizeof rows[0]; i++) {
        struct missed missed = run_streams(rows[i].lg_k, rows[i].n, i << 32);
        check_missed(rows[i].lg_k, rows[i].n, &missed);
    }
}

/* Where the estimate is not Ertl's: of one register above 0 it is the number of such registers, and of few registers it is divided
 * by 1 + e / m. The values were computed with 60 digits. */
static void test_corrected(void)
{
    hll_histogram histogram = {{4095, 1}};
    hll_estimation found;
    CHECK(hll_histogram_estimate(&histogram, &found) == HLL_OK && found.estimate == 1.0, "%.17g of one register", found.estimate);
    histogram.counts[0] = 0;
    histogram.counts[1] = 16;
    CHECK(hll_histogram_estimate(&histogram, &found) == HLL_OK && fabs(found.estimate - 21.6235322288) < 1e-8, "%.17g of sixteen",
          found.estimate);
}

/* Streams of n values: within four deviations of n, and for coupons within a thousandth. */
static void test_streams(void)
{
    static const size_t sizes[] = {0, 1, 2, 3, 7, 8, 20, 100, 300, 400, 1000, 10000, 100000};
    static const uint8_t lg_ks[] = {4, 8, 12, 14};
    size_t i, j;
    unsigned width;
    for (i = 0; i < 4; i++)
        for (width = 4; width <= 8; width += 2)
            for (j = 0; j < sizeof sizes / sizeof sizes[0]; j++) {
                bytes image = image_of_values(lg_ks[i], (uint8_t)width, 17, sizes[j]);
                hll_estimation found;
                hll_info info;
                double n = (double)sizes[j];
                CHECK(hll_estimate(image.at, image.len, &found) == HLL_OK, "%d values", (int)n);
                CHECK(hll_image_info(image.at, image.len, &info, sizeof info) == HLL_OK, "info");
                check_order(&found, "a stream");
                check_parts(&image, &info, &found);
                CHECK(is_near(found.estimate, n, 4 * found.relative_standard_error + 1e-9), "lg_k %d: %g for %g",
                      lg_ks[i], found.estimate, n);
                CHECK(found.lower[2] <= n * (1 + 1e-9) && n <= found.upper[2] * (1 + 1e-9), "lg_k %d: %g outside",
                      lg_ks[i], n);
                if (info.stage != HLL_REGISTERS)
                    CHECK(is_near(found.estimate, n, 1e-3) && found.lower[0] >= n, "%g for %g", found.estimate, n);
                free(image.at);
            }
}

/* The estimate is of the registers, so it is the same at each width, and after a change of width. */
static void test_widths(void)
{
    bytes eight = image_of_values(12, 8, 3, 30000), four = image_of_values(12, 4, 3, 30000);
    hll_estimation of_eight, of_four;
    CHECK(hll_estimate(eight.at, eight.len, &of_eight) == HLL_OK, "eight bits");
    CHECK(hll_estimate(four.at, four.len, &of_four) == HLL_OK, "four bits");
    CHECK(of_eight.estimate == of_four.estimate && of_eight.lower[1] == of_four.lower[1], "widths differ");
    free(eight.at);
    free(four.at);
}

/* ---- numbers that were computed elsewhere ---- */

/* How far numbers may be off, as a part of them, and as a number. */
struct precision {
    double part, number;
};

/* What sums in another order may differ by; and what docs/NUMBERS.md says of estimates from registers, which are doubles
 * beside. Bounds are made of these, and are at most twice as far off. */
static const struct precision of_coupons = {1e-13, 0.0}, of_registers = {0x1p-40 + 0x1p-53, 0x1p-32};

static int is_same(double is, double wanted, const struct precision *precision, double times)
{
    double off = is > wanted ? is - wanted : wanted - is;
    return is == wanted || off <= times * (precision->part * wanted + precision->number);
}

static void check_numbers(const bytes *image, const struct numbers *wanted, const struct precision *precision,
                          const char *what, size_t row)
{
    hll_estimation found;
    int d;
    CHECK(hll_estimate(image->at, image->len, &found) == HLL_OK, "%s %d", what, (int)row);
    CHECK(is_same(found.estimate, wanted->estimate, precision, 1), "%s %d: %.17g", what, (int)row, found.estimate);
    CHECK(is_same(found.relative_standard_error, wanted->error, precision, 1), "%s %d: %.17g", what, (int)row,
          found.relative_standard_error);
    for (d = 0; d < 3; d++) {
        CHECK(is_same(found.lower[d], wanted->lower[d], precision, 2), "%s %d: %.17g below", what, (int)row,
              found.lower[d]);
        CHECK(is_same(found.upper[d], wanted->upper[d], precision, 2), "%s %d: %.17g above", what, (int)row,
              found.upper[d]);
    }
}

/* Registers of eight bits, in runs of one value. */
static bytes image_of_runs(const struct histogram_row *row)
{
    bytes image = with_room(40 + ((size_t)1 << row->lg_k));
    uint8_t *at = image.at + 40;
    size_t run;
    memset(image.at, 0, image.len);
    memcpy(image.at, "\12\1\7\0\0\20\0\12", 8);
    image.at[3] = row->lg_k;
    for (run = 0; run < 6; run++) {
        memset(at, row->runs[run].value, row->runs[run].count);
        at += row->runs[run].count;
    }
    return image;
}

static void put_word(uint8_t *at, uint32_t word)
{
    int byte;
    for (byte = 0; byte < 4; byte++)
        at[byte] = (uint8_t)(word >> (8 * byte));
}

/* A list of up to eight coupons, or a set of more in the largest table. */
static bytes image_of_coupons(const struct coupons_row *row)
{
    int is_list = row->count <= 8;
    size_t front = is_list ? 8 : 12;
    bytes image = with_room(front + 4 * row->count);
    uint32_t i;
    memcpy(image.at, is_list ? "\2\1\7\0\3\10\0\10" : "\3\1\7\0\0\10\0\11", 8);
    image.at[3] = row->lg_k;
    if (is_list) {
        image.at[5] = row->count == 0 ? 12 : 8;
        image.at[6] = (uint8_t)row->count;
    } else {
        image.at[4] = (uint8_t)(row->lg_k - 3);
        put_word(image.at + 8, row->count);
    }
    for (i = 0; i < row->count; i++)
        put_word(image.at + front + 4 * i, UINT32_C(1) << 26 | i);
    return image;
}

/* Estimates from an image of n coupons. */
static hll_status estimate_coupons(uint32_t n, hll_estimation *found)
{
    struct coupons_row row = {21, 0, {0, 0, {0, 0, 0}, {0, 0, 0}}};
    hll_status status;
    bytes image;
    row.count = n;
    image = image_of_coupons(&row);
    status = hll_estimate(image.at, image.len, found);
    free(image.at);
    return status;
}

/* The greatest number of coupons that an image can have. */
#define MOST_COUPONS ((1 << 18) - 1)

/* Numbers of coupons up to the greatest: each more than the one before, and between bounds that are. */
static void test_many_coupons(void)
{
    hll_estimation found, before;
    uint32_t n;
    CHECK(estimate_coupons(0, &before) == HLL_OK && before.estimate == 0, "no coupons");
    for (n = 1; n <= MOST_COUPONS; n += n / 7 + 1) {
        CHECK(estimate_coupons(n, &found) == HLL_OK, "%d coupons", (int)n);
        check_order(&found, "many coupons");
        CHECK(found.estimate > before.estimate && found.estimate >= (double)n, "%d coupons: %g", (int)n, found.estimate);
        CHECK(found.relative_standard_error < 1e-4, "%d coupons: %g", (int)n, found.relative_standard_error);
        before = found;
    }
    CHECK(estimate_coupons(MOST_COUPONS, &found) == HLL_OK, "the most coupons");
    CHECK(found.estimate > 1.0006 * MOST_COUPONS && found.estimate < 1.0007 * MOST_COUPONS, "%g of 2^18", found.estimate);
}

/* Returns the number of values that are expected to have n coupons, by the formula of docs/NUMBERS.md: sixteen steps, whether or not
 * they change anything. */
static double after_sixteen_steps(double coupons)
{
    double values = coupons;
    int step, j;
    for (step = 0; step < 16; step++) {
        double sum = values, term = values, power = 2.0;
        for (j = 2; j <= 8; j++) {
            power += power;
            term *= -(values - (double)(j - 1)) / (double)j / 67108864.0;
            sum += term / (power - 1.0);
        }
        values += coupons - sum;
    }
    return values;
}

/* The library stops at the first step that changes nothing: the double is that of all steps. Each number to 3,000 is tried, and then
 * every stride-th, as the bounds of many coupons take long. */
static void test_steps(uint32_t stride)
{
    hll_estimation found;
    uint32_t n;
    for (n = 0; n <= MOST_COUPONS; n += n < 3000 ? 1 : stride) {
        double all = after_sixteen_steps((double)n), wanted = all < (double)n ? (double)n : all;
        CHECK(estimate_coupons(n, &found) == HLL_OK && found.estimate == wanted, "%d coupons: %.17g, not %.17g", (int)n,
              found.estimate, wanted);
    }
}

static void test_numbers(void)
{
    size_t i;
    for (i = 0; i < sizeof histogram_rows / sizeof histogram_rows[0]; i++) {
        bytes image = image_of_runs(&histogram_rows[i]);
        check_numbers(&image, &histogram_rows[i].wanted, &of_registers, "histogram", i);
        free(image.at);
    }
    for (i = 0; i < sizeof coupons_rows / sizeof coupons_rows[0]; i++) {
        bytes image = image_of_coupons(&coupons_rows[i]);
        check_numbers(&image, &coupons_rows[i].wanted, &of_coupons, "coupons", i);
        free(image.at);
    }
}

/* ---- refusals ---- */

/* Bytes that are no image: the status is that of the image, and nothing is told. */
static void test_refusals(void)
{
    static const uint8_t family[8] = {2, 1, 9, 12, 3, 12, 0, 8};
    static const uint8_t twice[16] = {2, 1, 7, 12, 3, 8, 2, 8, 1, 0, 0, 4, 1, 0, 0, 4};
    hll_estimation found, before;
    memset(&found, 77, sizeof found);
    before = found;
    CHECK(hll_estimate(family, sizeof family, &found) == HLL_FAMILY, "another family");
    CHECK(hll_estimate(family, 5, &found) == HLL_TRUNCATED, "five bytes");
    CHECK(hll_estimate(twice, sizeof twice, &found) == HLL_COUPON, "a coupon twice");
    CHECK(memcmp(&found, &before, sizeof found) == 0, "told of a refused image");
}

/* ---- what an image keeps ---- */

/* Registers of eight bits at lg_k 4, 12 of them 1 and the others 0, with a word and a flag. */
static void put_kept(uint8_t image[56], double word, uint8_t flags)
{
    static const uint8_t header[8] = {10, 1, 7, 4, 0, 0, 0, 10};
    memset(image, 0, 56);
    memcpy(image, header, sizeof header);
    image[5] = flags;
    memcpy(image + 8, &word, sizeof word);
    image[32] = 4;
    memset(image + 44, 1, 12);
}

static hll_status kept(double word, uint8_t flags, hll_estimation *found)
{
    uint8_t image[56];
    put_kept(image, word, flags);
    return hll_hip_estimate(image, sizeof image, found);
}

static void test_kept(void)
{
    static const uint8_t list[12] = {2, 1, 7, 10, 3, 8, 1, 8, 5, 0, 0, 12};
    const double none[] = {0.0, -0.0, -17.0, INFINITY, -INFINITY, NAN};
    hll_estimation found, before;
    uint8_t image[56];
    size_t i;
    CHECK(kept(17.25, 0, &found) == HLL_OK && found.estimate == 17.25, "a word");
    CHECK(is_near(found.relative_standard_error, sqrt(log(2.0)) / 4, 1e-15), "its error");
    CHECK(found.lower[0] == 17.25 / (1.0 + found.relative_standard_error), "its lower bound");
    CHECK(found.lower[2] == 12.0, "as many as there are registers above 0");
    check_order(&found, "a word");
    memset(&found, 77, sizeof found);
    before = found;
    CHECK(kept(17.25, 16, &found) == HLL_ARGUMENT, "registers that were merged");
    for (i = 0; i < sizeof none / sizeof none[0]; i++)
        CHECK(kept(none[i], 0, &found) == HLL_ARGUMENT, "a word that is none: %g", none[i]);
    CHECK(hll_hip_estimate(list, sizeof list, &found) == HLL_ARGUMENT, "coupons");
    put_kept(image, 17.25, 0);
    CHECK(hll_hip_estimate(image, 55, &found) == HLL_TRUNCATED, "a byte less");
    image[55] = 64;
    CHECK(hll_hip_estimate(image, 56, &found) == HLL_REGISTER, "a register above 63");
    CHECK(memcmp(&found, &before, sizeof found) == 0, "told where there is none");
    CHECK(hll_version() == HLL_VERSION_NUMBER && HLL_VERSION_NUMBER == 2000, "the version");
}

/* An argument is the stride of numbers of coupons: 1 tries each. */
int main(int argc, char **argv)
{
    const int stride = argc > 1 ? atoi(argv[1]) : 101;
    test_streams();
    test_other_histograms();
    test_corrected();
    test_bounds();
    test_missed();
    test_many_coupons();
    test_steps((uint32_t)stride);
    test_widths();
    test_numbers();
    test_refusals();
    test_kept();
    return finish("estimates of known streams");
}
