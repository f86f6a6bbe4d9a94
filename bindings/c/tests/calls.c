/* SPDX-License-Identifier: Apache-2.0 */
/* Each call with each of its codes, and what it answers for small inputs that are known. */
#include "test.h"

#include <limits.h>

/* An image for each reason. */
static const char *const faulty[] = {
    NULL,
    "0201070a030c00",                   /* truncated */
    "0201060a030c0008",                 /* family */
    "0202070a030c0008",                 /* version */
    "02010703030c0008",                 /* lgk */
    "0201070a030c000c",                 /* width */
    "0201070a030c000b",                 /* stage */
    "0301070a030c0008",                 /* preamble */
    "0201070a040c0008",                 /* lgarr */
    "0201070a030809080000000000000000", /* count */
    "0201070a030801080500000000000000", /* coupon */
    "0a0107040000000a"
    "000000000000000000000000000000000000000000000000"
    "1000000000000000"
    "40000000000000000000000000000000", /* register */
};

static void test_reasons(void)
{
    static const char *const words[] = {"ok",       "truncated", "family",     "version",  "lgk",      "width",    "stage",
                                        "preamble", "lgarr",     "count",      "coupon",   "register", "argument", "memory",
                                        "buffer",   "coarser",   "other_lg_k", "trailing", "state"};
    int status;
    for (status = 0; status < 256; status++)
        CHECK(strcmp(hll_reason((hll_status)status), status < 19 ? words[status] : "unknown") == 0, "%d", status);
}

/* A sentence for each, and one for all numbers that are none. */
static void test_messages(void)
{
    int status, other;
    for (status = 0; status < 256; status++) {
        const char *message = hll_message((hll_status)status);
        CHECK(strlen(message) > 10 && message[strlen(message) - 1] == '.', "%d", status);
        for (other = 0; other < status && status < 19; other++)
            CHECK(strcmp(message, hll_message((hll_status)other)) != 0, "%d as %d", status, other);
        CHECK((strcmp(message, hll_message(255)) == 0) == (status >= 19), "%d", status);
    }
}

/* The largest images: registers of which one is 0, and all others are exceptions where they have four bits. */
static void test_room(void)
{
    static uint8_t registers[1 << 21], out[HLL_IMAGE_MAX(21)];
    uint8_t lg_k, width;
    size_t size;
    memset(registers, 63, sizeof registers);
    registers[0] = 0;
    for (lg_k = 4; lg_k <= 21; lg_k++)
        for (width = 4; width <= 8; width += 2) {
            CHECK(hll_registers_image(registers, (size_t)1 << lg_k, width, out, sizeof out, &size) == HLL_OK, "%d", lg_k);
            CHECK(size == HLL_IMAGE_ROOM(lg_k, width) && size <= HLL_IMAGE_MAX(lg_k), "%d, %d: %d bytes", lg_k, width,
                  (int)size);
        }
}

/* The number of bytes, and the lg_k of the header, if it has one. */
static void test_is_small(void)
{
    static const uint8_t image[8] = {2, 1, 7, 12, 3, 255, 255, 8}, other[8] = {2, 1, 6, 12, 3, 12, 0, 8};
    CHECK(hll_is_small(image, 8, 12, 8) && hll_is_small(image, 8, 21, 8192), "within the bounds");
    CHECK(!hll_is_small(image, 8, 11, 8) && !hll_is_small(image, 8, 12, 7), "above one");
    CHECK(hll_is_small(image, 8, 268, 8), "a bound of more than a byte");
    CHECK(hll_is_small(other, 8, 11, 8) && hll_is_small(image, 7, 11, 8) && hll_is_small(NULL, 0, 4, 0),
          "rejected at once");
    CHECK(!hll_is_small(other, 8, 11, 7), "too many bytes");
}

/* Each call refuses each faulty image for its reason, and leaves its output as it was. */
static void test_faulty_images(void)
{
    uint8_t out[4200], before[4200];
    answer told, told_before;
    size_t i, reason, size;
    memset(before, 0xa5, sizeof before);
    memset(&told_before, 0xa5, sizeof told_before);
    for (reason = 1; reason <= 11; reason++) {
        bytes image = of_hex(faulty[reason]);
        for (i = 0; i < WRITERS; i++) {
            if (!writers[i].reads)
                continue;
            memcpy(out, before, sizeof out);
            size = 4711;
            hll_status status = writers[i].call(image.at, image.len, out, sizeof out, &size);
            CHECK(status == reason, "%s: %d for a fault of %d", writers[i].name, status, (int)reason);
            CHECK(size == 4711 && memcmp(out, before, sizeof out) == 0, "%s wrote", writers[i].name);
        }
        for (i = 0; i < TELLERS; i++) {
            memcpy(&told, &told_before, sizeof told);
            hll_status status = tellers[i].call(image.at, image.len, &told);
            CHECK(status == reason, "%s: %d for a fault of %d", tellers[i].name, status, (int)reason);
            CHECK(memcmp(&told, &told_before, sizeof told) == 0, "%s wrote", tellers[i].name);
        }
        free(image.at);
    }
}

/* Of n images the one that is refused is told by its number, wherever it stands; of several the first. */
static void test_failed(void)
{
    uint8_t images[8 * 9], out[64];
    size_t ends[9], size, failed, i, bad;
    for (bad = 0; bad < 9; bad++) {
        for (i = 0; i < 9; i++) {
            memcpy(images + 8 * i, "\2\1\7\12\3\14\0\10", 8);
            ends[i] = 8 * (i + 1);
        }
        images[8 * bad + 2] = 6;
        images[8 * 8 + 1] ^= bad % 2 ? 0 : 4;
        failed = 99;
        CHECK(hll_images_union(10, 8, images, sizeof images, ends, 9, out, sizeof out, &size, &failed) == HLL_FAMILY,
              "a bad image %d", (int)bad);
        CHECK(failed == bad, "%d told for %d", (int)failed, (int)bad);
        CHECK(hll_images_union(10, 8, images, sizeof images, ends, bad, out, sizeof out, &size, &failed) == HLL_OK,
              "the images before %d", (int)bad);
        CHECK(failed == bad, "failed is written on success");
    }
}

/* Calls that are refused for an argument, though the image is bad too: the argument comes first. */
static void test_arguments(void)
{
    static const uint8_t bad[] = {2, 1, 6, 10, 3, 12, 0, 8};
    static const unsigned outside[] = {0, 1, 2, 3, 22, 23, 64, 128, 255, 256 + 8, 268, UINT_MAX};
    static const unsigned widths[] = {0, 1, 2, 3, 5, 7, 9, 12, 255, 256 + 8, 268, UINT_MAX};
    static const unsigned numbers[] = {0, 64, 255, 256 + 8, 268, UINT_MAX};
    static const size_t good_ends[] = {2, 2, 8}, descend[] = {2, 1}, past[] = {2, 9}, huge[] = {(size_t)-1};
    static const size_t no_ends[] = {0};
    static const struct {
        const size_t *ends;
        size_t n;
    } wrong[] = {{descend, 2}, {past, 2}, {huge, 1}};
    uint8_t out[64] = {0}, before[64] = {0}, registers[64] = {0};
    const hll_bytes part = {bad, 8};
    uint32_t coupons[4];
    size_t size = 4711, failed = 77, i;
    for (i = 0; i < sizeof outside / sizeof outside[0]; i++) {
        CHECK(hll_image_new(outside[i], 8, out, 64, &size) == HLL_ARGUMENT, "new, lg_k %u", outside[i]);
        CHECK(hll_image_new(10, widths[i], out, 64, &size) == HLL_ARGUMENT, "new, width %u", widths[i]);
        CHECK(hll_image_merge(outside[i], 8, bad, 8, bad, 8, out, 64, &size, &failed) == HLL_ARGUMENT, "merge");
        CHECK(hll_image_merge(10, widths[i], bad, 8, bad, 8, out, 64, &size, &failed) == HLL_ARGUMENT, "merge");
        CHECK(hll_images_union(outside[i], 8, bad, 8, good_ends, 3, out, 64, &size, &failed) == HLL_ARGUMENT, "union");
        CHECK(hll_images_union(10, widths[i], bad, 8, good_ends, 3, out, 64, &size, &failed) == HLL_ARGUMENT, "union");
        CHECK(hll_images_unionv(outside[i], 8, &part, 1, out, 64, &size, &failed) == HLL_ARGUMENT, "unionv");
        CHECK(hll_images_unionv(10, widths[i], &part, 1, out, 64, &size, &failed) == HLL_ARGUMENT, "unionv");
        CHECK(hll_image_fold(bad, 8, outside[i], out, 64, &size) == HLL_ARGUMENT, "fold to %u", outside[i]);
        CHECK(hll_image_convert(bad, 8, widths[i], out, 64, &size) == (widths[i] ? HLL_ARGUMENT : HLL_FAMILY),
              "convert to %u", widths[i]);
        CHECK(hll_registers_fold(registers, 64, outside[i]) == HLL_ARGUMENT, "registers to %u", outside[i]);
        CHECK(hll_registers_image(registers, 64, widths[i], out, 64, &size) == HLL_ARGUMENT, "registers at %u", widths[i]);
    }
    for (i = 0; i < sizeof numbers / sizeof numbers[0]; i++)
        CHECK(hll_image_add_coupon(bad, 8, 5, numbers[i], out, 64, &size) == HLL_ARGUMENT, "value %u", numbers[i]);
    for (i = 0; i < 3; i++) {
        CHECK(hll_image_add(bad, 8, bad, 8, wrong[i].ends, wrong[i].n, out, 64, &size) == HLL_ARGUMENT, "add");
        CHECK(hll_images_union(10, 8, bad, 8, wrong[i].ends, wrong[i].n, out, 64, &size, &failed) == HLL_ARGUMENT, "union");
        CHECK(hll_coupons(bad, 8, wrong[i].ends, wrong[i].n, coupons, 0) == HLL_ARGUMENT, "coupons");
    }
    CHECK(hll_image_add_coupon(bad, 8, 67108864, 1, out, 64, &size) == HLL_ARGUMENT, "slot");
    CHECK(hll_image_add_coupon(bad, 8, UINT32_MAX, 1, out, 64, &size) == HLL_ARGUMENT, "slot");
    CHECK(hll_image_fold((const uint8_t *)"\2\1\7\12\3\14\0\10", 8, 11, out, 64, &size) == HLL_ARGUMENT, "fold up");
    CHECK(hll_image_fold((const uint8_t *)"\2\1\7\12\3\14\0\10", 8, 10, out, 64, &size) == HLL_OK, "fold to the same");
    CHECK(size == 8, "size of an empty list");
    memset(out, 0, sizeof out);
    CHECK(hll_image_add((const uint8_t *)"\2\1\7\12\3\14\0\10", 8, bad, 0, no_ends, 0, out, 64, &size) == HLL_OK,
          "no values");
    CHECK(memcmp(out, "\2\1\7\12\3\14\0\10", 8) == 0 && memcmp(out + 8, before, 56) == 0, "no values change nothing");
    CHECK(failed == 77, "failed is written for an argument");
}

/* Whether a call answers HLL_OK and writes these bytes. */
#define EXPECT(what, call, out, size, digits)                                                                              \
    do {                                                                                                                   \
        bytes wanted = of_hex(digits);                                                                                     \
        hll_status status = call;                                                                                          \
        CHECK(status == HLL_OK, "%s: %s", what, hll_reason(status));                                                       \
        CHECK(size == wanted.len && memcmp(out, wanted.at, size) == 0, "%s: other bytes", what);                           \
        free(wanted.at);                                                                                                   \
    } while (0)

static void test_small_images(void)
{
    uint8_t out[64], more[64];
    size_t size = 0, more_size = 0, failed, end = 0;
    static const size_t none[] = {0};
    EXPECT("new", hll_image_new(10, 8, out, sizeof out, &size), out, size, "0201070a030c0008");
    EXPECT("a coupon", hll_image_add_coupon(out, size, 5, 3, more, sizeof more, &more_size), more, more_size,
           "0201070a030801080500000c");
    EXPECT("to 4 bits", hll_image_convert(more, more_size, 4, out, sizeof out, &size), out, size,
           "0201070a030801000500000c");
    EXPECT("a union", hll_image_merge(12, 6, more, more_size, out, size, out + 32, 32, &size, &failed), out + 32, size,
           "0201070c030801040500000c");
    EXPECT("of none", hll_images_union(12, 4, out, 0, none, 0, out, sizeof out, &size, &failed), out, size,
           "0201070c030c0000");
    /* The empty string is a value like any other. */
    CHECK(hll_image_add(out, size, out, 0, &end, 1, more, sizeof more, &more_size) == HLL_OK, "the empty string");
    CHECK(more_size == 12 && more[6] == 1, "the empty string is no value");
}

/* hll_coupon beside coupons of another implementation of the hash. */
static void test_coupons(void)
{
    static const size_t ends[] = {0, 1, 44, 44};
    static const char text[] = "aThe quick brown fox jumps over the lazy dog";
    uint32_t coupons[5] = {9, 9, 9, 9, 9};
    CHECK(hll_coupons((const uint8_t *)text, 44, ends, 4, coupons, 3) == HLL_BUFFER, "room for three");
    CHECK(coupons[0] == 9 && coupons[2] == 9, "no room, but written");
    CHECK(hll_coupons((const uint8_t *)text, 44, ends, 4, coupons, 5) == HLL_OK, "room for five");
    CHECK(coupons[0] == hll_coupon((const uint8_t *)text, 0) && coupons[0] == coupons[3], "of no bytes");
    CHECK(coupons[1] == hll_coupon((const uint8_t *)text, 1), "of one byte");
    CHECK(coupons[2] == hll_coupon((const uint8_t *)text + 1, 43), "of 43 bytes");
    CHECK(coupons[4] == 9, "behind the last");
    CHECK(HLL_COUPON_SLOT(UINT32_C(201326597)) == 5 && HLL_COUPON_VALUE(UINT32_C(201326597)) == 3, "slot and value");
}

/* A width of 0 is the image's own. Bytes that are no image are refused for their fault, however short they are. */
static void test_own_width(void)
{
    static const uint8_t no_width[8] = {2, 1, 7, 12, 3, 12, 0, 12};
    static uint8_t out[HLL_IMAGE_MAX(12)], wanted[HLL_IMAGE_MAX(12)];
    size_t size, wanted_size, stage, len;
    unsigned width;
    for (stage = 0; stage < 3; stage++)
        for (width = 4; width <= 8; width += 2) {
            bytes image = image_of_values(12, (uint8_t)width, 0, values_of_stage[stage]);
            CHECK(hll_image_convert(image.at, image.len, width, wanted, sizeof wanted, &wanted_size) == HLL_OK, "%u",
                  width);
            CHECK(hll_image_convert(image.at, image.len, 0, out, sizeof out, &size) == HLL_OK, "own width, %u", width);
            CHECK(size == wanted_size && memcmp(out, wanted, size) == 0, "at its own width, %u", width);
            for (len = 0; len < 12; len++)
                CHECK(hll_image_convert(image.at, len, 0, out, sizeof out, &size) == hll_image_check(image.at, len), "%d",
                      (int)len);
            free(image.at);
        }
    CHECK(hll_image_convert(no_width, 8, 0, out, sizeof out, &size) == HLL_WIDTH, "no width of its own");
}

/* Values of one length, and values between offsets: as those with ends. */
static void test_other_ends(void)
{
    uint8_t values[72], registers[64], others[64];
    uint32_t coupons[73], wanted[73];
    int32_t offsets[73];
    size_t ends[72], length, n, i;
    for (i = 0; i < sizeof values; i++)
        values[i] = (uint8_t)(i * i);
    for (length = 1; length <= 12; length += length % 2 ? 1 : 2) {
        n = 72 / length;
        for (i = 0; i < n; i++)
            ends[i] = length * (i + 1);
        for (i = 0; i <= n; i++)
            offsets[i] = (int32_t)(length * i);
        memset(coupons, 0xa5, sizeof coupons), memset(wanted, 0xa5, sizeof wanted);
        CHECK(hll_coupons(values, length * n, ends, n, wanted, 73) == HLL_OK, "ends, %d", (int)length);
        CHECK(hll_coupons_fixed(values, length * n, length, coupons, 73) == HLL_OK, "length %d", (int)length);
        CHECK(memcmp(coupons, wanted, sizeof coupons) == 0, "coupons of length %d", (int)length);
        memset(coupons, 0xa5, sizeof coupons);
        CHECK(hll_coupons_ends32(values, length * n, offsets, n + 1, coupons, n) == HLL_OK, "offsets, %d", (int)length);
        CHECK(memcmp(coupons, wanted, sizeof coupons) == 0, "coupons between offsets, %d", (int)length);
        CHECK(hll_coupons_fixed(values, length * n, length, coupons, n - 1) == HLL_BUFFER, "room, %d", (int)length);
        CHECK(hll_coupons_ends32(values, length * n, offsets, n + 1, coupons, n - 1) == HLL_BUFFER, "room, %d",
              (int)length);
        CHECK(hll_coupons_ends32(values, length * n - 1, offsets, n + 1, coupons, n) == HLL_ARGUMENT, "past the bytes");
        memset(registers, 0, 64), memset(others, 0, 64);
        CHECK(hll_registers_add(others, 64, values, length * n, ends, n) == HLL_OK, "ends, %d", (int)length);
        CHECK(hll_registers_add_fixed(registers, 64, values, length * n, length) == HLL_OK, "length %d", (int)length);
        CHECK(memcmp(registers, others, 64) == 0, "registers of length %d", (int)length);
    }
}

/* What is no length and no offsets is refused, and nothing is written. */
static void test_wrong_ends(void)
{
    static const int32_t none[] = {3}, inner[] = {3, 3, 5}, descend[] = {0, 3, 2}, past[] = {0, 9}, first_past[] = {9};
    static const int32_t negative[] = {-1, 2}, last_negative[] = {0, INT32_MIN};
    static const struct {
        const int32_t *offsets;
        size_t n;
    } wrong[] = {{NULL, 0}, {descend, 3}, {past, 2}, {first_past, 1}, {negative, 2}, {last_negative, 2}};
    uint8_t values[8] = {1, 2, 3, 4, 5, 6, 7, 8}, registers[16] = {0}, before[16] = {0};
    uint32_t coupons[4] = {9, 9, 9, 9};
    size_t i;
    for (i = 0; i < sizeof wrong / sizeof wrong[0]; i++)
        CHECK(hll_coupons_ends32(values, 8, wrong[i].offsets, wrong[i].n, coupons, 4) == HLL_ARGUMENT, "%d", (int)i);
    for (i = 0; i < 10; i++) {
        int divides = i == 1 || i == 2 || i == 4 || i == 8;
        CHECK(hll_coupons_fixed(values, 8, i, coupons, 0) == (divides ? HLL_BUFFER : HLL_ARGUMENT), "length %d", (int)i);
        if (!divides)
            CHECK(hll_registers_add_fixed(registers, 16, values, 8, i) == HLL_ARGUMENT, "length %d", (int)i);
    }
    CHECK(hll_coupons_fixed(values, 8, SIZE_MAX, coupons, 4) == HLL_ARGUMENT, "the greatest length");
    CHECK(hll_registers_add_fixed(registers, 15, values, 8, 8) == HLL_ARGUMENT, "fifteen registers");
    CHECK(hll_coupons_fixed(NULL, 0, 8, NULL, 0) == HLL_OK, "no values");
    CHECK(hll_registers_add_fixed(registers, 16, NULL, 0, 8) == HLL_OK, "no values");
    CHECK(hll_coupons_ends32(values, 8, none, 1, NULL, 0) == HLL_OK, "one offset, no values");
    CHECK(memcmp(registers, before, 16) == 0 && coupons[0] == 9 && coupons[3] == 9, "nothing is written");
    CHECK(hll_coupons_ends32(values, 8, inner, 3, coupons, 4) == HLL_OK, "offsets that begin inside");
    CHECK(coupons[0] == hll_coupon(NULL, 0) && coupons[1] == hll_coupon(values + 3, 2) && coupons[2] == 9, "their values");
}

/* The number of these bits of binary64. */
static double number_of(uint64_t bits)
{
    double number;
    memcpy(&number, &bits, sizeof number);
    return number;
}

/* What info, histogram, and agree tell of images of each stage and width. */
static void test_telling(void)
{
    size_t stage, failed = 0;
    unsigned width, value;
    for (stage = 0; stage < 3; stage++)
        for (width = 4; width <= 8; width += 2) {
            bytes image = image_of_values(12, (uint8_t)width, 0, values_of_stage[stage]);
            bytes other = image_of_values(12, 8, 1000000, values_of_stage[stage]);
            hll_info info;
            hll_histogram histogram;
            uint64_t sum = 0, low = 0;
            double sums[2] = {0, 0};
            uint8_t same = 7;
            CHECK(hll_image_info(image.at, image.len, &info, sizeof info) == HLL_OK, "info");
            CHECK(info.lg_k == 12 && info.width == width && info.stage == stage && !info.is_empty, "info of stage");
            CHECK(info.coupons == (stage < 2 ? values_of_stage[stage] : 0), "%d coupons", (int)info.coupons);
            CHECK(info.out_of_order == (stage == 2) && info.hip == 0, "words");
            CHECK(hll_image_histogram(image.at, image.len, &histogram) == HLL_OK, "histogram");
            for (value = 0; value < 64; value++) {
                double part = (double)histogram.counts[value] / (double)(UINT64_C(1) << value);
                sum += histogram.counts[value];
                low += value >= 1 ? histogram.counts[value] << (63 - value) : 0;
                sums[value >= 32] += part;
            }
            CHECK(number_of(info.kxq0) == (stage < 2 ? 0 : sums[0]), "the sum of registers below 32");
            CHECK(number_of(info.kxq1) == (stage < 2 ? 0 : sums[1]), "the sum of others");
            CHECK(sum == 4096, "a histogram of %d", (int)sum);
            low += histogram.counts[0] << 63;
            CHECK(stage < 2 || (info.zeros == histogram.counts[0] && info.units_low == low), "zeros and units");
            CHECK(hll_images_agree(image.at, image.len, image.at, image.len, &same, &failed) == HLL_OK && same == 1,
                  "an image agrees with itself");
            CHECK(hll_images_agree(image.at, image.len, other.at, other.len, &same, &failed) == HLL_OK && same == 0,
                  "an image agrees with another");
            free(image.at);
            free(other.at);
        }
}

/* Images of each stage and width merged, in either order, and united: the image of all their values. */
static void test_merges(void)
{
    static uint8_t merged[HLL_IMAGE_MAX(12)], united[HLL_IMAGE_MAX(12)], both[2 * HLL_IMAGE_MAX(12)];
    size_t i, j, size = 0, united_size = 0, failed = 0, ends[2];
    for (i = 0; i < 9; i++)
        for (j = 0; j < 9; j++) {
            size_t values = values_of_stage[i / 3], more = values_of_stage[j / 3];
            uint8_t width = (uint8_t)(4 + (i + j) % 3 * 2);
            bytes left = image_of_values(12, (uint8_t)(4 + i % 3 * 2), 0, values);
            bytes right = image_of_values(12, (uint8_t)(4 + j % 3 * 2), values, more);
            bytes all = image_of_values(12, width, 0, values + more);
            hll_status status = hll_image_merge(12, width, left.at, left.len, right.at, right.len, merged, sizeof merged,
                                                &size, &failed);
            CHECK(status == HLL_OK && size == all.len && memcmp(merged, all.at, size) == 0, "%d, %d", (int)i, (int)j);
            status = hll_image_merge(12, width, right.at, right.len, left.at, left.len, merged, sizeof merged, &size,
                                     &failed);
            CHECK(status == HLL_OK && size == all.len && memcmp(merged, all.at, size) == 0, "%d, %d", (int)j, (int)i);
            memcpy(both, left.at, ends[0] = left.len);
            memcpy(both + left.len, right.at, right.len);
            ends[1] = left.len + right.len;
            status = hll_images_union(12, width, both, ends[1], ends, 2, united, sizeof united, &united_size, &failed);
            CHECK(status == HLL_OK && united_size == size && memcmp(united, all.at, size) == 0, "union");
            free(left.at);
            free(right.at);
            free(all.at);
        }
}

/* Images folded to each lg_k: the image of the same values at that one. */
static void test_folds(void)
{
    static uint8_t out[HLL_IMAGE_MAX(12)];
    size_t i, size = 0;
    uint8_t lg_k;
    for (i = 0; i < 9; i++)
        for (lg_k = 4; lg_k <= 12; lg_k++) {
            uint8_t width = (uint8_t)(4 + i % 3 * 2);
            bytes whole = image_of_values(12, width, 5, values_of_stage[i / 3]);
            bytes folded = image_of_values(lg_k, width, 5, values_of_stage[i / 3]);
            hll_status status = hll_image_fold(whole.at, whole.len, lg_k, out, sizeof out, &size);
            CHECK(status == HLL_OK && size == folded.len && memcmp(out, folded.at, size) == 0, "fold to %d", lg_k);
            free(whole.at);
            free(folded.at);
        }
}

/* Registers of 63 are counted. */
static void test_histogram_of_63(void)
{
    bytes image = of_hex("0a0107040010000a"
                         "000000000000000000000000000000000000000000000000"
                         "0d00000000000000"
                         "3f0000000000000000003e000000003f");
    hll_histogram histogram;
    CHECK(hll_image_histogram(image.at, image.len, &histogram) == HLL_OK, "histogram");
    CHECK(histogram.counts[63] == 2 && histogram.counts[62] == 1 && histogram.counts[0] == 13, "%d of 63",
          (int)histogram.counts[63]);
    free(image.at);
}

/* The estimator fields of registers, as docs/FORMAT.md has them. */
static void test_words(void)
{
    bytes image = of_hex("0a0107040000000a"
                         "111111111111111122222222222222223333333333333333"
                         "0c00000000000000"
                         "011f203f000000000000000000000000");
    uint8_t out[64];
    size_t size = 0;
    EXPECT("words", hll_image_set_estimator_fields(image.at, image.len, out, sizeof out, &size), out, size,
           "0a0107040010000a"
           "0000000000000000"
           "0000040000002940"
           "000020000000f03d"
           "0c00000000000000"
           "011f203f000000000000000000000000");
    EXPECT("no words", hll_image_clear_estimator_fields(image.at, image.len, out, sizeof out, &size), out, size,
           "0a0107040010000a"
           "0000000000000000"
           "0000000000000000"
           "0000000000000000"
           "0c00000000000000"
           "011f203f000000000000000000000000");
    EXPECT("a list has none",
           hll_image_clear_estimator_fields((const uint8_t *)"\2\1\7\12\3\14\0\10", 8, out, sizeof out, &size), out, size,
           "0201070a030c0008");
    free(image.at);
}

/* Whether a call writes this image. */
static int writes_image(hll_status status, const uint8_t *out, size_t size, bytes image)
{
    return status == HLL_OK && size == image.len && memcmp(out, image.at, size) == 0;
}

/* Registers with estimator fields of 0 are written with those that follow from the registers, whatever the call does; other
 * estimator fields that an image brings are kept where nothing changes, and made again where something does. */
static void test_words_by_default(void)
{
    static uint8_t out[HLL_IMAGE_MAX(12)];
    static const size_t no_ends[] = {0};
    unsigned width;
    for (width = 4; width <= 8; width += 2) {
        bytes words = image_of_values(12, (uint8_t)width, 5, 5000), zero = with_room(words.len), other;
        size_t size = 0, failed = 0, end = words.len;
        CHECK(hll_image_set_estimator_fields(words.at, words.len, out, sizeof out, &size) == HLL_OK, "words");
        CHECK(writes_image(HLL_OK, out, size, words), "values are written without their words");
        CHECK(hll_image_clear_estimator_fields(words.at, words.len, zero.at, zero.len, &size) == HLL_OK, "no words");
        CHECK(memcmp(zero.at, words.at, size) != 0 && zero.at[5] == words.at[5], "words that are not cleared");
        other = with_room(words.len);
        memcpy(other.at, words.at, words.len);
        other.at[5] &= ~16;
        memset(other.at + 8, 65, 24);
#define WRITES(call, wanted) CHECK(writes_image(call, out, size, wanted), "%u bits: %s", width, #call)
        WRITES(hll_image_convert(zero.at, zero.len, (uint8_t)width, out, sizeof out, &size), words);
        WRITES(hll_image_fold(zero.at, zero.len, 12, out, sizeof out, &size), words);
        WRITES(hll_image_add(zero.at, zero.len, zero.at, 0, no_ends, 0, out, sizeof out, &size), words);
        WRITES(hll_image_merge(12, (uint8_t)width, zero.at, zero.len, zero.at, zero.len, out, sizeof out, &size, &failed),
               words);
        WRITES(hll_images_union(12, (uint8_t)width, zero.at, zero.len, &end, 1, out, sizeof out, &size, &failed), words);
        WRITES(hll_image_convert(other.at, other.len, (uint8_t)width, out, sizeof out, &size), other);
        WRITES(hll_images_union(12, (uint8_t)width, other.at, other.len, &end, 1, out, sizeof out, &size, &failed), other);
        WRITES(
            hll_image_merge(12, (uint8_t)width, other.at, other.len, other.at, other.len, out, sizeof out, &size, &failed),
            words);
        free(words.at);
        free(zero.at);
        free(other.at);
    }
}

/* Registers of which each byte is known: what is merged, folded, converted and said of them. */
#define HEADER_OF(lg_k, flags, mode) "0a01070" lg_k "00" flags "00" mode
#define NO_WORDS                                                                                                           \
    "0000000000000000"                                                                                                     \
    "0000000000000000"                                                                                                     \
    "0000000000000000"
#define WORDS                                                                                                              \
    "0000000000000000"                                                                                                     \
    "0000080100002c40"                                                                                                     \
    "0000000000000000" /* kxq0 is 14 + 2^-25 + 2^-30 */
static const char *const left = HEADER_OF("4", "10", "0a") NO_WORDS "0e00000000000000"
                                                                    "0a140000000000000000000000000000";
static const char *const right = HEADER_OF("5", "10", "0a") NO_WORDS "1c00000000000000"
                                                                     "0f120000000000000000000000000000"
                                                                     "191e0000000000000000000000000000";
static const char *const joined = HEADER_OF("4", "10", "0a") NO_WORDS "0e00000000000000"
                                                                      "191e0000000000000000000000000000";
static const char *const with_words = HEADER_OF("4", "10", "0a") WORDS "0e00000000000000"
                                                                       "191e0000000000000000000000000000";
static const char *const of_four_bits = HEADER_OF("4", "18", "02") WORDS "0e00000002000000"
                                                                         "ff00000000000000"
                                                                         "0000006401000078";

static void test_known_registers(void)
{
    bytes a = of_hex(left), b = of_hex(right), plain = of_hex(joined), words = of_hex(with_words),
          four = of_hex(of_four_bits);
    const hll_bytes parts[] = {{a.at, a.len}, {(const uint8_t *)"\2\1\7\12\3\14\0\10", 8}, {b.at, b.len}};
    uint8_t out[96], registers[16] = {0}, same = 7;
    size_t size = 0, failed = 5;
    hll_info info;
    hll_histogram histogram;
    EXPECT("merged", hll_image_merge(12, 8, a.at, a.len, b.at, b.len, out, sizeof out, &size, &failed), out, size,
           with_words);
    EXPECT("the other way", hll_image_merge(12, 8, b.at, b.len, a.at, a.len, out, sizeof out, &size, &failed), out, size,
           with_words);
    EXPECT("parts", hll_images_unionv(12, 8, parts, 3, out, sizeof out, &size, &failed), out, size, with_words);
    EXPECT("folded", hll_image_fold(b.at, b.len, 4, out, sizeof out, &size), out, size, with_words);
    EXPECT("4 bits", hll_image_convert(plain.at, plain.len, 4, out, sizeof out, &size), out, size, of_four_bits);
    EXPECT("words", hll_image_set_estimator_fields(plain.at, plain.len, out, sizeof out, &size), out, size, with_words);
    EXPECT("no words", hll_image_clear_estimator_fields(words.at, words.len, out, sizeof out, &size), out, size, joined);
    CHECK(hll_images_agree(plain.at, plain.len, four.at, four.len, &same, &failed) == HLL_OK && same == 1, "4 bits agree");
    CHECK(hll_images_agree(plain.at, plain.len, a.at, a.len, &same, &failed) == HLL_OK && same == 0, "a part agrees");
    CHECK(hll_registers_merge(registers, 16, a.at, a.len, NULL) == HLL_OK, "registers joined");
    CHECK(hll_registers_merge(registers, 16, b.at, b.len, NULL) == HLL_OK, "more of them");
    EXPECT("registers", hll_registers_image(registers, 16, 8, out, sizeof out, &size), out, size, with_words);
    CHECK(failed == 5, "failed is written on success");
    CHECK(hll_image_info(words.at, words.len, &info, sizeof info) == HLL_OK && info.zeros == 14, "info");
    CHECK(info.hip == 0 && info.kxq0 == UINT64_C(0x402c000001080000) && info.kxq1 == 0, "the words in info");
    /* 14 * 2^63 + 2^38 + 2^33 */
    CHECK(info.units_high == 7 && info.units_low == (UINT64_C(1) << 38) + (UINT64_C(1) << 33), "units");
    CHECK(hll_image_histogram(four.at, four.len, &histogram) == HLL_OK, "a histogram");
    CHECK(histogram.counts[0] == 14 && histogram.counts[25] == 1 && histogram.counts[30] == 1, "of 4 bits");
    free(a.at);
    free(b.at);
    free(plain.at);
    free(words.at);
    free(four.at);
}

/* Registers of four bits, by the minimum in the header, the nibbles and two exceptions. */
#define FOUR_BITS(minimum, nibbles, entries)                                                                               \
    "0a01070400"                                                                                                           \
    "18" minimum "02" NO_WORDS "0000000002000000" nibbles entries
#define SIX_BITS(registers) HEADER_OF("4", "10", "06") NO_WORDS "0e00000000000000" registers

/* Whether two images of hexadecimal digits agree, in either order. */
static void check_agreement(const char *what, const char *left_digits, const char *right_digits, int expected)
{
    bytes a = of_hex(left_digits), b = of_hex(right_digits);
    uint8_t same = 7;
    size_t failed = 5;
    CHECK(hll_images_agree(a.at, a.len, b.at, b.len, &same, &failed) == HLL_OK && same == expected && failed == 5, "%s",
          what);
    same = 7;
    CHECK(hll_images_agree(b.at, b.len, a.at, a.len, &same, &failed) == HLL_OK && same == expected && failed == 5,
          "%s, the other way", what);
    free(a.at);
    free(b.at);
}

static void test_agreement(void)
{
    static const char *const four = FOUR_BITS("01", "ff00000000000000", "0000006401000078");
    static const char *const six = SIX_BITS("8a4100000000000000000000"
                                            "00");
    bytes good = of_hex(four), bad = of_hex(four);
    uint8_t same = 7;
    size_t failed = 5;
    check_agreement("the same exceptions", four, four, 1);
    check_agreement("exceptions in another order", four, FOUR_BITS("01", "ff00000000000000", "0100007800000064"), 1);
    check_agreement("another exception", four, FOUR_BITS("01", "ff00000000000000", "000000640100007c"), 0);
    check_agreement("exceptions exchanged", four, FOUR_BITS("01", "ff00000000000000", "0000007801000064"), 0);
    check_agreement("exceptions of another slot", four, FOUR_BITS("01", "0f0f000000000000", "0000006402000078"), 0);
    check_agreement("another nibble", four, FOUR_BITS("01", "ff00000000000010", "0000006401000078"), 0);
    check_agreement("another minimum", four, FOUR_BITS("00", "ff11111111111111", "0000006401000078"), 1);
    check_agreement("another minimum and nibble", four, FOUR_BITS("00", "ff11111111111121", "0000006401000078"), 0);
    check_agreement("the same nibbles above another minimum", four, FOUR_BITS("00", "ff00000000000000", "0000006401000078"),
                    0);
    check_agreement("another last byte", six,
                    SIX_BITS("8a4100000000000000000000"
                             "ff"),
                    1);
    check_agreement("another register of six bits", six,
                    SIX_BITS("8a4100000000000000000004"
                             "00"),
                    0);
    check_agreement("another register of eight bits", joined,
                    HEADER_OF("4", "10", "0a") NO_WORDS "0e00000000000000"
                                                        "191e0000000000000000000000000001",
                    0);
    check_agreement("other fields", joined, with_words, 1);
    check_agreement("another lg_k", right, joined, 1);
    check_agreement("another width", joined, FOUR_BITS("00", "ff00000000000000", "0000006401000078"), 1);
    bad.at[3] = 22;
    CHECK(hll_images_agree(bad.at, bad.len, good.at, good.len, &same, &failed) == HLL_LG_K && failed == 0, "a bad left");
    CHECK(hll_images_agree(good.at, good.len, bad.at, bad.len, &same, &failed) == HLL_LG_K && failed == 1, "a bad right");
    CHECK(hll_images_agree(bad.at, bad.len, NULL, 0, &same, &failed) == HLL_LG_K && failed == 0, "both bad");
    CHECK(hll_images_agree(bad.at, bad.len, bad.at, bad.len, &same, &failed) == HLL_LG_K && failed == 0, "a bad one twice");
    CHECK(same == 7, "agreement of a bad one");
    free(good.at);
    free(bad.at);
}

/* An image of four bits at lg_k 18 with exceptions at slots 0 to 299 and 1024. Where 1024 comes last, a search for it passes the
 * 300 others, and is cut off. */
static bytes of_crowded_slots(int comes_last, uint8_t value_of_last)
{
    enum { SLOTS = 300, NIBBLES = 1 << 17 };
    static const char *const start = "0a01071200180002" NO_WORDS "000000002d010000";
    bytes header = of_hex(start), image;
    uint8_t *entry;
    uint32_t slot;
    image.len = header.len + NIBBLES + 4 * (SLOTS + 1);
    image.at = calloc(1, image.len);
    memcpy(image.at, header.at, header.len);
    free(header.at);
    memset(image.at + header.len, 0xff, SLOTS / 2);
    image.at[header.len + 1024 / 2] = 0x0f;
    entry = image.at + header.len + NIBBLES;
    for (slot = 0; slot <= SLOTS; slot++, entry += 4) {
        int is_last = slot == (comes_last ? SLOTS : 0);
        uint32_t of = is_last ? 1024 : comes_last ? slot : slot - 1;
        uint32_t coupon = of | (uint32_t)(is_last ? value_of_last : 20) << 26;
        entry[0] = (uint8_t)coupon, entry[1] = (uint8_t)(coupon >> 8), entry[2] = (uint8_t)(coupon >> 16);
        entry[3] = (uint8_t)(coupon >> 24);
    }
    return image;
}

static void test_agreement_by_blocks(void)
{
    bytes one = of_crowded_slots(1, 20), two = of_crowded_slots(0, 20), three = of_crowded_slots(0, 21);
    uint8_t same = 7;
    size_t failed = 5;
    CHECK(hll_images_agree(one.at, one.len, two.at, two.len, &same, &failed) == HLL_OK && same == 1, "short searches");
    CHECK(hll_images_agree(two.at, two.len, one.at, one.len, &same, &failed) == HLL_OK && same == 1, "a long search");
    CHECK(hll_images_agree(one.at, one.len, three.at, three.len, &same, &failed) == HLL_OK && same == 0, "another value");
    CHECK(hll_images_agree(three.at, three.len, one.at, one.len, &same, &failed) == HLL_OK && same == 0,
          "another value by a long search");
    CHECK(failed == 5, "failed is written by an agreement");
    free(one.at);
    free(two.at);
    free(three.at);
}

/* An image is as long as its size says, whatever follows; and no shorter bytes are one. */
static void test_sizes(void)
{
    size_t stage, size;
    unsigned width;
    for (stage = 0; stage < 3; stage++)
        for (width = 4; width <= 8; width += 2) {
            bytes image = image_of_values(12, (uint8_t)width, 0, values_of_stage[stage]);
            bytes more = with_room(image.len + 9);
            memset(more.at, 7, more.len);
            memcpy(more.at, image.at, image.len);
            size = 4711;
            CHECK(hll_image_size(more.at, image.len - 1, &size) == HLL_TRUNCATED && size == 4711, "a byte too few");
            CHECK(hll_image_size(more.at, image.len, &size) == HLL_OK && size == image.len, "%d", (int)size);
            CHECK(hll_image_size(more.at, more.len, &size) == HLL_OK && size == image.len, "%d, more", (int)size);
            CHECK(hll_image_trailing(more.at, more.len, &size) == HLL_OK && size == 9, "%d after it", (int)size);
            CHECK(hll_image_trailing(more.at, image.len, &size) == HLL_OK && size == 0, "%d after all", (int)size);
            free(more.at);
            free(image.at);
        }
}

/* A caller that was compiled for another hll_info is told so, and nothing is written. */
static void test_other_info(void)
{
    static const uint8_t empty[] = {2, 1, 7, 10, 3, 12, 0, 8};
    static const size_t others[] = {0, 8, sizeof(hll_info) - 1, sizeof(hll_info) + 8};
    hll_info info, before;
    size_t i;
    memset(&info, 5, sizeof info);
    memset(&before, 5, sizeof before);
    for (i = 0; i < 4; i++)
        CHECK(hll_image_info(empty, sizeof empty, &info, others[i]) == HLL_ARGUMENT, "an info of %d bytes", (int)others[i]);
    CHECK(memcmp(&info, &before, sizeof info) == 0, "an info of another size is written");
    CHECK(hll_image_info(empty, sizeof empty, &info, sizeof info) == HLL_OK && info.is_empty == 1, "an empty sketch");
}

/* NULL may stand where a length is 0, and for what is told of a refusal. */
static void test_null(void)
{
    static const uint8_t empty[] = {2, 1, 7, 10, 3, 12, 0, 8}, bad[] = {2, 1, 6, 10, 3, 12, 0, 8};
    static const size_t ends[] = {0, 0}, apart[] = {8, 16};
    uint8_t out[64], both[16], registers[32] = {0}, few[16] = {0}, same = 7;
    hll_bytes parts[2] = {{NULL, 0}, {NULL, 0}};
    size_t size = 0;
    hll_info info;
    hll_histogram histogram;
    memcpy(both, empty, 8);
    memcpy(both + 8, bad, 8);
    few[3] = 9;
    CHECK(hll_image_check(NULL, 0) == HLL_TRUNCATED && hll_image_size(NULL, 0, &size) == HLL_TRUNCATED, "no image");
    CHECK(hll_image_info(NULL, 0, &info, sizeof info) == HLL_TRUNCATED, "info of none");
    CHECK(hll_image_histogram(NULL, 0, &histogram) == HLL_TRUNCATED, "a histogram of none");
    CHECK(hll_image_new(10, 8, NULL, 0, &size) == HLL_BUFFER && size == 8, "no buffer");
    CHECK(hll_image_add(empty, 8, NULL, 0, NULL, 0, out, sizeof out, &size) == HLL_OK && size == 8, "no values");
    CHECK(hll_image_add(empty, 8, NULL, 0, ends, 2, out, sizeof out, &size) == HLL_OK && size == 12, "empty strings");
    CHECK(hll_images_union(10, 8, NULL, 0, NULL, 0, out, sizeof out, &size, NULL) == HLL_OK && size == 8, "no images");
    CHECK(hll_images_union(10, 8, both, 16, apart, 2, out, sizeof out, &size, NULL) == HLL_FAMILY, "a bad image");
    CHECK(hll_images_unionv(10, 8, NULL, 0, out, sizeof out, &size, NULL) == HLL_OK && size == 8, "no parts");
    CHECK(hll_images_unionv(10, 8, parts, 2, out, sizeof out, &size, NULL) == HLL_TRUNCATED, "parts of no bytes");
    CHECK(hll_image_merge(10, 8, empty, 8, bad, 8, out, sizeof out, &size, NULL) == HLL_FAMILY, "merged with a bad one");
    CHECK(hll_image_merge(10, 8, NULL, 0, empty, 8, out, sizeof out, &size, NULL) == HLL_TRUNCATED, "with none");
    CHECK(hll_images_agree(bad, 8, empty, 8, &same, NULL) == HLL_FAMILY && same == 7, "agreement with a bad one");
    CHECK(hll_registers_add(registers, 32, NULL, 0, NULL, 0) == HLL_OK, "no values for registers");
    CHECK(hll_registers_add_coupons(registers, 32, NULL, 0) == HLL_OK, "no coupons");
    CHECK(hll_registers_merge(registers, 32, NULL, 0, NULL) == HLL_TRUNCATED, "no image for registers");
    CHECK(hll_registers_merge_registers(registers, 32, few, 16, NULL) == HLL_COARSER, "fewer registers");
    CHECK(hll_registers_merge_registers(registers, 32, NULL, 0, NULL) == HLL_ARGUMENT, "no registers");
    CHECK(hll_coupon(NULL, 0) == hll_coupon(empty, 0), "the coupon of no bytes");
    CHECK(hll_coupons(NULL, 0, NULL, 0, NULL, 0) == HLL_OK, "no coupons of values");
}

/* ---- images of other versions (docs/DIFFERENCES.md) ---- */

/* A list or a set whose table has the size byte 0 is refused, and with the byte that its coupons ask for it is read. */
static void test_table_sizes(void)
{
    static const struct {
        size_t values;
        uint8_t lg_places;
    } rows[] = {
        {0, 3}, {1, 3}, {7, 3}, {8, 5}, {24, 5}, {25, 6}, {48, 6}, {49, 7}, {384, 9},
    };
    size_t i;
    for (i = 0; i < sizeof rows / sizeof rows[0]; i++) {
        bytes image = image_of_values(12, 8, 5, rows[i].values);
        CHECK(image.at[4] == rows[i].lg_places, "%d values: a table of 2^%d", (int)rows[i].values, image.at[4]);
        image.at[4] = 0;
        CHECK(hll_image_check(image.at, image.len) == HLL_LG_ARR, "%d values, size 0", (int)rows[i].values);
        image.at[4] = rows[i].lg_places;
        CHECK(hll_image_check(image.at, image.len) == HLL_OK, "%d values", (int)rows[i].values);
        free(image.at);
    }
}

/* Estimator fields that the flag 32 calls stale are kept without it, until they are made again. */
static void test_stale_words(void)
{
    bytes plain = image_of_values(12, 8, 5, 5000), stale = with_room(plain.len), written = with_room(plain.len);
    bytes wanted = with_room(plain.len);
    size_t size = 0;
    CHECK(hll_image_set_estimator_fields(plain.at, plain.len, wanted.at, wanted.len, &size) == HLL_OK, "words");
    memcpy(stale.at, wanted.at, wanted.len);
    stale.at[5] |= 32;
    memset(stale.at + 8, 7, 24);
    CHECK(hll_image_convert(stale.at, stale.len, 8, written.at, written.len, &size) == HLL_OK, "stale words");
    CHECK(written.at[5] == (wanted.at[5] & ~32) && memcmp(written.at + 8, stale.at + 8, 24) == 0, "words are not kept");
    CHECK(hll_image_set_estimator_fields(written.at, size, stale.at, stale.len, &size) == HLL_OK, "words of these");
    CHECK(size == wanted.len && memcmp(stale.at, wanted.at, size) == 0, "words are not made again");
    free(plain.at);
    free(stale.at);
    free(written.at);
    free(wanted.at);
}

/* ---- unions that check and merge in one pass ---- */

/* Unions of images of 8-bit registers, of which the second or the third has one byte above 63: it is rejected, nothing is
 * written, and the next union of the same images is right. */
static void test_unions_with_a_great_register(void)
{
    unsigned lg_k, which;
    for (lg_k = 4; lg_k <= 13; lg_k++) {
        bytes first = image_of_values((uint8_t)lg_k, 8, 1, (size_t)8 << lg_k),
              second = image_of_values((uint8_t)lg_k, 8, 7, (size_t)9 << lg_k);
        bytes out = with_room(HLL_IMAGE_MAX(13)), wanted = with_room(HLL_IMAGE_MAX(13));
        size_t size = 99, at, step = lg_k < 7 ? 1 : 37;
        hll_bytes parts[3] = {{first.at, first.len}, {second.at, second.len}, {first.at, first.len}};
        need(hll_image_merge(21, 8, first.at, first.len, second.at, second.len, wanted.at, wanted.len, &wanted.len, NULL) ==
                 HLL_OK,
             "a merge");
        for (at = 40; at < second.len; at += step)
            for (which = 1; which <= 2; which++) {
                static const uint8_t great[] = {64, 255};
                uint8_t kept = second.at[at];
                size_t failed = 7;
                parts[1].bytes = which == 1 ? second.at : first.at;
                parts[2].bytes = which == 1 ? first.at : second.at;
                second.at[at] = great[at % 2];
                memset(out.at, 5, out.len);
                CHECK(hll_images_unionv(21, 8, parts, 3, out.at, out.len, &size, &failed) == HLL_REGISTER &&
                          failed == which,
                      "lg_k %u, byte %zu of image %u", lg_k, at, which);
                CHECK(size == 99 && out.at[0] == 5 && out.at[out.len - 1] == 5, "lg_k %u: something is written", lg_k);
                second.at[at] = kept;
            }
        CHECK(hll_images_unionv(21, 8, parts, 3, out.at, out.len, &size, NULL) == HLL_OK && size == wanted.len &&
                  memcmp(out.at, wanted.at, size) == 0,
              "lg_k %u: the union", lg_k);
        free(first.at);
        free(second.at);
        free(out.at);
        free(wanted.at);
    }
}

/* A union of registers and of an image of 4-bit registers: the registers are the greater ones, or it is rejected for the reason of
 * hll_image_check. */
static void check_union_with(const uint8_t *registers, size_t count, const bytes *first, const bytes *image,
                             const char *what)
{
    uint8_t greater[4096], lg_k;
    bytes out = with_room(HLL_IMAGE_MAX(12)), wanted = with_room(HLL_IMAGE_MAX(12));
    hll_bytes parts[2] = {{first->at, first->len}, {image->at, image->len}};
    size_t size = 0, failed = 7;
    hll_status expected = hll_image_check(image->at, image->len),
               status = hll_images_unionv(12, 8, parts, 2, out.at, out.len, &size, &failed);
    CHECK(status == expected && (expected == HLL_OK || failed == 1), "%s: %d instead of %d", what, (int)status,
          (int)expected);
    memcpy(greater, registers, count);
    if (expected == HLL_OK && hll_registers_merge(greater, count, image->at, image->len, &lg_k) == HLL_OK) {
        need(hll_registers_image(greater, count, 8, wanted.at, wanted.len, &wanted.len) == HLL_OK, "an image of registers");
        CHECK(size == wanted.len && memcmp(out.at, wanted.at, size) == 0, "%s: other registers", what);
    }
    free(out.at);
    free(wanted.at);
}

/* Images of 4-bit registers with up to ten exceptions, whole and with each bit of their counts and exceptions, and some of their
 * nibbles, changed. At most eight exceptions need no map. */
static void test_unions_with_exceptions(void)
{
    static const unsigned sizes[] = {4, 6, 10};
    size_t which, exceptions, i, at, bit;
    for (which = 0; which < 3; which++)
        for (exceptions = 0; exceptions <= 10; exceptions++) {
            size_t count = (size_t)1 << sizes[which];
            uint8_t registers[4096], others[4096];
            bytes first = with_room(HLL_IMAGE_MAX(12)), image = with_room(HLL_IMAGE_MAX(12));
            for (i = 0; i < count; i++)
                registers[i] = (uint8_t)(3 + i % 5), others[i] = (uint8_t)(1 + 7 * i % 9);
            for (i = 0; i < exceptions; i++)
                others[(37 * i + 5) % count] = (uint8_t)(16 + 4 * i);
            need(hll_registers_image(registers, count, 8, first.at, first.len, &first.len) == HLL_OK &&
                     hll_registers_image(others, count, 4, image.at, image.len, &image.len) == HLL_OK,
                 "images of registers");
            check_union_with(registers, count, &first, &image, "a union with exceptions");
            for (at = 32; at < image.len; at += at == 40 + count / 16 ? count / 2 - count / 16 : 1)
                for (bit = 0; bit < 8; bit += sizes[which] == 10 ? 3 : 1) {
                    image.at[at] ^= (uint8_t)(1u << bit);
                    check_union_with(registers, count, &first, &image, "a changed bit");
                    image.at[at] ^= (uint8_t)(1u << bit);
                }
            free(first.at);
            free(image.at);
        }
}

/* Registers of 0 that are merged into registers change nothing, the estimator fields included. */
static void test_unions_with_no_values(void)
{
    bytes first = image_of_values(12, 8, 1, 20000), zeros = with_room(first.len), out = with_room(first.len);
    hll_bytes parts[2] = {{first.at, first.len}, {zeros.at, zeros.len}};
    size_t size = 0;
    memcpy(zeros.at, first.at, 40);
    memset(zeros.at + 8, 0, 24);
    memset(zeros.at + 40, 0, zeros.len - 40);
    zeros.at[32] = 0, zeros.at[33] = 16;
    first.at[5] &= (uint8_t)~16;
    memset(first.at + 8, 7, 24);
    CHECK(hll_images_unionv(12, 8, parts, 2, out.at, out.len, &size, NULL) == HLL_OK && size == first.len &&
              memcmp(out.at, first.at, size) == 0,
          "registers of 0 change the fields");
    free(first.at);
    free(zeros.at);
    free(out.at);
}

/* Values that registers hold: the image is that of a conversion to its own width. */
static void test_held_values(void)
{
    static const uint8_t widths[] = {4, 6, 8};
    size_t which, count;
    for (which = 0; which < 3; which++)
        for (count = 0; count <= 40; count++) {
            bytes image = image_of_values(12, widths[which], 1, 20000), out = with_room(image.len + 64),
                  wanted = with_room(image.len + 64);
            uint8_t values[320] = {0};
            size_t ends[40], i;
            for (i = 0; i < count; i++) {
                values[8 * i] = (uint8_t)(1 + 5 * i);
                ends[i] = 8 * (i + 1);
            }
            image.at[5] &= (uint8_t)~16;
            memset(image.at + 8, 7, 24);
            need(hll_image_convert(image.at, image.len, 0, wanted.at, wanted.len, &wanted.len) == HLL_OK, "a conversion");
            CHECK(hll_image_add(image.at, image.len, values, 8 * count, ends, count, out.at, out.len, &out.len) == HLL_OK &&
                      out.len == wanted.len && memcmp(out.at, wanted.at, out.len) == 0,
                  "%u bits, %zu held values", widths[which], count);
            free(image.at);
            free(out.at);
            free(wanted.at);
        }
}

int main(void)
{
    test_reasons();
    test_messages();
    test_room();
    test_is_small();
    test_faulty_images();
    test_failed();
    test_arguments();
    test_small_images();
    test_coupons();
    test_own_width();
    test_other_ends();
    test_wrong_ends();
    test_telling();
    test_merges();
    test_folds();
    test_histogram_of_63();
    test_words();
    test_table_sizes();
    test_stale_words();
    test_words_by_default();
    test_known_registers();
    test_agreement();
    test_agreement_by_blocks();
    test_sizes();
    test_other_info();
    test_null();
    test_unions_with_a_great_register();
    test_unions_with_exceptions();
    test_unions_with_no_values();
    test_held_values();
    return finish("calls, each with its codes");
}
