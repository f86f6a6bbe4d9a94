/* SPDX-License-Identifier: Apache-2.0 */
/* Loops in C that bench/compare.c times calls of libhll beside: plain ones, and some by hand for AVX2, all at lg_k 12. */
#ifndef BENCH_LOOPS_H
#define BENCH_LOOPS_H

#include "images.h"

#include <immintrin.h>

#define AVX2 __attribute__((target("avx2")))

/* ---- coupons ---- */

static uint64_t turned(uint64_t word, int by)
{
    return word << by | word >> (64 - by);
}

static uint64_t mixed(uint64_t word)
{
    word = (word ^ word >> 33) * 0xff51afd7ed558ccdu;
    word = (word ^ word >> 33) * 0xc4ceb9fe1a85ec53u;
    return word ^ word >> 33;
}

/* The coupon of the two words of a hash before they are mixed, and of the length. */
static uint32_t coupon_of_words(uint64_t a, uint64_t b, size_t length)
{
    size_t zeros;
    a ^= length, b ^= length;
    a += b, b += a;
    a = mixed(a), b = mixed(b);
    a += b, b += a;
    zeros = b == 0 ? 62 : (size_t)__builtin_clzll(b);
    return (uint32_t)((zeros > 61 ? 62 : zeros) + 1) << 26 | ((uint32_t)a & 0x3ffffff);
}

static const uint64_t first_factor = 0x87c37b91114253d5u, second_factor = 0x4cf5ad432745937fu;

/* The coupon of eight bytes, which are one word. */
static uint32_t plain_coupon_of_eight(const uint8_t *bytes)
{
    uint64_t word;
    memcpy(&word, bytes, 8);
    return coupon_of_words(9001 ^ turned(word * first_factor, 31) * second_factor, 9001, 8);
}

/* The coupon of bytes: of MurmurHash3 x64 128 at the seed 9001. */
static uint32_t plain_coupon(const uint8_t *bytes, size_t length)
{
    uint64_t a = 9001, b = 9001, word[2];
    size_t left = length;
    if (length == 8)
        return plain_coupon_of_eight(bytes);
    for (; left >= 16; left -= 16, bytes += 16) {
        memcpy(word, bytes, 16);
        a = (turned(a ^ turned(word[0] * first_factor, 31) * second_factor, 27) + b) * 5 + 0x52dce729;
        b = (turned(b ^ turned(word[1] * second_factor, 33) * first_factor, 31) + a) * 5 + 0x38495ab5;
    }
    word[0] = word[1] = 0;
    memcpy(word, bytes, left);
    if (left > 8)
        b ^= turned(word[1] * second_factor, 33) * first_factor;
    if (left > 0)
        a ^= turned(word[0] * first_factor, 31) * second_factor;
    return coupon_of_words(a, b, length);
}

/* ---- registers of images ---- */

enum { HEADER = 40, MARK = 15 };

static __m256i AVX2 loaded(const uint8_t *from)
{
    return _mm256_loadu_si256((const __m256i *)from);
}

static void AVX2 raise(uint8_t *at, __m256i to)
{
    _mm256_storeu_si256((__m256i *)at, _mm256_max_epu8(loaded(at), to));
}

static void AVX2 merge_eight(uint8_t *registers, const uint8_t *from)
{
    int i;
    for (i = 0; i < COUNT; i += 32)
        raise(registers + i, loaded(from + i));
}

/* Twelve bytes in each half are sixteen registers: a word of three bytes to each four. The upper half is read from four
 * bytes before, so that nothing behind the last is. */
static void AVX2 merge_six(uint8_t *registers, const uint8_t *from)
{
    const __m256i spread = _mm256_setr_epi8(0, 1, 2, -1, 3, 4, 5, -1, 6, 7, 8, -1, 9, 10, 11, -1, 4, 5, 6, -1, 7, 8, 9, -1, 10, 11, 12, -1, 13, 14, 15, -1);
    int i;
    for (i = 0; i < COUNT; i += 32, from += 24) {
        __m128i low = _mm_loadu_si128((const __m128i *)from), high = _mm_loadu_si128((const __m128i *)(from + 8));
        __m256i four = _mm256_shuffle_epi8(_mm256_inserti128_si256(_mm256_castsi128_si256(low), high, 1), spread);
        __m256i there = _mm256_and_si256(four, _mm256_set1_epi32(63));
        there = _mm256_or_si256(there, _mm256_and_si256(_mm256_slli_epi32(four, 2), _mm256_set1_epi32(63 << 8)));
        there = _mm256_or_si256(there, _mm256_and_si256(_mm256_slli_epi32(four, 4), _mm256_set1_epi32(63 << 16)));
        there = _mm256_or_si256(there, _mm256_and_si256(_mm256_slli_epi32(four, 6), _mm256_set1_epi32(63 << 24)));
        raise(registers + i, there);
    }
}

static void AVX2 merge_four(uint8_t *registers, const uint8_t *from, uint8_t minimum)
{
    const __m256i least = _mm256_set1_epi8((char)minimum), low = _mm256_set1_epi8(15);
    int i;
    for (i = 0; i < COUNT / 2; i += 32) {
        __m256i bytes = loaded(from + i);
        __m256i even = _mm256_add_epi8(_mm256_and_si256(bytes, low), least);
        __m256i odd = _mm256_add_epi8(_mm256_and_si256(_mm256_srli_epi16(bytes, 4), low), least);
        __m256i a = _mm256_unpacklo_epi8(even, odd), b = _mm256_unpackhi_epi8(even, odd);
        raise(registers + 2 * i, _mm256_permute2x128_si256(a, b, 0x20));
        raise(registers + 2 * i + 32, _mm256_permute2x128_si256(a, b, 0x31));
    }
}

static void plain_merge_four(uint8_t *registers, const uint8_t *from, uint8_t minimum)
{
    int i;
    for (i = 0; i < COUNT / 2; i++) {
        uint8_t even = (uint8_t)(minimum + (from[i] & 15)), odd = (uint8_t)(minimum + (from[i] >> 4));
        registers[2 * i] = registers[2 * i] < even ? even : registers[2 * i];
        registers[2 * i + 1] = registers[2 * i + 1] < odd ? odd : registers[2 * i + 1];
    }
}

/* The exceptions after the nibbles of an image, each a coupon. */
static const uint8_t *exceptions_of(const uint8_t *image, uint32_t *count)
{
    *count = word_at(image + 36);
    return image + HEADER + COUNT / 2;
}

static void merge_exceptions(uint8_t *registers, const uint8_t *image)
{
    uint32_t count, i;
    const uint8_t *exceptions = exceptions_of(image, &count);
    for (i = 0; i < count; i++) {
        uint32_t coupon = word_at(exceptions + 4 * i);
        if (registers[coupon % COUNT] < HLL_COUPON_VALUE(coupon))
            registers[coupon % COUNT] = HLL_COUPON_VALUE(coupon);
    }
}

/* ---- what an image is checked for before anything is merged ---- */

static int has_header(const uint8_t *image, size_t len, int bits, size_t bytes)
{
    return len >= HEADER + bytes && image[0] == 10 && image[1] == 1 && image[2] == 7 && image[3] == LG_K && (image[7] & 3) == 2
        && (image[7] >> 2 & 3) == (bits - 4) / 2 && word_at(image + 32) <= COUNT;
}

static int AVX2 has_registers(const uint8_t *from)
{
    __m256i all = _mm256_setzero_si256();
    int i;
    for (i = 0; i < COUNT; i += 32)
        all = _mm256_or_si256(all, loaded(from + i));
    return _mm256_testz_si256(all, _mm256_set1_epi8((char)0xc0));
}

static uint32_t AVX2 sum_of(__m256i bytes)
{
    __m256i sums = _mm256_sad_epu8(bytes, _mm256_setzero_si256());
    __m128i both = _mm_add_epi64(_mm256_castsi256_si128(sums), _mm256_extracti128_si256(sums, 1));
    return (uint32_t)(_mm_cvtsi128_si64(both) + _mm_extract_epi64(both, 1));
}

/* How many nibbles mark an exception: 64 blocks count at most 128 in a byte. */
static uint32_t AVX2 count_marks(const uint8_t *from)
{
    const __m256i low = _mm256_set1_epi8(15), high = _mm256_set1_epi8((char)0xf0);
    __m256i count = _mm256_setzero_si256();
    int i;
    for (i = 0; i < COUNT / 2; i += 32) {
        __m256i bytes = loaded(from + i);
        count = _mm256_sub_epi8(count, _mm256_cmpeq_epi8(_mm256_and_si256(bytes, low), low));
        count = _mm256_sub_epi8(count, _mm256_cmpeq_epi8(_mm256_and_si256(bytes, high), high));
    }
    return sum_of(count);
}

/* Whether each exception is at least 15 above the minimum, at a nibble that marks it, and no slot has two. */
static int have_places(const uint8_t *image, uint32_t marks)
{
    uint32_t count, i, j;
    const uint8_t *exceptions = exceptions_of(image, &count);
    if (count != marks)
        return 0;
    for (i = 0; i < count; i++) {
        uint32_t coupon = word_at(exceptions + 4 * i), slot = coupon % COUNT;
        if (HLL_COUPON_VALUE(coupon) < image[6] + MARK || (image[HEADER + slot / 2] >> 4 * (slot & 1) & 15) != MARK)
            return 0;
        for (j = 0; j < i; j++)
            if (word_at(exceptions + 4 * j) % COUNT == slot)
                return 0;
    }
    return 1;
}

/* Whether an image of so many bits is legal; bytes are those of its registers. */
static int is_legal(const uint8_t *image, size_t len, int bits)
{
    size_t bytes = (size_t)COUNT * (size_t)bits / 8;
    if (!has_header(image, len, bits, bytes))
        return 0;
    if (bits == 8)
        return has_registers(image + HEADER);
    if (bits == 4)
        return image[6] <= 49 && (len - HEADER - bytes) / 4 >= word_at(image + 36) && have_places(image, count_marks(image + HEADER));
    return 1;
}

#endif
