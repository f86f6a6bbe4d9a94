/* SPDX-License-Identifier: Apache-2.0 */
/* What the test programs share: counted checks, images of each kind, and the calls in one form. */
#ifndef TEST_H
#define TEST_H

#include "../hll_state.h"

#include <stdio.h>
#include <stdlib.h>
#include <string.h>

static long checks_passed, checks_failed;

/* Counts a check, and tells of one that fails. */
#define CHECK(holds, ...)                                         \
    do {                                                          \
        if (holds) {                                              \
            checks_passed++;                                      \
        } else if (checks_failed++ < 20) {                        \
            printf("%s:%d: %s: ", __FILE__, __LINE__, #holds);    \
            printf(__VA_ARGS__);                                  \
            putchar('\n');                                        \
        }                                                         \
    } while (0)

/* Prints what was run, and how it went; the status of the program. */
static inline int finish(const char *what)
{
    printf("%s: %ld passed, %ld failed\n", what, checks_passed, checks_failed);
    return checks_failed != 0 || checks_passed == 0;
}

/* Ends the program where a test can't go on. */
static inline void need(int holds, const char *what)
{
    if (!holds) {
        printf("%s: 0 passed, 1 failed\n", what);
        exit(1);
    }
}

/* ---- bytes ---- */

typedef struct bytes {
    uint8_t *at;
    size_t len;
} bytes;

static inline bytes with_room(size_t len)
{
    bytes made = {malloc(len + 1), len};
    need(made.at != NULL, "memory for a test");
    return made;
}

/* The head of an image. */
static inline hll_head head_of(const uint8_t *image, size_t len)
{
    hll_head head;
    need(hll_image_head(image, len, &head, sizeof head) == HLL_OK, "a head");
    return head;
}

static inline int digit(char c)
{
    static const char digits[] = "0123456789abcdefABCDEF";
    const char *at = c == '\0' ? NULL : strchr(digits, c);
    return at == NULL ? -1 : (int)(at - digits) < 16 ? (int)(at - digits) : (int)(at - digits) - 6;
}

/* The bytes of so many hexadecimal digits; none where one is no digit, or they are odd. */
static inline bytes of_digits(const char *digits, size_t count)
{
    bytes none = {NULL, 0}, made;
    size_t i;
    if (count % 2 != 0)
        return none;
    made = with_room(count / 2);
    for (i = 0; i < made.len; i++) {
        int high = digit(digits[2 * i]), low = digit(digits[2 * i + 1]);
        if (high < 0 || low < 0) {
            free(made.at);
            return none;
        }
        made.at[i] = (uint8_t)(high * 16 + low);
    }
    return made;
}

static inline bytes of_hex(const char *digits)
{
    bytes made = of_digits(digits, strlen(digits));
    need(made.at != NULL, digits);
    return made;
}

/* ---- random numbers: splitmix64 ---- */

static inline uint64_t random_word(uint64_t *state)
{
    uint64_t word = *state += UINT64_C(0x9e3779b97f4a7c15);
    word = (word ^ (word >> 30)) * UINT64_C(0xbf58476d1ce4e5b9);
    word = (word ^ (word >> 27)) * UINT64_C(0x94d049bb133111eb);
    return word ^ (word >> 31);
}

/* ---- images ---- */

/* The image of the values from .. from + n - 1, of eight bytes each. */
static inline bytes image_of_values(uint8_t lg_k, uint8_t width, uint64_t from, size_t n)
{
    bytes made = with_room(HLL_IMAGE_MAX(lg_k)), values = with_room(8 * n);
    size_t *ends = malloc((n + 1) * sizeof *ends), size = 0, i, byte;
    uint8_t empty[8];
    need(ends != NULL, "memory for a test");
    for (i = 0; i < n; i++) {
        for (byte = 0; byte < 8; byte++)
            values.at[8 * i + byte] = (uint8_t)((from + i) >> (8 * byte));
        ends[i] = 8 * (i + 1);
    }
    need(hll_image_new(lg_k, width, empty, sizeof empty, &size) == HLL_OK, "hll_image_new for a test");
    need(hll_image_add(empty, size, values.at, values.len, ends, n, made.at, made.len, &made.len) == HLL_OK,
         "hll_image_add for a test");
    free(values.at);
    free(ends);
    return made;
}

/* The number of values of which a sketch of lg_k 12 is a list, a set, and registers. */
static const size_t values_of_stage[] = {5, 100, 20000};

/* ---- the calls that write an image, in one form: each makes an image from one, and arguments of its own ---- */

typedef hll_status writes(const uint8_t *image, size_t len, uint8_t *out, size_t room, size_t *size);

static hll_status call_new(const uint8_t *image, size_t len, uint8_t *out, size_t room, size_t *size)
{
    (void)image;
    (void)len;
    return hll_image_new(12, 8, out, room, size);
}

static hll_status call_add(const uint8_t *image, size_t len, uint8_t *out, size_t room, size_t *size)
{
    static const size_t ends[] = {1, 3, 3, 6};
    return hll_image_add(image, len, (const uint8_t *)"abcdef", 6, ends, 4, out, room, size);
}

static hll_status call_add_coupon(const uint8_t *image, size_t len, uint8_t *out, size_t room, size_t *size)
{
    return hll_image_add_coupon(image, len, 67108863, 63, out, room, size);
}

/* Beside it a list of one coupon of its own. */
static const uint8_t other_image[] = {2, 1, 7, 12, 3, 8, 1, 8, 9, 0, 0, 160};

static hll_status call_merge(const uint8_t *image, size_t len, uint8_t *out, size_t room, size_t *size)
{
    size_t failed = 77;
    hll_status status = hll_image_merge(12, 8, other_image, sizeof other_image, image, len, out, room, size, &failed);
    int refused = status >= HLL_TRUNCATED && status <= HLL_REGISTER;
    return failed == (refused ? 1u : 77u) ? status : 200;
}

static hll_status call_merge_left(const uint8_t *image, size_t len, uint8_t *out, size_t room, size_t *size)
{
    size_t failed = 77;
    hll_status status = hll_image_merge(12, 4, image, len, other_image, sizeof other_image, out, room, size, &failed);
    int refused = status >= HLL_TRUNCATED && status <= HLL_REGISTER;
    return failed == (refused ? 0u : 77u) ? status : 200;
}

/* The union of the other image, the image, and the other image again. */
static hll_status call_union(const uint8_t *image, size_t len, uint8_t *out, size_t room, size_t *size)
{
    size_t failed = 77, ends[3];
    bytes joined = with_room(len + 2 * sizeof other_image);
    hll_status status;
    int refused;
    memcpy(joined.at, other_image, sizeof other_image);
    memcpy(joined.at + sizeof other_image, image, len);
    memcpy(joined.at + sizeof other_image + len, other_image, sizeof other_image);
    ends[0] = sizeof other_image;
    ends[1] = ends[0] + len;
    ends[2] = joined.len;
    status = hll_images_union(12, 6, joined.at, joined.len, ends, 3, out, room, size, &failed);
    free(joined.at);
    refused = status >= HLL_TRUNCATED && status <= HLL_REGISTER;
    return failed == (refused ? 1u : 77u) ? status : 200;
}

/* Within 21, so that nothing is folded. */
static hll_status merge_within_21(uint8_t width, const uint8_t *image, size_t len, uint8_t *out, size_t room,
                                  size_t *size)
{
    size_t failed = 77;
    return hll_image_merge(21, width, image, len, image, len, out, room, size, &failed);
}

static hll_status call_merge_4(const uint8_t *image, size_t len, uint8_t *out, size_t room, size_t *size)
{
    return merge_within_21(4, image, len, out, room, size);
}

static hll_status call_merge_6(const uint8_t *image, size_t len, uint8_t *out, size_t room, size_t *size)
{
    return merge_within_21(6, image, len, out, room, size);
}

static hll_status call_merge_8(const uint8_t *image, size_t len, uint8_t *out, size_t room, size_t *size)
{
    return merge_within_21(8, image, len, out, room, size);
}

static hll_status call_fold(const uint8_t *image, size_t len, uint8_t *out, size_t room, size_t *size)
{
    return hll_image_fold(image, len, 4, out, room, size);
}

static hll_status call_convert(const uint8_t *image, size_t len, uint8_t *out, size_t room, size_t *size)
{
    return hll_image_convert(image, len, 6, out, room, size);
}

static hll_status call_convert_4(const uint8_t *image, size_t len, uint8_t *out, size_t room, size_t *size)
{
    return hll_image_convert(image, len, 4, out, room, size);
}

static hll_status call_words(const uint8_t *image, size_t len, uint8_t *out, size_t room, size_t *size)
{
    return hll_image_set_estimator_fields(image, len, out, room, size);
}

static hll_status call_no_words(const uint8_t *image, size_t len, uint8_t *out, size_t room, size_t *size)
{
    return hll_image_clear_estimator_fields(image, len, out, room, size);
}

static const struct writer {
    const char *name;
    writes *call;
    int reads;      /* whether it looks at the image */
} writers[] = {
    {"new", call_new, 0},
    {"add", call_add, 1},
    {"add_coupon", call_add_coupon, 1},
    {"merge, right", call_merge, 1},
    {"merge, left", call_merge_left, 1},
    {"merge to 4", call_merge_4, 1},
    {"merge to 6", call_merge_6, 1},
    {"merge to 8", call_merge_8, 1},
    {"union", call_union, 1},
    {"fold", call_fold, 1},
    {"convert to 6", call_convert, 1},
    {"convert to 4", call_convert_4, 1},
    {"set_estimator_fields", call_words, 1},
    {"clear_estimator_fields", call_no_words, 1},
};

#define WRITERS (sizeof writers / sizeof writers[0])

/* ---- the calls that only tell, in one form: the answer is put into so many bytes ---- */

static hll_status tell_info(const uint8_t *image, size_t len, void *answer)
{
    return hll_image_info(image, len, answer, sizeof(hll_info));
}

static hll_status tell_size(const uint8_t *image, size_t len, void *answer)
{
    return hll_image_size(image, len, answer);
}

static hll_status tell_check(const uint8_t *image, size_t len, void *answer)
{
    (void)answer;
    return hll_image_check(image, len);
}

static hll_status tell_histogram(const uint8_t *image, size_t len, void *answer)
{
    return hll_image_histogram(image, len, answer);
}

static hll_status tell_estimate(const uint8_t *image, size_t len, void *answer)
{
    return hll_estimate(image, len, answer);
}

static hll_status tell_agree(const uint8_t *image, size_t len, void *answer)
{
    size_t failed = 77;
    hll_status status = hll_images_agree(other_image, sizeof other_image, image, len, answer, &failed);
    int refused = status >= HLL_TRUNCATED && status <= HLL_REGISTER;
    return failed == (refused ? 1u : 77u) ? status : 200;
}

static hll_status tell_agree_left(const uint8_t *image, size_t len, void *answer)
{
    size_t failed = 77;
    hll_status status = hll_images_agree(image, len, other_image, sizeof other_image, answer, &failed);
    int refused = status >= HLL_TRUNCATED && status <= HLL_REGISTER;
    return failed == (refused ? 0u : 77u) ? status : 200;
}

/* Room for the answer of each call that tells, aligned for each. */
typedef union answer {
    hll_info info;
    hll_histogram histogram;
    hll_estimation estimation;
    uint8_t same;
    uint8_t bytes[1024];
} answer;

static const struct teller {
    const char *name;
    hll_status (*call)(const uint8_t *image, size_t len, void *answer);
} tellers[] = {
    {"info", tell_info},           {"check", tell_check},     {"size", tell_size},         {"histogram", tell_histogram},
    {"estimate", tell_estimate},   {"agree, right", tell_agree}, {"agree, left", tell_agree_left},
};

#define TELLERS (sizeof tellers / sizeof tellers[0])

#endif
