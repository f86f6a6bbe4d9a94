/* SPDX-License-Identifier: Apache-2.0 */
/* Registers of the caller, and unions of parts: each code, known rows, every stage, form, width and lg_k beside registers
 * that are computed here from coupons, and random sequences of additions, joins and folds beside unions of images.
 * registers [SEQUENCES [small]]; small: no lg_k above 14. */
#include "test.h"

#include <stddef.h>
#ifndef _WIN32
#include <sys/uio.h>
#endif

#define MOST_IMAGES 16

/* Whether bytes have all this value. */
static int are_all(const uint8_t *at, size_t len, uint8_t value)
{
    size_t i;
    for (i = 0; i < len; i++)
        if (at[i] != value)
            return 0;
    return 1;
}

/* The registers of values, computed from their coupons: those from .. from + n - 1 of eight bytes each. */
static void raise_plainly(uint8_t *registers, uint8_t lg_k, uint64_t from, size_t n)
{
    size_t i, byte;
    for (i = 0; i < n; i++) {
        uint8_t value[8], *place;
        uint32_t coupon;
        for (byte = 0; byte < 8; byte++)
            value[byte] = (uint8_t)((from + i) >> (8 * byte));
        coupon = hll_coupon(value, 8);
        place = registers + HLL_COUPON_SLOT(coupon) % ((uint32_t)1 << lg_k);
        if (*place < HLL_COUPON_VALUE(coupon))
            *place = HLL_COUPON_VALUE(coupon);
    }
}

/* ---- the forms of lists and sets ---- */

static uint32_t word_at(const uint8_t *from)
{
    return (uint32_t)from[0] | (uint32_t)from[1] << 8 | (uint32_t)from[2] << 16 | (uint32_t)from[3] << 24;
}

/* Turns the coupons of a compact list or set round, so that they descend. */
static void turn_round(bytes image)
{
    size_t header = image.at[7] % 4 == HLL_LIST ? 8 : 12, count = (image.len - header) / 4, i;
    for (i = 0; i < count / 2; i++) {
        uint8_t word[4];
        memcpy(word, image.at + header + 4 * i, 4);
        memcpy(image.at + header + 4 * i, image.at + header + 4 * (count - 1 - i), 4);
        memcpy(image.at + header + 4 * (count - 1 - i), word, 4);
    }
}

/* The updatable image of a compact list or set: its coupons stand in the places of its table. */
static bytes in_places(bytes image)
{
    int is_list = image.at[7] % 4 == HLL_LIST;
    size_t header = is_list ? 8 : 12, places = (size_t)1 << (is_list ? 3 : image.at[4]), i;
    bytes made = with_room(header + 4 * places);
    memset(made.at, 0, made.len);
    memcpy(made.at, image.at, header);
    made.at[5] &= (uint8_t)~8;
    for (i = 0; header + 4 * i < image.len; i++) {
        uint32_t coupon = word_at(image.at + header + 4 * i);
        size_t stride = HLL_COUPON_SLOT(coupon) / places | 1, place = is_list ? i : coupon % places;
        while (word_at(made.at + header + 4 * place) != 0)
            place = (place + stride) % places;
        memcpy(made.at + header + 4 * place, image.at + header + 4 * i, 4);
    }
    return made;
}

/* ---- one image, of every stage, form, width and lg_k ---- */

/* Joins an image of these values, of registers of lg_k or of coupons, into registers of each lg_k. */
static void test_join_of(bytes image, uint8_t lg_k, int in_registers, uint64_t from, size_t n, int greatest)
{
    uint8_t *joined = malloc((size_t)1 << greatest), *want = malloc((size_t)1 << greatest), told, to;
    need(joined != NULL && want != NULL, "memory for a test");
    for (to = 4; to <= greatest; to++) {
        size_t count = (size_t)1 << to;
        int fewer = in_registers && lg_k < to;
        hll_status status;
        if (to < greatest && to > 6 && to + 1 < lg_k && to % 3 != 0)
            continue;
        memset(joined, 0, count), memset(want, 0, count), told = 77;
        joined[3] = want[3] = 200; /* no register: a join never reads it as one */
        if (!fewer)
            raise_plainly(want, to, from, n);
        want[3] = 200;
        status = hll_registers_merge(joined, count, image.at, image.len, &told);
        CHECK(status == (fewer ? HLL_COARSER : HLL_OK), "lg_k %d into %d: %d", lg_k, to, status);
        CHECK(told == (fewer ? lg_k : 77), "lg_k %d into %d told %d", lg_k, to, told);
        CHECK(memcmp(joined, want, count) == 0, "lg_k %d into %d", lg_k, to);
    }
    free(joined), free(want);
}

static void test_every_image(int greatest)
{
    static const size_t few[] = {0, 1, 7, 20, 100, 300};
    uint8_t lg_k;
    unsigned width;
    size_t i;
    for (lg_k = 4; lg_k <= greatest; lg_k++)
        for (width = 4; width <= 8; width += 2) {
            size_t many = (size_t)2 << lg_k;
            bytes image;
            for (i = 0; i <= sizeof few / sizeof few[0]; i++) {
                size_t n = i < sizeof few / sizeof few[0] ? few[i] : many;
                int stage;
                image = image_of_values(lg_k, (uint8_t)width, 1000 * i, n);
                stage = image.at[7] % 4;
                test_join_of(image, lg_k, stage == HLL_REGISTERS, 1000 * i, n, greatest < 12 || n == many ? greatest : 12);
                if (stage != HLL_REGISTERS && n > 0) {
                    bytes places = in_places(image);
                    test_join_of(places, lg_k, 0, 1000 * i, n, 8);
                    free(places.at);
                    turn_round(image);
                    test_join_of(image, lg_k, 0, 1000 * i, n, 8);
                }
                free(image.at);
            }
        }
}

/* ---- codes ---- */

static void test_counts(void)
{
    static uint8_t registers[100];
    static const size_t counts[] = {0, 1, 8, 15, 17, 24, 31, 33, 48, 99, (size_t)1 << 22, (size_t)1 << 40, SIZE_MAX};
    uint8_t out[200] = {0}, told = 7, other[16] = {0};
    size_t i, size = 9, end = 0;
    hll_histogram histogram;
    hll_estimation estimation;
    uint32_t coupon = (uint32_t)1 << 26;
    bytes image = image_of_values(10, 8, 0, 3);
    for (i = 0; i < sizeof counts / sizeof counts[0]; i++) {
        size_t n = counts[i];
        CHECK(hll_registers_add(registers, n, out, 0, &end, 1) == HLL_ARGUMENT, "add %d", (int)i);
        CHECK(hll_registers_add_coupons(registers, n, &coupon, 1) == HLL_ARGUMENT, "add_coupons %d", (int)i);
        CHECK(hll_registers_merge(registers, n, image.at, image.len, &told) == HLL_ARGUMENT, "join %d", (int)i);
        CHECK(hll_registers_merge_registers(registers, n, other, 16, &told) == HLL_ARGUMENT, "merge_registers %d", (int)i);
        CHECK(hll_registers_merge_registers(other, 16, registers, n, &told) == HLL_ARGUMENT, "of others %d", (int)i);
        CHECK(hll_registers_fold(registers, n, 4) == HLL_ARGUMENT, "fold %d", (int)i);
        CHECK(hll_registers_histogram(registers, n, &histogram) == HLL_ARGUMENT, "histogram %d", (int)i);
        CHECK(hll_registers_estimate(registers, n, &estimation) == HLL_ARGUMENT, "estimate %d", (int)i);
        CHECK(hll_registers_image(registers, n, 8, out, sizeof out, &size) == HLL_ARGUMENT, "image %d", (int)i);
    }
    CHECK(are_all(registers, sizeof registers, 0) && told == 7 && size == 9, "an argument out of range changes nothing");
    free(image.at);
}

/* Parts are laid out as struct iovec, where there is one. */
static void test_layout(void)
{
#ifndef _WIN32
    CHECK(sizeof(hll_bytes) == sizeof(struct iovec), "%d bytes", (int)sizeof(hll_bytes));
    CHECK(offsetof(hll_bytes, bytes) == offsetof(struct iovec, iov_base), "bytes");
    CHECK(offsetof(hll_bytes, len) == offsetof(struct iovec, iov_len), "len");
#endif
}

static void test_codes(void)
{
    uint8_t registers[32], before[32], out[200] = {0}, told = 7;
    size_t ends[2] = {3, 2}, size = 9, i;
    hll_histogram histogram, histogram_before;
    hll_estimation estimation, estimation_before;
    uint32_t coupons[2] = {(uint32_t)5 << 26, 5};
    memset(&histogram, 0xa5, sizeof histogram), histogram_before = histogram;
    memset(&estimation, 0xa5, sizeof estimation), estimation_before = estimation;
    for (i = 0; i < 32; i++)
        before[i] = registers[i] = i == 20 ? 64 : (uint8_t)(2 * i);
    CHECK(hll_registers_add(registers, 32, out, 3, ends, 2) == HLL_ARGUMENT, "ends that descend");
    CHECK(hll_registers_add(registers, 32, out, 2, ends, 1) == HLL_ARGUMENT, "ends past the values");
    CHECK(hll_registers_add_coupons(registers, 32, coupons, 2) == HLL_ARGUMENT, "a coupon of value 0");
    CHECK(hll_registers_fold(registers, 32, 3) == HLL_ARGUMENT, "to 3");
    CHECK(hll_registers_fold(registers, 32, 6) == HLL_ARGUMENT, "above its lg_k");
    CHECK(hll_registers_fold(registers, 32, 5) == HLL_REGISTER, "above 63");
    CHECK(hll_registers_histogram(registers, 32, &histogram) == HLL_REGISTER, "above 63");
    CHECK(hll_registers_estimate(registers, 32, &estimation) == HLL_REGISTER, "above 63");
    CHECK(hll_registers_image(registers, 32, 8, out, sizeof out, &size) == HLL_REGISTER, "above 63");
    CHECK(hll_registers_image(registers, 32, 5, out, sizeof out, &size) == HLL_ARGUMENT, "a width of 5");
    CHECK(memcmp(registers, before, 32) == 0 && size == 9, "a refusal changes nothing");
    CHECK(memcmp(&histogram, &histogram_before, sizeof histogram) == 0, "histogram");
    CHECK(memcmp(&estimation, &estimation_before, sizeof estimation) == 0, "estimation");
    CHECK(hll_registers_merge_registers(out, 16, registers, 32, &told) == HLL_REGISTER && told == 7, "others above 63");
    CHECK(hll_registers_merge_registers(registers, 32, before, 16, &told) == HLL_COARSER && told == 4, "fewer others");
    CHECK(memcmp(registers, before, 32) == 0, "fewer others change nothing");
    memset(out, 0, 16), told = 7;
    CHECK(hll_registers_merge_registers(registers, 32, out, 16, &told) == HLL_OK && told == 7, "others of zeros");
    CHECK(hll_registers_merge_registers(out, 16, before, 16, &told) == HLL_OK && memcmp(out, before, 16) == 0, "as many");
    CHECK(strcmp(hll_reason(HLL_COARSER), "coarser") == 0 && HLL_COARSER == 15, "its word");
    /* nothing of a length of 0 is read */
    CHECK(hll_registers_add(registers, 32, NULL, 0, NULL, 0) == HLL_OK, "no values");
    CHECK(hll_registers_add_coupons(registers, 32, NULL, 0) == HLL_OK, "no coupons");
    CHECK(hll_registers_merge(registers, 32, NULL, 0, &told) == HLL_TRUNCATED && told == 7, "no image");
    CHECK(hll_images_unionv(4, 8, NULL, 0, out, sizeof out, &size, &i) == HLL_OK && size == 8, "no parts");
    CHECK(memcmp(registers, before, 32) == 0, "nothing is added");
}

/* An image of each reason is refused for it, and nothing changes. */
static void test_faulty(void)
{
    bytes image = image_of_values(6, 8, 0, 200), part;
    uint8_t registers[64], before[64], out[200], told = 7;
    hll_bytes parts[3];
    size_t size = 9, failed = 7, i;
    for (i = 0; i < 64; i++)
        before[i] = registers[i] = (uint8_t)i;
    for (i = 0; i < image.len; i++) {
        hll_status checked = hll_image_check(image.at, i);
        hll_status status = hll_registers_merge(registers, 64, image.at, i, &told);
        CHECK(status == checked && status != HLL_OK && told == 7 && memcmp(registers, before, 64) == 0, "%d bytes", (int)i);
    }
    for (i = 0; i < 8 * 48; i++) {
        hll_status checked, status;
        image.at[i / 8] ^= (uint8_t)(1 << i % 8);
        checked = hll_image_check(image.at, image.len);
        memcpy(registers, before, 64);
        status = hll_registers_merge(registers, 64, image.at, image.len, &told);
        CHECK(status == checked || (checked == HLL_OK && status == HLL_COARSER), "bit %d: %d, %d", (int)i, checked, status);
        CHECK(status == HLL_OK || memcmp(registers, before, 64) == 0, "bit %d", (int)i);
        image.at[i / 8] ^= (uint8_t)(1 << i % 8);
    }
    part = image_of_values(6, 4, 5, 9);
    for (i = 0; i < 3; i++) {
        parts[0] = parts[1] = parts[2] = (hll_bytes){part.at, part.len};
        parts[i].len = i; /* an empty part is no image */
        failed = 7;
        CHECK(hll_images_unionv(6, 8, parts, 3, out, sizeof out, &size, &failed) == HLL_TRUNCATED, "part %d", (int)i);
        CHECK(failed == i && size == 9, "part %d", (int)i);
    }
    CHECK(hll_images_unionv(3, 8, parts, 3, out, sizeof out, &size, &failed) == HLL_ARGUMENT, "lg_max_k of 3");
    CHECK(hll_images_unionv(6, 7, parts, 3, out, sizeof out, &size, &failed) == HLL_ARGUMENT && failed == 2, "width of 7");
    free(image.at), free(part.at);
}

/* The image and the union of parts, into buffers of every room. */
static void test_rooms(void)
{
    bytes image = image_of_values(6, 8, 0, 200), other = image_of_values(6, 6, 500, 200);
    uint8_t registers[64] = {0}, told, whole[200], out[200];
    hll_bytes parts[2] = {{NULL, 0}, {NULL, 0}};
    size_t whole_size, size, failed = 7, room;
    int call;
    parts[0] = (hll_bytes){image.at, image.len}, parts[1] = (hll_bytes){other.at, other.len};
    hll_registers_merge(registers, 64, image.at, image.len, &told);
    for (call = 0; call < 2; call++) {
        if (call == 0)
            need(hll_registers_image(registers, 64, 6, whole, sizeof whole, &whole_size) == HLL_OK, "image");
        else
            need(hll_images_unionv(6, 6, parts, 2, whole, sizeof whole, &whole_size, &failed) == HLL_OK, "parts");
        for (room = 0; room <= whole_size + 3; room++) {
            hll_status status;
            memset(out, 0xa5, sizeof out), size = 4711;
            status = call == 0 ? hll_registers_image(registers, 64, 6, out, room, &size)
                               : hll_images_unionv(6, 6, parts, 2, out, room, &size, &failed);
            CHECK(status == (room < whole_size ? HLL_BUFFER : HLL_OK) && size == whole_size, "room %d", (int)room);
            CHECK(status != HLL_OK || memcmp(out, whole, whole_size) == 0, "room %d", (int)room);
            CHECK(are_all(out + (status == HLL_OK ? whole_size : 0), sizeof out - whole_size, 0xa5), "room %d", (int)room);
        }
    }
    free(image.at), free(other.at);
}

/* ---- rows ---- */

static void test_rows(void)
{
    /* registers at lg_k 4, of which slots 0 and 1 are 10 and 20; at lg_k 5, of which slots 0, 1, 16 and 17 are 15, 18, 25
     * and 30; and their union, whose words are 0, 14 + 2^-25 + 2^-30 and 0 */
    bytes left = of_hex("0a0107040010000a" "000000000000000000000000000000000000000000000000" "0e00000000000000"
                        "0a140000000000000000000000000000");
    bytes right = of_hex("0a0107050010000a" "000000000000000000000000000000000000000000000000" "1c00000000000000"
                         "0f120000000000000000000000000000" "191e0000000000000000000000000000");
    bytes both = of_hex("0a0107040010000a" "0000000000000000" "0000080100002c40" "0000000000000000" "0e00000000000000"
                        "191e0000000000000000000000000000");
    uint8_t registers[32] = {0}, others[32] = {0}, out[100], told = 7;
    size_t size, i;
    hll_histogram histogram;
    CHECK(hll_registers_merge(registers, 32, left.at, left.len, &told) == HLL_COARSER && told == 4, "left");
    CHECK(hll_registers_merge(registers, 32, right.at, right.len, &told) == HLL_OK, "right");
    CHECK(memcmp(registers, right.at + 40, 32) == 0, "right");
    CHECK(hll_registers_merge(others, 16, left.at, left.len, &told) == HLL_OK, "left");
    CHECK(hll_registers_merge_registers(others, 16, registers, 32, &told) == HLL_OK, "joined");
    CHECK(hll_registers_image(others, 16, 8, out, sizeof out, &size) == HLL_OK, "image");
    CHECK(size == both.len && memcmp(out, both.at, size) == 0, "image");
    CHECK(hll_registers_fold(registers, 32, 4) == HLL_OK, "fold");
    CHECK(registers[0] == 25 && registers[1] == 30 && memcmp(registers + 16, right.at + 56, 16) == 0, "fold");
    CHECK(hll_registers_histogram(others, 16, &histogram) == HLL_OK, "histogram");
    for (i = 0; i < 64; i++)
        CHECK(histogram.counts[i] == (i == 0 ? 14 : i == 25 || i == 30 ? 1 : 0), "of %d", (int)i);
    free(left.at), free(right.at), free(both.at);
}

/* ---- random sequences ---- */

/* The registers of the caller beside those of values, and the images that were joined. */
struct run {
    uint8_t registers[1 << 14], plain[1 << 14];
    uint8_t lg_k, bound;
    size_t n;
    bytes images[MOST_IMAGES];
};

static unsigned long images_joined, folds_made;

/* Folds the plain registers, one by one. */
static void fold_plainly(struct run *run, uint8_t to)
{
    size_t i;
    for (i = (size_t)1 << to; i < (size_t)1 << run->lg_k; i++) {
        uint8_t *place = run->plain + i % ((size_t)1 << to);
        if (*place < run->plain[i])
            *place = run->plain[i];
    }
    run->lg_k = to;
}

static void fold(struct run *run, uint8_t to)
{
    CHECK(hll_registers_fold(run->registers, (size_t)1 << run->lg_k, to) == HLL_OK, "%d to %d", run->lg_k, to);
    fold_plainly(run, to);
    folds_made++;
}

/* Joins an image of values: at first as it is, by registers where it has some, or in another form of a set. */
static void join(struct run *run, uint64_t *state)
{
    static const size_t numbers[] = {0, 3, 7, 20, 90, 150, 700, 6000};
    uint8_t lg_k = (uint8_t)(4 + random_word(state) % 11), told = 0, before[1 << 4];
    size_t n = numbers[random_word(state) % 8], count = (size_t)1 << run->lg_k;
    uint64_t from = random_word(state);
    bytes image = image_of_values(lg_k, "\4\6\10"[random_word(state) % 3], from, n), form;
    int stage = image.at[7] % 4, kind = (int)(random_word(state) % 3);
    hll_status status;
    form = image;
    if (stage != HLL_REGISTERS && n > 0 && kind == 1)
        form = in_places(image);
    else if (stage != HLL_REGISTERS && kind == 2)
        turn_round(image);
    form.at[0] ^= 255; /* refused: nothing changes */
    CHECK(hll_registers_merge(run->registers, count, form.at, form.len, &told) == HLL_PREAMBLE, "refused");
    form.at[0] ^= 255;
    memcpy(before, run->registers, sizeof before);
    status = hll_registers_merge(run->registers, count, form.at, form.len, &told);
    if (status == HLL_COARSER) {
        CHECK(stage == HLL_REGISTERS && told == lg_k && lg_k < run->lg_k && memcmp(before, run->registers, 16) == 0, "fewer");
        fold(run, told);
        status = hll_registers_merge(run->registers, (size_t)1 << told, form.at, form.len, &told);
    }
    CHECK(status == HLL_OK, "status %d", status);
    raise_plainly(run->plain, run->lg_k, from, n);
    run->images[run->n++] = form;
    if (form.at != image.at)
        free(image.at);
    images_joined++;
}

static void add(struct run *run, uint64_t *state)
{
    uint64_t from = random_word(state);
    size_t n = random_word(state) % 50, i, byte, ends[50];
    uint8_t values[400];
    uint32_t coupons[50];
    for (i = 0; i < n; i++) {
        for (byte = 0; byte < 8; byte++)
            values[8 * i + byte] = (uint8_t)((from + i) >> (8 * byte));
        ends[i] = 8 * (i + 1);
    }
    if (random_word(state) % 2 == 0) {
        CHECK(hll_registers_add(run->registers, (size_t)1 << run->lg_k, values, 8 * n, ends, n) == HLL_OK, "add");
    } else {
        CHECK(hll_coupons(values, 8 * n, ends, n, coupons, 50) == HLL_OK, "coupons");
        CHECK(hll_registers_add_coupons(run->registers, (size_t)1 << run->lg_k, coupons, n) == HLL_OK, "add_coupons");
    }
    raise_plainly(run->plain, run->lg_k, from, n);
    run->images[run->n++] = image_of_values(run->bound, 8, from, n);
}

/* The union of the images within the bound, as parts and side by side; with its estimator fields set where it is in registers. */
static void compare_union(struct run *run)
{
    bytes joined, made = with_room(HLL_IMAGE_MAX(14)), parts_made = with_room(HLL_IMAGE_MAX(14)), set = with_room(HLL_IMAGE_MAX(14));
    size_t ends[MOST_IMAGES], end = 0, i, failed = 7, size = 0;
    hll_bytes parts[MOST_IMAGES];
    for (i = 0; i < run->n; i++)
        end += run->images[i].len;
    joined = with_room(end);
    for (end = 0, i = 0; i < run->n; i++) {
        memcpy(joined.at + end, run->images[i].at, run->images[i].len);
        ends[i] = end += run->images[i].len;
        parts[i] = (hll_bytes){run->images[i].at, run->images[i].len};
    }
    CHECK(hll_images_union(run->bound, 8, joined.at, end, ends, run->n, made.at, made.len, &made.len, &failed) == HLL_OK, "union");
    CHECK(hll_images_unionv(run->bound, 8, parts, run->n, parts_made.at, parts_made.len, &parts_made.len, &failed) == HLL_OK, "parts");
    CHECK(made.len == parts_made.len && memcmp(made.at, parts_made.at, made.len) == 0, "parts beside the union");
    if (made.at[7] % 4 == HLL_REGISTERS && made.at[3] == run->lg_k && run->n > 1) {
        uint8_t *out = parts_made.at;
        need(hll_image_set_estimator_fields(made.at, made.len, set.at, set.len, &set.len) == HLL_OK, "words");
        CHECK(hll_registers_image(run->registers, (size_t)1 << run->lg_k, 8, out, HLL_IMAGE_MAX(14), &size) == HLL_OK, "image");
        CHECK(size == set.len && memcmp(out + 40, set.at + 40, size - 40) == 0, "registers beside the union");
        CHECK(memcmp(out, set.at, size) == 0, "the image beside the union");
    }
    free(joined.at), free(made.at), free(parts_made.at), free(set.at);
}

/* The image of the registers at each width gives them back. */
static void compare_images(struct run *run)
{
    static uint8_t back[1 << 14], out[HLL_IMAGE_MAX(14)];
    size_t count = (size_t)1 << run->lg_k, size;
    uint8_t width, told;
    hll_estimation of_registers, of_image;
    for (width = 4; width <= 8; width += 2) {
        memset(back, 0, count);
        CHECK(hll_registers_image(run->registers, count, width, out, sizeof out, &size) == HLL_OK, "image");
        CHECK(hll_registers_merge(back, count, out, size, &told) == HLL_OK, "back");
        CHECK(memcmp(back, run->registers, count) == 0, "back from %d bits", width);
    }
    CHECK(hll_registers_estimate(run->registers, count, &of_registers) == HLL_OK, "estimate");
    CHECK(hll_estimate(out, size, &of_image) == HLL_OK && memcmp(&of_registers, &of_image, sizeof of_image) == 0, "estimate");
}

static void test_sequences(unsigned long sequences)
{
    static struct run run;
    uint64_t state = 24;
    unsigned long i;
    for (i = 0; i < sequences; i++) {
        size_t steps = 1 + random_word(&state) % (MOST_IMAGES - 1);
        memset(&run, 0, sizeof run);
        run.lg_k = run.bound = (uint8_t)(4 + random_word(&state) % 11);
        while (steps-- > 0) {
            uint64_t step = random_word(&state) % 8;
            if (step == 0)
                fold(&run, (uint8_t)(4 + random_word(&state) % (run.lg_k - 3u)));
            else if (step < 3)
                add(&run, &state);
            else
                join(&run, &state);
            CHECK(memcmp(run.registers, run.plain, (size_t)1 << run.lg_k) == 0, "sequence %lu", i);
        }
        compare_union(&run);
        compare_images(&run);
        while (run.n-- > 0)
            free(run.images[run.n].at);
    }
}

int main(int argc, char **argv)
{
    unsigned long sequences = argc > 1 ? strtoul(argv[1], NULL, 10) : 2000;
    int small = argc > 2 || sequences < 2000;
    test_layout();
    test_counts();
    test_codes();
    test_faulty();
    test_rooms();
    test_rows();
    test_every_image(small ? 12 : 21);
    test_sequences(sequences);
    printf("%lu sequences, %lu images, %lu folds; ", sequences, images_joined, folds_made);
    return finish("registers");
}
