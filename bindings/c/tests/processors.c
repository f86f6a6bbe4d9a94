/* SPDX-License-Identifier: Apache-2.0 */
/* The code that runs is that for a kind of processor, and what all calls return and write over random images, of which about a
 * third are rejected: it has to be the same for each kind. processors WANTED [IMAGES OUT]. A line of OUT has the size of an image and a
 * digest of all results over it; the last lines have those of each call over all images. */
#include "test.h"

#define MOST_LG_K 14
#define STATE_LG_K 12
#define ROOM HLL_IMAGE_MAX(21)
#define MOST_CALLS 64

/* ---- digests: FNV-1a of 64 bits ---- */

static struct total {
    const char *name;
    uint64_t digest;
} totals[MOST_CALLS];
static size_t calls_made; /* over the present image */
static uint64_t of_image;
static unsigned long accepted;

static uint64_t digest_of(uint64_t digest, const void *bytes, size_t len)
{
    const uint8_t *at = bytes;
    while (len-- > 0)
        digest = (digest ^ *at++) * UINT64_C(0x100000001b3);
    return digest;
}

/* Notes the result of a call: its status, and what it wrote. */
static void note(const char *name, hll_status status, const void *written, size_t len)
{
    struct total *total = &totals[calls_made++];
    need(calls_made <= MOST_CALLS && (total->name == NULL || strcmp(total->name, name) == 0), "the order of calls");
    total->name = name;
    total->digest = digest_of(digest_of(total->digest, &status, 1), written, len);
    of_image = digest_of(digest_of(of_image, &status, 1), written, len);
}

/* ---- random images ---- */

static uint64_t chance = 87;

static uint64_t below(uint64_t bound)
{
    return random_word(&chance) % bound;
}

/* The value of a random coupon: v with a probability of 2^-v, or sometimes any. */
static uint8_t random_value(void)
{
    uint64_t word = random_word(&chance);
    uint8_t value = 1;
    if (word % 64 == 0)
        return (uint8_t)(1 + below(63));
    for (word >>= 6; value < 50 && word % 2 == 0; word >>= 1)
        value++;
    return value;
}

static uint32_t random_coupon(void)
{
    return (uint32_t)random_value() << 26 | (uint32_t)below((uint64_t)1 << 26);
}

/* Random registers, which are few, many or far from 0. */
static void fill_registers(uint8_t *registers, size_t count)
{
    size_t filled = below(3) == 0 ? below(count + 1) : count, i;
    uint8_t more = below(3) == 0 ? (uint8_t)below(14) : 0;
    memset(registers, 0, count);
    for (i = 0; i < filled; i++)
        registers[filled == count ? i : below(count)] = (uint8_t)(random_value() + more);
    for (i = 0; i < count; i++)
        if (registers[i] > 63)
            registers[i] = 63;
}

static bytes image_of_registers(uint8_t lg_k, unsigned width)
{
    size_t count = (size_t)1 << lg_k;
    bytes image = with_room(HLL_IMAGE_MAX(lg_k));
    uint8_t *registers = malloc(count);
    need(registers != NULL, "memory for a test");
    fill_registers(registers, count);
    need(hll_registers_image(registers, count, width, image.at, image.len, &image.len) == HLL_OK, "an image");
    if (below(4) == 0) /* the fields of a sketch that was counted in order */
        image.at[5] &= (uint8_t)~16;
    free(registers);
    return image;
}

/* Coupons in any order, in the compact form. */
static bytes image_of_random_coupons(uint8_t lg_k, unsigned width)
{
    size_t count = below(below(2) ? 9 : 150), room = count < 8 ? 8 : 12, i;
    bytes image = with_room(room + 4 * count);
    uint8_t lg_arr = 5;
    while ((size_t)3 << lg_arr < 4 * count)
        lg_arr++;
    memset(image.at, 0, image.len);
    memcpy(image.at, count < 8 ? "\2\1\7" : "\3\1\7", 3);
    image.at[3] = lg_k;
    image.at[4] = count < 8 ? 3 : lg_arr;
    image.at[5] = count == 0 ? 12 : 8;
    image.at[6] = count < 8 ? (uint8_t)count : 0;
    image.at[7] = (uint8_t)((width - 4) / 2 << 2 | (count < 8 ? HLL_LIST : HLL_SET));
    if (count >= 8)
        image.at[8] = (uint8_t)count, image.at[9] = (uint8_t)(count >> 8);
    for (i = 0; i < count; i++) {
        uint32_t coupon = random_coupon();
        image.at[room + 4 * i] = (uint8_t)coupon;
        image.at[room + 4 * i + 1] = (uint8_t)(coupon >> 8);
        image.at[room + 4 * i + 2] = (uint8_t)(coupon >> 16);
        image.at[room + 4 * i + 3] = (uint8_t)(coupon >> 24);
    }
    return image;
}

/* Changes some bytes, or cuts some off. */
static void damage(bytes *image)
{
    uint64_t kind = below(8), changes = 1 + below(3);
    if (kind == 0 && image->len > 0)
        image->len = below(image->len);
    else if (kind < 5)
        while (image->len > 0 && changes-- > 0)
            image->at[below(kind < 3 && image->len > 40 ? 40 : image->len)] ^= (uint8_t)(1 + below(255));
}

static bytes random_image(void)
{
    uint8_t lg_k = (uint8_t)(4 + (below(40) == 0 ? below(MOST_LG_K - 3) : below(8)));
    unsigned width = 4 + 2 * (unsigned)below(3);
    bytes image = below(3) == 0 ? image_of_random_coupons(lg_k, width) : image_of_registers(lg_k, width);
    if (below(2) == 0)
        damage(&image);
    return image;
}

/* ---- all calls ---- */

static uint8_t out[ROOM + 16], other_out[ROOM + 16];

static void run_images(bytes image, bytes other)
{
    size_t i, size, failed = 7, ends[2];
    hll_bytes parts[2];
    bytes both = with_room(image.len + other.len);
    hll_status status;
    for (i = 0; i < TELLERS; i++) {
        answer found;
        memset(&found, 0xa5, sizeof found);
        status = tellers[i].call(image.at, image.len, &found);
        note(tellers[i].name, status, &found, sizeof found);
    }
    for (i = 0; i < WRITERS; i++) {
        size = 0;
        status = writers[i].call(image.at, image.len, out, sizeof out, &size);
        note(writers[i].name, status, out, status == HLL_OK ? size : 0);
    }
    size = 0;
    status = hll_image_merge(10, 4 + 2 * (unsigned)(image.len % 3), image.at, image.len, other.at, other.len, out,
                             sizeof out, &size, &failed);
    note("merge of two", status, out, status == HLL_OK ? size : 0);
    memcpy(both.at, image.at, image.len);
    memcpy(both.at + image.len, other.at, other.len);
    ends[0] = image.len, ends[1] = both.len;
    status = hll_images_union(14, 8, both.at, both.len, ends, 2, out, sizeof out, &size, &failed);
    note("union of two", status, out, status == HLL_OK ? size : 0);
    parts[0].bytes = image.at, parts[0].len = image.len;
    parts[1].bytes = other.at, parts[1].len = other.len;
    status = hll_images_unionv(14, 4, parts, 2, out, sizeof out, &size, &failed);
    note("unionv of two", status, out, status == HLL_OK ? size : 0);
    note("failed", 0, &failed, sizeof failed);
    free(both.at);
}

static void run_registers(bytes image)
{
    static uint8_t registers[1 << MOST_LG_K], others[1 << MOST_LG_K];
    static uint64_t values[64];
    uint8_t lg_k = (uint8_t)(4 + below(9)), to = (uint8_t)(4 + below(lg_k - 3u)), coarser = 7;
    size_t count = (size_t)1 << lg_k, ends[64], end = 0, size = 0, i;
    uint32_t coupons[64];
    int32_t offsets[65] = {0};
    hll_histogram histogram;
    hll_estimation found;
    hll_status status;
    memset(&histogram, 0xa5, sizeof histogram), memset(&found, 0xa5, sizeof found);
    fill_registers(registers, count);
    memcpy(others, registers, count);
    for (i = 0; i < 64; i++) {
        values[i] = random_word(&chance);
        end += below(9);
        ends[i] = end;
        offsets[i + 1] = (int32_t)end;
    }
    status = hll_registers_merge(registers, count, image.at, image.len, &coarser);
    note("registers_merge", status, registers, count), note("coarser", 0, &coarser, 1);
    note("registers_add", hll_registers_add(registers, count, (uint8_t *)values, 512, ends, 64), registers, count);
    note("registers_add_fixed", hll_registers_add_fixed(registers, count, (uint8_t *)values, 512, 8), registers, count);
    note("coupons", hll_coupons((uint8_t *)values, 512, ends, 64, coupons, 64), coupons, sizeof coupons);
    note("registers_add_coupons", hll_registers_add_coupons(others, count, coupons, 64), others, count);
    note("coupons_fixed", hll_coupons_fixed((uint8_t *)values, 512, 8, coupons, 64), coupons, sizeof coupons);
    note("coupons_ends32", hll_coupons_ends32((uint8_t *)values, 512, offsets, 65, coupons, 64), coupons, sizeof coupons);
    coupons[0] = hll_coupon((uint8_t *)values, below(512));
    note("coupon", 0, coupons, 4);
    note("merge_registers", hll_registers_merge_registers(registers, count, others, count, &coarser), registers, count);
    note("registers_histogram", hll_registers_histogram(registers, count, &histogram), &histogram, sizeof histogram);
    note("registers_estimate", hll_registers_estimate(registers, count, &found), &found, sizeof found);
    note("histogram_estimate", hll_histogram_estimate(&histogram, &found), &found, sizeof found);
    status = hll_registers_image(registers, count, 4 + 2 * (unsigned)below(3), out, sizeof out, &size);
    note("registers_image", status, out, size);
    note("registers_fold", hll_registers_fold(registers, count, to), registers, count);
}

static void run_states(bytes image, bytes other)
{
    static uint64_t values[64];
    uint8_t lg_k = (uint8_t)(4 + below(9));
    size_t room = HLL_STATE_MOST(STATE_LG_K), size = 0, ends[64], i;
    hll_state_summary summary;
    hll_estimation found;
    hll_status status;
    memset(&summary, 0xa5, sizeof summary), memset(&found, 0xa5, sizeof found);
    memset(out, 0xa5, room), memset(other_out, 0xa5, room);
    for (i = 0; i < 64; i++)
        values[i] = random_word(&chance), ends[i] = 8 * (i + 1);
    note("state_new", hll_state_new(lg_k, out, room), out, room);
    note("state_add", hll_state_add(out, room, &size, (uint8_t *)values, 512, ends, 64), out, room);
    note("state_add_value", hll_state_add_value(out, room, &size, (uint8_t *)values, 7), out, room);
    note("state_join", hll_state_join(lg_k, out, room, &size, image.at, image.len), out, room);
    need(hll_state_new(0, other_out, room) == HLL_OK, "a state");
    status = hll_state_join(STATE_LG_K, other_out, room, &size, other.at, other.len);
    note("state_join, open", status, other_out, room);
    note("state_join_state", hll_state_join_state(lg_k, out, room, &size, other_out, room), out, room);
    note("state_info", hll_state_info(out, room, &summary, sizeof summary), &summary, sizeof summary);
    note("state_estimate", hll_state_estimate(out, room, &found), &found, sizeof found);
    status = hll_state_image(out, room, 4 + 2 * (unsigned)below(3), other_out, sizeof other_out, &size);
    note("state_image", status, other_out, status == HLL_OK ? size : 0);
}

static void run_all(unsigned long images, FILE *to)
{
    bytes other = random_image();
    unsigned long i;
    for (i = 0; i < images; i++) {
        bytes image = random_image();
        calls_made = 0, of_image = 0;
        accepted += hll_image_check(image.at, image.len) == HLL_OK;
        run_images(image, other), run_registers(image), run_states(image, other);
        fprintf(to, "%zu %016llx\n", image.len, (unsigned long long)of_image);
        free(other.at);
        other = image;
    }
    free(other.at);
    for (i = 0; i < calls_made; i++)
        fprintf(to, "%s %016llx\n", totals[i].name, (unsigned long long)totals[i].digest);
}

/* What a call returned before main. */
static const char *early;

__attribute__((constructor)) static void call_early(void)
{
    early = hll_processor();
}

int main(int argc, char **argv)
{
    const char *wanted = argc > 1 ? argv[1] : "";
    CHECK(strcmp(early, wanted) == 0, "%s ran before main, and not %s", early, wanted);
    CHECK(strcmp(hll_processor(), wanted) == 0, "%s runs, and not %s", hll_processor(), wanted);
    CHECK(hll_coupon((const uint8_t *)"ann", 3) == UINT32_C(0x046011f8), "another coupon");
    CHECK(strcmp(hll_processor(), wanted) == 0, "%s runs, and not %s", hll_processor(), wanted);
    if (argc > 3) {
        FILE *to = fopen(argv[3], "w");
        need(to != NULL, "a file for the digests");
        run_all(strtoul(argv[2], NULL, 10), to);
        need(fclose(to) == 0, "a file for the digests");
        printf("%lu images were accepted; ", accepted);
    }
    return finish("processors");
}
