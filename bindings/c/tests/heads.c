/* SPDX-License-Identifier: Apache-2.0 */
/* Heads of images: at every edge of tables, counts and lengths, next to hll_image_size, which reads the whole image. */
#include "test.h"

#define PATTERN 0xa5

static void put_number(uint8_t *at, uint32_t number)
{
    int byte;
    for (byte = 0; byte < 4; byte++)
        at[byte] = (uint8_t)(number >> (8 * byte));
}

/* The head of the bytes. It is the same without the bytes after the first 40. */
static hll_head read_head(const uint8_t *image, size_t len)
{
    hll_head head, first;
    memset(&head, PATTERN, sizeof head), memset(&first, PATTERN, sizeof first);
    CHECK(hll_image_head(image, len, &head, sizeof head) == HLL_OK, "%d bytes", (int)len);
    CHECK(hll_image_head(image, len < 40 ? len : 40, &first, sizeof first) == HLL_OK, "%d bytes", (int)len);
    CHECK(head.size == first.size && head.fault == first.fault && head.count == first.count, "the first 40 bytes of %d",
          (int)len);
    return head;
}

/* What the header says if it has no fault, and zeros if it has one. */
static void check_header(const uint8_t *image, const hll_head *head)
{
    int has_fault = HLL_TRUNCATED <= head->fault && head->fault <= HLL_PREAMBLE && head->lg_k == 0;
    if (has_fault) {
        CHECK(head->width == 0 && head->stage == 0 && head->flags == 0 && head->minimum == 0, "after fault %d",
              head->fault);
        return;
    }
    CHECK(head->lg_k == image[3] && 4 <= head->lg_k && head->lg_k <= 21, "lg_k %d of %d", head->lg_k, image[3]);
    CHECK(head->width == 4 + 2 * (image[7] / 4 % 4) && head->stage == image[7] % 4, "%d, %d of %d", head->width,
          head->stage, image[7]);
    CHECK(head->flags == (image[5] & (HLL_EMPTY | HLL_COMPACT | HLL_OUT_OF_ORDER)), "flags %d of %d", head->flags,
          image[5]);
    CHECK(head->minimum == (image[7] % 16 == 2 ? image[6] : 0), "minimum %d", head->minimum);
}

static int is_zero(const uint8_t *at, size_t len)
{
    while (len > 0 && at[len - 1] == 0)
        len--;
    return len == 0;
}

/* A head has a fault exactly if reading the image stops at a check of the header or of the counts, and it is that check. Otherwise
 * the image is cut off exactly if it is larger than the bytes. */
static void check_head(const uint8_t *image, size_t len)
{
    hll_head head = read_head(image, len);
    size_t size = 0;
    hll_status status = hll_image_size(image, len, &size);
    size_t more = 4711;
    int is_empty_table = len == 40 && head.size == 8 && (image[5] & 12) == 4 && is_zero(image + 8, 32);
    check_header(image, &head);
    CHECK(hll_image_trailing(image, len, &more) == HLL_OK, "bytes after an image");
    CHECK(more == (head.fault == HLL_OK && len > head.size && !is_empty_table ? len - head.size : 0), "%d after it",
          (int)more);
    CHECK((head.size == 0) == (head.fault != HLL_OK), "size %d, fault %d", (int)head.size, head.fault);
    if (head.fault != HLL_OK) {
        CHECK(status == head.fault && head.count == 0, "fault %d, and not %d", head.fault, status);
    } else if (len < head.size) {
        CHECK(status == HLL_TRUNCATED, "%d of %.0f bytes: %d", (int)len, (double)head.size, status);
    } else if (status == HLL_OK) {
        CHECK(size == head.size, "%.0f, and not %.0f", (double)head.size, (double)size);
    } else {
        CHECK(status == HLL_COUPON || status == HLL_COUNT || status == HLL_REGISTER, "%d bytes: %d", (int)len, status);
    }
}

/* Each byte of a header by itself, and each length. */
static void test_bytes(void)
{
    static const uint8_t headers[5][8] = {{2, 1, 7, 12, 3, 12, 0, 8},
                                          {3, 1, 7, 12, 5, 8, 0, 9},
                                          {10, 1, 7, 12, 0, 8, 0, 2},
                                          {10, 1, 7, 4, 0, 0, 0, 6},
                                          {10, 1, 7, 5, 0, 0, 0, 10}};
    uint8_t image[100] = {0};
    size_t kind, at, len;
    unsigned byte;
    for (kind = 0; kind < 5; kind++)
        for (at = 0; at < 8; at++)
            for (byte = 0; byte < 256; byte++) {
                memcpy(image, headers[kind], 8);
                image[at] = (uint8_t)byte;
                check_head(image, sizeof image);
            }
    for (kind = 0; kind < 5; kind++) {
        memcpy(image, headers[kind], 8);
        for (len = 0; len <= sizeof image; len++)
            check_head(image, len);
    }
    check_head(NULL, 0);
}

/* Counts and tables around each power of two, of each stage and width, with each flag. */
static void test_counts(void)
{
    static const uint8_t lg_ks[] = {4, 7, 8, 12, 20, 21}, states[] = {0, 1, 7, 8, 9, 63, 255}, preambles[] = {2, 3, 10};
    static uint8_t image[100];
    unsigned kind, table, flags, power, off, k;
    for (kind = 0; kind < 9; kind++)
        for (k = 0; k < sizeof lg_ks; k++)
            for (table = 0; table <= 29; table++)
                for (flags = 0; flags < 8; flags++)
                    for (power = 0; power <= 32; power++)
                        for (off = 0; off < 3; off++) {
                            uint32_t count = (uint32_t)((((uint64_t)1 << power) + off - 1) & 0xffffffff);
                            const uint8_t header[8] = {preambles[kind % 3],
                                                       1,
                                                       7,
                                                       lg_ks[k],
                                                       (uint8_t)table,
                                                       (uint8_t)(4 * flags),
                                                       states[count % sizeof states],
                                                       (uint8_t)(kind % 3 + 4 * (kind / 3))};
                            memcpy(image, header, 8);
                            put_number(image + (kind % 3 == 1 ? 8 : power % 2 ? 32 : 36), count);
                            check_head(image, sizeof image);
                            memset(image, 0, 40);
                        }
}

/* Sets in tables of every size: all buckets, with one coupon. */
static void test_tables_of_sets(void)
{
    uint8_t lg_k, table;
    for (lg_k = 4; lg_k <= 21; lg_k++)
        for (table = 4; table <= 19; table++) {
            size_t len = 12 + ((size_t)4 << table);
            uint8_t *image = calloc(1, len);
            const uint8_t header[16] = {3, 1, 7, lg_k, table, 0, 0, 9, 1, 0, 0, 0, 1, 0, 0, 4};
            need(image != NULL, "memory for a set");
            memcpy(image, header, sizeof header);
            CHECK(read_head(image, len).fault == (5 <= table && table + 3 <= lg_k ? HLL_OK : HLL_LG_ARR), "%d, %d", lg_k,
                  table);
            check_head(image, len);
            free(image);
        }
}

/* 4-bit registers with one exception in tables of every size: 2^26 buckets are legal, and take 268 MB, of which 40 bytes say so. */
static void test_tables_of_exceptions(void)
{
    size_t most = 48 + ((size_t)4 << 26);
    uint8_t *image = calloc(1, most), table;
    static const uint8_t header[8] = {10, 1, 7, 4, 0, 0, 0, 2};
    if (image == NULL) {
        puts("no memory for a table of 2^26 buckets");
        most = 48 + ((size_t)4 << 20);
        image = calloc(1, most);
    }
    need(image != NULL, "memory for a table");
    memcpy(image, header, sizeof header);
    put_number(image + 32, 15), put_number(image + 36, 1);
    image[40] = 15;
    put_number(image + 48, UINT32_C(20) << 26);
    for (table = 0; table <= 28; table++) {
        hll_head head;
        size_t size = 48 + ((size_t)4 << table);
        image[4] = table;
        head = read_head(image, 40);
        CHECK(head.fault == (table <= 26 ? HLL_OK : HLL_LG_ARR) && head.size == (table <= 26 ? size : 0),
              "2^%d buckets: %d", table, head.fault);
        CHECK(head.count == (table <= 26) && head.lg_k == 4 && head.width == 4, "2^%d buckets: %d", table, (int)head.count);
        check_head(image, size <= most ? size : most);
    }
    free(image);
}

/* Images of this library, cut off at each length. */
static void test_images(void)
{
    static const size_t values[] = {0, 1, 8, 9, 50, 300, 20000};
    size_t i, len;
    unsigned width;
    for (i = 0; i < sizeof values / sizeof values[0]; i++)
        for (width = 4; width <= 8; width += 2) {
            bytes image = image_of_values(12, (uint8_t)width, 9, values[i]);
            CHECK(read_head(image.at, image.len).size == image.len, "%d values", (int)values[i]);
            for (len = 0; len <= image.len; len += len < 50 ? 1 : 97)
                check_head(image.at, len);
            free(image.at);
        }
}

/* A caller that was compiled for another hll_head is told so, and nothing is written. */
static void test_other_size(void)
{
    static const uint8_t empty[] = {2, 1, 7, 10, 3, 12, 0, 8};
    static const size_t others[] = {0, 8, sizeof(hll_head) - 1, sizeof(hll_head) + 8};
    hll_head head, before;
    size_t i;
    memset(&head, PATTERN, sizeof head), memset(&before, PATTERN, sizeof before);
    for (i = 0; i < sizeof others / sizeof others[0]; i++)
        CHECK(hll_image_head(empty, sizeof empty, &head, others[i]) == HLL_ARGUMENT, "a head of %d bytes", (int)others[i]);
    CHECK(memcmp(&head, &before, sizeof head) == 0, "a head of another size is written");
}

int main(void)
{
    test_bytes();
    test_counts();
    test_tables_of_sets();
    test_tables_of_exceptions();
    test_images();
    test_other_size();
    return finish("heads");
}
