/* SPDX-License-Identifier: Apache-2.0 */
/* Answers the cases of tests/behaviour, which cases.py writes to standard input and whose answers it compares. */
#include "test.h"

static uint8_t out[4136];
static size_t size;
static hll_counter counter;

/* Prints the image that a call wrote, or why it wrote none. */
static void tell(hll_status status)
{
    if (status != HLL_OK)
        printf("rejected: %s", hll_reason(status));
    for (size_t i = 0; i < size && status == HLL_OK; i++)
        printf("%02x", out[i]);
    putchar('\n');
}

/* The coupon of a value, by the hash and by a counter. */
static void tell_value(hll_bytes value)
{
    need(hll_counter_add(&counter, value.bytes, value.len) == HLL_OK, "a value");
    need(hll_counter_image(&counter, 8, out, sizeof out, &size) == HLL_OK && size == 12, "an image of one value");
    const uint32_t kept = out[8] | (uint32_t)out[9] << 8 | (uint32_t)out[10] << 16 | (uint32_t)out[11] << 24;
    printf(kept == hll_coupon(value.bytes, value.len) ? "%08x\n" : "the counter keeps %08x\n", kept);
}

static void tell_image(hll_bytes image, int is_whole)
{
    size_t more = 0;
    const hll_status status = hll_image_convert(image.bytes, image.len, 0, out, sizeof out, &size);
    need(hll_image_check(image.bytes, image.len) == status, "the same status of two calls");
    need(hll_image_trailing(image.bytes, image.len, &more) == HLL_OK, "bytes after an image");
    tell(is_whole && status == HLL_OK && more > 0 ? HLL_TRAILING : status);
}

static void tell_union(unsigned lg_max_k, unsigned width, const hll_bytes *images, size_t n)
{
    hll_state_summary said = {0, 0, 0, 0, 0, 0};
    size_t joined = 0;
    const hll_status made = hll_counter_init(&counter, lg_max_k, NULL, NULL);
    hll_status status = made;
    while (status == HLL_OK && joined < n && (status = hll_counter_join(&counter, images[joined].bytes, images[joined].len)) == HLL_OK)
        joined++;
    if (status == HLL_OK) {
        need(hll_counter_info(&counter, &said, sizeof said) == HLL_OK, "what a counter says");
        status = hll_counter_image(&counter, width ? width : said.width, out, sizeof out, &size);
    }
    HLL_TRUNCATED <= status && status <= HLL_REGISTER ? (void)printf("rejected: images[%d] %s\n", (int)joined, hll_reason(status))
                                                      : tell(status);
}

int main(void)
{
    char line[8192];
    while (fgets(line, sizeof line, stdin)) {
        const char *call = strtok(line, "\t\n");
        hll_bytes at[9] = {{NULL, 0}}; /* the arguments as bytes, as numbers and as coupons */
        uint32_t numbers[9], coupons[9];
        size_t n = 0;
        for (const char *next = strtok(NULL, " \n"); next && n < 9; next = strtok(NULL, " \n"), n++) {
            const bytes made = of_digits(next, strlen(next));
            at[n] = (hll_bytes){made.at, made.len};
            numbers[n] = (uint32_t)strtoul(next, NULL, 10);
            coupons[n] = (uint32_t)strtoul(next, NULL, 16);
        }
        need(hll_counter_init(&counter, 12, NULL, NULL) == HLL_OK, "a counter");
        if (strcmp(call, "text") == 0 || strcmp(call, "bytes") == 0)
            tell_value(at[0]);
        else if (strcmp(call, "whole") == 0 || strcmp(call, "first") == 0)
            tell_image(at[0], *call == 'w');
        else if (strcmp(call, "union") == 0)
            tell_union(numbers[0], numbers[1], at + 2, n - 2);
        else if (strcmp(call, "new") == 0)
            tell(hll_image_new(numbers[0], numbers[1], out, sizeof out, &size));
        else if (strcmp(call, "coupons") == 0 && hll_counter_add_coupons(&counter, coupons, n) == HLL_OK)
            tell(hll_counter_image(&counter, 8, out, sizeof out, &size));
        else
            puts(strcmp(call, "coupons") == 0 ? "rejected: argument" : "the call is not known");
        hll_counter_free(&counter);
        while (n > 0)
            free((void *)(uintptr_t)at[--n].bytes);
    }
    return 0;
}
