/* SPDX-License-Identifier: Apache-2.0 */
/* Makes a call of libhll so many times, so that its instructions can be counted: `calls CALL INPUT ROUNDS`. INPUT is 8, 6 or
 * 4: registers of 20,000 values at that width; ascending, placed or updatable: sets of 20; or 8B, say: values of 8 bytes.
 * bench/instructions.py counts them all. */
#include "images.h"

static struct image one, two, cleared, out;
static uint8_t width = 8;
static size_t failed;
static uint8_t registers[COUNT];
static uint32_t coupons[VALUES];

/* ---- calls ---- */

static void run_check(void)
{
    need(hll_image_check(one.bytes, one.len));
}

static void run_convert(void)
{
    need(hll_image_convert(one.bytes, one.len, width, out.bytes, sizeof out.bytes, &out.len));
}

static void run_fill(void)
{
    need(hll_image_convert(cleared.bytes, cleared.len, width, out.bytes, sizeof out.bytes, &out.len));
}

static void run_merge(void)
{
    need(hll_image_merge(LG_K, width, one.bytes, one.len, two.bytes, two.len, out.bytes, sizeof out.bytes, &out.len, &failed));
}

/* A fold after which coupons are still coupons. */
static void run_fold(void)
{
    need(hll_image_fold(one.bytes, one.len, LG_K - 2, out.bytes, sizeof out.bytes, &out.len));
}

static void run_set_fields(void)
{
    need(hll_image_set_estimator_fields(one.bytes, one.len, out.bytes, sizeof out.bytes, &out.len));
}

static void run_add_coupon(void)
{
    need(hll_image_add_coupon(one.bytes, one.len, 5, 2, out.bytes, sizeof out.bytes, &out.len));
}

static void run_info(void)
{
    hll_info info;
    need(hll_image_info(one.bytes, one.len, &info, sizeof info));
}

static void run_estimate(void)
{
    hll_estimation found;
    need(hll_estimate(one.bytes, one.len, &found));
}

static void run_agree(void)
{
    uint8_t same;
    need(hll_images_agree(one.bytes, one.len, one.bytes, one.len, &same, &failed));
}

/* Images of the same registers, of which one has no estimator fields. */
static void run_agree_cleared(void)
{
    uint8_t same;
    need(hll_images_agree(one.bytes, one.len, cleared.bytes, cleared.len, &same, &failed));
}

static void add(size_t count)
{
    need(hll_image_add(one.bytes, one.len, values, value_size * count, value_ends, count, out.bytes, sizeof out.bytes, &out.len));
}

static void run_add_1(void)
{
    add(1);
}

static void run_add_100(void)
{
    add(100);
}

static void run_add_1000(void)
{
    add(1000);
}

static void run_registers_merge(void)
{
    uint8_t lg_k;
    need(hll_registers_merge(registers, COUNT, one.bytes, one.len, &lg_k));
}

static void run_registers_add(void)
{
    need(hll_registers_add(registers, COUNT, values, value_size * VALUES, value_ends, VALUES));
}

static void run_coupons(void)
{
    need(hll_coupons(values, value_size * VALUES, value_ends, VALUES, coupons, VALUES));
}

/* ---- unions ---- */

static enum order order;
static int of_sets;

static void make_input(struct image *to, uint64_t from)
{
    if (of_sets)
        make_set(to, from, order);
    else
        make_registers(to, from, width);
}

/* A union of registers and so many images, fifty different ones over and over. */
static void run_union(int rounds)
{
    static struct image images[50];
    hll_bytes *parts = malloc(sizeof *parts * (size_t)(rounds + 1));
    int i;
    if (parts == NULL)
        need(HLL_MEMORY);
    for (i = 0; i < 50; i++)
        make_input(&images[i], 20000 * (uint64_t)i);
    make_registers(&two, 2000000, 8);
    for (i = 0; i <= rounds; i++) {
        const struct image *from = i == 0 ? &two : &images[i % 50];
        parts[i].bytes = from->bytes;
        parts[i].len = from->len;
    }
    need(hll_images_unionv(LG_K, 8, parts, (size_t)rounds + 1, out.bytes, sizeof out.bytes, &out.len, &failed));
    free(parts);
}

/* ---- values to add ---- */

/* A value first that raises a register, or first one that the image has. */
static void make_raising(void)
{
    uint64_t from = 5000000;
    do {
        make_values(from++, 8);
        run_add_1();
    } while (out.len == one.len && memcmp(out.bytes, one.bytes, one.len) == 0);
}

static void make_held(void)
{
    make_values(1000000, 8);
}

static const struct {
    const char *name;
    void (*run)(void), (*make)(void);
} calls[] = {
    {"check", run_check, NULL},
    {"convert", run_convert, NULL},
    {"fill", run_fill, NULL},
    {"merge", run_merge, NULL},
    {"fold", run_fold, NULL},
    {"set_fields", run_set_fields, NULL},
    {"add_coupon", run_add_coupon, NULL},
    {"info", run_info, NULL},
    {"estimate", run_estimate, NULL},
    {"agree", run_agree, NULL},
    {"agree_cleared", run_agree_cleared, NULL},
    {"add_held", run_add_1, make_held},
    {"add_raising", run_add_1, make_raising},
    {"add_100", run_add_100, NULL},
    {"add_1000", run_add_1000, NULL},
    {"registers_merge", run_registers_merge, NULL},
    {"registers_add", run_registers_add, NULL},
    {"coupons", run_coupons, NULL},
};

/* Makes what the name of an input says. */
static void make_inputs(const char *input)
{
    static const char *const orders[] = {"ascending", "placed", "updatable"};
    size_t bytes = 8;
    int i;
    for (i = 0; i < 3; i++)
        if (strcmp(input, orders[i]) == 0)
            order = (enum order)i, of_sets = 1;
    if (strchr(input, 'B') != NULL)
        bytes = (size_t)atoi(input);
    else if (!of_sets)
        width = (uint8_t)atoi(input);
    make_input(&one, 1000000);
    make_input(&two, 2000000);
    need(hll_image_clear_estimator_fields(one.bytes, one.len, cleared.bytes, sizeof cleared.bytes, &cleared.len));
    make_values(5000000, bytes);
}

int main(int count, char **arguments)
{
    size_t i;
    int rounds = count == 4 ? atoi(arguments[3]) : 0;
    if (rounds <= 0) {
        fputs("usage: calls CALL INPUT ROUNDS\n", stderr);
        return 2;
    }
    make_inputs(arguments[2]);
    if (strcmp(arguments[1], "union") == 0)
        return run_union(rounds), 0;
    for (i = 0; i < sizeof calls / sizeof calls[0]; i++)
        if (strcmp(arguments[1], calls[i].name) == 0) {
            if (calls[i].make != NULL)
                calls[i].make();
            while (rounds-- > 0)
                calls[i].run();
            return 0;
        }
    fprintf(stderr, "calls: no call '%s'\n", arguments[1]);
    return 2;
}
