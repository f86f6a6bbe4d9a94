/* SPDX-License-Identifier: Apache-2.0 */
/* What processor.c chooses: by each bit that x86-64-v3 needs, by what the operating system saves, and by HLL_CPU; and first calls, of
 * which each chooses. It needs a processor of x86-64-v3. */
#include "../processor.c"

#include "test.h"

static const struct facts all = {BASIC, MORE, LZCNT, 7};

static int lacks(unsigned facts, unsigned bit)
{
    return (facts & ~bit) != facts;
}

static void test_bits(void)
{
    unsigned bit, bits = 0, saved;
    CHECK(is_v3(&all), "all bits");
    for (bit = 1; bit != 0; bit <<= 1) {
        struct facts basic = all, more = all, extended = all;
        basic.basic &= ~bit, more.more &= ~bit, extended.extended &= ~bit;
        CHECK(is_v3(&basic) == !lacks(BASIC, bit), "without %x of leaf 1", bit);
        CHECK(is_v3(&more) == !lacks(MORE, bit), "without %x of leaf 7", bit);
        CHECK(is_v3(&extended) == !lacks(LZCNT, bit), "without %x of leaf 80000001", bit);
        bits += lacks(BASIC, bit) + lacks(MORE, bit) + lacks(LZCNT, bit);
    }
    CHECK(bits == 9, "%u bits", bits);
    for (saved = 0; saved < 256; saved++) {
        struct facts some = all;
        some.saved = saved;
        CHECK(is_v3(&some) == (saved % 8 / 2 == 3), "a system that saves %x", saved);
    }
}

static void test_variable(void)
{
    static const char *const values[] = {NULL,       "",           "x86-64-v2", "x86-64-v3", "x86-64-v4",
                                         "x86-64-v", "x86-64-v22", "X86-64-V2", "v2",        "2"};
    size_t i;
    for (i = 0; i < sizeof values / sizeof values[0]; i++) {
        const char *wanted = i == 2 ? "x86-64-v2" : "x86-64-v3";
        need((values[i] ? setenv("HLL_CPU", values[i], 1) : unsetenv("HLL_CPU")) == 0, "the environment");
        chosen = &calls_first;
        CHECK(strcmp(hll_processor(), wanted) == 0, "%s by %s", hll_processor(), values[i]);
        CHECK(chosen == (i == 2 ? &calls_v2 : &calls_v3), "the table of %s", wanted);
    }
    setenv("HLL_CPU", "x86-64-v2", 1);
    CHECK(strcmp(hll_processor(), "x86-64-v3") == 0, "the environment is read once");
    unsetenv("HLL_CPU");
}

/* The number of tables, of those that are passed, in which no call has the address of another. */
static void test_tables(void)
{
    const struct calls *tables[] = {&calls_first, &calls_v2, &calls_v3};
    size_t table, i, j, n = (sizeof(struct calls) - sizeof(char *)) / sizeof(void (*)(void));
    void (*calls[3 * 64])(void);
    CHECK(n == 42, "%zu calls", n);
    for (table = 0; table < 3; table++)
        memcpy(calls + n * table, (const char *)tables[table] + sizeof(char *), n * sizeof calls[0]);
    for (i = 0; i < 3 * n; i++)
        for (j = 0; j < i; j++)
            CHECK(calls[i] != calls[j], "call %zu is call %zu", i, j);
}

/* Calls of some shapes, each as the first one: a result of 32 bits, arguments in registers, and on the stack. */
static void test_first(void)
{
    static const size_t ends[] = {3, 6};
    uint8_t empty[8], out[64];
    size_t size = 0;
    chosen = &calls_first;
    CHECK(hll_coupon((const uint8_t *)"ann", 3) == UINT32_C(0x046011f8) && chosen == &calls_v3, "a coupon first");
    chosen = &calls_first;
    CHECK(hll_image_new(12, 8, empty, sizeof empty, &size) == HLL_OK && size == 8 && chosen == &calls_v3, "an image first");
    chosen = &calls_first;
    CHECK(hll_image_add(empty, 8, (const uint8_t *)"annbob", 6, ends, 2, out, sizeof out, &size) == HLL_OK && size == 16 &&
              chosen == &calls_v3,
          "values first");
    CHECK(memcmp(out, "\2\1\7\14\3\10\2\10\370\21\140\4\277\40\144\34", 16) == 0, "the image of ann and bob");
    chosen = &calls_first;
    CHECK(proved_hll_images_union(12, 8, out, 16, (const size_t[]){8, 16}, 2, out, 0, &size, &size) != HLL_OK &&
              chosen == &calls_v3,
          "a union first");
}

int main(void)
{
    test_bits();
    test_variable();
    test_tables();
    test_first();
    return finish("chooser");
}
