/* SPDX-License-Identifier: Apache-2.0 */
/*
 * The heap of the WebAssembly module, compiled natively: random requests next to a plain model. No blocks overlap, none loses a byte, free
 * neighbours are joined, memory that is freed comes back, and a call visits at most eight blocks however many there are.
 *
 *     heap [REQUESTS]
 */
#include <stddef.h>
#include <stdint.h>
#include <stdio.h>
#include <string.h>

enum { MOST_PAGES = 4096 };
static _Alignas(65536) unsigned char arena[(size_t)MOST_PAGES << 16];
static size_t n_pages = 1;
static size_t memory_pages(void)
{
    return ((size_t)arena >> 16) + n_pages;
}
static int memory_grows(size_t more)
{
    if (n_pages + more > MOST_PAGES)
        return 0;
    n_pages += more;
    return 1;
}
#define HEAP_BASE ((size_t)arena + 40)
#define MEMORY_SIZE() memory_pages()
#define MEMORY_GROW(more) memory_grows(more)
#define malloc heap_malloc
#define realloc heap_realloc
#define free heap_free
#include "../wasm/heap.c"

enum { BLOCKS = 120000 };
static struct kept {
    unsigned char *at;
    size_t size;
    unsigned char mark;
} kept[BLOCKS];
static size_t n_kept, most_visits;
static uint64_t seed = 9001;

static uint64_t next_random(void)
{
    uint64_t word = seed += UINT64_C(0x9e3779b97f4a7c15);
    word = (word ^ (word >> 30)) * UINT64_C(0xbf58476d1ce4e5b9);
    word = (word ^ (word >> 27)) * UINT64_C(0x94d049bb133111eb);
    return word ^ (word >> 31);
}

static size_t random_size(void)
{
    const uint64_t word = next_random();
    return word % 100 < 90 ? (word >> 8) % 600 : word % 100 < 99 ? (word >> 8) % 9000 : (word >> 8) % 300000;
}

static int fail(const char *what)
{
    printf("heap: %s\nheap: 0 passed, 1 failed\n", what);
    return 1;
}

/* Marks a block at both ends, and in the middle. */
static void mark(struct kept *block)
{
    block->mark = (unsigned char)next_random();
    memset(block->at, block->mark, block->size);
}

static int is_marked(const struct kept *block, size_t size)
{
    size_t i;
    for (i = 0; i<size; i += size> 64 && i > 16 && i + 32 < size ? 31 : 1)
        if (block->at[i] != block->mark)
            return 0;
    return 1;
}

/* All blocks from the first to the end: tags agree, no two free ones are neighbours, and the units in use are those that are counted. */
static int is_sound(void)
{
    block *at = (block *)(((size_t)arena + 40 + 15) & ~(size_t)15);
    size_t used = 0, n = 0, before = 0;
    for (; at != end; at += units_in(at)) {
        const int is_free = at->units & 1;
        if (units_in(at) < 2 || at->before != before || (is_free && before != 0))
            return 0;
        before = is_free ? units_in(at) : 0;
        used += is_free ? 0 : units_in(at);
        n += !is_free;
    }
    return used == in_use && at->before == before && n == n_kept;
}

/* Counts the visits of one call. One that lets the memory grow may have two more. */
static void visited(size_t before, size_t pages)
{
    const size_t more = visits - before - (pages < n_pages ? 2 : 0);
    if (more > most_visits)
        most_visits = more;
}

static const char *request(void)
{
    const uint64_t what = next_random() % 100;
    const size_t before = visits, pages = n_pages, which = n_kept ? next_random() % n_kept : 0, size = random_size();
    if (n_kept < BLOCKS && what < (n_kept < 100000 ? 60u : 45u)) {
        struct kept *made = &kept[n_kept];
        made->at = heap_malloc(size);
        visited(before, pages);
        if (made->at == NULL)
            return NULL; /* full */
        made->size = size;
        if ((size_t)made->at % 16 != 0)
            return "an address that is not aligned";
        mark(made);
        n_kept++;
    } else if (n_kept > 0 && what < 80) {
        if (!is_marked(&kept[which], kept[which].size))
            return "a block that changed";
        heap_free(kept[which].at);
        visited(before, pages);
        kept[which] = kept[--n_kept];
    } else if (n_kept > 0) {
        struct kept *old = &kept[which];
        unsigned char *moved = heap_realloc(old->at, size);
        visited(before, pages);
        if (moved == NULL)
            return NULL;
        old->at = moved;
        if (!is_marked(old, old->size < size ? old->size : size))
            return "a block that lost bytes";
        old->size = size;
        mark(old);
    }
    return NULL;
}

int main(int argc, char **argv)
{
    const long requests = argc > 1 ? strtol(argv[1], NULL, 10) : 10000000;
    size_t most_kept = 0;
    long i;
    most = memory_pages() + MOST_PAGES; /* an address here is not below 2 GiB */
    for (i = 0; i < requests; i++) {
        const char *wrong = request();
        if (n_kept > most_kept)
            most_kept = n_kept;
        if (wrong != NULL)
            return fail(wrong);
        if (i % (requests / 50 + 1) == 0 && !is_sound())
            return fail("tags that don't agree");
    }
    while (n_kept > 0)
        heap_free(kept[--n_kept].at);
    if (!is_sound() || in_use != 0 ||
        units_in((block *)(((size_t)arena + 55) & ~(size_t)15)) !=
            (size_t)(end - (block *)(((size_t)arena + 55) & ~(size_t)15)))
        return fail("free blocks that are not joined");
    printf("%ld requests, up to %zu blocks in %zu pages, at most %zu visits\n", requests, most_kept, n_pages, most_visits);
    if (most_visits > 8)
        return fail("too many visits");
    printf("heap: %ld passed, 0 failed\n", requests);
    return 0;
}
