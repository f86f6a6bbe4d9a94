/* SPDX-License-Identifier: Apache-2.0 */
/*
 * Allocation for the WebAssembly module, in constant time. A block has a tag, from which its neighbours are found, and free neighbours are
 * joined at once. Free blocks are in lists by size: 16 for each power of two, and a bit for each list that isn't empty (two-level
 * segregated fit). The memory grows by whole pages and never shrinks. Plain C, not proved; tests/heap.c compiles it natively.
 */
#include <stddef.h>
#include <stdint.h>
#include <stdlib.h>

/* Whether the allocation succeeded, and its address, which is never NULL. */
typedef struct tried {
    uint64_t is_there;
    void *memory;
} tried;

/* The tag of a block, which is as long as the alignment. `units` counts the tag too. */
typedef struct block {
    size_t units;  /* twice, and 1 more if the block is free */
    size_t before; /* the units of the block before, if that is free; else 0 */
} block;

/* What a free block has after its tag: its neighbours in the list of its size. */
typedef struct links {
    block *next, *previous;
} links;

_Static_assert(sizeof(block) == 16 && sizeof(links) <= 16,
               "a tag of 16 bytes, which is the alignment, and links in one unit");

#define PAGE ((size_t)65536)

/* More is never allocated at once. */
#define MOST_BYTES ((size_t)1 << 31)

/* The memory, in pages. A test has another one. */
#ifndef HEAP_BASE
extern unsigned char __heap_base;
#define HEAP_BASE ((size_t)&__heap_base)
#define MEMORY_SIZE() __builtin_wasm_memory_size(0)
/* (only the lower half of the result: in a module that was lowered to 32 bits it is 2^32 - 1 on failure) */
#define MEMORY_GROW(pages) ((uint32_t)__builtin_wasm_memory_grow(0, pages) != UINT32_C(0xffffffff))
#endif

/* A block of 2^n units to 2^(n + 1) - 1 is in one of 16 lists of row n. */
#define ROWS 29
#define COLUMNS 16

static block *lists[ROWS][COLUMNS];
static uint32_t rows;          /* bit n: row n has a list that isn't empty */
static uint32_t columns[ROWS]; /* bit n: list n of a row isn't empty */
static block *end;             /* the tag after the last block, of 0 units; NULL before the first allocation */
/* The pages that the memory may have: 2 GiB, so that an address below 0, where the stack ends, stays outside of it when it is
 * cut to 32 bits. */
static size_t most = 32768;
static size_t in_use; /* units */
static size_t visits; /* of blocks, by all calls; for tests */

static links *links_of(block *free_block)
{
    return (links *)(free_block + 1);
}

static size_t units_in(const block *given)
{
    return given->units >> 1;
}

/* The list of blocks of so many units, of at least 1. */
static void place_of(size_t units, unsigned *row, unsigned *column)
{
    *row = 63 - (unsigned)__builtin_clzll(units);
    *column = *row >= 4 ? (unsigned)(units >> (*row - 4)) & 15 : (unsigned)(units << (4 - *row)) & 15;
}

/* Sets the units of a block, and what the block after it knows of it. */
static void tag(block *given, size_t units, int is_free)
{
    given->units = units << 1 | (size_t)is_free;
    (given + units)->before = is_free ? units : 0;
    visits++;
}

/* Takes a free block out of its list. */
static void unlist(block *taken)
{
    unsigned row, column;
    links *own = links_of(taken);
    place_of(units_in(taken), &row, &column);
    if (own->next != NULL)
        links_of(own->next)->previous = own->previous;
    if (own->previous != NULL) {
        links_of(own->previous)->next = own->next;
    } else {
        lists[row][column] = own->next;
        if (own->next == NULL && (columns[row] &= ~(UINT32_C(1) << column)) == 0)
            rows &= ~(UINT32_C(1) << row);
    }
    visits++;
}

/* Frees a block of so many units, joined with its neighbours if these are free. */
static void put(block *freed, size_t units)
{
    unsigned row, column;
    block *after = freed + units;
    if (after->units & 1) {
        unlist(after);
        units += units_in(after);
    }
    if (freed->before != 0) {
        freed -= freed->before;
        unlist(freed);
        units += units_in(freed);
    }
    tag(freed, units, 1);
    place_of(units, &row, &column);
    links_of(freed)->previous = NULL;
    links_of(freed)->next = lists[row][column];
    if (lists[row][column] != NULL)
        links_of(lists[row][column])->previous = freed;
    lists[row][column] = freed;
    columns[row] |= UINT32_C(1) << column;
    rows |= UINT32_C(1) << row;
}

/* Takes `units` of a free block, whose rest stays free. A rest of one unit has no room for links, and stays with the block. */
static block *take(block *found, size_t units)
{
    size_t all = units_in(found);
    unlist(found);
    if (all - units < 2)
        units = all;
    tag(found, units, 0);
    if (all > units) {
        (found + units)->before = 0;
        put(found + units, all - units);
    }
    in_use += units;
    return found;
}

/* Returns a free block of at least so many units, or NULL: the first of the list of that size, if it is large enough, or one of the next
 * list, in which each block is. */
static block *large_enough(size_t units)
{
    unsigned row, column;
    uint32_t left;
    block *found;
    place_of(units, &row, &column);
    found = lists[row][column];
    visits++;
    if (found != NULL && units_in(found) >= units)
        return found;
    left = column == 15 ? 0 : columns[row] >> (column + 1) << (column + 1);
    if (left == 0) {
        uint32_t above = row + 1 < ROWS ? rows >> (row + 1) << (row + 1) : 0;
        if (above == 0)
            return NULL;
        row = (unsigned)__builtin_ctz(above);
        left = columns[row];
    }
    return lists[row][__builtin_ctz(left)];
}

/* Adds more of the memory, at least so many units and a tag. Returns whether that much is there. */
static int grow(size_t units)
{
    size_t pages = MEMORY_SIZE(),
           start = end != NULL ? (size_t)(end + 1) : ((HEAP_BASE + 15) & ~(size_t)15) + sizeof(block);
    size_t bytes = (units + 1) * sizeof(block), more;
    block *first = (block *)start - 1;
    if (pages * PAGE - start < bytes) {
        more = (bytes - (pages * PAGE - start) + PAGE - 1) / PAGE;
        if (pages + more > most || !MEMORY_GROW(more))
            return 0;
        pages += more;
    }
    if (end == NULL)
        first->before = 0;
    end = (block *)(pages * PAGE) - 1;
    end->units = 0;
    end->before = 0;
    put(first, (size_t)(end - first));
    return 1;
}

static size_t units_of(size_t size)
{
    return size <= 16 ? 2 : (size + 15) / 16 + 1;
}

static uint32_t until;

/* For tests: the n-th allocation from now on fails; with 0 none does. */
__attribute__((export_name("fail_at"))) void js_fail_at(uint32_t n)
{
    until = n;
}

static int fails(void)
{
    return until != 0 && --until == 0;
}

/* Returns the memory of a block of `units`, which grows the memory if no free block is large enough, or NULL. */
static void *placed(size_t units)
{
    block *found = large_enough(units);
    if (found == NULL && grow(units))
        found = large_enough(units);
    return found == NULL ? NULL : take(found, units) + 1;
}

static void *allocated(size_t size)
{
    return size > MOST_BYTES || fails() ? NULL : placed(units_of(size));
}

static void freed(void *memory)
{
    block *given;
    if (memory == NULL)
        return;
    given = (block *)memory - 1;
    in_use -= units_in(given);
    put(given, units_in(given));
}

/* Gives back what a block has more than `units`. */
static void cut(block *whole, size_t units)
{
    size_t rest = units_in(whole) - units;
    if (rest < 2)
        return;
    tag(whole, units, 0);
    in_use -= rest;
    put(whole + units, rest);
}

/* Resizes a block of which `kept` bytes are in use: in place if it has room, or the free block after it. */
static void *reallocated(void *memory, size_t kept, size_t size)
{
    block *old = (block *)memory - 1, *after = old + units_in(old);
    size_t units = units_of(size), had = units_in(old);
    void *moved;
    if (size > MOST_BYTES || fails())
        return NULL;
    if (units > had && (after->units & 1) && had + units_in(after) >= units) {
        unlist(after);
        in_use += units_in(after);
        tag(old, had + units_in(after), 0);
    }
    if (units <= units_in(old)) {
        cut(old, units);
        return memory;
    }
    moved = placed(units);
    if (moved != NULL) {
        __builtin_memcpy(moved, memory, kept < size ? kept : size);
        freed(memory);
    }
    return moved;
}

static tried answer(void *memory)
{
    tried found;
    found.is_there = memory != NULL;
    found.memory = memory != NULL ? memory : (void *)16;
    return found;
}

tried rattle_alloc(size_t size, size_t align)
{
    (void)align;
    return answer(allocated(size));
}

tried rattle_realloc(void *memory, size_t kept, size_t size, size_t align)
{
    (void)align;
    return answer(reallocated(memory, kept, size));
}

void rattle_dealloc(void *memory)
{
    freed(memory);
}

void *malloc(size_t size)
{
    return allocated(size);
}

void *realloc(void *memory, size_t size)
{
    return memory == NULL ? allocated(size)
                          : reallocated(memory, (units_in((block *)memory - 1) - 1) * sizeof(block), size);
}

void free(void *memory)
{
    freed(memory);
}

/* ---- what JavaScript calls */

#define EXPORT(name) __attribute__((export_name(#name)))

EXPORT(alloc) uint32_t js_alloc(uint32_t size)
{
    return (uint32_t)(size_t)allocated(size);
}

EXPORT(free) void js_free(uint32_t memory)
{
    freed((void *)(size_t)memory);
}

/* Sets how many pages of 64 KiB the memory may have. */
EXPORT(limit) void js_limit(uint32_t pages)
{
    most = pages;
}

EXPORT(in_use) double js_in_use(void)
{
    return (double)in_use * 16.0;
}
