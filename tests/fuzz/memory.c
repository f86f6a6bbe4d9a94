/* SPDX-License-Identifier: Apache-2.0 */
/* Memory with an edge, and allocations that fail. */
#define _DEFAULT_SOURCE
#include "fuzz.h"

#include <stdarg.h>
#include <stdio.h>
#include <stdlib.h>
#include <string.h>
#include <sys/mman.h>
#include <unistd.h>

#define PATTERN 0xa5
#define ARENA ((size_t)1 << 24)
#define BEFORE ((size_t)64)

allocations heap;

void fails(const char *file, int line, const char *what, const char *format, ...)
{
    va_list arguments;
    va_start(arguments, format);
    fprintf(stderr, "%s:%d: %s: ", file, line, what);
    vfprintf(stderr, format, arguments);
    fputc('\n', stderr);
    va_end(arguments);
    abort();
}

/* ---- memory with an edge ---- */

static uint8_t *mapped(void)
{
    size_t page = (size_t)sysconf(_SC_PAGESIZE);
    uint8_t *made = mmap(NULL, ARENA + page, PROT_READ | PROT_WRITE, MAP_PRIVATE | MAP_ANONYMOUS | MAP_NORESERVE, -1, 0);
    if (made == MAP_FAILED || mprotect(made + ARENA, page, PROT_NONE) != 0) {
        fputs("no memory for the fuzz target\n", stderr);
        exit(2);
    }
    return made;
}

static uint8_t *arenas[EDGES];

uint8_t *edge(int which, size_t len)
{
    uint8_t *at;
    if (arenas[which] == NULL)
        arenas[which] = mapped();
    CHECK(len + BEFORE <= ARENA, "%zu bytes", len);
    at = arenas[which] + ARENA - len;
    memset(at - BEFORE, PATTERN, BEFORE);
    return at;
}

void check_edge(int which, size_t len)
{
    CHECK(is_pattern(arenas[which] + ARENA - len - BEFORE, BEFORE), "written before piece %d of %zu bytes", which, len);
}

void set_pattern(void *bytes, size_t len)
{
    if (len > 0)
        memset(bytes, PATTERN, len);
}

int is_pattern(const void *bytes, size_t len)
{
    const uint8_t *at = bytes;
    size_t i;
    for (i = 0; i < len; i++)
        if (at[i] != PATTERN)
            return 0;
    return 1;
}

/* ---- allocations ---- */

/* Whether this request fails. */
static int is_failing(void)
{
    heap.requests++;
    if (heap.fail_from == 0 || heap.requests < heap.fail_from)
        return 0;
    heap.failed = 1;
    return 1;
}

/* A piece of memory has its size before it, and a pattern on both sides. */
enum { SIDE = 16 };

static void *with_sides(uint8_t *all, size_t size)
{
    set_pattern(all, SIDE);
    memcpy(all, &size, sizeof size);
    set_pattern(all + SIDE + size, SIDE);
    return all + SIDE;
}

/* Checks the sides of a piece. Returns where it begins with them. */
static uint8_t *checked(uint8_t *memory)
{
    size_t size;
    memcpy(&size, memory - SIDE, sizeof size);
    CHECK(is_pattern(memory - SIDE + sizeof size, SIDE - sizeof size), "written before allocated memory");
    CHECK(is_pattern(memory + size, SIDE), "written after %zu bytes of allocated memory", size);
    return memory - SIDE;
}

void *fuzz_malloc(size_t size)
{
    return fuzz_realloc(NULL, size);
}

void *fuzz_realloc(void *memory, size_t size)
{
    void *made;
    if (is_failing())
        return NULL;
    made = realloc(memory == NULL ? NULL : checked(memory), size + 2 * SIDE);
    if (made == NULL)
        return NULL;
    heap.live += memory == NULL;
    return with_sides(made, size);
}

void fuzz_free(void *memory)
{
    if (memory == NULL)
        return;
    heap.live--;
    free(checked(memory));
}

void begin(void)
{
    heap.requests = 0;
    heap.failed = 0;
    heap.kept = heap.live;
}

int ended(const char *call, hll_status status, int wanted)
{
    CHECK(hll_reason(status)[0] != '\0' && hll_message(status)[0] != '\0', "%s: %d has no word", call, status);
    CHECK(heap.live == heap.kept, "%s kept memory: %zu pieces, before %zu", call, heap.live, heap.kept);
    if (heap.failed)
        CHECK(status == HLL_MEMORY, "%s: %d, and an allocation failed", call, status);
    else
        CHECK(status == wanted, "%s: %d in place of %d", call, status, wanted);
    return status == HLL_OK;
}
