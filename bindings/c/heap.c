/* SPDX-License-Identifier: Apache-2.0 */
/*
 * Allocation for the archive of the crate hll_c, by malloc. Plain C, not proved.
 */
#include <stddef.h>
#include <stdint.h>
#include <stdlib.h>

/* Whether the allocation succeeded, and its address, which is never NULL. */
typedef struct tried {
    uint64_t is_there;
    void *memory;
} tried;

/* The proved code takes both from two registers. A C function returns them so in each calling convention but the one of Windows for
 * x86-64, where they come through a pointer. There the proved code calls these two functions by the convention of System V. */
#if defined(_WIN32) && defined(__x86_64__)
#define IN_REGISTERS __attribute__((sysv_abi))
#else
#define IN_REGISTERS
#endif

IN_REGISTERS tried rattle_alloc(size_t size, size_t align);
IN_REGISTERS tried rattle_realloc(void *memory, size_t kept, size_t size, size_t align);
void rattle_dealloc(void *memory);

static tried answer(void *memory)
{
    static char none;
    tried found;
    found.is_there = memory != NULL;
    found.memory = memory != NULL ? memory : &none;
    return found;
}

/* No type of the library needs a larger alignment than 16 bytes, which malloc guarantees. */
IN_REGISTERS tried rattle_alloc(size_t size, size_t align)
{
    return answer(malloc(size != 0 ? size : align));
}

IN_REGISTERS tried rattle_realloc(void *memory, size_t kept, size_t size, size_t align)
{
    (void)kept;
    return answer(realloc(memory, size != 0 ? size : align));
}

void rattle_dealloc(void *memory)
{
    free(memory);
}
