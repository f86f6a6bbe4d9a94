/* SPDX-License-Identifier: Apache-2.0 */
/*
 * What the text of the programs calls by names of glibc 2.33, for older versions and for other C libraries such as musl. With
 * newer versions of glibc this file is empty.
 */
#include <features.h>

typedef int not_empty;

#ifndef __GLIBC__
#define LACKS_NAMES
#define LACKS_LEAVES
#elif !__GLIBC_PREREQ(2, 33)
#define LACKS_LEAVES
#endif

#ifdef LACKS_NAMES
#include <stddef.h>
#include <unistd.h>

ssize_t __write(int file, const void *bytes, size_t size);

ssize_t __write(int file, const void *bytes, size_t size)
{
    return write(file, bytes, size);
}
#endif

#if defined(LACKS_LEAVES) && defined(__x86_64__)
#include <cpuid.h>

/* What the processor has, and what of this can be used: eax, ebx, ecx and edx of an instruction `cpuid`. */
struct leaf {
    unsigned has[4], active[4];
};

const struct leaf *__x86_get_cpuid_feature_leaf(unsigned index);

/* The text looks for the instructions of x86-64-v2: at index 0 for leaf 1 of `cpuid`, and at index 2 for leaf 0x80000001. */
const struct leaf *__x86_get_cpuid_feature_leaf(unsigned index)
{
    static struct leaf leaf;
    unsigned *has = leaf.has, at = index == 0 ? 1 : 0x80000001, i;
    if (!__get_cpuid(at, &has[0], &has[1], &has[2], &has[3]))
        has[2] = 0;
    for (i = 0; i < 4; i++)
        leaf.active[i] = has[i];
    return &leaf;
}
#endif
