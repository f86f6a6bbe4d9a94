/* SPDX-License-Identifier: Apache-2.0 */
/*
 * Which code of the proved calls runs. On Linux on x86-64 the library has it twice, compiled for x86-64-v2 and for x86-64-v3 (AVX2,
 * BMI2, FMA). The first call asks the processor, and the operating system, and chooses one for the whole process: each call goes
 * through a table of pointers. Plain C, not proved.
 *
 * HLL_WITH_V3 is defined if there are both. Their names end in _v2 and _v3.
 */
#define _GNU_SOURCE /* secure_getenv */
#include "hll.h"

#ifdef HLL_WITH_V3

#include <cpuid.h>
#include <stdlib.h>
#include <string.h>

struct estimate; /* of estimate.c */

#define WRAPPED CALL

/* The calls for a kind of processor. */
struct calls {
    const char *processor;
#define CALL(type, name, parameters, arguments) type(*name) parameters;
#include "proved_calls.h"
#undef CALL
};

#define CALL(type, name, parameters, arguments) type name##_v2 parameters;
#include "proved_calls.h"
#undef CALL

#define CALL(type, name, parameters, arguments) type name##_v3 parameters;
#include "proved_calls.h"
#undef CALL

/* What CPUID and XGETBV return. */
struct facts {
    unsigned basic;    /* ECX of leaf 1 */
    unsigned more;     /* EBX of leaf 7 */
    unsigned extended; /* ECX of leaf 0x80000001 */
    unsigned saved;    /* the registers that the operating system saves: XCR0 */
};

/* The bits of what x86-64-v3 has in addition to x86-64-v2. */
#define FMA (1u << 12)
#define MOVBE (1u << 22)
#define OSXSAVE (1u << 27)
#define AVX (1u << 28)
#define F16C (1u << 29)
#define BASIC (FMA | MOVBE | OSXSAVE | AVX | F16C)
#define MORE (1u << 3 | 1u << 5 | 1u << 8) /* BMI1, AVX2, BMI2 */
#define LZCNT (1u << 5)
#define SAVED (1u << 1 | 1u << 2) /* the registers of 128 and of 256 bits */

static int is_v3(const struct facts *facts)
{
    return (facts->basic & BASIC) == BASIC && (facts->more & MORE) == MORE && (facts->extended & LZCNT) == LZCNT &&
           (facts->saved & SAVED) == SAVED;
}

/* Without OSXSAVE there is no XGETBV. */
static struct facts facts_of_processor(void)
{
    struct facts facts = {0, 0, 0, 0};
    unsigned a, b, c, d;
    if (__get_cpuid(1, &a, &b, &c, &d))
        facts.basic = c;
    if (__get_cpuid_max(0, NULL) >= 7) {
        __cpuid_count(7, 0, a, b, c, d);
        facts.more = b;
    }
    if (__get_cpuid(0x80000001, &a, &b, &c, &d))
        facts.extended = c;
    if (facts.basic & OSXSAVE)
        __asm__("xgetbv" : "=a"(facts.saved), "=d"(d) : "c"(0));
    return facts;
}

/* Until the first call these stand in the table: each chooses, and hands over to the call that was chosen. */
static const struct calls *choose(void);

#define CALL(type, name, parameters, arguments)                                                                            \
    static type name##_first parameters                                                                                    \
    {                                                                                                                      \
        return choose()->name arguments;                                                                                   \
    }
#include "proved_calls.h"
#undef CALL

#define CALL(type, name, parameters, arguments) name##_first,
static const struct calls calls_first = {
    NULL,
#include "proved_calls.h"
};
#undef CALL

#define CALL(type, name, parameters, arguments) name##_v2,
static const struct calls calls_v2 = {
    "x86-64-v2",
#include "proved_calls.h"
};
#undef CALL

#define CALL(type, name, parameters, arguments) name##_v3,
static const struct calls calls_v3 = {
    "x86-64-v3",
#include "proved_calls.h"
};
#undef CALL

static const struct calls *chosen = &calls_first;

/* Threads that choose at the same time choose the same, as long as none changes the environment. */
static const struct calls *choose(void)
{
    const char *wanted = secure_getenv("HLL_CPU");
    struct facts facts = facts_of_processor();
    const struct calls *calls = &calls_v2;
    if (is_v3(&facts) && !(wanted && strcmp(wanted, "x86-64-v2") == 0))
        calls = &calls_v3;
    __atomic_store_n(&chosen, calls, __ATOMIC_RELAXED);
    return calls;
}

static inline const struct calls *calls_to_run(void)
{
    return __atomic_load_n(&chosen, __ATOMIC_RELAXED);
}

/* Each call, under the name that hll.h gives it, or under which optional.c, state.c and estimate.c hand over to it. */
#undef WRAPPED
#define CALL(type, name, parameters, arguments)                                                                            \
    type name parameters                                                                                                   \
    {                                                                                                                      \
        return calls_to_run()->name arguments;                                                                             \
    }
#define WRAPPED(type, name, parameters, arguments)                                                                         \
    type proved_##name parameters;                                                                                         \
    type proved_##name parameters                                                                                          \
    {                                                                                                                      \
        return calls_to_run()->name arguments;                                                                             \
    }
#include "proved_calls.h"

const char *hll_processor(void)
{
    const char *processor = calls_to_run()->processor;
    return processor ? processor : choose()->processor;
}

#else

const char *hll_processor(void)
{
#if defined(__x86_64__)
    return "x86-64-v2";
#elif defined(__aarch64__)
    return "aarch64";
#elif defined(__riscv)
    return "riscv64";
#else
    return "unknown";
#endif
}

#endif
