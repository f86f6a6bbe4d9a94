/* SPDX-License-Identifier: Apache-2.0 */
/*
 * The calls of hll.h for JavaScript: addresses and lengths are numbers of 32 bits, so that none is a BigInt. Plain C, not proved.
 */
#include "hll.h"

#include <stdlib.h>

/* An address in the memory of the module, or a length. */
typedef uint32_t at;

#define TO(type, place) ((type *)(uintptr_t)(place))
#define EXPORT(name) __attribute__((export_name(#name))) at js_##name

#define CALL(name, parameters, arguments)                                                                                  \
    EXPORT(name) parameters                                                                                                \
    {                                                                                                                      \
        return name arguments;                                                                                             \
    }
#define VOID_CALL(name, parameters, arguments)                                                                             \
    EXPORT(name) parameters                                                                                                \
    {                                                                                                                      \
        name arguments;                                                                                                    \
        return 0;                                                                                                          \
    }
#include "exports.h"

#define COUNTER(place) TO(hll_counter, place)

/* Makes a counter, whose bound is 0 or its lg_k. Returns its address, or 0 if the allocation or an argument fails. */
EXPORT(counter_new)(at lg_k, at lg_max_k)
{
    hll_counter *made = malloc(sizeof *made);
    if (made == NULL)
        return 0;
    if (hll_counter_init(made, lg_k, NULL, NULL) != HLL_OK || hll_counter_bind(made, lg_max_k) != HLL_OK) {
        free(made);
        return 0;
    }
    return (at)(uintptr_t)made;
}

EXPORT(counter_free)(at counter)
{
    hll_counter_free(COUNTER(counter));
    free(COUNTER(counter));
    return 0;
}
