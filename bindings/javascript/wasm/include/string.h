/* SPDX-License-Identifier: Apache-2.0 */
#ifndef STRING_H
#define STRING_H
#include <stddef.h>
#define memcpy(to, from, size) __builtin_memcpy((to), (from), (size))
#endif
