/* SPDX-License-Identifier: Apache-2.0 */
/* The functions of heap.c. */
#ifndef STDLIB_H
#define STDLIB_H
#include <stddef.h>
void *malloc(size_t size);
void *realloc(void *memory, size_t size);
void free(void *memory);
#endif
