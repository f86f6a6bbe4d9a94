/* SPDX-License-Identifier: Apache-2.0 */
/*
 * A plain model of sketches, by docs/FORMAT.md, docs/MODEL.md and crates/hll_state/README.md alone. It shares no code with the
 * library: the fuzz target compares what both make of the same bytes.
 */
#ifndef PLAIN_H
#define PLAIN_H

#include <stddef.h>
#include <stdint.h>

/* A sketch: coupons in a table of 2^size buckets, where size 3 is a list; or registers, with size 0. */
typedef struct plain {
    unsigned lg_k, width, size;
    uint32_t *coupons; /* n raw coupons, ascending and distinct */
    size_t n;
    uint8_t *registers;
    uint64_t fields[3];
    int out_of_order;
} plain;

/* A state: its sketch, whose width is 8, and what else its header says. */
typedef struct plain_state {
    plain sketch;
    unsigned widths;
    int is_open;
    int is_added; /* coupons were added since the table was copied */
    size_t run, used;
} plain_state;

/* ---- sketches ---- */

plain plain_empty(unsigned lg_k, unsigned width);
plain plain_copy(const plain *x);
void plain_free(plain *x);

int plain_is_empty(const plain *x);

/* Whether the sketch is canonical: coupons in the smallest table that holds them, or registers whose estimator state is cleared
 * or follows from them. */
int plain_is_canonical(const plain *x);

/* Whether the coupons have values, and the registers are at most 63. */
int plain_is_legal(const plain *x);

/* Whether both are the same sketch, in tables of one size and with one estimator state. The width doesn't count. */
int plain_is_same(const plain *x, const plain *y);

/* Writes 2^lg_k registers: the greatest value at each slot modulo 2^lg_k. */
void plain_registers(const plain *x, unsigned lg_k, uint8_t *registers);

void plain_add(plain *x, const uint32_t *coupons, size_t n);
void plain_fold(plain *x, unsigned lg_k);

/* Merges a sketch into the sketch of a union of this bound. */
void plain_merge(unsigned bound, plain *gadget, const plain *x);

void plain_clear(plain *x);      /* clears the estimator state of registers */
void plain_set_fields(plain *x); /* sets the fields that follow from registers */
void plain_fill(plain *x);       /* sets them if the state was cleared */

/* ---- images ---- */

/* Reads the image that bytes begin with. Returns 0, and the sketch and the size of the image; or the reason, 1 to 11. */
int plain_read(const uint8_t *bytes, size_t len, plain *x, size_t *size);

/* The most bytes that plain_write writes. */
size_t plain_room(const plain *x);

/* Writes the image of a legal sketch. Returns its size. */
size_t plain_write(const plain *x, uint8_t *out);

/* ---- states ---- */

/* Returns whether the bytes are a state, and then the state. */
int plain_read_state(const uint8_t *bytes, size_t room, plain_state *state);

/* The bytes after the header that n coupons need. */
size_t plain_elements_for(unsigned lg_k, size_t n);

/* ---- values ---- */

/* The raw coupon of bytes. */
uint32_t plain_coupon(const uint8_t *value, size_t len);

#endif
