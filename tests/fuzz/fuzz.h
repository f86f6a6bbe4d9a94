/* SPDX-License-Identifier: Apache-2.0 */
/* What the parts of the fuzz target share: checks that end the program, memory with an edge, and allocations that fail. */
#ifndef FUZZ_H
#define FUZZ_H

#include "hll_state.h"
#include "plain.h"

/* Ends the program if a check fails, as a fuzzer expects it, and says which. */
#define CHECK(holds, ...)                                                                                                  \
    do {                                                                                                                   \
        if (!(holds))                                                                                                      \
            fails(__FILE__, __LINE__, #holds, __VA_ARGS__);                                                                \
    } while (0)

void fails(const char *file, int line, const char *what, const char *format, ...);

/* ---- memory with an edge ---- */

/* The pieces of memory. */
enum {
    IMAGES = 8, /* so many images are kept */
    PAIRS = 2,  /* and so many states, registers and counters */
    EDGE_IMAGE = 0,
    EDGE_STATE = EDGE_IMAGE + IMAGES,
    EDGE_REGISTERS = EDGE_STATE + PAIRS,
    EDGE_JOINED = EDGE_REGISTERS + PAIRS,
    EDGE_OUT,
    EDGE_VALUES,
    EDGE_ENDS,
    EDGE_COUPONS,
    EDGE_SPARE,
    EDGES
};

/* Returns so many bytes of a piece, which end where no byte can be read or written: the proved code has no checks of a
 * compiler. The bytes before are a pattern. */
uint8_t *edge(int which, size_t len);

/* Checks that the bytes before are the pattern still. */
void check_edge(int which, size_t len);

/* ---- allocations ---- */

/* The allocations of the library. */
typedef struct allocations {
    size_t live;      /* pieces that are not freed */
    size_t requests;  /* since `begin` */
    size_t fail_from; /* requests from this one on fail, counted from 1; 0 for none */
    size_t kept;      /* the pieces that were there at `begin` */
    int failed;       /* whether a request has failed since `begin` */
} allocations;

extern allocations heap;

void *fuzz_malloc(size_t size);
void *fuzz_realloc(void *memory, size_t size);
void fuzz_free(void *memory);

void begin(void);

/* Checks what a call returned, and that it freed what it allocated. Returns whether it succeeded. */
int ended(const char *call, hll_status status, int wanted);

/* Checks an outcome in all bytes: they are a pattern that nothing has changed. */
int is_pattern(const void *bytes, size_t len);
void set_pattern(void *bytes, size_t len);

/* ---- the world ---- */

/* An image, and what the plain model makes of it. */
typedef struct held {
    const uint8_t *at;
    size_t len;
    plain x;     /* if the reason is 0 */
    size_t size; /* of the image that the bytes begin with */
    int reason;
} held;

typedef struct counted {
    hll_counter counter;
    plain x;
    unsigned bound, widths;
    int is_begun, is_open;
} counted;

typedef struct world {
    held images[IMAGES];
    unsigned next;
    uint8_t *states[PAIRS];
    size_t rooms[PAIRS];
    uint8_t *registers[PAIRS];
    size_t counts[PAIRS];
    counted counters[PAIRS];
} world;

/* One call with its arguments: three numbers, and bytes. */
typedef struct record {
    uint8_t op, a, b, c;
    const uint8_t *bytes;
    size_t len;
} record;

/* Values, or coupons, of a record. */
typedef struct batch {
    const uint8_t *values;
    size_t len, n, step; /* the length of a value, if they have one length */
    size_t *ends;
    uint32_t *coupons; /* of the values, by the plain model */
    int is_argument;   /* whether the ends are out of range */
} batch;

batch batch_of(const record *r);
void free_batch(batch *b);

/* The coupons in the bytes of a record. Returns whether each has a value. */
int coupons_of(const record *r, const uint32_t **coupons, size_t *n);

/* Whether a sketch has so many registers that calls on all of them are left out. */
int is_heavy(const record *r, unsigned lg_k);

static inline int is_lg_k(unsigned lg_k)
{
    return 4 <= lg_k && lg_k <= 21;
}

static inline int is_width(unsigned width)
{
    return width == 4 || width == 6 || width == 8;
}

/* Checks an estimation of a sketch by the formulas. */
void check_estimation(const plain *x, const hll_estimation *found);

/* Parts of the target: each does what a record says. */
void on_image(world *w, const record *r);
void on_union(world *w, const record *r);
void on_chain(world *w, const record *r);
void on_values(world *w, const record *r);
void on_registers(world *w, const record *r);
void on_state(world *w, const record *r);
void on_counter(world *w, const record *r);
void on_cpp(world *w, const record *r);

/* Joins the sketch of y as a state does. Returns 0, or HLL_OTHER_LG_K if it is not joined. */
int plain_join(plain *x, unsigned lg_max_k, const plain *y);

/* The widths after a join (docs of hll_state_info). */
unsigned widths_after(unsigned widths, unsigned other, int is_first_empty, int is_second_empty);

/* Joins an image to a state, and checks what it is then. */
void join_image(world *w, int i, unsigned lg_max_k, const held *h);

void keep_image(world *w, const uint8_t *bytes, size_t len);

#endif
