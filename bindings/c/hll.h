/* SPDX-License-Identifier: Apache-2.0 */
/*
 * HyperLogLog sketches, in the format of DataSketches (HLL, serial version 1).
 *
 *     hll_counter counter;
 *     hll_estimation found;
 *     hll_counter_init(&counter, 12, NULL, NULL);
 *     hll_counter_add(&counter, (const uint8_t *)"hello", 5);
 *     hll_counter_estimate(&counter, &found);
 *     hll_counter_free(&counter);
 *
 * A sketch has one of four forms:
 *     A counter grows by itself: a struct of the caller's that allocates what it needs, until hll_counter_free ("counters"
 *     below). Programs that count begin with it.
 *     An image is the bytes of a sketch, for files, columns and other DataSketches libraries. Calls over images read an image
 *     and write another one.
 *     A state is a sketch in memory of the program's, which may map, share or move it (hll_state.h). A counter has one in its
 *     memory.
 *     Registers are an array of 2^lg_k bytes, a sketch of constant size ("caller-owned registers" below).
 * Images, states and registers are in the caller's memory, and the library keeps nothing of them between calls.
 *
 * A sketch of few values is a list or a set of coupons. A coupon is what the sketch keeps of a value: a slot below 2^26, and
 * a number from 1 to 63. A sketch of many values has 2^lg_k registers. The width is the number of bits of a register in an
 * image: 4, 6 or 8. It changes the size of an image, and nothing else.
 *
 * Return values
 *     HLL_OK (0): the call did what was asked.
 *     On every other status the output is unchanged: the buffer, *info, *histogram, *same, *estimation, coupons, registers
 *     and the sketch of a state. *size changes only with HLL_BUFFER, and *lg_k only with HLL_COARSER.
 *     1 to 11 (HLL_TRUNCATED to HLL_REGISTER): the bytes are not an image. The status is the first check that they fail.
 *     HLL_ARGUMENT: an argument is out of its range. This is checked before images are read, except where the check needs
 *     the image: if a fold is to an lg_k above the image's, or the image has no HIP estimate.
 *     HLL_MEMORY: malloc, or the allocator of a counter, returned NULL. The same call can be made again.
 *     HLL_BUFFER: the buffer is too small. *size is the number of bytes that are needed.
 *     HLL_COARSER: the sketch to be merged has fewer registers. *lg_k is its lg_k.
 *     HLL_OTHER_LG_K: the sketches have different lg_k, and no lg_max_k was given.
 *     HLL_STATE: a state was written by another version of the library. hll_state_check alone returns it.
 *
 * Arguments
 *     lg_k, lg_max_k   the base-2 logarithm of the number of registers, 4 to 21. So is `to` of a fold.
 *     width            the bits of a register: 4, 6 or 8. hll_image_convert accepts 0 too. For any other number a call
 *                      returns HLL_ARGUMENT. All these arguments are unsigned, so 268 is rejected and not cut to 12.
 *     image, len       bytes that begin with an image. Bytes after the image are not read. Every image is checked whole, so
 *                      the bytes may come from anywhere. An untrusted image can be slow: a set of a megabyte takes about
 *                      a second to read, and a call can't be stopped. Call hll_is_small first (docs/OPERATING.md).
 *     out, room, size  a buffer of `room` bytes; *size receives the size of the image. Bytes after the image are unchanged.
 *                      HLL_IMAGE_MAX(lg_k) bytes are enough for every image of that lg_k or a smaller one.
 *     ends, n          delimit n byte strings, which are concatenated in the bytes before this argument: string i goes from
 *                      ends[i - 1] (0 for the first) to ends[i]. Ends ascend. Two may be equal: the empty string is a value
 *                      like any other. If an end descends or is after the last byte, the call returns HLL_ARGUMENT. Bytes
 *                      after the last end are not read.
 *     offsets, offsets_len
 *                      delimit n byte strings by n + 1 offsets: string i goes from offsets[i] to offsets[i + 1]. The first
 *                      offset need not be 0. Offsets ascend, and two may be equal. If there is no offset,
 *                      or one descends, is negative or is after the last byte, the call returns HLL_ARGUMENT. For a column
 *                      of Apache Arrow (binary or utf8) pass its offsets from array->offset on, and array->length + 1.
 *     registers, count an array of `count` registers, one byte each: 2^lg_k of them, 16 to 2^21. For any other count a call
 *                      returns HLL_ARGUMENT.
 *     failed           receives the number of the first image that is rejected, counted from 0, if the status is 1 to 11.
 *                      Otherwise it is unchanged. It may be NULL, and so may the lg_k that HLL_COARSER sets.
 *
 * Images that are written
 *     Coupons are written in ascending order, so the same sketch has the same bytes. (A set is an exception: it may be in
 *     a table of another size.)
 *     Registers have three estimator fields, from which other DataSketches libraries estimate, and the out-of-order flag. If
 *     a call changed a register, or if the fields were 0 and the flag was set, the call sets the flag and writes the fields
 *     that follow from the registers. So the same registers have the same bytes. Fields that another program wrote stay
 *     while no register changes: in a conversion to another width, in a fold to the same lg_k, in a union with empty images
 *     only, and if no added value is new. hll_image_clear_estimator_fields sets the fields to 0, as the program hll_merge
 *     does. Other libraries divide by two of the fields (kxq0 + kxq1), so they then estimate infinity.
 *     An image is canonical if its coupons are in the smallest form that holds them (a list for up to seven, else the
 *     smallest set that is at most three quarters full), or if its registers have the out-of-order flag and estimator fields
 *     that follow from them, or fields of 0. New images are canonical, and calls make canonical images from canonical ones.
 *     Images of other programs often aren't canonical.
 *
 * What the caller must ensure, because no call can check it
 *     - A pointer points to as many bytes (or elements) as its length says. It may be NULL if that length is 0. No other
 *       pointer may be NULL, except failed, and the lg_k that HLL_COARSER sets.
 *     - out, size, failed, info, histogram, same, coupons, estimation, a state, and registers that a call changes, with its
 *       lg_k, overlap nothing else that is passed. Inputs may overlap each other: an image can be merged with itself. Where out
 *       overlapped the image in tests, no call wrote outside its buffer. With out == image the result was right, but
 *       elsewhere hll_image_add, hll_image_add_coupon and hll_image_convert returned HLL_OK and wrote wrong bytes, some of
 *       which were no image. None of this is proved.
 *     - Inputs don't change during a call. If another thread writes an end meanwhile, the call may read outside the bytes.
 *     - malloc, realloc and free belong to one allocator, and align to 16 bytes.
 *     - No call is made from a signal handler, or in the child of a fork of a process with threads, because calls use malloc.
 *     - No other thread changes the environment (setenv) during the first call, which reads it.
 *     - An x86 processor has the instructions of x86-64-v2. On an older processor, glibc's loader rejects the shared
 *       library, and a program that is linked statically ends with SIGILL.
 *
 * Memory
 *     A call allocates with malloc, and frees all that it allocated before it returns. Only a counter keeps what it allocated;
 *     hll_counter_free frees it. "The memory of reading" an image, in the comments below, is about as many bytes as its
 *     registers or its table have. The comment of each call says what else it allocates.
 *
 * Processors
 *     On Linux on x86-64 the proved calls are there twice: compiled for x86-64-v2, and for x86-64-v3 (AVX2), which is faster for most
 *     calls. The first call chooses for the whole process, by what the processor and the operating system report. If the environment
 *     variable HLL_CPU is x86-64-v2 at that time, the code for x86-64-v2 runs. Every other value is ignored, and so is the variable
 *     in a set-user-ID program. Both write the same bytes, and hll_processor returns which one runs. The choice is plain C
 *     (bindings/c/processor.c), tested and not proved.
 *
 * Threads
 *     Calls share no data but that choice. Any number of threads may call at once, also with the same inputs. What threads may do
 *     with one counter or one state at once is written there.
 *
 * What is proved
 *     - Of the calls on images, caller-owned registers, states and coupons: which status they return, what they write and what
 *       they leave unchanged, for all inputs of a caller who ensures the above.
 *     - If an image is merged into registers that are not all 0, and these are written as an image, the result is the union of
 *       the registers and the image, with the estimator fields set.
 *     - What a state means after a merge (hll_state_join), for states that only calls of this library have written. None of
 *       these has registers that are all 0; if other code made such a state, nothing is said of merges into it.
 *     - The estimate from registers (of images, registers, histograms and states): it never falls if a register rises. It is
 *       the double nearest to a number that differs by at most one part in 2^40 plus 2^-32 from the greater of the number of
 *       registers above 0 and the value of the formula in docs/NUMBERS.md.
 *     - If hll_state_join merges images into a new state, under the lg_max_k that it was made with, the state has the sketch whose
 *       image hll_images_union writes for the same images and lg_max_k.
 *     - Of the unions that hll_image_merge, hll_images_union and hll_images_unionv write, for canonical images under one lg_max_k:
 *       the bytes don't depend on the order, repetition and grouping of the images (the laws bytes_of_unions of hll_sketch), and
 *       the union is canonical too.
 *     - What hll_image_head reports. If the bytes begin with an image, the size is the size of that image.
 *     Not proved, but tested: the C of counters, which allocates memory, copies states to it, frees it, and hands everything else to
 *     these calls; bounds, estimates from coupons, hll_image_trailing, hll_state_check, hll_hip_estimate, hll_version,
 *     hll_processor, the division of a state's room by four, and what this header defines itself. Nothing is proved of time,
 *     threads, NULL and other libraries. Of memory two things are proved: for which images an allocation may fail, and that a
 *     state whose bytes were copied to the memory that a call asked for is the same state, with enough room for that call (for a
 *     state whose lg_k isn't open).
 */
#ifndef HLL_H
#define HLL_H

#include <stddef.h>
#include <stdint.h>

/* A cast, in C++ without a warning of -Wold-style-cast. */
#ifdef __cplusplus
#define HLL_CAST(type, value) static_cast<type>(value)
extern "C" {
#else
#define HLL_CAST(type, value) ((type)(value))
#endif

#define HLL_VERSION_MAJOR 0
#define HLL_VERSION_MINOR 2
#define HLL_VERSION_PATCH 0
#define HLL_VERSION_NUMBER (HLL_VERSION_MAJOR * 1000000 + HLL_VERSION_MINOR * 1000 + HLL_VERSION_PATCH)

typedef uint8_t hll_status;

enum {
    HLL_OK = 0,
    /* The bytes are not an image. */
    HLL_TRUNCATED = 1,      /* the bytes end before everything that the header announces */
    HLL_FAMILY = 2,         /* the family byte is not 7 */
    HLL_SERIAL_VERSION = 3, /* the serial version is not 1 */
    HLL_LG_K = 4,           /* lg_k is outside 4 to 21 */
    HLL_WIDTH = 5,          /* the width bits are 3 */
    HLL_STAGE = 6,          /* the stage bits are 3 */
    HLL_PREAMBLE = 7,       /* the preamble size doesn't fit the stage */
    HLL_LG_ARR = 8,         /* the size of a table is outside its range */
    HLL_COUNT = 9,          /* a count is above its bound, or not the number of filled buckets */
    HLL_COUPON = 10,        /* a coupon has the value 0 where a coupon is needed, or comes twice */
    HLL_REGISTER = 11,      /* a register above 63, or nibbles and exceptions that don't agree */
    /* The call can't be done. */
    HLL_ARGUMENT = 12,   /* an argument is out of its range */
    HLL_MEMORY = 13,     /* malloc, or the allocator of a counter, returned NULL */
    HLL_BUFFER = 14,     /* the buffer is too small; *size is the size needed */
    HLL_COARSER = 15,    /* the sketch to be merged has fewer registers; *lg_k is its lg_k */
    HLL_OTHER_LG_K = 16, /* the sketches have different lg_k, and no lg_max_k was given */
    HLL_TRAILING = 17,   /* bytes follow the image: no call returns it, but bindings reject files and values for it */
    HLL_STATE = 18       /* the state was written by another version of the library */
};

/* The stage of a sketch. */
enum { HLL_LIST = 0, HLL_SET = 1, HLL_REGISTERS = 2 };

/* The flags of an image. */
enum { HLL_EMPTY = 4, HLL_COMPACT = 8, HLL_OUT_OF_ORDER = 16 };

/* Enough bytes for every image of this lg_k or a smaller one, at each width: 40 for the header, one for each register, and
 * four for each exception of 4-bit registers. */
#define HLL_IMAGE_MAX(lg_k) (HLL_CAST(size_t, 40) + (HLL_CAST(size_t, 5) << (lg_k)))

/* The size of the largest image of this lg_k and width. With 8 and 6 bits every image of registers has this size. With 4 bits
 * only an image in which all registers but one are exceptions has this size. */
#define HLL_IMAGE_ROOM(lg_k, width)                                                                                        \
    ((width) == 8   ? HLL_CAST(size_t, 40) + (HLL_CAST(size_t, 1) << (lg_k))                                               \
     : (width) == 6 ? HLL_CAST(size_t, 41) + (HLL_CAST(size_t, 3) << (lg_k)) / 4                                           \
                    : HLL_CAST(size_t, 36) + (HLL_CAST(size_t, 9) << (lg_k)) / 2)

/* A raw coupon, a coupon as 32 bits, is the coupon's value * 2^26 + its slot. */
#define HLL_COUPON_SLOT(coupon) (HLL_CAST(uint32_t, coupon) & UINT32_C(0x3ffffff))
#define HLL_COUPON_VALUE(coupon) HLL_CAST(uint8_t, HLL_CAST(uint32_t, coupon) >> 26)

/* What the header of an image and the counts after it say. A later version may add members. */
typedef struct hll_head {
    uint64_t size;   /* of the image in bytes; 0 exactly if fault is not HLL_OK */
    uint32_t count;  /* of coupons in a list or a set, or of exceptions in registers of 4 bits; 0 if there is a fault */
    uint8_t lg_k;    /* 4 to 21; 0 if the header has a fault, and so are the next four */
    uint8_t width;   /* 4, 6 or 8 */
    uint8_t stage;   /* HLL_LIST, HLL_SET or HLL_REGISTERS */
    uint8_t flags;   /* HLL_EMPTY, HLL_COMPACT and HLL_OUT_OF_ORDER, if they are set */
    uint8_t minimum; /* of registers of 4 bits: what is added to each nibble */
    uint8_t fault;   /* the first check of the header and the counts that fails, or HLL_OK */
} hll_head;

/* What an image says about its sketch. Members that its stage doesn't have are 0. A later version may add members. */
typedef struct hll_info {
    uint64_t coupons;    /* of a list or a set: the number of coupons */
    uint64_t zeros;      /* of registers: the number of registers that are 0 */
    uint64_t units_high; /* of registers: the sum of 2^(63 - register), 128 bits: its upper half */
    uint64_t units_low;  /* and its lower half */
    uint64_t hip;        /* of registers: the three estimator fields, as bits of binary64 */
    uint64_t kxq0;
    uint64_t kxq1;
    uint8_t lg_k;         /* 4 to 21 */
    uint8_t width;        /* 4, 6 or 8 */
    uint8_t stage;        /* HLL_LIST, HLL_SET or HLL_REGISTERS */
    uint8_t is_empty;     /* 1 if there is no coupon and no register above 0, else 0 */
    uint8_t out_of_order; /* of registers: 1 if the image has the out-of-order flag, else 0 */
    uint8_t has_hip;      /* of registers: 1 if there is a HIP estimate (no flag, and `hip` is finite and above 0), else 0 */
} hll_info;

/* What a state says. A later version may add members. */
typedef struct hll_state_summary {
    uint64_t size;    /* the bytes that the state takes of its room; a copy of these bytes is a copy of the state */
    uint8_t lg_k;     /* 4 to 21; if it is open: the greatest of the images without values that were merged, or 4 */
    uint8_t width;    /* of the images that were merged: 4, 6 or 8; 8 if none counts, or if their widths differ */
    uint8_t stage;    /* HLL_SET for coupons, which may repeat, or HLL_REGISTERS */
    uint8_t is_empty; /* 1 if it has no values, else 0 */
    uint8_t is_open;  /* 1 if its lg_k is open, else 0 */
} hll_state_summary;

/* counts[v] is the number of registers with the value v. The sum of all counts is 2^lg_k. */
typedef struct hll_histogram {
    uint64_t counts[64];
} hll_histogram;

/* An estimate of the number of distinct values, and bounds at 1, 2 and 3 standard deviations. The true number is between the
 * bounds in at least about 68, 95 and 99.7 of 100 cases; docs/NUMBERS.md, "Estimates", has what was measured. Estimates and bounds
 * have the same bits on every processor. */
typedef struct hll_estimation {
    double estimate;
    double relative_standard_error; /* the standard deviation of the estimate, divided by the number of values */
    double lower[3];                /* lower[d - 1] <= estimate <= upper[d - 1] are the bounds at d deviations */
    double upper[3];
} hll_estimation;

/* A pointer and a length, with the layout of struct iovec. */
typedef struct hll_bytes {
    const uint8_t *bytes;
    size_t len;
} hll_bytes;

/* Returns the version of the library. HLL_VERSION_NUMBER is the version of this header. */
uint32_t hll_version(void);

/* Returns for which processors the code was compiled that runs: "x86-64-v2", "x86-64-v3", "aarch64" or "riscv64". Only on Linux on
 * x86-64 there is a choice ("processors" above). Allocates nothing. */
const char *hll_processor(void);

/* ---- counters ----
 *
 * A sketch that grows by itself: a state (hll_state.h) and its memory. The struct is the caller's, and holds a state of up to 14
 * coupons. A larger state is in memory from one function of the caller's, so a counter can live in any heap.
 *
 *     hll_counter counter;
 *     hll_counter_init(&counter, 12, NULL, NULL);
 *     hll_counter_add(&counter, value, len);
 *     hll_counter_estimate(&counter, &found);
 *     hll_counter_image(&counter, 8, out, sizeof out, &size);
 *     hll_counter_free(&counter);
 *
 * (A program also checks the statuses.)
 *
 * If a call returns anything but HLL_OK, the sketch is as it was, perhaps in more memory, and the counter can be used and freed.
 *
 * Calls with a const hll_counter change nothing, so any number of threads may make them on one counter at once, if threads may
 * call the allocator at once. During any other call on a counter no other thread may use it. To be read, a counter is copied if its
 * coupons aren't sorted: to the stack, or to memory of the allocator if that takes more than 2 KiB. hll_counter_settle sorts them.
 * Then no call allocates a copy.
 *
 * What a counter counts, merges and writes, and what it estimates from registers, is decided by the proved calls on states alone.
 * The C around them (bindings/c/counter.c) allocates memory, copies bytes to it and frees it. It is tested, not proved.
 */

/* The number of coupons for which a counter has room in the struct. */
#define HLL_COUNTER_COUPONS 14

/* Allocates `size` bytes if memory is NULL, frees memory if size is 0, and otherwise makes memory smaller, as realloc does. It is never
 * called to make memory larger. It returns NULL if it can't allocate; then memory is as it was. It has to return: a jump out of it
 * (longjmp, or an exception) can lose memory. */
typedef void *(*hll_allocator)(void *context, void *memory, size_t size);

/* Only the calls below use the members. The struct may be moved to another address, but a copy of it must not be used as a second
 * counter (hll_counter_copy). */
typedef struct hll_counter {
    hll_allocator allocator;
    void *context;
    uint32_t room;          /* the bytes of at.state, or 0: then the state is in at.first */
    uint8_t lg_max_k;       /* the bound of merges, or 0 for none */
    uint8_t has_spare_room; /* whether the state has coupons, and the room in which they can become registers */
    uint8_t is_reserved;    /* whether the counter keeps room that the state doesn't need */
    union {
        uint8_t *state;
        uint8_t first[40 + 4 * HLL_COUNTER_COUPONS];
    } at;
} hll_counter;

/* Makes an empty counter of an lg_k of 4 to 21; or one whose lg_k is open (0): the first image or counter with values that is
 * merged into it decides it, and until then adding returns HLL_ARGUMENT. If allocator is NULL, the counter allocates with malloc.
 * Returns HLL_OK or HLL_ARGUMENT. Allocates nothing. */
hll_status hll_counter_init(hll_counter *counter, unsigned lg_k, hll_allocator allocator, void *context);

/* Frees the memory of a counter, which is then empty, with its bound as its lg_k, or open if it has no bound. */
void hll_counter_free(hll_counter *counter);

/* Removes all values, and keeps the memory for others. The counter is then empty, with its bound as its lg_k, or open if it has no
 * bound. */
void hll_counter_reset(hll_counter *counter);

/* Add a value, values delimited by `ends` (all or none), or raw coupons (all or none).
 * Return HLL_OK, HLL_ARGUMENT or HLL_MEMORY. */
hll_status hll_counter_add(hll_counter *counter, const uint8_t *value, size_t len);
hll_status hll_counter_add_many(hll_counter *counter, const uint8_t *values, size_t values_len, const size_t *ends,
                                size_t n);
hll_status hll_counter_add_coupons(hll_counter *counter, const uint32_t *coupons, size_t n);

/* Merge the sketch of an image, or of another counter, into a counter. A counter that was initialised with an lg_k merges sketches of
 * any lg_k, under it as the bound, and then has the smallest lg_k. An open one merges sketches of one lg_k, and returns HLL_OTHER_LG_K for
 * another.
 * Return HLL_OK, 1 to 11, HLL_MEMORY or HLL_OTHER_LG_K. */
hll_status hll_counter_join(hll_counter *counter, const uint8_t *image, size_t len);
hll_status hll_counter_join_counter(hll_counter *counter, const hll_counter *other);

/* Sets the bound of merges from now on: 0, with which the counter merges sketches of its lg_k only, or an lg_k of at least the
 * counter's, with which it merges sketches of any. An open counter becomes a new one of that lg_k.
 * Returns HLL_OK or HLL_ARGUMENT. */
hll_status hll_counter_bind(hll_counter *counter, unsigned lg_max_k);

/* Makes one counter the copy of another. Both are initialised, and `to` keeps its own allocator.
 * Returns HLL_OK or HLL_MEMORY. */
hll_status hll_counter_copy(hll_counter *to, const hll_counter *from);

/* Sorts the coupons, so that reading allocates no copy. Returns HLL_OK. */
hll_status hll_counter_settle(hll_counter *counter);

/* Makes room for any number of values, so that adding allocates nothing until a shrink, a reset or a free.
 * Returns HLL_OK, HLL_MEMORY, or HLL_ARGUMENT if the lg_k is open. */
hll_status hll_counter_reserve(hll_counter *counter);

/* Frees the room that the sketch doesn't need. If the allocator returns NULL, the counter keeps it. */
void hll_counter_shrink(hll_counter *counter);

/* Writes the image at this width. Returns HLL_OK, HLL_ARGUMENT, HLL_MEMORY or HLL_BUFFER (*size is the size of the image). */
hll_status hll_counter_image(const hll_counter *counter, unsigned width, uint8_t *out, size_t room, size_t *size);

/* Estimates as hll_estimate does. Returns HLL_OK or HLL_MEMORY. */
hll_status hll_counter_estimate(const hll_counter *counter, hll_estimation *estimation);

/* Reports what the sketch is, as hll_state_info does.
 * Returns HLL_OK, or HLL_ARGUMENT if summary_size is not sizeof *summary. */
hll_status hll_counter_info(const hll_counter *counter, hll_state_summary *summary, size_t summary_size);

/* ---- what an image says ---- */

/* Reports what the header of an image and the counts after it say, without a look at the rest, which need not be there: 8 bytes
 * are enough for a list, 12 for a set and 40 for registers. If the bytes begin with an image, head->size is its size. If a
 * check of the header or of the counts fails (docs/FORMAT.md, "Order of checks"), head->fault is its status, HLL_TRUNCATED if these
 * bytes are too few. An image can be as large as 268 MB and still have lg_k 4, so compare head->size with what you accept before
 * you read on. head_size is sizeof *head.
 * Returns HLL_OK, or HLL_ARGUMENT if head_size is another size, as in hll_image_info. Allocates nothing. */
hll_status hll_image_head(const uint8_t *image, size_t len, hll_head *head, size_t head_size);

/* Reports what an image says about its sketch. info_size is sizeof *info. If it is not the size in this version of the
 * library, the caller was compiled for another version, and the call returns HLL_ARGUMENT.
 * Returns HLL_OK, 1 to 11, HLL_ARGUMENT or HLL_MEMORY. Allocates as hll_image_check does. */
hll_status hll_image_info(const uint8_t *image, size_t len, hll_info *info, size_t info_size);

/* Checks whether the bytes begin with an image.
 * Returns HLL_OK if they do, 1 to 11 if they don't, or HLL_MEMORY. Allocates nothing for at most 128 distinct coupons, or for
 * ascending coupons, of a compact image; for 1 to 128 distinct coupons of an updatable image; for registers of 6 and 8 bits; and
 * for 4-bit registers without exceptions. For other coupons it allocates the memory of reading, and for other 4-bit registers it
 * may allocate a map of their exceptions. */
hll_status hll_image_check(const uint8_t *image, size_t len);

/* Measures the image that the bytes begin with: *size is its number of bytes.
 * Returns HLL_OK, 1 to 11, or HLL_MEMORY. Allocates as hll_image_check does. */
hll_status hll_image_size(const uint8_t *bytes, size_t len, size_t *size);

/* Counts the bytes after the image that the bytes begin with: *more is 0 if there are none, or if the head has a fault. The calls of
 * this library don't read them. Where a file or a value has to be one image, they may be a second one, which would be lost. The empty
 * buckets of an updatable empty list belong to it. Only the head is read: hll_image_check says whether the bytes begin with an image.
 * Returns HLL_OK. Allocates nothing. */
hll_status hll_image_trailing(const uint8_t *bytes, size_t len, size_t *more);

/* Counts the registers with each value, at the lg_k of the image. The coupons of a list or a set count as the registers that they
 * fold to.
 * Returns HLL_OK, 1 to 11, or HLL_MEMORY. Allocates 2^lg_k bytes and a map for the exceptions of 4-bit registers; or for coupons
 * 12 bytes each, and what hll_image_check does. */
hll_status hll_image_histogram(const uint8_t *image, size_t len, hll_histogram *histogram);

/* ---- making an image ---- */

/* Writes the image of an empty sketch, eight bytes.
 * Returns HLL_OK, HLL_ARGUMENT, HLL_MEMORY or HLL_BUFFER. Allocates the image. */
hll_status hll_image_new(unsigned lg_k, unsigned width, uint8_t *out, size_t room, size_t *size);

/* Writes the image with n more values: byte strings, delimited by `ends`. Pass many at once, because each call reads the
 * whole image and writes it again. A value that a canonical image already has changes no coupon and no register; estimator
 * fields of 0 are filled in. An image of another program may be fuller than a canonical one, and then grows: a list of eight
 * becomes a set, and a set that is more than three quarters full gets a larger table or becomes registers.
 * The bytes are hashed as they are, as in Python, SQL, Java and C++. The Rust crate datasketches, and update of the crates for
 * Rust and Rattle here, hash a str with a byte ff after it: "ann" from there and "ann" from here are two values.
 * Returns HLL_OK, 1 to 11, HLL_ARGUMENT, HLL_MEMORY or HLL_BUFFER. Allocates the memory of reading, and the image; nothing if
 * registers of 6 or 8 bits get one value, or have all of at most 16 values already. Registers of 4 bits, as this library writes
 * them, then need at most a map for their exceptions, if there are at most 128, unless the value becomes an exception or
 * raises the last register at the minimum. */
hll_status hll_image_add(const uint8_t *image, size_t len, const uint8_t *values, size_t values_len, const size_t *ends,
                         size_t n, uint8_t *out, size_t room, size_t *size);

/* Writes the image with one more coupon: a slot below 2^26, and a value from 1 to 63.
 * Returns HLL_OK, 1 to 11, HLL_ARGUMENT, HLL_MEMORY or HLL_BUFFER. Allocates the memory of reading, and the image; nothing for
 * registers of 6 or 8 bits. Registers of 4 bits, as this library writes them, need at most a map for their exceptions, if
 * there are at most 128, unless the coupon becomes an exception or raises the last register at the minimum. */
hll_status hll_image_add_coupon(const uint8_t *image, size_t len, uint32_t slot, unsigned value, uint8_t *out, size_t room,
                                size_t *size);

/* ---- unions ---- */

/* Writes the union of two images at this width: the sketch of all values that either of them has. Its lg_k is lg_max_k, or
 * the smallest lg_k of the images in registers that are not all 0, if that is smaller. For a width of 0 the call returns
 * HLL_ARGUMENT, and so do the unions below.
 * Returns HLL_OK, 1 to 11 (*failed is 0 for the left image, 1 for the right), HLL_ARGUMENT, HLL_MEMORY or HLL_BUFFER.
 * Allocates the memory of reading one image at a time, at most 1.5 times 2^lg_max_k bytes or 1 KB, and the image. */
hll_status hll_image_merge(unsigned lg_max_k, unsigned width, const uint8_t *left, size_t left_len, const uint8_t *right,
                           size_t right_len, uint8_t *out, size_t room, size_t *size, size_t *failed);

/* Writes the union of n images, delimited by `ends`, at this width. Its lg_k follows the rule of hll_image_merge. The union
 * of no images is the empty sketch of lg_max_k.
 * If all images are canonical, the bytes of the union don't depend on the order of the images, on how often each image
 * occurs, or on whether some images were merged before under the same lg_max_k. If one image isn't canonical, two such
 * unions fold to the same registers at the smaller lg_k of both, but stage, table and estimator fields may differ. For
 * example, a set of 31 coupons in 32 buckets at lg_k 8 stays a set if it is merged once, and becomes registers if it is
 * merged twice.
 * Returns HLL_OK, 1 to 11 (*failed is the number of the image), HLL_ARGUMENT, HLL_MEMORY or HLL_BUFFER.
 * Allocates the memory of reading one image at a time, at most 1.5 times 2^lg_max_k bytes or 1 KB, and the image. */
hll_status hll_images_union(unsigned lg_max_k, unsigned width, const uint8_t *images, size_t images_len, const size_t *ends,
                            size_t n, uint8_t *out, size_t room, size_t *size, size_t *failed);

/* Writes the union of n images that need not be contiguous, as hll_images_union does.
 * Returns and allocates what hll_images_union does. */
hll_status hll_images_unionv(unsigned lg_max_k, unsigned width, const hll_bytes *parts, size_t n, uint8_t *out, size_t room,
                             size_t *size, size_t *failed);

/* ---- one image from another ---- */

/* Writes the image at a smaller lg_k (or the same): the sketch that the same values make with that lg_k.
 * Returns HLL_OK, 1 to 11, HLL_ARGUMENT (also if lg_k is above the image's), HLL_MEMORY or HLL_BUFFER. Allocates
 * 2^lg_k bytes, the image, and for more than 128 coupons that don't ascend, or registers, the memory of reading. */
hll_status hll_image_fold(const uint8_t *image, size_t len, unsigned lg_k, uint8_t *out, size_t room, size_t *size);

/* Writes the image at another width. A width of 0 stands for the image's own width: then the image is written as this
 * library writes it, compact and with ascending coupons.
 * Returns HLL_OK, 1 to 11, HLL_ARGUMENT, HLL_MEMORY or HLL_BUFFER. Allocates the memory of reading, 2^lg_k bytes, and the
 * image; nothing for registers of 6 or 8 bits at their own width, and at most a map for exceptions for registers of 4 bits at
 * theirs, if they are as this library writes them (the minimum is the least register, and the exceptions ascend) and there
 * are at most 128 exceptions. */
hll_status hll_image_convert(const uint8_t *image, size_t len, unsigned width, uint8_t *out, size_t room, size_t *size);

/* Writes the image with the estimator fields that follow from its registers, and the out-of-order flag, whatever they were
 * before. Lists and sets have no such fields, and are written as this library writes them.
 * Returns HLL_OK, 1 to 11, HLL_MEMORY or HLL_BUFFER. Allocates the memory of reading, and the image. */
hll_status hll_image_set_estimator_fields(const uint8_t *image, size_t len, uint8_t *out, size_t room, size_t *size);

/* Writes the image with the estimator fields 0 and the out-of-order flag set, as the program hll_merge writes it.
 * Returns and allocates what hll_image_set_estimator_fields does. */
hll_status hll_image_clear_estimator_fields(const uint8_t *image, size_t len, uint8_t *out, size_t room, size_t *size);

/* ---- comparing ---- */

/* Compares the registers of two images, once both are folded to the smaller lg_k: *same is 1 if they are the same, else 0.
 * Returns HLL_OK, 1 to 11 (*failed is 0 for the left image, 1 for the right), or HLL_MEMORY. Allocates for two
 * images of coupons what hll_image_histogram does. Registers of the same lg_k and width are compared in the images themselves:
 * with 6 and 8 bits nothing is allocated, with 4 bits a map for the exceptions of each image. For other images a byte for each
 * register at the smaller lg_k, for each image, and what reading them takes. */
hll_status hll_images_agree(const uint8_t *left, size_t left_len, const uint8_t *right, size_t right_len, uint8_t *same,
                            size_t *failed);

/* ---- caller-owned registers ----
 *
 * An array of 2^lg_k bytes, all 0 at first. It can be copied, sent and compared as bytes. There is nothing to make and nothing
 * to free. Register s is the greatest value, 0 to 63, of the coupons whose slot modulo 2^lg_k is s. So the bytes don't depend
 * on the order, repetition or grouping of what was added and merged.
 *
 *     static uint8_t registers[1 << 12];
 *     while (...)
 *         hll_registers_merge(registers, sizeof registers, image, len, &lg_k);
 *     hll_registers_estimate(registers, sizeof registers, &found);
 *
 * hll_registers_add and the merges only raise bytes, and don't check whether the caller's bytes are registers. The other calls
 * return HLL_REGISTER if a byte is above 63.
 */

/* Adds n values to the registers, delimited by `ends`, as hll_image_add does.
 * Returns HLL_OK or HLL_ARGUMENT. Allocates nothing. */
hll_status hll_registers_add(uint8_t *registers, size_t count, const uint8_t *values, size_t values_len, const size_t *ends,
                             size_t n);

/* Adds values of one length to the registers, without ends: values_len / value_len values of value_len bytes each,
 * concatenated.
 * Returns HLL_OK, or HLL_ARGUMENT: also if value_len is 0, or does not divide values_len. Allocates nothing. */
hll_status hll_registers_add_fixed(uint8_t *registers, size_t count, const uint8_t *values, size_t values_len,
                                   size_t value_len);

/* Adds n raw coupons to the registers, as hll_coupons writes them. If a raw coupon has the value 0, the call returns
 * HLL_ARGUMENT.
 * Returns HLL_OK or HLL_ARGUMENT. Allocates nothing. */
hll_status hll_registers_add_coupons(uint8_t *registers, size_t count, const uint32_t *coupons, size_t n);

/* Merges an image of any stage, width and lg_k into the registers: each register becomes the greatest of its value and of
 * the image's registers that fold to it. A list or a set has coupons only, and is merged whatever its lg_k is. So are
 * registers that are all 0, which change nothing. If the image has other registers, and fewer than `count`, the call
 * returns HLL_COARSER and sets *lg_k to the image's lg_k: fold to that lg_k, and merge again.
 * Returns HLL_OK, 1 to 11, HLL_ARGUMENT, HLL_MEMORY or HLL_COARSER. Allocates as hll_image_check does. */
hll_status hll_registers_merge(uint8_t *registers, size_t count, const uint8_t *image, size_t len, uint8_t *lg_k);

/* Merges other registers into these. If there are more of the others, they are folded. If there are fewer, and not all are 0,
 * the call returns HLL_COARSER and sets *lg_k to their lg_k. If a byte of the others is above 63, it returns HLL_REGISTER, also
 * if there are fewer.
 * Returns HLL_OK, HLL_REGISTER, HLL_ARGUMENT or HLL_COARSER. Allocates nothing. */
hll_status hll_registers_merge_registers(uint8_t *registers, size_t count, const uint8_t *others, size_t others_count,
                                         uint8_t *lg_k);

/* Folds the registers to a smaller lg_k (or the same). The result is the first 2^to bytes; the bytes after these are
 * unchanged.
 * Returns HLL_OK, HLL_REGISTER, or HLL_ARGUMENT (also if `to` is above their lg_k). Allocates nothing. */
hll_status hll_registers_fold(uint8_t *registers, size_t count, unsigned to);

/* Counts the registers with each value.
 * Returns HLL_OK, HLL_REGISTER or HLL_ARGUMENT. Allocates nothing. */
hll_status hll_registers_histogram(const uint8_t *registers, size_t count, hll_histogram *histogram);

/* Writes the image of the registers at this width, with the fields from which other DataSketches libraries estimate.
 * Returns HLL_OK, HLL_REGISTER, HLL_ARGUMENT, HLL_MEMORY or HLL_BUFFER. Allocates `count` bytes, with 4 and 6 bits also the
 * packed registers, and the image. */
hll_status hll_registers_image(const uint8_t *registers, size_t count, unsigned width, uint8_t *out, size_t room,
                               size_t *size);

/* ---- coupons ---- */

/* Returns the raw coupon of a value, which follows from the MurmurHash3 (x64, 128 bits, seed 9001) of these bytes. The empty
 * string is a value like any other. Allocates nothing. */
uint32_t hll_coupon(const uint8_t *value, size_t len);

/* Writes the raw coupons of n values, delimited by `ends`, into an array of `room` elements.
 * Returns HLL_OK, HLL_ARGUMENT, or HLL_BUFFER if room is less than n. Allocates nothing. */
hll_status hll_coupons(const uint8_t *values, size_t values_len, const size_t *ends, size_t n, uint32_t *coupons,
                       size_t room);

/* Writes the raw coupons of values of one length, without ends: n = values_len / value_len values of value_len bytes each,
 * concatenated.
 * Returns HLL_OK, HLL_ARGUMENT if value_len is 0 or does not divide values_len, or HLL_BUFFER if room is less than n.
 * Allocates nothing. */
hll_status hll_coupons_fixed(const uint8_t *values, size_t values_len, size_t value_len, uint32_t *coupons, size_t room);

/* Writes the raw coupons of the values between offsets, as Apache Arrow has them: "offsets, offsets_len" above.
 * Returns HLL_OK, HLL_ARGUMENT, or HLL_BUFFER if room is less than the number of values. Allocates nothing. */
hll_status hll_coupons_ends32(const uint8_t *values, size_t values_len, const int32_t *offsets, size_t offsets_len,
                              uint32_t *coupons, size_t room);

/* ---- estimates ---- */

/* Estimates the number of distinct values.
 * From registers this is Ertl's improved raw estimator, divided by 1 + e / 2^lg_k to correct it for few registers
 * (docs/NUMBERS.md), and at least the number of registers above 0. Its relative standard error is 1.04 / sqrt(2^lg_k). It is
 * computed in whole numbers, so it is the same on every processor. The estimate of a union of registers is never below that of its parts
 * at the same lg_k. If every register is 63, the estimate is infinite.
 * From a list or a set it is the number of coupons, corrected for coupons that several values share. It is nearly exact, and
 * may fall when the coupons become registers. A lower bound is never below the number of coupons, or of registers above 0,
 * since there were at least as many values.
 * Returns HLL_OK, 1 to 11, or HLL_MEMORY. Allocates as hll_image_info does. */
hll_status hll_estimate(const uint8_t *image, size_t len, hll_estimation *estimation);

/* Reports the HIP estimate that the writer of an image kept in it while it added values one by one, with its bounds. Its
 * standard error is a fifth smaller than the error of hll_estimate. If there is no HIP estimate, the call returns HLL_ARGUMENT:
 * for coupons, for registers that were merged (with the out-of-order flag), and if the field is 0, as this library writes it,
 * or not a number. Which images have one is proved (has_hip of hll_info); the bounds are tested.
 * Returns HLL_OK, 1 to 11, HLL_ARGUMENT or HLL_MEMORY. Allocates the memory of reading. */
hll_status hll_hip_estimate(const uint8_t *image, size_t len, hll_estimation *estimation);

/* Estimates as hll_estimate does, from caller-owned registers.
 * Returns HLL_OK, HLL_REGISTER or HLL_ARGUMENT. Allocates nothing. */
hll_status hll_registers_estimate(const uint8_t *registers, size_t count, hll_estimation *estimation);

/* Estimates as hll_estimate does, from a histogram of registers. lg_k follows from the sum of the counts. If that sum is not a
 * power of two from 2^4 to 2^21, the call returns HLL_ARGUMENT.
 * Returns HLL_OK or HLL_ARGUMENT. Allocates nothing. */
hll_status hll_histogram_estimate(const hll_histogram *histogram, hll_estimation *estimation);

/* Returns a status as one word: "ok", "truncated", "family" and so on, or "unknown" for any other number. */
static inline const char *hll_reason(hll_status status)
{
    static const char *const words[] = {"ok",       "truncated", "family",     "version",  "lgk",      "width",    "stage",
                                        "preamble", "lgarr",     "count",      "coupon",   "register", "argument", "memory",
                                        "buffer",   "coarser",   "other_lg_k", "trailing", "state"};
    return status <= HLL_STATE ? words[status] : "unknown";
}

/* Returns a status as a sentence, or "The status is unknown." for any other number. */
static inline const char *hll_message(hll_status status)
{
    static const char *const sentences[] = {
        "The call did what was asked.",
        "The bytes end inside what the header asks for.",
        "The family byte is not 7.",
        "The serial version is not 1.",
        "The lg_k byte is outside 4 to 21.",
        "The width bits are 3.",
        "The stage bits are 3.",
        "The preamble size does not fit the stage.",
        "The size of a table is outside its range.",
        "A count is above its bound, or not the number of filled buckets.",
        "A coupon has the value 0 where a coupon is needed, or comes twice.",
        "A register is above 63, or nibbles and exceptions do not agree.",
        "An argument is out of its range.",
        "An allocation failed.",
        "The buffer is smaller than what is to be written.",
        "What is to be merged has fewer registers.",
        "The sketches have different lg_k, and no lg_max_k was given.",
        "Bytes follow the image.",
        "The state was written by another version of the library.",
    };
    return status <= HLL_STATE ? sentences[status] : "The status is unknown.";
}

/* Returns whether an untrusted image is quick to read, or to reject: whether it has at most `most` bytes, and its lg_k is at most
 * `lg_k` or its header has a fault. 12 and 8192 accept ordinary images of lg_k 12, of which the slowest takes milliseconds
 * (docs/OPERATING.md, "Images from others"). Only the head is read. */
static inline int hll_is_small(const uint8_t *image, size_t len, unsigned lg_k, size_t most)
{
    hll_head head;

    return len <= most && hll_image_head(image, len, &head, sizeof head) == HLL_OK && head.lg_k <= lg_k;
}

#ifdef __cplusplus
}
#endif

#endif
