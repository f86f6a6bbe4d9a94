/* SPDX-License-Identifier: Apache-2.0 */
/* Times the calls at lg_k 12, and prints two tables, of this thread's processor time. The calls run in turn, so a change of
 * load changes all of them alike. It prints the medians of the times, and of their ratios in a turn. */
#define _POSIX_C_SOURCE 199309L
#include "hll.h"

#include <stdio.h>
#include <stdlib.h>
#include <string.h>
#include <time.h>

#define LG_K 12
#define IMAGES 1000
#define VALUES 1000
#define TURNS 31

static uint8_t image[2][HLL_IMAGE_MAX(LG_K)], out[HLL_IMAGE_MAX(LG_K)], *joined;
static size_t len[2], ends[IMAGES], value_ends[VALUES], joined_len, size, failed;
static uint8_t values[8 * VALUES], width;
static uint32_t coupons[VALUES];
static uint8_t registers[1 << LG_K];
static hll_bytes parts[IMAGES];
static volatile uint64_t bytes_sum;

static void need(hll_status status)
{
    if (status != HLL_OK) {
        fprintf(stderr, "bench: %s\n", hll_reason(status));
        exit(1);
    }
}

/* ---- what is timed ---- */

static void run_union(void)
{
    need(hll_images_union(LG_K, width, joined, joined_len, ends, IMAGES, out, sizeof out, &size, &failed));
}

static void run_parts(void)
{
    need(hll_images_unionv(LG_K, width, parts, IMAGES, out, sizeof out, &size, &failed));
}

/* Merges each image into caller-owned registers, and writes their image at the end. */
static void run_join(void)
{
    uint8_t lg_k;
    size_t i;
    memset(registers, 0, sizeof registers);
    for (i = 0; i < IMAGES; i++)
        need(hll_registers_merge(registers, sizeof registers, parts[i].bytes, parts[i].len, &lg_k));
    need(hll_registers_image(registers, sizeof registers, width, out, sizeof out, &size));
}

/* Each byte of all images, eight at a time. */
static void run_bytes(void)
{
    uint64_t sum = 0, word;
    size_t i;
    for (i = 0; i + 8 <= joined_len; i += 8) {
        memcpy(&word, joined + i, 8);
        sum += word;
    }
    bytes_sum = sum;
}

static void run_add_registers(void)
{
    need(hll_registers_add(registers, sizeof registers, values, sizeof values, value_ends, VALUES));
}

static void run_merge(void)
{
    need(hll_image_merge(LG_K, width, image[0], len[0], image[1], len[1], out, sizeof out, &size, &failed));
}

static void run_read(void)
{
    need(hll_image_check(image[0], len[0]));
}

static void run_read_write(void)
{
    need(hll_image_convert(image[0], len[0], width, out, sizeof out, &size));
}

static void run_add(void)
{
    need(hll_image_add(image[0], len[0], values, sizeof values, value_ends, VALUES, out, sizeof out, &size));
}

static void run_add_none(void)
{
    need(hll_image_add(image[0], len[0], values, sizeof values, value_ends, 0, out, sizeof out, &size));
}

static void run_hash(void)
{
    need(hll_coupons(values, sizeof values, value_ends, VALUES, coupons, VALUES));
}

static void run_estimate(void)
{
    hll_estimation found;
    need(hll_estimate(image[0], len[0], &found));
}

/* ---- times ---- */

static double now(void)
{
    struct timespec time;
    clock_gettime(CLOCK_THREAD_CPUTIME_ID, &time);
    return (double)time.tv_sec * 1e9 + (double)time.tv_nsec;
}

static int compare(const void *left, const void *right)
{
    double a = *(const double *)left, b = *(const double *)right;
    return (a > b) - (a < b);
}

static double median(const double *of)
{
    double sorted[TURNS];
    memcpy(sorted, of, sizeof sorted);
    qsort(sorted, TURNS, sizeof sorted[0], compare);
    return sorted[TURNS / 2];
}

/* Returns the nanoseconds of one call, measured over n calls. */
static double timed(void (*call)(void), int rounds)
{
    double start = now();
    int round;
    for (round = 0; round < rounds; round++)
        call();
    return (now() - start) / rounds;
}

enum { UNION, PARTS, JOIN, BYTES, MERGE, READ, READ_WRITE, ADD, ADD_NONE, ADD_REGISTERS, HASH, ESTIMATE, CALLS };
enum { OF_JOIN = CALLS, OF_PARTS, OF_MERGE, OF_ADD, OF_ADD_ALONE, OF_ADD_REGISTERS, ROWS };

static const struct {
    const char *name;
    void (*call)(void);
    int rounds;
} rows[ROWS] = {
    {"union of 1,000 images, each", run_union, 2},
    {"union of 1,000 parts, each", run_parts, 2},
    {"join into caller-owned registers, each", run_join, 2},
    {"each byte read once, an image", run_bytes, 2},
    {"merge of two", run_merge, 400},
    {"read (check)", run_read, 800},
    {"read and write (convert)", run_read_write, 400},
    {"add 1,000 values", run_add, 40},
    {"add none", run_add_none, 400},
    {"add 1,000 values to caller-owned registers", run_add_registers, 40},
    {"hash 1,000 values (coupons)", run_hash, 40},
    {"estimate", run_estimate, 100},
    {"join / union", NULL, 0},
    {"parts / each byte read once", NULL, 0},
    {"merge / (two reads and a write)", NULL, 0},
    {"add / hash", NULL, 0},
    {"(add - add none) / hash", NULL, 0},
    {"add to caller-owned registers / hash", NULL, 0},
};

/* Times all calls in each turn; the medians go into a column. */
static void time_calls(double *column)
{
    static double of[ROWS][TURNS];
    int turn, row;
    for (turn = 0; turn < TURNS; turn++) {
        for (row = 0; row < CALLS; row++)
            of[row][turn] = timed(rows[row].call, rows[row].rounds);
        for (row = UNION; row <= BYTES; row++)
            of[row][turn] /= IMAGES;
        of[OF_JOIN][turn] = of[JOIN][turn] / of[UNION][turn];
        of[OF_PARTS][turn] = of[PARTS][turn] / of[BYTES][turn];
        of[OF_MERGE][turn] = of[MERGE][turn] / (of[READ][turn] + of[READ_WRITE][turn]);
        of[OF_ADD][turn] = of[ADD][turn] / of[HASH][turn];
        of[OF_ADD_ALONE][turn] = (of[ADD][turn] - of[ADD_NONE][turn]) / of[HASH][turn];
        of[OF_ADD_REGISTERS][turn] = of[ADD_REGISTERS][turn] / of[HASH][turn];
    }
    for (row = 0; row < ROWS; row++)
        column[row] = median(of[row]);
}

/* ---- images ---- */

/* Values of eight bytes from a number on. */
static void make_values(uint64_t from)
{
    size_t i, byte;
    for (i = 0; i < VALUES; i++) {
        for (byte = 0; byte < 8; byte++)
            values[8 * i + byte] = (uint8_t)((from + i) >> (8 * byte));
        value_ends[i] = 8 * (i + 1);
    }
}

/* The image of some thousand values. */
static size_t make_image(uint8_t *to, uint64_t from, int thousands)
{
    uint8_t before[HLL_IMAGE_MAX(LG_K)];
    size_t before_len, made = 0;
    need(hll_image_new(LG_K, width, before, sizeof before, &before_len));
    while (thousands-- > 0) {
        make_values(from += VALUES);
        need(hll_image_add(before, before_len, values, sizeof values, value_ends, VALUES, to, sizeof before, &made));
        memcpy(before, to, before_len = made);
    }
    return made;
}

/* Allocates the memory of a thousand images. */
static void start_joined(void)
{
    joined_len = 0;
    joined = malloc(IMAGES * sizeof out);
    if (joined == NULL)
        need(HLL_MEMORY);
}

/* A thousand images, each of twenty thousand values of its own. */
static void make_joined(void)
{
    size_t i;
    start_joined();
    for (i = 0; i < IMAGES; i++) {
        parts[i].bytes = joined + joined_len;
        parts[i].len = make_image(joined + joined_len, i * 20000, 20);
        ends[i] = joined_len += parts[i].len;
    }
}

/* ---- small sets, as they are written here and elsewhere ---- */

enum { ASCENDING, IN_PLACES, UPDATABLE, ORDERS };

#define SET_VALUES 20
#define SET_HEADER 12
#define LG_PLACES 5
#define PLACES (1 << LG_PLACES)

/* A little-endian word. */
static uint32_t word_at(const uint8_t *from)
{
    return (uint32_t)from[0] | (uint32_t)from[1] << 8 | (uint32_t)from[2] << 16 | (uint32_t)from[3] << 24;
}

/* Puts the coupons of a set into the places of its table, where searches find them. */
static void put_coupons(uint8_t places[4 * PLACES], const uint8_t *from)
{
    int i;
    memset(places, 0, 4 * PLACES);
    for (i = 0; i < SET_VALUES; i++) {
        uint32_t coupon = word_at(from + 4 * i);
        uint32_t stride = (coupon & 0x3ffffff) >> LG_PLACES | 1, place = coupon % PLACES;
        while (word_at(places + 4 * place) != 0)
            place = (place + stride) % PLACES;
        memcpy(places + 4 * place, from + 4 * i, 4);
    }
}

/* A set of twenty values from a number on, its coupons in this order. */
static size_t make_set(uint8_t *to, uint64_t from, int order)
{
    uint8_t empty[64], places[4 * PLACES];
    size_t empty_len, made, place;
    need(hll_image_new(LG_K, 8, empty, sizeof empty, &empty_len));
    make_values(from);
    need(hll_image_add(empty, empty_len, values, 8 * SET_VALUES, value_ends, SET_VALUES, to, 256, &made));
    if (order == ASCENDING)
        return made;
    put_coupons(places, to + SET_HEADER);
    if (order == UPDATABLE) {
        to[5] &= (uint8_t)~8;
        memcpy(to + SET_HEADER, places, sizeof places);
        return SET_HEADER + sizeof places;
    }
    made = SET_HEADER;
    for (place = 0; place < PLACES; place++)
        if (word_at(places + 4 * place) != 0)
            memcpy(to + made, places + 4 * place, 4), made += 4;
    return made;
}

static size_t sets_of_union;

static void run_sets(void)
{
    need(hll_images_union(LG_K, 8, joined, ends[sets_of_union - 1], ends, sets_of_union, out, sizeof out, &size, &failed));
}

/* The same values, added to caller-owned registers. */
static void run_set_joins(void)
{
    uint8_t lg_k;
    size_t i;
    memset(registers, 0, sizeof registers);
    for (i = 0; i < sets_of_union; i++)
        need(hll_registers_merge(registers, sizeof registers, joined + (i == 0 ? 0 : ends[i - 1]),
                                ends[i] - (i == 0 ? 0 : ends[i - 1]), &lg_k));
}

/* The nanoseconds of each set in a union of registers and 999 sets, less what the registers take alone. */
static double time_sets(void (*call)(void), int order)
{
    static double of[TURNS];
    size_t i;
    int turn;
    joined_len = 0;
    for (i = 0; i < IMAGES; i++)
        ends[i] = joined_len += i == 0 ? make_image(joined, 0, 20) : make_set(joined + joined_len, 100000 + i * SET_VALUES, order);
    for (turn = 0; turn < TURNS; turn++) {
        double alone;
        sets_of_union = 1;
        alone = timed(call, 20);
        sets_of_union = IMAGES;
        of[turn] = (timed(call, 20) - alone) / (IMAGES - 1);
    }
    return median(of);
}

static void print_sets(void)
{
    double united[ORDERS], into_registers[ORDERS];
    int order;
    width = 8;
    start_joined();
    for (order = 0; order < ORDERS; order++) {
        united[order] = time_sets(run_sets, order);
        into_registers[order] = time_sets(run_set_joins, order);
    }
    free(joined);
    printf("\n| sets of 20, each, in ns | ascending | in places | updatable |\n|---|---|---|---|\n");
    printf("| union into registers | %.0f | %.0f | %.0f |\n", united[0], united[1], united[2]);
    printf("| of the ascending one | | %.2f | %.2f |\n", united[1] / united[0], united[2] / united[0]);
    printf("| join into caller-owned registers | %.0f | %.0f | %.0f |\n", into_registers[0], into_registers[1],
           into_registers[2]);
}

int main(void)
{
    double columns[3][ROWS];
    int i, row;
    for (i = 0; i < 3; i++) {
        width = (uint8_t)(8 - 2 * i);
        len[0] = make_image(image[0], 1000000, 20);
        len[1] = make_image(image[1], 2000000, 20);
        make_joined();
        make_values(5000000);
        time_calls(columns[i]);
        free(joined);
    }
    printf("| lg_k 12; times in ns | 8 bits | 6 bits | 4 bits |\n|---|---|---|---|\n");
    for (row = 0; row < ROWS; row++) {
        const char *form = row < CALLS ? " %.0f |" : " %.2f |";
        printf("| %s |", rows[row].name);
        for (i = 0; i < 3; i++)
            printf(form, columns[i][row]);
        putchar('\n');
    }
    print_sets();
    return 0;
}
