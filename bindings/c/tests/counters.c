/* SPDX-License-Identifier: Apache-2.0 */
/* Counters against a plain model: an image, changed by hll_image_add and hll_image_merge. Each allocation fails in turn.
 * Arguments: the number of walks, the first seed. */
#include "test.h"

/* ---- an allocator that fails */

typedef struct heap {
    long live;     /* blocks */
    long fails_at; /* the allocation that fails, counted from now on; 0: none */
} heap;

/* Each block begins with its size. What is made smaller moves. */
static void *allocate(void *context, void *memory, size_t size)
{
    heap *of = context;
    size_t *block = memory == NULL ? NULL : (size_t *)memory - 2, *made = NULL;
    CHECK(block == NULL ? size > 0 : size < *block, "%zu bytes are asked for, of %zu", size, block == NULL ? 0 : *block);
    if (size > 0 && of->fails_at != 0 && --of->fails_at == 0)
        return NULL;
    if (size > 0) {
        made = calloc(1, size + 2 * sizeof *made); /* sum_of reads all of it */
        need(made != NULL, "memory");
        *made = size;
        if (block != NULL)
            memcpy(made + 2, memory, size);
    }
    of->live += (made != NULL) - (block != NULL);
    free(block);
    return made == NULL ? NULL : made + 2;
}

static uint64_t seed;

static uint32_t pick(uint32_t n)
{
    seed = seed * UINT64_C(6364136223846793005) + UINT64_C(1442695040888963407);
    return (uint32_t)((seed >> 33) % n);
}

/* ---- the model */

#define MOST (HLL_IMAGE_MAX(14))

typedef struct model {
    unsigned lg_max_k;
    int is_begun; /* whether its lg_k is decided */
    uint8_t image[MOST];
    size_t len;
} model;

static int is_empty_image(const uint8_t *image, size_t len)
{
    hll_info info;
    need(hll_image_info(image, len, &info, sizeof info) == HLL_OK, "info");
    return info.is_empty;
}

static void model_init(model *m, unsigned lg_k)
{
    m->lg_max_k = lg_k;
    m->is_begun = lg_k != 0;
    need(hll_image_new(lg_k == 0 ? 4 : lg_k, 8, m->image, MOST, &m->len) == HLL_OK, "new");
}

static hll_status model_add(model *m, const uint8_t *values, size_t values_len, const size_t *ends, size_t n)
{
    static uint8_t out[MOST];
    size_t len;
    hll_status status;
    if (!m->is_begun)
        return HLL_ARGUMENT;
    status = hll_image_add(m->image, m->len, values, values_len, ends, n, out, MOST, &len);
    if (status == HLL_OK)
        memcpy(m->image, out, m->len = len);
    return status;
}

static hll_status model_join(model *m, const uint8_t *image, size_t len)
{
    static uint8_t out[MOST], empty[8];
    size_t made, empty_len;
    unsigned lg_max_k = m->lg_max_k == 0 ? 0 : m->image[3];
    hll_status status = hll_image_check(image, len);
    if (status != HLL_OK)
        return status;
    if (lg_max_k == 0) {
        unsigned ours = m->image[3], theirs = image[3];
        int is_empty = is_empty_image(m->image, m->len);
        if (is_empty_image(image, len)) {
            if (is_empty && ours < theirs)
                need(hll_image_new(theirs, 8, m->image, MOST, &m->len) == HLL_OK, "new");
            return HLL_OK;
        }
        if (!is_empty && ours != theirs)
            return HLL_OTHER_LG_K;
        lg_max_k = theirs;
        if (is_empty) {
            need(hll_image_new(theirs, 8, empty, sizeof empty, &empty_len) == HLL_OK, "new");
            memcpy(m->image, empty, m->len = empty_len);
        }
    }
    status = hll_image_merge(lg_max_k, 8, m->image, m->len, image, len, out, MOST, &made, NULL);
    need(status == HLL_OK, "merge");
    memcpy(m->image, out, m->len = made);
    m->is_begun = 1;
    return status;
}

/* ---- values and images */

static uint8_t values[8 * 4096];
static size_t ends[4096];

static void fill(size_t n, uint32_t universe)
{
    size_t i;
    for (i = 0; i < n; i++) {
        uint64_t value = pick(universe);
        memcpy(values + 8 * i, &value, 8);
        ends[i] = 8 * (i + 1);
    }
}

static size_t any_size(void)
{
    switch (pick(8)) {
    case 0:
        return 0;
    case 1:
        return pick(400);
    case 2:
        return pick(4000);
    default:
        return pick(24);
    }
}

static size_t any_image(uint8_t *out, unsigned lg_k, unsigned width)
{
    static uint8_t empty[8];
    size_t len, n = any_size();
    need(hll_image_new(lg_k, width, empty, sizeof empty, &len) == HLL_OK, "new");
    fill(n, 1u << (4 + pick(14)));
    need(hll_image_add(empty, len, values, 8 * n, ends, n, out, MOST, &len) == HLL_OK, "add");
    if (head_of(out, len).stage == HLL_REGISTERS && pick(2) == 0) { /* as another program writes it, with a HIP estimate */
        double hip = (double)n;
        out[5] &= (uint8_t)~16;
        memcpy(out + 8, &hip, 8);
    }
    return len;
}

/* ---- comparing */

static int is_model(const hll_counter *counter, const model *m, int deep)
{
    static uint8_t out[MOST], wanted[MOST];
    hll_estimation ours, theirs;
    hll_state_summary said;
    size_t size = 0, len;
    unsigned width = 4 + 2 * pick(3);
    if (hll_counter_image(counter, width, out, MOST, &size) != HLL_OK)
        return 0;
    need(hll_image_convert(m->image, m->len, width, wanted, MOST, &len) == HLL_OK, "convert");
    if (size != len || memcmp(out, wanted, len) != 0)
        return 0;
    need(hll_counter_info(counter, &said, sizeof said) == HLL_OK, "info");
    if (said.is_empty != is_empty_image(m->image, m->len) || said.lg_k != m->image[3] || said.is_open != !m->is_begun)
        return 0;
    if (deep) {
        need(hll_estimate(m->image, m->len, &theirs) == HLL_OK, "estimate");
        if (hll_counter_estimate(counter, &ours) != HLL_OK || memcmp(&ours, &theirs, sizeof ours) != 0)
            return 0;
    }
    return 1;
}

/* ---- a walk */

enum {
    ADD,
    ADD_MANY,
    ADD_COUPONS,
    JOIN,
    JOIN_COUNTER,
    BIND,
    COPY,
    SETTLE,
    RESERVE,
    SHRINK,
    RESET,
    FREE,
    IMAGE,
    ESTIMATE,
    N_KINDS
};
static long failures[N_KINDS], done[N_KINDS];

static uint8_t image[MOST], unwanted[MOST];
static size_t image_len;
static size_t n_values;
static uint32_t coupons[4096];
static unsigned bound;

static hll_status act(int kind, hll_counter *counter, hll_counter *other)
{
    hll_estimation found;
    size_t size;
    switch (kind) {
    case ADD:
        return hll_counter_add(counter, values, 8);
    case ADD_MANY:
        return hll_counter_add_many(counter, values, 8 * n_values, ends, n_values);
    case ADD_COUPONS:
        return hll_counter_add_coupons(counter, coupons, n_values);
    case JOIN:
        return hll_counter_join(counter, image, image_len);
    case JOIN_COUNTER:
        return hll_counter_join_counter(counter, other);
    case BIND:
        return hll_counter_bind(counter, bound);
    case COPY:
        return hll_counter_copy(counter, other);
    case SETTLE:
        return hll_counter_settle(counter);
    case RESERVE:
        return hll_counter_reserve(counter);
    case SHRINK:
        hll_counter_shrink(counter);
        return HLL_OK;
    case RESET:
        hll_counter_reset(counter);
        return HLL_OK;
    case FREE:
        hll_counter_free(counter);
        return HLL_OK;
    case IMAGE:
        return hll_counter_image(counter, 8, unwanted, MOST, &size);
    default:
        return hll_counter_estimate(counter, &found);
    }
}

static hll_status model_act(int kind, model *m, const model *other)
{
    switch (kind) {
    case ADD:
        return model_add(m, values, 8, ends, 1);
    case ADD_MANY:
    case ADD_COUPONS:
        return model_add(m, values, 8 * n_values, ends, n_values);
    case JOIN:
        return model_join(m, image, image_len);
    case JOIN_COUNTER:
        return model_join(m, other->image, other->len);
    case BIND:
        if (bound != 0 && (bound < 4 || 21 < bound || (m->is_begun && bound < m->image[3])))
            return HLL_ARGUMENT;
        m->lg_max_k = bound;
        if (!m->is_begun && bound != 0)
            model_init(m, bound);
        return HLL_OK;
    case COPY:
        *m = *other;
        return HLL_OK;
    case RESERVE:
        return m->is_begun ? HLL_OK : HLL_ARGUMENT;
    case RESET:
    case FREE:
        model_init(m, m->lg_max_k);
        return HLL_OK;
    default:
        return HLL_OK;
    }
}

/* The blocks that a counter has. */
static long blocks_of(const hll_counter *counter)
{
    return counter->room != 0;
}

/* A checksum of a counter and of its memory, which no call on a const counter changes. */
static uint64_t sum_of(const hll_counter *counter)
{
    const uint8_t *parts[2] = {(const uint8_t *)counter, counter->at.state};
    const size_t sizes[2] = {sizeof *counter, counter->room};
    uint64_t sum = UINT64_C(0xcbf29ce484222325);
    size_t i, part;
    for (part = 0; part < 2; part++)
        for (i = 0; i < sizes[part]; i++)
            sum = (sum ^ parts[part][i]) * UINT64_C(0x100000001b3);
    return sum;
}

/* The bytes that the state of a counter takes. */
static size_t size_of(const hll_counter *counter)
{
    hll_state_summary said;
    need(hll_counter_info(counter, &said, sizeof said) == HLL_OK, "what a counter says");
    return (size_t)said.size;
}

static void walk(int steps)
{
    static model models[2];
    static heap heaps[2];
    hll_counter counters[2];
    static const unsigned lg_ks[] = {0, 4, 5, 7, 8, 10, 12, 14};
    unsigned usual = lg_ks[1 + pick(7)];
    int i, step;
    for (i = 0; i < 2; i++) {
        unsigned lg_k = pick(3) == 0 ? 0 : pick(3) == 0 ? lg_ks[1 + pick(7)] : usual;
        memset(&heaps[i], 0, sizeof heaps[i]);
        memset(&counters[i], 0, sizeof counters[i]); /* with what is between members, since sum_of reads it */
        CHECK(hll_counter_init(&counters[i], lg_k, allocate, &heaps[i]) == HLL_OK, "init");
        model_init(&models[i], lg_k);
    }
    for (step = 0; step < steps; step++) {
        int at = (int)pick(2), kind = pick(2) == 0 ? ADD : (int)pick(N_KINDS),
            repeats = kind == ADD ? 1 + (int)pick(40) : 1;
        hll_counter *counter = &counters[at], *other = &counters[1 - at];
        model *m = &models[at];
        heap *of = &heaps[at];
        if ((kind == FREE || kind == RESET) && pick(4) != 0)
            continue;
        if (kind == JOIN) {
            image_len = any_image(image, pick(6) == 0 ? lg_ks[1 + pick(7)] : usual, 4 + 2 * pick(3));
            if (pick(10) == 0 && image_len > 8)
                image_len--;
        }
        while (repeats-- > 0) {
            static model before, after;
            long attempt;
            int kept_room = 0;
            heap *failing = kind == JOIN_COUNTER && pick(2) == 0 ? &heaps[1 - at] : of; /* the other one is copied */
            hll_status wanted;
            bound = pick(3) == 0 ? pick(24) : lg_ks[pick(8)];
            n_values = any_size();
            fill(n_values > 0 ? n_values : 1, 1u << (4 + pick(14)));
            for (i = 0; i < (int)n_values; i++)
                coupons[i] = hll_coupon(values + 8 * i, 8);
            before = after = *m;
            wanted = model_act(kind, &after, &models[1 - at]);
            for (attempt = 1;; attempt++) {
                const hll_counter *read = kind == IMAGE || kind == ESTIMATE ? counter : other;
                const uint64_t sum = sum_of(read);
                hll_status status;
                failing->fails_at = attempt;
                status = act(kind, counter, other);
                CHECK(sum_of(read) == sum, "kind %d changed a counter that it only reads", kind);
                if (failing->fails_at == 0 && status == HLL_MEMORY) {
                    failures[kind]++;
                    CHECK(is_model(counter, &before, 1), "kind %d, attempt %ld", kind, attempt);
                    CHECK(of->live == blocks_of(counter), "a block is lost, kind %d", kind);
                    need(attempt < 100, "an end of failures");
                    continue;
                }
                kept_room = failing->fails_at == 0;
                failing->fails_at = 0;
                CHECK(status == wanted, "kind %d: %d, not %d", kind, status, wanted);
                done[kind]++;
                break;
            }
            *m = after;
            CHECK(is_model(counter, m, pick(4) == 0), "kind %d, step %d, lg_k %u, len %zu", kind, step, m->lg_max_k,
                  m->len);
            CHECK(of->live == blocks_of(counter), "live %ld", of->live);
            if (kind == SHRINK && counter->room != 0 && !kept_room)
                CHECK(counter->room == size_of(counter), "room %lu", (unsigned long)counter->room);
        }
    }
    for (i = 0; i < 2; i++) {
        hll_counter_free(&counters[i]);
        CHECK(heaps[i].live == 0, "%ld blocks left", heaps[i].live);
    }
}

static void test_refused_coupons(void)
{
    static const size_t sizes[] = {0, 10, 20, 1000};
    size_t i, n, size;
    for (i = 0; i < 4; i++)
        for (n = 1; n <= 40; n += 13) {
            uint32_t given[40];
            uint8_t before[HLL_IMAGE_MAX(8)], after[HLL_IMAGE_MAX(8)];
            size_t before_len;
            hll_counter counter;
            hll_counter_init(&counter, 8, NULL, NULL);
            fill(sizes[i] > 0 ? sizes[i] : 1, 1u << 30);
            CHECK(hll_counter_add_many(&counter, values, 8 * sizes[i], ends, sizes[i]) == HLL_OK, "add_many");
            for (size = 0; size < n; size++)
                given[size] = UINT32_C(1) << 26 | (uint32_t)size;
            given[n - 1] = 5;
            hll_counter_image(&counter, 8, before, sizeof before, &before_len);
            CHECK(hll_counter_add_coupons(&counter, given, n) == HLL_ARGUMENT, "a coupon of the value 0");
            hll_counter_image(&counter, 8, after, sizeof after, &size);
            CHECK(size == before_len && memcmp(before, after, size) == 0, "unchanged");
            CHECK(hll_counter_image(&counter, 5, after, sizeof after, &size) == HLL_ARGUMENT, "a width of 5");
            hll_counter_free(&counter);
        }
    {
        hll_counter counter;
        CHECK(hll_counter_init(&counter, 3, NULL, NULL) == HLL_ARGUMENT &&
                  hll_counter_init(&counter, 22, NULL, NULL) == HLL_ARGUMENT &&
                  hll_counter_init(&counter, 268, NULL, NULL) == HLL_ARGUMENT,
              "an lg_k out of its range");
    }
}

/* Adds values one by one, `distinct` of them distinct, and returns the most bytes that the counter then had allocated. */
static size_t most_room(hll_counter *counter, uint64_t values, uint64_t distinct)
{
    uint64_t i;
    size_t most = 0;
    for (i = 0; i < values; i++) {
        const uint64_t value = i % distinct;
        need(hll_counter_add(counter, (const uint8_t *)&value, sizeof value) == HLL_OK, "a value");
        most = counter->room > most ? counter->room : most;
    }
    return most;
}

/* A counter has no more room than its largest set needs, as long as its values are few for a set, and then that of registers. */
static void test_room(void)
{
    hll_counter counter;
    hll_counter_init(&counter, 12, NULL, NULL);
    CHECK(most_room(&counter, HLL_COUNTER_COUPONS, 1000) == 0, "the first values are in the struct");
    CHECK(most_room(&counter, 384, 1000) <= 40 + 4 * 384, "384 values");
    hll_counter_free(&counter);
    CHECK(most_room(&counter, 5000, 5000) <= 40 + 4096, "5,000 values");
    CHECK(counter.room == 40 + 4096, "%lu bytes for registers", (unsigned long)counter.room);
    hll_counter_free(&counter);
    CHECK(most_room(&counter, 50000, 340) <= 40 + 4 * 384, "340 values that repeat");
    hll_counter_free(&counter);
    CHECK(hll_counter_reserve(&counter) == HLL_OK && counter.room == HLL_STATE_MOST(12), "reserved");
    CHECK(most_room(&counter, 5000, 5000) == HLL_STATE_MOST(12) && counter.room == HLL_STATE_MOST(12), "room that was reserved");
    hll_counter_shrink(&counter);
    CHECK(counter.room == 40 + 4096, "%lu bytes after a shrink", (unsigned long)counter.room);
    hll_counter_reset(&counter);
    need(hll_counter_add(&counter, values, 8) == HLL_OK, "a value");
    hll_counter_shrink(&counter);
    CHECK(counter.room == 0, "one value is in the struct");
    hll_counter_free(&counter);
}

/* After hll_counter_reserve adding allocates and frees nothing, whatever the counter had before, and after a merge, too. */
static void test_reserved(void)
{
    static const size_t sizes[] = {0, 5, 100, 384, 4000};
    static heap of;
    size_t i;
    for (i = 0; i < 5; i++) {
        hll_counter counter;
        hll_counter_init(&counter, 12, allocate, &of);
        fill(sizes[i] > 0 ? sizes[i] : 1, 1u << 30);
        need(hll_counter_add_many(&counter, values, 8 * sizes[i], ends, sizes[i]) == HLL_OK, "values");
        CHECK(hll_counter_reserve(&counter) == HLL_OK, "reserve");
        of.fails_at = 1;
        need(hll_image_new(12, 8, image, MOST, &image_len) == HLL_OK, "new");
        need(hll_counter_join(&counter, image, image_len) == HLL_OK, "an empty image");
        (void)most_room(&counter, 5000, 5000);
        CHECK(of.fails_at == 1, "%zu values before: an allocation after it was reserved", sizes[i]);
        of.fails_at = 0;
        hll_counter_reset(&counter);
        CHECK(most_room(&counter, 5000, 5000) <= HLL_STATE_MOST(12) && counter.room == 40 + 4096, "after a reset it is trimmed again");
        hll_counter_free(&counter);
    }
    CHECK(of.live == 0, "%ld blocks left", of.live);
}

/* A settled counter of many coupons is merged into another without a copy of it. */
static void test_settled(void)
{
    static heap of;
    hll_counter settled, all;
    hll_counter_init(&settled, 18, allocate, &of);
    hll_counter_init(&all, 18, NULL, NULL);
    (void)most_room(&settled, 2000, 2000);
    need(hll_counter_settle(&settled) == HLL_OK, "settle");
    of.fails_at = 1;
    CHECK(hll_counter_join_counter(&all, &settled) == HLL_OK && of.fails_at == 1, "a copy of a settled counter");
    hll_counter_free(&settled);
    hll_counter_free(&all);
}

/* The 8-bit image of a counter of lg_k 12. */
static bytes image_of_counter(const hll_counter *counter)
{
    bytes made = with_room(HLL_IMAGE_MAX(12));
    need(hll_counter_image(counter, 8, made.at, made.len, &made.len) == HLL_OK, "the image of a counter");
    return made;
}

static int same_bytes(bytes one, bytes other)
{
    const int is_same = one.len == other.len && memcmp(one.at, other.at, one.len) == 0;
    free(one.at);
    free(other.at);
    return is_same;
}

/* A copy of few and of many values has the same image, and then neither changes with the other. */
static void life_copied(void)
{
    static const size_t sizes[] = {0, 5, 100, 5000};
    for (size_t i = 0; i < 4; i++) {
        hll_counter one, copy;
        hll_counter_init(&one, 12, NULL, NULL);
        hll_counter_init(&copy, 12, NULL, NULL);
        for (uint64_t value = 0; value < sizes[i]; value++)
            need(hll_counter_add(&one, (const uint8_t *)&value, sizeof value) == HLL_OK, "a value");
        bytes before = image_of_counter(&one);
        CHECK(hll_counter_copy(&copy, &one) == HLL_OK && same_bytes(image_of_counter(&copy), image_of_counter(&one)),
              "a copy");
        for (uint64_t value = 1; value < 500; value++)
            need(hll_counter_add(&copy, (const uint8_t *)&value, 7) == HLL_OK, "a value of the copy");
        CHECK(!same_bytes(image_of_counter(&copy), image_of_counter(&one)), "the copy changed");
        hll_counter_free(&copy);
        CHECK(same_bytes(image_of_counter(&one), before), "the other one did not");
        hll_counter_free(&one);
    }
}

/* A counter that was freed is a new one. */
static void life_closed(void)
{
    hll_counter one, other;
    hll_counter_init(&one, 12, NULL, NULL);
    hll_counter_init(&other, 12, NULL, NULL);
    for (uint64_t value = 0; value < 500; value++)
        need(hll_counter_add(&one, (const uint8_t *)&value, sizeof value) == HLL_OK, "a value");
    hll_counter_free(&one);
    hll_counter_free(&one);
    CHECK(same_bytes(image_of_counter(&one), image_of_counter(&other)), "without values");
    CHECK(hll_counter_add(&one, (const uint8_t *)"ann", 3) == HLL_OK &&
              hll_counter_add(&other, (const uint8_t *)"ann", 3) == HLL_OK &&
              same_bytes(image_of_counter(&one), image_of_counter(&other)),
          "with one");
    hll_counter_free(&one);
    hll_counter_free(&other);
}

int main(int argc, char **argv)
{
    long walks = argc > 1 ? atol(argv[1]) : 200, i;
    uint64_t first = argc > 2 ? (uint64_t)atol(argv[2]) : 1;
    test_refused_coupons();
    test_room();
    test_reserved();
    test_settled();
    life_copied();
    life_closed();
    for (i = 0; i < walks; i++) {
        seed = (first + (uint64_t)i) * UINT64_C(0x9E3779B97F4A7C15);
        walk(60);
    }
    for (i = 0; i < N_KINDS && walks >= 100; i++)
        CHECK(done[i] > 0 &&
                  (i >= IMAGE || i == RESET || i == FREE || i == SHRINK || i == SETTLE || i == BIND || failures[i] > 0),
              "kind %ld never failed", i);
    return finish("counters");
}
