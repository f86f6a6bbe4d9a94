/* SPDX-License-Identifier: Apache-2.0 */
/*
 * Counts values by key: a table of keys, each with a counter of libhll, for the Python package (hll_sketches/_splitter.py). It also
 * splits lines with columns between separators, the common ones: a chunk with any other line is left to Python, whole.
 *
 * As in lines.c the package hands over the calls of libhll.
 */
#include "lines.h"
#include <stdlib.h>
#include <string.h>

/* A key and its sketch. The key is its parts, each after its length in four bytes. */
typedef struct entry {
    hll_counter counter;
    uint64_t hash;
    size_t size;
    uint8_t key[];
} entry;

struct rows {
    rows_calls calls;
    unsigned lg_k;
    size_t parts;
    uint64_t seed[2]; /* of the hash, so that nobody can choose keys of one hash */
    entry **entries;  /* in the order in which they came */
    size_t count, entries_room;
    entry **table; /* of 2^n buckets, of which at most half are used */
    size_t buckets;
    size_t keys_size; /* the bytes of all keys */
    size_t bytes;     /* the memory of all entries */
    uint8_t *key;     /* the key of a row */
    size_t key_room;
    rows_field *fields; /* of a row: the parts of its key and its value */
};

/* ---- SipHash-1-3 of Aumasson and Bernstein */

static uint64_t rotated(uint64_t x, int n)
{
    return x << n | x >> (64 - n);
}

static void sip_round(uint64_t v[4])
{
    v[0] += v[1], v[1] = rotated(v[1], 13) ^ v[0], v[0] = rotated(v[0], 32);
    v[2] += v[3], v[3] = rotated(v[3], 16) ^ v[2];
    v[0] += v[3], v[3] = rotated(v[3], 21) ^ v[0];
    v[2] += v[1], v[1] = rotated(v[1], 17) ^ v[2], v[2] = rotated(v[2], 32);
}

static uint64_t hash_of(const uint64_t seed[2], const uint8_t *bytes, size_t size)
{
    uint64_t v[4] = {seed[0] ^ 0x736f6d6570736575u, seed[1] ^ 0x646f72616e646f6du, seed[0] ^ 0x6c7967656e657261u,
                     seed[1] ^ 0x7465646279746573u};
    uint64_t last = (uint64_t)size << 56, word;
    for (; size >= 8; bytes += 8, size -= 8) {
        memcpy(&word, bytes, 8);
        v[3] ^= word;
        sip_round(v);
        v[0] ^= word;
    }
    word = 0;
    memcpy(&word, bytes, size);
    last |= word;
    v[3] ^= last;
    sip_round(v);
    v[0] ^= last;
    v[2] ^= 0xff;
    for (int i = 0; i < 3; i++)
        sip_round(v);
    return v[0] ^ v[1] ^ v[2] ^ v[3];
}

/* ---- the table */

rows *rows_new(const rows_calls *calls, unsigned lg_k, size_t parts, const uint64_t seed[2])
{
    rows *made = calloc(1, sizeof *made);
    if (made == NULL)
        return NULL;
    made->calls = *calls, made->lg_k = lg_k, made->parts = parts;
    made->seed[0] = seed[0], made->seed[1] = seed[1];
    made->buckets = 1024;
    made->table = calloc(made->buckets, sizeof *made->table);
    made->fields = calloc(parts + 1, sizeof *made->fields);
    if (made->table == NULL || made->fields == NULL) {
        rows_free(made);
        return NULL;
    }
    return made;
}

void rows_free(rows *all)
{
    for (size_t i = 0; i < all->count; i++) {
        all->calls.free(&all->entries[i]->counter);
        free(all->entries[i]);
    }
    free(all->entries);
    free(all->table);
    free(all->key);
    free(all->fields);
    free(all);
}

size_t rows_count(const rows *all)
{
    return all->count;
}

size_t rows_memory(const rows *all)
{
    return all->bytes + all->entries_room * sizeof *all->entries + all->buckets * sizeof *all->table;
}

size_t rows_keys_size(const rows *all)
{
    return all->keys_size;
}

void rows_keys(const rows *all, uint8_t *out)
{
    for (size_t i = 0; i < all->count; i++) {
        memcpy(out, all->entries[i]->key, all->entries[i]->size);
        out += all->entries[i]->size;
    }
}

/* Returns the bucket of a key: its own, or an empty one. */
static entry **bucket_of(entry **table, size_t buckets, uint64_t hash, const uint8_t *key, size_t size)
{
    for (size_t at = (size_t)hash & (buckets - 1);; at = (at + 1) & (buckets - 1)) {
        entry *one = table[at];
        if (one == NULL || (one->hash == hash && one->size == size && memcmp(one->key, key, size) == 0))
            return &table[at];
    }
}

/* Makes room for one more key. Returns 0 if an allocation fails. */
static int make_room(rows *all)
{
    if (all->count == all->entries_room) {
        size_t room = 2 * all->entries_room + 512;
        entry **entries = realloc(all->entries, room * sizeof *entries);
        if (entries == NULL)
            return 0;
        all->entries = entries, all->entries_room = room;
    }
    if (2 * (all->count + 1) > all->buckets) {
        size_t buckets = 4 * all->buckets;
        entry **table = calloc(buckets, sizeof *table);
        if (table == NULL)
            return 0;
        for (size_t i = 0; i < all->count; i++) {
            entry *one = all->entries[i];
            *bucket_of(table, buckets, one->hash, one->key, one->size) = one;
        }
        free(all->table);
        all->table = table, all->buckets = buckets;
    }
    return 1;
}

/* Returns the entry of a key, which is made if there is none, or NULL if an allocation fails. */
static entry *entry_of(rows *all, const uint8_t *key, size_t size)
{
    uint64_t hash = hash_of(all->seed, key, size);
    entry *one = *bucket_of(all->table, all->buckets, hash, key, size);
    if (one != NULL)
        return one;
    if (!make_room(all) || (one = malloc(sizeof *one + size)) == NULL)
        return NULL;
    one->hash = hash, one->size = size;
    memcpy(one->key, key, size);
    if (all->calls.init(&one->counter, all->lg_k, all->calls.allocator, NULL) != HLL_OK) {
        free(one);
        return NULL;
    }
    *bucket_of(all->table, all->buckets, hash, key, size) = one;
    all->entries[all->count++] = one;
    all->keys_size += size;
    all->bytes += sizeof *one + size;
    return one;
}

/* Writes the key of the fields. Returns its bytes, or SIZE_MAX if an allocation fails. */
static size_t put_key(rows *all)
{
    size_t size = 4 * all->parts, at = 0;
    for (size_t i = 0; i < all->parts; i++)
        size += all->fields[i].size;
    if (size > all->key_room) {
        uint8_t *key = realloc(all->key, 2 * size);
        if (key == NULL)
            return SIZE_MAX;
        all->key = key, all->key_room = 2 * size;
    }
    for (size_t i = 0; i < all->parts; i++) {
        uint32_t length = (uint32_t)all->fields[i].size;
        memcpy(all->key + at, &length, 4);
        memcpy(all->key + at + 4, all->fields[i].at, length);
        at += 4 + length;
    }
    return size;
}

/* Adds the value of the fields to the sketch of their key. */
static hll_status add_row(rows *all)
{
    static const uint8_t none[1];
    const rows_field *value = &all->fields[all->parts];
    size_t size = put_key(all);
    entry *one = size == SIZE_MAX ? NULL : entry_of(all, size > 0 ? all->key : none, size);
    if (one == NULL)
        return HLL_MEMORY;
    size_t before = one->counter.room;
    hll_status status = all->calls.add(&one->counter, value->at, value->size);
    all->bytes += one->counter.room - before;
    return status;
}

hll_status rows_add(rows *all, const uint8_t *bytes, const size_t *ends, size_t count)
{
    size_t begin = 0;
    for (size_t row = 0; row < count; row++) {
        for (size_t i = 0; i <= all->parts; i++) {
            size_t end = *ends++;
            all->fields[i] = (rows_field){bytes + begin, end - begin};
            begin = end;
        }
        hll_status status = add_row(all);
        if (status != HLL_OK)
            return status;
    }
    return HLL_OK;
}

/* ---- lines */

/* Cuts a part to its first characters. Returns 0 if it isn't ASCII, so that Python has to count its characters. */
static int cut(rows_field *part, size_t length)
{
    if (length == 0 || part->size <= length)
        return 1;
    for (size_t i = 0; i < part->size; i++)
        if (part->at[i] >= 0x80)
            return 0;
    part->size = length;
    return 1;
}

/* Sets the fields of a line. Returns 0 if Python has to read it. */
static int split(rows *all, const rows_rules *rules, const uint8_t *line, const uint8_t *end)
{
    for (size_t column = 0; column <= rules->last; column++) {
        const uint8_t *found = line == NULL ? NULL : memchr(line, rules->separator, (size_t)(end - line));
        if (line == NULL)
            return 0;
        for (size_t i = 0; i <= all->parts; i++)
            if (rules->places[i] == column)
                all->fields[i] = (rows_field){line, (size_t)((found != NULL ? found : end) - line)};
        line = found != NULL ? found + 1 : NULL;
    }
    for (size_t i = 0; i < all->parts; i++)
        if (!cut(&all->fields[i], rules->lengths[i]))
            return 0;
    return 1;
}

/* Returns whether no line has to be read by Python. */
static int are_common(rows *all, const rows_rules *rules, const uint8_t *line, const uint8_t *end)
{
    if (memchr(line, 0, (size_t)(end - line)) != NULL)
        return 0;
    for (const uint8_t *next;; line = next + 1) {
        next = memchr(line, '\n', (size_t)(end - line));
        const uint8_t *line_end = next != NULL ? next : end;
        if ((size_t)(line_end - line) > rules->lines.longest || !split(all, rules, line, line_end))
            return 0;
        if (next == NULL)
            return 1;
    }
}

hll_status rows_add_lines(rows *all, const uint8_t *bytes, size_t len, const rows_rules *rules, lines_sums *sums)
{
    const uint8_t *end = bytes + len;
    memset(sums, 0, sizeof *sums);
    sums->is_left = !are_common(all, rules, bytes, end);
    if (sums->is_left)
        return HLL_OK;
    for (const uint8_t *line = bytes, *next;; line = next + 1) {
        next = memchr(line, '\n', (size_t)(end - line));
        const rows_field *value = &all->fields[all->parts];
        hll_status status = HLL_OK;
        split(all, rules, line, next != NULL ? next : end);
        sums->lines++;
        sums->ending_in_cr += value->size > 0 && value->at[value->size - 1] == '\r';
        if (lines_is_missing(&rules->lines, value->at, value->size))
            sums->missing++;
        else
            status = add_row(all);
        if (status != HLL_OK || next == NULL)
            return status;
    }
}

/* ---- images */

hll_status rows_images(rows *all, const size_t *numbers, size_t count, unsigned width, uint8_t *out, size_t room,
                       size_t *ends, size_t *done)
{
    size_t at = 0, size = 0;
    for (*done = 0; *done < count; ++*done) {
        entry *one = all->entries[numbers[*done]];
        hll_status status = all->calls.settle(&one->counter);
        if (status == HLL_OK)
            status = all->calls.image(&one->counter, width, out + at, room - at, &size);
        if (status == HLL_BUFFER && *done > 0)
            return HLL_OK;
        if (status != HLL_OK)
            return status;
        at += size;
        ends[*done] = at;
    }
    return HLL_OK;
}
