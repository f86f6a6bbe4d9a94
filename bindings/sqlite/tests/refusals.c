/* SPDX-License-Identifier: Apache-2.0 */
/*
 * Refuses each request for memory in turn: refusals EXTENSION. Requests are those of the extension and of SQLite, and those
 * that the library makes by malloc while it runs. Each query ends as without memory, or as it does with all of it, and has
 * given back what it took. The last line is 'N passed, M failed'.
 */
#define _GNU_SOURCE
#include <dlfcn.h>
#include <sqlite3.h>
#include <stdint.h>
#include <stdio.h>
#include <stdlib.h>
#include <string.h>

static long left = -1;      /* how many requests are granted yet; -1: all */
static int is_lasting;      /* whether those after the first that is refused are refused too */
static long refused, held;  /* how many were refused; how many blocks are held */
static int passed, failed;

/* ---- malloc for all of this process; before dlsym has answered, out of a heap of its own */

static void *(*next_malloc)(size_t);
static void *(*next_realloc)(void *, size_t);
static void (*next_free)(void *);
static _Alignas(16) char early[1 << 16];
static size_t early_used;

static int is_early(const void *block)
{
    return (uintptr_t)block >= (uintptr_t)early && (uintptr_t)block < (uintptr_t)(early + sizeof early);
}

static int is_refused(void)
{
    if (left < 0 || left-- > 0)
        return 0;
    left = is_lasting ? 0 : -1;
    refused++;
    return 1;
}

static void find_next(void)
{
    if (next_free != NULL)
        return;
    *(void **)&next_malloc = dlsym(RTLD_NEXT, "malloc");
    *(void **)&next_realloc = dlsym(RTLD_NEXT, "realloc");
    *(void **)&next_free = dlsym(RTLD_NEXT, "free");
}

void *malloc(size_t size)
{
    void *block;

    if (next_malloc == NULL) {
        static int finding;
        if (finding || early_used + size + 16 > sizeof early) {
            block = early + early_used;
            early_used += (size + 15) / 16 * 16;
            return block;
        }
        finding = 1;
        find_next();
    }
    if (is_refused())
        return NULL;
    block = next_malloc(size);
    held += block != NULL;
    return block;
}

void *calloc(size_t n, size_t size)
{
    void *block = malloc(n * size);

    if (block != NULL)
        memset(block, 0, n * size);
    return block;
}

void *realloc(void *block, size_t size)
{
    if (block == NULL)
        return malloc(size);
    if (is_refused())
        return NULL;
    return next_realloc(block, size);
}

void free(void *block)
{
    if (block == NULL || is_early(block))
        return;
    held--;
    next_free(block);
}

/* ---- queries */

static const char *const queries[] = {
    "SELECT hll_image_add_agg(i) FROM few",
    "SELECT hll_image_add_agg(i) FROM some",
    "SELECT hll_image_add_agg(x, 11, 4) FROM many",
    "SELECT count(i) FROM (SELECT hll_image_add_agg(x) AS i FROM many GROUP BY g)",
    "SELECT hll_image_union_agg(image, 12) FROM images",
    "SELECT hll_image_union_agg(image, 9, 6) FROM images",
    "SELECT hll_image_union_agg(image) FROM own",
    "SELECT count(i) FROM (SELECT hll_image_union_agg(image, 12, 4) AS i FROM images GROUP BY n % 3)",
    "SELECT hyperloglog_agg(x, 9), hyperloglog_union_agg(x'0201070c030c0008') FROM many",
    "SELECT hll_count_distinct(i), hll_count_distinct(i, 14) FROM some",
    "SELECT hll_count_distinct(i) OVER (ORDER BY i), hll_add_agg(i) OVER (ORDER BY i) FROM few",
    "SELECT hll_union_agg(image, 9) OVER (ORDER BY n) FROM images",
    "SELECT hll_add(image, 'one more'), hll_add(image, 7.5) FROM images",
    "SELECT hll_fold(image, 5) FROM images",
    "SELECT hll_convert(image, 4) FROM images",
    "SELECT hll_set_estimator_fields(image) FROM images",
    "SELECT hll_merge(image, hll_image_empty(9)) FROM images",
    "SELECT hll_merge(a.image, b.image, 12) FROM images a, images b",
    "SELECT hll_merge(a.image, b.image) FROM images a, images b WHERE a.n IN (1, 2, 5) AND b.n IN (1, 2, 5)",
    "SELECT hll_agree(image, hll_image_empty(9)) FROM images",
    "SELECT hll_info(image) FROM images",
    "SELECT hll_fault(image), hll_is_image(image), hll_first_image(image) FROM images",
    "SELECT hll_estimate(image), hll_estimate_bounds(image, 3), hll_hip_estimate(image) FROM images",
};

static const char made[] =
    "CREATE TEMP TABLE few AS WITH RECURSIVE n (i) AS (SELECT 1 UNION ALL SELECT i + 1 FROM n WHERE i < 5) SELECT i FROM n;"
    "CREATE TEMP TABLE some AS WITH RECURSIVE n (i) AS (SELECT 1 UNION ALL SELECT i + 1 FROM n WHERE i < 2000) SELECT i FROM n;"
    "CREATE TEMP TABLE many AS SELECT 'value ' || i * i AS x, i % 4 AS g FROM some;"
    "CREATE TEMP TABLE images (n, image);"
    "INSERT INTO images SELECT 1, hll_image_add_agg(i) FROM few;"
    "INSERT INTO images SELECT 2, hll_image_add_agg(i, 12, 4) FROM (SELECT i FROM some LIMIT 100);"
    "INSERT INTO images SELECT 3, hll_image_add_agg(i, 10, 6) FROM some;"
    "INSERT INTO images SELECT 4, hll_image_add_agg(i, 9, 4) FROM some;"
    "INSERT INTO images SELECT 5, hll_image_add_agg(i, 12, 8) FROM some;"
    "CREATE TEMP TABLE own AS SELECT hll_image_add_agg(i) AS image FROM some GROUP BY i % 100;";

/* A word of what a query answers, or -1 with its code. */
static long long answer_of(sqlite3 *db, const char *query, int *code)
{
    sqlite3_stmt *statement = NULL;
    long long word = 7;
    int at, i;

    *code = sqlite3_prepare_v2(db, query, -1, &statement, NULL);
    while (*code == SQLITE_OK && (*code = sqlite3_step(statement)) == SQLITE_ROW) {
        *code = SQLITE_OK;
        for (i = 0; i < sqlite3_column_count(statement); i++) {
            const unsigned char *bytes = sqlite3_column_blob(statement, i);
            int size = sqlite3_column_bytes(statement, i);
            if (bytes == NULL && size > 0)
                *code = SQLITE_NOMEM;
            for (at = 0; bytes != NULL && at < size; at++)
                word = (long long)((unsigned long long)word * 1099511628211u ^ bytes[at]);
        }
    }
    if (*code == SQLITE_DONE)
        *code = SQLITE_OK;
    sqlite3_finalize(statement);
    return word;
}

static void count(int is_right, const char *query, const char *what, long number)
{
    passed += is_right;
    failed += !is_right;
    if (!is_right)
        printf("%s: %s at request %ld\n", query, what, number);
}

/* Refuses the requests of a query in turn. */
static void refuse_each(sqlite3 *db, const char *query, long long wanted)
{
    int code;
    long number, before, last;

    for (number = 0, last = -1; number < 100000 && last != 0; number++) {
        long long found;
        before = held;
        refused = 0;
        left = number;
        found = answer_of(db, query, &code);
        left = -1;
        last = refused;
        count(code == SQLITE_NOMEM || (code == SQLITE_OK && found == wanted), query, sqlite3_errstr(code), number);
        sqlite3_db_release_memory(db);
        count(held <= before + 8, query, "memory is kept", number);
    }
    count(number > 3, query, "no request", number);
    count(answer_of(db, query, &code) == wanted && code == SQLITE_OK, query, "another answer afterwards", number);
}

/* Each request alone, then each with all that follow. */
static void try_query(sqlite3 *db, const char *query)
{
    int code;
    long long wanted = answer_of(db, query, &code);

    count(code == SQLITE_OK, query, sqlite3_errmsg(db), -1);
    for (is_lasting = 0; is_lasting < 2; is_lasting++)
        refuse_each(db, query, wanted);
}

int main(int argc, char **argv)
{
    sqlite3 *db;
    char *error = NULL;
    size_t i;

    (void)argc;
    sqlite3_config(SQLITE_CONFIG_LOOKASIDE, 0, 0);
    if (sqlite3_open(":memory:", &db) != SQLITE_OK || sqlite3_enable_load_extension(db, 1) != SQLITE_OK ||
        sqlite3_load_extension(db, argv[1], NULL, &error) != SQLITE_OK || sqlite3_exec(db, made, NULL, NULL, &error) != SQLITE_OK) {
        printf("%s\n", error ? error : "SQLite can't be opened");
        return 1;
    }
    for (i = 0; i < sizeof queries / sizeof *queries; i++)
        try_query(db, queries[i]);
    sqlite3_close(db);
    count(sqlite3_memory_used() == 0, "at the end", "memory of SQLite's is kept", (long)sqlite3_memory_used());
    printf("%d passed, %d failed\n", passed, failed);
    return failed != 0;
}
