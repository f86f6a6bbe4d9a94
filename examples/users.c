/* SPDX-License-Identifier: Apache-2.0 */
/* Counts the distinct users of each key: reads lines "key user", and prints a line "estimate key" for each key.
 *     cc -I../bindings/c -o users users.c ../bindings/c/build/libhll.a */
#define _POSIX_C_SOURCE 200809L
#include <hll.h>

#include <search.h>
#include <stdio.h>
#include <stdlib.h>
#include <string.h>

struct counted {
    char key[64];
    hll_counter users;
};

static int by_key(const void *a, const void *b)
{
    return strcmp(((const struct counted *)a)->key, ((const struct counted *)b)->key);
}

static void print(const void *node, VISIT visit, int depth)
{
    const struct counted *counted = *(struct counted *const *)node;
    hll_estimation found;
    (void)depth;
    if ((visit == postorder || visit == leaf) && hll_counter_estimate(&counted->users, &found) == HLL_OK)
        printf("%.0f %s\n", found.estimate, counted->key);
}

/* Returns the counter of a key in the tree, which is new if there is none, or NULL if an allocation fails. */
static hll_counter *users_of(void **tree, const struct counted *wanted)
{
    struct counted **found = tfind(wanted, tree, by_key), *made = NULL;
    if (found == NULL && (made = malloc(sizeof *made)) != NULL) {
        *made = *wanted;
        (void)hll_counter_init(&made->users, 12, NULL, NULL);
        found = tsearch(made, tree, by_key);
    }
    return found == NULL ? NULL : &(*found)->users;
}

int main(void)
{
    static struct counted wanted;
    hll_counter *users;
    void *tree = NULL;
    char user[64];
    while (scanf("%63s %63s", wanted.key, user) == 2) {
        users = users_of(&tree, &wanted);
        if (users == NULL || hll_counter_add(users, (const uint8_t *)user, strlen(user)) != HLL_OK)
            return 1;
    }
    twalk(tree, print);
    return 0;
}
