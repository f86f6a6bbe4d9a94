/* SPDX-License-Identifier: Apache-2.0 */
/* See counters.py. */
#define _POSIX_C_SOURCE 199309L
#include "hll_state.h"

#include <stdio.h>
#include <stdlib.h>
#include <string.h>
#include <time.h>

#define TURNS 15
#define ALL 2000000

static double now(void)
{
    struct timespec time;
    clock_gettime(CLOCK_PROCESS_CPUTIME_ID, &time);
    return (double)time.tv_sec * 1e9 + (double)time.tv_nsec;
}

static void need(hll_status status)
{
    if (status != HLL_OK)
        exit(1);
}

/* A value that no other number gives. */
static uint64_t value_of(uint64_t number)
{
    return number * UINT64_C(0x9e3779b97f4a7c15);
}

static size_t count(uint64_t first, uint64_t n)
{
    hll_counter counter;
    uint64_t i;
    size_t room;
    need(hll_counter_init(&counter, 12, NULL, NULL));
    for (i = 0; i < n; i++) {
        uint64_t value = value_of(first + i);
        need(hll_counter_add(&counter, (const uint8_t *)&value, sizeof value));
    }
    room = counter.room;
    hll_counter_free(&counter);
    return room;
}

static size_t count_in_state(uint64_t first, uint64_t n)
{
    size_t room = HLL_STATE_NEW, size;
    void *state = malloc(room);
    uint64_t i;
    if (state == NULL)
        exit(1);
    need(hll_state_new(12, state, room));
    for (i = 0; i < n; i++) {
        uint64_t value = value_of(first + i);
        hll_status status;
        while ((status = hll_state_add_value(state, room, &size, (const uint8_t *)&value, sizeof value)) == HLL_BUFFER)
            if ((state = realloc(state, room = size)) == NULL)
                exit(1);
        need(status);
    }
    free(state);
    return room;
}

/* Returns the least time a value of several turns, and sets the bytes that n values take. */
static double timed(size_t (*call)(uint64_t first, uint64_t n), uint64_t n, size_t *room)
{
    double least = 1e9;
    int turn;
    for (turn = 0; turn < TURNS; turn++) {
        uint64_t rounds = ALL / n + 1, round;
        double start = now(), each;
        for (round = 0; round < rounds; round++)
            *room = call(round * n, n);
        each = (now() - start) / (double)(rounds * n);
        least = each < least ? each : least;
    }
    return least;
}

int main(int argc, char **argv)
{
    static const uint64_t numbers[] = {1, 7, 16, 20, 100, 300, 1000, 100000};
    size_t i;
    if (argc > 1 && strcmp(argv[1], "alone") == 0) {
        for (i = 0; i < sizeof numbers / sizeof *numbers; i++) {
            size_t room;
            printf("%.1f\n", timed(count, numbers[i], &room));
        }
        return 0;
    }
    printf("| values | counter, ns a value | state, ns a value | counter, bytes allocated | state, bytes allocated "
           "|\n|---|---|---|---|---|\n");
    for (i = 0; i < sizeof numbers / sizeof *numbers; i++) {
        size_t room, room_of_state;
        double counter = timed(count, numbers[i], &room), state = timed(count_in_state, numbers[i], &room_of_state);
        printf("| %lu | %.1f | %.1f | %zu | %zu |\n", (unsigned long)numbers[i], counter, state, room, room_of_state);
    }
    return 0;
}
