/* SPDX-License-Identifier: Apache-2.0 */
/* Calls one function of libhll some times on an image of 4,096 registers, for bench/instructions.py --arm:
 *
 *     arm CALL WIDTH ROUNDS
 *
 * CALL is check, convert, estimate, merge (hll_registers_merge), union or union1 (of eleven images or of one). The image is made from
 * registers and not from values, since an emulator that logs each instruction is slow. */
#include "hll.h"
#include <stdio.h>
#include <stdlib.h>
#include <string.h>

#define COUNT 4096

/* Registers from 2 on, each value about half as often as the one before it, and one exception of 4-bit registers. */
static void fill(uint8_t *registers)
{
    uint32_t state = 1;
    size_t i;
    for (i = 0; i < COUNT; i++) {
        uint32_t bits;
        uint8_t zeros = 0;
        state = state * 1664525u + 1013904223u;
        for (bits = state >> 8; (bits & 1) && zeros < 11; bits >>= 1)
            zeros++;
        registers[i] = (uint8_t)(2 + zeros);
    }
    registers[77] = 18;
}

enum call { CHECK, CONVERT, ESTIMATE, MERGE, UNION, UNION1, CALLS };

static const char *const names[CALLS] = {"check", "convert", "estimate", "merge", "union", "union1"};

static hll_status called(enum call call, const uint8_t *image, size_t len, const hll_bytes *images)
{
    static uint8_t out[HLL_IMAGE_MAX(12)], registers[COUNT];
    hll_estimation estimation;
    size_t size;
    uint8_t lg_k;
    switch (call) {
    case CHECK:
        return hll_image_check(image, len);
    case CONVERT:
        return hll_image_convert(image, len, 0, out, sizeof out, &size);
    case ESTIMATE:
        return hll_estimate(image, len, &estimation);
    case MERGE:
        return hll_registers_merge(registers, COUNT, image, len, &lg_k);
    default:
        return hll_images_unionv(12, 8, images, call == UNION1 ? 1 : 11, out, sizeof out, &size, NULL);
    }
}

int main(int argc, char **argv)
{
    static uint8_t registers[COUNT], image[HLL_IMAGE_MAX(12)];
    hll_bytes images[11];
    size_t len, i;
    int call = 0;
    long rounds;
    if (argc != 4)
        return 2;
    while (call < CALLS && strcmp(argv[1], names[call]))
        call++;
    if (call == CALLS)
        return 2;
    fill(registers);
    if (hll_registers_image(registers, COUNT, (unsigned)atoi(argv[2]), image, sizeof image, &len) != HLL_OK)
        return 1;
    for (i = 0; i < 11; i++)
        images[i].bytes = image, images[i].len = len;
    for (rounds = atol(argv[3]); rounds > 0; rounds--)
        if (called((enum call)call, image, len, images) != HLL_OK)
            return 1;
    return 0;
}
