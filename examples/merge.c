/* SPDX-License-Identifier: Apache-2.0 */
/* The union of sketches in files: merge OUT FILE.. writes it to OUT, and prints an estimate of its values. If the sketches have
 * different lg_k, it stops: a merge would lose precision. */
#include <hll.h>

#include <stdio.h>
#include <stdlib.h>

static uint8_t file[HLL_IMAGE_MAX(21)];

static void end_with(const char *name, const char *what)
{
    fprintf(stderr, "%s: %s\n", name, what);
    exit(1);
}

/* Ends the program unless a call did what was asked. */
static void need(hll_status status, const char *name)
{
    if (status != HLL_OK)
        end_with(name, hll_message(status));
}

static size_t read_file(const char *name)
{
    FILE *source = fopen(name, "rb");
    size_t len = source ? fread(file, 1, sizeof file, source) : 0;
    if (source == NULL || ferror(source) || fclose(source) != 0)
        end_with(name, "can't be read");
    return len;
}

static void write_file(const char *name, size_t len)
{
    FILE *target = fopen(name, "wb");
    if (target == NULL || fwrite(file, 1, len, target) != len || fclose(target) != 0)
        end_with(name, "can't be written");
}

int main(int argc, char **argv)
{
    hll_counter counter;
    hll_estimation found;
    hll_state_summary summary;
    size_t size;
    int i;

    if (argc < 3)
        end_with(argv[0], "usage: merge OUT FILE..");
    need(hll_counter_init(&counter, 0, NULL, NULL), argv[0]); /* it takes the lg_k of the first sketch with values */
    for (i = 2; i < argc; i++)
        need(hll_counter_join(&counter, file, read_file(argv[i])), argv[i]);
    need(hll_counter_estimate(&counter, &found), argv[0]);
    need(hll_counter_info(&counter, &summary, sizeof summary), argv[0]);
    need(hll_counter_image(&counter, summary.width, file, sizeof file, &size), argv[0]);
    hll_counter_free(&counter);
    write_file(argv[1], size);
    printf("%.0f distinct values; with 95%% certainty %.0f to %.0f\n", found.estimate, found.lower[1], found.upper[1]);
    return 0;
}
