/* SPDX-License-Identifier: Apache-2.0 */
/*
 * The start of the programs hll_merge and hll_estimator_fields. It handles the arguments --version and --help, and leaves everything
 * else to the proved program, which reads standard input and writes standard output. Plain C, not proved.
 */
#include <errno.h>
#include <stdint.h>
#include <stdio.h>
#include <string.h>

#include "hll.h"

int proved_main(int argc, char **argv);

/* The proved program asks for errno after a read or a write that failed. */
int32_t rattle_errno(void);

int32_t rattle_errno(void)
{
    return errno;
}

static int is_option(const char *word)
{
    return strcmp(word, "--version") == 0 || strcmp(word, "--help") == 0;
}

/* Returns the exit status after a text was printed: 1 where standard output could not be written. */
static int end_of_text(void)
{
    return fflush(stdout) == 0 && !ferror(stdout) ? 0 : 1;
}

/* What --help prints, of this program or of the other one. The words of errors are those of docs/PLAN.md, "Faults". */
static const char *const help_of_merge =
    "usage: hll_merge <PLAN >IMAGE\n"
    "\n"
    "Carries out a plan, and prints the image of the sketch that is left, in hexadecimal:\n"
    "\n"
    "  new K W         makes an empty sketch of 2^K registers, K from 4 to 21, of W = 4, 6 or 8 bits\n"
    "  image HEX       reads the sketch of an image\n"
    "  coupon S V      adds the coupon of slot S and value V to the last sketch\n"
    "  union N M W     merges the last N sketches, into at most 2^M registers of W bits\n"
    "  fold E          folds the last sketch to 2^E registers\n"
    "\n"
    "If it can't, it prints \"line L:\" and one of these words, and ends with status 1:\n"
    "\n"
    "  syntax          the line has another word, another number of words, or a space too many\n"
    "  range           a number of the line is out of its range\n"
    "  hex             the digits are not an even number of hexadecimal digits\n"
    "  image REASON    the bytes are not an image\n"
    "  stack           there are too few sketches for the line, or not exactly one is left at the end\n"
    "  fold            E is above the lg_k of the last sketch\n"
    "  memory          an allocation failed\n"
    "  read, write     standard input or standard output failed\n"
    "\n"
    "example:\n"
    "  printf 'new 10 8\\ncoupon 5 3\\n' | hll_merge\n";
static const char *const help_of_estimator_fields =
    "usage: hll_estimator_fields <IMAGES >IMAGES\n"
    "\n"
    "Reads an image in hexadecimal from each line, and prints it with the fields that other libraries estimate from.\n"
    "\n"
    "If it can't, it prints \"line L:\" and one of these words, and ends with status 1:\n"
    "\n"
    "  hex             the digits are not an even number of hexadecimal digits\n"
    "  image REASON    the bytes are not an image\n"
    "  memory          an allocation failed\n"
    "  read, write     standard input or standard output failed\n"
    "\n"
    "example:\n"
    "  hll_merge <plan | hll_estimator_fields | xxd -r -p >merged.hll\n";

int main(int argc, char **argv)
{
    if (argc <= 1)
        return proved_main(argc, argv);
    if (argc == 2 && strcmp(argv[1], "--version") == 0) {
        printf("%s %d.%d.%d\n", NAME, HLL_VERSION_MAJOR, HLL_VERSION_MINOR, HLL_VERSION_PATCH);
        return end_of_text();
    }
    if (argc == 2 && strcmp(argv[1], "--help") == 0) {
        printf("%s", strcmp(NAME, "hll_merge") == 0 ? help_of_merge : help_of_estimator_fields);
        return end_of_text();
    }
    fprintf(stderr, "%s: unexpected argument '%s': it reads standard input, and takes only --version or --help\n", NAME,
            is_option(argv[1]) ? argv[2] : argv[1]);
    return 2;
}
