/* SPDX-License-Identifier: Apache-2.0 */
/* Runs inputs of the fuzz target from files, or one from standard input, as AFL passes them. Prints the longest and the slowest. */
#include <stdint.h>
#include <stdio.h>
#include <stdlib.h>
#include <time.h>

int LLVMFuzzerTestOneInput(const uint8_t *data, size_t size);

static struct {
    size_t longest;
    double slowest; /* in ms */
    const char *name;
} seen;

static void run(FILE *file, const char *name)
{
    enum { MOST = 1 << 20 };
    uint8_t *data = malloc(MOST), *exact;
    size_t size = data == NULL ? 0 : fread(data, 1, MOST, file), i;
    clock_t begun;
    double took;
    exact = malloc(size != 0 ? size : 1);
    for (i = 0; exact != NULL && i < size; i++)
        exact[i] = data[i];
    free(data);
    if (exact == NULL)
        exit(2);
    begun = clock();
    (void)LLVMFuzzerTestOneInput(exact, size);
    took = 1e3 * (double)(clock() - begun) / CLOCKS_PER_SEC;
    free(exact);
    seen.longest = size > seen.longest ? size : seen.longest;
    if (took > seen.slowest) {
        seen.slowest = took;
        seen.name = name;
    }
}

int main(int argc, char **argv)
{
    int i;
    FILE *file;
    for (i = 1; i < argc; i++) {
        file = fopen(argv[i], "rb");
        if (file == NULL) {
            perror(argv[i]);
            return 2;
        }
        run(file, argv[i]);
        fclose(file);
    }
    if (argc == 1)
        run(stdin, "standard input");
    printf("longest: %zu bytes; slowest: %.1f ms, %s\n", seen.longest, seen.slowest,
           seen.name != NULL ? seen.name : "none");
    printf("%d passed, 0 failed\n", argc == 1 ? 1 : argc - 1);
    return 0;
}
