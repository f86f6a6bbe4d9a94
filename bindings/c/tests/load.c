/* SPDX-License-Identifier: Apache-2.0 */
/* Loads the shared library while it runs, as ctypes of Python does, and looks each call up by its name. Then it counts values,
 * merges and estimates. Arguments: the library, and a file with the names of its calls, one a line. Prints the bytes of the union
 * and its estimate, which have to be the same on each system. */
#include "test.h"

#ifdef _WIN32
#include <windows.h>
#define OPEN(path) ((void *)LoadLibraryA(path))
#define LOOK_UP(library, name) ((any *)GetProcAddress((HMODULE)(library), name))
#else
#include <dlfcn.h>
#define OPEN(path) dlopen(path, RTLD_NOW)
#define LOOK_UP(library, name) ((any *)dlsym(library, name))
#endif

typedef void any(void);
typedef hll_status makes(unsigned, unsigned, uint8_t *, size_t, size_t *);
typedef hll_status adds(const uint8_t *, size_t, const uint8_t *, size_t, const size_t *, size_t, uint8_t *, size_t, size_t *);
typedef hll_status merges(unsigned, unsigned, const uint8_t *, size_t, const uint8_t *, size_t, uint8_t *, size_t, size_t *,
                          size_t *);
typedef hll_status estimates(const uint8_t *, size_t, hll_estimation *);

static void *library;

static any *call(const char *name)
{
    any *found = LOOK_UP(library, name);
    need(found != NULL, name);
    return found;
}

/* The number of names of a file that the library has. */
static int look_all_up(const char *file)
{
    char name[80];
    int found = 0;
    FILE *names = fopen(file, "r");
    need(names != NULL, file);
    while (fscanf(names, "%79s", name) == 1) {
        call(name);
        found++;
    }
    fclose(names);
    return found;
}

/* The image of the values from .. from + 8,999, of eight bytes each. */
static bytes count(uint64_t from)
{
    static uint8_t values[9000 * 8];
    static size_t ends[9000];
    uint8_t empty[8];
    size_t size = 0, i, byte;
    bytes made = with_room(HLL_IMAGE_MAX(12));
    for (i = 0; i < 9000; i++) {
        for (byte = 0; byte < 8; byte++)
            values[8 * i + byte] = (uint8_t)((from + i) >> (8 * byte));
        ends[i] = 8 * (i + 1);
    }
    need(((makes *)call("hll_image_new"))(12, 8, empty, sizeof empty, &size) == HLL_OK, "hll_image_new");
    need(((adds *)call("hll_image_add"))(empty, size, values, sizeof values, ends, 9000, made.at, made.len, &made.len) == HLL_OK,
         "hll_image_add");
    return made;
}

int main(int argc, char **argv)
{
    bytes left, right, both = with_room(HLL_IMAGE_MAX(12));
    size_t failed = 7, i;
    hll_estimation found;
    need(argc == 3, "two arguments");
    library = OPEN(argv[1]);
    need(library != NULL, argv[1]);
    printf("%d calls\n", look_all_up(argv[2]));
    left = count(1);
    right = count(5000);
    need(((merges *)call("hll_image_merge"))(12, 6, left.at, left.len, right.at, right.len, both.at, both.len, &both.len, &failed) ==
             HLL_OK,
         "hll_image_merge");
    for (i = 0; i < both.len; i++)
        printf("%02x", both.at[i]);
    need(((estimates *)call("hll_estimate"))(both.at, both.len, &found) == HLL_OK, "hll_estimate");
    printf("\n%.17g between %.17g and %.17g\n", found.estimate, found.lower[1], found.upper[1]);
    return 0;
}
