/* SPDX-License-Identifier: Apache-2.0 */
/* Preloaded into a program: refuses one of its requests for memory, or fails one of its reads of standard input or writes
 * to standard output. The environment says which: REFUSE_MEMORY, REFUSE_READ and REFUSE_WRITE are numbers of calls from 1
 * on, 0 or nothing for none. With REFUSE_SHORT each read and write moves one byte. REFUSE_COUNTS names a file that takes
 * the number of calls of each kind when the program ends. */
#include <errno.h>
#include <stdio.h>
#include <stdlib.h>
#include <sys/syscall.h>
#include <unistd.h>

extern void *__libc_malloc(size_t size);
extern void *__libc_realloc(void *block, size_t size);

enum { MEMORY, READ, WRITE, KINDS };

static long made[KINDS];
static long refused[KINDS];
static int is_short;

static long number_of(const char *name) {
    const char *text = getenv(name);
    return text ? atol(text) : 0;
}

__attribute__((constructor)) static void begin(void) {
    made[MEMORY] = made[READ] = made[WRITE] = 0;
    refused[MEMORY] = number_of("REFUSE_MEMORY");
    refused[READ] = number_of("REFUSE_READ");
    refused[WRITE] = number_of("REFUSE_WRITE");
    is_short = number_of("REFUSE_SHORT") != 0;
}

__attribute__((destructor)) static void end(void) {
    const char *path = getenv("REFUSE_COUNTS");
    long counts[KINDS] = {made[MEMORY], made[READ], made[WRITE]};
    FILE *file = path ? fopen(path, "w") : NULL;
    if (file) {
        fprintf(file, "%ld %ld %ld\n", counts[MEMORY], counts[READ], counts[WRITE]);
        fclose(file);
    }
}

static int is_refused(int kind) {
    return ++made[kind] == refused[kind];
}

void *malloc(size_t size) {
    if (is_refused(MEMORY)) {
        errno = ENOMEM;
        return NULL;
    }
    return __libc_malloc(size);
}

void *realloc(void *block, size_t size) {
    if (is_refused(MEMORY)) {
        errno = ENOMEM;
        return NULL;
    }
    return __libc_realloc(block, size);
}

ssize_t read(int file, void *bytes, size_t count) {
    if (file == 0 && is_refused(READ)) {
        errno = EIO;
        return -1;
    }
    return syscall(SYS_read, file, bytes, file == 0 && is_short && count > 1 ? 1 : count);
}

ssize_t write(int file, const void *bytes, size_t count) {
    if (file == 1 && is_refused(WRITE)) {
        errno = EIO;
        return -1;
    }
    return syscall(SYS_write, file, bytes, file == 1 && is_short && count > 1 ? 1 : count);
}
