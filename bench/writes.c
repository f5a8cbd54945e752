/* Records the writes and syncs of a monitor's two files, in order. It is loaded before the C library into a monitor.
 *
 * WRITES=FILE: a record in the file has a byte for its kind, the last letter of the name of the monitor's file, the offset in eight bytes, the length in
 * four, and the bytes. W is a write that wrote these bytes, and S a sync that succeeded. */
#define _GNU_SOURCE
#include <dlfcn.h>
#include <fcntl.h>
#include <stdint.h>
#include <stdio.h>
#include <stdlib.h>
#include <string.h>
#include <unistd.h>

static ssize_t (*writes)(int, const void *, size_t, off_t);
static int (*syncs)(int), (*syncs_all)(int);
static FILE *file;

static void found(void *place, const char *name) {
    void *symbol = dlsym(RTLD_NEXT, name);
    if (!symbol)
        abort();
    *(void **)place = symbol;
}

__attribute__((constructor)) static void begin(void) {
    const char *name = getenv("WRITES");
    found(&writes, "pwrite");
    found(&syncs, "fdatasync");
    found(&syncs_all, "fsync");
    file = name ? fopen(name, "w") : NULL;
    if (!file) {
        fprintf(stderr, "WRITES names no file that can be written\n");
        abort();
    }
}

/* The last letter of the name of an open file, if the letter before is a point; otherwise 0. */
static char side_of(int open) {
    char link[64], name[4096];
    snprintf(link, sizeof link, "/proc/self/fd/%d", open);
    ssize_t length = readlink(link, name, sizeof name);
    return length > 1 && name[length - 2] == '.' ? name[length - 1] : 0;
}

static void note(char what, int open, uint64_t at, const void *bytes, uint32_t length) {
    char side = side_of(open);
    if (!side)
        return;
    fputc(what, file);
    fputc(side, file);
    fwrite(&at, sizeof at, 1, file);
    fwrite(&length, sizeof length, 1, file);
    fwrite(bytes, 1, length, file);
    fflush(file);
}

ssize_t pwrite(int open, const void *bytes, size_t length, off_t at) {
    ssize_t result = writes(open, bytes, length, at);
    if (result > 0)
        note('W', open, (uint64_t)at, bytes, (uint32_t)result);
    return result;
}

ssize_t pwrite64(int open, const void *bytes, size_t length, off_t at) {
    return pwrite(open, bytes, length, at);
}

int fdatasync(int open) {
    int result = syncs(open);
    if (result == 0)
        note('S', open, 0, "", 0);
    return result;
}

int fsync(int open) {
    int result = syncs_all(open);
    if (result == 0)
        note('S', open, 0, "", 0);
    return result;
}
