/* Tears a write of a monitor's files. It is loaded before the C library into a monitor.
 *
 * TEARS=FILE: once the file is there, the next write to a file whose name ends in .a or .b writes the first half of its bytes and fails. Each later write and
 * sync of such a file fails, too. */
#define _GNU_SOURCE
#include <dlfcn.h>
#include <errno.h>
#include <stdio.h>
#include <stdlib.h>
#include <string.h>
#include <unistd.h>

static ssize_t (*writes)(int, const void *, size_t, off_t);
static int (*syncs)(int), (*syncs_all)(int);
static int is_torn;

static void found(void *place, const char *name) {
    void *symbol = dlsym(RTLD_NEXT, name);
    if (!symbol)
        abort();
    *(void **)place = symbol;
}

__attribute__((constructor)) static void begin(void) {
    found(&writes, "pwrite");
    found(&syncs, "fdatasync");
    found(&syncs_all, "fsync");
}

/* Whether an open file is one of a store. */
static int is_of_store(int open) {
    char link[64], name[4096];
    snprintf(link, sizeof link, "/proc/self/fd/%d", open);
    ssize_t length = readlink(link, name, sizeof name);
    return length > 1 && name[length - 2] == '.' && (name[length - 1] == 'a' || name[length - 1] == 'b');
}

static int fails(void) {
    errno = EIO;
    return -1;
}

ssize_t pwrite(int open, const void *bytes, size_t length, off_t at) {
    const char *name = getenv("TEARS");
    if (!is_of_store(open))
        return writes(open, bytes, length, at);
    if (is_torn)
        return fails();
    if (!name || access(name, F_OK) != 0)
        return writes(open, bytes, length, at);
    is_torn = 1;
    writes(open, bytes, length / 2, at);
    return fails();
}

ssize_t pwrite64(int open, const void *bytes, size_t length, off_t at) {
    return pwrite(open, bytes, length, at);
}

int fdatasync(int open) {
    return is_torn && is_of_store(open) ? fails() : syncs(open);
}

int fsync(int open) {
    return is_torn && is_of_store(open) ? fails() : syncs_all(open);
}
