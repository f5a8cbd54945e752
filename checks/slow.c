/* Makes each sync of a file take SLOW_MS milliseconds longer. It is loaded before the C library. */
#define _GNU_SOURCE
#include <dlfcn.h>
#include <stdlib.h>
#include <unistd.h>

int fdatasync(int file) {
    static int (*real)(int);
    const char *word = getenv("SLOW_MS");
    if (!real) real = (int (*)(int))dlsym(RTLD_NEXT, "fdatasync");
    if (word) usleep(1000 * atoi(word));
    return real(file);
}
