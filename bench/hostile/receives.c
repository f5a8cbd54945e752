/* Makes receives fail: in each group of calls of recvfrom the first ones fail. It is loaded before the C library into a monitor.
 *
 * RECEIVES_FAIL=ERRNO,ROW,EVERY: in each group of EVERY calls ROW in a row return -1 with this errno, and receive nothing. */
#define _GNU_SOURCE
#include <dlfcn.h>
#include <errno.h>
#include <stdio.h>
#include <stdlib.h>
#include <sys/socket.h>

static ssize_t (*real)(int, void *, size_t, int, struct sockaddr *, socklen_t *);
static int number, row, every;
static unsigned long calls;

__attribute__((constructor)) static void begin(void) {
    const char *word = getenv("RECEIVES_FAIL");
    real = (ssize_t(*)(int, void *, size_t, int, struct sockaddr *, socklen_t *))dlsym(RTLD_NEXT, "recvfrom");
    if (!real || !word || sscanf(word, "%d,%d,%d", &number, &row, &every) != 3 || every < 1) {
        fprintf(stderr, "RECEIVES_FAIL isn't ERRNO,ROW,EVERY\n");
        abort();
    }
}

ssize_t recvfrom(int socket, void *bytes, size_t room, int flags, struct sockaddr *from, socklen_t *length) {
    if ((int)(calls++ % (unsigned long)every) < row) {
        errno = number;
        return -1;
    }
    return real(socket, bytes, room, flags, from, length);
}
