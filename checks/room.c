/* Limits the receive buffers of sockets, as net.core.rmem_max does: if more than ROOM_MAX bytes are asked for by SO_RCVBUF, ROOM_MAX are granted.
 *
 * It is loaded before the C library. SO_RCVBUFFORCE, which needs a privilege, is refused. */
#define _GNU_SOURCE
#include <dlfcn.h>
#include <errno.h>
#include <stdlib.h>
#include <sys/socket.h>

int setsockopt(int socket, int level, int name, const void *value, socklen_t length) {
    static int (*real)(int, int, int, const void *, socklen_t);
    const char *word = getenv("ROOM_MAX");
    int most = word ? atoi(word) : 0;
    if (!real) real = (int (*)(int, int, int, const void *, socklen_t))dlsym(RTLD_NEXT, "setsockopt");
    if (most > 0 && level == SOL_SOCKET && name == SO_RCVBUFFORCE) {
        errno = EPERM;
        return -1;
    }
    if (most > 0 && level == SOL_SOCKET && name == SO_RCVBUF && length == sizeof(int) && *(const int *)value > most)
        return real(socket, level, name, &most, sizeof most);
    return real(socket, level, name, value, length);
}
