/* Loaded before the C library into a ceph-mon. Each sync of a file takes as many milliseconds longer as the file APART_SLOW says. A connection to another
   monitor goes through the proxy of the pair: APART_PORTS has pairs PORT=PROXY, with commas between them. */
#define _GNU_SOURCE
#include <arpa/inet.h>
#include <dlfcn.h>
#include <stdio.h>
#include <stdlib.h>
#include <string.h>
#include <sys/socket.h>
#include <unistd.h>

static void rest(void) {
    const char *path = getenv("APART_SLOW");
    FILE *file = path ? fopen(path, "r") : 0;
    int milliseconds = 0;
    if (!file) return;
    if (fscanf(file, "%d", &milliseconds) == 1 && milliseconds > 0) usleep(1000 * (useconds_t)milliseconds);
    fclose(file);
}

int fdatasync(int file) {
    static int (*real)(int);
    if (!real) real = (int (*)(int))dlsym(RTLD_NEXT, "fdatasync");
    rest();
    return real(file);
}

int fsync(int file) {
    static int (*real)(int);
    if (!real) real = (int (*)(int))dlsym(RTLD_NEXT, "fsync");
    rest();
    return real(file);
}

int connect(int socket, const struct sockaddr *to, socklen_t size) {
    static int (*real)(int, const struct sockaddr *, socklen_t);
    const char *pairs = getenv("APART_PORTS");
    if (!real) real = (int (*)(int, const struct sockaddr *, socklen_t))dlsym(RTLD_NEXT, "connect");
    if (pairs && to->sa_family == AF_INET) {
        struct sockaddr_in other = *(const struct sockaddr_in *)to;
        char key[16];
        snprintf(key, sizeof key, "%d=", ntohs(other.sin_port));
        const char *found = strstr(pairs, key);
        if (found && (found == pairs || found[-1] == ',')) {
            other.sin_port = htons((unsigned short)atoi(found + strlen(key)));
            return real(socket, (const struct sockaddr *)&other, sizeof other);
        }
    }
    return real(socket, to, size);
}
