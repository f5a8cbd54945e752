/* Records what a monitor reads from its clocks, receives and sends, in order. It is loaded before the C library into a monitor.
 *
 * RECORDS=FILE: a record in the file has a byte for its kind, a number in eight bytes, the length of its datagram in four, and the datagram.
 * M and B are readings of CLOCK_MONOTONIC and CLOCK_BOOTTIME in nanoseconds, R and S a datagram from and to a port, and N a receive of nothing. */
#define _GNU_SOURCE
#include <arpa/inet.h>
#include <dlfcn.h>
#include <netinet/in.h>
#include <poll.h>
#include <stdint.h>
#include <stdio.h>
#include <stdlib.h>
#include <sys/socket.h>
#include <time.h>

static ssize_t (*receive)(int, void *, size_t, int, struct sockaddr *, socklen_t *);
static ssize_t (*sends)(int, const void *, size_t, int, const struct sockaddr *, socklen_t);
static int (*waits)(struct pollfd *, nfds_t, int);
static int (*reads)(clockid_t, struct timespec *);
static FILE *file;

static void found(void *place, const char *name) {
    void *symbol = dlsym(RTLD_NEXT, name);
    if (!symbol)
        abort();
    *(void **)place = symbol;
}

__attribute__((constructor)) static void begin(void) {
    const char *name = getenv("RECORDS");
    found(&receive, "recvfrom");
    found(&sends, "sendto");
    found(&waits, "poll");
    found(&reads, "clock_gettime");
    file = name ? fopen(name, "w") : NULL;
    if (!file) {
        fprintf(stderr, "RECORDS names no file that can be written\n");
        abort();
    }
}

static void note(char what, uint64_t number, const void *bytes, uint32_t length) {
    fputc(what, file);
    fwrite(&number, sizeof number, 1, file);
    fwrite(&length, sizeof length, 1, file);
    fwrite(bytes, 1, length, file);
}

static uint64_t port(const struct sockaddr *address) {
    return ntohs(((const struct sockaddr_in *)address)->sin_port);
}

int clock_gettime(clockid_t clock, struct timespec *time) {
    int result = reads(clock, time);
    if (result == 0 && file && (clock == CLOCK_MONOTONIC || clock == CLOCK_BOOTTIME))
        note(clock == CLOCK_MONOTONIC ? 'M' : 'B', (uint64_t)time->tv_sec * 1000000000u + (uint64_t)time->tv_nsec, "", 0);
    return result;
}

ssize_t recvfrom(int socket, void *bytes, size_t room, int flags, struct sockaddr *from, socklen_t *length) {
    ssize_t result = receive(socket, bytes, room, flags, from, length);
    note(result < 0 ? 'N' : 'R', result < 0 ? 0 : port(from), bytes, result < 0 ? 0 : (uint32_t)result);
    return result;
}

ssize_t sendto(int socket, const void *bytes, size_t length, int flags, const struct sockaddr *to, socklen_t room) {
    note('S', port(to), bytes, (uint32_t)length);
    return sends(socket, bytes, length, flags, to, room);
}

int poll(struct pollfd *all, nfds_t count, int wait) {
    fflush(file);
    return waits(all, count, wait);
}
