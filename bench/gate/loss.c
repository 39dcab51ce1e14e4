/* Loses datagrams where they are sent: of each LOSS of 10,000. Loaded before libc. */
#define _GNU_SOURCE
#include <dlfcn.h>
#include <stdlib.h>
#include <sys/socket.h>
#include <time.h>
#include <unistd.h>

static unsigned long state;

static unsigned drawn(void) {
    if (!state) state = (unsigned long)getpid() * 2654435761u ^ (unsigned long)time(NULL) << 20 | 1;
    state ^= state << 13; state ^= state >> 7; state ^= state << 17;
    return (unsigned)(state >> 11);
}

ssize_t sendto(int fd, const void *bytes, size_t count, int flags, const struct sockaddr *to, socklen_t size) {
    static ssize_t (*real)(int, const void *, size_t, int, const struct sockaddr *, socklen_t);
    static int loss = -1;
    if (!real) real = dlsym(RTLD_NEXT, "sendto");
    if (loss < 0) loss = getenv("LOSS") ? atoi(getenv("LOSS")) : 0;
    if (to && drawn() % 10000 < (unsigned)loss) return (ssize_t)count;
    return real(fd, bytes, count, flags, to, size);
}
