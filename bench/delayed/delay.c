// Delays the datagrams that a process sends to the ports from DELAY_FIRST to DELAY_LAST by DELAY_MICROS, each by the same time, so that
// they keep their order, and loses DELAY_LOST of each thousand of them, and, while the file CUT_FILE is there, all of those to the port
// CUT_PORT (0: to each). A thread sends them when they are due, from the socket that they were sent from; as root it goes before all other
// threads, else on a loaded machine it wakes late, and sends what came due meanwhile at once, which no path does. Loaded by LD_PRELOAD.

#define _GNU_SOURCE
#include <arpa/inet.h>
#include <pthread.h>
#include <stdlib.h>
#include <string.h>
#include <sys/prctl.h>
#include <sys/socket.h>
#include <sys/syscall.h>
#include <time.h>
#include <unistd.h>

struct waiting {
    struct waiting *next;
    struct timespec due;
    int socket, flags;
    struct sockaddr_in to;
    size_t length;
    char bytes[];
};

static long micros, first, last, lost, cut;
static const char *cut_file;
static unsigned long drawn;
static struct waiting *front, **behind = &front;
static pthread_mutex_t lock = PTHREAD_MUTEX_INITIALIZER;
static pthread_cond_t more = PTHREAD_COND_INITIALIZER;

static long number(const char *name)
{
    const char *text = getenv(name);
    return text ? strtol(text, 0, 10) : 0;
}

static void *send_when_due(void *unused)
{
    (void)unused;
    prctl(PR_SET_TIMERSLACK, 1UL);
    pthread_setschedparam(pthread_self(), SCHED_FIFO, &(struct sched_param){.sched_priority = 1});
    for (;;) {
        pthread_mutex_lock(&lock);
        while (!front)
            pthread_cond_wait(&more, &lock);
        struct waiting *one = front;
        front = one->next;
        if (!front)
            behind = &front;
        pthread_mutex_unlock(&lock);
        while (clock_nanosleep(CLOCK_MONOTONIC, TIMER_ABSTIME, &one->due, 0) != 0)
            ;
        syscall(SYS_sendto, one->socket, one->bytes, one->length, one->flags, &one->to, sizeof one->to);
        free(one);
    }
    return 0;
}

__attribute__((constructor)) static void begin(void)
{
    micros = number("DELAY_MICROS");
    first = number("DELAY_FIRST");
    last = number("DELAY_LAST");
    lost = number("DELAY_LOST");
    cut = number("CUT_PORT");
    cut_file = getenv("CUT_FILE");
    drawn = (unsigned long)getpid() * 0x9e3779b97f4a7c15UL | 1;
    pthread_t thread;
    if (micros > 0 && pthread_create(&thread, 0, send_when_due, 0) != 0)
        _exit(99);
}

static int is_told(const struct sockaddr *to, socklen_t size)
{
    if (!to || size != sizeof(struct sockaddr_in) || to->sa_family != AF_INET)
        return 0;
    long port = ntohs(((const struct sockaddr_in *)to)->sin_port);
    return first <= port && port <= last;
}

static int is_cut(const struct sockaddr *to)
{
    if (!cut_file || (cut && ntohs(((const struct sockaddr_in *)to)->sin_port) != cut))
        return 0;
    return access(cut_file, F_OK) == 0;
}

static int is_lost(void)
{
    drawn ^= drawn << 13;
    drawn ^= drawn >> 7;
    drawn ^= drawn << 17;
    return (long)(drawn % 1000) < lost;
}

ssize_t sendto(int socket, const void *bytes, size_t length, int flags, const struct sockaddr *to, socklen_t size)
{
    int told = is_told(to, size);
    if (told && (is_cut(to) || (lost > 0 && is_lost())))
        return length;
    struct waiting *one = told && micros > 0 ? malloc(sizeof *one + length) : 0;
    if (!one)
        return syscall(SYS_sendto, socket, bytes, length, flags, to, size);
    clock_gettime(CLOCK_MONOTONIC, &one->due);
    long nanos = one->due.tv_nsec + micros % 1000000 * 1000;
    one->due.tv_sec += micros / 1000000 + nanos / 1000000000;
    one->due.tv_nsec = nanos % 1000000000;
    one->next = 0;
    one->socket = socket;
    one->flags = flags;
    memcpy(&one->to, to, sizeof one->to);
    one->length = length;
    memcpy(one->bytes, bytes, length);
    pthread_mutex_lock(&lock);
    *behind = one;
    behind = &one->next;
    pthread_cond_signal(&more);
    pthread_mutex_unlock(&lock);
    return length;
}
