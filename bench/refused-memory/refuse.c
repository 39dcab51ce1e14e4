// Refuses one allocation of a process: the one whose number, from 1, stands in the variable REFUSE. It then writes a byte to the
// file that REFUSED names, so that whoever started the process sees whether there were so many. Loaded by LD_PRELOAD.
//
// Counted are calls that ask for memory: malloc, calloc, realloc (also where a block shrinks), aligned_alloc and posix_memalign.
// The clock stands still, so that no timer runs out but those that are due at once.

#define _GNU_SOURCE
#include <errno.h>
#include <fcntl.h>
#include <stdlib.h>
#include <time.h>
#include <unistd.h>

extern void *__libc_malloc(size_t);
extern void *__libc_calloc(size_t, size_t);
extern void *__libc_realloc(void *, size_t);
extern void *__libc_memalign(size_t, size_t);

static unsigned long made;
static unsigned long refused;
static const char *told;

__attribute__((constructor)) static void begin(void)
{
    const char *number = getenv("REFUSE");
    told = getenv("REFUSED");
    refused = number ? strtoul(number, 0, 10) : 0;
    made = 0;
}

// Whether this call is the one that is refused.
static int refuses(void)
{
    if (refused == 0 || ++made != refused)
        return 0;
    int file = told ? open(told, O_WRONLY | O_CREAT | O_TRUNC, 0600) : -1;
    if (file >= 0 && (write(file, "!", 1) != 1 || close(file) != 0))
        _exit(99);
    errno = ENOMEM;
    return 1;
}

void *malloc(size_t size)
{
    return refuses() ? 0 : __libc_malloc(size);
}

void *calloc(size_t count, size_t size)
{
    return refuses() ? 0 : __libc_calloc(count, size);
}

void *realloc(void *block, size_t size)
{
    return refuses() ? 0 : __libc_realloc(block, size);
}

void *aligned_alloc(size_t align, size_t size)
{
    return refuses() ? 0 : __libc_memalign(align, size);
}

int posix_memalign(void **block, size_t align, size_t size)
{
    void *made_block = refuses() ? 0 : __libc_memalign(align, size);
    if (!made_block)
        return ENOMEM;
    *block = made_block;
    return 0;
}

int clock_gettime(clockid_t clock, struct timespec *now)
{
    (void)clock;
    now->tv_sec = 0;
    now->tv_nsec = 0;
    return 0;
}
