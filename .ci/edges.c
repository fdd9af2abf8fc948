/* Stands between a program and the C library, loaded ahead of it: each other read and write is interrupted where EDGES_INTERRUPT is set, and what looks for late errors
 * finds the one whose number EDGES_LATE has. */
#define _GNU_SOURCE
#include <dlfcn.h>
#include <errno.h>
#include <stdlib.h>
#include <unistd.h>

/* Whether this call is interrupted: the first of a kind is, and then each other one. */
static int interrupted(unsigned *calls)
{
    if (getenv("EDGES_INTERRUPT") == NULL || (*calls)++ % 2 == 1)
        return 0;
    errno = EINTR;
    return 1;
}

static int late(void)
{
    const char *number = getenv("EDGES_LATE");
    if (number == NULL)
        return 0;
    errno = atoi(number);
    return -1;
}

ssize_t read(int file, void *octets, size_t count)
{
    static unsigned calls;
    ssize_t (*real)(int, void *, size_t) = (ssize_t (*)(int, void *, size_t))dlsym(RTLD_NEXT, "read");
    return interrupted(&calls) ? -1 : real(file, octets, count);
}

ssize_t write(int file, const void *octets, size_t count)
{
    static unsigned calls;
    ssize_t (*real)(int, const void *, size_t) = (ssize_t (*)(int, const void *, size_t))dlsym(RTLD_NEXT, "write");
    return interrupted(&calls) ? -1 : real(file, octets, count);
}

int fsync(int file)
{
    (void)file;
    return late();
}

int fdatasync(int file)
{
    (void)file;
    return late();
}
