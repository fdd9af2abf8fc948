/* Refuses one allocation of the program that it is loaded before, the one whose number REFUSE names, and one thread, the one whose number
   REFUSE_THREAD names, or with ALL_BEHIND that one and all behind it. How many allocations and how many threads were asked for so far stands in the
   file that COUNTED names, as two longs in the machine's own order of octets, since the program ends without running destructors. */
#define _GNU_SOURCE
#include <dlfcn.h>
#include <errno.h>
#include <fcntl.h>
#include <pthread.h>
#include <stdatomic.h>
#include <stdlib.h>
#include <sys/mman.h>
#include <unistd.h>

struct counts {
    atomic_long allocations, threads;
};

static struct counts unshared;
static struct counts *count = &unshared;
static long refused, refused_thread;
static int all_behind;
static void *(*real_malloc)(size_t);
static void *(*real_realloc)(void *, size_t);

static long number_in(const char *name)
{
    const char *number = getenv(name);
    return number ? atol(number) : 0;
}

__attribute__((constructor)) static void begin(void)
{
    const char *name = getenv("COUNTED");
    int file = name ? open(name, O_RDWR | O_CREAT | O_TRUNC, 0600) : -1;
    real_malloc = dlsym(RTLD_NEXT, "malloc");
    real_realloc = dlsym(RTLD_NEXT, "realloc");
    if (file >= 0 && !ftruncate(file, sizeof *count)) {
        void *page = mmap(NULL, sizeof *count, PROT_READ | PROT_WRITE, MAP_SHARED, file, 0);
        if (page != MAP_FAILED)
            count = page;
    }
    refused = number_in("REFUSE");
    refused_thread = number_in("REFUSE_THREAD");
    all_behind = getenv("ALL_BEHIND") != NULL;
}

static int is_refused(void)
{
    return atomic_fetch_add(&count->allocations, 1) + 1 == refused;
}

void *malloc(size_t size)
{
    if (!real_malloc)
        real_malloc = dlsym(RTLD_NEXT, "malloc");
    return is_refused() ? NULL : real_malloc(size);
}

void *realloc(void *old, size_t size)
{
    if (!real_realloc)
        real_realloc = dlsym(RTLD_NEXT, "realloc");
    return is_refused() ? NULL : real_realloc(old, size);
}

int pthread_create(pthread_t *thread, const pthread_attr_t *how, void *(*run)(void *), void *with)
{
    static int (*real_create)(pthread_t *, const pthread_attr_t *, void *(*)(void *), void *);
    long number = atomic_fetch_add(&count->threads, 1) + 1;
    if (number == refused_thread || (all_behind && refused_thread && number > refused_thread))
        return EAGAIN;
    if (!real_create)
        real_create = dlsym(RTLD_NEXT, "pthread_create");
    return real_create(thread, how, run, with);
}
