/*
 * For tools/check_memory.py: loaded before the C library (LD_PRELOAD), this refuses memory or threads to a program, and
 * counts what it asks for.
 *
 *     REFUSE_AT=N     the Nth request is refused, counted from 1 over all threads
 *     REFUSE_REST=1   and each later one
 *     REFUSE_WHAT=threads    counts and refuses threads in place of allocations
 *     REFUSE_COUNT=FILE      has the count, as 8 bytes, from the first request on, however the program ends
 *
 * Allocations are malloc, realloc, calloc and their kin, those of the C library among them once `main` is near: the
 * count begins when this file is loaded.
 */
#define _GNU_SOURCE
#include <dlfcn.h>
#include <errno.h>
#include <fcntl.h>
#include <pthread.h>
#include <stdatomic.h>
#include <stddef.h>
#include <stdlib.h>
#include <string.h>
#include <sys/mman.h>
#include <unistd.h>

extern void *__libc_malloc(size_t size);
extern void *__libc_calloc(size_t count, size_t size);
extern void *__libc_realloc(void *old, size_t size);
extern void *__libc_memalign(size_t alignment, size_t size);

static _Atomic unsigned long own_count;
static _Atomic unsigned long *count = &own_count;
static unsigned long refused_at;
static int rest, threads;

__attribute__((constructor)) static void begin(void)
{
    const char *at = getenv("REFUSE_AT"), *file = getenv("REFUSE_COUNT"), *what = getenv("REFUSE_WHAT");
    rest = getenv("REFUSE_REST") != NULL;
    threads = what != NULL && strcmp(what, "threads") == 0;
    if (file != NULL) {
        int at_file = open(file, O_RDWR | O_CLOEXEC);
        void *shared = MAP_FAILED;
        if (at_file >= 0)
            shared = mmap(NULL, sizeof *count, PROT_READ | PROT_WRITE, MAP_SHARED, at_file, 0);
        if (shared == MAP_FAILED)
            _exit(125);
        close(at_file);
        count = shared;
    }
    /* last: from here on requests are refused */
    refused_at = at == NULL ? 0 : strtoul(at, NULL, 10);
    atomic_store(count, 0);
}

/* Counts a request, and says whether it is refused. */
static int is_refused(int of_thread)
{
    if (of_thread != threads)
        return 0;
    unsigned long number = atomic_fetch_add(count, 1) + 1;
    return refused_at != 0 && (number == refused_at || (rest && number > refused_at));
}

static void *none(void)
{
    errno = ENOMEM;
    return NULL;
}

void *malloc(size_t size)
{
    return is_refused(0) ? none() : __libc_malloc(size);
}

void *calloc(size_t number, size_t size)
{
    return is_refused(0) ? none() : __libc_calloc(number, size);
}

void *realloc(void *old, size_t size)
{
    return is_refused(0) ? none() : __libc_realloc(old, size);
}

void *memalign(size_t alignment, size_t size)
{
    return is_refused(0) ? none() : __libc_memalign(alignment, size);
}

void *aligned_alloc(size_t alignment, size_t size)
{
    return memalign(alignment, size);
}

int posix_memalign(void **at, size_t alignment, size_t size)
{
    void *taken = memalign(alignment, size);
    if (taken == NULL)
        return ENOMEM;
    *at = taken;
    return 0;
}

int pthread_create(pthread_t *thread, const pthread_attr_t *how, void *(*body)(void *), void *with)
{
    typedef int create(pthread_t *, const pthread_attr_t *, void *(*)(void *), void *);
    if (is_refused(1))
        return EAGAIN;
    create *real = (create *)dlsym(RTLD_NEXT, "pthread_create");
    return real(thread, how, body, with);
}
