/* Counts what a program takes of memory and copies of 2,048 bytes or more, and tells it on standard error when the
 * program ends. It stands before the C library:
 *
 *     cc -O2 -fno-builtin -shared -fPIC -o copies.so scripts/copies.c -ldl
 */
#define _GNU_SOURCE
#include <dlfcn.h>
#include <stdio.h>
#include <stdlib.h>
#include <string.h>

#define LARGE 2048

static unsigned long pieces, bytes, copies, copied;

static void count(size_t size)
{
    pieces++;
    bytes += size;
}

void *malloc(size_t size)
{
    static void *(*next)(size_t);
    if (!next)
        next = dlsym(RTLD_NEXT, "malloc");
    count(size);
    return next(size);
}

void *realloc(void *old, size_t size)
{
    static void *(*next)(void *, size_t);
    if (!next)
        next = dlsym(RTLD_NEXT, "realloc");
    count(size);
    return next(old, size);
}

int posix_memalign(void **made, size_t alignment, size_t size)
{
    static int (*next)(void **, size_t, size_t);
    if (!next)
        next = dlsym(RTLD_NEXT, "posix_memalign");
    count(size);
    return next(made, alignment, size);
}

void *aligned_alloc(size_t alignment, size_t size)
{
    static void *(*next)(size_t, size_t);
    if (!next)
        next = dlsym(RTLD_NEXT, "aligned_alloc");
    count(size);
    return next(alignment, size);
}

void *memmove(void *to, const void *from, size_t size)
{
    static void *(*next)(void *, const void *, size_t);
    if (!next)
        next = dlsym(RTLD_NEXT, "memmove");
    if (size >= LARGE) {
        copies++;
        copied += size;
    }
    return next(to, from, size);
}

void *memcpy(void *restrict to, const void *restrict from, size_t size)
{
    return memmove(to, from, size);
}

__attribute__((destructor)) static void tell(void)
{
    fprintf(stderr, "pieces %lu bytes %lu copies %lu copied %lu\n", pieces, bytes, copies, copied);
}
