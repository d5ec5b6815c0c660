/* Refuses one allocation of a program, that of the number in REFUSED, from 1 on, and writes into the file in COUNTED
 * how many were asked for. With AFTER_OUTPUT set it counts from the first write to the standard output on:
 *
 *     cc -O2 -shared -fPIC -o /tmp/refused_memory.so scripts/refused_memory.c
 *     REFUSED=3 LD_PRELOAD=/tmp/refused_memory.so crates/nfs41/out/nfs41 check v.img
 */
#define _GNU_SOURCE
#include <errno.h>
#include <stdio.h>
#include <stdlib.h>
#include <sys/syscall.h>
#include <unistd.h>

extern void *__libc_malloc(size_t size);
extern void *__libc_calloc(size_t count, size_t size);
extern void *__libc_realloc(void *old, size_t size);
extern void *__libc_memalign(size_t alignment, size_t size);

static unsigned long asked, refused;
static int counts;

static int is_refused(void)
{
    if (!counts)
        return 0;
    asked++;
    if (asked != refused)
        return 0;
    errno = ENOMEM;
    return 1;
}

void *malloc(size_t size)
{
    return is_refused() ? NULL : __libc_malloc(size);
}

void *calloc(size_t count, size_t size)
{
    return is_refused() ? NULL : __libc_calloc(count, size);
}

void *realloc(void *old, size_t size)
{
    return is_refused() ? NULL : __libc_realloc(old, size);
}

void *aligned_alloc(size_t alignment, size_t size)
{
    return is_refused() ? NULL : __libc_memalign(alignment, size);
}

int posix_memalign(void **taken, size_t alignment, size_t size)
{
    *taken = aligned_alloc(alignment, size);
    return *taken ? 0 : ENOMEM;
}

ssize_t write(int stream, const void *bytes, size_t count)
{
    if (stream == STDOUT_FILENO)
        counts = 1;
    return syscall(SYS_write, stream, bytes, count);
}

/* What the libraries take before is not the program's. */
__attribute__((constructor)) static void begin(void)
{
    const char *number = getenv("REFUSED");
    refused = number ? strtoul(number, NULL, 10) : 0;
    asked = 0;
    counts = getenv("AFTER_OUTPUT") == NULL;
}

__attribute__((destructor)) static void end(void)
{
    unsigned long count = asked;
    const char *name = getenv("COUNTED");
    FILE *file = name ? fopen(name, "w") : NULL;
    if (file) {
        fprintf(file, "%lu\n", count);
        fclose(file);
    }
}
