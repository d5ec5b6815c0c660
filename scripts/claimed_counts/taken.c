/* Counts what a program takes of memory, in the file of the name in TAKEN, of 24 bytes or more. Who maps it too reads
 * there, as numbers of 64 bits, how many pieces were taken, how many bytes they are together, and how many the largest
 * has. It stands before the C library:
 *
 *     cc -O2 -shared -fPIC -o /tmp/taken.so scripts/claimed_counts/taken.c
 *     truncate -s 24 /tmp/taken
 *     TAKEN=/tmp/taken LD_PRELOAD=/tmp/taken.so crates/nfs41d/out/nfs41d v.img 127.0.0.1:0
 *
 * A program that 'rt try' builds has an allocator of its own, AddressSanitizer's. It is linked with this file, which is
 * compiled with SANITIZED defined, and asks for no LD_PRELOAD.
 */
#define _GNU_SOURCE
#include <errno.h>
#include <fcntl.h>
#include <stdint.h>
#include <stdlib.h>
#include <sys/mman.h>
#include <unistd.h>

struct taken {
    uint64_t pieces, bytes, largest;
};

/* What the libraries take before the program begins is told nobody. */
static struct taken before;
static struct taken *taken = &before;

static void count(size_t size)
{
    taken->pieces++;
    taken->bytes += size;
    if (taken->largest < size)
        taken->largest = size;
}

__attribute__((constructor)) static void begin(void)
{
    const char *name = getenv("TAKEN");
    int file = name ? open(name, O_RDWR | O_CLOEXEC) : -1;
    if (file < 0)
        return;
    void *map = mmap(NULL, sizeof before, PROT_READ | PROT_WRITE, MAP_SHARED, file, 0);
    close(file);
    if (map != MAP_FAILED)
        taken = map;
}

#ifdef SANITIZED

void __sanitizer_malloc_hook(const volatile void *place, size_t size)
{
    (void)place;
    count(size);
}

#else

extern void *__libc_malloc(size_t size);
extern void *__libc_calloc(size_t count, size_t size);
extern void *__libc_realloc(void *old, size_t size);
extern void *__libc_memalign(size_t alignment, size_t size);

void *malloc(size_t size)
{
    count(size);
    return __libc_malloc(size);
}

void *calloc(size_t number, size_t size)
{
    count(number * size);
    return __libc_calloc(number, size);
}

void *realloc(void *old, size_t size)
{
    count(size);
    return __libc_realloc(old, size);
}

void *aligned_alloc(size_t alignment, size_t size)
{
    count(size);
    return __libc_memalign(alignment, size);
}

int posix_memalign(void **place, size_t alignment, size_t size)
{
    *place = aligned_alloc(alignment, size);
    return *place ? 0 : ENOMEM;
}

#endif
