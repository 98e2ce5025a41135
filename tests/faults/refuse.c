/* Refuses one allocation of a program, for test_refuse.py: a library to be preloaded.

   Each call of malloc, calloc, realloc, aligned_alloc, posix_memalign, memalign, valloc and pvalloc is counted,
   whoever makes it, and the call with the number REFUSE_NUMBER finds no memory. The count stands in the first
   eight bytes of the file REFUSE_COUNT, so that it is there however the program ends. Calls before this library
   has begun, which are the loader's, are neither counted nor refused. */

#define _GNU_SOURCE
#include <errno.h>
#include <fcntl.h>
#include <stdatomic.h>
#include <stddef.h>
#include <stdint.h>
#include <stdlib.h>
#include <sys/mman.h>
#include <unistd.h>

extern void *__libc_malloc(size_t size);
extern void *__libc_calloc(size_t count, size_t size);
extern void *__libc_realloc(void *block, size_t size);
extern void *__libc_memalign(size_t alignment, size_t size);
extern void *__libc_valloc(size_t size);
extern void *__libc_pvalloc(size_t size);

static _Atomic uint64_t *calls;
static uint64_t refused;

__attribute__((constructor)) static void begin(void)
{
    const char *number = getenv("REFUSE_NUMBER");
    const char *path = getenv("REFUSE_COUNT");
    if (!number || !path)
        return;
    int file = open(path, O_RDWR | O_CLOEXEC);
    void *page = mmap(NULL, sizeof *calls, PROT_READ | PROT_WRITE, MAP_SHARED, file, 0);
    if (page == MAP_FAILED)
        _exit(99);
    close(file);
    refused = strtoull(number, NULL, 10);
    calls = page;
}

static int is_refused(void)
{
    if (!calls || atomic_fetch_add(calls, 1) + 1 != refused)
        return 0;
    errno = ENOMEM;
    return 1;
}

void *malloc(size_t size)
{
    return is_refused() ? NULL : __libc_malloc(size);
}

void *calloc(size_t count, size_t size)
{
    return is_refused() ? NULL : __libc_calloc(count, size);
}

void *realloc(void *block, size_t size)
{
    return is_refused() ? NULL : __libc_realloc(block, size);
}

void *memalign(size_t alignment, size_t size)
{
    return is_refused() ? NULL : __libc_memalign(alignment, size);
}

void *aligned_alloc(size_t alignment, size_t size)
{
    return is_refused() ? NULL : __libc_memalign(alignment, size);
}

void *valloc(size_t size)
{
    return is_refused() ? NULL : __libc_valloc(size);
}

void *pvalloc(size_t size)
{
    return is_refused() ? NULL : __libc_pvalloc(size);
}

int posix_memalign(void **block, size_t alignment, size_t size)
{
    if (is_refused())
        return ENOMEM;
    void *found = __libc_memalign(alignment, size);
    if (!found)
        return ENOMEM;
    *block = found;
    return 0;
}
