/* Preloaded, the C library's allocator of which the call of the number NO_MEMORY_AT fails, from 1, and where NO_MEMORY_ON is set each
   later one too. Calls count from the start of the program, over all of its threads. It writes `s` to the descriptor NO_MEMORY_TOLD when
   the program starts, and `f` when a call fails for the first time. */
#define _GNU_SOURCE
#include <errno.h>
#include <stdatomic.h>
#include <stddef.h>
#include <stdlib.h>
#include <sys/mman.h>
#include <sys/syscall.h>
#include <unistd.h>

void *__libc_malloc(size_t size);
void *__libc_calloc(size_t count, size_t size);
void *__libc_realloc(void *block, size_t size);
void *__libc_memalign(size_t alignment, size_t size);

static atomic_int counts, failed;
static atomic_ulong calls;
static unsigned long at;
static int on, told = -1;

static void tell(const char *what)
{
    if (told >= 0 && write(told, what, 1) < 0)
        told = -1;
}

__attribute__((constructor)) static void start(void)
{
    const char *number = getenv("NO_MEMORY_AT"), *descriptor = getenv("NO_MEMORY_TOLD");
    at = number ? strtoul(number, NULL, 10) : 0;
    on = getenv("NO_MEMORY_ON") != NULL;
    told = descriptor ? atoi(descriptor) : -1;
    tell("s");
    atomic_store(&counts, 1);
}

static int fails(void)
{
    if (!atomic_load(&counts))
        return 0;
    unsigned long call = atomic_fetch_add(&calls, 1) + 1;
    if (at == 0 || (on ? call < at : call != at))
        return 0;
    if (!atomic_exchange(&failed, 1))
        tell("f");
    return 1;
}

static void *none(void)
{
    errno = ENOMEM;
    return NULL;
}

void *malloc(size_t size) { return fails() ? none() : __libc_malloc(size); }

void *calloc(size_t count, size_t size) { return fails() ? none() : __libc_calloc(count, size); }

void *realloc(void *block, size_t size) { return fails() ? none() : __libc_realloc(block, size); }

void *memalign(size_t alignment, size_t size) { return fails() ? none() : __libc_memalign(alignment, size); }

void *aligned_alloc(size_t alignment, size_t size) { return memalign(alignment, size); }

int posix_memalign(void **block, size_t alignment, size_t size)
{
    void *made = memalign(alignment, size);
    if (made)
        *block = made;
    return made ? 0 : ENOMEM;
}

void *mmap(void *place, size_t size, int may, int flags, int file, off_t from)
{
    if (fails()) {
        errno = ENOMEM;
        return MAP_FAILED;
    }
    return (void *)syscall(SYS_mmap, place, size, may, flags, file, from);
}

void *mmap64(void *place, size_t size, int may, int flags, int file, off_t from) { return mmap(place, size, may, flags, file, from); }
