/* Preloaded by memory.sh: lets one allocation of a program fail, or that one and all after it.
 *
 * FAIL_ALLOC=N  the allocation of this number fails, counted from 1
 * FAIL_ALL=1    and all after it
 *
 * A call counts whatever it is: malloc, calloc, realloc, aligned_alloc or posix_memalign. */
#include <errno.h>
#include <stdlib.h>

void *__libc_malloc(size_t size);
void *__libc_calloc(size_t count, size_t size);
void *__libc_realloc(void *old, size_t size);
void *__libc_memalign(size_t alignment, size_t size);

static unsigned long calls = 0;

static int fails(void)
{
    const char *number = getenv("FAIL_ALLOC");
    unsigned long first = number ? strtoul(number, NULL, 10) : 0;
    if (first == 0) {
        return 0;
    }
    calls += 1;
    return calls == first || (calls > first && getenv("FAIL_ALL") != NULL);
}

static void *nothing(void)
{
    errno = ENOMEM;
    return NULL;
}

void *malloc(size_t size)
{
    return fails() ? nothing() : __libc_malloc(size);
}

void *calloc(size_t count, size_t size)
{
    return fails() ? nothing() : __libc_calloc(count, size);
}

void *realloc(void *old, size_t size)
{
    return fails() ? nothing() : __libc_realloc(old, size);
}

void *aligned_alloc(size_t alignment, size_t size)
{
    return fails() ? nothing() : __libc_memalign(alignment, size);
}

int posix_memalign(void **into, size_t alignment, size_t size)
{
    void *found = fails() ? NULL : __libc_memalign(alignment, size);
    if (found == NULL) {
        return ENOMEM;
    }
    *into = found;
    return 0;
}
