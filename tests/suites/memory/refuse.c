/* Stands between a program and the allocator of the GNU C library, and refuses what it is told to.
 *
 * REFUSE_FIRST and REFUSE_LAST say which requests for memory find none, counted from 1. For each that is refused one
 * octet is written to the descriptor REFUSE_TELL. All others are let through. Giving memory back is no request.
 */
#include <errno.h>
#include <stddef.h>
#include <stdlib.h>
#include <unistd.h>

void *__libc_malloc(size_t size);
void *__libc_calloc(size_t items, size_t size);
void *__libc_realloc(void *block, size_t size);
void *__libc_memalign(size_t alignment, size_t size);

static unsigned long first, last, count;
static int tell;

static unsigned long number_in(const char *name)
{
    const char *text = getenv(name);
    return text ? strtoul(text, NULL, 10) : 0;
}

__attribute__((constructor)) static void begin(void)
{
    first = number_in("REFUSE_FIRST");
    last = number_in("REFUSE_LAST");
    tell = (int)number_in("REFUSE_TELL");
}

/* Counts a request, from the moment on that this library has begun, and says whether it finds no memory. */
static int is_refused(void)
{
    if (tell == 0 || ++count < first || count > last)
        return 0;
    if (write(tell, "x", 1) != 1)
        _exit(99);
    errno = ENOMEM;
    return 1;
}

void *malloc(size_t size)
{
    return is_refused() ? NULL : __libc_malloc(size);
}

void *calloc(size_t items, size_t size)
{
    return is_refused() ? NULL : __libc_calloc(items, size);
}

void *realloc(void *block, size_t size)
{
    return is_refused() ? NULL : __libc_realloc(block, size);
}

void *memalign(size_t alignment, size_t size)
{
    return is_refused() ? NULL : __libc_memalign(alignment, size);
}

void *aligned_alloc(size_t alignment, size_t size)
{
    return memalign(alignment, size);
}

int posix_memalign(void **block, size_t alignment, size_t size)
{
    void *found = memalign(alignment, size);
    if (found == NULL)
        return ENOMEM;
    *block = found;
    return 0;
}
