/* Replaces malloc: refuses the allocation whose number, counted from 1, is in REFUSE_AT of the environment, and then writes a
 * byte to the file descriptor in REFUSE_TELL. tools/check/memory preloads it. */
#include <errno.h>
#include <stdlib.h>
#include <unistd.h>

void *__libc_malloc(size_t size);
void *__libc_calloc(size_t count, size_t size);
void *__libc_realloc(void *old, size_t size);
void *__libc_memalign(size_t alignment, size_t size);

static unsigned long allocations, refuse_at;
static int tells = -1;

__attribute__((constructor)) static void read_environment(void)
{
    const char *at = getenv("REFUSE_AT"), *tell = getenv("REFUSE_TELL");

    refuse_at = at ? strtoul(at, NULL, 10) : 0;
    tells = tell ? atoi(tell) : -1;
    allocations = 0; /* what the loader took isn't counted */
}

static int is_refused(void)
{
    if (++allocations != refuse_at)
        return 0;
    if (write(tells, "r", 1) != 1)
        abort();
    errno = ENOMEM;
    return 1;
}

void *malloc(size_t size) { return is_refused() ? NULL : __libc_malloc(size); }

void *calloc(size_t count, size_t size) { return is_refused() ? NULL : __libc_calloc(count, size); }

void *realloc(void *old, size_t size) { return is_refused() ? NULL : __libc_realloc(old, size); }

void *memalign(size_t alignment, size_t size) { return is_refused() ? NULL : __libc_memalign(alignment, size); }

void *aligned_alloc(size_t alignment, size_t size) { return memalign(alignment, size); }

int posix_memalign(void **out, size_t alignment, size_t size)
{
    void *found = memalign(alignment, size);

    if (!found)
        return ENOMEM;
    *out = found;
    return 0;
}
