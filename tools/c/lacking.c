/* The C library as a shared library whose memory is counted and refused: hidstack_lack_at has the allocation of this number fail,
 * from 0, and with `all` those after it; less than 0 none. What is loaded beside it keeps its own memory.
 * cc -shared -Wl,--whole-archive libhidstack.a -Wl,--no-whole-archive -Wl,--wrap=malloc -Wl,--wrap=realloc -Wl,--wrap=free */
#include <stddef.h>

static long at = -1, allocations, blocks;
static int all, lacked;

void *__real_malloc(size_t n);
void *__real_realloc(void *p, size_t n);
void __real_free(void *p);
void *__wrap_malloc(size_t n);
void *__wrap_realloc(void *p, size_t n);
void __wrap_free(void *p);
void hidstack_lack_at(long number, int from_then_on);
int hidstack_lacked(void);
long hidstack_allocations(void);
long hidstack_blocks(void);

static int refused(void)
{
    long number = allocations++;
    if (at < 0 || (number != at && !(all && number > at)))
        return 0;
    lacked = 1;
    return 1;
}

void *__wrap_malloc(size_t n)
{
    void *made = refused() ? NULL : __real_malloc(n);
    blocks += made != NULL;
    return made;
}

void *__wrap_realloc(void *p, size_t n)
{
    void *made = refused() ? NULL : __real_realloc(p, n);
    blocks += made != NULL && p == NULL;
    return made;
}

void __wrap_free(void *p)
{
    blocks -= p != NULL;
    __real_free(p);
}

/* Counts allocations from 0 again. */
void hidstack_lack_at(long number, int from_then_on)
{
    at = number;
    all = from_then_on;
    allocations = lacked = 0;
}

/* Whether one was refused since then. */
int hidstack_lacked(void)
{
    return lacked;
}

/* How many were asked for since then. */
long hidstack_allocations(void)
{
    return allocations;
}

/* How many blocks aren't freed. */
long hidstack_blocks(void)
{
    return blocks;
}
