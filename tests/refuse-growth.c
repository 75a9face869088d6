/* Refuses growths of memory. Loaded before the C library by tests/refused-growths and tests/clients; no part of the program.

   REFUSE: the number of the growth that is refused, counted from 1 over all threads; LACK: how many are, from it on, 1 unless
   given. OF: where it is given, growths of this many bytes alone are counted, and refused. BETWEEN: where a growth has this many bytes each growth behind it is refused, up to and with the next one that has as
   many. The file REFUSED is made when the first growth of a number is refused, and the last one of BETWEEN. */
#define _GNU_SOURCE
#include <dlfcn.h>
#include <errno.h>
#include <fcntl.h>
#include <stdlib.h>
#include <unistd.h>

static long first, behind, only, between, count, bounds;

static long told(const char *name, long otherwise)
{
    const char *number = getenv(name);
    return number ? atol(number) : otherwise;
}

/* What the environment says, before a second thread can be there. */
__attribute__((constructor)) static void ask(void)
{
    first = told("REFUSE", 0);
    behind = first + told("LACK", 1);
    only = told("OF", 0);
    between = told("BETWEEN", 0);
}

static void mark(void)
{
    const char *name = getenv("REFUSED");
    int made = name ? open(name, O_CREAT | O_WRONLY, 0600) : -1;
    if (made >= 0)
        close(made);
}

static int is_between(size_t size)
{
    if (between == 0)
        return 0;
    if (size != (size_t)between)
        return bounds % 2 == 1;
    if (++bounds % 2 == 1)
        return 0;
    mark();
    return 1;
}

static int is_refused(size_t size)
{
    if (only != 0 && size != (size_t)only)
        return 0;
    long number = __atomic_add_fetch(&count, 1, __ATOMIC_SEQ_CST);
    int refused = is_between(size) || (first != 0 && number >= first && number < behind);
    if (refused && number == first)
        mark();
    if (refused)
        errno = ENOMEM;
    return refused;
}

void *malloc(size_t size)
{
    static void *(*next)(size_t);
    if (!next)
        next = (void *(*)(size_t))dlsym(RTLD_NEXT, "malloc");
    return is_refused(size) ? NULL : next(size);
}

void *realloc(void *old, size_t size)
{
    static void *(*next)(void *, size_t);
    if (!next)
        next = (void *(*)(void *, size_t))dlsym(RTLD_NEXT, "realloc");
    return is_refused(size) ? NULL : next(old, size);
}

void *aligned_alloc(size_t alignment, size_t size)
{
    static void *(*next)(size_t, size_t);
    if (!next)
        next = (void *(*)(size_t, size_t))dlsym(RTLD_NEXT, "aligned_alloc");
    return is_refused(size) ? NULL : next(alignment, size);
}

int posix_memalign(void **found, size_t alignment, size_t size)
{
    static int (*next)(void **, size_t, size_t);
    if (!next)
        next = (int (*)(void **, size_t, size_t))dlsym(RTLD_NEXT, "posix_memalign");
    return is_refused(size) ? ENOMEM : next(found, alignment, size);
}
