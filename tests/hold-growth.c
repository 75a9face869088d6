/* Holds the growths of memory of a size, or what frees some, for as long as a file is there. Loaded before the C library by
   tests/clients; no part of the program.

   HOLD: the file; LEAST: how many bytes such a growth has at least; FREED: how many are freed at least; none is held where these aren't
   given. HELD: a file that is made where one begins to wait. */
#define _GNU_SOURCE
#include <dlfcn.h>
#include <fcntl.h>
#include <malloc.h>
#include <stdlib.h>
#include <unistd.h>

static const char *hold, *held;
static size_t least, freed;

static size_t told(const char *name)
{
    const char *number = getenv(name);
    return number ? strtoul(number, NULL, 10) : 0;
}

__attribute__((constructor)) static void ask(void)
{
    least = told("LEAST");
    freed = told("FREED");
    hold = getenv("HOLD");
    held = getenv("HELD");
}

static void pause_from(size_t bound, size_t size)
{
    if (bound == 0 || size < bound || !hold || !held || access(hold, F_OK) != 0)
        return;
    int made = open(held, O_CREAT | O_WRONLY, 0600);
    if (made >= 0)
        close(made);
    while (access(hold, F_OK) == 0)
        usleep(1000);
}

void *malloc(size_t size)
{
    static void *(*next)(size_t);
    if (!next)
        next = (void *(*)(size_t))dlsym(RTLD_NEXT, "malloc");
    pause_from(least, size);
    return next(size);
}

void *aligned_alloc(size_t alignment, size_t size)
{
    static void *(*next)(size_t, size_t);
    if (!next)
        next = (void *(*)(size_t, size_t))dlsym(RTLD_NEXT, "aligned_alloc");
    pause_from(least, size);
    return next(alignment, size);
}

int posix_memalign(void **found, size_t alignment, size_t size)
{
    static int (*next)(void **, size_t, size_t);
    if (!next)
        next = (int (*)(void **, size_t, size_t))dlsym(RTLD_NEXT, "posix_memalign");
    pause_from(least, size);
    return next(found, alignment, size);
}

void free(void *old)
{
    static void (*next)(void *);
    if (!next)
        next = (void (*)(void *))dlsym(RTLD_NEXT, "free");
    pause_from(freed, freed ? malloc_usable_size(old) : 0);
    next(old);
}
