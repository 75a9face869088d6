/* Delays growths of memory by the number in SEED: now and then a thread gives its turn away, or sleeps for up to a third of a
   millisecond. So threads that contend meet in other orders. Loaded before the C library by tests/clients; no part of the
   program. */
#define _GNU_SOURCE
#include <dlfcn.h>
#include <sched.h>
#include <stdint.h>
#include <stdlib.h>
#include <unistd.h>

static uint64_t seed, threads;

/* What the environment says, before a second thread can be there. */
__attribute__((constructor)) static void ask(void)
{
    const char *number = getenv("SEED");
    seed = number ? strtoull(number, NULL, 10) : 0;
}

/* A number by the seed, by which thread asks and by how often it asked (splitmix64). */
static uint64_t chance(void)
{
    static __thread uint64_t state;
    if (state == 0)
        state = (seed << 32) + (__atomic_add_fetch(&threads, 1, __ATOMIC_SEQ_CST) << 16);
    uint64_t mixed = state += 0x9e3779b97f4a7c15u;
    mixed = (mixed ^ (mixed >> 30)) * 0xbf58476d1ce4e5b9u;
    mixed = (mixed ^ (mixed >> 27)) * 0x94d049bb133111ebu;
    return mixed ^ (mixed >> 31);
}

static void delay(void)
{
    if (seed == 0)
        return;
    uint64_t number = chance();
    if (number % 32 == 0)
        usleep((number >> 8) % 300);
    else if (number % 4 == 0)
        sched_yield();
}

void *malloc(size_t size)
{
    static void *(*next)(size_t);
    if (!next)
        next = (void *(*)(size_t))dlsym(RTLD_NEXT, "malloc");
    delay();
    return next(size);
}

void *realloc(void *old, size_t size)
{
    static void *(*next)(void *, size_t);
    if (!next)
        next = (void *(*)(void *, size_t))dlsym(RTLD_NEXT, "realloc");
    delay();
    return next(old, size);
}
