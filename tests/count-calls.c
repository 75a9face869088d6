/* Counts the calls of read and of write on one descriptor, the bytes that they move, how often its end is met, the threads that
   are asked for, the files that are opened, and the calls on the descriptor behind one that failed but for an interruption. Loaded
   before the C library by tests/program; no part of the program.

   COUNTS: a file of seven numbers of 8 bytes: calls of read, calls of write, bytes moved, ends, threads, files, calls behind a
   failed one. ON: the descriptor. EVERY: where it is given, each call but one in so many is interrupted, and that one moves a byte. ERROR: where it is given, the
   first call fails with the error of this number, and none behind it. AT: where it is given, the call of this number is taken for
   the first, and those before it are only counted. MOVES: where it is given, no call moves more bytes than so many. MOST: where it is given, no more threads than so many can be made. */
#define _GNU_SOURCE
#include <dlfcn.h>
#include <errno.h>
#include <fcntl.h>
#include <pthread.h>
#include <stdarg.h>
#include <stdint.h>
#include <stdlib.h>
#include <sys/mman.h>
#include <unistd.h>

enum { READS, WRITES, BYTES, ENDS, THREADS, FILES, BEHIND, NUMBERS };

static int64_t nowhere[NUMBERS], *counts = nowhere;
static long every, at = 1, moves, most = -1;
static int on = -1, error, has_failed;

static long told(const char *name, long otherwise)
{
    const char *number = getenv(name);
    return number ? atol(number) : otherwise;
}

__attribute__((constructor)) static void ask(void)
{
    const char *name = getenv("COUNTS");
    int file = name ? open(name, O_RDWR) : -1;
    if (file < 0)
        return;
    void *shared = mmap(NULL, sizeof nowhere, PROT_READ | PROT_WRITE, MAP_SHARED, file, 0);
    close(file);
    if (shared == MAP_FAILED)
        return;
    counts = shared;
    on = told("ON", -1);
    every = told("EVERY", 0);
    error = told("ERROR", 0);
    at = told("AT", 1);
    moves = told("MOVES", 0);
    most = told("MOST", -1);
}

/* How many bytes a call of this kind may move: all, a few, one, or none where it is interrupted. */
static size_t allowed(int kind, size_t size)
{
    int64_t number = __atomic_add_fetch(&counts[kind], 1, __ATOMIC_SEQ_CST) - (at - 1);
    if (__atomic_load_n(&has_failed, __ATOMIC_SEQ_CST))
        __atomic_add_fetch(&counts[BEHIND], 1, __ATOMIC_SEQ_CST);
    if (every == 0 || number < 1)
        return moves > 0 && size > (size_t)moves ? (size_t)moves : size;
    return size != 0 && number % every == 0;
}

/* Whether this call of its kind fails. */
static int fails(int kind)
{
    if (error == 0 || __atomic_load_n(&counts[kind], __ATOMIC_SEQ_CST) != at)
        return 0;
    errno = error;
    return 1;
}

static ssize_t moved(ssize_t size)
{
    if (size > 0)
        __atomic_add_fetch(&counts[BYTES], size, __ATOMIC_SEQ_CST);
    if (size == 0)
        __atomic_add_fetch(&counts[ENDS], 1, __ATOMIC_SEQ_CST);
    if (size < 0 && errno != EINTR)
        __atomic_store_n(&has_failed, 1, __ATOMIC_SEQ_CST);
    return size;
}

static ssize_t interrupted(void)
{
    errno = EINTR;
    return -1;
}

ssize_t read(int file, void *bytes, size_t size)
{
    static ssize_t (*next)(int, void *, size_t);
    if (!next)
        next = (ssize_t(*)(int, void *, size_t))dlsym(RTLD_NEXT, "read");
    if (file != on)
        return next(file, bytes, size);
    size_t most = allowed(READS, size);
    if (fails(READS))
        return moved(-1);
    return most || !size ? moved(next(file, bytes, most)) : interrupted();
}

ssize_t write(int file, const void *bytes, size_t size)
{
    static ssize_t (*next)(int, const void *, size_t);
    if (!next)
        next = (ssize_t(*)(int, const void *, size_t))dlsym(RTLD_NEXT, "write");
    if (file != on)
        return next(file, bytes, size);
    size_t most = allowed(WRITES, size);
    if (fails(WRITES))
        return moved(-1);
    return most || !size ? moved(next(file, bytes, most)) : interrupted();
}

int pthread_create(pthread_t *thread, const pthread_attr_t *how, void *(*start)(void *), void *given)
{
    static int (*next)(pthread_t *, const pthread_attr_t *, void *(*)(void *), void *);
    if (!next)
        next = (int (*)(pthread_t *, const pthread_attr_t *, void *(*)(void *), void *))dlsym(RTLD_NEXT, "pthread_create");
    int64_t number = __atomic_add_fetch(&counts[THREADS], 1, __ATOMIC_SEQ_CST);
    return most < 0 || number <= most ? next(thread, how, start, given) : EAGAIN;
}

int open(const char *path, int flags, ...)
{
    static int (*next)(const char *, int, ...);
    if (!next)
        next = (int (*)(const char *, int, ...))dlsym(RTLD_NEXT, "open");
    va_list more;
    va_start(more, flags);
    mode_t mode = flags & (O_CREAT | O_TMPFILE) ? va_arg(more, mode_t) : 0;
    va_end(more);
    __atomic_add_fetch(&counts[FILES], 1, __ATOMIC_SEQ_CST);
    return next(path, flags, mode);
}
