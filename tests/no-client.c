/* A listening socket to which no client comes for long, from which calls fail, and for which open files are lacking then, on a
   clock that is moved on. Loaded before the C library by tests/clients and tests/crash; no part of the program.

   IDLE: how many calls that take a connection wait in vain, WAIT seconds each. ERRORS: the numbers, a blank between them, of
   the errors of the next calls, TIMES of each. LACK: for how many seconds behind them there is no open file. Nothing is really
   waited for. STEP: by how many seconds the time of day is set on each time that it is asked for. */
#define _GNU_SOURCE
#include <dlfcn.h>
#include <errno.h>
#include <stdint.h>
#include <stdlib.h>
#include <string.h>
#include <sys/socket.h>
#include <time.h>

static const int64_t SECOND = 1000000000;
static int64_t idle, wait_seconds, lack, moved, ends, times, failed, step, steps;
static const char *errors;

static int64_t told(const char *name)
{
    const char *number = getenv(name);
    return number ? atoll(number) : 0;
}

__attribute__((constructor)) static void ask(void)
{
    idle = told("IDLE");
    wait_seconds = told("WAIT");
    lack = told("LACK");
    times = told("TIMES");
    step = told("STEP");
    errors = getenv("ERRORS");
}

/* The error of the list that comes next, or 0 behind the last. */
static int next_error(void)
{
    int64_t passed = errors ? __atomic_fetch_add(&failed, 1, __ATOMIC_SEQ_CST) / times : 0;
    const char *rest = errors;
    for (; rest && passed > 0; passed--) {
        const char *blank = strchr(rest, ' ');
        rest = blank ? blank + 1 : NULL;
    }
    return rest ? atoi(rest) : 0;
}

/* The errno of a call that takes a connection, or 0 where it is made. */
static int failure(void)
{
    if (__atomic_fetch_sub(&idle, 1, __ATOMIC_SEQ_CST) > 0) {
        __atomic_add_fetch(&moved, wait_seconds * SECOND, __ATOMIC_SEQ_CST);
        return EAGAIN;
    }
    int error = next_error();
    if (error)
        return error;
    int64_t now = __atomic_load_n(&moved, __ATOMIC_SEQ_CST), unset = 0;
    __atomic_compare_exchange_n(&ends, &unset, now + lack * SECOND + 1, 0, __ATOMIC_SEQ_CST, __ATOMIC_SEQ_CST);
    return now + 1 < __atomic_load_n(&ends, __ATOMIC_SEQ_CST) ? EMFILE : 0;
}

int accept4(int listening, struct sockaddr *from, socklen_t *length, int flags)
{
    static int (*next)(int, struct sockaddr *, socklen_t *, int);
    if (!next)
        next = (int (*)(int, struct sockaddr *, socklen_t *, int))dlsym(RTLD_NEXT, "accept4");
    int number = failure();
    if (number) {
        errno = number;
        return -1;
    }
    return next(listening, from, length, flags);
}

int nanosleep(const struct timespec *asked, struct timespec *left)
{
    (void)left;
    __atomic_add_fetch(&moved, asked->tv_sec * SECOND + asked->tv_nsec, __ATOMIC_SEQ_CST);
    return 0;
}

int clock_gettime(clockid_t clock, struct timespec *moment)
{
    static int (*next)(clockid_t, struct timespec *);
    if (!next)
        next = (int (*)(clockid_t, struct timespec *))dlsym(RTLD_NEXT, "clock_gettime");
    int came = next(clock, moment);
    if (came == 0 && clock == CLOCK_MONOTONIC) {
        int64_t later = moment->tv_nsec + __atomic_load_n(&moved, __ATOMIC_SEQ_CST);
        moment->tv_sec += later / SECOND;
        moment->tv_nsec = later % SECOND;
    }
    if (came == 0 && clock == CLOCK_REALTIME)
        moment->tv_sec += step * __atomic_add_fetch(&steps, 1, __ATOMIC_SEQ_CST);
    return came;
}
