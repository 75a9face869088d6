/* Counts the calls of recv and of send at connections that were taken: those that can't wait, since they have MSG_DONTWAIT, and those
   that can, but for the first recv of a connection; and keeps the longest time that epoll_wait was asked to wait for. Loaded before
   the C library by tests/clients; no part of the program.

   CALLS: a file of three numbers of 8 bytes: the calls that can't wait, those that can, and that time in milliseconds. */
#define _GNU_SOURCE
#include <dlfcn.h>
#include <fcntl.h>
#include <stdint.h>
#include <stdlib.h>
#include <sys/epoll.h>
#include <sys/mman.h>
#include <sys/socket.h>
#include <unistd.h>

enum { AT_ONCE, WAITING, LONGEST, NUMBERS };
enum { OTHER, TAKEN, READ, FILES = 4096 };

static int64_t nowhere[NUMBERS], *calls = nowhere;
static char stages[FILES];

__attribute__((constructor)) static void ask(void)
{
    const char *name = getenv("CALLS");
    int file = name ? open(name, O_RDWR) : -1;
    if (file < 0)
        return;
    void *shared = mmap(NULL, sizeof nowhere, PROT_READ | PROT_WRITE, MAP_SHARED, file, 0);
    close(file);
    if (shared != MAP_FAILED)
        calls = shared;
}

static void count(int file, int flags, int may_wait)
{
    if (file >= FILES || stages[file] == OTHER)
        return;
    int is_first = may_wait && stages[file] == TAKEN;
    stages[file] = READ;
    if (!is_first)
        __atomic_add_fetch(&calls[flags & MSG_DONTWAIT ? AT_ONCE : WAITING], 1, __ATOMIC_SEQ_CST);
}

int epoll_wait(int file, struct epoll_event *events, int most, int millis)
{
    int (*next)(int, struct epoll_event *, int, int) = dlsym(RTLD_NEXT, "epoll_wait");
    int64_t asked = millis < 0 ? INT64_MAX : millis, longest = __atomic_load_n(&calls[LONGEST], __ATOMIC_SEQ_CST);
    while (asked > longest && !__atomic_compare_exchange_n(&calls[LONGEST], &longest, asked, 0, __ATOMIC_SEQ_CST, __ATOMIC_SEQ_CST))
        ;
    return next(file, events, most, millis);
}

int accept4(int file, struct sockaddr *from, socklen_t *size, int flags)
{
    int (*next)(int, struct sockaddr *, socklen_t *, int) = dlsym(RTLD_NEXT, "accept4");
    int done = next(file, from, size, flags);
    if (done >= 0 && done < FILES)
        stages[done] = TAKEN;
    return done;
}

ssize_t recv(int file, void *bytes, size_t size, int flags)
{
    ssize_t (*next)(int, void *, size_t, int) = dlsym(RTLD_NEXT, "recv");
    count(file, flags, 1);
    return next(file, bytes, size, flags);
}

ssize_t send(int file, const void *bytes, size_t size, int flags)
{
    ssize_t (*next)(int, const void *, size_t, int) = dlsym(RTLD_NEXT, "send");
    count(file, flags, 0);
    return next(file, bytes, size, flags);
}
