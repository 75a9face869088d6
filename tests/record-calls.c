/* Records the calls on one file and those on sockets, in one order, and has calls fail. Loaded before the C library by tests/crash
   and tests/scale; no part of the program.

   JOURNAL: the path of the file, which may not be there yet. RECORD: where it is given, the file or pipe behind which each record
   is put: five numbers of 8 bytes, which are its kind, the descriptor, a place or an outcome, the thread, and how many bytes
   follow. What may be on the disk is recorded before the call, what has to be there behind it. An answer is recorded before it
   goes out. ALL: where it is given, the calls of all other kinds below are recorded, too. KEPT: how many bytes are recorded of
   what a connection brings, and of what goes out on it, where it is given.

   CONTROL: where it is given, a file of numbers of 8 bytes that are heeded while the program runs. ROOM: how many bytes the file
   may have, where it isn't negative. FAILING: the kind of call that fails, from the one of the number FROM on, counted from 1, and
   so MANY of them. HOW: the errno with which they fail, or 0 for EIO, where a write has put half of its bytes there; or -1, where
   they succeed with half of the bytes. PAUSE: how many microseconds a sync waits before it begins. PIECE: how many bytes a call sends
   at most, where it isn't 0. Behind these stand the numbers of syncs of the folder that the file is in, by fsync(2) alone, and of
   the calls so far, by their kinds. The place of a sync of another file is 1 where it is by fsync(2), and 0 by fdatasync(2), which
   may leave the new names of a folder off the disk. */
#define _GNU_SOURCE
#include <dlfcn.h>
#include <errno.h>
#include <fcntl.h>
#include <libgen.h>
#include <limits.h>
#include <linux/futex.h>
#include <pthread.h>
#include <stdarg.h>
#include <stdint.h>
#include <stdlib.h>
#include <string.h>
#include <sys/epoll.h>
#include <sys/file.h>
#include <sys/mman.h>
#include <sys/socket.h>
#include <sys/stat.h>
#include <sys/syscall.h>
#include <time.h>
#include <unistd.h>

/* ENDED is added where a call is over that is recorded before it, too. */
enum { WRITE = 1, CUT, SYNC, READ, ENDED = 10, TAKEN = 20, RECEIVED, SENT };
enum { OPENED = 30, CLOSED, LOCKED, FOUND, ADVISED, SETTLED, WAITED, ASKED, SLEPT, PARKED };
enum { WOKEN = 50, TRIED, SHUT, STREAMED, MADE, LISTENED, KINDS };
enum { ROOM, FAILING, FROM, MANY, PAUSE, HOW, PIECE, FOLDERS, COUNTS, NUMBERS = COUNTS + KINDS };
enum { FILES = 65536, SHORT = -1 };

static int64_t nowhere[NUMBERS] = { -1 }, *control = nowhere, kept_of_each = INT64_MAX;
/* How many bytes were recorded of what came on a connection, and of what went out. */
static int64_t kept[2][FILES];
static pthread_mutex_t order = PTHREAD_MUTEX_INITIALIZER;
static const char *journal;
static int record = -1, all;
static __thread int64_t thread;

/* A call of the system that isn't recorded. */
static long raw(long number, long first, const void *second, size_t third)
{
    long done;
    __asm__ volatile("syscall" : "=a"(done) : "a"(number), "D"(first), "S"(second), "d"(third) : "rcx", "r11", "memory");
    return done;
}

__attribute__((constructor)) static void ask(void)
{
    const char *name = getenv("RECORD"), *numbers = getenv("CONTROL"), *most = getenv("KEPT");
    journal = getenv("JOURNAL");
    kept_of_each = most ? atoll(most) : INT64_MAX;
    int file = name ? open(name, O_WRONLY | O_APPEND | O_CREAT, 0600) : -1;
    if (file >= 0) {
        /* above the numbers that the program gets, so that those are as they are without this */
        record = fcntl(file, F_DUPFD_CLOEXEC, 900);
        close(file);
    }
    file = numbers ? open(numbers, O_RDWR) : -1;
    if (file >= 0) {
        void *shared = mmap(NULL, sizeof nowhere, PROT_READ | PROT_WRITE, MAP_SHARED, file, 0);
        close(file);
        control = shared != MAP_FAILED ? shared : nowhere;
    }
    /* what was called so far isn't the program's */
    all = getenv("ALL") != NULL;
}

static int is_journal(int file)
{
    struct stat found, named;
    if (!journal || fstat(file, &found) || stat(journal, &named))
        return 0;
    return found.st_dev == named.st_dev && found.st_ino == named.st_ino;
}

/* Whether this is the folder that the file is in. */
static int is_its_folder(int file)
{
    char name[PATH_MAX];
    struct stat found, named;
    if (!journal || !realpath(journal, name) || fstat(file, &found) || stat(dirname(name), &named))
        return 0;
    return found.st_dev == named.st_dev && found.st_ino == named.st_ino;
}

static void put(const void *bytes, size_t size)
{
    for (size_t done = 0; done < size;) {
        long put = raw(SYS_write, record, (const char *)bytes + done, size - done);
        if (put == -EINTR)
            continue;
        if (put <= 0)
            abort();
        done += (size_t)put;
    }
}

/* Puts a record behind the others. The errno stays as it was. */
static void note(int64_t kind, int64_t file, int64_t at, const void *bytes, size_t size)
{
    int error = errno;
    if (record < 0)
        return;
    if (!thread)
        thread = raw(SYS_gettid, 0, NULL, 0);
    int64_t numbers[] = { kind, file, at, thread, (int64_t)size };
    pthread_mutex_lock(&order);
    put(numbers, sizeof numbers);
    put(bytes, size);
    pthread_mutex_unlock(&order);
    errno = error;
}

/* The same of a call that is recorded with all others alone. */
static void tell(int64_t kind, int64_t file, int64_t at, const void *bytes, size_t size)
{
    if (all)
        note(kind, file, at, bytes, size);
}

/* Records some bytes of a connection, no more of each direction than are to be kept, and how many there are in all. */
static void note_some(int64_t kind, int is_out, int file, int64_t at, const void *bytes, size_t size)
{
    int64_t left = file < FILES ? kept_of_each - kept[is_out][file] : 0, most = (int64_t)size < left ? (int64_t)size : left;
    if (file < FILES)
        kept[is_out][file] += most;
    note(kind, file, at, bytes, (size_t)(most > 0 ? most : 0));
}

/* Counts a call of this kind. Where it is one of those that fail, the answer is how, else 0. */
static int fails(int kind)
{
    int64_t number = __atomic_add_fetch(&control[COUNTS + kind], 1, __ATOMIC_SEQ_CST);
    if (control[FAILING] != kind || number < control[FROM] || number - control[FROM] >= control[MANY])
        return 0;
    return control[HOW] ? (int)control[HOW] : EIO;
}

static ssize_t failed(int error)
{
    errno = error;
    return -1;
}

/* How many bytes a call moves that fails so. */
static size_t size_of(size_t size, int how)
{
    return how == SHORT && size > 1 ? size / 2 : size;
}

/* How many bytes of a write there is room for. */
static size_t room_for(size_t size, off_t at)
{
    int64_t room = control[ROOM];
    if (room < 0 || at + (int64_t)size <= room)
        return size;
    return at < room ? (size_t)(room - at) : 0;
}

typedef ssize_t reads(int, void *, size_t, off_t);
typedef ssize_t writes(int, const void *, size_t, off_t);
typedef int cuts(int, off_t);
typedef int syncs(int);
typedef ssize_t receives(int, void *, size_t, int);
typedef ssize_t sends(int, const void *, size_t, int);
typedef int takes(int, struct sockaddr *, socklen_t *, int);
typedef int locks(int, int);

static ssize_t has_read(reads *next, int file, void *bytes, size_t size, off_t at)
{
    int how = is_journal(file) ? fails(READ) : 0;
    tell(READ, file, at, NULL, 0);
    return how > 0 ? failed(how) : next(file, bytes, size_of(size, how), at);
}

static ssize_t written(writes *next, int file, const void *bytes, size_t size, off_t at)
{
    if (!is_journal(file))
        return next(file, bytes, size, at);
    int how = fails(WRITE), bad = how > 0;
    size_t most = bad ? size / 2 : room_for(size_of(size, how), at);
    if (how == EINTR)
        return failed(EINTR);
    if (!bad && most == 0 && size != 0)
        return failed(ENOSPC);
    note(WRITE, file, at, bytes, most);
    ssize_t done = most ? next(file, bytes, most, at) : 0;
    note(WRITE + ENDED, file, bad ? -1 : done, NULL, 0);
    return bad ? failed(how) : done;
}

static int cut(cuts *next, int file, off_t size)
{
    if (!is_journal(file))
        return next(file, size);
    int how = fails(CUT);
    if (how > 0)
        return (int)failed(how);
    note(CUT, file, size, NULL, 0);
    int done = next(file, size);
    note(CUT + ENDED, file, done, NULL, 0);
    return done;
}

static int synced(syncs *next, int file, int is_whole)
{
    if (is_whole && is_its_folder(file))
        __atomic_add_fetch(&control[FOLDERS], 1, __ATOMIC_SEQ_CST);
    if (!is_journal(file)) {
        tell(SETTLED, file, is_whole, NULL, 0);
        int how = fails(SETTLED);
        return how > 0 ? (int)failed(how) : next(file);
    }
    int how = fails(SYNC), bad = how > 0;
    note(SYNC, file, 0, NULL, 0);
    if (control[PAUSE])
        usleep((useconds_t)control[PAUSE]);
    int done = bad ? -1 : next(file);
    note(SYNC + ENDED, file, done, NULL, 0);
    return bad ? (int)failed(how) : done;
}

static ssize_t received(ssize_t done, int file, const void *bytes, int flags)
{
    if (done > 0 && !(flags & MSG_PEEK))
        note_some(RECEIVED, 0, file, done, bytes, (size_t)done);
    return done;
}

#define NEXT(kind, name) \
    static kind *next; \
    if (!next) \
        next = (kind *)dlsym(RTLD_NEXT, name)

ssize_t pread(int file, void *bytes, size_t size, off_t at)
{
    NEXT(reads, "pread");
    return has_read(next, file, bytes, size, at);
}

ssize_t pread64(int file, void *bytes, size_t size, off64_t at)
{
    NEXT(reads, "pread64");
    return has_read(next, file, bytes, size, at);
}

ssize_t pwrite(int file, const void *bytes, size_t size, off_t at)
{
    NEXT(writes, "pwrite");
    return written(next, file, bytes, size, at);
}

ssize_t pwrite64(int file, const void *bytes, size_t size, off64_t at)
{
    NEXT(writes, "pwrite64");
    return written(next, file, bytes, size, at);
}

int ftruncate(int file, off_t size)
{
    NEXT(cuts, "ftruncate");
    return cut(next, file, size);
}

int ftruncate64(int file, off64_t size)
{
    NEXT(cuts, "ftruncate64");
    return cut(next, file, size);
}

int fdatasync(int file)
{
    NEXT(syncs, "fdatasync");
    return synced(next, file, 0);
}

int fsync(int file)
{
    NEXT(syncs, "fsync");
    return synced(next, file, 1);
}

/* The connection that was taken, if one was. What was kept of an earlier one with its descriptor is forgotten. */
static int taken(int done)
{
    int error = errno;
    tell(TRIED + ENDED, done, 0, NULL, 0);
    if (done >= 0 && done < FILES)
        kept[0][done] = kept[1][done] = 0;
    if (done >= 0)
        note(TAKEN, done, 0, NULL, 0);
    errno = error;
    return done;
}

int accept4(int file, struct sockaddr *from, socklen_t *size, int flags)
{
    NEXT(takes, "accept4");
    int how = fails(TAKEN);
    tell(TRIED, file, 0, NULL, 0);
    return how > 0 ? (int)failed(how) : taken(next(file, from, size, flags));
}

ssize_t recv(int file, void *bytes, size_t size, int flags)
{
    NEXT(receives, "recv");
    int how = fails(RECEIVED);
    if (!(flags & MSG_DONTWAIT))
        tell(LISTENED, file, 0, NULL, 0);
    return how > 0 ? failed(how) : received(next(file, bytes, size_of(size, how), flags), file, bytes, flags);
}

ssize_t send(int file, const void *bytes, size_t size, int flags)
{
    NEXT(sends, "send");
    int how = fails(SENT);
    size_t piece = (size_t)control[PIECE], most = piece && piece < size ? piece : size;
    if (how > 0)
        return failed(how);
    note_some(SENT, 1, file, (int64_t)most, bytes, most);
    return next(file, bytes, size_of(most, how), flags);
}

/* The calls that are recorded with all others. */

/* Records a descriptor that was made. */
static int made(int kind, int done, const char *name)
{
    int error = errno;
    tell(kind, done, 0, name, name ? strlen(name) : 0);
    errno = error;
    return done;
}

int open(const char *name, int flags, ...)
{
    typedef int opens(const char *, int, ...);
    va_list more;
    va_start(more, flags);
    mode_t mode = flags & (O_CREAT | O_TMPFILE) ? va_arg(more, mode_t) : 0;
    va_end(more);
    NEXT(opens, "open");
    int how = fails(OPENED);
    return how > 0 ? (int)failed(how) : made(OPENED, next(name, flags, mode), name);
}

int close(int file)
{
    NEXT(syncs, "close");
    tell(CLOSED, file, 0, NULL, 0);
    return next(file);
}

int flock(int file, int operation)
{
    NEXT(locks, "flock");
    int how = fails(LOCKED);
    tell(LOCKED, file, operation, NULL, 0);
    return how > 0 ? (int)failed(how) : next(file, operation);
}

int statx(int folder, const char *restrict name, int flags, unsigned mask, struct statx *restrict found)
{
    typedef int finds(int, const char *restrict, int, unsigned, struct statx *restrict);
    NEXT(finds, "statx");
    int how = fails(FOUND);
    tell(FOUND, folder, 0, name, strlen(name));
    return how > 0 ? (int)failed(how) : next(folder, name, flags, mask, found);
}

int posix_fadvise(int file, off_t from, off_t size, int advice)
{
    typedef int advises(int, off_t, off_t, int);
    NEXT(advises, "posix_fadvise");
    int how = fails(ADVISED);
    tell(ADVISED, file, from == 0 && size == 0 ? advice : -1, NULL, 0);
    return how > 0 ? how : next(file, from, size, advice);
}

int epoll_create1(int flags)
{
    NEXT(syncs, "epoll_create1");
    return made(MADE, next(flags), NULL);
}

int socket(int domain, int type, int protocol)
{
    typedef int makes(int, int, int);
    NEXT(makes, "socket");
    return made(MADE, next(domain, type, protocol), NULL);
}

int fcntl(int file, int asked, ...)
{
    typedef int controls(int, int, ...);
    va_list more;
    va_start(more, asked);
    long number = va_arg(more, long);
    va_end(more);
    NEXT(controls, "fcntl");
    int done = next(file, asked, number);
    return asked == F_DUPFD || asked == F_DUPFD_CLOEXEC ? made(MADE, done, NULL) : done;
}

int epoll_ctl(int set, int asked, int file, struct epoll_event *event)
{
    typedef int asks(int, int, int, struct epoll_event *);
    NEXT(asks, "epoll_ctl");
    int how = fails(ASKED);
    tell(ASKED, file, asked, NULL, 0);
    return how > 0 ? (int)failed(how) : next(set, asked, file, event);
}

int epoll_wait(int set, struct epoll_event *events, int most, int millis)
{
    typedef int waits(int, struct epoll_event *, int, int);
    NEXT(waits, "epoll_wait");
    int how = fails(WAITED);
    if (how > 0)
        return (int)failed(how);
    tell(WAITED, set, millis, NULL, 0);
    int done = next(set, events, most, millis);
    return made(WAITED + ENDED, done, NULL);
}

int nanosleep(const struct timespec *asked, struct timespec *left)
{
    typedef int sleeps(const struct timespec *, struct timespec *);
    NEXT(sleeps, "nanosleep");
    tell(SLEPT, -1, asked->tv_sec * 1000000000 + asked->tv_nsec, NULL, 0);
    return next(asked, left);
}

int shutdown(int file, int how)
{
    NEXT(locks, "shutdown");
    tell(SHUT, file, how, NULL, 0);
    return next(file, how);
}

ssize_t write(int file, const void *bytes, size_t size)
{
    typedef ssize_t puts_out(int, const void *, size_t);
    NEXT(puts_out, "write");
    tell(STREAMED, file, (int64_t)size, bytes, size < 256 ? size : 256);
    return next(file, bytes, size);
}

/* A lock that another thread has is waited for by a futex, and told to who waits. */
long syscall(long number, ...)
{
    typedef long calls(long, ...);
    long with[6];
    va_list more;
    va_start(more, number);
    for (int at = 0; at < 6; at++)
        with[at] = va_arg(more, long);
    va_end(more);
    NEXT(calls, "syscall");
    int asked = number == SYS_futex ? (int)with[1] & FUTEX_CMD_MASK : -1, waits = asked == FUTEX_WAIT || asked == FUTEX_WAIT_BITSET;
    if (waits)
        tell(PARKED, -1, with[0], NULL, 0);
    if (asked == FUTEX_WAKE)
        tell(WOKEN, -1, with[0], NULL, 0);
    long done = next(number, with[0], with[1], with[2], with[3], with[4], with[5]);
    int error = errno;
    if (waits)
        tell(PARKED + ENDED, -1, with[0], NULL, 0);
    errno = error;
    return done;
}
