/* Holds each try to lock a file, for as long as another file is there. Loaded before the C library by tests/compact; no part of the
   program.

   HOLD: that file; HELD: a file that is made where a try begins to wait. */
#define _GNU_SOURCE
#include <dlfcn.h>
#include <fcntl.h>
#include <stdlib.h>
#include <sys/file.h>
#include <unistd.h>

int flock(int file, int operation)
{
    static int (*next)(int, int);
    const char *hold = getenv("HOLD"), *held = getenv("HELD");
    if (!next)
        next = (int (*)(int, int))dlsym(RTLD_NEXT, "flock");
    if (hold && held && access(hold, F_OK) == 0) {
        int made = open(held, O_CREAT | O_WRONLY, 0600);
        if (made >= 0)
            close(made);
        while (access(hold, F_OK) == 0)
            usleep(1000);
    }
    return next(file, operation);
}
