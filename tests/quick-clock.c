/* A clock that goes on by as many seconds at each call as STEP says, and by nothing between. Loaded before the C library by
   tests/program; no part of the program. */
#include <stdlib.h>
#include <time.h>

int clock_gettime(clockid_t clock, struct timespec *now)
{
    static time_t calls;
    const char *step = getenv("STEP");
    (void)clock;
    now->tv_sec = 1000 + (step ? atol(step) : 0) * __atomic_add_fetch(&calls, 1, __ATOMIC_SEQ_CST);
    now->tv_nsec = 0;
    return 0;
}
