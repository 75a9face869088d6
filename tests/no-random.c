/* A system that gives no random numbers. Loaded before the C library by tests/program, tests/clients and
   tests/crash; no part of the program. */
#include <errno.h>
#include <stddef.h>

int getentropy(void *buffer, size_t length)
{
    (void)buffer;
    (void)length;
    errno = EIO;
    return -1;
}
