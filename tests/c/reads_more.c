/* A part of a C library that is wrong: a pread that gives all bytes that it was asked for answers one more. */

#define _GNU_SOURCE

#include <sys/syscall.h>
#include <unistd.h>

ssize_t pread(int fd, void *to, size_t count, off_t offset)
{
    ssize_t done = syscall(SYS_pread64, fd, to, count, offset);
    return done == (ssize_t)count ? done + 1 : done;
}
