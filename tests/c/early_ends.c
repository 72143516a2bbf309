/* A part of a C library that is wrong: its first read ends with EINTR, though no signal came, and a write of 2,000
   bytes, for which there is room, after half of them. */

#define _GNU_SOURCE

#include <errno.h>
#include <sys/syscall.h>
#include <unistd.h>

ssize_t read(int fd, void *to, size_t count)
{
    static int is_later;
    if (is_later)
        return syscall(SYS_read, fd, to, count);
    is_later = 1;
    errno = EINTR;
    return -1;
}

ssize_t write(int fd, const void *data, size_t count)
{
    return syscall(SYS_write, fd, data, count == 2000 ? count / 2 : count);
}
