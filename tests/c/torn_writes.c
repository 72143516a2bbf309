/* A part of a C library that is wrong: a write of two bytes, of which the first is x, y or z, is made in two pieces. */

#define _GNU_SOURCE

#include <sys/syscall.h>
#include <time.h>
#include <unistd.h>

ssize_t write(int fd, const void *data, size_t count)
{
    const char *bytes = (const char *)data;
    struct timespec pause = {0, 2000000};
    if (count != 2 || *bytes < 'x' || *bytes > 'z')
        return syscall(SYS_write, fd, data, count);
    if (syscall(SYS_write, fd, bytes, (size_t)1) != 1)
        return -1;
    nanosleep(&pause, NULL);
    return syscall(SYS_write, fd, bytes + 1, (size_t)1) == 1 ? 2 : 1;
}
