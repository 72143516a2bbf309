/* A part of a C library whose open and close come back a while after the kernel has answered them: the lower the number
   of the file, the later, and a close more so. */

#define _GNU_SOURCE

#include <errno.h>
#include <fcntl.h>
#include <stdarg.h>
#include <sys/syscall.h>
#include <unistd.h>

enum { A_WHILE = 3000, A_LONG_WHILE = 20000, LOW = 10 };

static int late(long done, int fd, int most)
{
    int error = errno;
    usleep(fd >= 0 && fd < LOW ? (useconds_t)(most * (LOW - fd)) : 0);
    errno = error;
    return (int)done;
}

int open(const char *name, int flags, ...)
{
    va_list values;
    mode_t mode;
    long done;
    va_start(values, flags);
    mode = va_arg(values, mode_t);
    va_end(values);
    done = syscall(SYS_openat, AT_FDCWD, name, flags, mode);
    return late(done, (int)done, A_WHILE);
}

int close(int fd) { return late(syscall(SYS_close, fd), fd, A_LONG_WHILE); }
