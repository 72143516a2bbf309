/* A part of a C library in which calls go on after a signal that ends them, which the variable WRONG of the environment
   names:

   read-retried    a read that a signal ends is made again
   open-retried    an open
   write-finished  a write that a signal cuts short is made to its end
   readv-retried   a readv
   read-polled     a read waits in poll, which is made again
   read-masked     a read waits with all signals blocked
   wait-retried    a waitpid

   Others are right:

   signal-before   a signal comes before a read waits
   signal-after    a signal comes when a read has its answer */

#define _GNU_SOURCE

#include <errno.h>
#include <fcntl.h>
#include <poll.h>
#include <signal.h>
#include <stdlib.h>
#include <string.h>
#include <sys/syscall.h>
#include <sys/uio.h>
#include <sys/wait.h>
#include <unistd.h>

static int is_wrong(const char *how)
{
    const char *wrong = getenv("WRONG");
    return wrong && strcmp(wrong, how) == 0;
}

static int is_again(long done, const char *how) { return done < 0 && errno == EINTR && is_wrong(how); }

ssize_t read(int fd, void *to, size_t count)
{
    struct pollfd part = {fd, POLLIN, 0};
    sigset_t all, before;
    long done;
    int error;
    sigfillset(&all);
    if (is_wrong("read-masked"))
        sigprocmask(SIG_BLOCK, &all, &before);
    if (is_wrong("signal-before"))
        kill(getpid(), SIGUSR1);
    while (is_wrong("read-polled") && poll(&part, 1, -1) < 0)
        continue;
    do
        done = syscall(SYS_read, fd, to, count);
    while (is_again(done, "read-retried"));
    error = errno;
    if (is_wrong("signal-after"))
        kill(getpid(), SIGUSR1);
    if (is_wrong("read-masked"))
        sigprocmask(SIG_SETMASK, &before, NULL);
    errno = error;
    return done;
}

ssize_t readv(int fd, const struct iovec *parts, int count)
{
    long done;
    do
        done = syscall(SYS_readv, fd, parts, count);
    while (is_again(done, "readv-retried"));
    return done;
}

ssize_t write(int fd, const void *data, size_t count)
{
    size_t moved = 0;
    long done;
    do {
        done = syscall(SYS_write, fd, (const char *)data + moved, count - moved);
        moved += done > 0 ? (size_t)done : 0;
    } while (is_wrong("write-finished") && done > 0 && moved < count);
    return moved > 0 ? (ssize_t)moved : done;
}

pid_t waitpid(pid_t which, int *status, int options)
{
    long done;
    do
        done = syscall(SYS_wait4, which, status, options, NULL);
    while (is_again(done, "wait-retried"));
    return (pid_t)done;
}

int open(const char *name, int flags, ...)
{
    long done;
    do
        done = syscall(SYS_openat, AT_FDCWD, name, flags, 0600);
    while (is_again(done, "open-retried"));
    return (int)done;
}
