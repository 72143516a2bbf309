/* A system that is wrong in one way: a library that a race is run under, by LD_PRELOAD on Linux.

   WRONG_SYSTEM says which way. It is wrong only in processes of a script, which may have 32 descriptors open.

   tear        a write to a regular file is made in two halves
   late        a read moves the offset only after it has its bytes
   stale       a write under O_APPEND goes where the end was before
   lost        a read of an empty pipe is not woken by what is written then
   interleave  a write to a pipe goes in byte by byte
   gap         a rename takes the new name away before it gives it again
   own         F_SETFL changes the flags of its own descriptor alone
   halves      F_SETFL changes O_APPEND first, and O_NONBLOCK after it
   creation    F_GETFL tells O_CREAT
   turned      the writing end of a pipe has the lower number, which is not wrong
   turned-dry  and what is read from it are zeros */

#define _GNU_SOURCE
#define _FILE_OFFSET_BITS 64

#include <fcntl.h>
#include <poll.h>
#include <sched.h>
#include <stdarg.h>
#include <stdio.h>
#include <stdlib.h>
#include <string.h>
#include <sys/resource.h>
#include <sys/stat.h>
#include <sys/syscall.h>
#include <unistd.h>

enum { SCRIPT_FILES = 32, SLEEP_SECONDS = 10 };

ssize_t pwrite64(int fd, const void *bytes, size_t size, off64_t at);

/* Whether this is the way in which the system is wrong, in this process. */
static int is_wrong(const char *way)
{
    const char *wanted = getenv("WRONG_SYSTEM");
    struct rlimit files;
    if (!wanted || strcmp(wanted, way) != 0)
        return 0;
    return getrlimit(RLIMIT_NOFILE, &files) == 0 && files.rlim_cur == SCRIPT_FILES;
}

static int is_kind(int fd, mode_t kind)
{
    struct stat file;
    return fstat(fd, &file) == 0 && (file.st_mode & S_IFMT) == kind;
}

/* Lets others go on where a system ought not to. */
static void give_way(void)
{
    for (int turn = 0; turn < 3; turn++)
        sched_yield();
}

/* Writes at a place or, below 0, where the description is. */
static ssize_t put(int fd, const void *bytes, size_t size, off64_t at)
{
    return at < 0 ? syscall(SYS_write, fd, bytes, size) : syscall(SYS_pwrite64, fd, bytes, size, at);
}

/* Writes in pieces of a size, and gives way after each. */
static ssize_t put_pieces(int fd, const char *bytes, size_t size, off64_t at, size_t piece)
{
    size_t done = 0;
    while (done < size) {
        size_t next = size - done < piece ? size - done : piece;
        ssize_t moved = put(fd, bytes + done, next, at < 0 ? at : at + (off64_t)done);
        if (moved <= 0)
            return done > 0 ? (ssize_t)done : moved;
        done += (size_t)moved;
        give_way();
    }
    return (ssize_t)done;
}

/* Opens anew what a descriptor leads to. */
static int open_again(int fd, int flags)
{
    char path[64];
    snprintf(path, sizeof path, "/proc/self/fd/%d", fd);
    return open(path, flags);
}

/* Writes where the end was before others had their turn: by a description of its own, which is not under O_APPEND. */
static ssize_t put_stale(int fd, const void *bytes, size_t size)
{
    struct stat file;
    ssize_t moved;
    int own = open_again(fd, O_WRONLY);
    if (own < 0 || fstat(fd, &file) != 0)
        return -1;
    give_way();
    moved = put(own, bytes, size, file.st_size);
    close(own);
    if (moved > 0)
        lseek(fd, file.st_size + moved, SEEK_SET);
    return moved;
}

ssize_t write(int fd, const void *bytes, size_t size)
{
    if (size > 1 && is_wrong("tear") && is_kind(fd, S_IFREG))
        return put_pieces(fd, bytes, size, -1, (size + 1) / 2);
    if (size > 1 && is_wrong("interleave") && is_kind(fd, S_IFIFO))
        return put_pieces(fd, bytes, size, -1, 1);
    if (is_wrong("stale") && is_kind(fd, S_IFREG) && (fcntl(fd, F_GETFL) & O_APPEND) != 0)
        return put_stale(fd, bytes, size);
    return put(fd, bytes, size, -1);
}

ssize_t pwrite64(int fd, const void *bytes, size_t size, off64_t at)
{
    if (size > 1 && at >= 0 && is_wrong("tear") && is_kind(fd, S_IFREG))
        return put_pieces(fd, bytes, size, at, (size + 1) / 2);
    return syscall(SYS_pwrite64, fd, bytes, size, at);
}

ssize_t read(int fd, void *bytes, size_t size)
{
    if (size > 0 && is_wrong("late") && is_kind(fd, S_IFREG)) {
        off64_t at = lseek(fd, 0, SEEK_CUR);
        ssize_t moved = syscall(SYS_pread64, fd, bytes, size, at);
        give_way();
        if (moved > 0)
            lseek(fd, at + moved, SEEK_SET);
        return moved;
    }
    if (is_wrong("turned-dry") && is_kind(fd, S_IFIFO)) {
        ssize_t moved = syscall(SYS_read, fd, bytes, size);
        if (moved > 0)
            memset(bytes, 0, (size_t)moved);
        return moved;
    }
    if (is_wrong("lost") && is_kind(fd, S_IFIFO) && (fcntl(fd, F_GETFL) & O_NONBLOCK) == 0) {
        struct pollfd one = {fd, POLLIN, 0};
        if (poll(&one, 1, 0) == 0)
            sleep(SLEEP_SECONDS);
    }
    return syscall(SYS_read, fd, bytes, size);
}

int rename(const char *old, const char *new)
{
    struct stat one, other;
    if (is_wrong("gap") && stat(old, &one) == 0 && stat(new, &other) == 0 && one.st_ino != other.st_ino) {
        unlink(new);
        give_way();
    }
    return (int)syscall(SYS_renameat2, AT_FDCWD, old, AT_FDCWD, new, 0);
}

static int get_flags(int fd) { return (int)syscall(SYS_fcntl, fd, F_GETFL, 0L); }
static int set_flags(int fd, int flags) { return (int)syscall(SYS_fcntl, fd, F_SETFL, (long)flags); }

/* Sets the flags of a new description, which the descriptor then leads to alone. */
static int set_own(int fd, int flags)
{
    off64_t at = lseek(fd, 0, SEEK_CUR);
    int own = open_again(fd, (get_flags(fd) & O_ACCMODE) | O_NONBLOCK);
    if (own < 0 || dup2(own, fd) < 0)
        return -1;
    close(own);
    if (at >= 0)
        lseek(fd, at, SEEK_SET);
    return set_flags(fd, flags);
}

int fcntl(int fd, int command, ...)
{
    va_list rest;
    int value;
    va_start(rest, command);
    value = command == F_GETFL ? 0 : va_arg(rest, int);
    va_end(rest);
    if (command == F_SETFL && get_flags(fd) >= 0 && is_wrong("own"))
        return set_own(fd, value);
    if (command == F_SETFL && is_wrong("halves")) {
        set_flags(fd, (get_flags(fd) & ~O_APPEND) | (value & O_APPEND));
        give_way();
    }
    if (command == F_GETFL && get_flags(fd) >= 0 && is_wrong("creation"))
        return get_flags(fd) | O_CREAT;
    return (int)syscall(SYS_fcntl, fd, command, (long)value);
}

/* Gives the writing end the lower number, and the reading end the other one. */
int pipe(int ends[2])
{
    int own;
    if (syscall(SYS_pipe2, ends, 0) != 0)
        return -1;
    if (!is_wrong("turned") && !is_wrong("turned-dry"))
        return 0;
    own = (int)syscall(SYS_fcntl, ends[0], F_DUPFD, (long)(ends[1] + 1));
    if (own < 0)
        return 0;
    dup2(ends[1], ends[0]);
    dup2(own, ends[1]);
    close(own);
    own = ends[0];
    ends[0] = ends[1];
    ends[1] = own;
    return 0;
}
