/* Are the functions called of a library that stands between a program and the system's, by the very names that the
   program calls? With BETWEEN this is that library: its functions do nothing, but that dup2 asks for a dup of its own,
   lseek tells one byte too many, creat ends in an open, and dprintf tells of half. With NAMES each of its functions
   fails, by EXFULL.

   usage: preload_between [names] */

#define _GNU_SOURCE
#include <errno.h>
#include <fcntl.h>
#include <stdarg.h>
#include <stdio.h>
#include <string.h>
#include <sys/ioctl.h>
#include <sys/stat.h>
#include <sys/uio.h>
#include <unistd.h>

/* The names, what each gives, its parameters, and the words with which it is called. */
#define CALLS(X) \
    X(int, open64, (const char *path, int flags, ...), ("a", O_RDONLY)) \
    X(int, openat, (int folder, const char *path, int flags, ...), (AT_FDCWD, "a", O_RDONLY)) \
    X(int, openat64, (int folder, const char *path, int flags, ...), (AT_FDCWD, "a", O_RDONLY)) \
    X(int, creat, (const char *path, mode_t mode), ("a", 0600)) \
    X(int, creat64, (const char *path, mode_t mode), ("a", 0600)) \
    X(ssize_t, read, (int fd, void *to, size_t count), (3, bytes, 2)) \
    X(ssize_t, write, (int fd, const void *from, size_t count), (3, bytes, 2)) \
    X(ssize_t, pread, (int fd, void *to, size_t count, off_t at), (3, bytes, 2, 1)) \
    X(ssize_t, pread64, (int fd, void *to, size_t count, off64_t at), (3, bytes, 2, 1)) \
    X(ssize_t, pwrite, (int fd, const void *from, size_t count, off_t at), (3, bytes, 2, 1)) \
    X(ssize_t, pwrite64, (int fd, const void *from, size_t count, off64_t at), (3, bytes, 2, 1)) \
    X(ssize_t, readv, (int fd, const struct iovec *parts, int count), (3, &part, 1)) \
    X(ssize_t, writev, (int fd, const struct iovec *parts, int count), (3, &part, 1)) \
    X(int, dprintf, (int fd, const char *format, ...), (3, "%d", 12)) \
    X(off_t, lseek, (int fd, off_t offset, int whence), (3, 0, SEEK_SET)) \
    X(off64_t, lseek64, (int fd, off64_t offset, int whence), (3, 0, SEEK_SET)) \
    X(int, ftruncate, (int fd, off_t length), (3, 1)) \
    X(int, ftruncate64, (int fd, off64_t length), (3, 1)) \
    X(int, dup, (int fd), (3)) \
    X(int, dup2, (int fd, int to), (3, 9)) \
    X(int, dup3, (int fd, int to, int flags), (3, 9, 0)) \
    X(int, pipe, (int to[2]), (ends)) \
    X(int, pipe2, (int to[2], int flags), (ends, 0)) \
    X(int, mkfifo, (const char *path, mode_t mode), ("f", 0600)) \
    X(int, mkfifoat, (int folder, const char *path, mode_t mode), (AT_FDCWD, "f", 0600)) \
    X(int, link, (const char *path, const char *new_path), ("a", "b")) \
    X(int, linkat, (int folder, const char *path, int in, const char *new_path, int flags), \
      (AT_FDCWD, "a", AT_FDCWD, "b", 0)) \
    X(int, rename, (const char *path, const char *new_path), ("a", "b")) \
    X(int, renameat, (int folder, const char *path, int in, const char *new_path), (AT_FDCWD, "a", AT_FDCWD, "b")) \
    X(int, renameat2, (int folder, const char *path, int in, const char *new_path, unsigned flags), \
      (AT_FDCWD, "a", AT_FDCWD, "b", 0)) \
    X(int, unlink, (const char *path), ("a")) \
    X(int, unlinkat, (int folder, const char *path, int flags), (AT_FDCWD, "a", 0)) \
    X(int, remove, (const char *path), ("a")) \
    X(int, fcntl64, (int fd, int command, ...), (3, F_GETFL)) \
    X(int, ioctl, (int fd, unsigned long command, ...), (3, FIONBIO, &zero)) \
    X(int, fstat, (int fd, struct stat *to), (3, &told)) \
    X(int, close, (int fd), (3)) \
    X(int, access, (const char *path, int mode), ("a", 0)) \
    X(int, faccessat, (int folder, const char *path, int mode, int flags), (AT_FDCWD, "a", 0, 0)) \
    X(int, truncate, (const char *path, off_t length), ("a", 1)) \
    X(int, truncate64, (const char *path, off64_t length), ("a", 1)) \
    X(int, isatty, (int fd), (3)) \
    X(int, fsync, (int fd), (3)) \
    X(int, fdatasync, (int fd), (3)) \
    X(pid_t, fork, (void), ())

#ifdef NAMES

static int fails(void)
{
    errno = EXFULL;
    return -1;
}

#pragma GCC diagnostic ignored "-Wunused-parameter"
#define FAILS(type, name, parameters, words) type name parameters { return fails(); }
CALLS(FAILS)

#elif defined BETWEEN

int dup2(int fd, int to)
{
    int own = dup(fd);
    if (own >= 0)
        close(own);
    return to;
}

off_t lseek(int fd, off_t offset, int whence) { return fd < 0 ? -1 : offset + whence + 1; }
int rename(const char *name, const char *new_name) { return *name && *new_name ? 0 : -1; }
int link(const char *name, const char *new_name) { return *name && *new_name ? 0 : -1; }
int mkfifo(const char *name, mode_t mode) { return *name && mode ? 0 : -1; }
int ftruncate(int fd, off_t length) { return fd < 0 || length < 0 ? -1 : 0; }
int creat(const char *name, mode_t mode) { return open(name, O_WRONLY, mode); }
int dprintf(int fd, const char *format, ...) { return fd < 0 ? -1 : (int)strlen(format); }

int unlink(const char *name)
{
    errno = *name ? EPERM : ENOENT;
    return -1;
}

#else

static char bytes[2];
static struct iovec part = {bytes, 2};
static struct stat told;
static int ends[2], zero;

/* Prints the names of functions that were not called. */
static int names(void)
{
    if (open("a", O_RDWR | O_CREAT, 0666) != 3)
        return 1;
#define CALLED(type, name, parameters, words) \
    errno = 0; \
    if (name words != (type)-1 || errno != EXFULL) \
        printf("%s fails by %d\n", #name, errno);
    CALLS(CALLED)
    return 0;
}

int main(int count, char **words)
{
    int fd, to, moved, linked, made, cut, gone, created, printed;
    long at;
    if (count == 2 && strcmp(words[1], "names") == 0)
        return names();
    fd = open("a", O_RDWR | O_CREAT, 0666);
    to = dup2(fd, 9);
    at = (long)lseek(fd, 0, SEEK_SET);
    moved = rename("a", "b");
    linked = link("a", "c");
    made = mkfifo("f", 0666);
    cut = ftruncate(fd, 5);
    gone = unlink("a");
    created = creat("a", 0666);
    printed = dprintf(created, "%s", "word");
    printf("%d %ld %d %d %d %d %d %d %d\n", to, at, moved, linked, made, cut, gone, created, printed);
    return 0;
}

#endif
