/* Makes each call that the library of clients/preload answers, and checks what it gives. It runs in an empty folder,
   natively or asking a server, with the descriptors 0, 1 and 2 alone. It has three children. The line of each check that
   fails is printed, and the status is 1 then. */

#include "preload.h"

#include <stdarg.h>

enum { LARGE_SIZE = 66000 };

static char bytes[LARGE_SIZE], large[LARGE_SIZE];

#ifdef __GLIBC__
int __dprintf_chk(int fd, int flag, const char *format, ...);
int __vdprintf_chk(int fd, int flag, const char *format, va_list values);
int __open_2(const char *name, int flags);
int __open64_2(const char *name, int flags);
int __openat_2(int folder, const char *name, int flags);
int __openat64_2(int folder, const char *name, int flags);
ssize_t __read_chk(int fd, void *buffer, size_t count, size_t room);
ssize_t __pread_chk(int fd, void *buffer, size_t count, off_t offset, size_t room);
ssize_t __pread64_chk(int fd, void *buffer, size_t count, off64_t offset, size_t room);
ssize_t __read(int fd, void *buffer, size_t count);
ssize_t __write(int fd, const void *data, size_t count);
ssize_t __pread64(int fd, void *buffer, size_t count, off64_t offset);
ssize_t __pwrite64(int fd, const void *data, size_t count, off64_t offset);
int __open(const char *name, int flags, ...);
int __open64(const char *name, int flags, ...);
int __close(int fd);
off_t __lseek(int fd, off_t offset, int whence);
int __fcntl(int fd, int command, ...);
int __dup2(int fd, int to);
int __pipe(int ends[2]);
#endif

/* What F_GETFL tells, but for O_LARGEFILE. */
static int flags_of(int fd)
{
    int flags = fcntl(fd, F_GETFL);
    return flags < 0 ? flags : flags & (O_ACCMODE | O_APPEND | O_NONBLOCK);
}

static void closes(int first, int last)
{
    for (int fd = first; fd <= last; fd++)
        GIVES(close(fd), 0);
}

static void opens(void)
{
    GIVES(open("a", O_RDWR | O_CREAT | O_EXCL, 0600), 3);
    GIVES(openat(AT_FDCWD, "./a", O_RDONLY | O_NOCTTY | O_NOFOLLOW), 4);
    GIVES(open(".//.///a", O_WRONLY | O_SYNC | O_DSYNC), 5);
    GIVES(creat("b", 0600), 6);
    closes(3, 6);
    FAILS(open("none", O_RDONLY), ENOENT);
    FAILS(open("", O_RDONLY), ENOENT);
    FAILS(open("a", O_RDWR | O_CREAT | O_EXCL, 0600), EEXIST);
    FAILS(close(3), EBADF);
    FAILS(close(-1), EBADF);
    errno = 0;
}

static void moves(void)
{
    struct iovec parts[] = {{bytes, 2}, {NULL, 0}, {bytes + 10, 5}};
    int fd = open("a", O_RDWR | O_CREAT | O_TRUNC, 0600);
    GIVES(write(fd, "hello", 5), 5);
    GIVES(write(fd, NULL, 0), 0);
    GIVES(lseek(fd, -3, SEEK_END), 2);
    GIVES(read(fd, bytes, 9), 3);
    CHECK(memcmp(bytes, "llo", 3) == 0);
    GIVES(read(fd, bytes, 9), 0);
    GIVES(pread(fd, bytes, 3, 1), 3);
    CHECK(memcmp(bytes, "ell", 3) == 0);
    GIVES(pwrite(fd, "!!", 2, 6), 2);
    GIVES(lseek(fd, 0, SEEK_SET), 0);
    GIVES(readv(fd, parts, 3), 7);
    CHECK(memcmp(bytes, "he", 2) == 0 && memcmp(bytes + 10, "llo\0!", 5) == 0);
    GIVES(writev(fd, parts, 3), 7);
    GIVES(lseek(fd, 0, SEEK_CUR), 14);
    GIVES(pread(fd, bytes, 99, 6), 8);
    CHECK(memcmp(bytes, "!hello\0!", 8) == 0);
    GIVES(readv(fd, parts, 0), 0);
    GIVES(ftruncate(fd, 4), 0);
    GIVES(pread(fd, bytes, 99, 0), 4);
    GIVES(close(fd), 0);
}

static void errors(void)
{
    struct iovec part = {bytes, 4}, wrong[] = {{bytes, SSIZE_MAX}, {bytes, SSIZE_MAX}};
    int reading = open("a", O_RDONLY), writing = open("a", O_WRONLY | O_APPEND);
    volatile int none = -1;
    FAILS(write(reading, "x", 1), EBADF);
    FAILS(writev(reading, &part, 1), EBADF);
    FAILS(read(writing, bytes, 1), EBADF);
    FAILS(readv(writing, &part, 1), EBADF);
    FAILS(readv(reading, &part, none), EINVAL);
    FAILS(readv(reading, wrong, 2), EINVAL);
    FAILS(pread(reading, bytes, 1, -1), EINVAL);
    FAILS(lseek(reading, -1, SEEK_SET), EINVAL);
    FAILS(lseek(reading, 0, 99), EINVAL);
    FAILS(ftruncate(reading, 0), EINVAL);
    FAILS(ftruncate(writing, -1), EINVAL);
    FAILS(read(9, bytes, 1), EBADF);
    FAILS(write(-5, bytes, 1), EBADF);
    FAILS(lseek(9, 0, SEEK_SET), EBADF);
    FAILS(dup(9), EBADF);
    FAILS(dup2(9, 4), EBADF);
    FAILS(dup2(reading, -1), EBADF);
    FAILS(dup3(reading, reading, 0), EINVAL);
    FAILS(dup3(reading, 9, O_APPEND), EINVAL);
    FAILS(fcntl(9, F_DUPFD, 5), EBADF);
    FAILS(fcntl(9, F_DUPFD, 0), EBADF);
    FAILS(fcntl(reading, F_DUPFD, -1), EINVAL);
    FAILS(fcntl(9, F_GETFD), EBADF);
    FAILS(fcntl(9, F_GETFL), EBADF);
    FAILS(fcntl(-1, F_GETFL), EBADF);
    FAILS(fcntl(9, F_SETFL, O_APPEND), EBADF);
    FAILS(fcntl(-1, F_SETFL, 0), EBADF);
    FAILS(fcntl(9, F_SETFL, O_ASYNC), EBADF);
    FAILS(fsync(9), EBADF);
    errno = 0;
    GIVES(write(writing, "ab", 2), 2);
    GIVES(lseek(writing, 0, SEEK_CUR), 6);
    closes(reading, writing);
}

static int print(int fd, const char *format, ...)
{
    int done;
    va_list values;
    va_start(values, format);
    done = vdprintf(fd, format, values);
    va_end(values);
    return done;
}

#ifdef __GLIBC__
static int print_checked(int fd, const char *format, ...)
{
    int done;
    va_list values;
    va_start(values, format);
    done = __vdprintf_chk(fd, 1, format, values);
    va_end(values);
    return done;
}
#endif

/* What the C library would format and write by itself. */
static void prints(void)
{
    const char *none = "";
    int fd = open("text", O_RDWR | O_CREAT, 0600), reading = open("text", O_RDONLY), ends[2];
    GIVES(dprintf(fd, "%s %d\n", "one", 2), 6);
    GIVES(print(fd, "%c%%", 'x'), 2);
    GIVES(dprintf(fd, "%s", none), 0);
#ifdef __GLIBC__
    GIVES(__dprintf_chk(fd, 1, "%03d", 7), 3);
    GIVES(print_checked(fd, "%s", "!"), 1);
#endif
    GIVES(lseek(fd, 0, SEEK_CUR), 12);
    GIVES(pread(fd, bytes, 99, 0), 12);
    CHECK(memcmp(bytes, "one 2\nx%007!", 12) == 0);
    GIVES(dprintf(fd, "%70000d", 5), 70000);
    GIVES(pread(fd, bytes, 9, 70008), 4);
    CHECK(memcmp(bytes, "   5", 4) == 0);
    FAILS(dprintf(reading, "x"), EBADF);
    FAILS(dprintf(9, "%s", none), EBADF);
    FAILS(print(-1, "x"), EBADF);
    errno = 0;
    GIVES(pipe(ends), 0);
    GIVES(dprintf(ends[1], "%s", "through"), 7);
    GIVES(read(ends[0], bytes, 9), 7);
    CHECK(memcmp(bytes, "through", 7) == 0);
    closes(fd, ends[1]);
}

/* What is told of limits is fdref's. */
static void limits(void)
{
    int fd = open("a", O_RDONLY), ends[2];
    GIVES(pipe(ends), 0);
    GIVES(fpathconf(ends[1], _PC_PIPE_BUF), 512);
    GIVES(fpathconf(fd, _PC_PIPE_BUF), 512);
    GIVES(fpathconf(fd, _PC_NAME_MAX), 64);
    GIVES(fpathconf(fd, _PC_LINK_MAX), 8);
    GIVES(fpathconf(fd, _PC_FILESIZEBITS), 42);
    GIVES(fpathconf(fd, _PC_NO_TRUNC), 1);
    GIVES(pathconf("a", _PC_NAME_MAX), 64);
    GIVES(pathconf("./a", _PC_PIPE_BUF), 512);
    GIVES(pathconf(".", _PC_NAME_MAX), 64);
    GIVES(pathconf("/dev", _PC_NAME_MAX), 255);
    FAILS(fpathconf(9, _PC_NAME_MAX), EBADF);
    FAILS(fpathconf(-1, _PC_PIPE_BUF), EBADF);
    FAILS(pathconf("none", _PC_NAME_MAX), ENOENT);
    errno = 0;
    closes(fd, ends[1]);
}

/* A folder is the kernel's, also where its name is plain. */
static void folders(void)
{
    struct stat told;
    int fd = open("file", O_RDONLY | O_CREAT, 0600);
    GIVES(mkdir("folder", 0700), 0);
    GIVES(stat("folder", &told), 0);
    CHECK(S_ISDIR(told.st_mode));
    GIVES(access("folder", X_OK), 0);
    GIVES(open("folder", O_RDONLY), fd + 1);
    FAILS(open("folder", O_WRONLY | O_CREAT, 0600), EISDIR);
    FAILS(unlink("folder"), EISDIR);
    FAILS(rename("file", "folder"), EISDIR);
    FAILS(rename("folder", "file"), ENOTDIR);
    FAILS(rename("none", "folder"), ENOENT);
    errno = 0;
    GIVES(rename("folder", "./other"), 0);
    FAILS(stat("folder", &told), ENOENT);
    FAILS(chmod("none", 0600), ENOENT);
    FAILS(readlink("none", bytes, 9), ENOENT);
    FAILS(open("none", O_RDONLY | O_DIRECTORY), ENOENT);
    FAILS(open("file", O_RDONLY | O_DIRECTORY), ENOTDIR);
    errno = 0;
    GIVES(rmdir("other"), 0);
    GIVES(unlink("file"), 0);
    closes(fd, fd + 1);
}

/* More than fdref moves in one call. */
static void large_transfers(void)
{
    struct iovec parts[] = {{bytes, 100}, {bytes + 100, LARGE_SIZE - 100}};
    int fd = open("large", O_RDWR | O_CREAT, 0600);
    for (size_t at = 0; at < LARGE_SIZE; at++)
        large[at] = (char)(at * 7 % 251);
    GIVES(write(fd, large, LARGE_SIZE), LARGE_SIZE);
    GIVES(pread(fd, bytes, LARGE_SIZE, 1), LARGE_SIZE - 1);
    CHECK(memcmp(bytes, large + 1, LARGE_SIZE - 1) == 0);
    GIVES(lseek(fd, 0, SEEK_SET), 0);
    GIVES(readv(fd, parts, 2), LARGE_SIZE);
    CHECK(memcmp(bytes, large, LARGE_SIZE) == 0);
    GIVES(ftruncate(fd, 65536), 0);
    GIVES(lseek(fd, 0, SEEK_SET), 0);
    GIVES(read(fd, bytes, LARGE_SIZE), 65536);
    GIVES(pwrite(fd, large, LARGE_SIZE, 65535), LARGE_SIZE);
    GIVES(close(fd), 0);
}

static void duplicates(void)
{
    int fd = open("a", O_RDWR | O_APPEND | O_CLOEXEC);
    GIVES(fd, 3);
    GIVES(fcntl(fd, F_GETFD), FD_CLOEXEC);
    GIVES(dup(fd), 4);
    GIVES(fcntl(4, F_GETFD), 0);
    GIVES(fcntl(4, F_SETFD, FD_CLOEXEC), 0);
    GIVES(fcntl(4, F_GETFD), FD_CLOEXEC);
    GIVES(ioctl(4, FIONCLEX), 0);
    GIVES(fcntl(4, F_GETFD), 0);
    GIVES(dup2(fd, 9), 9);
    GIVES(dup2(fd, fd), fd);
    GIVES(fcntl(fd, F_GETFD), FD_CLOEXEC);
    GIVES(dup3(fd, 10, O_CLOEXEC), 10);
    GIVES(fcntl(10, F_GETFD), FD_CLOEXEC);
    GIVES(fcntl(fd, F_DUPFD, 9), 11);
    GIVES(fcntl(fd, F_DUPFD, 0), 5);
    GIVES(fcntl(fd, F_DUPFD_CLOEXEC, 20), 20);
    GIVES(fcntl(20, F_GETFD), FD_CLOEXEC);
    GIVES(flags_of(20), O_RDWR | O_APPEND);
    GIVES(lseek(fd, 1, SEEK_SET), 1);
    GIVES(lseek(20, 0, SEEK_CUR), 1);
    CHECK(isatty(fd) == 0 && errno == ENOTTY);
    errno = 0;
    GIVES(fsync(fd), 0);
    GIVES(fdatasync(fd), 0);
    closes(3, 5);
    closes(9, 11);
    GIVES(close(20), 0);
}

/* The flags of a description are those of all its descriptors, and of no other. */
static void flags(void)
{
    int fd = open("a", O_RDWR | O_APPEND), other = dup(fd), own = open("a", O_RDONLY | O_NONBLOCK);
    GIVES(ftruncate(fd, 4), 0);
    GIVES(flags_of(fd), O_RDWR | O_APPEND);
    GIVES(flags_of(own), O_RDONLY | O_NONBLOCK);
    GIVES(fcntl(other, F_SETFL, O_NONBLOCK), 0);
    GIVES(flags_of(fd), O_RDWR | O_NONBLOCK);
    GIVES(write(fd, "x", 1), 1);
    GIVES(lseek(fd, 0, SEEK_CUR), 1);
    GIVES(fcntl(fd, F_SETFL, fcntl(fd, F_GETFL) | O_APPEND), 0);
    GIVES(flags_of(other), O_RDWR | O_APPEND | O_NONBLOCK);
    GIVES(write(other, "y", 1), 1);
    GIVES(lseek(fd, 0, SEEK_CUR), 5);
    GIVES(fcntl(own, F_SETFL, O_WRONLY | O_CREAT | O_EXCL | O_TRUNC | O_SYNC | O_NOCTTY | O_DIRECTORY), 0);
    GIVES(flags_of(own), O_RDONLY);
    GIVES(read(own, bytes, 9), 5);
    FAILS(write(own, "z", 1), EBADF);
    errno = 0;
    GIVES(flags_of(fd), O_RDWR | O_APPEND | O_NONBLOCK);
    GIVES(fcntl(fd, F_SETFL, 0), 0);
    GIVES(flags_of(other), O_RDWR);
    closes(fd, own);
}

static void pipes(void)
{
    int ends[2], others[2], on = 1, off = 0;
    GIVES(pipe(ends), 0);
    GIVES(ends[0] * 100 + ends[1], 304);
    GIVES(pipe2(others, O_CLOEXEC), 0);
    GIVES(others[0] * 100 + others[1], 506);
    GIVES(fcntl(5, F_GETFD), FD_CLOEXEC);
    GIVES(fcntl(5, F_GETFL), O_RDONLY);
    GIVES(fcntl(6, F_GETFL), O_WRONLY);
    GIVES(fcntl(3, F_SETFL, O_NONBLOCK), 0);
    GIVES(fcntl(3, F_GETFL), O_RDONLY | O_NONBLOCK);
    GIVES(fcntl(4, F_GETFL), O_WRONLY);
    FAILS(read(3, bytes, 2), EAGAIN);
    errno = 0;
    GIVES(fcntl(4, F_SETFL, O_APPEND), 0);
    GIVES(fcntl(4, F_GETFL), O_WRONLY | O_APPEND);
    GIVES(ioctl(4, FIONBIO, &on), 0);
    GIVES(fcntl(4, F_GETFL), O_WRONLY | O_APPEND | O_NONBLOCK);
    GIVES(fcntl(3, F_SETFL, O_RDONLY), 0);
    GIVES(fcntl(3, F_GETFL), O_RDONLY);
    GIVES(ioctl(4, FIONBIO, &off), 0);
    GIVES(fcntl(4, F_GETFL), O_WRONLY | O_APPEND);
    FAILS(ioctl(9, FIONBIO, &on), EBADF);
    errno = 0;
    GIVES(write(4, "xyz", 3), 3);
    GIVES(read(3, bytes, 2), 2);
    GIVES(close(4), 0);
    GIVES(read(3, bytes, 2), 1);
    GIVES(read(3, bytes, 2), 0);
    FAILS(lseek(3, 0, SEEK_CUR), ESPIPE);
    FAILS(pread(3, bytes, 1, 0), ESPIPE);
    FAILS(fsync(3), EINVAL);
    FAILS(fdatasync(3), EINVAL);
    errno = 0;
    GIVES(close(3), 0);
    closes(5, 6);
    GIVES(pipe2(ends, O_NONBLOCK | O_CLOEXEC), 0);
    GIVES(ends[0] * 100 + ends[1], 304);
    GIVES(fcntl(3, F_GETFL), O_RDONLY | O_NONBLOCK);
    GIVES(fcntl(4, F_GETFL), O_WRONLY | O_NONBLOCK);
    GIVES(fcntl(3, F_GETFD), FD_CLOEXEC);
    GIVES(fcntl(4, F_GETFD), FD_CLOEXEC);
    FAILS(read(3, bytes, 1), EAGAIN);
    errno = 0;
    closes(3, 4);
}

static void names(void)
{
    GIVES(mkfifo("f", 0600), 0);
    FAILS(mkfifoat(AT_FDCWD, "./f", 0600), EEXIST);
    errno = 0;
    GIVES(link("a", "c"), 0);
    GIVES(linkat(AT_FDCWD, "c", AT_FDCWD, "d", 0), 0);
    FAILS(link("a", "c"), EEXIST);
    FAILS(link("none", "e"), ENOENT);
    FAILS(link("/dev/null", "e"), EXDEV);
    FAILS(link("a", "/dev/none"), EXDEV);
    errno = 0;
    GIVES(unlink("c"), 0);
    GIVES(unlinkat(AT_FDCWD, "d", 0), 0);
    GIVES(remove("b"), 0);
    FAILS(unlink("b"), ENOENT);
    FAILS(remove("b"), ENOENT);
    FAILS(open("f", O_WRONLY | O_NONBLOCK), ENXIO);
    errno = 0;
    GIVES(open("f", O_RDONLY | O_NONBLOCK), 3);
    GIVES(read(3, bytes, 1), 0);
    GIVES(open("f", O_WRONLY | O_NONBLOCK), 4);
    FAILS(read(3, bytes, 1), EAGAIN);
    errno = 0;
    GIVES(fcntl(3, F_SETFL, 0), 0);
    GIVES(flags_of(3), O_RDONLY);
    GIVES(flags_of(4), O_WRONLY | O_NONBLOCK);
    closes(3, 4);
}

/* A name leads to the file that is renamed to it, and what is open stays. */
static void renames(void)
{
    struct stat told;
    int one = open("one", O_RDWR | O_CREAT, 0600), two = open("two", O_RDWR | O_CREAT, 0600);
    GIVES(write(one, "one", 3), 3);
    GIVES(write(two, "second", 6), 6);
    GIVES(rename("one", "two"), 0);
    FAILS(open("one", O_RDONLY), ENOENT);
    errno = 0;
    GIVES(pread(two, bytes, 9, 0), 6);
    CHECK(memcmp(bytes, "second", 6) == 0);
    CHECK(fstat(two, &told) == 0 && told.st_nlink == 0 && told.st_size == 6);
    GIVES(close(two), 0);
    GIVES(open("two", O_RDONLY), two);
    GIVES(read(two, bytes, 9), 3);
    CHECK(memcmp(bytes, "one", 3) == 0);
    GIVES(link("two", "three"), 0);
    GIVES(rename("two", "three"), 0);
    GIVES(rename("three", "three"), 0);
    CHECK(fstat(one, &told) == 0 && told.st_nlink == 2);
    GIVES(unlink("two"), 0);
    GIVES(renameat(AT_FDCWD, "./three", AT_FDCWD, ".//two"), 0);
    CHECK(fstat(one, &told) == 0 && told.st_nlink == 1);
    FAILS(rename("three", "two"), ENOENT);
    FAILS(rename("three", "three"), ENOENT);
    FAILS(rename("", "two"), ENOENT);
    FAILS(rename("two", ""), ENOENT);
    errno = 0;
    closes(one, two);
    GIVES(mkfifo("fifo", 0600), 0);
    GIVES(rename("fifo", "two"), 0);
    CHECK(lstat("two", &told) == 0 && S_ISFIFO(told.st_mode));
    GIVES(open("two", O_RDONLY | O_NONBLOCK), one);
    GIVES(rename("two", "fifo"), 0);
    GIVES(open("fifo", O_WRONLY), two);
    GIVES(write(two, "x", 1), 1);
    GIVES(read(one, bytes, 9), 1);
    closes(one, two);
    GIVES(unlink("fifo"), 0);
}

/* Renames that fdref has not on both sides. The kernel has /dev as a file system of its own. */
static void renames_between(void)
{
    int folder = open("/dev", O_RDONLY | O_DIRECTORY);
    GIVES(open("one", O_RDWR | O_CREAT, 0600), folder + 1);
    FAILS(rename("/dev/none", "one"), EXDEV);
    FAILS(rename("one", "/dev/none"), EXDEV);
    FAILS(rename("/dev/none", "/dev/other"), ENOENT);
    FAILS(renameat(folder, "none", AT_FDCWD, "one"), EXDEV);
    FAILS(renameat(AT_FDCWD, "one", folder, "none"), EXDEV);
    FAILS(renameat(folder, "none", folder, "other"), ENOENT);
    FAILS(renameat(AT_FDCWD, "none", AT_FDCWD, "one"), ENOENT);
    errno = 0;
#ifdef __GLIBC__
    GIVES(renameat2(AT_FDCWD, "one", AT_FDCWD, "two", 0), 0);
    GIVES(renameat2(AT_FDCWD, "two", AT_FDCWD, "one", 0), 0);
    FAILS(renameat2(folder, "none", AT_FDCWD, "one", 0), EXDEV);
    FAILS(renameat2(folder, "none", folder, "other", RENAME_NOREPLACE), ENOENT);
    errno = 0;
#endif
    GIVES(unlink("one"), 0);
    closes(folder, folder + 1);
}

/* What is told of a file by its name, and of its descriptor. */
static void looks(void)
{
    struct stat one, other;
    struct stat64 large_one;
    struct statx further;
    int fd = open("a", O_RDWR);
    GIVES(truncate("a", 6), 0);
    GIVES(stat("a", &one), 0);
    GIVES(fstat(fd, &other), 0);
    CHECK(S_ISREG(one.st_mode) && one.st_size == 6 && one.st_nlink == 1 && one.st_blksize == 4096);
    CHECK(one.st_ino == other.st_ino && one.st_dev == other.st_dev && other.st_size == 6 && S_ISREG(other.st_mode));
    GIVES(lstat("f", &one), 0);
    CHECK(S_ISFIFO(one.st_mode) && one.st_ino != other.st_ino && one.st_size == 0 && one.st_nlink == 1);
    GIVES(fstatat(AT_FDCWD, "./a", &one, 0), 0);
    GIVES(fstatat(fd, "", &other, AT_EMPTY_PATH), 0);
    CHECK(one.st_ino == other.st_ino && one.st_size == 6);
    GIVES(stat64("a", &large_one), 0);
    CHECK(large_one.st_size == 6);
    GIVES(fstat64(fd, &large_one), 0);
    GIVES(lstat64("a", &large_one), 0);
    GIVES(fstatat64(AT_FDCWD, "a", &large_one, 0), 0);
    CHECK(large_one.st_ino == other.st_ino && S_ISREG(large_one.st_mode));
    GIVES(statx(AT_FDCWD, "a", 0, STATX_BASIC_STATS, &further), 0);
    CHECK(S_ISREG(further.stx_mode) && further.stx_size == 6 && further.stx_nlink == 1);
    CHECK(further.stx_ino == other.st_ino);
    GIVES(access("a", F_OK), 0);
    GIVES(faccessat(AT_FDCWD, "a", R_OK | W_OK, 0), 0);
    GIVES(access("/dev/null", W_OK), 0);
    GIVES(stat("/dev/null", &one), 0);
    CHECK(S_ISCHR(one.st_mode));
    FAILS(access("none", F_OK), ENOENT);
    FAILS(access("a", X_OK), EACCES);
    FAILS(stat("none", &one), ENOENT);
    FAILS(stat("", &one), ENOENT);
    FAILS(truncate("none", 1), ENOENT);
    FAILS(truncate("a", -1), EINVAL);
    FAILS(truncate("f", 1), EINVAL);
    FAILS(open("a", O_RDONLY | O_DIRECTORY), ENOTDIR);
    FAILS(open("none", O_RDONLY | O_DIRECTORY), ENOENT);
    FAILS(fstat(9, &one), EBADF);
    errno = 0;
    GIVES(close(fd), 0);
}

static void forks(void)
{
    int fd = open("a", O_RDWR), ends[2];
    pid_t child;
    GIVES(pipe(ends), 0);
    child = fork();
    if (child == 0) {
        CHECK(lseek(fd, 2, SEEK_SET) == 2);
        _exit(5);
    }
    CHECK(status_of(child) == 5);
    GIVES(lseek(fd, 0, SEEK_CUR), 2);
    child = vfork();
    if (child == 0)
        _Exit(write(ends[1], "x", 1) == 1 ? 6 : 7);
    CHECK(status_of(child) == 6);
    child = fork();
    if (child == 0)
        exit(write(ends[1], "y", 1) == 1 ? 8 : 9);
    CHECK(status_of(child) == 8);
    GIVES(read(ends[0], bytes, 9), 2);
    closes(3, 5);
}

/* The names of 64 bits, and what glibc calls itself. */
static void further_names(void)
{
    int ends[2];
    GIVES(open64("g", O_RDWR | O_CREAT, 0600), 3);
    GIVES(openat64(AT_FDCWD, "g", O_RDWR), 4);
    GIVES(creat64("h", 0600), 5);
    GIVES(pwrite64(3, "hello", 5, 0), 5);
    GIVES(pread64(4, bytes, 9, 1), 4);
    GIVES(lseek64(3, 2, SEEK_SET), 2);
    GIVES(ftruncate64(3, 4), 0);
    GIVES(truncate64("g", 4), 0);
    closes(3, 5);
#ifdef __GLIBC__
    GIVES(__open_2("g", O_RDWR), 3);
    GIVES(__open64_2("g", O_RDWR), 4);
    GIVES(__openat_2(AT_FDCWD, "g", O_RDWR), 5);
    GIVES(__openat64_2(AT_FDCWD, "g", O_RDWR), 6);
    GIVES(__read_chk(3, bytes, 9, sizeof bytes), 4);
    GIVES(__pread_chk(3, bytes, 9, 1, sizeof bytes), 3);
    GIVES(__pread64_chk(3, bytes, 9, 2, sizeof bytes), 2);
    GIVES(__read(4, bytes, 1), 1);
    GIVES(__write(4, "z", 1), 1);
    GIVES(__pread64(4, bytes, 9, 0), 4);
    GIVES(__pwrite64(4, "z", 1, 0), 1);
    GIVES(__open("g", O_RDWR), 7);
    GIVES(__open64("i", O_RDWR | O_CREAT, 0600), 8);
    GIVES(__lseek(8, 3, SEEK_SET), 3);
    GIVES(__fcntl(8, F_DUPFD, 0), 9);
    GIVES(__fcntl(8, F_SETFL, O_APPEND), 0);
    GIVES(flags_of(9), O_RDWR | O_APPEND);
    GIVES(fcntl64(9, F_SETFL, O_NONBLOCK), 0);
    GIVES(fcntl64(8, F_GETFL) & (O_APPEND | O_NONBLOCK), O_NONBLOCK);
    GIVES(__dup2(8, 7), 7);
    GIVES(__pipe(ends), 0);
    GIVES(__close(ends[0]), 0);
    GIVES(__close(ends[1]), 0);
    closes(3, 9);
#endif
}

/* The number of a file by its name. */
static ino_t number_of(const char *name)
{
    struct stat told;
    return stat(name, &told) == 0 ? told.st_ino : 0;
}

/* A file keeps its number under other names, and another file does not get it while it is there. */
static void numbers(void)
{
    struct stat told;
    pid_t child;
    int fd = open("n", O_RDWR | O_CREAT, 0600);
    GIVES(fstat(fd, &told), 0);
    GIVES(rename("n", "o"), 0);
    CHECK(number_of("o") == told.st_ino);
    GIVES(close(open("n", O_RDWR | O_CREAT, 0600)), 0);
    CHECK(number_of("n") != 0 && number_of("n") != told.st_ino);
    GIVES(link("o", "p"), 0);
    GIVES(rename("o", "p"), 0);
    CHECK(number_of("o") == told.st_ino && number_of("p") == told.st_ino);
    GIVES(rename("n", "o"), 0);
    CHECK(number_of("o") != told.st_ino && number_of("p") == told.st_ino);
    GIVES(unlink("o"), 0);
    child = fork();
    if (child == 0)
        _exit(number_of("p") != told.st_ino || rename("p", "q") != 0 || link("q", "r") != 0);
    CHECK(status_of(child) == 0);
    CHECK(number_of("q") == told.st_ino && number_of("r") == told.st_ino && number_of("p") == 0);
    errno = 0;
    GIVES(close(open("p", O_RDWR | O_CREAT, 0600)), 0);
    CHECK(number_of("p") != told.st_ino);
    GIVES(fstat(fd, &told), 0);
    CHECK(number_of("r") == told.st_ino);
    GIVES(close(fd), 0);
}

int main(void)
{
    errno = 0;
    opens();
    moves();
    errors();
    prints();
    limits();
    large_transfers();
    duplicates();
    flags();
    pipes();
    names();
    renames();
    renames_between();
    folders();
    looks();
    forks();
    further_names();
    numbers();
    return failures > 0;
}
