/* Mixes files of fdref with those of the kernel, and checks the number of each.

   usage: preload_numbers mixed|full|closed|high

   It runs in an empty folder, by itself or with the library of clients/preload, with the descriptors 0, 1 and 2 alone.
   mixed: files of both are opened, duplicated and closed in turns. full: until no number is free, with a limit of 32.
   closed: descriptor 0 is closed at the start. high: every number up to a limit of 1,024 is taken. The line of each
   check that fails is printed, and the status is 1 then. */

#include "preload.h"

#include <sys/resource.h>

static char bytes[100];

/* What a descriptor leads to: n the null device, z the device of zeros, f a file with this size. */
static void leads(int fd, char kind, long long size)
{
    errno = 0;
    if (kind == 'n') {
        GIVES(write(fd, "null", 4), 4);
        GIVES(read(fd, bytes, 4), 0);
    } else if (kind == 'z') {
        memset(bytes, 1, sizeof bytes);
        GIVES(read(fd, bytes, 9), 9);
        CHECK(bytes[0] == 0 && bytes[8] == 0 && bytes[9] == 1);
    } else {
        GIVES(lseek(fd, 0, SEEK_END), size);
    }
}

static void open_in_turns(void)
{
    int ends[2];
    GIVES(open("a", O_RDWR | O_CREAT, 0600), 3);
    GIVES(open("/dev/null", O_RDWR), 4);
    GIVES(open("b", O_RDWR | O_CREAT, 0600), 5);
    GIVES(pipe(ends), 0);
    GIVES(ends[0] * 100 + ends[1], 607);
    GIVES(close(4), 0);
    GIVES(open("c", O_RDWR | O_CREAT, 0600), 4);
    GIVES(open("/dev/zero", O_RDONLY | O_CLOEXEC), 8);
    GIVES(fcntl(8, F_GETFD), FD_CLOEXEC);
    GIVES(open("/dev/../dev/null", O_RDWR), 9);
    GIVES(open("..", O_RDONLY | O_DIRECTORY), 10);
    GIVES(openat(10, "/dev/null", O_RDWR), 11);
    GIVES(openat(10, "..", O_RDONLY | O_DIRECTORY), 12);
    FAILS(open("/no/such/file", O_RDONLY), ENOENT);
    FAILS(openat(3, "a", O_RDONLY), ENOTDIR);
    errno = 0;
    GIVES(dup(0), 13);
    GIVES(write(3, "aaa", 3), 3);
    GIVES(write(5, "bbbbb", 5), 5);
    leads(3, 'f', 3);
    leads(5, 'f', 5);
    leads(4, 'f', 0);
    leads(8, 'z', 0);
    leads(9, 'n', 0);
    leads(11, 'n', 0);
}

static void duplicate_in_turns(void)
{
    GIVES(dup(8), 14);
    GIVES(fcntl(14, F_GETFD), 0);
    leads(14, 'z', 0);
    GIVES(fcntl(9, F_DUPFD, 20), 20);
    GIVES(fcntl(9, F_DUPFD_CLOEXEC, 20), 21);
    GIVES(fcntl(21, F_GETFD), FD_CLOEXEC);
    GIVES(fcntl(3, F_DUPFD, 20), 22);
    leads(20, 'n', 0);
    leads(22, 'f', 3);
    GIVES(dup2(9, 5), 5);
    leads(5, 'n', 0);
    GIVES(dup2(3, 9), 9);
    leads(9, 'f', 3);
    GIVES(dup3(8, 31, O_CLOEXEC), 31);
    leads(31, 'z', 0);
    GIVES(dup2(31, 31), 31);
    FAILS(dup2(31, -1), EBADF);
    FAILS(dup3(31, 31, 0), EINVAL);
    FAILS(fcntl(31, F_DUPFD, -1), EINVAL);
    errno = 0;
    GIVES(dup2(4, 31), 31);
    leads(31, 'f', 0);
    GIVES(dup(5), 15);
    leads(15, 'n', 0);
}

/* Standard output is a file of fdref for a while. */
static void redirect(void)
{
    int saved = dup(1);
    GIVES(saved, 16);
    GIVES(dup2(3, 1), 1);
    GIVES(write(1, "four", 4), 4);
    GIVES(dup2(saved, 1), 1);
    GIVES(close(saved), 0);
    GIVES(pread(3, bytes, 99, 3), 4);
    CHECK(memcmp(bytes, "four", 4) == 0);
    GIVES(write(1, "said\n", 5), 5);
}

/* The end of a pipe of the kernel goes with its number. */
static void close_ends(int is_by_dup2)
{
    int ends[2];
    GIVES(pipe2(ends, O_NONBLOCK | O_DIRECT), 0);
    GIVES(ends[0] * 100 + ends[1], 1617);
    FAILS(read(ends[0], bytes, 1), EAGAIN);
    errno = 0;
    GIVES(is_by_dup2 ? dup2(3, ends[1]) : close(ends[1]), is_by_dup2 ? ends[1] : 0);
    GIVES(read(ends[0], bytes, 1), 0);
    GIVES(close(ends[0]), 0);
    if (is_by_dup2)
        GIVES(close(ends[1]), 0);
}

static void close_in_turns(void)
{
    close_ends(0);
    close_ends(1);
    GIVES(close(0), 0);
    GIVES(open("a", O_RDONLY), 0);
    GIVES(close(0), 0);
    GIVES(open("/dev/zero", O_RDONLY), 0);
    leads(0, 'z', 0);
    GIVES(fclose(stdin), 0);
    GIVES(dup(3), 0);
    leads(0, 'f', 7);
    GIVES(close(31), 0);
    FAILS(close(31), EBADF);
    FAILS(read(31, bytes, 1), EBADF);
    FAILS(isatty(31) - 1, EBADF);
    errno = 0;
#if defined CLOSE_RANGE_CLOEXEC || defined CLOSE_RANGE_UNSHARE
    GIVES(close_range(4, 12, 0), 0);
    GIVES(open("a", O_RDONLY), 4);
    GIVES(open("/dev/null", O_RDWR), 5);
    closefrom(4);
    GIVES(open("/dev/null", O_RDWR), 4);
    leads(4, 'n', 0);
    leads(3, 'f', 7);
    GIVES(dup(3), 5);
#endif
}

/* What the C library opens by itself is duplicated, and what a program does not know is closed. */
static void high_numbers(void)
{
    FILE *file = fopen("/dev/zero", "r");
    CHECK(file != NULL);
    errno = 0;
    GIVES(dup2(fileno(file), 20), 20);
    GIVES(fcntl(fileno(file), F_DUPFD_CLOEXEC, 20), 21);
    GIVES(fclose(file), 0);
    leads(20, 'z', 0);
    leads(21, 'z', 0);
    GIVES(close(20), 0);
    GIVES(close(21), 0);
    for (int fd = 32; fd < 1100; fd++)
        FAILS(close(fd), EBADF);
    errno = 0;
}

static void take_high_numbers(void)
{
    GIVES(open("a", O_RDWR | O_CREAT, 0600), 3);
    for (int fd = 32; fd < 1024; fd++) {
        GIVES(dup2(3, fd), fd);
        GIVES(close(fd), 0);
    }
    GIVES(dup(3), 4);
}

/* Until no number is free. */
static void fill(void)
{
    int ends[2];
    struct rlimit most;
    CHECK(getdtablesize() == 32 && sysconf(_SC_OPEN_MAX) == 32);
    CHECK(getrlimit(RLIMIT_NOFILE, &most) == 0 && most.rlim_cur == 32);
#ifdef __GLIBC__
    CHECK(prlimit(0, RLIMIT_NOFILE, NULL, &most) == 0 && most.rlim_cur == 32);
    CHECK(prlimit(getpid(), RLIMIT_NOFILE, &most, NULL) == 0);
#endif
    CHECK(setrlimit(RLIMIT_NOFILE, &most) == 0);
    errno = 0;
    for (int fd = 3; fd < 32; fd++)
        GIVES(open(fd % 2 ? "a" : "/dev/null", O_RDWR | O_CREAT, 0600), fd);
    FAILS(open("a", O_RDONLY), EMFILE);
    FAILS(open("/dev/null", O_RDONLY), EMFILE);
    FAILS(dup(3), EMFILE);
    FAILS(dup(4), EMFILE);
    FAILS(fcntl(3, F_DUPFD, 5), EMFILE);
    FAILS(fcntl(4, F_DUPFD, 5), EMFILE);
    FAILS(fcntl(3, F_DUPFD, 32), EINVAL);
    FAILS(fcntl(4, F_DUPFD, 32), EINVAL);
    FAILS(dup2(3, 32), EBADF);
    FAILS(dup2(4, 32), EBADF);
    FAILS(pipe(ends), EMFILE);
    errno = 0;
    GIVES(close(4), 0);
    FAILS(pipe(ends), EMFILE);
    errno = 0;
    GIVES(dup2(3, 31), 31);
    GIVES(dup(6), 4);
    leads(4, 'n', 0);
    GIVES(close(31), 0);
    GIVES(dup2(4, 31), 31);
    leads(31, 'n', 0);
}

/* Descriptor 0 is no file at the start. */
static void begin_closed(void)
{
    FAILS(read(0, bytes, 1), EBADF);
    FAILS(fcntl(0, F_GETFD), EBADF);
    errno = 0;
    GIVES(open("a", O_RDWR | O_CREAT, 0600), 0);
    GIVES(open("/dev/null", O_RDWR), 3);
    GIVES(dup2(0, 1), 1);
    GIVES(dup2(0, 2), 2);
    GIVES(dup2(0, 3), 3);
    GIVES(open("/dev/null", O_RDWR), 4);
    leads(4, 'n', 0);
    GIVES(dup2(4, 1), 1);
    leads(1, 'n', 0);
}

int main(int count, char **given)
{
    errno = 0;
    if (count != 2)
        return 2;
    if (strcmp(given[1], "full") == 0) {
        fill();
    } else if (strcmp(given[1], "closed") == 0) {
        begin_closed();
    } else if (strcmp(given[1], "high") == 0) {
        take_high_numbers();
    } else {
        high_numbers();
        open_in_turns();
        duplicate_in_turns();
        redirect();
        close_in_turns();
    }
    return failures > 0;
}
