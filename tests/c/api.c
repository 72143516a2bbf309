/* Uses fdref.h as a program does: what each function gives, in one thread.

   usage: api PATH

   PATH is where a server of 5 sessions and 69 records listens that nobody else uses, or will within ten seconds. The
   line of each check that fails is printed, and the status is 1 then. */

#include <limits.h>
#include <poll.h>
#include <stdio.h>
#include <string.h>
#include <sys/wait.h>

#define FDREF_IMPLEMENTATION
#include "fdref.h"

static int failures;
static char bytes[FDREF_DATA_MOST + 1];

#define CHECK(is_right) check(is_right, #is_right, __LINE__)
#define FAILS(call, number) check((call) == -1 && errno == (number), #call " fails by " #number, __LINE__)

static void check(int is_right, const char *text, int line)
{
    if (!is_right)
        printf("line %d: not so: %s (errno %d)\n", line, text, errno);
    failures += !is_right;
}

/* The lowest free descriptor of this program itself. */
static int lowest_free(void)
{
    int fd = fcntl(0, F_DUPFD, 0);
    close(fd);
    return fd;
}

/* Whether an answer is there within so many milliseconds. */
static int has_answer(const struct fdref *p, int ms)
{
    struct pollfd one = {fdref_fileno(p), POLLIN, 0};
    return poll(&one, 1, ms) > 0;
}

static void connecting(const char *path)
{
    char long_path[sizeof ((struct sockaddr_un *)NULL)->sun_path + 1];
    int fd = lowest_free();
    memset(long_path, 'p', sizeof long_path - 1);
    long_path[sizeof long_path - 1] = 0;
    CHECK(fdref_join("") == NULL && errno == ENOENT);
    CHECK(fdref_join("/no/such/socket") == NULL && errno == ENOENT);
    CHECK(fdref_join_within("/no/such/socket", 0) == NULL && errno == ENOENT);
    CHECK(fdref_join(long_path + 1) == NULL && errno == ENOENT);
    CHECK(fdref_join(long_path) == NULL && errno == ENAMETOOLONG);
    CHECK(fdref_join("/dev/null") == NULL && errno == ECONNREFUSED);
    CHECK(fdref_attach(path, -1) == NULL && errno == ESRCH);
    CHECK(fdref_attach(path, 7) == NULL && errno == ESRCH);
    fdref_exit(NULL);
    CHECK(lowest_free() == fd);
}

static void names(void)
{
    CHECK(strcmp(fdref_error_name(EBADF), "EBADF") == 0 && strcmp(fdref_error_name(ESRCH), "ESRCH") == 0);
    CHECK(strcmp(fdref_error_name(EDQUOT), "RunFull") == 0 && strcmp(fdref_error_name(ESTALE), "Foreign") == 0);
    CHECK(strcmp(fdref_no_process(ETIMEDOUT), "no answer: all sessions are taken, the server can take no further connection "
                                              "or is late, or no fdref listens there") == 0);
    CHECK(strcmp(fdref_no_process(ECONNRESET), "the server ended, or had no memory, descriptor or thread for this process") == 0);
    CHECK(strcmp(fdref_no_process(EAGAIN), "the run has as many processes as it may") == 0);
    CHECK(strcmp(fdref_no_process(EDQUOT), "the run has no record free for this process") == 0);
    CHECK(strcmp(fdref_no_process(ESRCH), "there is no child of this number to be attached") == 0);
    CHECK(strcmp(fdref_no_process(ENOENT), strerror(ENOENT)) == 0);
    CHECK(fdref_error_name(0) == NULL && fdref_error_name(EINPROGRESS) == NULL && fdref_error_name(ECONNRESET) == NULL);
}

/* The calls that neither wait nor fail. */
static void calls(struct fdref *p)
{
    struct fdref_stat stat;
    int ends[2];
    CHECK(fdref_open(p, "a", O_RDWR | O_CREAT | O_EXCL) == 0 && fdref_place(p) == 2);
    CHECK(fdref_write(p, 0, "hello", 5) == 5);
    CHECK(fdref_lseek(p, 0, -3, SEEK_END) == 2);
    CHECK(fdref_read(p, 0, bytes, 2) == 2 && memcmp(bytes, "ll", 2) == 0);
    CHECK(fdref_lseek(p, 0, 0, SEEK_CUR) == 4);
    CHECK(fdref_pread(p, 0, bytes, 9, 1) == 4 && memcmp(bytes, "ello", 4) == 0);
    CHECK(fdref_pwrite(p, 0, "!!", 2, 4) == 2);
    CHECK(fdref_ftruncate(p, 0, 3) == 0);
    CHECK(fdref_fstat(p, 0, &stat) == 0 && stat.kind == FDREF_KIND_REGULAR && stat.size == 3 && stat.links == 1);
    CHECK(fdref_dup(p, 0) == 1);
    CHECK(fdref_dup2(p, 0, 9) == 9);
    CHECK(fdref_close(p, 1) == 0);
    CHECK(fdref_pipe(p, ends) == 0 && ends[0] == 1 && ends[1] == 2);
    CHECK(fdref_fstat(p, 1, &stat) == 0 && stat.kind == FDREF_KIND_PIPE && stat.size == 0 && stat.links == 0);
    CHECK(fdref_mkfifo(p, "f") == 0);
    CHECK(fdref_link(p, "a", "b") == 0);
    CHECK(fdref_unlink(p, "a") == 0);
    CHECK(fdref_open(p, "f", O_RDONLY | O_NONBLOCK) == 3);
    CHECK(fdref_fstat(p, 3, &stat) == 0 && stat.kind == FDREF_KIND_FIFO && stat.size == 0 && stat.links == 1);
    CHECK(fdref_open(p, "b", O_WRONLY | O_TRUNC | O_APPEND) == 4);
    CHECK(fdref_read(p, 0, bytes, 5) == 0 && fdref_write(p, 4, NULL, 0) == 0);
    CHECK(fdref_place(p) == 23 && fdref_refusal(p) == FDREF_RECORDED && fdref_waits(p) == 0);
}

/* What is refused with a record, at the edge of what a request can hold, and what is not even sent. */
static void refusals(struct fdref *p)
{
    char name[FDREF_NAME_MOST + 2];
    memset(name, 'n', sizeof name);
    name[FDREF_NAME_MOST + 1] = 0;
    CHECK(fdref_write(p, 4, bytes, FDREF_TRANSFER_MOST) == 65536);
    CHECK(fdref_lseek(p, 0, 0, SEEK_SET) == 0);
    CHECK(fdref_read(p, 0, bytes, FDREF_TRANSFER_MOST) == 65536 && fdref_place(p) == 26);
    FAILS(fdref_write(p, 4, bytes, FDREF_DATA_MOST), EINVAL);
    FAILS(fdref_read(p, 0, bytes, UINT32_MAX), EINVAL);
    FAILS(fdref_mkfifo(p, name + 1), ENAMETOOLONG);
    FAILS(fdref_open(p, "a", FDREF_O_NEITHER), EINVAL);
    FAILS(fdref_open(p, "", O_RDONLY), ENOENT);
    FAILS(fdref_close(p, INT_MIN), EBADF);
    FAILS(fdref_pread(p, 0, bytes, 1, -1), EINVAL);
    CHECK(fdref_place(p) == 33 && fdref_refusal(p) == FDREF_RECORDED);
    FAILS(fdref_mkfifo(p, name), ENAMETOOLONG);
    FAILS(fdref_link(p, "b", name), ENAMETOOLONG);
    FAILS(fdref_write(p, 4, bytes, FDREF_DATA_MOST + 1), EINVAL);
    if (sizeof(size_t) > 4)
        FAILS(fdref_read(p, 0, bytes, (size_t)UINT32_MAX + 1), EINVAL);
    FAILS(fdref_open(p, "b", O_RDONLY | O_SYNC), EINVAL);
    FAILS(fdref_lseek(p, 0, 0, 9), EINVAL);
    CHECK(fdref_place(p) == 33 && fdref_refusal(p) == FDREF_UNSENT);
    FAILS(fdref_finish(p), EINVAL);
    FAILS(fdref_write(p, 3, "x", 1), EBADF);
    CHECK(fdref_place(p) == 34 && fdref_refusal(p) == FDREF_RECORDED);
}

/* A child of this program frees its copy of a process, whose connection stays. */
static void forgetting(struct fdref *p)
{
    int status = 1, fd = fdref_fileno(p);
    pid_t child = fork();
    if (child == 0) {
        errno = EXDEV;
        fdref_forget(p);
        CHECK(errno == EXDEV && fcntl(fd, F_GETFD) == -1 && errno == EBADF);
        fdref_forget(NULL);
        fflush(stdout);
        _exit(failures > 0);
    }
    CHECK(child > 0 && waitpid(child, &status, 0) == child && status == 0);
    CHECK(!has_answer(p, 20));
}

/* A write that goes on in parts, and a read of two processes: nothing but fdref_finish goes on while they wait. */
static void waiting(struct fdref *p, const char *path)
{
    pid_t number = fdref_fork(p);
    struct fdref *child = fdref_attach(path, number);
    CHECK(number == 1 && child != NULL && fdref_getpid(child) == 1 && fdref_place(child) == 36);
    if (!child)
        return;
    fdref_return_when_parked(p, 1);
    FAILS(fdref_write(p, 2, bytes, 2000), EINPROGRESS);
    CHECK(fdref_waits(p) == 1 && fdref_moved(p) == 1024 && fdref_place(p) == 37 && fdref_refusal(p) == FDREF_RECORDED);
    FAILS(fdref_close(p, 2), EBUSY);
    FAILS(fdref_mkfifo(p, ""), EBUSY);
    CHECK(fdref_refusal(p) == FDREF_WAITING && fdref_waits(p) == 1 && !has_answer(p, 20));
    CHECK(fdref_read(child, 1, bytes, 500) == 500 && has_answer(p, 5000));
    FAILS(fdref_finish(p), EINPROGRESS);
    CHECK(fdref_waits(p) == 2 && fdref_moved(p) == 1524 && fdref_place(p) == 39 && fdref_refusal(p) == FDREF_RECORDED);
    CHECK(fdref_read(child, 1, bytes, 1024) == 1024);
    CHECK(fdref_finish(p) == 2000 && fdref_waits(p) == 2 && fdref_moved(p) == 1524 && fdref_place(p) == 41);
    CHECK(fdref_read(child, 1, bytes, 476) == 476 && fdref_waits(child) == 0);
    CHECK(fdref_close(p, 2) == 0 && fdref_waits(p) == 0 && fdref_moved(p) == 0);
    FAILS(fdref_read(p, 1, bytes, 3), EINPROGRESS);
    CHECK(fdref_write(child, 2, "hello", 5) == 5);
    CHECK(fdref_finish(p) == 3 && memcmp(bytes, "hel", 3) == 0);
    CHECK(fdref_read(p, 1, bytes, 9) == 2);
    /* the exit of the last writer is recorded when fdref_exit returns, so the read does not wait */
    fdref_exit(child);
    CHECK(fdref_read(p, 1, bytes, 9) == 0 && fdref_place(p) == 49);
}

/* The flags of the end behind 0, which writes to f, and another name for f. */
static void flags_and_rename(struct fdref *p)
{
    CHECK(fdref_getfl(p, 0) == O_WRONLY);
    CHECK(fdref_setfl(p, 0, O_RDWR | O_CREAT | O_EXCL | O_TRUNC | O_APPEND | O_NONBLOCK) == 0);
    CHECK(fdref_getfl(p, 0) == (O_WRONLY | O_APPEND | O_NONBLOCK));
    CHECK(fdref_setfl(p, 0, FDREF_O_NEITHER) == 0 && fdref_getfl(p, 0) == O_WRONLY);
    FAILS(fdref_getfl(p, 7), EBADF);
    FAILS(fdref_setfl(p, 7, O_APPEND), EBADF);
    CHECK(fdref_rename(p, "f", "g") == 0);
    FAILS(fdref_rename(p, "f", "g"), ENOENT);
    CHECK(fdref_place(p) == 66 && fdref_refusal(p) == FDREF_RECORDED);
    FAILS(fdref_setfl(p, 0, O_SYNC), EINVAL);
    CHECK(fdref_place(p) == 66 && fdref_refusal(p) == FDREF_UNSENT);
}

/* An exit of a process that waits, and an open that does. */
static void exits(struct fdref *p, const char *path)
{
    struct fdref *other = fdref_join(path);
    CHECK(other != NULL && fdref_getpid(other) == 2 && fdref_place(other) == 50);
    if (!other)
        return;
    CHECK(fdref_close(p, 3) == 0);
    fdref_return_when_parked(other, 1);
    FAILS(fdref_open(other, "f", O_WRONLY), EINPROGRESS);
    CHECK(fdref_open(p, "f", O_RDONLY) == 2 && fdref_waits(p) == 0);
    CHECK(fdref_finish(other) == 0 && fdref_place(other) == 54);
    FAILS(fdref_read(p, 2, bytes, 9), EINPROGRESS);
    errno = EXDEV;
    fdref_exit(p);
    CHECK(errno == EXDEV);
    FAILS(fdref_write(other, 0, "x", 1), EPIPE);
    CHECK(fdref_place(other) == 57);
    flags_and_rename(other);
    /* 69 records are 67, the exit and the closing */
    FAILS(fdref_close(other, 0), EDQUOT);
    CHECK(fdref_refusal(other) == FDREF_RUN_FULL && fdref_place(other) == 66);
    CHECK(fdref_join(path) == NULL && errno == EDQUOT);
    fdref_exit(other);
}

int main(int count, char **words)
{
    struct fdref *p = count == 2 ? fdref_join_within(words[1], 10) : NULL;
    CHECK(p != NULL);
    if (!p)
        return 1;
    CHECK(fdref_getpid(p) == 0 && fdref_place(p) == 0 && fdref_refusal(p) == 0 && fdref_waits(p) == 0);
    CHECK(fcntl(fdref_fileno(p), F_GETFD) == FD_CLOEXEC);
    connecting(words[1]);
    names();
    calls(p);
    forgetting(p);
    refusals(p);
    waiting(p, words[1]);
    exits(p, words[1]);
    return failures > 0;
}
