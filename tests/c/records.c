/* Writes traces by fdref.h, for the tests.

   usage: records WHICH FILE

   WHICH is `each`, which writes the records of RECORDS in tests/parts/python_traces.py, in that order; `large`, the
   largest records and one that is flushed; `limited`, the closing of a run with other limits; or `faults`, which looks
   at what cannot be written. The line of each check that fails is printed, and the status is 1 then. */

#include <limits.h>
#include <stdio.h>
#include <string.h>

#include "odd.h"

static int failures;
static char bytes[FDREF_DATA_MOST + 1];

#define CHECK(is_right) check(is_right, #is_right, __LINE__)

static void check(int is_right, const char *text, int line)
{
    if (!is_right)
        printf("line %d: not so: %s (errno %d)\n", line, text, errno);
    failures += !is_right;
}

static struct fdref_outcome failed(int number)
{
    errno = number;
    return fdref_result(-1);
}

static void each(struct fdref_trace *to)
{
    static const int errors[] = {
        EBADF, EINVAL, ESPIPE, EFBIG, EOVERFLOW, ENOENT, EEXIST, EMLINK,
        ENAMETOOLONG, EMFILE, ENFILE, ENOSPC, EAGAIN, EPIPE, ENXIO, ESRCH
    };
    fdref_record(to, 0, fdref_act_join(), fdref_number(0));
    fdref_record(to, 9, fdref_act_attach(), fdref_done());
    fdref_record(to, 9, fdref_act_attach(), fdref_error(ESRCH));
    fdref_record(to, 1, fdref_act_resume(), fdref_part(7));
    fdref_record(to, 1, fdref_act_exit(), fdref_done());
    fdref_record(to, FDREF_HOUSE, fdref_act_close_run(), fdref_done());
    fdref_record(to, 1, fdref_act_open("a", O_RDWR | O_CREAT | O_EXCL | O_TRUNC | O_APPEND | O_NONBLOCK),
                 fdref_result(3));
    fdref_record(to, 1, fdref_act_open("", O_RDONLY), failed(ENOENT));
    fdref_record(to, 1, fdref_act_open("a", FDREF_O_NEITHER), fdref_error(EINVAL));
    fdref_record(to, 1, fdref_act_open("\xff", O_WRONLY), fdref_parked(0));
    errno = EBADF;
    fdref_record(to, 1, fdref_act_close(-1), fdref_result_done(-1));
    fdref_record(to, 1, fdref_act_read(0, 5), fdref_result_data("hello", 5));
    fdref_record(to, 1, fdref_act_read(0, 9), fdref_parked(0));
    fdref_record(to, 1, fdref_act_write(1, "hi", 2), fdref_result(2));
    fdref_record(to, 1, fdref_act_pread(0, 5, 77), fdref_data(NULL, 0));
    fdref_record(to, 1, fdref_act_pwrite(0, "x", 1, 77), fdref_number(1));
    fdref_record(to, 1, fdref_act_lseek(0, -5, SEEK_END), fdref_number(0));
    fdref_record(to, 1, fdref_act_lseek(0, 5, SEEK_CUR), fdref_number(5));
    fdref_record(to, 1, fdref_act_lseek(0, 5, SEEK_SET), fdref_number(5));
    fdref_record(to, 1, fdref_act_ftruncate(0, INT64_MAX), fdref_error(EFBIG));
    fdref_record(to, 1, fdref_act_dup(0), fdref_number(1));
    fdref_record(to, 1, fdref_act_dup2(0, 31), fdref_number(31));
    fdref_record(to, 1, fdref_act_pipe(), fdref_descriptors(0, 1));
    fdref_record(to, 1, fdref_act_mkfifo("f"), fdref_result_done(0));
    fdref_record(to, 1, fdref_act_link("a", "b"), fdref_done());
    fdref_record(to, 1, fdref_act_unlink("b"), fdref_done());
    fdref_record(to, 1, fdref_act_fstat(0), fdref_told(FDREF_KIND_FIFO, 5, 1));
    fdref_record(to, 1, fdref_act_fstat(0), fdref_told(FDREF_KIND_REGULAR, 5, 1));
    fdref_record(to, 1, fdref_act_fork(), fdref_number(2));
    fdref_record(to, 1, fdref_act_getfl(0), fdref_result_flags(O_RDWR | O_APPEND));
    fdref_record(to, 1, fdref_act_getfl(0), fdref_result_flags(O_WRONLY | O_CREAT));
    fdref_record(to, 1, fdref_act_getfl(0), fdref_number(UINT64_MAX));
    errno = EBADF;
    fdref_record(to, 1, fdref_act_getfl(-1), fdref_result_flags(-1));
    fdref_record(to, 1, fdref_act_setfl(0, O_WRONLY | O_CREAT | O_EXCL | O_TRUNC | O_APPEND | O_NONBLOCK),
                 fdref_result_done(0));
    fdref_record(to, 1, fdref_act_setfl(0, FDREF_O_NEITHER | O_NONBLOCK), fdref_done());
    fdref_record(to, 1, fdref_act_rename("a", "b"), fdref_result_done(0));
    for (size_t at = 0; at < sizeof errors / sizeof errors[0]; at++)
        fdref_record(to, 1, fdref_act_fork(), fdref_error(errors[at]));
    CHECK(fdref_trace_close(to) == 0);
}

static void large(struct fdref_trace *to, const char *path)
{
    char name[FDREF_NAME_MOST + 1];
    struct fdref_trace *other;
    memset(bytes, 'b', sizeof bytes);
    memset(name, 'n', sizeof name);
    name[FDREF_NAME_MOST] = 0;
    for (int at = 0; at < 3; at++) {
        fdref_record(to, UINT32_MAX, fdref_act_pwrite(INT_MIN, bytes, FDREF_DATA_MOST, INT64_MIN),
                     fdref_number(UINT64_MAX));
        fdref_record(to, 0, fdref_act_read(INT_MAX, UINT32_MAX), fdref_data(bytes, FDREF_TRANSFER_MOST));
        fdref_record(to, 0, fdref_act_link(name, name), fdref_parked(UINT32_MAX));
        fdref_record(to, 0, fdref_act_pipe(), fdref_descriptors(INT_MAX, INT_MAX));
        fdref_record(to, 0, fdref_act_fstat(0), fdref_told(FDREF_KIND_PIPE, UINT64_MAX, UINT32_MAX));
    }
    CHECK(fdref_trace_flush(to) == 0);
    /* what is flushed is there, though the trace is not closed */
    other = fdref_trace_open("/dev/null");
    CHECK(other != NULL && fdref_trace_close(other) == 0);
    FILE *file = fopen(path, "rb");
    CHECK(file && fseek(file, 0, SEEK_END) == 0 && ftell(file) > 3 * 65536);
    if (file)
        fclose(file);
    fdref_record(to, 0, fdref_act_exit(), fdref_done());
    CHECK(fdref_trace_close(to) == 0);
}

/* A record with a fault is refused, and everything after it; what was recorded before is written. What it was is
   told. */
static void refuses_as(const char *path, int64_t process, struct fdref_act act, struct fdref_outcome outcome,
                       int number, const char *told)
{
    struct fdref_trace *to = fdref_trace_open(path);
    char head[60];
    FILE *file;
    CHECK(to != NULL);
    CHECK(fdref_record(to, 0, fdref_act_join(), fdref_number(0)) == 0 && fdref_trace_fault(to) == NULL);
    CHECK(fdref_record(to, process, act, outcome) == -1 && errno == number);
    CHECK(fdref_record(to, 0, fdref_act_exit(), fdref_done()) == -1 && errno == number);
    CHECK(strcmp(fdref_trace_fault(to), told) == 0);
    CHECK(fdref_trace_flush(to) == -1 && errno == number);
    CHECK(fdref_trace_close(to) == -1 && errno == number);
    file = fopen(path, "rb");
    CHECK(file && fread(head, 1, sizeof head, file) == 42);
    if (file)
        fclose(file);
}

static void refuses(const char *path, int64_t process, struct fdref_act act, struct fdref_outcome outcome, int number,
                    const char *what)
{
    char told[120];
    snprintf(told, sizeof told, "record 1: %s that no trace holds", what);
    refuses_as(path, process, act, outcome, number, told);
}

/* No trace says this of its run: a file is neither made nor emptied. */
static void refuses_header(uint32_t records, uint32_t pipe_capacity, uint64_t file_size)
{
    errno = 0;
    CHECK(fdref_trace_open_of("/no/such/file", records, pipe_capacity, file_size) == NULL && errno == EINVAL);
}

static void headers(void)
{
    refuses_header(1000001, 1024, FDREF_FILE_SIZE);
    refuses_header(UINT32_MAX, 1024, FDREF_FILE_SIZE);
    refuses_header(0, 0, FDREF_FILE_SIZE);
    refuses_header(0, 511, FDREF_FILE_SIZE);
    refuses_header(0, 65537, FDREF_FILE_SIZE);
    refuses_header(0, 1024, 0);
    refuses_header(0, 1024, FDREF_OLD_FILE_SIZE - 1);
    refuses_header(0, 1024, FDREF_FILE_SIZE + 1);
    refuses_header(0, 1024, FDREF_FILE_SIZE | UINT64_C(1) << 63);
    CHECK(fdref_trace_open_of("/no/such/file", 1000000, 65536, FDREF_OLD_FILE_SIZE) == NULL && errno == ENOENT);
    CHECK(fdref_trace_open_of("/no/such/file", 0, 512, FDREF_FILE_SIZE) == NULL && errno == ENOENT);
}

static void limited(const char *path)
{
    struct fdref_trace *to = fdref_trace_open_of(path, 258, 513, FDREF_OLD_FILE_SIZE);
    CHECK(to != NULL && fdref_record(to, FDREF_HOUSE, fdref_act_close_run(), fdref_done()) == 0);
    CHECK(fdref_trace_close(to) == 0);
}

static void faults(const char *path)
{
    char name[FDREF_NAME_MOST + 2], what[60];
    struct fdref_act act = fdref_act_fork();
    struct fdref_outcome outcome = fdref_done();
    struct fdref_trace *to;
    memset(name, 'n', sizeof name);
    name[FDREF_NAME_MOST + 1] = 0;
    refuses(path, -1, fdref_act_exit(), fdref_done(), EINVAL, "a process");
    refuses(path, FDREF_HOUSE + 1, fdref_act_exit(), fdref_done(), EINVAL, "a process");
    refuses_as(path, 0, fdref_act_close_run(), fdref_done(), EINVAL,
               "record 1: a close-run of another process than FDREF_HOUSE");
    refuses(path, 0, fdref_act_mkfifo(name), fdref_done(), ENAMETOOLONG, "a name");
    refuses(path, 0, fdref_act_mkfifo(NULL), fdref_done(), EINVAL, "a name");
    refuses(path, 0, fdref_act_write(0, bytes, FDREF_DATA_MOST + 1), fdref_number(0), EINVAL, "data");
    refuses(path, 0, fdref_act_write(0, NULL, 1), fdref_number(0), EINVAL, "data");
    refuses(path, 0, fdref_act_read(0, 1), fdref_data(bytes, FDREF_TRANSFER_MOST + 1), EINVAL, "an outcome");
    refuses(path, 0, fdref_act_write(0, bytes, FDREF_DATA_MOST), fdref_data(bytes, FDREF_TRANSFER_MOST), EINVAL,
            "an outcome");
    refuses(path, 0, fdref_act_open("a", O_RDWR | O_SYNC), fdref_number(0), EINVAL, "flags");
    refuses(path, 0, fdref_act_setfl(0, O_SYNC), fdref_done(), EINVAL, "flags");
    refuses(path, 0, fdref_act_getfl(0), fdref_result_flags(O_RDWR | O_SYNC), EINVAL, "an outcome with flags");
    refuses(path, 0, fdref_act_lseek(0, 0, 9), fdref_number(0), EINVAL, "a base of an offset");
    refuses(path, 0, fdref_act_rename("a", name), fdref_done(), ENAMETOOLONG, "a name");
    refuses(path, 0, fdref_act_pipe(), fdref_descriptors(-1, 0), EINVAL, "an outcome");
    refuses(path, 0, fdref_act_pipe(), fdref_descriptors(0, -1), EINVAL, "an outcome");
    refuses(path, 0, fdref_act_fstat(0), fdref_told(3, 0, 0), EINVAL, "an outcome");
    snprintf(what, sizeof what, "the error %d (%s)", EPERM, strerror(EPERM));
    refuses(path, 0, fdref_act_fork(), failed(EPERM), EINVAL, what);
    snprintf(what, sizeof what, "the error 0 (%s)", strerror(0));
    refuses(path, 0, fdref_act_fork(), fdref_error(0), EINVAL, what);
    if (sizeof(size_t) > 4)
        refuses(path, 0, fdref_act_read(0, (size_t)UINT32_MAX + 1), fdref_done(), EINVAL, "a count");
    for (act.kind = -1; act.kind <= FDREF_RENAME + 1; act.kind++)
        if (act.kind < FDREF_JOIN || (act.kind > FDREF_CLOSE_RUN && act.kind < FDREF_OPEN) || act.kind > FDREF_RENAME)
            refuses(path, 0, act, fdref_done(), EINVAL, "an act");
    outcome.kind = 0;
    refuses(path, 0, fdref_act_fork(), outcome, EINVAL, "an outcome");
    outcome.kind = FDREF_PART + 1;
    refuses(path, 0, fdref_act_fork(), outcome, EINVAL, "an outcome");

    CHECK(fdref_trace_open("/no/such/file") == NULL && errno == ENOENT);
    to = fdref_trace_open("/dev/full");
    CHECK(to != NULL && fdref_record(to, 0, fdref_act_exit(), fdref_done()) == 0);
    CHECK(fdref_trace_flush(to) == -1 && errno == ENOSPC);
    CHECK(fdref_record(to, 0, fdref_act_exit(), fdref_done()) == -1 && errno == ENOSPC);
    CHECK(strncmp(fdref_trace_fault(to), "the file cannot be written: ", 28) == 0);
    CHECK(fdref_trace_close(to) == -1 && errno == ENOSPC);
}

int main(int count, char **words)
{
    int fd = lowest_free();
    struct fdref_trace *to = count == 3 ? fdref_trace_open(words[2]) : NULL;
    CHECK(to != NULL);
    if (!to)
        return 1;
    odd_choice = 1;
    if (strcmp(words[1], "each") == 0) {
        each(to);
    } else if (strcmp(words[1], "large") == 0) {
        large(to, words[2]);
    } else {
        CHECK(fdref_trace_close(to) == 0);
        if (strcmp(words[1], "limited") == 0) {
            limited(words[2]);
        } else {
            headers();
            faults(words[2]);
        }
    }
    CHECK(lowest_free() == fd);
    return failures > 0;
}
