/* How an emulator in C has its calls judged: it writes what they came to as a trace.

   cc -std=c99 -Wall -I clients/c -o trace examples/c/trace.c

   usage: trace FILE

   The emulator has one process and one file. Its mistake is that a duplicate has an offset of its own. `fdref audit
   FILE` tells the place of the first record that is wrong, and what the call should have come to. The emulator knows
   that a run has RECORDS records at most, so one that went on for longer would be found as well. */

#include <stdio.h>
#include <string.h>

#define FDREF_IMPLEMENTATION
#include "fdref.h"

enum { OPEN_FILES = 32, FILE_BYTES = 4096, RECORDS = 100 };

/* The emulator: the file, and the offset of each descriptor, or -1 where it is not open. */
static char bytes[FILE_BYTES];
static long length, offsets[OPEN_FILES];

static int failed(int number)
{
    errno = number;
    return -1;
}

static int is_open(int fd) { return fd >= 0 && fd < OPEN_FILES && offsets[fd] >= 0; }

static int lowest_free(void)
{
    for (int fd = 0; fd < OPEN_FILES; fd++)
        if (!is_open(fd))
            return fd;
    return failed(EMFILE);
}

static int my_open(void)
{
    int fd = lowest_free();
    if (fd >= 0)
        offsets[fd] = 0;
    return fd;
}

static int my_dup(int fd)
{
    int to = is_open(fd) ? lowest_free() : failed(EBADF);
    if (to >= 0)
        offsets[to] = offsets[fd];
    return to;
}

static ssize_t my_write(int fd, const char *data, long count)
{
    if (!is_open(fd) || count > FILE_BYTES - offsets[fd])
        return failed(is_open(fd) ? EFBIG : EBADF);
    memcpy(bytes + offsets[fd], data, (size_t)count);
    offsets[fd] += count;
    length = offsets[fd] > length ? offsets[fd] : length;
    return count;
}

static ssize_t my_read(int fd, char *buffer, long count)
{
    if (!is_open(fd))
        return failed(EBADF);
    count = count < length - offsets[fd] ? count : length - offsets[fd];
    memcpy(buffer, bytes + offsets[fd], (size_t)count);
    offsets[fd] += count;
    return count;
}

static int my_close(int fd)
{
    if (!is_open(fd))
        return failed(EBADF);
    offsets[fd] = -1;
    return 0;
}

int main(int count, char **words)
{
    struct fdref_trace *trace;
    char buffer[9];

    if (count != 2) {
        fprintf(stderr, "usage: trace FILE\n");
        return 2;
    }
    trace = fdref_trace_open_of(words[1], RECORDS, FDREF_PIPE_CAPACITY, FDREF_FILE_SIZE);
    if (!trace) {
        perror(words[1]);
        return 1;
    }
    for (int fd = 0; fd < OPEN_FILES; fd++)
        offsets[fd] = -1;

    fdref_record(trace, 0, fdref_act_join(), fdref_number(0));
    fdref_record(trace, 0, fdref_act_open("a", O_RDWR | O_CREAT), fdref_result(my_open()));
    fdref_record(trace, 0, fdref_act_dup(0), fdref_result(my_dup(0)));
    fdref_record(trace, 0, fdref_act_write(0, "hello", 5), fdref_result(my_write(0, "hello", 5)));
    fdref_record(trace, 0, fdref_act_read(1, 9), fdref_result_data(buffer, my_read(1, buffer, 9)));
    fdref_record(trace, 0, fdref_act_close(7), fdref_result_done(my_close(7)));
    fdref_record(trace, 0, fdref_act_close(1), fdref_result_done(my_close(1)));
    fdref_record(trace, 0, fdref_act_exit(), fdref_done());
    if (fdref_trace_close(trace) != 0) {
        perror(words[1]);
        return 1;
    }
    return 0;
}
