/* Two processes wait to read two bytes each from an empty pipe. A third writes three bytes. Who gets what?

   cc -std=c99 -Wall -I clients/c -o two_readers examples/c/two_readers.c

   usage: two_readers PATH

   PATH is where `fdref serve --socket PATH --trace FILE --sessions 3 --records 100` listens, or will within ten
   seconds. All three processes are played in this one thread. Each line is that of a record, as fdref writes it. */

#include <stdio.h>
#include <stdlib.h>
#include <string.h>

#define FDREF_IMPLEMENTATION
#include "fdref.h"

/* Ends the example where a call fails: why is told by fdref's name, as RunFull, where perror would speak of a quota. */
static void need(int done, const char *what)
{
    const char *name = fdref_error_name(errno);
    if (!done) {
        fprintf(stderr, "%s: %s\n", what, name ? name : strerror(errno));
        exit(1);
    }
}

/* The same of a process that is to be had. */
static void need_process(const struct fdref *p, const char *what)
{
    if (!p) {
        fprintf(stderr, "%s: %s\n", what, fdref_no_process(errno));
        exit(1);
    }
}

/* Prints the beginning of a line: the place of the last answer of a process, and its number. */
static void tell(const struct fdref *p)
{
    printf("%llu p%d ", (unsigned long long)fdref_place(p), (int)fdref_getpid(p));
}

/* Forks a process, and attaches the child. */
static struct fdref *forked(struct fdref *p, const char *path)
{
    pid_t number = fdref_fork(p);
    struct fdref *child;
    need(number >= 0, "fork");
    tell(p);
    printf("fork = %d\n", (int)number);
    child = fdref_attach(path, number);
    need_process(child, "attach");
    tell(child);
    printf("attach = ok\n");
    return child;
}

int main(int count, char **words)
{
    struct fdref *readers[2], *writer;
    unsigned char bytes[2][2];
    int ends[2];
    ssize_t size;

    if (count != 2) {
        fprintf(stderr, "usage: two_readers PATH\n");
        return 2;
    }
    readers[0] = fdref_join_within(words[1], 10);
    need_process(readers[0], words[1]);
    tell(readers[0]);
    printf("join = 0\n");
    need(fdref_pipe(readers[0], ends) == 0, "pipe");
    tell(readers[0]);
    printf("pipe = %d %d\n", ends[0], ends[1]);
    readers[1] = forked(readers[0], words[1]);
    writer = forked(readers[0], words[1]);

    for (int at = 0; at < 2; at++) {
        fdref_return_when_parked(readers[at], 1);
        size = fdref_read(readers[at], ends[0], bytes[at], 2);
        need(size < 0 && errno == EINPROGRESS, "read");
        tell(readers[at]);
        printf("read %d 2 = parked %d\n", ends[0], (int)fdref_moved(readers[at]));
    }
    size = fdref_write(writer, ends[1], "abc", 3);
    need(size >= 0, "write");
    tell(writer);
    printf("write %d x616263 = %d\n", ends[1], (int)size);
    /* the server has resumed both, in an order that POSIX leaves open */
    for (int at = 0; at < 2; at++) {
        size = fdref_finish(readers[at]);
        need(size >= 0, "read");
        tell(readers[at]);
        printf("resume = x");
        for (ssize_t byte = 0; byte < size; byte++)
            printf("%02x", bytes[at][byte]);
        printf("\n");
    }
    fdref_exit(writer);
    fdref_exit(readers[1]);
    fdref_exit(readers[0]);
    return 0;
}
