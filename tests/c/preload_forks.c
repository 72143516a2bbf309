/* Makes children that share what is open, and checks what each sees.

   usage: preload_forks

   It runs in an empty folder, by itself or with the library of clients/preload, with the descriptors 0, 1 and 2 alone.
   Seven more processes come of it. The line of each check that fails is printed, and the status is 1 then. */

#include "preload.h"

static char bytes[4000];

/* A child ends with 0 where all its checks hold. */
static void leave(void) { _exit(failures > 0); }

/* Waits until a process sleeps in a call, and a while longer, so that fdref has the call. */
static void let_wait(pid_t process)
{
    char name[40], text[400] = "";
    const char *state;
    snprintf(name, sizeof name, "/proc/%ld/stat", (long)process);
    do {
        int fd = open(name, O_RDONLY);
        CHECK(read(fd, text, sizeof text - 1) > 0);
        GIVES(close(fd), 0);
        state = strrchr(text, ')');
    } while (failures == 0 && state && state[2] != 'S');
    usleep(200000);
}

/* Both write at one offset; what the child opens later has its own. */
static void share_an_offset(void)
{
    int fd = open("a", O_RDWR | O_CREAT, 0600);
    pid_t child;
    GIVES(write(fd, "12", 2), 2);
    child = fork();
    if (child == 0) {
        GIVES(write(fd, "345", 3), 3);
        GIVES(open("/dev/null", O_RDWR), 4);
        GIVES(open("a", O_RDWR), 5);
        GIVES(read(5, bytes, 9), 5);
        GIVES(close(fd), 0);
        leave();
    }
    CHECK(status_of(child) == 0);
    errno = 0;
    GIVES(lseek(fd, 0, SEEK_CUR), 5);
    GIVES(dup(fd), 4);
    GIVES(close(3), 0);
    GIVES(close(4), 0);
}

/* The parent waits for what its child writes; once it has ended, that is the end of the file. */
static void wait_for_a_child(void)
{
    int ends[2];
    pid_t child;
    GIVES(pipe(ends), 0);
    child = fork();
    if (child == 0) {
        usleep(200000);
        GIVES(write(ends[1], "hello", 5), 5);
        exit(failures > 0);
    }
    GIVES(close(ends[1]), 0);
    GIVES(read(ends[0], bytes, 9), 5);
    CHECK(memcmp(bytes, "hello", 5) == 0);
    CHECK(status_of(child) == 0);
    errno = 0;
    GIVES(read(ends[0], bytes, 9), 0);
    GIVES(close(ends[0]), 0);
}

/* O_NONBLOCK, which a child sets, is its parent's too, but does not end the read that waits already. */
static void share_flags(void)
{
    int ends[2];
    pid_t child, parent = getpid();
    GIVES(pipe(ends), 0);
    child = fork();
    if (child == 0) {
        let_wait(parent);
        GIVES(fcntl(ends[0], F_SETFL, O_NONBLOCK), 0);
        FAILS(read(ends[0], bytes, 9), EAGAIN);
        errno = 0;
        GIVES(write(ends[1], "hi", 2), 2);
        leave();
    }
    GIVES(read(ends[0], bytes, 9), 2);
    CHECK(status_of(child) == 0);
    errno = 0;
    GIVES(fcntl(ends[0], F_GETFL), O_RDONLY | O_NONBLOCK);
    GIVES(fcntl(ends[1], F_GETFL), O_WRONLY);
    FAILS(read(ends[0], bytes, 9), EAGAIN);
    errno = 0;
    GIVES(close(ends[0]), 0);
    GIVES(close(ends[1]), 0);
}

/* A child of a child opens a FIFO, for which the first process waits. */
static void wait_in_an_open(void)
{
    pid_t child;
    GIVES(mkfifo("f", 0600), 0);
    child = fork();
    if (child == 0) {
        pid_t other = fork();
        if (other == 0) {
            usleep(200000);
            GIVES(open("f", O_WRONLY), 3);
            GIVES(write(3, "x", 1), 1);
            leave();
        }
        CHECK(status_of(other) == 0);
        leave();
    }
    GIVES(open("f", O_RDONLY), 3);
    GIVES(read(3, bytes, 9), 1);
    GIVES(read(3, bytes, 9), 0);
    CHECK(status_of(child) == 0);
    errno = 0;
    GIVES(close(3), 0);
}

/* Real files are the child's, too, and its standard output is what it was. */
static void share_real_files(void)
{
    int fd = open("/dev/zero", O_RDONLY);
    pid_t child = fork();
    if (child == 0) {
        GIVES(read(fd, bytes, 9), 9);
        GIVES(dup2(fd, 9), 9);
        GIVES(open("a", O_RDONLY), 4);
        GIVES(dup2(4, 1), 1);
        leave();
    }
    CHECK(status_of(child) == 0);
    GIVES(write(1, "said\n", 5), 5);
    GIVES(read(fd, bytes, 9), 9);
    GIVES(close(fd), 0);
}

/* A child that a signal ends has no descriptors any more, soon. */
static void kill_a_child(void)
{
    int ends[2];
    pid_t child;
    GIVES(pipe(ends), 0);
    child = fork();
    if (child == 0) {
        GIVES(write(ends[1], "x", 1), 1);
        raise(SIGKILL);
    }
    GIVES(close(ends[1]), 0);
    GIVES(read(ends[0], bytes, 9), 1);
    GIVES(read(ends[0], bytes, 9), 0);
    CHECK(status_of(child) == -1);
    errno = 0;
    GIVES(close(ends[0]), 0);
}

int main(void)
{
    errno = 0;
    share_an_offset();
    wait_for_a_child();
    share_flags();
    wait_in_an_open();
    share_real_files();
    kill_a_child();
    return failures > 0;
}
