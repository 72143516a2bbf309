/* Sets O_NONBLOCK on a pipe that a child shares.

   The flag is one of the description, so each of the two sees what the other has set. They take turns by a second
   pipe, so that what each is told does not depend on the time. The status is 1 where an answer is not the one of
   POSIX. */

#define _POSIX_C_SOURCE 200809L

#include "judge.h"

#include <errno.h>
#include <fcntl.h>
#include <sys/wait.h>
#include <unistd.h>

static int shared[2], turns[2];
static char bytes[10];

/* Sets the flag and no other. */
static int set_nonblocking(int fd)
{
    int flags = fcntl(fd, F_GETFL);
    return flags < 0 ? flags : fcntl(fd, F_SETFL, flags | O_NONBLOCK);
}

static int is_nonblocking(int fd) { return (fcntl(fd, F_GETFL) & O_NONBLOCK) != 0; }

static int would_wait(int fd) { return read(fd, bytes, sizeof bytes) == -1 && errno == EAGAIN; }

/* The child: once its parent has set the flag of the reading end, it sets that of the other. */
static int be_told(void)
{
    CHECK(read(turns[0], bytes, 1) == 1);
    CHECK(is_nonblocking(shared[0]) && !is_nonblocking(shared[1]));
    CHECK((fcntl(shared[0], F_GETFL) & O_ACCMODE) == O_RDONLY && would_wait(shared[0]));
    CHECK(set_nonblocking(shared[1]) == 0 && write(shared[1], "told", 4) == 4);
    return 0;
}

int main(void)
{
    int status;
    CHECK(pipe(shared) == 0 && pipe(turns) == 0);
    CHECK(!is_nonblocking(shared[0]) && !is_nonblocking(shared[1]));
    pid_t child = fork();
    CHECK(child >= 0);
    if (child == 0)
        _exit(be_told());
    CHECK(set_nonblocking(shared[0]) == 0 && would_wait(shared[0]));
    CHECK(write(turns[1], "!", 1) == 1);
    CHECK(waitpid(child, &status, 0) == child && status == 0);
    CHECK(is_nonblocking(shared[0]) && is_nonblocking(shared[1]));
    CHECK(read(shared[0], bytes, sizeof bytes) == 4 && would_wait(shared[0]));
    CHECK(fcntl(shared[0], F_SETFL, 0) == 0 && !is_nonblocking(shared[0]) && is_nonblocking(shared[1]));
    CHECK(close(shared[1]) == 0 && read(shared[0], bytes, sizeof bytes) == 0);
    return 0;
}
