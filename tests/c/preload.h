/* The checks of the programs that run by themselves and with the library of clients/preload. The line of each check
   that fails is printed. */

#define _GNU_SOURCE

#include <errno.h>
#include <fcntl.h>
#include <limits.h>
#include <signal.h>
#include <stdint.h>
#include <stdio.h>
#include <stdlib.h>
#include <string.h>
#include <sys/ioctl.h>
#include <sys/mman.h>
#include <sys/stat.h>
#include <sys/uio.h>
#include <sys/wait.h>
#include <unistd.h>

static int failures;

#define CHECK(is_right) check(is_right, #is_right, __LINE__)
#define GIVES(call, number) gives(call, number, #call, __LINE__)
#define FAILS(call, number) check((call) == -1 && errno == (number), #call " fails by " #number, __LINE__)

static inline void check(int is_right, const char *text, int line)
{
    if (!is_right)
        printf("line %d: not so: %s (errno %d)\n", line, text, errno);
    fflush(stdout);
    failures += !is_right;
}

/* A call gives a number, and leaves errno as it was. */
static inline void gives(long long given, long long wanted, const char *text, int line)
{
    if (given != wanted || errno != 0)
        printf("line %d: %s gives %lld and not %lld (errno %d)\n", line, text, given, wanted, errno);
    fflush(stdout);
    failures += given != wanted || errno != 0;
    errno = 0;
}

/* The status with which a child exits, or -1. */
static inline int status_of(pid_t child)
{
    int status;
    return waitpid(child, &status, 0) == child && WIFEXITED(status) ? WEXITSTATUS(status) : -1;
}
