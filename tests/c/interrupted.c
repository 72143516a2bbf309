/* Waits by fdref.h for what does not come, while a timer interrupts every system call: each limit holds.

   usage: interrupted PATH SERVER FLAG

   PATH is where a server of 2 sessions listens that nobody else uses, or will within ten seconds, and SERVER is its
   process, which is stopped for a while. With a FLAG of 1 the handler of the timer has SA_RESTART, and with 0 it has
   not. Each wait has a limit of a second. The line of each check that fails is printed, and the status is 1 then. */

#define _POSIX_C_SOURCE 200809L

#include <poll.h>
#include <signal.h>
#include <stdio.h>
#include <stdlib.h>
#include <string.h>
#include <sys/time.h>
#include <time.h>

#ifdef COARSE
#undef CLOCK_MONOTONIC
#endif

#define FDREF_IMPLEMENTATION
#include "fdref.h"

/* A wait of 10 milliseconds is interrupted too. */
enum { PERIOD_US = 4000, LEAST_MS = 1000, MOST_MS = 3000 };

static int failures;
static volatile sig_atomic_t signals;
static struct timeval begun;

#define CHECK(is_right) check(is_right, #is_right, __LINE__)
#define IN_TIME() in_time(__LINE__)

static void check(int is_right, const char *text, int line)
{
    if (!is_right)
        printf("line %d: not so: %s (errno %d)\n", line, text, errno);
    failures += !is_right;
}

static void count_signal(int number)
{
    signals = number == SIGALRM ? signals + 1 : signals;
}

static void interrupt_all(int flags)
{
    struct itimerval timer = {{0, PERIOD_US}, {0, PERIOD_US}};
    struct sigaction action;
    memset(&action, 0, sizeof action);
    action.sa_handler = count_signal;
    action.sa_flags = flags;
    CHECK(sigaction(SIGALRM, &action, NULL) == 0 && setitimer(ITIMER_REAL, &timer, NULL) == 0);
}

static void begin(void)
{
    signals = 0;
    gettimeofday(&begun, NULL);
}

static long passed_ms(void)
{
    struct timeval now;
    gettimeofday(&now, NULL);
    return (long)(now.tv_sec - begun.tv_sec) * 1000 + (long)(now.tv_usec - begun.tv_usec) / 1000;
}

/* What was begun has taken its limit, and not much more, and was interrupted. */
static void in_time(int line)
{
    long ms = passed_ms();
    if (ms < LEAST_MS || ms > MOST_MS || signals < 10)
        printf("line %d: took %ld ms, with %d signals\n", line, ms, (int)signals);
    failures += ms < LEAST_MS || ms > MOST_MS || signals < 10;
}

static void joins(const char *path)
{
    char nobody[256];
    snprintf(nobody, sizeof nobody, "%s.not", path);
    begin();
    CHECK(fdref_join_within(nobody, 1) == NULL && errno == ENOENT);
    IN_TIME();
    /* all sessions are taken */
    begin();
    CHECK(fdref_join_within(path, 1) == NULL && errno == ETIMEDOUT);
    IN_TIME();
}

static void reads(struct fdref *p)
{
    char byte;
    int ends[2];
    CHECK(fdref_pipe(p, ends) == 0);
    fdref_answer_within(p, 1);
    begin();
    CHECK(fdref_read(p, ends[0], &byte, 1) == -1 && errno == ETIMEDOUT && fdref_refusal(p) == FDREF_LOST);
    IN_TIME();
    CHECK(fdref_finish(p) == -1 && errno == ENOTCONN && fdref_refusal(p) == FDREF_LOST);
    CHECK(fdref_exit(p) == ECONNRESET);
}

static void exits(struct fdref *p, pid_t server)
{
    CHECK(kill(server, SIGSTOP) == 0);
    begin();
    while (passed_ms() < 100)
        poll(NULL, 0, 10);
    fdref_answer_within(p, 1);
    begin();
    CHECK(fdref_exit(p) == ETIMEDOUT);
    IN_TIME();
    CHECK(kill(server, SIGCONT) == 0);
}

int main(int count, char **words)
{
    struct fdref *one = NULL, *other = NULL;
    if (count != 4)
        return 2;
    interrupt_all(atoi(words[3]) ? SA_RESTART : 0);
    one = fdref_join_within(words[1], 10);
    other = fdref_join_within(words[1], 10);
    CHECK(one != NULL && other != NULL);
    if (!one || !other)
        return 1;
    joins(words[1]);
    reads(one);
    exits(other, (pid_t)atol(words[2]));
    return failures > 0;
}
