/* Makes one thing that the library of clients/preload has to keep apart from what it does by itself, with its numbers,
   its log, its lock and its connection.

   usage: preload_apart WORD

   It runs in an empty folder. Status 99: the word is none. */

#include "preload.h"

#include <pthread.h>
#include <sched.h>
#include <sys/resource.h>
#include <sys/socket.h>
#include <sys/syscall.h>
#include <sys/time.h>
#include <time.h>

enum { TIMES = 300 };
static char bytes[10];
static int fd, pipe_ends[2];
static volatile int heard, is_early_written;

/* ---- signals */

static void tell(int number)
{
    int error = errno;
    heard += write(pipe_ends[1], "s", 1) == 1 && number == SIGUSR1;
    errno = error;
}

/* Handlers write to a pipe while calls are made that do not wait. */
static int hear_between(void)
{
    pid_t child, parent = getpid();
    int status;
    signal(SIGUSR1, tell);
    child = fork();
    if (child == 0)
        for (;;) {
            kill(parent, SIGUSR1);
            usleep(500);
        }
    while (heard < 20 && lseek(fd, 0, SEEK_SET) == 0)
        bytes[0] = 0;
    signal(SIGUSR1, SIG_IGN);
    kill(child, SIGKILL);
    CHECK(waitpid(child, &status, 0) == child);
    for (int times = 0; times < heard; times++)
        CHECK(read(pipe_ends[0], bytes, 1) == 1 && bytes[0] == 's');
    return failures > 0;
}

/* A handler writes what a read waits for, after a child has made a call. */
static int hear_within(void)
{
    pid_t child, parent = getpid();
    signal(SIGUSR1, tell);
    child = fork();
    if (child == 0) {
        usleep(200000);
        lseek(fd, 0, SEEK_SET);
        kill(parent, SIGUSR1);
        _exit(0);
    }
    CHECK(read(pipe_ends[0], bytes, 1) == 1 && bytes[0] == 's' && status_of(child) == 0);
    return failures > 0;
}

static int start_timers(void)
{
    struct itimerval late = {{0, 0}, {100, 0}}, never = {{0, 0}, {0, 0}};
    struct itimerspec then = {{0, 0}, {100, 0}};
    timer_t timer;
    alarm(0);
    alarm(100);
    ualarm(900000, 0);
    CHECK(setitimer(ITIMER_REAL, &late, NULL) == 0 && setitimer(ITIMER_REAL, &never, NULL) == 0);
    CHECK(timer_create(CLOCK_MONOTONIC, NULL, &timer) == 0 && timer_settime(timer, 0, &then, NULL) == 0);
    return failures > 0;
}

/* Handlers are set, and a child has them, until it begins another program. */
#pragma GCC diagnostic ignored "-Wdeprecated-declarations"
static int set_handlers(void)
{
    struct sigaction action;
    pid_t child;
    memset(&action, 0, sizeof action);
    action.sa_handler = tell;
    CHECK(signal(SIGUSR1, tell) == SIG_DFL && siginterrupt(SIGUSR1, 1) == 0 && signal(SIGPIPE, SIG_IGN) == SIG_DFL);
    CHECK(sigaction(SIGUSR2, &action, NULL) == 0 && sigaction(SIGUSR2, &action, NULL) == 0);
    CHECK(sigaction(SIGUSR2, NULL, &action) == 0 && signal(SIGUSR2, SIG_IGN) == tell);
    child = fork();
    if (child == 0) {
        execl("/proc/self/exe", "preload_apart", "no word", (char *)NULL);
        _exit(1);
    }
    CHECK(status_of(child) == 99);
    return failures > 0;
}

/* ---- threads */

static void *seek_often(void *given)
{
    for (int at = 0; at < TIMES; at++)
        lseek(fd, at, SEEK_SET);
    return given;
}

static void *write_on(void *unused)
{
    while (write(fd, "x", 1) == 1)
        heard = 1;
    return unused;
}

static void *read_once(void *given) { return read(pipe_ends[0], bytes, 1) == 1 ? given : NULL; }

/* A thread is cancelled that comes to no point where it can be, and one that does. */
static int cancel(void *(*does)(void *), void *wanted)
{
    pthread_t thread;
    void *given;
    CHECK(pthread_create(&thread, NULL, does, bytes) == 0);
    while (does == write_on && !heard)
        sched_yield();
    CHECK(pthread_cancel(thread) == 0 && pthread_join(thread, &given) == 0 && given == wanted);
    CHECK(write(fd, "x", 1) == 1);
    return failures > 0;
}

/* A thread that waits is cancelled. */
static int cancel_waiting(void)
{
    pthread_t thread;
    void *given;
    CHECK(pthread_create(&thread, NULL, read_once, bytes) == 0);
    usleep(300000);
    CHECK(pthread_cancel(thread) == 0 && pthread_join(thread, &given) == 0 && given == PTHREAD_CANCELED);
    return failures > 0;
}

/* ---- limits and numbers */

static int write_to_the_limit(void)
{
    struct rlimit few = {10, 10};
    signal(SIGXFSZ, SIG_IGN);
    CHECK(setrlimit(RLIMIT_FSIZE, &few) == 0);
    return write(fd, bytes, 10) == 10 && write(fd, bytes, 1) == -1 ? errno : 97;
}

/* The C library makes descriptors by a call that fdref does not know. */
static int number_others(void)
{
    int both[2];
    CHECK(socketpair(AF_UNIX, SOCK_STREAM, 0, both) == 0);
    dup(fd);
    dup(fd);
    CHECK(close(both[0]) == 0 && close(both[1]) == 0);
    dup(fd);
    return failures > 0;
}

static int close_all(void)
{
#ifdef SYS_close_range
    GIVES(syscall(SYS_close_range, 3, ~0U, 0), 0);
    GIVES(open("a", O_RDONLY), 3);
    FAILS(close(4), EBADF);
    errno = 0;
    for (int high = 32; high < 1100; high++)
        FAILS(syscall(SYS_close, high), EBADF);
    errno = 0;
    GIVES(read(3, bytes, 1), 0);
#endif
    return failures > 0;
}

static int make_name(void)
{
    char name[] = "nameXXXXXX";
    CHECK(mkstemp(name) >= 0);
    printf("%s", name);
    return failures > 0;
}

/* ---- processes */

static char stack[65536];

static int write_and_leave(void *given)
{
    _exit(write(pipe_ends[1], given, 1) == 1 ? 7 : 8);
}

/* A child that fork does not make writes to a pipe, and this process goes on. */
static int clone_writer(void)
{
    pid_t child = clone(write_and_leave, stack + sizeof stack, SIGCHLD, bytes);
    int status = status_of(child);
    CHECK(write(pipe_ends[1], "x", 1) == 1 && read(pipe_ends[0], bytes, 1) == 1);
    printf("%d\n", status);
    return failures > 0;
}

static void write_before(void) { heard += write(pipe_ends[1], "b", 1) == 1; }

static int fork_with_handlers(void)
{
    CHECK(pthread_atfork(write_before, NULL, NULL) == 0);
    if (fork() == 0)
        _exit(0);
    return failures > 0;
}

/* A pipe that is made before the program has its environment. */
static int early_ends[2] = {-1, -1};
static void make_early(void)
{
    if (getenv("PATH") == NULL && pipe(early_ends) == 0)
        is_early_written = write(early_ends[1], "e", 1) == 1;
}
__attribute__((section(".preinit_array"), used)) static void (*early)(void) = make_early;

static int read_early(void)
{
    CHECK(is_early_written && early_ends[0] == 3 && early_ends[1] == 4);
    errno = 0;
    GIVES(read(3, bytes, 9), 1);
    GIVES(open("a", O_RDONLY), 8);
    return failures > 0;
}

static int of_processes(const char *word)
{
    if (strcmp(word, "clone") == 0) return clone_writer();
    if (strcmp(word, "handlers of fork") == 0) return fork_with_handlers();
    if (strcmp(word, "early") == 0) return read_early();
    return 99;
}

int main(int count, char **words)
{
    const char *word = count == 2 ? words[1] : "";
    if (strcmp(word, "early") != 0 && early_ends[0] >= 0 && (close(early_ends[0]) != 0 || close(early_ends[1]) != 0))
        return 96;
    fd = open("a", O_RDWR | O_CREAT, 0600);
    if (fd < 0 || pipe(pipe_ends) != 0)
        return 96;
    if (strcmp(word, "signals") == 0) return hear_between();
    if (strcmp(word, "a signal within a call") == 0) return hear_within();
    if (strcmp(word, "timers") == 0) return start_timers();
    if (strcmp(word, "handlers") == 0) return set_handlers();
    if (strcmp(word, "cancelled too late") == 0) return cancel(seek_often, bytes);
    if (strcmp(word, "cancelled") == 0) return cancel(write_on, PTHREAD_CANCELED);
    if (strcmp(word, "cancelled while it waits") == 0) return cancel_waiting();
    if (strcmp(word, "small files") == 0) return write_to_the_limit();
    if (strcmp(word, "other numbers") == 0) return number_others();
    if (strcmp(word, "all closed") == 0) return close_all();
    if (strcmp(word, "a name") == 0) return make_name();
    return of_processes(word);
}
