/* Has a process that a signal ends.

   usage: judge_signals kills|late|address|child|by-number|aborts|stops|interrupts|jumps
                        |read|readv|write|open|hears|awaits|loses|loses-beside|cancels-wait|ends-wait

   kills    has a child that reads an empty pipe, and kills it
   late     the same, and reads what it writes to the pipe then
   address  writes from an address that there is not
   child    has a child that does so
   by-number  the same, and waits for it by waitid
   aborts   aborts
   stops    raises SIGTERM
   interrupts  has a signal come while it reads an empty pipe
   jumps    jumps out of the handler of a signal that comes while it reads an empty pipe
   read     has a signal come while it reads an empty pipe, and reads again, until a child writes to it
   readv    the same by readv
   write    the same of a write to a pipe that is full
   open     the same of an open of a FIFO
   hears    reads what is there, with a handler of a signal
   awaits   has a signal come while it waits for a child, and waits again
   loses    the same, and a signal ends the child
   loses-beside  the same beside a thread, which was there before the child
   cancels-wait  cancels a thread that waits for a child
   ends-wait     sets a handler and sends its signal to a thread that waits for a child already */

#define _DEFAULT_SOURCE

#include <errno.h>
#include <fcntl.h>
#include <pthread.h>
#include <setjmp.h>
#include <signal.h>
#include <stdint.h>
#include <stdlib.h>
#include <string.h>
#include <sys/stat.h>
#include <sys/time.h>
#include <sys/uio.h>
#include <sys/wait.h>
#include <unistd.h>

/* The child is given the time to wait in its read. */
static int kill_child(int is_late)
{
    int ends[2], status;
    char byte;
    pid_t child = pipe(ends) == 0 ? fork() : -1;
    if (child == 0)
        _exit(read(ends[0], &byte, 1) == 1);
    usleep(300000);
    if (child < 0 || kill(child, SIGKILL) != 0 || waitpid(child, &status, 0) != child || !WIFSIGNALED(status))
        return 1;
    return is_late && (write(ends[1], "y", 1) != 1 || read(ends[0], &byte, 1) != 1);
}

static void handle(int number) { (void)number; }

/* The signal comes again and again, so that none is too early. */
static int interrupt(void)
{
    struct sigaction action;
    struct itimerval times = {{0, 200000}, {0, 200000}};
    int ends[2];
    char byte;
    memset(&action, 0, sizeof action);
    action.sa_handler = handle;
    return sigaction(SIGALRM, &action, NULL) || pipe(ends) || setitimer(ITIMER_REAL, &times, NULL)
        || read(ends[0], &byte, 1) != -1 || errno != EINTR;
}

enum { MANY = 100000 };

/* A child sends a signal to its parent, and then lets it go on: it reads all of a pipe, or opens a FIFO, or writes. */
static pid_t signals_and_serves(const char *what, const int ends[2])
{
    char bytes[4096];
    pid_t child = fork(), parent = getppid();
    int to = ends[1];
    if (child != 0)
        return child;
    close(ends[what[0] == 'w']);
    usleep(300000);
    kill(parent, SIGUSR1);
    usleep(300000);
    while (what[0] == 'w' && read(ends[0], bytes, sizeof bytes) > 0)
        continue;
    if (what[0] == 'o')
        to = open("f", O_WRONLY);
    _exit(what[0] != 'w' && write(to, "y", 1) != 1);
}

/* Makes a call once. */
static ssize_t made_once(const char *what, const int ends[2], char *bytes, size_t size)
{
    struct iovec part = {bytes, 1};
    if (strcmp(what, "readv") == 0)
        return readv(ends[0], &part, 1);
    if (what[0] == 'o')
        return open("f", O_RDONLY);
    return what[0] == 'w' ? write(ends[1], bytes, size) : read(ends[0], bytes, 1);
}

/* Makes a call again as long as a signal ends it, or has cut it short. */
static int makes_again(const char *what)
{
    static char bytes[MANY];
    struct sigaction action;
    int ends[2], status;
    size_t moved = 0, size = what[0] == 'w' ? MANY : 1;
    ssize_t done;
    pid_t child;
    memset(&action, 0, sizeof action);
    action.sa_handler = handle;
    if (sigaction(SIGUSR1, &action, NULL) || pipe(ends) || mkfifo("f", 0600))
        return 1;
    if (strcmp(what, "hears") == 0)
        return write(ends[1], "y", 1) != 1 || read(ends[0], bytes, 1) != 1;
    child = signals_and_serves(what, ends);
    do {
        done = made_once(what, ends, bytes + moved, size - moved);
        moved += done > 0 && what[0] == 'w' ? (size_t)done : 0;
    } while ((done < 0 && errno == EINTR) || (what[0] == 'w' && done > 0 && moved < size));
    return done < 0 || close(ends[1]) || waitpid(child, &status, 0) != child || status != 0;
}

static int awaits(int is_lost)
{
    struct sigaction action;
    int status;
    pid_t child, parent = getpid();
    memset(&action, 0, sizeof action);
    action.sa_handler = handle;
    if (sigaction(SIGUSR1, &action, NULL))
        return 1;
    child = fork();
    if (child == 0) {
        usleep(300000);
        kill(parent, SIGUSR1);
        usleep(300000);
        if (is_lost)
            raise(SIGKILL);
        _exit(0);
    }
    while (waitpid(child, &status, 0) < 0 && errno == EINTR)
        continue;
    return is_lost ? !WIFSIGNALED(status) : status != 0;
}

static volatile int is_over;

static void *stay(void *unused)
{
    while (!is_over)
        usleep(1000);
    return unused;
}

static int awaits_beside(void)
{
    pthread_t thread;
    int failures = pthread_create(&thread, NULL, stay, NULL) != 0 || awaits(1) != 0;
    is_over = 1;
    return failures || pthread_join(thread, NULL) != 0;
}

static pid_t awaited;

/* Gives an address if a signal has ended the wait. */
static void *await_one(void *address)
{
    int status;
    return waitpid(awaited, &status, 0) < 0 && errno == EINTR ? address : NULL;
}

static int leaves_wait(int is_cancelled)
{
    struct sigaction action;
    pthread_t thread;
    void *given;
    int status, failures;
    awaited = fork();
    while (awaited == 0)
        pause();
    if (pthread_create(&thread, NULL, await_one, &awaited) != 0)
        return 1;
    usleep(300000);
    memset(&action, 0, sizeof action);
    action.sa_handler = handle;
    failures = is_cancelled ? pthread_cancel(thread)
                            : sigaction(SIGUSR1, &action, NULL) || pthread_kill(thread, SIGUSR1);
    if (pthread_join(thread, &given) != 0 || given != (is_cancelled ? PTHREAD_CANCELED : (void *)&awaited))
        return 1;
    return failures || kill(awaited, SIGKILL) != 0 || waitpid(awaited, &status, 0) != awaited || !WIFSIGNALED(status);
}

static sigjmp_buf before;

static void jump(int number) { siglongjmp(before, number); }

static int jumps(void)
{
    int ends[2];
    char byte;
    if (pipe(ends) != 0 || signal(SIGALRM, jump) == SIG_ERR)
        return 1;
    if (sigsetjmp(before, 1) == 0) {
        alarm(1);
        return read(ends[0], &byte, 1) != 0;
    }
    return write(ends[1], "z", 1) != 1 || read(ends[0], &byte, 1) != 1;
}

int main(int count, char **words)
{
    const char *what = count > 1 ? words[1] : "";
    siginfo_t told;
    int fd = open("a", O_RDWR | O_CREAT, 0600);
    if ((strcmp(what, "kills") == 0 || strcmp(what, "late") == 0) && kill_child(what[0] == 'l') != 0)
        return 1;
    if (strcmp(what, "jumps") == 0 && jumps() != 0)
        return 1;
    if (strcmp(what, "address") == 0 && write(fd, (void *)(uintptr_t)count, 5) >= 0)
        return 1;
    if ((strcmp(what, "child") == 0 || strcmp(what, "by-number") == 0) && fork() == 0)
        return write(fd, (void *)(uintptr_t)count, 5) >= 0;
    if (strcmp(what, "child") == 0 && wait(NULL) < 0)
        return 1;
    if (strcmp(what, "by-number") == 0 && waitid(P_ALL, 0, &told, WEXITED) != 0)
        return 1;
    if (strcmp(what, "interrupts") == 0 && interrupt() != 0)
        return 1;
    if (what[0] && strchr("rwoh", what[0]) && makes_again(what) != 0)
        return 1;
    if ((strcmp(what, "awaits") == 0 || strcmp(what, "loses") == 0) && awaits(what[0] == 'l') != 0)
        return 1;
    if (strcmp(what, "loses-beside") == 0 && awaits_beside() != 0)
        return 1;
    if ((strcmp(what, "cancels-wait") == 0 || strcmp(what, "ends-wait") == 0) && leaves_wait(what[0] == 'c') != 0)
        return 1;
    if (strcmp(what, "aborts") == 0)
        abort();
    if (strcmp(what, "stops") == 0)
        raise(SIGTERM);
    return close(fd);
}
