/* Has processes or threads that act at once, and what each of them gets depends on who is first.

   usage: judge_races excl|appends|offset|pipe|threads|reopens|leaves

   excl     three children make a file by O_EXCL
   appends  two children append to a file, which is read then
   offset   two children write by one offset
   pipe     two children write to a pipe, which is read then
   threads  three threads open files, and write by one offset
   reopens  three threads open a file, write to it, wait and write, and close it, again and again
   leaves   a child ends while a thread of it writes, again and again */

#define _DEFAULT_SOURCE

#include <fcntl.h>
#include <pthread.h>
#include <string.h>
#include <sys/wait.h>
#include <unistd.h>

enum { CHILDREN = 3, WRITES = 8, REOPENS = 3 };

static int ends[2], shared;

/* What each child, or thread, does. */
static int act(const char *what, char who)
{
    char bytes[2] = {who, '0'};
    int fd = strcmp(what, "pipe") == 0 ? ends[1] : shared;
    if (strcmp(what, "excl") == 0)
        return open("lock", O_WRONLY | O_CREAT | O_EXCL, 0600) == -2;
    if (strcmp(what, "appends") == 0)
        fd = open("a", O_WRONLY | O_APPEND);
    for (; bytes[1] < '0' + WRITES; bytes[1]++)
        if (write(fd, bytes, 2) != 2)
            return 1;
    return 0;
}

static void *thread(void *who)
{
    char name[2] = {*(char *)who, 0};
    int fd = open(name, O_RDWR | O_CREAT, 0600);
    return fd < 0 || act("offset", *name) != 0 || close(fd) != 0 ? who : NULL;
}

static void *reopen(void *who)
{
    char name[2] = {*(char *)who, 0};
    for (int at = 0; at < REOPENS; at++) {
        int fd = open(name, O_RDWR | O_CREAT, 0600), failures = fd < 0 || write(fd, name, 1) != 1;
        usleep(50000);
        if (failures || write(fd, name, 1) != 1 || close(fd) != 0)
            return who;
    }
    return NULL;
}

static int run_threads(void *(*runs)(void *))
{
    static char names[CHILDREN] = {'x', 'y', 'z'};
    pthread_t threads[CHILDREN];
    void *failed;
    int failures = 0;
    for (int at = 0; at < CHILDREN; at++)
        failures += pthread_create(threads + at, NULL, runs, names + at) != 0;
    for (int at = 0; at < CHILDREN && failures == 0; at++)
        failures += pthread_join(threads[at], &failed) != 0 || failed;
    return failures;
}

static void *write_on(void *unused)
{
    while (write(shared, "w", 1) == 1)
        continue;
    return unused;
}

/* The child ends once its thread has written. */
static int leave(void)
{
    pthread_t writer;
    int status;
    if (fork() == 0) {
        int failure = pthread_create(&writer, NULL, write_on, NULL);
        while (failure == 0 && lseek(shared, 0, SEEK_CUR) == 0)
            usleep(1000);
        _exit(failure);
    }
    return wait(&status) < 0 || status != 0;
}

/* The children begin together, once nobody can write to the pipe that they read. */
static int run_children(const char *what)
{
    int start[2], status, failures = 0;
    if (pipe(start) != 0)
        return 1;
    for (char at = 0; at < CHILDREN; at++)
        if (fork() == 0) {
            char byte;
            close(start[1]);
            _exit(read(start[0], &byte, 1) != 0 || act(what, (char)('x' + at)) != 0);
        }
    close(start[0]);
    close(start[1]);
    for (int at = 0; at < CHILDREN; at++)
        failures += wait(&status) < 0 || status != 0;
    return failures;
}

int main(int count, char **words)
{
    const char *what = count > 1 ? words[1] : "";
    char bytes[20];
    int fd, failures;
    shared = open("a", O_RDWR | O_CREAT, 0600);
    if (shared < 0 || pipe(ends) != 0)
        return 1;
    if (strcmp(what, "leaves") == 0)
        return leave();
    if (strcmp(what, "threads") == 0)
        failures = run_threads(thread);
    else
        failures = strcmp(what, "reopens") == 0 ? run_threads(reopen) : run_children(what);
    close(ends[1]);
    fd = strcmp(what, "pipe") == 0 ? ends[0] : open("a", O_RDONLY);
    while (read(fd, bytes, sizeof bytes) > 0)
        continue;
    return failures;
}
