/* Makes one thing that ends a program, or that fdref leaves out.

   usage: preload_ends WORD

   It runs in an empty folder. Status 99: the word is none. Where the program ends by itself, the status is the errno of
   the last call, or 0 where that did not fail. */

#include "preload.h"

#include <dirent.h>
#include <poll.h>
#include <pthread.h>
#include <sched.h>
#include <spawn.h>
#include <sys/epoll.h>
#include <sys/file.h>
#include <sys/resource.h>
#include <sys/select.h>
#include <sys/sendfile.h>
#include <sys/syscall.h>

static char bytes[10];
static int fd, pipe_ends[2];

static int of(long long given) { return given == -1 ? errno : 0; }

static void say(const char *text)
{
    if (write(1, text, strlen(text)) < 0)
        _exit(98);
}

static void hear(int number)
{
    (void)number;
    say("signal\n");
}

static void move(int number) { (void)(lseek(fd, number, SEEK_SET)); }

/* Writes to a pipe that nobody reads. */
static int break_pipe(void)
{
    close(pipe_ends[0]);
    return of(write(pipe_ends[1], "x", 1));
}

/* A handler comes while a read waits. */
static int wait_with_a_handler(void)
{
    pid_t child, parent = getpid();
    signal(SIGUSR1, hear);
    child = fork();
    if (child == 0) {
        usleep(200000);
        kill(parent, SIGUSR1);
        usleep(200000);
        _exit(write(pipe_ends[1], "y", 1) != 1);
    }
    return read(pipe_ends[0], bytes, 1) == 1 && bytes[0] == 'y' && status_of(child) == 0 ? 0 : 97;
}

static void *write_late(void *unused)
{
    usleep(100000);
    if (write(pipe_ends[1], "z", 1) < 0)
        _exit(98);
    return unused;
}

/* A thread waits for what another one writes. */
static int wait_in_a_thread(void)
{
    pthread_t thread;
    if (pthread_create(&thread, NULL, write_late, NULL) != 0)
        return 97;
    return read(pipe_ends[0], bytes, 1) == 1 && bytes[0] == 'z' && pthread_join(thread, NULL) == 0 ? 0 : 97;
}

/* Prints what is longer than the room below the greatest size of a file. */
static int print_past_the_end(void)
{
    const off_t most = (off_t)1 << 40;
    int done = lseek(fd, most - 2, SEEK_SET) < 0 ? 0 : dprintf(fd, "%s", "word");
    return done == -1 && lseek(fd, 0, SEEK_CUR) == most ? errno : 97;
}

/* A handler that makes a call comes again and again, at last while a read waits. */
static int wait_with_handlers(void)
{
    pid_t parent = getpid();
    signal(SIGUSR1, move);
    if (fork() == 0) {
        close(1);
        close(2);
        for (int times = 0; times < 1000 && kill(parent, SIGUSR1) == 0; times++)
            usleep(10000);
        _exit(0);
    }
    return read(pipe_ends[0], bytes, 1) == 1 ? 0 : 97;
}

static int end_softly(const char *word)
{
    static const char *const words[] = {"exit", "_exit", "_Exit", "quick_exit", "abort"};
    int at = 0;
    while (at < 5 && strcmp(word, words[at]) != 0)
        at++;
    switch (at) {
    case 0: exit(7);
    case 1: _exit(7);
    case 2: _Exit(7);
    case 3: quick_exit(7);
    case 4: abort();
    default: return 99;
    }
}

/* A child says that it is about to leave, and does so once it is told; then this process says that it is gone. */
static int outlive(const char *way)
{
    pid_t child = fork();
    if (child == 0) {
        say("leaving\n");
        return read(0, bytes, 1) == 1 ? end_softly(way) : 97;
    }
    child = status_of(child);
    say("gone\n");
    return child == 7 ? 0 : 97;
}

/* Moves or links a file from one folder to another, or back. */
static int between_folders(const char *word)
{
    int in = mkdir("d", 0700) == 0 ? open("d", O_RDONLY | O_DIRECTORY) : -1;
    if (in < 0 || open("d/x", O_WRONLY | O_CREAT, 0600) < 0)
        return 97;
    errno = 0;
    if (strcmp(word, "rename out") == 0) return of(rename("a", "d/y"));
    if (strcmp(word, "rename in") == 0) return of(rename("d/x", "b"));
    if (strcmp(word, "renameat out") == 0) return of(renameat(AT_FDCWD, "a", in, "y"));
    if (strcmp(word, "renameat in") == 0) return of(renameat(in, "x", AT_FDCWD, "a"));
    if (strcmp(word, "rename beside") == 0) return of(rename("d/x", "./d/y"));
    if (strcmp(word, "link out") == 0) return of(link("a", "d/y"));
    if (strcmp(word, "link in") == 0) return of(link("d/x", "b"));
    return 99;
}

/* ---- what is left out */

static int of_limits(const char *word)
{
    struct rlimit numbers = {20, 20}, size = {1000, RLIM_INFINITY};
    if (strcmp(word, "setrlimit of RLIMIT_NOFILE") == 0) return of(setrlimit(RLIMIT_NOFILE, &numbers));
    if (strcmp(word, "setrlimit of RLIMIT_FSIZE") == 0) return of(setrlimit(RLIMIT_FSIZE, &size));
    if (strcmp(word, "fpathconf of another limit") == 0) return of(fpathconf(fd, _PC_PATH_MAX));
    if (strcmp(word, "pathconf of another limit") == 0) return of(pathconf("a", _PC_PATH_MAX));
    return 99;
}

/* The limits of numbers that are told. */
static int tell_limits(void)
{
    struct rlimit was = {0, 0}, now = {0, 0};
    if (getrlimit(RLIMIT_NOFILE, &was) != 0 || prlimit(getpid(), RLIMIT_NOFILE, &was, &now) != 0)
        return errno;
    dprintf(1, "%d %d %d %d\n", (int)was.rlim_cur, (int)was.rlim_max, (int)now.rlim_cur, (int)now.rlim_max);
    dprintf(1, "%d %d\n", (int)sysconf(_SC_OPEN_MAX), getdtablesize());
    was.rlim_cur = 31;
    return of(prlimit(0, RLIMIT_NOFILE, &was, NULL));
}

static char stack[65536];
static int leave(void *unused)
{
    (void)unused;
    _exit(0);
}

/* Calls by their numbers, with what fdref has and with what it has not. */
static int of_numbers(const char *word)
{
    if (strcmp(word, "syscall of openat") == 0) return of(syscall(SYS_openat, AT_FDCWD, "none", O_RDONLY));
    if (strcmp(word, "syscall of pipe2") == 0) return of(syscall(SYS_pipe2, pipe_ends, 0));
    if (strcmp(word, "clone") == 0) return of(clone(leave, stack + sizeof stack, SIGCHLD, NULL) < 0 ? -1 : 0);
    if (strcmp(word, "syscall of fstat") == 0) return of(syscall(SYS_fstat, fd, bytes));
    if (strcmp(word, "syscall of dup3") == 0) return of(syscall(SYS_dup3, 1, fd, 0));
    if (strcmp(word, "syscall of unlinkat") == 0) return of(syscall(SYS_unlinkat, AT_FDCWD, "a", 0));
    return of_limits(word);
}

static int of_names(const char *word)
{
    struct timespec times[2] = {{0, UTIME_NOW}, {0, UTIME_NOW}};
    char name[] = "nameXXXXXX", *const list[] = {NULL};
    unsetenv("LD_PRELOAD");
    if (strcmp(word, "the path /dev/null") == 0) return of(open("/dev/null", O_RDONLY));
    if (strcmp(word, "the path /dev/none") == 0) return of(rename("a", "/dev/none"));
    if (strcmp(word, "none in a folder") == 0) return of(openat(9, "none", O_RDONLY));
    if (strcmp(word, "new in a folder") == 0) return of(renameat(AT_FDCWD, "a", 9, "new"));
    if (strcmp(word, "fopen") == 0) return fopen("none", "r") ? 0 : errno;
    if (strcmp(word, "freopen") == 0) return freopen("none", "r", stdin) ? 0 : errno;
    if (strcmp(word, "symlink") == 0) return of(symlink("a", "b"));
    if (strcmp(word, "readlink") == 0) return of(readlink("a", bytes, 9));
    if (strcmp(word, "mkdir") == 0) return of(mkdir("b", 0700));
    if (strcmp(word, "rmdir") == 0) return of(rmdir("a"));
    if (strcmp(word, "unlinkat of a directory") == 0) return of(unlinkat(AT_FDCWD, "a", AT_REMOVEDIR));
    if (strcmp(word, "opendir") == 0) return opendir("a") ? 0 : errno;
    if (strcmp(word, "mkstemp") == 0) return of(mkstemp(name));
    if (strcmp(word, "mknod") == 0) return of(mknod("b", S_IFREG, 0));
    if (strcmp(word, "chmod") == 0) return of(chmod("a", 0700));
    if (strcmp(word, "chown") == 0) return of(chown("a", getuid(), getgid()));
    if (strcmp(word, "utimensat") == 0) return of(utimensat(AT_FDCWD, "a", times, 0));
    if (strcmp(word, "chdir") == 0) return of(chdir("a"));
    if (strcmp(word, "open with other flags") == 0) return of(open("a", O_RDONLY | O_DIRECTORY));
    if (strcmp(word, "pipe2 with other flags") == 0) return of(pipe2(pipe_ends, O_DIRECT));
    if (strcmp(word, "execve") == 0) return of(execve("/no/such/program", list, list));
    if (strcmp(word, "execv") == 0) return of(execv("/no/such/program", list));
    if (strcmp(word, "execvp") == 0) return of(execvp("/no/such/program", list));
    if (strcmp(word, "execl") == 0) return of(execl("/no/such/program", "a", (char *)NULL));
    if (strcmp(word, "execle") == 0) return of(execle("/no/such/program", "a", (char *)NULL, list));
    if (strcmp(word, "execlp") == 0) return of(execlp("/no/such/program", "a", (char *)NULL));
    if (strcmp(word, "system") == 0) return system("exit 3") == 3 << 8 ? 0 : 98;
    if (strcmp(word, "posix_spawn") == 0) return posix_spawn(NULL, "/no/such/program", NULL, NULL, list, list);
    if (strcmp(word, "posix_spawnp") == 0) return posix_spawnp(NULL, "/no/such/program", NULL, NULL, list, list);
    if (strcmp(word, "popen") == 0) return popen("exit 3", "r") ? 0 : errno;
    return of_numbers(word);
}

static int of_descriptors(const char *word)
{
    struct iovec part = {bytes, 4};
    struct pollfd polled = {fd, POLLIN, 0};
    struct timespec moment = {0, 0};
    struct epoll_event event = {EPOLLIN, {NULL}};
    fd_set set;
    FD_ZERO(&set);
    FD_SET(fd, &set);
    if (strcmp(word, "fdopen") == 0) return fdopen(fd, "r") ? 0 : errno;
    if (strcmp(word, "mmap") == 0) return of((intptr_t)mmap(NULL, 1, PROT_READ, MAP_SHARED, fd, 0));
    if (strcmp(word, "ioctl") == 0) return of(ioctl(fd, FIONREAD, bytes));
    if (strcmp(word, "flock") == 0) return of(flock(fd, LOCK_SH));
    if (strcmp(word, "lockf") == 0) return of(lockf(fd, F_TEST, 1));
    if (strcmp(word, "sendfile") == 0) return of(sendfile(1, fd, NULL, 1));
    if (strcmp(word, "copy_file_range") == 0) return of(copy_file_range(fd, NULL, fd, NULL, 1, 0));
    if (strcmp(word, "splice") == 0) return of(splice(pipe_ends[0], NULL, fd, NULL, 1, SPLICE_F_NONBLOCK));
    if (strcmp(word, "preadv") == 0) return of(preadv(fd, &part, 1, 0));
    if (strcmp(word, "pwritev") == 0) return of(pwritev(fd, &part, 1, 0));
    if (strcmp(word, "fallocate") == 0) return of(fallocate(fd, 0, 0, 1));
    if (strcmp(word, "fchmod") == 0) return of(fchmod(fd, 0700));
    if (strcmp(word, "fchown") == 0) return of(fchown(fd, getuid(), getgid()));
    if (strcmp(word, "futimens") == 0) return of(futimens(fd, NULL));
    if (strcmp(word, "fcntl with other flags") == 0) return of(fcntl(fd, F_SETFL, O_NONBLOCK | O_ASYNC));
    if (strcmp(word, "fcntl with another command") == 0) return of(fcntl(fd, F_GETOWN));
    if (strcmp(word, "lseek by SEEK_DATA and its kin") == 0) return of(lseek(fd, 0, SEEK_DATA));
    if (strcmp(word, "renameat2 with flags") == 0)
        return of(renameat2(AT_FDCWD, "a", AT_FDCWD, "b", RENAME_NOREPLACE));
    if (strcmp(word, "poll") == 0) return of(poll(&polled, 1, 0));
    if (strcmp(word, "ppoll") == 0) return of(ppoll(&polled, 1, &moment, NULL));
    if (strcmp(word, "select") == 0) return of(select(fd + 1, &set, NULL, NULL, NULL));
    if (strcmp(word, "pselect") == 0) return of(pselect(fd + 1, NULL, &set, NULL, &moment, NULL));
    if (strcmp(word, "epoll_ctl") == 0) return of(epoll_ctl(epoll_create1(0), EPOLL_CTL_ADD, fd, &event));
    return of_names(word);
}

int main(int count, char **given)
{
    const char *word = count == 2 ? given[1] : "";
    fd = open("a", O_RDWR | O_CREAT, 0600);
    if (fd != 3 || pipe(pipe_ends) != 0)
        return 96;
    signal(SIGPIPE, SIG_DFL);
    if (strcmp(word, "broken pipe") == 0)
        return break_pipe();
    if (strcmp(word, "broken pipe, heard") == 0) {
        signal(SIGPIPE, hear);
        return break_pipe();
    }
    if (strcmp(word, "broken pipe, ignored") == 0) {
        signal(SIGPIPE, SIG_IGN);
        return break_pipe();
    }
    if (strcmp(word, "handler") == 0)
        return wait_with_a_handler();
    if (strcmp(word, "handler that calls") == 0)
        return wait_with_handlers();
    if (strncmp(word, "child's ", 8) == 0)
        return outlive(word + 8);
    if (strcmp(word, "many calls") == 0)
        while (lseek(fd, 0, SEEK_SET) == 0)
            bytes[0] = 0;
    if (strncmp(word, "between: ", 9) == 0)
        return between_folders(word + 9);
    if (strcmp(word, "limits") == 0)
        return tell_limits();
    if (strcmp(word, "beside a thread") == 0)
        return wait_in_a_thread();
    if (strcmp(word, "full file") == 0)
        return print_past_the_end();
    count = end_softly(word);
    return count == 99 ? of_descriptors(word) : count;
}
