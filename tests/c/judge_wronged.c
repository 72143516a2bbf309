/* Makes calls of which a system is wrong about one, as tests/c/wrong_calls.c is, and goes on as if it were right.

   usage: judge_wronged WAY */

#define _GNU_SOURCE

#include <errno.h>
#include <fcntl.h>
#include <pthread.h>
#include <signal.h>
#include <stdio.h>
#include <stdlib.h>
#include <string.h>
#include <sys/ioctl.h>
#include <sys/stat.h>
#include <sys/uio.h>
#include <sys/wait.h>
#include <unistd.h>

static char bytes[16];
static int ends[2];

/* A child has the writing end of a pipe until it exits, which its parent waits for before it reads. */
static void meet_dry_end(void)
{
    fcntl(ends[0], F_SETFL, O_NONBLOCK);
    if (fork() == 0)
        _exit(0);
    close(ends[1]);
    wait(NULL);
    read(ends[0], bytes, 1);
}

/* The same of one at descriptor 0, which stdio does not read. */
static void meet_dry_input(void)
{
    dup2(ends[0], 0);
    close(ends[0]);
    ends[0] = 0;
    meet_dry_end();
}

static void keep_flags_here(void)
{
    int copies[6];
    fcntl(ends[0], F_SETFD, FD_CLOEXEC);
    fcntl(ends[0], F_GETFD);
    copies[0] = dup(ends[0]);
    copies[1] = dup2(ends[0], 9);
    copies[2] = fcntl(ends[0], F_DUPFD, 12);
    copies[3] = fcntl(ends[0], F_DUPFD_CLOEXEC, 12);
    copies[4] = open("a", O_RDWR | O_CREAT | O_CLOEXEC, 0600);
    copies[5] = 99;
    for (int at = 0; at < 6; at++)
        fcntl(copies[at], F_GETFD);
    dup2(ends[0], ends[0]);
    fcntl(ends[0], F_GETFD);
    ioctl(copies[0], FIOCLEX);
    ioctl(copies[4], FIONCLEX);
    fcntl(copies[0], F_GETFD);
    fcntl(copies[4], F_GETFD);
    close(copies[4]);
    fcntl(copies[4], F_GETFD);
}

/* A child has them, too. */
static void keep_flags(void)
{
    keep_flags_here();
    if (fork() == 0)
        _exit(fcntl(ends[0], F_GETFD) == 99);
    wait(NULL);
}

/* Calls go on as if the one before had done what it has to. */
static void write_much(void)
{
    static char many[200000];
    int fd = open("a", O_RDWR | O_CREAT, 0600);
    write(fd, many, sizeof many);
    lseek(fd, 0, SEEK_CUR);
}

static void copy(void)
{
    fcntl(ends[0], F_DUPFD, 8);
    fcntl(ends[0], F_DUPFD, 8);
    dup2(ends[1], 12);
    fcntl(ends[0], F_DUPFD, 12);
    fcntl(ends[0], F_DUPFD, 32);
    fcntl(ends[0], F_DUPFD, -1);
    fcntl(20, F_DUPFD, 3);
    write(12, "x", 1);
}

/* A stream and a socket may take numbers, and are not to blame. */
static void end(void)
{
    fclose(fopen("/dev/null", "r"));
    write(ends[1], "x", 1);
    close(ends[0]);
    read(ends[0], bytes, 1);
    open("a", O_RDWR | O_CREAT, 0600);
}

static void break_pipe(void)
{
    signal(SIGPIPE, SIG_IGN);
    close(ends[0]);
    write(ends[1], "x", 1);
    close(ends[1]);
}

static int heard;
static void hear_pipe(int number) { heard += number == SIGPIPE; }

/* What a handler hears is told by nothing. */
static void break_heard(void)
{
    struct sigaction action;
    memset(&action, 0, sizeof action);
    action.sa_handler = hear_pipe;
    sigaction(SIGPIPE, &action, NULL);
    write(ends[1], "x", 1);
    close(ends[0]);
    write(ends[1], "x", 1);
    close(ends[1]);
}

/* A child exits with a status, and another one is killed, which their parent does not go by. */
static void await(void)
{
    int status;
    pid_t child = fork();
    if (child == 0) {
        read(ends[0], bytes, 1);
        _exit(7);
    }
    write(ends[1], "x", 1);
    waitpid(child, &status, 0);
    close(ends[1]);
}

/* A child is killed, and its parent waits for it, and once more. */
static void await_killed(void)
{
    int status;
    pid_t child = fork();
    if (child == 0)
        raise(SIGKILL);
    waitpid(-1, &status, 0);
    waitpid(-1, &status, 0);
}

static void hear(int number);

/* A child is killed after a while, with a handler here that ends calls. */
static void await_heard(void)
{
    struct sigaction action;
    int status;
    memset(&action, 0, sizeof action);
    action.sa_handler = hear;
    sigaction(SIGUSR1, &action, NULL);
    if (fork() == 0) {
        usleep(300000);
        raise(SIGKILL);
    }
    waitpid(-1, &status, 0);
}

/* Any child of this group is waited for. */
static void await_group(void)
{
    int status;
    if (fork() == 0)
        raise(SIGKILL);
    waitpid(0, &status, 0);
}

/* It is asked for again and again. */
static void await_asked(void)
{
    int status;
    if (fork() == 0) {
        usleep(300000);
        raise(SIGKILL);
    }
    while (waitpid(-1, &status, WNOHANG) == 0)
        usleep(1000);
}

/* A thread waits until the writing end of the pipe is closed. */
static void *stay(void *data)
{
    while (ends[1] >= 0)
        usleep(10000);
    return data;
}

/* The same beside a thread. */
static void await_beside(void)
{
    pthread_t thread;
    int status;
    if (pthread_create(&thread, NULL, stay, NULL) != 0)
        exit(1);
    if (fork() == 0) {
        usleep(100000);
        raise(SIGKILL);
    }
    waitpid(-1, &status, 0);
    close(ends[1]);
    ends[1] = -1;
    pthread_join(thread, NULL);
}

/* A child exits with a status after a while, in which its parent has come to wait for it in one of several ways. */
static pid_t leave_late(void)
{
    pid_t child = fork();
    if (child != 0)
        return child;
    usleep(300000);
    _exit(7);
}

static void await_late(void)
{
    leave_late();
    wait(NULL);
}

static void await_late_any(void)
{
    int status;
    leave_late();
    waitpid(-1, &status, 0);
}

static void await_late_one(void)
{
    int status;
    waitpid(leave_late(), &status, 0);
}

static void await_late_used(void)
{
    int status;
    leave_late();
    wait4(-1, &status, 0, NULL);
}

static void await_late_told(void)
{
    siginfo_t told;
    leave_late();
    waitid(P_ALL, 0, &told, WEXITED);
}

/* The group is this one. */
static void await_late_group(void)
{
    int status;
    leave_late();
    waitpid(0, &status, 0);
}

static void do_beside(void (*does)(void));
static void await_late_beside(void) { do_beside(await_late_any); }

/* A child exits with a status, and each wait for any takes it. */
static void leave(void)
{
    if (fork() == 0)
        _exit(7);
}

static void await_one(void)
{
    int status;
    leave();
    wait(&status);
}

static void await_any(void)
{
    int status;
    leave();
    waitpid(-1, &status, 0);
}

static void await_used(void)
{
    int status;
    leave();
    wait4(-1, &status, 0, NULL);
}

static void await_told(void)
{
    siginfo_t told;
    leave();
    waitid(P_ALL, 0, &told, WEXITED);
}

/* After the only child there is none, and none is told. */
static void await_told_again(void)
{
    siginfo_t told;
    await_told();
    waitid(P_ALL, 0, NULL, WEXITED);
    waitid(P_ALL, 0, &told, WEXITED | WNOHANG);
}

/* While a child has not ended, it is told that none has, by WNOHANG. */
static void await_told_none(void)
{
    siginfo_t told;
    pid_t child = fork();
    if (child == 0)
        _exit((int)read(ends[0], bytes, 1));
    told.si_pid = child;
    if (waitid(P_ALL, 0, &told, WEXITED | WNOHANG) != 0 || told.si_pid != 0)
        exit(1);
    write(ends[1], "x", 1);
    waitid(P_PID, (id_t)child, &told, WEXITED | WSTOPPED);
}

/* The same beside a thread. */
static void await_self_beside(void)
{
    pthread_t thread;
    if (pthread_create(&thread, NULL, stay, NULL) != 0)
        exit(1);
    await_one();
    close(ends[1]);
    ends[1] = -1;
    pthread_join(thread, NULL);
}

/* What is in the status before is the status of no child. */
static void await_status(void)
{
    int status = -1;
    leave();
    waitpid(-1, &status, 0);
}

/* The rest is right in itself. Children end beside a wait, and it or a handler takes each. */
static void take_ended(int number)
{
    int error = errno, status;
    while (number == SIGCHLD && waitpid(-1, &status, WNOHANG) > 0)
        continue;
    errno = error;
}

static void await_handled(void)
{
    struct sigaction action;
    memset(&action, 0, sizeof action);
    action.sa_handler = take_ended;
    action.sa_flags = SA_RESTART;
    sigaction(SIGCHLD, &action, NULL);
    for (int at = 0; at < 3; at++)
        leave();
    while (wait(NULL) > 0)
        continue;
}

/* A handler runs that restarts the wait, which takes the children as they end: by a signal, with a status, and in a
   group of their own. */
static void await_restarted(void)
{
    struct sigaction action;
    siginfo_t told;
    int status;
    pid_t parent = getpid(), child = fork();
    memset(&action, 0, sizeof action);
    action.sa_handler = hear;
    action.sa_flags = SA_RESTART;
    sigaction(SIGUSR1, &action, NULL);
    if (child == 0) {
        usleep(100000);
        kill(parent, SIGUSR1);
        usleep(100000);
        raise(SIGKILL);
    }
    if (waitpid(child, &status, 0) != child || !WIFSIGNALED(status))
        exit(1);
    child = leave_late();
    setpgid(child, child);
    if (waitpid(-child, &status, 0) != child || WEXITSTATUS(status) != 7)
        exit(1);
    child = leave_late();
    setpgid(child, child);
    if (waitid(P_PGID, (id_t)child, &told, WEXITED) != 0 || told.si_pid != child || wait(NULL) != -1)
        exit(1);
}

static void *take_all(void *data)
{
    while (wait(NULL) > 0)
        continue;
    return data;
}

/* Each of two threads takes what it finds. */
static void await_by_two(void)
{
    pthread_t threads[2];
    for (int at = 0; at < 3; at++)
        leave();
    for (int at = 0; at < 2; at++)
        if (pthread_create(&threads[at], NULL, take_all, NULL) != 0)
            exit(1);
    for (int at = 0; at < 2; at++)
        pthread_join(threads[at], NULL);
}

/* A child stops, goes on, and ends once it has read a byte, beside another one that has ended. */
static void await_stopped(void)
{
    int status;
    pid_t child = fork();
    if (child == 0) {
        raise(SIGSTOP);
        _exit((int)read(ends[0], bytes, 1));
    }
    leave();
    usleep(100000);
    for (int is_stopped = 0; !is_stopped;)
        is_stopped = waitpid(-1, &status, WUNTRACED) == child && WIFSTOPPED(status);
    kill(child, SIGCONT);
    if (waitpid(child, &status, WCONTINUED) != child || !WIFCONTINUED(status))
        exit(1);
    write(ends[1], "x", 1);
    while (wait(NULL) > 0)
        continue;
}

/* Two children are there until their parent goes on, whatever numbers it is told. */
static void fork_twice(void)
{
    for (int at = 0; at < 2; at++)
        if (fork() == 0) {
            close(ends[1]);
            _exit((int)read(ends[0], bytes, 1));
        }
    close(ends[1]);
    while (wait(NULL) > 0)
        continue;
}

static void *fork_in_thread(void *data)
{
    fork_twice();
    return data;
}

/* The same in a thread. */
static void fork_beside(void)
{
    pthread_t thread;
    if (pthread_create(&thread, NULL, fork_in_thread, NULL) != 0 || pthread_join(thread, NULL) != 0)
        exit(1);
}

/* A child writes a byte and has gone, or it is here. */
static void fork_once(void)
{
    if (fork() == 0) {
        write(ends[1], "x", 1);
        _exit(0);
    }
    wait(NULL);
}

/* Runs itself again, by two functions, in children. */
static char *own_path;
static void run_again(void)
{
    char *words[] = {own_path, (char[]){"end"}, NULL};
    if (fork() == 0) {
        execl(own_path, own_path, "end", (char *)NULL);
        _exit(9);
    }
    wait(NULL);
    if (fork() == 0) {
        execvp(own_path, words);
        _exit(9);
    }
    wait(NULL);
    write(ends[1], "x", 1);
}

static void copy_same(void) { dup3(ends[0], ends[0], 0); }

static void ask(void)
{
    close(open("a", O_RDWR | O_CREAT, 0600));
    access("a", R_OK | W_OK);
    access("b", F_OK);
}

/* The buffer is not the whole array. */
static void take_few(void)
{
    write(ends[1], "xyz", 3);
    read(ends[0], bytes, 2);
}

/* Asks which file each end of two pipes is, and of a copy; the file of a pipe that is closed may come again. */
static void ask_files(void)
{
    struct stat told[5];
    int more[2];
    if (pipe(more) != 0 || dup2(ends[0], 9) != 9)
        return;
    fstat(ends[0], told);
    fstat(ends[1], told + 1);
    fstat(more[0], told + 2);
    fstat(9, told + 3);
    close(more[0]);
    close(more[1]);
    if (pipe(more) == 0)
        fstat(more[1], told + 4);
}

/* Asks which file each of three descriptors is, of which two are of one file; that of a file that is gone may come
   again. */
static void ask_for_files(void)
{
    struct stat told[3];
    int fd = open("a", O_RDWR | O_CREAT, 0600), other = open("b", O_RDWR | O_CREAT, 0600);
    if (link("a", "c") != 0 || fstat(fd, told) != 0 || fstat(other, told) != 0)
        exit(1);
    fstat(open("c", O_RDONLY), told);
    close(other);
    unlink("b");
    fstat(open("d", O_RDWR | O_CREAT, 0600), told);
}

static void ask_for_names(void)
{
    struct stat told;
    close(open("a", O_RDWR | O_CREAT, 0600));
    close(open("b", O_RDWR | O_CREAT, 0600));
    if (link("a", "c") != 0)
        exit(1);
    stat("a", &told);
    stat("c", &told);
    stat("b", &told);
    unlink("b");
    close(open("d", O_RDWR | O_CREAT, 0600));
    stat("d", &told);
}

/* Asks so by statx, which tells as much of a descriptor: of two of one file, and of another one. */
static void ask_by_statx(void)
{
    struct stat plainly;
    struct statx told[3];
    int fd = open("a", O_RDWR | O_CREAT, 0600), other = open("b", O_RDWR | O_CREAT, 0600);
    if (fstat(other, &plainly) != 0 || statx(fd, "", AT_EMPTY_PATH, STATX_BASIC_STATS, told) != 0
        || statx(other, "", AT_EMPTY_PATH, STATX_BASIC_STATS, told + 1) != 0
        || statx(dup(fd), "", AT_EMPTY_PATH, STATX_INO, told + 2) != 0)
        exit(1);
    fstat(fd, &plainly);
}

/* The same of names. */
static void ask_names_by_statx(void)
{
    struct statx told;
    close(open("a", O_RDWR | O_CREAT, 0600));
    close(open("b", O_RDWR | O_CREAT, 0600));
    if (link("a", "c") != 0)
        exit(1);
    statx(AT_FDCWD, "a", 0, STATX_BASIC_STATS, &told);
    statx(AT_FDCWD, "c", AT_SYMLINK_NOFOLLOW, STATX_BASIC_STATS, &told);
    statx(AT_FDCWD, "b", 0, STATX_BASIC_STATS, &told);
    statx(AT_FDCWD, "d", 0, STATX_BASIC_STATS, &told);
}

/* Opens both ends of a FIFO. */
static void open_both(void)
{
    mkfifo("f", 0600);
    open("f", O_RDONLY | O_NONBLOCK);
    open("f", O_WRONLY);
}

/* Runs what is not there, and what is no program. */
static void run_nothing(void)
{
    char *words[] = {(char[]){"none"}, NULL};
    execv("./none", words);
    execv("none/none", words);
    execv("", words);
}

static void run_folder(void)
{
    char *words[] = {(char[]){"none"}, NULL};
    write(ends[1], "x", 1);
    execv("/", words);
}

/* Reads into parts that overlap, the later one over the first. */
static void read_over(void)
{
    struct iovec parts[2] = {{bytes, 2}, {bytes + 1, 1}};
    write(ends[1], "xyz", 3);
    if (readv(ends[0], parts, 2) != 3 || memcmp(bytes, "xz", 2) != 0)
        exit(1);
}

/* Copies a descriptor that was there from the start. */
static void copy_real(void)
{
    dup(1);
    dup2(1, 12);
}

/* Goes back to the start of a file, or a child does. */
static void seek_back(void) { lseek(open("a", O_RDWR | O_CREAT, 0600), 0, SEEK_SET); }

static void seek_back_in_child(void)
{
    if (fork() == 0) {
        seek_back();
        _exit(0);
    }
    wait(NULL);
}

/* Opens a FIFO that a child opens after a while. */
static void open_fifo(void)
{
    mkfifo("f", 0600);
    if (fork() == 0) {
        usleep(300000);
        read(open("f", O_RDONLY), bytes, 1);
        _exit(0);
    }
    write(open("f", O_WRONLY), "x", 1);
    wait(NULL);
}

static void *write_one(void *data)
{
    write(ends[1], "x", 1);
    return data;
}

static void keep_flags_after_thread(void)
{
    pthread_t thread;
    if (pthread_create(&thread, NULL, write_one, NULL) != 0 || pthread_join(thread, NULL) != 0)
        exit(1);
    usleep(100000);
    fcntl(ends[0], F_SETFD, FD_CLOEXEC);
    fcntl(ends[0], F_GETFD);
}

/* Descriptors are closed while a signal is blocked. */
static void close_blocked(void)
{
    sigset_t one;
    sigemptyset(&one);
    sigaddset(&one, SIGUSR1);
    sigprocmask(SIG_BLOCK, &one, NULL);
    close_range((unsigned)ends[0], (unsigned)ends[1], 0);
    raise(SIGUSR1);
}

static void hear(int number) { heard += number == SIGUSR1; }
static void hear_more(int number, siginfo_t *info, void *context) { heard += info->si_signo == number && context; }

/* A handler is set that restarts calls. */
static void restart(void)
{
    struct sigaction action;
    memset(&action, 0, sizeof action);
    action.sa_handler = hear;
    action.sa_flags = SA_RESTART;
    sigaction(SIGUSR1, &action, NULL);
    write(ends[1], "x", 1);
    read(ends[0], bytes, 1);
}

/* A child has written and gone when its parent reads. */
static void read_beside(void)
{
    if (fork() == 0) {
        write(ends[1], "x", 1);
        _exit(0);
    }
    wait(NULL);
    close(ends[1]);
    read(ends[0], bytes, 1);
    read(ends[0], bytes, 1);
}

/* Nobody waits for the child before its parent reads to the end. */
static void read_to_end(void)
{
    if (fork() == 0) {
        write(ends[1], "x", 1);
        _exit(0);
    }
    close(ends[1]);
    read(ends[0], bytes, 1);
    read(ends[0], bytes, 1);
}

/* A child reads a file of its own, while its parent reads to the end. */
static void read_own(void)
{
    if (fork() == 0) {
        int fd = open("c", O_RDWR | O_CREAT, 0600);
        write(fd, "x", 1);
        lseek(fd, 0, SEEK_SET);
        read(fd, bytes, 1);
        _exit(0);
    }
    close(ends[1]);
    read(ends[0], bytes, 1);
}

/* Handlers run between calls, and none in a read. */
#pragma GCC diagnostic ignored "-Wdeprecated-declarations"
static void hear_signals(void)
{
    struct sigaction action, was;
    memset(&action, 0, sizeof action);
    action.sa_handler = hear;
    sigaction(SIGUSR1, &action, NULL);
    raise(SIGUSR1);
    action.sa_sigaction = hear_more;
    action.sa_flags = (int)(SA_SIGINFO | SA_RESETHAND);
    sigaction(SIGUSR1, &action, &was);
    raise(SIGUSR1);
    if (heard != 2 || was.sa_handler != hear || signal(SIGUSR1, hear) != SIG_DFL || signal(SIGUSR1, hear) != hear)
        exit(1);
    siginterrupt(SIGUSR1, 1);
    sigaction(SIGUSR1, NULL, &was);
    if (was.sa_handler != hear || (was.sa_flags & SA_RESTART) != 0)
        exit(1);
    write(ends[1], "x", 1);
    raise(SIGUSR1);
    lseek(ends[0], 0, SEEK_CUR);
    read(ends[0], bytes, 1);
    if (heard != 3)
        exit(1);
}

/* Prints the size of a file by its name. */
static void look(void)
{
    struct stat told;
    close(open("a", O_RDWR | O_CREAT, 0600));
    if (stat("a", &told) == 0 && stat("b", &told) != 0)
        printf("%ld\n", (long)told.st_size);
}

/* Ends by whether the handler of a signal has run that came after a read. */
static void heed(void)
{
    signal(SIGUSR1, hear);
    write(ends[1], "x", 1);
    read(ends[0], bytes, 1);
    raise(SIGUSR1);
    exit(heard != 1);
}

static void copy_to(void)
{
    fclose(fopen("/dev/null", "r"));
    dup2(ends[1], 9);
    write(9, "x", 1);
    read(ends[0], bytes, 1);
}

/* No system has these ways to count an offset. */
static void seek_astray(void)
{
    int fd = open("a", O_RDWR | O_CREAT, 0600);
    write(fd, "xyz", 3);
    lseek(fd, 1, 77);
    lseek(fd, 1, -1);
    lseek(20, 1, 77);
    lseek(ends[0], 1, 77);
    lseek(fd, -1, SEEK_END);
}

/* Prints errno after a call that has not failed, and after one that has. */
static void tell_errors(void)
{
    int fd = open("a", O_RDWR | O_CREAT, 0600);
    errno = EDOM;
    lseek(fd, 0, SEEK_CUR);
    printf("%d", errno);
    errno = EDOM;
    printf(" %d %d\n", truncate("b", 1), errno);
}

/* Each call fails. */
static void fail_each(void)
{
    char *words[] = {(char[]){"none"}, NULL};
    write(ends[0], "x", 1);
    lseek(ends[0], 0, SEEK_CUR);
    fcntl(20, F_GETFL);
    close(20);
    rename("none", "a");
    waitpid(-1, NULL, 0);
    execv("./none", words);
}

/* None does. */
static void do_each(void)
{
    struct stat told;
    int more[2], fd = open("a", O_RDWR | O_CREAT, 0600);
    ftruncate(fd, 3);
    fstat(fd, &told);
    rename("a", "b");
    fcntl(fd, F_SETFL, O_APPEND);
    fcntl(fd, F_SETFD, FD_CLOEXEC);
    pipe(more);
    close(fd);
}

/* Each call has a number that fdref has not, and nothing is open there; the last ones may fail by other words. */
static void ask_above(void)
{
    struct stat told;
    read(99, bytes, 1);
    write(99, "x", 1);
    lseek(99, 0, SEEK_CUR);
    dup2(99, 9);
    dup2(ends[0], 99);
    fcntl(99, F_GETFL);
    fcntl(99, F_GETFD);
    fstat(99, &told);
    close(99);
    read(99, bytes, 0);
    pread(99, bytes, 1, -1);
    lseek(99, 0, 77);
    fcntl(99, F_DUPFD, -1);
}

/* Of a pipe fsync fails, and isatty of all. */
static void sync_each(void)
{
    fsync(open("a", O_RDWR | O_CREAT, 0600));
    fsync(ends[0]);
    fsync(20);
}

static void sync_and_end(void) { exit(fsync(open("a", O_RDWR | O_CREAT, 0600)) != 0); }

static void ask_terminals(void)
{
    isatty(ends[0]);
    isatty(open("a", O_RDWR | O_CREAT, 0600));
    isatty(20);
}

/* Does it beside a thread. */
static void do_beside(void (*does)(void))
{
    pthread_t thread;
    if (pthread_create(&thread, NULL, stay, NULL) != 0)
        exit(1);
    does();
    close(ends[1]);
    ends[1] = -1;
    pthread_join(thread, NULL);
}

static void ask_terminals_beside(void) { do_beside(ask_terminals); }
static void ask_above_beside(void) { do_beside(ask_above); }
static void keep_flags_beside(void) { do_beside(keep_flags_here); }

/* A group of processes is a number below -1, and so may the offset be in what is no file of fdref. */
static void go_below(void)
{
    int fd = open("/proc/self/mem", O_RDONLY);
    fcntl(fd, F_SETOWN, -getpgrp());
    if (fcntl(fd, F_GETOWN) != -getpgrp() || lseek(fd, -8192, SEEK_SET) != -8192)
        exit(1);
}

/* The flags are not asked for after that, and no call goes by them. */
static void set_flags(void)
{
    int fd = open("a", O_RDWR | O_CREAT | O_APPEND | O_NONBLOCK, 0600);
    fcntl(ends[0], F_SETFL, O_NONBLOCK);
    fcntl(fd, F_SETFL, 0);
    fcntl(ends[1], F_SETFL, O_NONBLOCK | O_APPEND | O_RDWR | O_CREAT);
    fcntl(ends[1], F_SETFL, O_NONBLOCK | O_ASYNC);
    fcntl(ends[1], F_SETFL, O_NONBLOCK);
    fcntl(20, F_SETFL, O_NONBLOCK);
    fcntl(ends[0], F_SETFD, FD_CLOEXEC);
}

/* Makes one call, after which the program does not look at what that has done. */
static const char *way_here;
static void do_unasked(void)
{
    const char *name = way_here + strlen("undone-");
    int fd = open("a", O_RDWR | O_CREAT, 0600);
    write(fd, "xyz", 3);
    if (strcmp(name, "unlink") == 0)
        unlink("a");
    if (strcmp(name, "remove") == 0)
        remove("a");
    if (strcmp(name, "link") == 0 && link("a", "b") != 0)
        exit(1);
    if (strcmp(name, "removal") == 0 || strcmp(name, "rename") == 0)
        rename("a", "b");
    if (strcmp(name, "ftruncate") == 0 && ftruncate(fd, 1) != 0)
        exit(1);
    if (strcmp(name, "truncate") == 0 && truncate("a", 9) != 0)
        exit(1);
    if (strcmp(name, "open") == 0)
        open("a", O_WRONLY | O_TRUNC);
    if (strcmp(name, "close") == 0)
        close(fd);
}

/* Makes those that leave a name or a size as it is, and others. */
static void do_all(void)
{
    int fd = open("a", O_RDWR | O_CREAT | O_TRUNC, 0600);
    if (rename("a", "a") != 0 || link("a", "b") != 0 || rename("a", "b") != 0 || ftruncate(fd, 0) != 0
        || truncate("a", 70000) != 0 || rename("b", "c") != 0 || linkat(AT_FDCWD, "c", AT_FDCWD, "d", AT_SYMLINK_FOLLOW)
        || unlink("a") != 0 || remove("d") != 0 || renameat(AT_FDCWD, "c", AT_FDCWD, "e") != 0 || close(fd) != 0)
        exit(1);
    open("e", O_RDWR | O_TRUNC);
    mkfifo("f", 0600);
    open("f", O_RDONLY | O_NONBLOCK);
    dup2(ends[0], ends[1]);
    close(ends[1]);
    unlinkat(AT_FDCWD, "e", 0);
    if (fork() == 0) {
        unlink("f");
        _exit(0);
    }
    wait(NULL);
    close(open("f", O_WRONLY | O_CREAT | O_TRUNC, 0600));
}

/* Runs itself as a program that asks for one descriptor alone. */
static void run_with_flags(void)
{
    if (open("a", O_RDWR | O_CREAT | O_CLOEXEC, 0600) == 5)
        execl(own_path, own_path, "asks", (char *)NULL);
}

static void ask_flags(void) { printf("%d\n", fcntl(5, F_GETFD)); }

int main(int count, char **words)
{
    static const struct {
        const char *name;
        void (*does)(void);
    } ways[] = {
        {"dry-end", meet_dry_end},      {"cloexec-lost", keep_flags},
        {"input-dry", meet_dry_input},
        {"cloexec-copied", keep_flags}, {"cloexec-unset", keep_flags},
        {"write-cut", write_much},      {"dupfd-high", copy},
        {"dupfd-refused", copy},        {"close-kept", end},
        {"dup2-zero", copy_to},         {"pipe-turned", copy_to},
        {"pipe-broken", break_pipe},    {"early-signal", hear_signals},
        {"stat-size", look},            {"never-back", copy_to},
        {"mask-kept", heed},            {"pipe-twice", break_heard},
        {"mask-dup2", copy_to},         {"mask-range", close_blocked},
        {"pipe-unsent", break_heard},   {"pipe-blocked", break_heard},
        {"wait-status", await},         {"wait-early", await},
        {"wait-none", await},           {"exec-cut", run_again},
        {"wait-killed", await_killed},  {"wait-signal", await_killed},
        {"wait-refused", await_killed}, {"fork-other", await_killed},
        {"exit-other", await},
        {"setfl-lost", set_flags},      {"setfl-more", set_flags},
        {"setfl-async", set_flags},     {"setfl-mode", set_flags},
        {"set-one", set_flags},
        {"wait-killed-heard", await_heard}, {"wait-killed-beside", await_beside},
        {"wait-killed-asked", await_asked}, {"wait-killed-group", await_group},
        {"hasty-wait", await_late},     {"hasty-waitpid", await_late_any},
        {"hasty-one", await_late_one},  {"hasty-wait4", await_late_used},
        {"hasty-waitid", await_late_told}, {"hasty-group", await_late_group},
        {"hasty-beside", await_late_beside}, {"none-group", await_late_group},
        {"more-late", await_late},      {"restarted", await_restarted},
        {"more-wait", await_one},       {"more-waitpid", await_any},
        {"more-wait4", await_used},     {"more-waitid", await_told},
        {"self-wait", await_one},       {"self-beside", await_self_beside},
        {"ended-stopped", await_status}, {"ended-continued", await_status},
        {"ended-unstored", await_status},
        {"handled", await_handled},     {"by-two", await_by_two},
        {"stopped", await_stopped},     {"stop-other", await_stopped},
        {"waitid-any", await_told_again}, {"waitid-same", await_told_again},
        {"none-yet", await_told_none},
        {"fork-again", fork_twice},
        {"fork-beside", fork_beside},   {"fork-child", fork_once},
        {"fork-parent", fork_once},
        {"end", end},                   {"dup3-same", copy_same},
        {"whence-taken", seek_astray},  {"whence-piped", seek_astray},
        {"end-lost", seek_astray},
        {"errno-zeroed", tell_errors},  {"errno-set", tell_errors},
        {"errno-kept", tell_errors},
        {"minus-write", fail_each},     {"minus-lseek", fail_each},
        {"minus-fcntl", fail_each},     {"minus-close", fail_each},
        {"minus-rename", fail_each},    {"minus-waitpid", fail_each},
        {"zero-execv", fail_each},
        {"seven-close", do_each},       {"seven-pipe", do_each},
        {"seven-ftruncate", do_each},   {"seven-rename", do_each},
        {"seven-fstat", do_each},       {"seven-fcntl", do_each},
        {"below", go_below},
        {"above-read", ask_above},      {"above-lseek", ask_above},
        {"above-fcntl", ask_above},     {"above-close", ask_above},
        {"above-dup2", ask_above},      {"above-fstat", ask_above},
        {"above-beside", ask_above_beside}, {"cloexec-beside", keep_flags_beside},
        {"sync-refused", sync_each},    {"sync-closed", sync_each},
        {"sync-disk", sync_each},       {"sync-ends", sync_and_end},
        {"terminal-told", ask_terminals}, {"terminal-error", ask_terminals},
        {"terminal-beside", ask_terminals_beside},
        {"cloexec-exec", run_with_flags}, {"asks", ask_flags},
        {"exec-keeps", run_with_flags}, {"exec-closes", run_with_flags},
        {"ino-apart", ask_files},       {"ino-same", ask_files},
        {"fifo-early", open_fifo},      {"fifo-regular", open_both},
        {"file-apart", ask_for_files},  {"file-same", ask_for_files},
        {"undone-unlink", do_unasked},  {"undone-remove", do_unasked},
        {"undone-link", do_unasked},    {"undone-rename", do_unasked},
        {"undone-removal", do_unasked}, {"undone-ftruncate", do_unasked},
        {"undone-truncate", do_unasked}, {"undone-open", do_unasked},
        {"undone-close", do_unasked},   {"all-done", do_all},
        {"names", ask_for_names},       {"names-by-statx", ask_names_by_statx},
        {"statx-apart", ask_by_statx},  {"statx-same", ask_by_statx},
        {"statx-size", ask_names_by_statx}, {"statx-sized", ask_by_statx},
        {"exec-error", run_nothing},    {"exec-unlike", run_folder},
        {"real-dup", copy_real},        {"real-refused", copy_real},
        {"real-dup2", copy_real},       {"over", read_over},
        {"seek-crashes", seek_back},    {"child", seek_back_in_child},
        {"access-refused", ask},        {"read-beyond", take_few},
        {"cloexec-thread", keep_flags_after_thread},
        {"restart-lost", restart},      {"never-beside", read_beside},
        {"read-crashes", take_few},     {"end-hangs", read_to_end},
        {"own-beside", read_own},
    };
    own_path = words[0];
    way_here = words[count - 1];
    if (count != 2 || (strcmp(words[1], "asks") != 0 && pipe(ends) != 0))
        return 1;
    for (size_t at = 0; at < sizeof ways / sizeof *ways; at++)
        if (strcmp(words[1], ways[at].name) == 0)
            ways[at].does();
    return 0;
}
