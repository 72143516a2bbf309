/* A part of a C library that is wrong in one way, which the variable WRONG of the environment names:

   dry-end         a read at the end of a pipe is EAGAIN
   input-dry       the same
   cloexec-lost    F_GETFD gives 0
   cloexec-copied  dup keeps FD_CLOEXEC
   cloexec-unset   O_CLOEXEC is ignored
   cloexec-exec    the same
   write-cut       a write ends after 65,536 bytes
   dupfd-high      F_DUPFD gives a number above the lowest that is free
   dupfd-refused   F_DUPFD is EINVAL
   close-kept      close keeps the file open
   setfl-lost      F_SETFL sets no flag
   setfl-more      F_SETFL sets O_APPEND, too
   setfl-async     F_SETFL sets O_ASYNC, too
   setfl-mode      F_GETFL tells another mode after F_SETFL
   dup2-zero       dup2 gives 0
   real-dup        dup gives a number above the lowest that is free
   real-refused    dup is EBADF
   real-dup2       dup2 gives 0
   pipe-turned     pipe gives the writing end first
   never-back      a read never comes back
   stat-size       stat tells a byte more
   early-signal    a read is EINTR though no handler has run
   pipe-broken     a write that is EPIPE ends a process that ignores SIGPIPE
   mask-kept       a read leaves all signals blocked
   mask-dup2       dup2 leaves all signals blocked
   mask-range      close_range lets a signal come that is blocked
   pipe-twice      a write that is EPIPE sends SIGPIPE once more
   pipe-unsent     a write that is EPIPE sends no SIGPIPE
   pipe-blocked    a write leaves SIGPIPE blocked
   wait-status     waitpid tells that a child has exited with 0
   wait-early      waitpid tells so at once
   wait-none       waitpid is ECHILD
   wait-killed     waitpid tells that a child that a signal has ended has exited
   wait-signal     waitpid is EINTR though no handler has run
   wait-refused    waitpid is EINVAL where there is no child
   wait-killed-heard   the same, with a handler that ends calls
   wait-killed-beside  the same, beside a thread
   wait-killed-asked   the same, by WNOHANG
   wait-killed-group   the same, of a group
   hasty-NAME      wait, waitpid, wait4 or waitid does not wait
   hasty-one       the same of waitpid for one child
   hasty-group     the same for a group
   hasty-beside    the same, beside a thread
   none-group      waitpid is ECHILD
   more-wait       wait tells the number after that of the child
   more-waitpid    the same of waitpid
   more-wait4      the same of wait4
   more-waitid     the same of waitid
   more-late       the same of wait for a child that lives
   self-wait       wait tells the process that calls it
   self-beside     the same beside a thread
   ended-stopped   waitpid tells that a child that has ended has stopped
   ended-continued  the same, that it goes on
   ended-unstored  waitpid stores no status
   fork-other      fork gives a number that is no child's
   fork-again      fork gives the number of the child before
   fork-beside     the same, in a thread
   fork-child      fork gives a child its own number
   fork-parent     fork gives a parent 0
   exit-other      _exit gives another status
   exec-error      execv is EIO where it fails
   exec-unlike     the same
   exec-cut        execl and execvp give one word alone
   exec-keeps      execve keeps what has FD_CLOEXEC
   exec-closes     execve closes all from 3 on
   dup3-same       dup3 of one number twice gives it
   access-refused  access is ENOENT
   read-beyond     a read changes a byte beyond its buffer
   cloexec-thread  F_GETFD gives 0
   cloexec-beside  the same, beside a thread
   undone-NAME     unlink, remove, link, rename, ftruncate, truncate or close does nothing
   undone-open     open does not cut a file by O_TRUNC
   undone-removal  rename lets the old name be
   ino-apart       fstat tells another st_ino of each descriptor
   ino-same        fstat tells the same st_ino of all
   file-apart      fstat and stat tell another st_ino each time
   file-same       fstat and stat tell the same st_ino of all
   statx-apart     statx tells another st_ino each time
   statx-same      statx tells the same st_ino of all
   statx-size      statx tells a byte more
   statx-sized     the same
   fifo-regular    mkfifo makes a regular file
   fifo-early      an open of a FIFO to write waits for nobody
   restart-lost    sigaction sets no SA_RESTART
   never-beside    a read never comes back
   end-hangs       a read of a pipe never comes back at its end
   own-beside      the same, and one of a file gives another byte
   read-crashes    a read ends the process by SIGSEGV
   seek-crashes    lseek from the start does so
   whence-taken    lseek takes any whence for SEEK_SET
   whence-piped    lseek in a pipe gives 0 for a whence that there is not
   end-lost        lseek takes SEEK_END for SEEK_SET
   errno-zeroed    lseek sets errno to 0
   errno-set       lseek sets errno to ENOTTY
   errno-kept      truncate fails, and does not set errno
   minus-NAME      write, lseek, fcntl, close, rename or waitpid gives its error below 0 where it fails
   seven-NAME      close, pipe, ftruncate, rename or fstat gives 7 where it does not fail
   above-NAME      read, lseek, fcntl, close, dup2 or fstat gives 0 where nothing is open
   above-beside    the same of read, beside a thread
   zero-execv      execv gives 0 where it fails
   waitid-any      waitid gives 0 where there is no child, and tells none
   waitid-same     the same, and tells what it told before
   stop-other      waitpid tells another signal that has stopped a child
   sync-refused    fsync of a file is EBADF
   sync-closed     fsync of what is closed is EIO
   sync-disk       fsync of a file is EIO, which is what a disk may do
   sync-ends       the same
   terminal-told   isatty tells that all is a terminal
   terminal-beside the same, beside a thread
   terminal-error  isatty of no terminal is EPERM

   Two are right:

   set-one         F_SETFL and F_SETFD give 1
   seven-fcntl     the same of 7 */

#define _GNU_SOURCE

#include <dlfcn.h>
#include <errno.h>
#include <fcntl.h>
#include <signal.h>
#include <stdarg.h>
#include <stdlib.h>
#include <string.h>
#include <sys/ioctl.h>
#include <sys/resource.h>
#include <sys/stat.h>
#include <sys/syscall.h>
#include <sys/wait.h>
#include <unistd.h>

#include "exec_words.h"

/* This is right, and calls a function that may be another library's. */
pid_t getpid(void) { return (pid_t)syscall(SYS_getpid); }

static int is_wrong(const char *how)
{
    const char *wrong = getenv("WRONG");
    return wrong && strcmp(wrong, how) == 0;
}

/* The same of one that begins so. */
static int begins_wrong(const char *how)
{
    const char *wrong = getenv("WRONG");
    return wrong && strncmp(wrong, how, strlen(how)) == 0;
}

/* What a function of a name gives where the kernel has given this to it. */
static long given_by(const char *name, long done)
{
    const char *wrong = getenv("WRONG");
    int is_beside = is_wrong("above-beside") && strcmp(name, "read") == 0;
    if (done < 0 && errno == EBADF && (is_beside || (begins_wrong("above-") && strcmp(wrong + 6, name) == 0)))
        return 0;
    if (done < 0 && begins_wrong("minus-") && strcmp(wrong + 6, name) == 0)
        return -errno;
    return done == 0 && begins_wrong("seven-") && strcmp(wrong + 6, name) == 0 ? 7 : done;
}

ssize_t read(int fd, void *to, size_t count)
{
    sigset_t all;
    sigfillset(&all);
    if (is_wrong("mask-kept"))
        sigprocmask(SIG_BLOCK, &all, NULL);
    if (is_wrong("read-crashes"))
        raise(SIGSEGV);
    while (is_wrong("never-back") || is_wrong("never-beside"))
        pause();
    ssize_t done = is_wrong("early-signal") ? -1 : syscall(SYS_read, fd, to, count);
    if (is_wrong("early-signal"))
        errno = EINTR;
    if (done > 0 && is_wrong("read-beyond"))
        ((char *)to)[count] ^= 1;
    while (done == 0 && count > 0 && (is_wrong("end-hangs") || is_wrong("own-beside")))
        pause();
    if (done > 0 && is_wrong("own-beside"))
        ((char *)to)[0] ^= 1;
    int is_dry = is_wrong("dry-end") || is_wrong("input-dry");
    if (done != 0 || count == 0 || syscall(SYS_lseek, fd, 0L, SEEK_CUR) >= 0 || !is_dry)
        return given_by("read", done);
    errno = EAGAIN;
    return -1;
}

int fcntl(int fd, int command, ...)
{
    static int is_set;
    va_list values;
    long argument;
    va_start(values, command);
    argument = va_arg(values, long);
    va_end(values);
    if (command == F_GETFD && (is_wrong("cloexec-lost") || is_wrong("cloexec-thread") || is_wrong("cloexec-beside")))
        return 0;
    if (command == F_DUPFD && is_wrong("dupfd-refused")) {
        errno = EINVAL;
        return -1;
    }
    if (command == F_SETFL)
        argument |= (is_wrong("setfl-more") ? O_APPEND : 0) | (is_wrong("setfl-async") ? O_ASYNC : 0);
    is_set |= command == F_SETFL;
    if ((command == F_SETFL || command == F_SETFD) && is_wrong("set-one"))
        return syscall(SYS_fcntl, fd, command, argument) < 0 ? -1 : 1;
    if (command == F_SETFL && is_wrong("setfl-lost"))
        return 0;
    if (command == F_GETFL && is_set && is_wrong("setfl-mode"))
        return (int)syscall(SYS_fcntl, fd, command, argument) | O_RDWR;
    if (command == F_DUPFD && is_wrong("dupfd-high"))
        argument++;
    return (int)given_by("fcntl", syscall(SYS_fcntl, fd, command, argument));
}

int sigaction(int number, const struct sigaction *to, struct sigaction *was)
{
    int (*next)(int, const struct sigaction *, struct sigaction *);
    struct sigaction action;
    void *found = dlsym(RTLD_NEXT, "sigaction");
    memcpy(&next, &found, sizeof next);
    if (!to || !is_wrong("restart-lost"))
        return next(number, to, was);
    action = *to;
    action.sa_flags &= ~SA_RESTART;
    return next(number, &action, was);
}

/* Ends the process by a signal that it ignores, by the way of the C library alone. */
static void break_off(void)
{
    int (*next)(int, const struct sigaction *, struct sigaction *);
    struct sigaction action;
    void *found = dlsym(RTLD_NEXT, "sigaction");
    memset(&action, 0, sizeof action);
    memcpy(&next, &found, sizeof next);
    next(SIGPIPE, &action, NULL);
    raise(SIGPIPE);
}

/* Blocks SIGPIPE, or unblocks it. */
static void block(int how_to)
{
    sigset_t pipes;
    sigemptyset(&pipes);
    sigaddset(&pipes, SIGPIPE);
    sigprocmask(how_to, &pipes, NULL);
}

/* Makes a write whose SIGPIPE is lost. */
static ssize_t write_unsent(int fd, const void *data, size_t count)
{
    static const struct timespec none;
    sigset_t pipes;
    int error;
    ssize_t done;
    sigemptyset(&pipes);
    sigaddset(&pipes, SIGPIPE);
    block(SIG_BLOCK);
    done = syscall(SYS_write, fd, data, count);
    error = errno;
    sigtimedwait(&pipes, NULL, &none);
    block(SIG_UNBLOCK);
    errno = error;
    return done;
}

ssize_t write(int fd, const void *data, size_t count)
{
    ssize_t done;
    if (is_wrong("pipe-unsent"))
        return write_unsent(fd, data, count);
    done = syscall(SYS_write, fd, data, count > 65536 && is_wrong("write-cut") ? 65536 : count);
    if (done < 0 && errno == EPIPE && is_wrong("pipe-broken")) {
        break_off();
        errno = EPIPE;
    }
    if (done < 0 && errno == EPIPE && is_wrong("pipe-twice")) {
        raise(SIGPIPE);
        errno = EPIPE;
    }
    if (is_wrong("pipe-blocked"))
        block(SIG_BLOCK);
    return given_by("write", done);
}

/* What a wait tells where the kernel has told a child. */
static pid_t told_for(long child)
{
    if (child > 0 && begins_wrong("self-"))
        return getpid();
    return (pid_t)child + (child > 0 && begins_wrong("more-"));
}

/* How a wait is made: without a stay. */
static int hastened(int options) { return begins_wrong("hasty-") ? options | WNOHANG : options; }

pid_t wait(int *status) { return told_for(syscall(SYS_wait4, -1, status, hastened(0), NULL)); }

pid_t wait4(pid_t which, int *status, int options, struct rusage *used)
{
    return told_for(syscall(SYS_wait4, which, status, hastened(options), used));
}

int waitid(idtype_t kind, id_t which, siginfo_t *told, int options)
{
    int done = (int)syscall(SYS_waitid, kind, which, told, hastened(options), NULL);
    if (done == 0 && told)
        told->si_pid = told_for(told->si_pid);
    if (done < 0 && is_wrong("waitid-any") && told)
        memset(told, 0, sizeof *told);
    if (done < 0 && begins_wrong("waitid-"))
        return 0;
    return done;
}

pid_t waitpid(pid_t which, int *status, int options)
{
    long done = which;
    if (is_wrong("wait-none") || is_wrong("none-group")) {
        errno = ECHILD;
        return -1;
    }
    if (!is_wrong("wait-early"))
        done = syscall(SYS_wait4, which, is_wrong("ended-unstored") ? NULL : status, hastened(options), NULL);
    if (done > 0 && (is_wrong("ended-stopped") || is_wrong("ended-continued")))
        *status = is_wrong("ended-stopped") ? SIGSTOP << 8 | 0x7f : 0xffff;
    if (done > 0 && is_wrong("stop-other") && WIFSTOPPED(*status))
        *status = SIGTSTP << 8 | 0x7f;
    if (done > 0 && (is_wrong("wait-early") || is_wrong("wait-status")))
        *status = 0;
    if (done > 0 && WIFSIGNALED(*status) && begins_wrong("wait-killed"))
        *status = (128 + WTERMSIG(*status)) << 8;
    if (done < 0 && errno == ECHILD && is_wrong("wait-refused"))
        errno = EINVAL;
    if (done > 0 && is_wrong("wait-signal")) {
        errno = EINTR;
        return -1;
    }
    return told_for(given_by("waitpid", done));
}

pid_t fork(void)
{
    static pid_t before;
    pid_t (*next)(void), made, told;
    void *found = dlsym(RTLD_NEXT, "fork");
    memcpy(&next, &found, sizeof next);
    made = next();
    told = made > 0 && is_wrong("fork-other") ? made + 1 : made;
    if (made > 0 && before > 0 && (is_wrong("fork-again") || is_wrong("fork-beside")))
        told = before;
    if (made == 0 && is_wrong("fork-child"))
        told = getpid();
    if (made > 0 && is_wrong("fork-parent"))
        told = 0;
    before = made > 0 ? made : before;
    return told;
}

void _exit(int status)
{
    for (;;)
        syscall(SYS_exit_group, status + is_wrong("exit-other"));
}

int execve(const char *path, char *const list[], char *const env[])
{
    for (int fd = 3; fd < 20; fd++) {
        if (is_wrong("exec-keeps"))
            fcntl(fd, F_SETFD, 0);
        if (is_wrong("exec-closes"))
            close(fd);
    }
    return (int)syscall(SYS_execve, path, list, env);
}

int execv(const char *path, char *const list[])
{
    int done = execve(path, list, environ);
    if (is_wrong("exec-error") || is_wrong("exec-unlike"))
        errno = EIO;
    return is_wrong("zero-execv") ? 0 : done;
}

int execvp(const char *path, char *const list[])
{
    char *one[2] = {list[0], NULL};
    return execve(path, is_wrong("exec-cut") ? one : list, environ);
}

int execl(const char *path, const char *word, ...)
{
    char *list[EXEC_WORDS_MOST];
    va_list others;
    va_start(others, word);
    list_words(list, word, others);
    va_end(others);
    return execvp(path, list);
}

off_t lseek(int fd, off_t offset, int whence)
{
    static int *volatile nowhere;
    int is_other = whence < SEEK_SET || whence > SEEK_HOLE;
    if (whence == SEEK_SET && is_wrong("seek-crashes"))
        *nowhere = 1;
    if ((is_other && is_wrong("whence-taken")) || (whence == SEEK_END && is_wrong("end-lost")))
        whence = SEEK_SET;
    if (is_other && is_wrong("whence-piped") && syscall(SYS_lseek, fd, 0L, SEEK_CUR) < 0 && errno == ESPIPE)
        return 0;
    off_t done = (off_t)syscall(SYS_lseek, fd, (long)offset, whence);
    if (is_wrong("errno-zeroed") || is_wrong("errno-set"))
        errno = is_wrong("errno-set") ? ENOTTY : 0;
    return (off_t)given_by("lseek", done);
}

int fsync(int fd)
{
    int done = (int)syscall(SYS_fsync, fd);
    int is_failing = done == 0 ? is_wrong("sync-disk") || is_wrong("sync-ends") : is_wrong("sync-closed");
    if (is_failing || (done == 0 && is_wrong("sync-refused"))) {
        errno = is_failing ? EIO : EBADF;
        return -1;
    }
    return done;
}

int isatty(int fd)
{
    char kept[256];
    long done = syscall(SYS_ioctl, fd, (long)TCGETS, kept);
    if (done < 0 && is_wrong("terminal-error"))
        errno = EPERM;
    return done == 0 || is_wrong("terminal-told") || is_wrong("terminal-beside");
}

int ftruncate(int fd, off_t length)
{
    if (is_wrong("undone-ftruncate"))
        return 0;
    return (int)given_by("ftruncate", syscall(SYS_ftruncate, fd, (long)length));
}

int unlink(const char *name)
{
    return is_wrong("undone-unlink") ? 0 : (int)syscall(SYS_unlinkat, AT_FDCWD, name, 0);
}

int remove(const char *name)
{
    return is_wrong("undone-remove") ? 0 : (int)syscall(SYS_unlinkat, AT_FDCWD, name, 0);
}

int link(const char *name, const char *new_name)
{
    return is_wrong("undone-link") ? 0 : (int)syscall(SYS_linkat, AT_FDCWD, name, AT_FDCWD, new_name, 0);
}

int rename(const char *name, const char *new_name)
{
    if (is_wrong("undone-removal"))
        close((int)syscall(SYS_openat, AT_FDCWD, new_name, O_RDWR | O_CREAT, 0600));
    if (is_wrong("undone-rename") || is_wrong("undone-removal"))
        return 0;
    return (int)given_by("rename", syscall(SYS_renameat2, AT_FDCWD, name, AT_FDCWD, new_name, 0));
}

int truncate(const char *name, off_t length)
{
    int error = errno, done = is_wrong("undone-truncate") ? 0 : (int)syscall(SYS_truncate, name, (long)length);
    if (is_wrong("errno-kept"))
        errno = error;
    return done;
}

int close(int fd)
{
    if (is_wrong("close-kept") || is_wrong("undone-close"))
        return 0;
    return (int)given_by("close", syscall(SYS_close, fd));
}

int dup2(int fd, int to)
{
    long done = fd == to ? to : syscall(SYS_dup3, fd, to, 0);
    sigset_t all;
    sigfillset(&all);
    if (is_wrong("mask-dup2"))
        sigprocmask(SIG_BLOCK, &all, NULL);
    return is_wrong("dup2-zero") || is_wrong("real-dup2") ? 0 : (int)given_by("dup2", done);
}

int close_range(unsigned first, unsigned last, int flags)
{
    sigset_t one;
    sigemptyset(&one);
    sigaddset(&one, SIGUSR1);
    if (is_wrong("mask-range"))
        sigprocmask(SIG_UNBLOCK, &one, NULL);
    return (int)syscall(SYS_close_range, first, last, flags);
}

int dup3(int fd, int to, int flags)
{
    return fd == to && is_wrong("dup3-same") ? to : (int)syscall(SYS_dup3, fd, to, flags);
}

int access(const char *name, int mode)
{
    if (is_wrong("access-refused"))
        errno = ENOENT;
    return is_wrong("access-refused") ? -1 : (int)syscall(SYS_faccessat, AT_FDCWD, name, mode);
}

int pipe(int ends[2])
{
    int made[2], done = (int)syscall(SYS_pipe2, made, 0), is_turned = is_wrong("pipe-turned");
    ends[0] = made[is_turned];
    ends[1] = made[!is_turned];
    return (int)given_by("pipe", done);
}

int dup(int fd)
{
    int from = is_wrong("real-dup") ? 9 : 0;
    if (is_wrong("real-refused"))
        errno = EBADF;
    if (is_wrong("real-refused"))
        return -1;
    return (int)syscall(SYS_fcntl, fd, is_wrong("cloexec-copied") ? F_DUPFD_CLOEXEC : F_DUPFD, from);
}

int open(const char *name, int flags, ...)
{
    struct stat told;
    int is_unset = is_wrong("cloexec-unset") || is_wrong("cloexec-exec");
    if (flags == O_WRONLY && is_wrong("fifo-early") && stat(name, &told) == 0 && S_ISFIFO(told.st_mode))
        flags = O_RDWR;
    flags &= is_unset ? ~O_CLOEXEC : is_wrong("undone-open") ? ~O_TRUNC : ~0;
    return (int)syscall(SYS_openat, AT_FDCWD, name, flags, 0600);
}

int mkfifo(const char *name, mode_t mode)
{
    if (is_wrong("fifo-regular"))
        return close(open(name, O_RDWR | O_CREAT | O_EXCL, mode));
    return (int)syscall(SYS_mknodat, AT_FDCWD, name, S_IFIFO | mode, 0);
}

/* Which file a look tells that has told this one. */
static void tell_file(struct stat *to)
{
    static ino_t looks;
    if (is_wrong("file-apart"))
        to->st_ino += ++looks;
    if (is_wrong("file-same"))
        to->st_ino = 1;
}

int fstat(int fd, struct stat *to)
{
    int (*next)(int, struct stat *), done;
    void *found = dlsym(RTLD_NEXT, "fstat");
    memcpy(&next, &found, sizeof next);
    done = next(fd, to);
    if (done == 0 && (is_wrong("ino-apart") || is_wrong("ino-same")))
        to->st_ino = is_wrong("ino-same") ? 1 : to->st_ino + (ino_t)fd;
    if (done == 0)
        tell_file(to);
    return (int)given_by("fstat", done);
}

int statx(int folder, const char *name, int flags, unsigned wanted, struct statx *to)
{
    static unsigned looks;
    int done = (int)syscall(SYS_statx, folder, name, flags, wanted, to);
    if (done == 0 && is_wrong("statx-apart"))
        to->stx_ino += 1000 * ++looks;
    if (done == 0 && is_wrong("statx-same"))
        to->stx_ino = 1;
    if (done == 0 && begins_wrong("statx-size"))
        to->stx_size++;
    return done;
}

int stat(const char *name, struct stat *to)
{
    int (*next)(const char *, struct stat *), done;
    void *found = dlsym(RTLD_NEXT, "stat");
    memcpy(&next, &found, sizeof next);
    done = next(name, to);
    if (done == 0 && is_wrong("stat-size"))
        to->st_size++;
    if (done == 0)
        tell_file(to);
    return done;
}
