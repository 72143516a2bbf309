/* fdref_preload.c: a library that gives an unmodified program the answers of `fdref serve`, on Linux.

       cc -O2 -shared -fPIC -o libfdref_preload.so clients/preload/fdref_preload.c -ldl
       LD_PRELOAD=./libfdref_preload.so FDREF_SOCKET=/tmp/fdref.socket ./program

   (A glibc before 2.34 also wants -pthread.) It goes by these variables of the environment:

     FDREF_SOCKET=PATH  The program joins as a process when it is loaded, and its calls are asked of the server at PATH.
     FDREF_LOG=FILE     Each call that is answered is appended to FILE as a line of fdref: `7 p0 open a rw,creat = 3`.
                        Of a call that waited the place is that of the record that ended it. A join, an attach and an
                        exit have no line. Without FDREF_SOCKET the run is *native*: the functions answer that come
                        after this library, by the very names that the program calls, so that those of a C library of
                        its own do. But vfork is fork, closefrom is close_range, an execl of more than 31 words is an
                        execve, and dprintf is given "%s" and the text, or is vdprintf where that has zeros. The lines
                        are the same, with `-` in place of the place, and of other threads than the first one to make a
                        call of its process `-1`, `-2` and so on.
     FDREF_STARTS=1     In a native run `@` stands after that, and how many bytes the log had before the call began.
                        `-@57 p0 wait = 1` is a wait that has told that child 1 had ended. With a server the places of
                        other threads than the first one are `7-1`, `8-2` and so on.
     FDREF_STRICT=1     What fdref leaves out is told on standard error, and the program ends with status 125.
     FDREF_PAST=FILE    Each call that is left to the system or fails with ENOSYS, as far as it is seen, is appended to
                        FILE as a line: with the place of the last record of its process, the process, its kind, and
                        after a tab its name: `! 6 p0 path open<tab>d/x`, `! 6 p0 program system<tab>./a`, `! 6 p0
                        thread read`. In `! 6 p0 call poll<tab>3` it is a descriptor of fdref. `! 6 p0 program execve in
                        another environment<tab>./a` is an exec that does not hand on LD_PRELOAD or FDREF_SOCKET as
                        they are. Where FDREF_STRICT would not tell it `-` stands for `!`: `- 6 p0 stream
                        fopen<tab>/tmp/x`, and `- 6 p0 stdio 1`, as a file of fdref comes to be at descriptor 0, 1 or 2;
                        it is `idle 0` until stdin has a buffer. `- 6 p0 own closefrom` is a call that this library
                        answers by itself in both runs. `- 6 p0 signal 11` is a child that a signal ended, as
                        wait, waitid or waitpid told, after a tab its number where that is known; `- 6 p0 vfork fork` a
                        vfork, and `- 6 p0 interrupt read` a signal in a call that waits, whose handler
                        restarts none. So are `- 6 p0 timer alarm` and `! 6 p0 limit RLIMIT_FSIZE`, as a program starts
                        a timer or sets that limit or RLIMIT_NOFILE; `- 6 p0 look stat<tab>a = regular 5 1` is what a
                        stat of a name has told; `- 6 p0 rights setuid` is a call by which it may lose those of the
                        superuser, or a umask that takes rights of the owner of a file; and `- 6 p0 handler
                        14<tab>ends`, as it sets a handler of signal 14 that ends calls, or `restarts` them, or takes it
                        away (`none`), or as the signal is `ignored`. `- 6 p0 makes socket` is a call that makes a
                        descriptor of the system, from 32 on, where a native run has the lowest that is free. In a
                        native run thirteen kinds are there: after `- 0 p0 cut exit` a process ended while others of its
                        threads may have been in a call; by `! 0 p0 made 3` a descriptor is higher since 3 is open,
                        which no call made that fdref knows; and `signal`, `look`, `handler` and `! 57 p0 cloexec
                        F_GETFD<tab>3 = 0`, with the length of the log in the place of the place: F_GETFD, or F_SETFD,
                        has answered otherwise than by FD_CLOEXEC as this library keeps it, in a process of one thread;
                        after `cloexec execve<tab>3 = kept` or `closed` a new program does not go by it.
                        So is `! 57 p0 wrong write<tab>has changed which signals are blocked`, which no line tells,
                        `- 57 p0 unended read<tab>10`, which may have waited as a handler ran that ends calls,
                        `- 57 p0 unlooked waitpid<tab>the process has threads`, which has told how a child has ended,
                        with which nothing could be compared, `- 57 p0 unwaited waitpid<tab>the process has threads`,
                        before which this library has waited itself, so that it is not seen whether that waits,
                        `- 57 p0 given fsync<tab>error 5`, an answer that is not compared, as a disk may give it, and
                        `- 57 p0 errno read`, which has set errno, and has not failed.
                        There a child has the handlers of its parent once more, and after an exec 0 stands for all
                        signals. After `ends heard` or `restarts heard` this library calls the handler, and notes `- 57
                        p0 ran 14` before.

     FDREF_SHARED=FILE  Natively what processes share is in this file, which may not be there yet: after the numbers of
                        files and exits, of each process in which call it is.

   Without the first two nothing is changed, nor before a program has its environment, as in .preinit_array. Where there
   is no answer (no server, no place at it for one more process, a run that is full, a lost connection), and where a
   hard limit of the size of files cuts the log, that is told on standard error, and the program ends with status 124. A
   soft one is lifted while this library writes.

   Names. fdref has one folder. A name without `/`, or with only `./` before it, is asked of fdref, whatever the working
   directory is. Every other path, `.` and `..` go to the kernel, and a link or a rename between the two is EXDEV. So
   does a plain name that fdref does not have, while the kernel has a folder of that name.

   Numbers are those of a native run. What is open at the start, and each file that the kernel opens for a call of this
   library, is *real*: it has the same number in the kernel, and in fdref a placeholder, which is a file without a name.
   Calls with these are made by the kernel, and not logged. In the kernel all other numbers below 32 are taken, so one
   from 32 on is what the C library made by other calls, as fopen and socket, and goes past fdref. OPEN_MAX is 32: dup2
   to 32 or more is EBADF.

   What is no single call of fdref:
     - A transfer of more than 65,536 bytes is made, and logged, in pieces of that size until one is short; a read of a
       pipe is one piece. A native write that ends after whole pieces, but not all, has one more in the log, of nothing,
       or of EAGAIN to a pipe where it does not wait. readv and writev are one transfer.
     - stat of a name is an open for reading and writing, an fstat and a close. A name that is there and cannot be
       opened so is a FIFO; it is told to have 1 link and no bytes. statx and access are the same, and truncate has an
       ftruncate in between. None of these is logged, also in a native run; but what stat told is noted. They are EMFILE
       where no descriptor is free.
     - st_ino is a number that the file has got by its first name, which goes with it to others. It is the same in all
       processes that come of one by fork and exec; a program of system has its own. Modes are 0644, times 0.
     - F_DUPFD is a dup2 to the lowest free descriptor from its argument on.
     - lseek by a whence that there is not is one to the offset -9223372036854775808. Of a pipe it is EINVAL unasked.
     - F_GETFL has O_LARGEFILE, too, where the kernel would tell it. F_SETFL asks with the flags that fdref knows.
     - pipe2 with O_NONBLOCK is a pipe, and a setfl of each end. ioctl with FIONBIO is a getfl and a setfl.
     - EPIPE raises SIGPIPE.
     - fclose of a standard stream closes its descriptor, which is not logged, also in a native run.
     - dprintf formats, and is a write; what a short one left is written again, as glibc does.
     - Of fpathconf and pathconf PIPE_BUF is 512, NAME_MAX 64, LINK_MAX 8, FILESIZEBITS 42 and NO_TRUNC 1, also in a
       native run. sysconf, getrlimit and prlimit tell that 32 descriptors may be open, which cannot be changed.
     - exec hands the process on to the new program, with its descriptors, where the environment that it is given loads
       this library in the same way. A program that cannot load it, as a static one, has the real files alone. In
       another environment, or while a call of another thread waits, exec is told, and the process ends in fdref.
     - A child is a process of fdref, over a connection of its own. It is attached before it is there. vfork is fork.
     - An exit, and _exit, is recorded before the program has ended. That of a program that a signal ends, abort too,
       comes when the server sees the connection closed, so perhaps after its parent's wait.

   What is ignored: the mode of a new file, O_NOCTTY, O_NOFOLLOW, O_SYNC and its kin, fsync, which is EINVAL of a pipe,
   and in F_SETFL each flag that Linux ignores there. FD_CLOEXEC is kept by this library, in both runs.

   What is left out, so that FDREF_STRICT tells it. tests/c/descriptor_functions.txt has each function of glibc that
   takes a descriptor or a path, and what is done with it.
     - Paths that go to the kernel, in calls that fdref has.
     - Other calls with plain names, as fopen, mkdir, chmod, opendir and getxattr, and open with other flags, as
       O_DIRECTORY. They are ENOSYS where fdref has a file of that name, and ENOTDIR under O_DIRECTORY; else the kernel
       is asked. What lists a folder shows none of fdref's files.
     - Other calls with descriptors of fdref, as fdopen, mmap, poll, preadv and posix_fallocate, an F_SETFL with
       O_ASYNC, O_DIRECT or O_NOATIME, and commands of fcntl and ioctl, and limits of fpathconf, that are not named
       here: ENOSYS. SEEK_DATA and SEEK_HOLE are EINVAL.
     - system, popen and posix_spawn: their programs join as new processes, which have the real files alone. In a
       native run their numbers are made of those that the system has. daemon and forkpty, which fork, and renameat2
       with flags are ENOSYS.
     - pipe2 with O_DIRECT, which is a pipe of the kernel; chdir; a limit of the size of files.
     - syscall by the numbers of calls that fdref has, and of their kin: with a descriptor or a file of fdref it is
       ENOSYS, and else the kernel's. But that of close_range is close_range.
     - clone, whose child ends with status 124 where it makes a call of fdref.
     - A thread that waits in a call for 0.1 seconds while another one makes a call: one is made at a time. Nor is it
       cancelled then.

   What cannot be seen, and is not told: system calls that are made past the C library, and what it makes inside. So
   stdio does not reach standard output while that is a file of fdref (FDREF_PAST tells that it is). A bad address is no
   EFAULT.

   Signals come between calls, and to one that waits 0.1 seconds after it began to, or after a part of it. They do not
   end it, and a handler may make no call of fdref meanwhile. That is status 124, and so is a call of a handler of
   pthread_atfork.

   The kernel's hard limit of open files has to be above 64. */

#undef _FORTIFY_SOURCE
#undef _FILE_OFFSET_BITS
#undef _TIME_BITS
#ifndef _GNU_SOURCE
#define _GNU_SOURCE
#endif

#include <aio.h>
#include <dirent.h>
#include <dlfcn.h>
#include <errno.h>
#include <fcntl.h>
#include <ftw.h>
#include <glob.h>
#include <limits.h>
#include <netinet/in.h>
#include <poll.h>
#include <pthread.h>
#include <sched.h>
#include <signal.h>
#include <spawn.h>
#include <stdarg.h>
#include <stddef.h>
#include <stdint.h>
#include <stdio.h>
#include <stdlib.h>
#include <string.h>
#include <sys/epoll.h>
#include <sys/eventfd.h>
#include <sys/file.h>
#include <sys/inotify.h>
#include <sys/ioctl.h>
#include <sys/ipc.h>
#include <sys/mman.h>
#include <sys/prctl.h>
#include <sys/resource.h>
#include <sys/select.h>
#include <sys/sendfile.h>
#include <sys/signalfd.h>
#include <sys/socket.h>
#include <sys/stat.h>
#include <sys/statfs.h>
#include <sys/statvfs.h>
#include <sys/syscall.h>
#include <sys/time.h>
#include <sys/timerfd.h>
#include <sys/types.h>
#include <sys/uio.h>
#include <sys/un.h>
#include <sys/utsname.h>
#include <sys/wait.h>
#include <sys/xattr.h>
#include <termios.h>
#include <time.h>
#include <unistd.h>
#include <utime.h>
#include <utmp.h>
#ifdef __GLIBC__
#if __GLIBC_PREREQ(2, 32)
#include <sys/single_threaded.h>
#endif
#include <execinfo.h>
#include <stdio_ext.h>
#include <fts.h>
#include <mntent.h>
#include <sys/fanotify.h>
#include <sys/mount.h>
#include <sys/quota.h>
#include <sys/swap.h>
#include <utmpx.h>
#if __GLIBC_PREREQ(2, 36)
#include <sys/pidfd.h>
#endif
#endif

enum { NO_ANSWER = 124, LEFT_OUT = 125 };
int __cxa_atexit(void (*function)(void *), void *argument, void *library);

#include "system.h"
#include "shared.h"
#include "table.h"
#include "watch.h"

/* ---- descriptors that are made */

static struct slot slot_of(int fd)
{
    struct slot slot = {FREE, 0, 0, 0};
    return fd >= 0 && fd < NUMBERS ? slots[fd] : slot;
}

static int64_t taken(int64_t fd, struct slot slot, int is_cloexec)
{
    if (fd >= 0)
        take((int)fd, slot, is_cloexec);
    return fd;
}

/* A file that the kernel has opened gets its number. */
static int numbered(int fd, int is_cloexec)
{
    if (fd >= 0 && how == ASKED)
        return (int)ALONE(adopt(fd, is_cloexec));
    tell_made(0, fd);
    take_real(fd);
    return fd;
}

/* ---- how a call goes

   First it is found whether fdref answers. If not, the function of the same name that comes after this library is
   called, and in a native run it is logged what that gave. */

/* What a call is for fdref, its way, and what it came to where that is known; of one that makes a descriptor, what that
   leads to; and of one that closes it, how often it had come to lead elsewhere. */
struct going {
    struct fdref_act act;
    enum way way;
    int64_t done;
    struct slot slot;
    int is_cloexec;
    unsigned stamp, runs;
};

static int64_t gone(const struct going *it, int64_t given) { return it->way == NOTE ? noted(it->act, given) : given; }

/* Notes that the system has given a descriptor of its own another number than the lowest that was free. A handler may
   have closed one. */
static void check_lowest(const struct going *it, int64_t given)
{
    int at = 0, error = errno;
    while (at < given && at < NUMBERS && is_open_in_kernel(at))
        at++;
    if (at < given && it->runs == runs && is_watching() && is_alone() && !is_heard_elsewhere())
        note_wrong(words[it->act.kind - FDREF_OPEN], "has given another number than the lowest that is free");
    errno = error;
}

/* The same of a call that makes the lowest free descriptor. */
static int64_t gone_to_lowest(const struct going *it, int64_t given)
{
    if (is_behind)
        return given;
    if (it->way == NOTE) {
        tell_made(0, given);
        given = taken(noted(it->act, given), it->slot, it->is_cloexec);
    } else {
        check_lowest(it, given);
        given = numbered((int)given, it->is_cloexec);
    }
    end_making();
    return given;
}

/* A call that waits for nobody. */
#define GOES(type, name, parameters, words, is_known, after) \
    type name parameters \
    { \
        NEXT_OF(name); \
        struct going going; \
        type given; \
        if (IS_INNER) \
            return next words; \
        if (is_known) \
            return (type)going.done; \
        if (going.way == NOTE) \
            return (type)let_in(after(&going, BEHIND(next words))); \
        WITHIN(given, next words); \
        return (type)after(&going, given); \
    }

/* What follows in a function that may wait, where `given` is what the next one gives. A handler may make calls of its
   own meanwhile, and end this one. */
#define WITHIN_OF(name, given, call) \
    do { \
        const void *outer = go_in(&next); \
        const struct erring erring = begin_erring(!is_behind); \
        given = call; \
        end_erring(&erring, name, (int64_t)given, 0); \
        within = outer; \
    } while (0)
#define WITHIN(given, call) WITHIN_OF(__func__, given, call)
#define NEXT_WITHIN(given, call) NEXT_TILL_ENDED(given, call, NULL)
#define NEXT_TILL_ENDED(given, call, end) \
    do { \
        const void *before = go_in(&next); \
        const int64_t start = began; \
        const struct masked masked = before_call(__func__, end); \
        given = call; \
        after_call(&masked, __func__, given); \
        began = start; \
        within = before; \
    } while (0)

/* ---- what a native call has done, which no line tells

   The kernel is asked for that right after a call that has not failed, and no signal comes in between, but to an open
   or a close, of which it is seen whether a handler has run. */

static int has_all_alone(void);

/* Whether nobody else can have changed since what a call has done: no other process was ever there. */
static int is_done_alone(const struct going *it, int64_t given)
{
    return it->way == NOTE && given >= 0 && is_watching() && !is_behind && !has_others && has_all_alone();
}

/* What the kernel has of the file of a name, or zeros where there is none. */
static struct stat named_in_kernel(const char *name, int flags)
{
    struct stat told;
    memset(&told, 0, sizeof told);
#ifdef SYS_newfstatat
    if (system_syscall(SYS_newfstatat, (long)AT_FDCWD, name, &told, (long)flags) != 0)
        memset(&told, 0, sizeof told);
#else
    (void)name;
    (void)flags;
#endif
    return told;
}

/* Whether the kernel tells what is there. */
#ifdef SYS_newfstatat
enum { TELLS_NAMES = 1 };
#else
enum { TELLS_NAMES = 0 };
#endif

static int is_file_there(const struct stat *told) { return S_ISREG(told->st_mode) || S_ISFIFO(told->st_mode); }

/* Whether two names are those of two files. Some file systems give each link of a file a number of its own. */
static int are_two_files(const struct stat *one, const struct stat *other)
{
    return (one->st_dev != other->st_dev || one->st_ino != other->st_ino) && one->st_nlink < 2;
}

/* Notes what a call has not done, unless a handler may have run. */
static void note_undone(const char *name, int is_undone, const char *what)
{
    if (is_undone && TELLS_NAMES && !is_heard_elsewhere())
        note_wrong(name, what);
}

static int64_t has_removed(const struct going *it, const char *name, int64_t given)
{
    int64_t done = gone(it, given);
    int error = errno;
    struct stat there;
    if (is_done_alone(it, given)) {
        there = named_in_kernel(it->act.name, AT_SYMLINK_NOFOLLOW);
        note_undone(name, there.st_mode != 0, "has not failed, and the name is still there");
    }
    errno = error;
    return done;
}

/* The old name may be that of a link, of which it is not known whether it is followed. */
static int64_t has_linked(const struct going *it, const char *name, int64_t given)
{
    int64_t done = gone(it, given);
    int error = errno;
    struct stat old, made;
    if (is_done_alone(it, given)) {
        old = named_in_kernel(it->act.name, AT_SYMLINK_NOFOLLOW);
        made = named_in_kernel(it->act.new_name, AT_SYMLINK_NOFOLLOW);
        note_undone(name, is_file_there(&old) && (made.st_mode == 0 || are_two_files(&old, &made)),
                    "has not failed, and the new name does not lead to the file");
    }
    errno = error;
    return done;
}

/* Two names of one file stay. */
static int64_t has_renamed(const struct going *it, const char *name, int64_t given)
{
    int64_t done = gone(it, given);
    int error = errno;
    struct stat old, made;
    if (is_done_alone(it, given)) {
        old = named_in_kernel(it->act.name, AT_SYMLINK_NOFOLLOW);
        made = named_in_kernel(it->act.new_name, AT_SYMLINK_NOFOLLOW);
        note_undone(name, made.st_mode == 0, "has not failed, and the new name is not there");
        note_undone(name, made.st_mode != 0 && old.st_mode != 0 && are_two_files(&old, &made),
                    "has not failed, and the old name is still there");
    }
    errno = error;
    return done;
}

static int64_t has_cut(const struct going *it, const char *name, int64_t length, int64_t given)
{
    int64_t done = gone(it, given);
    int error = errno;
    struct stat there;
    if (is_done_alone(it, given)) {
        there = told_in_kernel(it->act.fd);
        note_undone(name, S_ISREG(there.st_mode) && there.st_size != length,
                    "has not failed, and has not set the size");
    }
    errno = error;
    return done;
}

/* It is not logged. */
static int64_t has_cut_name(const struct going *it, const char *name, const char *path, int64_t length, int64_t given)
{
    int error = errno;
    struct stat there;
    if (is_done_alone(it, given)) {
        there = named_in_kernel(path, 0);
        note_undone(name, S_ISREG(there.st_mode) && there.st_size != length,
                    "has not failed, and has not set the size");
    }
    errno = error;
    return given;
}

#define REMOVED(it, given) has_removed(it, __func__, given)
#define LINKED(it, given) has_linked(it, __func__, given)
#define RENAMED(it, given) has_renamed(it, __func__, given)

/* An open by O_TRUNC leaves nothing in a file. */
static void check_opened(const struct going *it, const char *name, int flags, int64_t given)
{
    int error = errno;
    struct stat there;
    if ((flags & O_TRUNC) != 0 && (flags & O_ACCMODE) != O_RDONLY && is_done_alone(it, given) && it->runs == runs) {
        there = told_in_kernel((int)given);
        note_undone(name, S_ISREG(there.st_mode) && there.st_size != 0, "has not cut the file, by O_TRUNC");
    }
    errno = error;
}

/* ---- open */

enum {
    ASKED_FLAGS = O_ACCMODE | O_CREAT | O_EXCL | O_TRUNC | O_APPEND | O_NONBLOCK,
    IGNORED_FLAGS = O_CLOEXEC | O_NOCTTY | O_LARGEFILE | O_NOFOLLOW | O_SYNC | O_DSYNC | O_RSYNC
};

static int is_opened(struct going *it, int folder, const char *name, int flags)
{
    static const struct slot slot = {OURS, 0, 0, 0};
    it->way = way_in("open", folder, &name);
    it->runs = runs;
    it->act = fdref_act_open(name, flags & ASKED_FLAGS);
    it->slot = slot;
    it->is_cloexec = (flags & O_CLOEXEC) != 0;
    if (it->way != PASS && (flags & ~(ASKED_FLAGS | IGNORED_FLAGS)) != 0) {
        leave_out("path", "open with other flags", name);
        it->way = PASS;
        if (!is_file(name))
            return 0;
        it->done = fails((flags & O_DIRECTORY) != 0 ? ENOTDIR : ENOSYS);
        return 1;
    }
    if (it->way != ASK)
        return 0;
    pthread_testcancel();
    it->slot.inode = inode_of_name(name);
    it->done = ALONE(taken(ask(it->act), it->slot, it->is_cloexec));
    return 1;
}

/* The mode that follows the flags, where there is one. */
#define MODE_AFTER(flags, mode) \
    if (flags & O_CREAT || (flags & O_TMPFILE) == O_TMPFILE) { \
        va_list values; \
        va_start(values, flags); \
        mode = (mode_t)va_arg(values, unsigned); \
        va_end(values); \
    }
#define OPENS_SO(name, parameters, words, folder, path, flags, mode_of) \
    int name parameters \
    { \
        NEXT_OF(name); \
        struct going going; \
        struct ending end = ending_of(-1, path, 0, 0); \
        int given; \
        mode_of \
        if (IS_INNER) \
            return next words; \
        if (is_opened(&going, folder, path, flags)) \
            return (int)going.done; \
        begin_making(); \
        NEXT_TILL_ENDED(given, next words, &end); \
        given = (int)gone_to_lowest(&going, given); \
        check_opened(&going, #name, flags, given); \
        return given; \
    }
#define OPENS(name, also) \
    OPENS_SO(name, (const char *path, int flags, ...), (path, flags, mode), AT_FDCWD, path, flags | (also), \
             mode_t mode = 0; MODE_AFTER(flags, mode))
#define OPENS_IN(name, also) \
    OPENS_SO(name, (int folder, const char *path, int flags, ...), (folder, path, flags, mode), folder, path, \
             flags | (also), mode_t mode = 0; MODE_AFTER(flags, mode))
#define CREATES(name, also) \
    OPENS_SO(name, (const char *path, mode_t mode), (path, mode), AT_FDCWD, path, \
             O_WRONLY | O_CREAT | O_TRUNC | (also), )

OPENS(open, 0)
OPENS_IN(openat, 0)
CREATES(creat, 0)

/* ---- close */

static int64_t close_ours(int fd)
{
    int64_t done = ask(fdref_act_close(fd));
    if (done == 0)
        set_free(fd);
    return done;
}

static int64_t close_real(int fd)
{
    ask_aside(fdref_act_close(fd), NULL, 0);
    make_blank(fd);
    set_free(fd);
    return 0;
}

static int is_closed(struct going *it, int fd)
{
    it->act = fdref_act_close(fd);
    it->way = way_of(fd);
    it->runs = runs;
    if (is_own(fd)) {
        it->done = fails(EBADF);
        return 1;
    }
    if (it->way == ASK || (it->way == PASS && how == ASKED && fd < NUMBERS)) {
        pthread_testcancel();
        it->done = it->way == ASK ? ALONE(close_ours(fd)) : ALONE(close_real(fd));
        return 1;
    }
    if (how != NATIVE)
        set_free(fd);
    it->stamp = fd >= 0 && fd < NUMBERS ? stamps[fd] : 0;
    return 0;
}

/* A number is free once the system has closed it. What a wrong one keeps open is still what it was, and what another
   thread has opened meanwhile is there. */
static void set_closed(int fd)
{
    if (how != NATIVE || !is_alone() || !is_open_in_kernel(fd))
        set_free(fd);
}

static int64_t gone_closed(const struct going *it, const char *name, int64_t given)
{
    int64_t done = gone(it, given);
    int error = errno;
    if (!is_behind && it->act.fd >= 0 && it->act.fd < NUMBERS && stamps[it->act.fd] == it->stamp) {
        set_closed(it->act.fd);
        if (it->way == NOTE && given == 0 && is_alone() && !has_others && it->runs == runs)
            note_undone(name, is_open_in_kernel(it->act.fd), "has not failed, and the descriptor is still open");
    }
    errno = error;
    return done;
}

#define CLOSES(name) \
    int name(int fd) \
    { \
        NEXT_OF(name); \
        struct going going; \
        int given; \
        if (IS_INNER) \
            return is_own(fd) ? (int)fails(EBADF) : next(fd); \
        if (is_closed(&going, fd)) \
            return (int)going.done; \
        NEXT_WITHIN(given, next(fd)); \
        return (int)gone_closed(&going, #name, given); \
    }

CLOSES(close)

typedef int closes_range(unsigned, unsigned, int);
enum { KEEPS_TILL_EXEC = 4 };

static int control_ours(int fd, int command, int argument);

/* Closes the numbers below NUMBERS of a range, or keeps that an exec would, and gives the first one after these. */
static unsigned close_low(unsigned first, unsigned last, int is_cloexec)
{
    for (; first < NUMBERS && first <= last; first++) {
        struct going going;
        if (is_cloexec && way_of((int)first) == ASK)
            control_ours((int)first, F_SETFD, FD_CLOEXEC);
        else if (is_cloexec)
            system_fcntl((int)first, F_SETFD, FD_CLOEXEC);
        else if (slots[first].held != FREE)
            is_closed(&going, (int)first);
    }
    return first;
}

/* The lowest number of this library's own from one on, or UINT_MAX. */
static unsigned own_from(unsigned first)
{
    unsigned lowest = UINT_MAX;
    for (int at = 0; at < OWN_NUMBERS; at++) {
        unsigned number = (unsigned)own_numbers(at);
        lowest = number >= first && number < lowest ? number : lowest;
    }
    return lowest;
}

/* Closes a range but for numbers of this library. */
static int close_others(unsigned first, unsigned last, int flags, closes_range *next)
{
    int done = 0;
    for (unsigned own = own_from(first); own < last && first <= last && done == 0; own = own_from(first)) {
        if (first < own)
            done = next(first, own - 1, flags);
        first = own + 1;
    }
    return done == 0 && first <= last && first != own_from(first) ? next(first, last, flags) : done;
}

/* Logs that the system has closed a range, or keeps that an exec would. */
static int note_closed(unsigned first, unsigned last, int flags, int done)
{
    int closes = (flags & KEEPS_TILL_EXEC) == 0;
    for (; done == 0 && first < NUMBERS && first <= last; first++) {
        if (closes && slots[first].held == OURS)
            noted(fdref_act_close((int)first), 0);
        if (closes)
            set_closed((int)first);
        else
            slots[first].is_cloexec = 1;
    }
    return done;
}

static int close_between(unsigned first, unsigned last, int flags, int is_own, closes_range *next)
{
    if (is_off() || first > last)
        return next(first, last, flags);
    if (is_behind || is_own)
        return close_others(first, last, flags, next);
    if (how == NATIVE)
        return (int)let_in(
            note_closed(first, last, flags, (int)BEHIND_OF("close_range", close_others(first, last, flags, next))));
    return close_others(close_low(first, last, (flags & KEEPS_TILL_EXEC) != 0), last, flags, next);
}

int close_range(unsigned first, unsigned last, int flags)
{
    NEXT_OF(close_range);
    int is_own = IS_INNER;
    prepare();
    return close_between(first, last, flags, is_own, next);
}

/* The next one would close numbers of this library. */
void closefrom(int first)
{
    static __typeof__(&close_range) next;
    static int is_noted;
    int is_own = IS_INNER;
    find(&next, "close_range");
    prepare();
    if (!is_own)
        answers_itself("closefrom", &is_noted);
    close_between(first < 0 ? 0 : (unsigned)first, UINT_MAX, 0, is_own, next);
}

/* A file of fdref that stdio closes, as programs do with standard output at their end. The close is not logged, since
   the C library makes it natively. */
static int64_t close_stream(int fd)
{
    make_blank(fd);
    ask_aside(fdref_act_close(fd), NULL, 0);
    set_free(fd);
    return 0;
}

int fclose(FILE *file)
{
    NEXT_OF(fclose);
    int error = errno, fd = fileno(file), done;
    enum way way = fd < 0 ? PASS : way_of(fd);
    prepare();
    errno = error;
    done = next(file);
    if (fd < 0 || fd >= NUMBERS)
        return done;
    if (how == NATIVE)
        set_free(fd);
    else if (how == ASKED && way == PASS)
        ALONE(close_real(fd));
    else if (how == ASKED && slots[fd].held == OURS)
        ALONE(close_stream(fd));
    return done;
}

/* ---- read and write */

/* A transfer: the call, its bytes, the parts from which they come or to which they go, or NULL, and what SIGPIPE does
   meanwhile. */
struct moving {
    struct going going;
    char *bytes;
    const struct iovec *parts;
    struct keeping pipes;
    struct beyond beyond;
};

static int is_write(int kind) { return kind == FDREF_WRITE || kind == FDREF_PWRITE; }

/* A piece of a transfer that the system made, of which so many bytes are left. */
static int64_t note_piece(struct fdref_act act, const void *bytes, int64_t given, int is_last)
{
    int is_more = given > (int64_t)act.count && !(is_last && is_write(act.kind));
    int64_t some = is_more ? (int64_t)act.count : given;
    uint64_t number = some < 0 ? 0 : (uint64_t)some;
    /* a read that answers more than it was asked for: its bytes are not all there */
    if (is_more && is_last)
        return note(act, fdref_number((uint64_t)given), given);
    return note(act, is_write(act.kind) ? fdref_number(number) : fdref_data(bytes, (size_t)number), some);
}

/* Whether a descriptor is an end of a pipe or of a FIFO. */
static int is_pipe_at(int fd)
{
    int error = errno, is_pipe = slot_of(fd).is_pipe || (slot_of(fd).inode & fifo_bit) != 0;
    if (how == NATIVE)
        is_pipe = seek_by(fd, SEEK_CUR) < 0;
    errno = error;
    return is_pipe;
}

/* Logs the next piece of a write that came back before it: as EAGAIN where it is to a pipe and does not wait, and else
   as one of nothing, as where a signal came. */
static void note_rest(struct fdref_act act)
{
    int is_waiting = !is_pipe_at(act.fd) || (system_fcntl(act.fd, F_GETFL, 0) & O_NONBLOCK) == 0;
    errno = EAGAIN;
    note(act, fdref_number(0), is_waiting ? 0 : -1);
}

/* Whether there is another piece after a whole one. What a pipe has is read at once: one piece, as fdref's hold. */
static int has_next_piece(struct fdref_act act, int64_t moved, int64_t given)
{
    if (!is_write(act.kind))
        return is_pipe_at(act.fd) ? how == NATIVE && moved < given : 1;
    if (how == NATIVE && moved == given)
        note_rest(act);
    return how != NATIVE || moved < given;
}

/* Makes a transfer in pieces until one is short, or logs one that came to what is given. */
static int64_t in_pieces(struct fdref_act act, char *bytes, int64_t given)
{
    uint64_t rest = act.count;
    int64_t moved = 0, some;
    act.count = rest < FDREF_TRANSFER_MOST ? rest : FDREF_TRANSFER_MOST;
    act.data = is_write(act.kind) ? bytes : NULL;
    do {
        some = how == NATIVE ? note_piece(act, bytes, given < 0 ? given : given - moved, rest == act.count)
                             : ask_most(act, bytes, act.count);
        if (some < 0 || (uint64_t)some > rest)
            return moved > 0 ? moved : some;
        moved += some;
        bytes = some > 0 ? bytes + some : bytes;
        rest -= (uint64_t)some;
        act.offset += some;
        act.count = rest < FDREF_TRANSFER_MOST ? rest : FDREF_TRANSFER_MOST;
        act.data = is_write(act.kind) ? bytes : NULL;
    } while (some == FDREF_TRANSFER_MOST && rest > 0 && has_next_piece(act, moved, given));
    return moved;
}

/* Moves bytes from the parts, or to them. */
static void spread(const struct iovec *parts, char *bytes, size_t size, int is_from_parts)
{
    for (size_t at = 0, some; at < size; at += some, parts++) {
        some = parts->iov_len < size - at ? parts->iov_len : size - at;
        if (some > 0 && is_from_parts)
            memcpy(bytes + at, parts->iov_base, some);
        else if (some > 0)
            memcpy(parts->iov_base, bytes + at, some);
    }
}

static int64_t asked_transfer(struct fdref_act act, char *bytes)
{
    int64_t moved;
    pthread_testcancel();
    moved = ALONE(in_pieces(act, bytes, 0));
    if (moved < 0 && errno == EPIPE) {
        raise(SIGPIPE);
        errno = EPIPE;
    }
    return moved;
}

/* A transfer of the system that is to be logged. */
static void begin_moving(struct moving *it)
{
    it->beyond.size = 0;
    if (is_write(it->going.act.kind))
        keep_pipes(&it->pipes);
    else if (!it->parts)
        look_beyond(&it->beyond, it->bytes, it->going.act.count);
}

static void end_moving(struct moving *it, int64_t given)
{
    check_beyond(&it->beyond, words[it->going.act.kind - FDREF_OPEN]);
    if (is_write(it->going.act.kind))
        let_pipes(&it->pipes, words[it->going.act.kind - FDREF_OPEN], given, it->going.act.count);
}

/* What is due where nothing is open of a transfer of this size, or from an offset on that may be refused. One of no
   bytes may find no error. */
static enum due due_of(const struct fdref_act *act)
{
    if (act->count == 0 || act->count > SSIZE_MAX)
        return ANY_IS_DUE;
    return act->offset < 0 || act->offset > INT64_MAX - (int64_t)act->count ? ERROR_IS_DUE : EBADF_IS_DUE;
}

static int is_moved(struct moving *it)
{
    it->going.way = way_of(it->going.act.fd);
    lessen_due(due_of(&it->going.act));
    if (it->going.way == NOTE)
        begin_moving(it);
    if (it->going.way == ASK)
        it->going.done = asked_transfer(it->going.act, it->bytes);
    return it->going.way == ASK;
}

static ssize_t moved(struct moving *it, ssize_t given)
{
    int64_t most = (int64_t)it->going.act.count;
    if (it->going.way != NOTE)
        return given;
    if (it->parts && !is_write(it->going.act.kind) && given > 0)
        spread(it->parts, it->bytes, (size_t)(given < most ? given : most), 1);
    ALONE(in_pieces(it->going.act, it->bytes, given));
    end_moving(it, given);
    return given;
}

#define MOVES(name, parameters, words, act_of, data) \
    ssize_t name parameters \
    { \
        NEXT_OF(name); \
        struct moving moving; \
        struct ending end = ending_of(fd, data, count, is_write((act_of).kind) ? count : 0); \
        ssize_t given; \
        if (IS_INNER) \
            return next words; \
        moving.going.act = act_of; \
        moving.bytes = bytes_of(data); \
        moving.parts = NULL; \
        if (is_moved(&moving)) \
            return (ssize_t)moving.going.done; \
        NEXT_TILL_ENDED(given, next words, &end); \
        return moved(&moving, given); \
    }

MOVES(read, (int fd, void *buffer, size_t count), (fd, buffer, count), fdref_act_read(fd, count), buffer)
MOVES(write, (int fd, const void *data, size_t count), (fd, data, count), fdref_act_write(fd, NULL, count), data)
MOVES(pread, (int fd, void *buffer, size_t count, off_t offset), (fd, buffer, count, offset),
      fdref_act_pread(fd, count, offset), buffer)
MOVES(pwrite, (int fd, const void *data, size_t count, off_t offset), (fd, data, count, offset),
      fdref_act_pwrite(fd, NULL, count, offset), data)

/* The bytes of all parts, or above SSIZE_MAX. */
static uint64_t size_of(const struct iovec *parts, int count)
{
    uint64_t size = 0;
    for (int at = 0; at < count && size <= SSIZE_MAX; at++)
        size += parts[at].iov_len > SSIZE_MAX ? (uint64_t)SSIZE_MAX + 1 : parts[at].iov_len;
    return size;
}

/* Whether a transfer with parts is made by fdref, or fails. What is allocated is freed by `freed`. */
static int are_moved(struct moving *it, struct fdref_act act, const struct iovec *parts, int count)
{
    uint64_t size = count < 0 || count > IOV_MAX ? UINT64_MAX : size_of(parts, count);
    it->going.act = act;
    it->going.act.count = size;
    it->parts = parts;
    it->going.way = way_of(act.fd);
    lessen_due(count <= 0 || count > IOV_MAX ? ERROR_IS_DUE : due_of(&it->going.act));
    it->bytes = it->going.way == PASS || size > SSIZE_MAX ? NULL : (char *)malloc((size_t)size + 1);
    if (it->going.way == PASS)
        return 0;
    if (!it->bytes) {
        it->going.done = fails(size > SSIZE_MAX ? EINVAL : ENOMEM);
        return 1;
    }
    if (is_write(act.kind))
        spread(parts, it->bytes, (size_t)size, 1);
    is_moved(it);
    if (it->going.way == ASK && it->going.done > 0 && !is_write(act.kind))
        spread(parts, it->bytes, (size_t)it->going.done, 0);
    return it->going.way == ASK;
}

/* Whether what is put into one part is seen in another one. */
static int do_overlap(const struct iovec *parts, int count)
{
    for (int at = 0; at < count; at++)
        for (int other = 0; other < at; other++) {
            uintptr_t one = (uintptr_t)parts[at].iov_base, two = (uintptr_t)parts[other].iov_base;
            if (one < two + parts[other].iov_len && two < one + parts[at].iov_len)
                return 1;
        }
    return 0;
}

/* The parts of a native transfer. Those of a read that overlap are read one after another into the bytes of this
   library, so that it is logged what was read, where there is memory for that. */
static const struct iovec *apart(struct moving *it, const struct iovec *parts, int count)
{
    struct iovec *own = NULL;
    char *bytes = it->bytes;
    if (it->going.way == NOTE && !is_write(it->going.act.kind) && do_overlap(parts, count))
        own = (struct iovec *)calloc((size_t)count, sizeof *own);
    for (int at = 0; own && at < count; bytes += parts[at++].iov_len) {
        own[at].iov_base = bytes;
        own[at].iov_len = parts[at].iov_len;
    }
    it->parts = own ? NULL : it->parts;
    return own ? own : parts;
}

/* What was read so is put into the parts of the program, in their order. */
static void put_together(struct moving *it, const struct iovec *parts, const struct iovec *own, int64_t given)
{
    int error = errno;
    int64_t most = (int64_t)it->going.act.count;
    if (own == parts)
        return;
    if (given > 0)
        spread(parts, it->bytes, (size_t)(given < most ? given : most), 0);
    free((void *)(uintptr_t)own);
    errno = error;
}

static ssize_t freed(struct moving *it, int64_t done)
{
    int error = errno;
    free(it->bytes);
    errno = error;
    return (ssize_t)done;
}

#define MOVES_PARTS(name, act_of) \
    ssize_t name(int fd, const struct iovec *parts, int count) \
    { \
        NEXT_OF(name); \
        struct moving moving; \
        struct ending end; \
        const struct iovec *own; \
        ssize_t given; \
        if (IS_INNER) \
            return next(fd, parts, count); \
        if (are_moved(&moving, act_of, parts, count)) \
            return freed(&moving, moving.going.done); \
        own = apart(&moving, parts, count); \
        end = ending_of(fd, own, 0, is_write(moving.going.act.kind) ? moving.going.act.count : 0); \
        NEXT_TILL_ENDED(given, next(fd, own, count), &end); \
        given = moved(&moving, given); \
        put_together(&moving, parts, own, given); \
        return freed(&moving, given); \
    }

MOVES_PARTS(readv, fdref_act_read(fd, 0))
MOVES_PARTS(writev, fdref_act_write(fd, NULL, 0))

/* ---- formatted output

   The C library would write by itself, to the placeholder. As it does, what a short write left is written again. */

static int print_all(int fd, char *text, int size)
{
    int done = 0;
    ssize_t some;
    do {
        some = (ssize_t)asked_transfer(fdref_act_write(fd, NULL, (size_t)(size - done)), text + done);
        done += some > 0 ? (int)some : 0;
    } while (some > 0 && done < size);
    return some < 0 ? -1 : done;
}

/* How far a file or a pipe has come: its offset, or the bytes that wait. */
static int64_t reached(int fd)
{
    int waiting = 0;
    int64_t at = seek_by(fd, SEEK_CUR);
    if (at < 0)
        at = system_syscall(SYS_ioctl, (long)fd, (long)FIONREAD, &waiting) == 0 ? waiting : 0;
    return at;
}

/* Output of so many bytes, which may be none at all: its text, and how far the file was before. */
struct printing {
    struct moving moving;
    int64_t before;
};

static int is_printed(struct printing *it, int fd, char *text, int size)
{
    struct going *going = &it->moving.going;
    int error = errno;
    it->moving.bytes = text;
    it->moving.parts = NULL;
    going->way = way_of(fd);
    going->act = fdref_act_write(fd, NULL, size < 0 ? 0 : (size_t)size);
    if (going->way == ASK) {
        going->done = size > 0 ? print_all(fd, text, size) : size < 0 || slot_of(fd).held != FREE ? size : fails(EBADF);
        return 1;
    }
    if (going->way == NOTE) {
        begin_moving(&it->moving);
        it->before = reached(fd);
    }
    errno = error;
    return 0;
}

/* Logs what the system printed. What it had written before an error is told by how far the file has come. */
static int printed(struct printing *it, int done)
{
    struct fdref_act act = it->moving.going.act, rest = act;
    int64_t some;
    int error = errno;
    if (it->moving.going.way != NOTE)
        return done;
    some = done < 0 ? reached(act.fd) - it->before : done;
    errno = error;
    if (act.count > 0 && (done >= 0 || (some > 0 && (uint64_t)some < act.count)))
        ALONE(in_pieces(act, it->moving.bytes, some));
    else
        some = 0;
    rest.count = act.count - (uint64_t)some;
    errno = error;
    if (act.count > 0 && done < 0)
        ALONE(in_pieces(rest, it->moving.bytes + some, -1));
    end_moving(&it->moving, done);
    return done;
}

#define PRINTS(fd, text, size, call) \
    do { \
        struct printing printing; \
        int given; \
        if (is_printed(&printing, fd, text, size)) \
            return (int)freed(&printing.moving, printing.moving.going.done); \
        NEXT_WITHIN(given, call); \
        return (int)freed(&printing.moving, printed(&printing, given)); \
    } while (0)

/* A function of formats and the values that follow them cannot be given these. It is given the text, but for one with
   zeros in it. */
#define PRINTS_VALUES(fd, format, text, size, call, by_list) \
    do { \
        static int is_noted; \
        answers_itself("the format of dprintf", &is_noted); \
        if (strlen(text) != (size_t)size) { \
            free(text); \
            va_start(values, format); \
            size = by_list; \
            va_end(values); \
            return size; \
        } \
        PRINTS(fd, text, size, call); \
    } while (0)

int vdprintf(int fd, const char *format, va_list values)
{
    NEXT_OF(vdprintf);
    va_list again;
    char *text = NULL;
    int size;
    if (IS_INNER)
        return next(fd, format, values);
    va_copy(again, values);
    size = vasprintf(&text, format, again);
    va_end(again);
    PRINTS(fd, size < 0 ? NULL : text, size, next(fd, format, values));
}

int dprintf(int fd, const char *format, ...)
{
    NEXT_OF(dprintf);
    va_list values;
    char *text = NULL;
    int size;
    va_start(values, format);
    size = vasprintf(&text, format, values);
    va_end(values);
    if (size < 0)
        return size;
    PRINTS_VALUES(fd, format, text, size, next(fd, "%s", text), vdprintf(fd, format, values));
}

/* ---- the offset and the length */

static int is_base(int whence) { return whence == SEEK_SET || whence == SEEK_CUR || whence == SEEK_END; }
static int is_whence(int whence) { return is_base(whence) || whence == SEEK_DATA || whence == SEEK_HOLE; }

/* No other whence may be. It is asked as an offset below 0 is, which is refused likewise: EBADF, EINVAL. Of a pipe that
   is ESPIPE, where EINVAL may be as well, which Linux gives: no line tells it. */
static int is_sought(struct going *it, int fd, int64_t offset, int whence, size_t width)
{
    it->act = is_whence(whence) ? fdref_act_lseek(fd, offset, whence) : fdref_act_lseek(fd, INT64_MIN, SEEK_SET);
    it->way = way_of(fd);
    if (!is_base(whence) || (whence == SEEK_SET && offset < 0))
        lessen_due(ERROR_IS_DUE);
    if (it->way == NOTE && !is_base(whence) && (is_whence(whence) || (slot_of(fd).held == OURS && is_pipe_at(fd))))
        it->way = PASS;
    if (it->way != ASK)
        return 0;
    if (is_whence(whence) && !is_base(whence))
        leave_out_at("lseek by SEEK_DATA and its kin", fd);
    if (is_whence(whence) || slot_of(fd).held != OURS || !is_pipe_at(fd))
        it->done = ALONE(ask_most(it->act, NULL, INT64_MAX));
    else
        it->done = fails(EINVAL);
    if (width < sizeof it->done && it->done > INT32_MAX)
        it->done = fails(EOVERFLOW);
    return 1;
}

/* That a native seek in a pipe by such a whence has not failed is noted, since no line tells it. */
static int64_t has_sought(const struct going *it, int fd, int whence, int64_t given)
{
    if (it->way == PASS && given >= 0 && !is_behind && !is_whence(whence) && slot_of(fd).held == OURS)
        note_wrong("lseek", "has taken a whence that there is not");
    return gone(it, given);
}

#define SOUGHT(it, given) has_sought(it, fd, whence, given)
#define SEEKS(type, name) \
    GOES(type, name, (int fd, type offset, int whence), (fd, offset, whence), \
         is_sought(&going, fd, offset, whence, sizeof(type)), SOUGHT)
SEEKS(off_t, lseek)

static int is_cut(struct going *it, int fd, int64_t length)
{
    it->act = fdref_act_ftruncate(fd, length);
    it->way = way_of(fd);
    if (length < 0 || length > INT32_MAX)
        lessen_due(ERROR_IS_DUE);
    it->done = it->way == ASK ? ALONE(ask(it->act)) : 0;
    return it->way == ASK;
}

#define CUT(it, given) has_cut(it, __func__, length, given)
#define CUTS(name, type) GOES(int, name, (int fd, type length), (fd, length), is_cut(&going, fd, length), CUT)
CUTS(ftruncate, off_t)

static int64_t cut_ours(const char *name, int64_t length)
{
    int fd = (int)ask_aside(fdref_act_open(name, O_RDWR), NULL, NUMBERS), error;
    int64_t done = fd < 0 ? -1 : ask_aside(fdref_act_ftruncate(fd, length), NULL, 0);
    error = errno;
    if (fd >= 0)
        ask_aside(fdref_act_close(fd), NULL, 0);
    errno = error;
    return done;
}

static int is_name_cut(struct going *it, const char *name, int64_t length)
{
    it->way = way_of_name("truncate", &name);
    it->done = it->way == ASK ? ALONE(cut_ours(name, length)) : 0;
    return it->way == ASK;
}

#define NAME_CUT(it, given) has_cut_name(it, __func__, path, length, given)
#define CUTS_NAME(name, type) \
    GOES(int, name, (const char *path, type length), (path, length), is_name_cut(&going, path, length), NAME_CUT)
CUTS_NAME(truncate, off_t)

/* ---- duplicates and pipes */

static int is_duplicated(struct going *it, int fd)
{
    it->act = fdref_act_dup(fd);
    it->way = way_of(fd);
    it->runs = runs;
    it->slot = slot_of(fd);
    it->is_cloexec = 0;
    begin_making();
    if (how != ASKED)
        return 0;
    if (it->way == ASK)
        it->done = ALONE(taken(ask(it->act), it->slot, 0));
    else
        it->done = numbered(system_fcntl(fd, F_DUPFD, NUMBERS), 0);
    return 1;
}

GOES(int, dup, (int fd), (fd), is_duplicated(&going, fd), gone_to_lowest)

static int64_t dup_ours_to(struct fdref_act act, int is_cloexec)
{
    int fd = act.fd, to = act.other;
    int64_t done = ask(act);
    if (done < 0 || fd == to)
        return done;
    if (slots[to].held == REAL)
        make_blank(to);
    return taken(done, slot_of(fd), is_cloexec);
}

static int64_t dup_real_to(int fd, int to, int flags)
{
    if (fd >= NUMBERS && to >= NUMBERS && fd != to)
        return system_dup3(fd, to, flags);
    if (fd >= NUMBERS && fd == to)
        return is_open_in_kernel(fd) ? to : fails(EBADF);
    if (to < 0 || to >= NUMBERS || !is_open_in_kernel(fd))
        return fails(EBADF);
    if (fd == to)
        return to;
    if (hold_at(to) < 0)
        return -1;
    if (system_dup3(fd, to, flags) < 0)
        end_with(NO_ANSWER, "descriptor %d cannot be made: %s", to, strerror(errno));
    take_real(to);
    return to;
}

static int is_duplicated_to(struct going *it, int fd, int to, int flags)
{
    it->act = fdref_act_dup2(fd, to);
    it->way = way_of(fd);
    it->is_cloexec = flags != 0;
    make_way(to);
    if (how != ASKED)
        return 0;
    it->done = it->way == ASK ? ALONE(dup_ours_to(it->act, it->is_cloexec)) : ALONE(dup_real_to(fd, to, flags));
    return 1;
}

static int64_t gone_to(const struct going *it, int64_t given)
{
    int64_t done = gone(it, given);
    if (it->way == PASS && how == NATIVE && !is_behind && done >= 0 && done != it->act.other)
        note_wrong("dup2", "has given another number than it was asked for");
    if (!is_behind && it->act.fd != it->act.other && done >= 0)
        take(it->act.other, slot_of(it->act.fd), it->is_cloexec);
    return done;
}

#define DUPLICATES_TO(name) \
    GOES(int, name, (int fd, int to), (fd, to), is_duplicated_to(&going, fd, to, 0), gone_to)
DUPLICATES_TO(dup2)

/* A native dup3 of one number twice, or with other flags, which is EINVAL, or EBADF where both are due. */
static int refused_dup3(int given)
{
    int error = errno;
    if (given != -1 || (error != EINVAL && error != EBADF))
        note_wrong("dup3", "has not refused one number twice, or other flags");
    errno = error;
    return given;
}

int dup3(int fd, int to, int flags)
{
    NEXT_OF(dup3);
    struct going going;
    int is_refused = fd == to || (flags & ~O_CLOEXEC) != 0;
    if (IS_INNER)
        return next(fd, to, flags);
    prepare();
    if (is_refused)
        return how == ASKED ? (int)fails(EINVAL) : refused_dup3(next(fd, to, flags));
    if (is_duplicated_to(&going, fd, to, flags))
        return (int)going.done;
    if (going.way == NOTE)
        return (int)let_in(gone_to(&going, BEHIND(next(fd, to, flags))));
    return (int)gone_to(&going, next(fd, to, flags));
}

/* The number to which F_DUPFD leads, where it can: an EBADF is asked with one, too. */
static int number_from(int from)
{
    int to = from < 0 || from >= NUMBERS ? NUMBERS - 1 : lowest_free(from);
    while (how == NATIVE && to < NUMBERS && is_open_in_kernel(to))
        to++;
    return to < NUMBERS ? to : NUMBERS - 1;
}

static int64_t dup_from_asked(int fd, int from, int is_cloexec)
{
    int is_open = fd >= NUMBERS ? is_open_in_kernel(fd) : fd >= 0 && slots[fd].held != FREE;
    struct fdref_act act = fdref_act_dup2(fd, number_from(from));
    if (is_open && (from < 0 || from >= NUMBERS))
        return fails(EINVAL);
    if (is_open && lowest_free(from) >= NUMBERS)
        return fails(EMFILE);
    if (fd >= NUMBERS || (fd >= 0 && slots[fd].held == REAL))
        return dup_real_to(fd, act.other, is_cloexec ? O_CLOEXEC : 0);
    return dup_ours_to(act, is_cloexec);
}

/* A native F_DUPFD, or F_DUPFD_CLOEXEC. It is logged with the number that was due, where that is known, and a refusal
   but for those that fdref is not asked for. */
static int64_t gone_from(const struct going *it, int from, int64_t given)
{
    int fd = it->act.fd, due = it->act.other >= 0 ? it->act.other : given >= 0 ? (int)given : number_from(from);
    int is_due = errno == EMFILE || (errno == EINVAL && (from < 0 || from >= NUMBERS));
    tell_made(from, given);
    if (it->way == NOTE && (given >= 0 || !is_due))
        noted(fdref_act_dup2(fd, due), given);
    given = taken(given, slot_of(fd), it->is_cloexec);
    end_making();
    return given;
}

static void set_nonblock_at(int end)
{
    struct fdref_act act = fdref_act_setfl(end, O_NONBLOCK);
    if (how == NATIVE)
        note(act, fdref_done(), 0);
    else
        ask(act);
}

/* The call of fdref has no flags, so O_NONBLOCK is set after it. */
static int64_t take_pipe(int ends[2], int flags)
{
    struct slot slot = {OURS, 0, 1, inode_of_pipe()};
    take(ends[0], slot, (flags & O_CLOEXEC) != 0);
    take(ends[1], slot, (flags & O_CLOEXEC) != 0);
    if (flags & O_NONBLOCK) {
        set_nonblock_at(ends[0]);
        set_nonblock_at(ends[1]);
    }
    return 0;
}

static int64_t pipe_ours(int ends[2], int flags)
{
    int64_t done = ask(fdref_act_pipe());
    if (done < 0)
        return done;
    memcpy(ends, process->outcome.ends, sizeof process->outcome.ends);
    return take_pipe(ends, flags);
}

static int64_t pipe_noted(int ends[2], int flags, int64_t done)
{
    struct fdref_outcome outcome = done < 0 ? fdref_error(errno) : fdref_descriptors(ends[0], ends[1]);
    note(fdref_act_pipe(), outcome, done);
    return done < 0 ? done : take_pipe(ends, flags);
}

/* A pipe of the kernel: both ends get their numbers, or none. */
static int64_t pipe_real(int ends[2], const int made[2], int flags)
{
    int error;
    ends[0] = numbered(made[0], flags & O_CLOEXEC);
    ends[1] = ends[0] < 0 ? -1 : numbered(made[1], flags & O_CLOEXEC);
    if (ends[1] >= 0)
        return 0;
    error = errno;
    if (ends[0] >= 0)
        ALONE(close_real(ends[0]));
    system_close(made[1]);
    return fails(error);
}

static int is_pipe_made(struct going *it, int ends[2], int flags)
{
    prepare();
    it->way = way_of_ours();
    if (it->way != PASS && (flags & ~(O_CLOEXEC | O_NONBLOCK)) != 0) {
        leave_out("call", "pipe2 with other flags", NULL);
        it->way = PASS;
    }
    it->done = it->way == ASK ? ALONE(pipe_ours(ends, flags)) : 0;
    begin_making();
    return it->way == ASK;
}

static int64_t gone_to_pipe(const struct going *it, int ends[2], const int made[2], int flags, int64_t given)
{
    ends[0] = made[0];
    ends[1] = made[1];
    if (is_behind)
        return given;
    if (it->way == NOTE) {
        given = ALONE(pipe_noted(ends, flags, given));
        tell_made(0, given < 0 ? given : made[0] > made[1] ? made[0] : made[1]);
    } else if (given >= 0) {
        given = pipe_real(ends, made, flags);
    }
    end_making();
    return given;
}

/* Where a pipe cannot be made, the ends stay as they were. */
#define MAKES_PIPE(name, parameters, words, flags) \
    int name parameters \
    { \
        NEXT_OF(name); \
        struct going going; \
        int made[2] = {-1, -1}, both[2] = {-1, -1}; \
        int64_t done; \
        if (IS_INNER) { \
            done = next words; \
            if (done == 0) \
                memcpy(ends, made, sizeof made); \
            return (int)done; \
        } \
        if (is_pipe_made(&going, both, flags)) \
            done = going.done; \
        else if (going.way == NOTE) \
            done = let_in(gone_to_pipe(&going, both, made, flags, BEHIND(next words))); \
        else \
            done = gone_to_pipe(&going, both, made, flags, next words); \
        if (done == 0) \
            memcpy(ends, both, sizeof both); \
        return (int)done; \
    }
MAKES_PIPE(pipe2, (int ends[2], int flags), (made, flags), flags)
MAKES_PIPE(pipe, (int ends[2]), (made), 0)

/* ---- names */

/* A call with names that came to an end, after which another name leads to the file. */
static int64_t after_move(int64_t done, const char *name, const char *new_name)
{
    if (done == 0)
        name_moves(name, new_name);
    return done;
}

static int64_t after_mkfifo(int64_t done, const char *name)
{
    if (done == 0)
        name_is_of_fifo(name);
    return done;
}

static int64_t after_link(int64_t done, const char *name, const char *new_name)
{
    if (done == 0)
        name_is_linked(name, new_name);
    return done;
}

static int64_t after_unlink(int64_t done, const char *name)
{
    if (done == 0)
        name_goes(name);
    return done;
}

static int is_fifo_made(struct going *it, int folder, const char *name)
{
    it->way = way_in("mkfifo", folder, &name);
    it->act = fdref_act_mkfifo(name);
    it->done = it->way == ASK ? ALONE(after_mkfifo(ask(it->act), name)) : 0;
    return it->way == ASK;
}

/* Asks the same system natively what it has made, where no other process and no handler can have changed that. */
static void check_fifo(const char *what, const char *name, int given, unsigned gone_before)
{
    int (*next)(const char *, struct stat *), error = errno, done;
    void *found = given == 0 && has_all_alone() ? dlsym(RTLD_NEXT, "lstat") : NULL;
    struct stat made;
    if (!found)
        return;
    memcpy(&next, &found, sizeof next);
    done = (int)let_in(BEHIND_OF("lstat", next(name, &made)));
    if (((done == 0 && !S_ISFIFO(made.st_mode)) || (done == -1 && errno == ENOENT)) && names_gone == gone_before
        && !is_heard_elsewhere())
        note_wrong(what, "has made no FIFO, as lstat tells");
    errno = error;
}

#define MAKES_FIFO(function, parameters, words, folder) \
    int function parameters \
    { \
        NEXT_OF(function); \
        struct going going; \
        unsigned gone_before = names_gone; \
        int given; \
        if (IS_INNER) \
            return next words; \
        if (is_fifo_made(&going, folder, name)) \
            return (int)going.done; \
        if (going.way != NOTE) { \
            WITHIN(given, next words); \
            return given; \
        } \
        given = (int)let_in(gone(&going, BEHIND(next words))); \
        check_fifo(#function, going.act.name, given, gone_before); \
        return given; \
    }
MAKES_FIFO(mkfifo, (const char *name, mode_t mode), (name, mode), AT_FDCWD)
MAKES_FIFO(mkfifoat, (int folder, const char *name, mode_t mode), (folder, name, mode), folder)

static int is_linked(struct going *it, int folder, const char *name, int new_folder, const char *new_name, int flags)
{
    enum way way = way_in("link", folder, &name), new_way = way_in("link", new_folder, &new_name);
    int is_whole = way != PASS && (flags & AT_EMPTY_PATH) == 0;
    it->act = fdref_act_link(name, new_name);
    it->way = is_whole && new_way == NOTE ? NOTE : PASS;
    if (is_whole && way == ASK && new_way == ASK)
        it->done = ALONE(after_link(ask(it->act), name, new_name));
    else if (how == ASKED && is_whole != (new_way != PASS))
        it->done = fails(EXDEV);
    else
        return 0;
    return 1;
}

GOES(int, link, (const char *name, const char *new_name), (name, new_name),
     is_linked(&going, AT_FDCWD, name, AT_FDCWD, new_name, 0), LINKED)
GOES(int, linkat, (int folder, const char *name, int new_folder, const char *new_name, int flags),
     (folder, name, new_folder, new_name, flags), is_linked(&going, folder, name, new_folder, new_name, flags), LINKED)

static int is_renamed(struct going *it, int folder, const char *name, int new_folder, const char *new_name)
{
    const char *rest = name, *new_rest = new_name;
    names_gone++;
    enum way way = way_in("rename", folder, &rest), new_way = way_in("rename", new_folder, &new_rest);
    int is_out = way == ASK && new_way == PASS && new_folder == AT_FDCWD && plain(new_name);
    it->act = fdref_act_rename(rest, new_rest);
    it->way = way == NOTE && new_way == NOTE ? NOTE : PASS;
    if (way == PASS && new_way == ASK && folder == AT_FDCWD && plain(name) && !is_file(new_rest))
        return 0;
    if (way == ASK && new_way == ASK)
        it->done = ALONE(after_move(ask(it->act), rest, new_rest));
    else if (way == PASS && new_way == ASK && folder == AT_FDCWD && plain(name))
        it->done = fails(ENOTDIR);
    else if (is_out)
        it->done = fails(is_file(rest) ? EISDIR : ENOENT);
    else if (how == ASKED && (way == PASS) != (new_way == PASS))
        it->done = fails(EXDEV);
    else
        return 0;
    return 1;
}

GOES(int, rename, (const char *name, const char *new_name), (name, new_name),
     is_renamed(&going, AT_FDCWD, name, AT_FDCWD, new_name), RENAMED)
GOES(int, renameat, (int folder, const char *name, int new_folder, const char *new_name),
     (folder, name, new_folder, new_name), is_renamed(&going, folder, name, new_folder, new_name), RENAMED)

static int is_unlinked(struct going *it, int folder, const char *name, int flags)
{
    names_gone++;
    it->way = way_in("unlink", folder, &name);
    it->act = fdref_act_unlink(name);
    if (it->way != PASS && (flags & AT_REMOVEDIR) != 0) {
        leave_out("path", "unlinkat of a directory", name);
        it->way = PASS;
        if (!is_file(name))
            return 0;
        it->done = fails(ENOSYS);
        return 1;
    }
    it->done = it->way == ASK ? ALONE(after_unlink(ask(it->act), name)) : 0;
    return it->way == ASK;
}

GOES(int, unlink, (const char *name), (name), is_unlinked(&going, AT_FDCWD, name, 0), REMOVED)
GOES(int, unlinkat, (int folder, const char *name, int flags), (folder, name, flags),
     is_unlinked(&going, folder, name, flags), REMOVED)

static int is_removed(struct going *it, const char *name)
{
    names_gone++;
    it->way = way_of_name("remove", &name);
    it->act = fdref_act_unlink(name);
    it->done = it->way == ASK ? ALONE(after_unlink(ask(it->act), name)) : 0;
    return it->way == ASK;
}

GOES(int, remove, (const char *name), (name), is_removed(&going, name), REMOVED)

#include "files.h"
#include "bounds.h"
#include "past.h"
#include "raw.h"
#include "further.h"
