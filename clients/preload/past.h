/* past.h: a part of fdref_preload.c. What fdref leaves out, as far as a call of the C library shows it: that is told.
   tests/c/descriptor_functions.txt has all functions with a descriptor or a path, and what is done with each. */

/* The descriptor of fdref that was found last, or -1, so that it is told of a call. */
static __thread int ours = -1;

static int is_ours(int fd)
{
    int is_found = how == ASKED && slot_of(fd).held == OURS;
    ours = is_found ? fd : ours;
    return is_found;
}

/* Tells a call with the descriptor of fdref that was found last. */
static int leave_out_ours(const char *what)
{
    leave_out_at(what, ours);
    return 1;
}

static int is_plain(const char *name) { return how == ASKED && plain(name) != NULL; }
static int is_plain_in(int folder, const char *name) { return folder == AT_FDCWD && is_plain(name); }

/* A name in the folder of fdref, or that folder, which is listed without the files of fdref. */
static int is_here(const char *path) { return how == ASKED && (plain(path) || is_dot(path)); }

/* Whether the file of a descriptor itself is meant. */
static int is_itself(int fd, const char *path) { return is_ours(fd) && (!path || !*path); }

static int is_polled(const struct pollfd *parts, nfds_t count)
{
    nfds_t at = 0;
    while (at < count && !is_ours(parts[at].fd))
        at++;
    return at < count;
}

static int is_selected(int count, const fd_set *one, const fd_set *other)
{
    size_t fd = 0, end = count > 0 ? (size_t)count : 0;
    while (fd < end && !(is_ours((int)fd) && ((one && FD_ISSET(fd, one)) || (other && FD_ISSET(fd, other)))))
        fd++;
    return fd < end;
}

/* Whether a message hands over a descriptor of fdref. */
static int is_sent(const struct msghdr *message)
{
    const struct cmsghdr *part = CMSG_FIRSTHDR(message);
    for (; part; part = CMSG_NXTHDR((struct msghdr *)(uintptr_t)message, (struct cmsghdr *)(uintptr_t)part)) {
        size_t count = part->cmsg_len > CMSG_LEN(0) ? (part->cmsg_len - CMSG_LEN(0)) / sizeof(int) : 0;
        for (size_t at = 0; part->cmsg_level == SOL_SOCKET && part->cmsg_type == SCM_RIGHTS && at < count; at++) {
            int fd;
            memcpy(&fd, CMSG_DATA(part) + at * sizeof fd, sizeof fd);
            if (is_ours(fd))
                return 1;
        }
    }
    return 0;
}

/* Notes a call by which the superuser may lose rights. */
static void changes_rights(const char *name)
{
    prepare();
    goes_past('-', "rights", name, NULL);
}

/* Notes a call with a path that is none of fdref's. */
static void passes(const char *kind, const char *what, const char *path)
{
    if (path)
        goes_past('-', kind, what, path);
}

/* Tells a call with a name, and whether it fails because fdref has a file of that name. */
static int fails_with(const char *kind, const char *what, const char *path, int holds)
{
    if (!holds) {
        passes(kind, what, path);
        return 0;
    }
    leave_out(kind, what, path);
    return is_file(path);
}

/* What is left out by the system's function of a name, or fails with ENOSYS and this value. */
#define PASSES_OR_FAILS(type, name, parameters, words, fails, value) \
    type name parameters \
    { \
        static __typeof__(&name) next; \
        prepare(); \
        if (fails) { \
            errno = ENOSYS; \
            return value; \
        } \
        find(&next, #name); \
        return next words; \
    }

/* A call that is told where this holds, and is the system's. */
#define TELLS(type, name, parameters, words, kind, path, holds) \
    type name parameters \
    { \
        static __typeof__(&name) next; \
        prepare(); \
        if (holds) \
            leave_out(kind, #name, path); \
        else \
            passes(kind, #name, path); \
        find(&next, #name); \
        return next words; \
    }

/* The same of what makes a name of a pattern: the name is told that was made. */
#define MAKES_NAME(type, name, parameters, words, path) \
    type name parameters \
    { \
        NEXT_OF(name); \
        type made; \
        int error; \
        prepare(); \
        made = next words; \
        error = errno; \
        if (is_plain(path)) \
            leave_out("path", #name, path); \
        else \
            passes("path", #name, path); \
        errno = error; \
        return made; \
    }

/* A call with a plain name that is told. It is the system's, but fails where fdref has a file of that name. */
#define NAMES(type, name, parameters, words, kind, path, value) \
    PASSES_OR_FAILS(type, name, parameters, words, fails_with(kind, #name, path, is_plain(path)), value)

/* The same of what lists a folder, also that of fdref: the system's has other names. */
#define LOOKS_INTO(type, name, parameters, words, path, value) \
    PASSES_OR_FAILS(type, name, parameters, words, fails_with("path", #name, path, is_here(path)), value)

/* The same of a name in a folder, or of the file of a descriptor itself. */
#define NAMES_IN(type, name, parameters, words, folder, path) \
    PASSES_OR_FAILS(type, name, parameters, words, \
                    is_itself(folder, path) ? leave_out_ours(#name) \
                                            : fails_with("path", #name, path, is_plain_in(folder, path)), -1)

/* A call that is told, and fails with this value, where this holds. */
#define FAILS(type, name, parameters, words, holds, value) \
    PASSES_OR_FAILS(type, name, parameters, words, (ours = -1, (holds)) ? leave_out_ours(#name) : 0, value)

/* What makes a descriptor of the system is told: it is from 32 on here, and natively the lowest that is free. */
static int made_past(const char *what, int made)
{
    if (made >= NUMBERS)
        goes_past('-', "makes", what, NULL);
    return made;
}

#define MAKES(name, parameters, words) \
    int name parameters \
    { \
        static int(*next) parameters; \
        prepare(); \
        find(&next, #name); \
        return made_past(#name, next words); \
    }

/* The same of one that fails with ENOSYS where this holds. */
#define FAILS_OR_MAKES(name, parameters, words, holds) \
    int name parameters \
    { \
        static int(*next) parameters; \
        prepare(); \
        ours = -1; \
        if ((holds) && leave_out_ours(#name)) \
            return (int)fails(ENOSYS); \
        find(&next, #name); \
        return made_past(#name, next words); \
    }

/* ---- with names */

NAMES(FILE *, fopen, (const char *path, const char *mode), (path, mode), "stream", path, NULL)
NAMES(FILE *, freopen, (const char *path, const char *mode, FILE *file), (path, mode, file), "stream", path, NULL)
NAMES(int, symlink, (const char *text, const char *path), (text, path), "path", path, -1)
NAMES_IN(int, symlinkat, (const char *text, int to, const char *path), (text, to, path), to, path)
NAMES(ssize_t, readlink, (const char *path, char *text, size_t size), (path, text, size), "path", path, -1)
NAMES_IN(ssize_t, readlinkat, (int in, const char *path, char *text, size_t size), (in, path, text, size), in, path)
NAMES(int, mkdir, (const char *path, mode_t mode), (path, mode), "path", path, -1)
NAMES_IN(int, mkdirat, (int in, const char *path, mode_t mode), (in, path, mode), in, path)
NAMES(int, rmdir, (const char *path), (path), "path", path, -1)
NAMES(int, mknod, (const char *path, mode_t mode, dev_t device), (path, mode, device), "path", path, -1)
NAMES_IN(int, mknodat, (int in, const char *path, mode_t mode, dev_t device), (in, path, mode, device), in, path)
NAMES(int, chmod, (const char *path, mode_t mode), (path, mode), "path", path, -1)
NAMES_IN(int, fchmodat, (int in, const char *path, mode_t mode, int flags), (in, path, mode, flags), in, path)
NAMES(int, chown, (const char *path, uid_t user, gid_t group), (path, user, group), "path", path, -1)
NAMES(int, lchown, (const char *path, uid_t user, gid_t group), (path, user, group), "path", path, -1)
NAMES_IN(int, fchownat, (int in, const char *path, uid_t user, gid_t group, int flags), (in, path, user, group, flags),
         in, path)
NAMES_IN(int, utimensat, (int in, const char *path, const struct timespec times[2], int flags),
         (in, path, times, flags), in, path)
NAMES(int, utimes, (const char *path, const struct timeval times[2]), (path, times), "path", path, -1)
NAMES(int, lutimes, (const char *path, const struct timeval times[2]), (path, times), "path", path, -1)
NAMES_IN(int, futimesat, (int in, const char *path, const struct timeval times[2]), (in, path, times), in, path)
NAMES(int, utime, (const char *path, const struct utimbuf *times), (path, times), "path", path, -1)
NAMES(int, eaccess, (const char *path, int mode), (path, mode), "path", path, -1)
NAMES(int, euidaccess, (const char *path, int mode), (path, mode), "path", path, -1)
NAMES(int, statfs, (const char *path, struct statfs *to), (path, to), "path", path, -1)
NAMES(int, statvfs, (const char *path, struct statvfs *to), (path, to), "path", path, -1)
NAMES(char *, realpath, (const char *path, char *to), (path, to), "path", path, NULL)
NAMES(key_t, ftok, (const char *path, int number), (path, number), "path", path, -1)
NAMES(int, acct, (const char *path), (path), "path", path, -1)
NAMES(int, chroot, (const char *path), (path), "path", path, -1)
NAMES(ssize_t, getxattr, (const char *path, const char *name, void *to, size_t size), (path, name, to, size),
      "path", path, -1)
NAMES(ssize_t, lgetxattr, (const char *path, const char *name, void *to, size_t size), (path, name, to, size),
      "path", path, -1)
NAMES(int, setxattr, (const char *path, const char *name, const void *from, size_t size, int flags),
      (path, name, from, size, flags), "path", path, -1)
NAMES(int, lsetxattr, (const char *path, const char *name, const void *from, size_t size, int flags),
      (path, name, from, size, flags), "path", path, -1)
NAMES(ssize_t, listxattr, (const char *path, char *to, size_t size), (path, to, size), "path", path, -1)
NAMES(ssize_t, llistxattr, (const char *path, char *to, size_t size), (path, to, size), "path", path, -1)
NAMES(int, removexattr, (const char *path, const char *name), (path, name), "path", path, -1)
NAMES(int, lremovexattr, (const char *path, const char *name), (path, name), "path", path, -1)
PASSES_OR_FAILS(int, inotify_add_watch, (int fd, const char *path, uint32_t mask), (fd, path, mask),
                is_ours(fd) ? leave_out_ours("inotify_add_watch")
                            : fails_with("path", "inotify_add_watch", path, is_plain(path)), -1)

/* What makes a file by a pattern of names has the system's folder alone. */
MAKES_NAME(int, mkstemp, (char *path), (path), path)
MAKES_NAME(int, mkostemp, (char *path, int flags), (path, flags), path)
MAKES_NAME(int, mkstemps, (char *path, int end), (path, end), path)
MAKES_NAME(int, mkostemps, (char *path, int end, int flags), (path, end, flags), path)
MAKES_NAME(char *, mkdtemp, (char *path), (path), path)
MAKES_NAME(char *, mktemp, (char *path), (path), path)
TELLS(char *, tempnam, (const char *path, const char *start), (path, start), "path", path, is_here(path))

LOOKS_INTO(DIR *, opendir, (const char *path), (path), path, NULL)
LOOKS_INTO(int, scandir, (const char *path, struct dirent ***to, int (*chosen)(const struct dirent *),
                          int (*compared)(const struct dirent **, const struct dirent **)),
           (path, to, chosen, compared), path, -1)
LOOKS_INTO(int, glob, (const char *path, int flags, int (*error)(const char *, int), glob_t *to),
           (path, flags, error, to), path, GLOB_ABORTED)
LOOKS_INTO(int, nftw, (const char *path, int (*each)(const char *, const struct stat *, int, struct FTW *), int most,
                       int flags),
           (path, each, most, flags), path, -1)
LOOKS_INTO(int, ftw, (const char *path, int (*each)(const char *, const struct stat *, int), int most),
           (path, each, most), path, -1)

/* Names of fdref lead to the same files in every folder. */
PASSES_OR_FAILS(int, chdir, (const char *path), (path),
                fails_with("path", "chdir", path, how == ASKED && !is_dot(path)), -1)
PASSES_OR_FAILS(int, fchdir, (int fd), (fd),
                how == ASKED ? (leave_out("call", "fchdir", NULL), is_ours(fd)) : 0, -1)

/* ---- with descriptors */

FAILS(int, poll, (struct pollfd *parts, nfds_t count, int ms), (parts, count, ms), is_polled(parts, count), -1)
FAILS(int, ppoll, (struct pollfd *parts, nfds_t count, const struct timespec *most, const sigset_t *mask),
      (parts, count, most, mask), is_polled(parts, count), -1)
FAILS(int, select, (int count, fd_set *in, fd_set *out, fd_set *other, struct timeval *most),
      (count, in, out, other, most), is_selected(count, in, out), -1)
FAILS(int, pselect, (int count, fd_set *in, fd_set *out, fd_set *other, const struct timespec *most,
                     const sigset_t *mask),
      (count, in, out, other, most, mask), is_selected(count, in, out), -1)
FAILS(int, epoll_ctl, (int poller, int command, int fd, struct epoll_event *event), (poller, command, fd, event),
      is_ours(fd) || is_ours(poller), -1)
FAILS(int, epoll_wait, (int poller, struct epoll_event *to, int most, int ms), (poller, to, most, ms),
      is_ours(poller), -1)
FAILS(int, epoll_pwait, (int poller, struct epoll_event *to, int most, int ms, const sigset_t *mask),
      (poller, to, most, ms, mask), is_ours(poller), -1)
FAILS(FILE *, fdopen, (int fd, const char *mode), (fd, mode), is_ours(fd), NULL)
FAILS(DIR *, fdopendir, (int fd), (fd), is_ours(fd), NULL)
FAILS(void *, mmap, (void *at, size_t size, int access, int flags, int fd, off_t offset),
      (at, size, access, flags, fd, offset), is_ours(fd) && !(flags & MAP_ANONYMOUS), MAP_FAILED)
FAILS(int, flock, (int fd, int command), (fd, command), is_ours(fd), -1)
FAILS(int, lockf, (int fd, int command, off_t size), (fd, command, size), is_ours(fd), -1)
FAILS(ssize_t, sendfile, (int to, int from, off_t *offset, size_t count), (to, from, offset, count),
      is_ours(to) || is_ours(from), -1)
FAILS(ssize_t, preadv, (int fd, const struct iovec *parts, int count, off_t offset), (fd, parts, count, offset),
      is_ours(fd), -1)
FAILS(ssize_t, pwritev, (int fd, const struct iovec *parts, int count, off_t offset), (fd, parts, count, offset),
      is_ours(fd), -1)
FAILS(int, fallocate, (int fd, int mode, off_t offset, off_t size), (fd, mode, offset, size), is_ours(fd), -1)
FAILS(int, posix_fallocate, (int fd, off_t offset, off_t size), (fd, offset, size), is_ours(fd), ENOSYS)
FAILS(int, posix_fadvise, (int fd, off_t offset, off_t size, int advice), (fd, offset, size, advice),
      is_ours(fd), ENOSYS)
FAILS(ssize_t, readahead, (int fd, off64_t offset, size_t count), (fd, offset, count), is_ours(fd), -1)
FAILS(int, sync_file_range, (int fd, off64_t offset, off64_t size, unsigned flags), (fd, offset, size, flags),
      is_ours(fd), -1)
FAILS(int, syncfs, (int fd), (fd), is_ours(fd), -1)
FAILS(int, fchmod, (int fd, mode_t mode), (fd, mode), is_ours(fd), -1)
FAILS(int, fchown, (int fd, uid_t user, gid_t group), (fd, user, group), is_ours(fd), -1)
FAILS(int, futimens, (int fd, const struct timespec times[2]), (fd, times), is_ours(fd), -1)
FAILS(int, futimes, (int fd, const struct timeval times[2]), (fd, times), is_ours(fd), -1)
FAILS(int, fstatfs, (int fd, struct statfs *to), (fd, to), is_ours(fd), -1)
FAILS(int, fstatvfs, (int fd, struct statvfs *to), (fd, to), is_ours(fd), -1)
FAILS(ssize_t, fgetxattr, (int fd, const char *name, void *to, size_t size), (fd, name, to, size), is_ours(fd), -1)
FAILS(int, fsetxattr, (int fd, const char *name, const void *from, size_t size, int flags),
      (fd, name, from, size, flags), is_ours(fd), -1)
FAILS(ssize_t, flistxattr, (int fd, char *to, size_t size), (fd, to, size), is_ours(fd), -1)
FAILS(int, fremovexattr, (int fd, const char *name), (fd, name), is_ours(fd), -1)
FAILS(int, inotify_rm_watch, (int fd, int watch), (fd, watch), is_ours(fd), -1)
FAILS(ssize_t, splice, (int from, off64_t *start, int to, off64_t *place, size_t count, unsigned flags),
      (from, start, to, place, count, flags), is_ours(from) || is_ours(to), -1)
FAILS(ssize_t, tee, (int from, int to, size_t count, unsigned flags), (from, to, count, flags),
      is_ours(from) || is_ours(to), -1)
FAILS(ssize_t, vmsplice, (int fd, const struct iovec *parts, size_t count, unsigned flags), (fd, parts, count, flags),
      is_ours(fd), -1)
FAILS(int, eventfd_read, (int fd, eventfd_t *to), (fd, to), is_ours(fd), -1)
FAILS(int, eventfd_write, (int fd, eventfd_t value), (fd, value), is_ours(fd), -1)
FAILS(int, timerfd_settime, (int fd, int flags, const struct itimerspec *time, struct itimerspec *was),
      (fd, flags, time, was), is_ours(fd), -1)
FAILS(int, timerfd_gettime, (int fd, struct itimerspec *to), (fd, to), is_ours(fd), -1)
FAILS(int, setns, (int fd, int kind), (fd, kind), (changes_rights("setns"), is_ours(fd)), -1)

/* What makes descriptors. */
FAILS_OR_MAKES(signalfd, (int fd, const sigset_t *mask, int flags), (fd, mask, flags), is_ours(fd))
MAKES(socket, (int family, int type, int protocol), (family, type, protocol))
MAKES(eventfd, (unsigned first, int flags), (first, flags))
MAKES(epoll_create, (int size), (size))
MAKES(epoll_create1, (int flags), (flags))
MAKES(timerfd_create, (clockid_t clock, int flags), (clock, flags))
MAKES(inotify_init, (void), ())
MAKES(inotify_init1, (int flags), (flags))
MAKES(memfd_create, (const char *name, unsigned flags), (name, flags))
MAKES(shm_open, (const char *name, int flags, mode_t mode), (name, flags, mode))
MAKES(posix_openpt, (int flags), (flags))

int socketpair(int family, int type, int protocol, int both[2])
{
    NEXT_OF(socketpair);
    int done;
    prepare();
    done = next(family, type, protocol, both);
    if (done == 0 && made_past("socketpair", both[0]) >= 0)
        made_past("socketpair", both[1]);
    return done;
}

/* Of terminals. */
FAILS(int, tcgetattr, (int fd, struct termios *to), (fd, to), is_ours(fd), -1)
FAILS(int, tcsetattr, (int fd, int when, const struct termios *to), (fd, when, to), is_ours(fd), -1)
FAILS(int, tcdrain, (int fd), (fd), is_ours(fd), -1)
FAILS(int, tcflow, (int fd, int action), (fd, action), is_ours(fd), -1)
FAILS(int, tcflush, (int fd, int queue), (fd, queue), is_ours(fd), -1)
FAILS(int, tcsendbreak, (int fd, int duration), (fd, duration), is_ours(fd), -1)
FAILS(pid_t, tcgetsid, (int fd), (fd), is_ours(fd), -1)
FAILS(pid_t, tcgetpgrp, (int fd), (fd), is_ours(fd), -1)
FAILS(int, tcsetpgrp, (int fd, pid_t group), (fd, group), is_ours(fd), -1)
FAILS(char *, ttyname, (int fd), (fd), is_ours(fd), NULL)
FAILS(int, ttyname_r, (int fd, char *to, size_t size), (fd, to, size), is_ours(fd), ENOSYS)
FAILS(int, grantpt, (int fd), (fd), is_ours(fd), -1)
FAILS(int, unlockpt, (int fd), (fd), is_ours(fd), -1)
FAILS(char *, ptsname, (int fd), (fd), is_ours(fd), NULL)
FAILS(int, ptsname_r, (int fd, char *to, size_t size), (fd, to, size), is_ours(fd), ENOSYS)
FAILS(int, login_tty, (int fd), (fd), is_ours(fd), -1)

/* Of sockets. */
FAILS(int, listen, (int fd, int count), (fd, count), is_ours(fd), -1)
FAILS(int, shutdown, (int fd, int how_to), (fd, how_to), is_ours(fd), -1)
FAILS(int, sockatmark, (int fd), (fd), is_ours(fd), -1)
FAILS(ssize_t, send, (int fd, const void *data, size_t count, int flags), (fd, data, count, flags), is_ours(fd), -1)
FAILS(ssize_t, recv, (int fd, void *to, size_t count, int flags), (fd, to, count, flags), is_ours(fd), -1)
FAILS(ssize_t, sendmsg, (int fd, const struct msghdr *message, int flags), (fd, message, flags),
      is_ours(fd) || is_sent(message), -1)
FAILS(ssize_t, recvmsg, (int fd, struct msghdr *message, int flags), (fd, message, flags), is_ours(fd), -1)
FAILS(int, getsockopt, (int fd, int level, int name, void *to, socklen_t *size), (fd, level, name, to, size),
      is_ours(fd), -1)
FAILS(int, setsockopt, (int fd, int level, int name, const void *value, socklen_t size),
      (fd, level, name, value, size), is_ours(fd), -1)

/* Of requests that the C library makes meanwhile, in a thread of its own. In musl those of a list are restricted. */
#ifdef __GLIBC__
typedef struct aiocb *const *requests;
#else
typedef struct aiocb *restrict const *restrict requests;
#endif

static int is_listed(requests list, int count)
{
    int at = 0;
    while (at < count && !(list[at] && is_ours(list[at]->aio_fildes)))
        at++;
    return at < count;
}

FAILS(int, aio_read, (struct aiocb *request), (request), is_ours(request->aio_fildes), -1)
FAILS(int, aio_write, (struct aiocb *request), (request), is_ours(request->aio_fildes), -1)
FAILS(int, aio_fsync, (int kind, struct aiocb *request), (kind, request), is_ours(request->aio_fildes), -1)
FAILS(int, aio_cancel, (int fd, struct aiocb *request), (fd, request), is_ours(fd), -1)
FAILS(int, lio_listio, (int mode, requests list, int count, struct sigevent *event),
      (mode, list, count, event), is_listed(list, count), -1)

/* ---- timers */

/* The signal of a timer comes by the time that calls take, which is another one with fdref. */
static void starts_timer(const char *name, int is_on)
{
    prepare();
    if (is_on)
        goes_past('-', "timer", name, NULL);
}

unsigned alarm(unsigned seconds)
{
    NEXT_OF(alarm);
    starts_timer("alarm", seconds > 0);
    return next(seconds);
}

useconds_t ualarm(useconds_t first, useconds_t then)
{
    NEXT_OF(ualarm);
    starts_timer("ualarm", first > 0);
    return next(first, then);
}

#ifdef __GLIBC__
typedef __itimer_which_t timer_kind;
#else
typedef int timer_kind;
#endif

int setitimer(timer_kind kind, const struct itimerval *time, struct itimerval *was)
{
    NEXT_OF(setitimer);
    starts_timer("setitimer", time && (time->it_value.tv_sec != 0 || time->it_value.tv_usec != 0));
    return next(kind, time, was);
}

int timer_settime(timer_t timer, int flags, const struct itimerspec *time, struct itimerspec *was)
{
    NEXT_OF(timer_settime);
    starts_timer("timer_settime", time && (time->it_value.tv_sec != 0 || time->it_value.tv_nsec != 0));
    return next(timer, flags, time, was);
}

/* ---- rights */

#define CHANGES_RIGHTS(name, parameters, words) \
    int name parameters \
    { \
        static int(*next) parameters; \
        changes_rights(#name); \
        find(&next, #name); \
        return next words; \
    }
CHANGES_RIGHTS(setuid, (uid_t user), (user))
CHANGES_RIGHTS(seteuid, (uid_t user), (user))
CHANGES_RIGHTS(setreuid, (uid_t real, uid_t user), (real, user))
CHANGES_RIGHTS(setresuid, (uid_t real, uid_t user, uid_t saved), (real, user, saved))
CHANGES_RIGHTS(setfsuid, (uid_t user), (user))
CHANGES_RIGHTS(unshare, (int flags), (flags))
CHANGES_RIGHTS(capset, (void *header, const void *data), (header, data))

int prctl(int option, ...)
{
    NEXT_OF(prctl);
    unsigned long given[4];
    va_list values;
    va_start(values, option);
    for (int at = 0; at < 4; at++)
        given[at] = va_arg(values, unsigned long);
    va_end(values);
    if (option == PR_SET_SECCOMP || option == PR_SET_SECUREBITS)
        changes_rights("prctl");
    return next(option, given[0], given[1], given[2], given[3]);
}

/* The mask of the modes of new files is noted where it takes rights of their owner. */
mode_t umask(mode_t mask)
{
    NEXT_OF(umask);
    prepare();
    if (mask & 0600)
        goes_past('-', "rights", "umask", NULL);
    return next(mask);
}

/* ---- handlers of signals */

/* A handler that the program has set runs, and it is noted before. */
static void hear_so(int number, siginfo_t *info, void *context, int is_plain)
{
    struct keeping *kept = pause_keeping();
    struct inside was = leave();
    struct ending *within_it = ending;
    const void *before = within;
    int error = pause_erring(), there = errno_there;
    ending = NULL;
    within = NULL;
    note_run(number);
    runs++;
    if (is_plain && passed_on[number].plain)
        passed_on[number].plain(number);
    else if (!is_plain && passed_on[number].more)
        passed_on[number].more(number, info, context);
    ending = within_it;
    within = before;
    errno_there = there;
    go_on_erring(error);
    come_back(was);
    go_on_keeping(kept);
}

static void hear_more(int number, siginfo_t *info, void *context)
{
    meet_handler(number, context, (const char *)__builtin_frame_address(0));
    hear_so(number, info, context, 0);
}

/* The kernel of x86-64 gives the same to a handler that has the number alone. */
static void hear_plain(int number, siginfo_t *info, void *context)
{
    meet_handler(number, context, (const char *)__builtin_frame_address(0));
    hear_so(number, info, context, 1);
}

#define HEAR ((handler)(uintptr_t)hear_plain)

/* Whether natively this library is to call a handler of a signal. */
static int hears(int number)
{
    return how == NATIVE && past_file >= 0 && number > 0 && number < NSIG && !is_setting;
}

/* SIG_DFL, SIG_IGN, SIG_HOLD and SIG_ERR are none. */
static int is_function(handler to) { return (uintptr_t)to > 2 && to != SIG_ERR && to != HEAR; }

typedef int acts_next(int, const struct sigaction *, struct sigaction *);

/* The flags of a signal's handler: those of the kernel where it is known how it tells them, else of the C library. */
static int flags_of_handler(acts_next *next, int number, int *flags)
{
    struct sigaction now;
#if defined __x86_64__ || defined __aarch64__
    unsigned long told[8] = {0};
    if (system_syscall(SYS_rt_sigaction, (long)number, NULL, told, 8L) == 0) {
        memcpy(flags, &told[1], sizeof *flags);
        return 1;
    }
#endif
    if (next(number, NULL, &now) != 0)
        return 0;
    *flags = now.sa_flags;
    return 1;
}

/* Notes that a handler was set without SA_RESTART or with it, otherwise than it was asked for. */
static void check_restarts(acts_next *next, int number, const struct sigaction *to)
{
    int flags, error = errno;
    if (is_alone() && flags_of_handler(next, number, &flags) && ((flags ^ to->sa_flags) & SA_RESTART) != 0)
        note_wrong("sigaction", "has set SA_RESTART otherwise than it was asked for");
    errno = error;
}

/* Sets a handler, which this library calls from now on, and tells the one before. */
static int set_heard(acts_next *next, int number, const struct sigaction *to, struct sigaction *was)
{
    struct quiet before = be_quiet();
    struct sigaction own, past;
    struct passed_on last = passed_on[number];
    int given, error;
    if (to)
        own = *to;
    if (to && (to->sa_flags & SA_SIGINFO) != 0 && is_function(to->sa_handler) && to->sa_sigaction != hear_more) {
        passed_on[number].more = to->sa_sigaction;
        passed_on[number].plain = NULL;
        own.sa_sigaction = hear_more;
    } else if (to && (to->sa_flags & SA_SIGINFO) == 0 && is_function(to->sa_handler)) {
        passed_on[number].plain = to->sa_handler;
        passed_on[number].more = NULL;
        own.sa_handler = HEAR;
    } else if (to) {
        passed_on[number].plain = NULL;
        passed_on[number].more = NULL;
    }
    is_setting = 1;
    given = next(number, to ? &own : NULL, &past);
    error = errno;
    if (given == 0 && to)
        check_restarts(next, number, to);
    is_setting = 0;
    if (given != 0)
        passed_on[number] = last;
    if (given == 0 && past.sa_handler == HEAR)
        past.sa_handler = last.plain;
    else if (given == 0 && past.sa_sigaction == hear_more)
        past.sa_sigaction = last.more;
    if (given == 0 && was)
        *was = past;
    end_quiet(before);
    errno = error;
    return given;
}

/* The same by the functions that have no more than a handler. */
static handler set_plain(handler (*next)(int, handler), int number, handler to)
{
    struct quiet before = be_quiet();
    struct passed_on last = passed_on[number];
    handler given;
    int error;
    passed_on[number].plain = is_function(to) ? to : NULL;
    passed_on[number].more = NULL;
    is_setting = 1;
    given = next(number, is_function(to) ? HEAR : to);
    is_setting = 0;
    error = errno;
    if (given == SIG_ERR)
        passed_on[number] = last;
    if (given == HEAR)
        given = last.plain;
    else if ((uintptr_t)given == (uintptr_t)hear_more)
        given = (handler)(uintptr_t)last.more;
    end_quiet(before);
    errno = error;
    return given;
}

/* What changes how a signal is handled: that is noted as it is then. */
#define HANDLES(type, name, parameters, words, number, is_changed) \
    type name parameters \
    { \
        static type(*next) parameters; \
        type given; \
        prepare(); \
        find(&next, #name); \
        given = next words; \
        if (is_changed) \
            note_handler(number); \
        return given; \
    }
#define ACTS(name) \
    int name(int number, const struct sigaction *to, struct sigaction *was) \
    { \
        static acts_next *next; \
        int given; \
        prepare(); \
        find(&next, #name); \
        given = hears(number) ? set_heard(next, number, to, was) : next(number, to, was); \
        if (to && !is_setting) \
            note_handler(number); \
        return given; \
    }
#define ACTS_PLAINLY(name) \
    handler name(int number, handler to) \
    { \
        static handler (*next)(int, handler); \
        handler given; \
        prepare(); \
        find(&next, #name); \
        given = hears(number) ? set_plain(next, number, to) : next(number, to); \
        note_handler(number); \
        return given; \
    }
ACTS(sigaction)
ACTS_PLAINLY(signal)
ACTS_PLAINLY(bsd_signal)
ACTS_PLAINLY(__sysv_signal)
ACTS_PLAINLY(sigset)
HANDLES(int, sigignore, (int number), (number), number, 1)
HANDLES(int, siginterrupt, (int number, int ends), (number, ends), number, 1)

/* ---- threads */

/* A thread that waits in a call of fdref is not cancelled before the call has come to an end. */
int pthread_cancel(pthread_t thread)
{
    NEXT_OF(pthread_cancel);
    prepare();
    if (how == ASKED && is_held && pthread_equal(owner, thread) && process && process->is_parked)
        tell_waiting(process->act);
    return next(thread);
}

/* ---- programs

   exec hands the process on, where the new program loads this library too, as far as its environment shows. Else it is
   told, and the process ends in fdref. */

/* Where a program is. */
struct program {
    const char *what, *path;
    int is_sought, fd, flags;
};

/* The value of a variable in an environment, or NULL. */
static const char *value_in(char *const env[], const char *name)
{
    size_t size = strlen(name);
    for (; env && *env; env++)
        if (strncmp(*env, name, size) == 0 && (*env)[size] == '=')
            return *env + size + 1;
    return NULL;
}

static int is_same(char *const env[], const char *name)
{
    const char *here = getenv(name), *there = value_in(env, name);
    return here && there && strcmp(here, there) == 0;
}

/* Notes natively which descriptors a new program has or has not otherwise than by FD_CLOEXEC as it was set, each once. */
static void check_cloexec(const char *what)
{
    int error = errno;
    for (int fd = 0; is_watching() && is_alone() && !is_doubtful && fd < NUMBERS; fd++) {
        int flags = slots[fd].held == OURS ? system_fcntl(fd, F_GETFD, 0) : -1;
        if (flags >= 0 && !are_flags_told[fd] && ((flags & FD_CLOEXEC) != 0) != (slots[fd].is_cloexec != 0))
            note_cloexec(what, fd, slots[fd].is_cloexec);
    }
    errno = error;
}

/* The environment with what is handed on to a program with these words, or NULL where that cannot be. There is room for
   one more. */
static char **handing(const char *what, char *const list[], char *const env[], char *handed, size_t size)
{
    size_t count = 0;
    char **with;
    if (is_off() || how == ENDED || own_pid != system_getpid() || !is_same(env, "LD_PRELOAD")
        || !is_same(env, how == ASKED ? "FDREF_SOCKET" : "FDREF_LOG") || (process && process->is_parked))
        return NULL;
    while (env[count])
        count++;
    with = (char **)calloc(count + 3, sizeof *with);
    if (!with)
        return NULL;
    put_table(handed, size, what, list);
    memcpy(with, env, count * sizeof *with);
    with[count] = handed;
    return with;
}

/* Whether natively the function of this name is called itself, and not the one that is told the environment. */
static int is_called(const struct program *program, const char *name)
{
    return how == NATIVE && strcmp(program->what, name) == 0;
}

typedef int runs_listed(const char *, const char *, ...);
enum { LISTED_MOST = 32 };

/* Calls a function that lists the words, after which the environment may stand. What follows is not looked at. */
static int run_listed(runs_listed *next, const char *path, char *const list[], char *const env[])
{
    const char *it[LISTED_MOST + 2] = {NULL};
    int count = 0;
    for (; list[count]; count++)
        it[count] = list[count];
    if (env)
        memcpy(&it[count + 1], &env, sizeof(void *));
#define EIGHT(at) it[at], it[at + 1], it[at + 2], it[at + 3], it[at + 4], it[at + 5], it[at + 6], it[at + 7]
    return next(path, EIGHT(0), EIGHT(8), EIGHT(16), EIGHT(24), it[LISTED_MOST], it[LISTED_MOST + 1]);
#undef EIGHT
}

/* Whether a list is short enough for that. */
static int is_short(char *const list[])
{
    int count = 0;
    while (count < LISTED_MOST && list[count])
        count++;
    return count < LISTED_MOST;
}

/* What a function that runs programs calls before is its own, as a close by FD_CLOEXEC. */
#define RUN_WITHIN(function, call) \
    do { \
        const void *outer = go_in(&function); \
        done = call; \
        within = outer; \
    } while (0)

/* Runs a program by a function that takes the environment of this process, which is another one meanwhile. */
static int run_here(const char *name, const char *path, char *const list[], char *const env[])
{
    runs_listed *listed = NULL;
    int (*by_list)(const char *, char *const[]) = NULL;
    char **was = environ;
    int done;
    memcpy(&environ, &env, sizeof(void *));
    if (name[4] == 'l') {
        find(&listed, name);
        RUN_WITHIN(listed, run_listed(listed, path, list, strcmp(name, "execle") == 0 ? env : NULL));
    } else {
        find(&by_list, name);
        RUN_WITHIN(by_list, by_list(path, list));
    }
    environ = was;
    return done;
}

static int run_in(const struct program *program, char *const list[], char *const env[])
{
    static int (*by_path)(const char *, char *const[], char *const[]);
    static int (*sought)(const char *, char *const[], char *const[]);
    static int (*by_fd)(int, char *const[], char *const[]);
    static int (*in)(int, const char *, char *const[], char *const[], int);
    int is_listed = is_called(program, "execl") || is_called(program, "execlp") || is_called(program, "execle"), done;
    if (is_called(program, "execv") || is_called(program, "execvp") || (is_listed && is_short(list)))
        return run_here(program->what, program->path, list, env);
    if (program->is_sought) {
        find(&sought, "execvpe");
        RUN_WITHIN(sought, sought(program->path, list, env));
    } else if (!program->path) {
        find(&by_fd, "fexecve");
        RUN_WITHIN(by_fd, by_fd(program->fd, list, env));
    } else if (program->fd != AT_FDCWD || program->flags != 0) {
        find(&in, "execveat");
        RUN_WITHIN(in, in(program->fd, program->path, list, env, program->flags));
    } else {
        find(&by_path, "execve");
        RUN_WITHIN(by_path, by_path(program->path, list, env));
    }
    return done;
}

/* Notes natively that an exec which has come back, and so has failed, gives something else than -1. */
static void check_failed_exec(const char *name, int given)
{
    char text[60];
    snprintf(text, sizeof text, "has failed, and has given %d, where -1 is due", given);
    if (given != -1)
        note_wrong(name, text);
}

/* The error of a path that leads to nothing, or 0. */
static int missing(const char *path)
{
    int error = errno, is_there = system_syscall(SYS_faccessat, (long)AT_FDCWD, path, (long)F_OK) == 0, found = errno;
    errno = error;
    return !is_there && (found == ENOENT || found == ENOTDIR) ? found : 0;
}

/* The same of a name that is sought in each folder of PATH. */
static int missing_in(const char *folders, const char *name)
{
    char path[PATH_MAX];
    for (const char *end; *name; folders = end + 1) {
        int size = (int)strcspn(folders, ":");
        end = folders + size;
        if (size == 0 || snprintf(path, sizeof path, "%.*s/%s", size, folders, name) >= (int)sizeof path
            || missing(path) != ENOENT)
            return 0;
        if (*end == 0)
            break;
    }
    return ENOENT;
}

static int missing_program(const struct program *program)
{
    if (!program->path || program->fd != AT_FDCWD || program->flags != 0)
        return 0;
    if (!program->is_sought || strchr(program->path, '/'))
        return missing(program->path);
    return getenv("PATH") ? missing_in(getenv("PATH"), program->path) : 0;
}

/* Notes natively that an exec has failed otherwise than by the error of a path which leads to nothing before it and
   after it. Of another one the error is not compared, where the kernel gives another one, or was not asked: -1. */
static void check_exec_error(const struct program *program, int before, int error, int in_kernel)
{
    static const int others[] = {E2BIG, ENOMEM, EAGAIN, ENAMETOOLONG, ELOOP};
    char text[80];
    size_t at = 0, count = sizeof others / sizeof *others;
    int is_missing = before != 0 && missing_program(program) == before;
    while (at < count && others[at] != error)
        at++;
    if (is_missing && error != before && at == count) {
        snprintf(text, sizeof text, "has failed with error %d, and %s is due", error,
                 before == ENOENT ? "ENOENT" : "ENOTDIR");
        note_wrong(program->what, text);
    } else if (error != (is_missing ? before : in_kernel)) {
        note_given(program->what, -1, error);
    }
}

/* A native exec has failed. Where the kernel goes on with the program that is noted by it, and else its error is given,
   or -1. */
static int run_otherwise(const struct program *program, char *const list[], char **with)
{
    char failed[60];
    size_t count = 0;
    if (!program->path || program->fd != AT_FDCWD || (program->is_sought && !strchr(program->path, '/')))
        return -1;
    snprintf(failed, sizeof failed, "%s%s", failed_name, program->what);
    while (with[count])
        count++;
    with[count] = failed;
    system_syscall(SYS_execve, program->path, list, with);
    with[count] = NULL;
    return errno;
}

/* Tells a program that is no process of fdref, perhaps since its environment does not load this library. */
static void leave_program(const char *what, const char *path, int is_of_environment)
{
    char text[60];
    snprintf(text, sizeof text, "%s%s", what, is_of_environment ? " in another environment" : "");
    goes_past('!', "program", text, path);
    end_strictly(what);
}

static int run(struct program program, char *const list[], char *const env[], int is_own)
{
    char handed[HANDED_MOST], **with;
    int error, given, before;
    prepare();
    if (is_own)
        return run_in(&program, list, env);
    if (!program.is_sought && is_file(program.path)) {
        leave_out("program", program.what, program.path);
        return (int)fails(ENOSYS);
    }
    check_cloexec(program.what);
    with = handing(program.what, list, env, handed, sizeof handed);
    if (with)
        hand_files(0);
    else if (how == ASKED)
        leave_program(program.what, program.path, !is_same(env, "LD_PRELOAD") || !is_same(env, "FDREF_SOCKET"));
    before = is_watching() ? missing_program(&program) : 0;
    given = run_in(&program, list, with ? with : env);
    error = errno;
    check_failed_exec(program.what, given);
    if (is_watching() && given == -1)
        check_exec_error(&program, before, error, with ? run_otherwise(&program, list, with) : -1);
    if (with)
        hand_files(FD_CLOEXEC);
    free(with);
    return (int)fails(error);
}

static struct program by_path(const char *what, const char *path)
{
    struct program program = {what, path, 0, AT_FDCWD, 0};
    return program;
}

static struct program sought(const char *what, const char *path)
{
    struct program program = {what, path, 1, AT_FDCWD, 0};
    return program;
}

int execve(const char *path, char *const list[], char *const env[])
{
    return run(by_path("execve", path), list, env, IS_INNER);
}

int execv(const char *path, char *const list[]) { return run(by_path("execv", path), list, environ, IS_INNER); }
int execvp(const char *path, char *const list[]) { return run(sought("execvp", path), list, environ, IS_INNER); }

int fexecve(int fd, char *const list[], char *const env[])
{
    struct program program = {"fexecve", NULL, 0, fd, 0};
    return run(program, list, env, IS_INNER);
}

/* The functions that list the words are the same with an array of them. */
#define LISTS(name, how_found) \
    int name(const char *path, const char *word, ...) \
    { \
        static int is_noted; \
        char *list[LIST_MOST], *const *env = environ; \
        size_t count = 0; \
        int is_own = IS_INNER; \
        prepare(); \
        va_list values; \
        va_start(values, word); \
        for (list[0] = bytes_of(word); list[count] && count + 1 < LIST_MOST;) \
            list[++count] = va_arg(values, char *); \
        env = #name[4] && #name[5] == 'e' ? va_arg(values, char *const *) : env; \
        va_end(values); \
        if (count >= LISTED_MOST) \
            answers_itself("an execl of more than 31 words", &is_noted); \
        return list[count] ? (int)fails(E2BIG) : run(how_found(#name, path), list, env, is_own); \
    }
enum { LIST_MOST = 4096 };
LISTS(execl, by_path)
LISTS(execle, by_path)
LISTS(execlp, sought)

/* These fork in the C library, and their programs join as new processes. */
#define RUNS(type, name, parameters, words, path) \
    TELLS(type, name, parameters, words, "program", path, (check_cloexec(#name), how == ASKED))

RUNS(FILE *, popen, (const char *command, const char *mode), (command, mode), command)
TELLS(int, system, (const char *command), (command), "program", command,
      (check_cloexec("system"), how == ASKED && command))
RUNS(int, posix_spawn, (pid_t *pid, const char *path, const posix_spawn_file_actions_t *acts,
                        const posix_spawnattr_t *how_to, char *const list[], char *const env[]),
     (pid, path, acts, how_to, list, env), path)
RUNS(int, posix_spawnp, (pid_t *pid, const char *path, const posix_spawn_file_actions_t *acts,
                         const posix_spawnattr_t *how_to, char *const list[], char *const env[]),
     (pid, path, acts, how_to, list, env), path)

/* What the new program would do with descriptors of fdref. To close them is no change, since it has none. */
FAILS(int, posix_spawn_file_actions_adddup2, (posix_spawn_file_actions_t *acts, int fd, int to), (acts, fd, to),
      is_ours(fd), ENOSYS)
NAMES(int, posix_spawn_file_actions_addopen,
      (posix_spawn_file_actions_t *acts, int fd, const char *path, int flags, mode_t mode),
      (acts, fd, path, flags, mode), "path", path, ENOSYS)

/* The C library forks in it. */
FAILS(int, daemon, (int keeps_folder, int keeps_files), (keeps_folder, keeps_files), how == ASKED, -1)

/* ---- the names that only Linux and glibc have */

#ifdef __GLIBC__
ACTS(__sigaction)
ACTS_PLAINLY(sysv_signal)
ACTS_PLAINLY(ssignal)

int execvpe(const char *path, char *const list[], char *const env[])
{
    return run(sought("execvpe", path), list, env, IS_INNER);
}

int execveat(int in, const char *path, char *const list[], char *const env[], int flags)
{
    struct program program = {"execveat", path, 0, in, flags};
    return run(program, list, env, IS_INNER);
}

FAILS(int, forkpty, (int *terminal, char *name, const struct termios *as, const struct winsize *size),
      (terminal, name, as, size), how == ASKED, -1)

NAMES(FILE *, fopen64, (const char *path, const char *mode), (path, mode), "stream", path, NULL)
NAMES(FILE *, freopen64, (const char *path, const char *mode, FILE *file), (path, mode, file), "stream", path, NULL)
NAMES(FILE *, setmntent, (const char *path, const char *mode), (path, mode), "stream", path, NULL)
NAMES(FILE *, __setmntent, (const char *path, const char *mode), (path, mode), "stream", path, NULL)
NAMES(int, statfs64, (const char *path, struct statfs64 *to), (path, to), "path", path, -1)
NAMES(int, __statfs, (const char *path, struct statfs *to), (path, to), "path", path, -1)
NAMES(int, statvfs64, (const char *path, struct statvfs64 *to), (path, to), "path", path, -1)
NAMES(char *, canonicalize_file_name, (const char *path), (path), "path", path, NULL)
NAMES(int, utmpname, (const char *path), (path), "path", path, -1)
NAMES(int, utmpxname, (const char *path), (path), "path", path, -1)
NAMES(int, lchmod, (const char *path, mode_t mode), (path, mode), "path", path, -1)
NAMES(int, revoke, (const char *path), (path), "path", path, -1)
NAMES(int, mount, (const char *what, const char *path, const char *kind, unsigned long flags, const void *data),
      (what, path, kind, flags, data), "path", path, -1)
NAMES(int, umount, (const char *path), (path), "path", path, -1)
NAMES(int, umount2, (const char *path, int flags), (path, flags), "path", path, -1)
NAMES(int, swapon, (const char *path, int flags), (path, flags), "path", path, -1)
NAMES(int, swapoff, (const char *path), (path), "path", path, -1)
NAMES(int, quotactl, (int command, const char *path, int of, caddr_t to), (command, path, of, to), "path", path, -1)
NAMES_IN(int, name_to_handle_at, (int in, const char *path, struct file_handle *to, int *mount, int flags),
         (in, path, to, mount, flags), in, path)
NAMES_IN(int, fanotify_mark, (int fd, unsigned flags, uint64_t mask, int in, const char *path),
         (fd, flags, mask, in, path), in, path)
NAMES(int, __xmknod, (int version, const char *path, mode_t mode, dev_t *device), (version, path, mode, device),
      "path", path, -1)
NAMES_IN(int, __xmknodat, (int version, int in, const char *path, mode_t mode, dev_t *device),
         (version, in, path, mode, device), in, path)

MAKES_NAME(int, mkstemp64, (char *path), (path), path)
MAKES_NAME(int, mkostemp64, (char *path, int flags), (path, flags), path)
MAKES_NAME(int, mkstemps64, (char *path, int end), (path, end), path)
MAKES_NAME(int, mkostemps64, (char *path, int end, int flags), (path, end, flags), path)
LOOKS_INTO(int, scandir64, (const char *path, struct dirent64 ***to, int (*chosen)(const struct dirent64 *),
                            int (*compared)(const struct dirent64 **, const struct dirent64 **)),
           (path, to, chosen, compared), path, -1)
PASSES_OR_FAILS(int, scandirat, (int in, const char *path, struct dirent ***to, int (*chosen)(const struct dirent *),
                                 int (*compared)(const struct dirent **, const struct dirent **)),
                (in, path, to, chosen, compared),
                fails_with("path", "scandirat", path, in == AT_FDCWD && is_here(path)), -1)
PASSES_OR_FAILS(int, scandirat64, (int in, const char *path, struct dirent64 ***to,
                                   int (*chosen)(const struct dirent64 *),
                                   int (*compared)(const struct dirent64 **, const struct dirent64 **)),
                (in, path, to, chosen, compared),
                fails_with("path", "scandirat64", path, in == AT_FDCWD && is_here(path)), -1)
LOOKS_INTO(int, glob64, (const char *path, int flags, int (*error)(const char *, int), glob64_t *to),
           (path, flags, error, to), path, GLOB_ABORTED)
LOOKS_INTO(int, nftw64, (const char *path, int (*each)(const char *, const struct stat64 *, int, struct FTW *),
                         int most, int flags),
           (path, each, most, flags), path, -1)
LOOKS_INTO(int, ftw64, (const char *path, int (*each)(const char *, const struct stat64 *, int), int most),
           (path, each, most), path, -1)
TELLS(FTS *, fts_open, (char *const *paths, int options, int (*compared)(const FTSENT **, const FTSENT **)),
      (paths, options, compared), "path", paths[0], paths[0] && is_here(paths[0]))
TELLS(FTS64 *, fts64_open, (char *const *paths, int options, int (*compared)(const FTSENT64 **, const FTSENT64 **)),
      (paths, options, compared), "path", paths[0], paths[0] && is_here(paths[0]))

FAILS(int, __poll, (struct pollfd *parts, nfds_t count, int ms), (parts, count, ms), is_polled(parts, count), -1)
FAILS(int, __select, (int count, fd_set *in, fd_set *out, fd_set *other, struct timeval *most),
      (count, in, out, other, most), is_selected(count, in, out), -1)
FAILS(int, __poll_chk, (struct pollfd *parts, nfds_t count, int ms, size_t room), (parts, count, ms, room),
      is_polled(parts, count), -1)
FAILS(int, __ppoll_chk, (struct pollfd *parts, nfds_t count, const struct timespec *most, const sigset_t *mask,
                         size_t room),
      (parts, count, most, mask, room), is_polled(parts, count), -1)
FAILS(void *, mmap64, (void *at, size_t size, int access, int flags, int fd, off64_t offset),
      (at, size, access, flags, fd, offset), is_ours(fd) && !(flags & MAP_ANONYMOUS), MAP_FAILED)
FAILS(int, lockf64, (int fd, int command, off64_t size), (fd, command, size), is_ours(fd), -1)
FAILS(ssize_t, copy_file_range, (int from, off64_t *start, int to, off64_t *place, size_t count, unsigned flags),
      (from, start, to, place, count, flags), is_ours(from) || is_ours(to), -1)
FAILS(ssize_t, sendfile64, (int to, int from, off64_t *offset, size_t count), (to, from, offset, count),
      is_ours(to) || is_ours(from), -1)
FAILS(ssize_t, preadv64, (int fd, const struct iovec *parts, int count, off64_t offset), (fd, parts, count, offset),
      is_ours(fd), -1)
FAILS(ssize_t, pwritev64, (int fd, const struct iovec *parts, int count, off64_t offset), (fd, parts, count, offset),
      is_ours(fd), -1)
FAILS(ssize_t, preadv2, (int fd, const struct iovec *parts, int count, off_t offset, int flags),
      (fd, parts, count, offset, flags), is_ours(fd), -1)
FAILS(ssize_t, pwritev2, (int fd, const struct iovec *parts, int count, off_t offset, int flags),
      (fd, parts, count, offset, flags), is_ours(fd), -1)
FAILS(ssize_t, preadv64v2, (int fd, const struct iovec *parts, int count, off64_t offset, int flags),
      (fd, parts, count, offset, flags), is_ours(fd), -1)
FAILS(ssize_t, pwritev64v2, (int fd, const struct iovec *parts, int count, off64_t offset, int flags),
      (fd, parts, count, offset, flags), is_ours(fd), -1)
FAILS(int, fallocate64, (int fd, int mode, off64_t offset, off64_t size), (fd, mode, offset, size), is_ours(fd), -1)
FAILS(int, posix_fallocate64, (int fd, off64_t offset, off64_t size), (fd, offset, size), is_ours(fd), ENOSYS)
FAILS(int, posix_fadvise64, (int fd, off64_t offset, off64_t size, int advice), (fd, offset, size, advice),
      is_ours(fd), ENOSYS)
FAILS(int, fstatfs64, (int fd, struct statfs64 *to), (fd, to), is_ours(fd), -1)
FAILS(int, fstatvfs64, (int fd, struct statvfs64 *to), (fd, to), is_ours(fd), -1)
FAILS(ssize_t, getdents64, (int fd, void *to, size_t size), (fd, to, size), is_ours(fd), -1)
FAILS(ssize_t, getdirentries, (int fd, char *to, size_t size, off_t *at), (fd, to, size, at), is_ours(fd), -1)
FAILS(ssize_t, getdirentries64, (int fd, char *to, size_t size, off64_t *at), (fd, to, size, at), is_ours(fd), -1)
FAILS(int, open_by_handle_at, (int fd, struct file_handle *handle, int flags), (fd, handle, flags), is_ours(fd), -1)
FAILS(int, isfdtype, (int fd, int type), (fd, type), is_ours(fd), -1)
FAILS(int, __ttyname_r_chk, (int fd, char *to, size_t size, size_t room), (fd, to, size, room), is_ours(fd), ENOSYS)
FAILS(int, __ptsname_r_chk, (int fd, char *to, size_t size, size_t room), (fd, to, size, room), is_ours(fd), ENOSYS)
struct sgttyb;
FAILS(int, gtty, (int fd, struct sgttyb *to), (fd, to), is_ours(fd), -1)
FAILS(int, stty, (int fd, const struct sgttyb *to), (fd, to), is_ours(fd), -1)

NAMES(ssize_t, __readlink_chk, (const char *path, char *text, size_t size, size_t room), (path, text, size, room),
      "path", path, -1)
NAMES_IN(ssize_t, __readlinkat_chk, (int in, const char *path, char *text, size_t size, size_t room),
         (in, path, text, size, room), in, path)
NAMES(char *, __realpath_chk, (const char *path, char *to, size_t room), (path, to, room), "path", path, NULL)

FAILS(int, bind, (int fd, __CONST_SOCKADDR_ARG address, socklen_t size), (fd, address, size), is_ours(fd), -1)
FAILS(int, connect, (int fd, __CONST_SOCKADDR_ARG address, socklen_t size), (fd, address, size), is_ours(fd), -1)
FAILS(int, __connect, (int fd, __CONST_SOCKADDR_ARG address, socklen_t size), (fd, address, size), is_ours(fd), -1)
FAILS_OR_MAKES(accept, (int fd, __SOCKADDR_ARG address, socklen_t *size), (fd, address, size), is_ours(fd))
FAILS_OR_MAKES(accept4, (int fd, __SOCKADDR_ARG address, socklen_t *size, int flags), (fd, address, size, flags),
               is_ours(fd))
FAILS(int, getsockname, (int fd, __SOCKADDR_ARG address, socklen_t *size), (fd, address, size), is_ours(fd), -1)
FAILS(int, getpeername, (int fd, __SOCKADDR_ARG address, socklen_t *size), (fd, address, size), is_ours(fd), -1)
FAILS(ssize_t, __send, (int fd, const void *data, size_t count, int flags), (fd, data, count, flags), is_ours(fd), -1)
FAILS(ssize_t, sendto, (int fd, const void *data, size_t count, int flags, __CONST_SOCKADDR_ARG address,
                        socklen_t size),
      (fd, data, count, flags, address, size), is_ours(fd), -1)
FAILS(ssize_t, recvfrom, (int fd, void *to, size_t count, int flags, __SOCKADDR_ARG address, socklen_t *size),
      (fd, to, count, flags, address, size), is_ours(fd), -1)
FAILS(ssize_t, __recv_chk, (int fd, void *to, size_t count, size_t room, int flags), (fd, to, count, room, flags),
      is_ours(fd), -1)
FAILS(ssize_t, __recvfrom_chk, (int fd, void *to, size_t count, size_t room, int flags, __SOCKADDR_ARG address,
                                socklen_t *size),
      (fd, to, count, room, flags, address, size), is_ours(fd), -1)
FAILS(int, recvmmsg, (int fd, struct mmsghdr *messages, unsigned count, int flags, struct timespec *most),
      (fd, messages, count, flags, most), is_ours(fd), -1)
FAILS(int, sendmmsg, (int fd, struct mmsghdr *messages, unsigned count, int flags), (fd, messages, count, flags),
      is_ours(fd) || (count > 0 && is_sent(&messages->msg_hdr)), -1)
FAILS(int, bindresvport, (int fd, struct sockaddr_in *address), (fd, address), is_ours(fd), -1)
FAILS(int, getipv4sourcefilter, (int fd, struct in_addr at, struct in_addr group, uint32_t *mode, uint32_t *count,
                                 struct in_addr *list),
      (fd, at, group, mode, count, list), is_ours(fd), -1)
FAILS(int, setipv4sourcefilter, (int fd, struct in_addr at, struct in_addr group, uint32_t mode, uint32_t count,
                                 const struct in_addr *list),
      (fd, at, group, mode, count, list), is_ours(fd), -1)
FAILS(int, getsourcefilter, (int fd, uint32_t at, const struct sockaddr *group, socklen_t size, uint32_t *mode,
                             uint32_t *count, struct sockaddr_storage *list),
      (fd, at, group, size, mode, count, list), is_ours(fd), -1)
FAILS(int, setsourcefilter, (int fd, uint32_t at, const struct sockaddr *group, socklen_t size, uint32_t mode,
                             uint32_t count, const struct sockaddr_storage *list),
      (fd, at, group, size, mode, count, list), is_ours(fd), -1)

static int is_listed64(struct aiocb64 *const list[], int count)
{
    int at = 0;
    while (at < count && !(list[at] && is_ours(list[at]->aio_fildes)))
        at++;
    return at < count;
}

FAILS(int, aio_read64, (struct aiocb64 *request), (request), is_ours(request->aio_fildes), -1)
FAILS(int, aio_write64, (struct aiocb64 *request), (request), is_ours(request->aio_fildes), -1)
FAILS(int, aio_fsync64, (int kind, struct aiocb64 *request), (kind, request), is_ours(request->aio_fildes), -1)
FAILS(int, aio_cancel64, (int fd, struct aiocb64 *request), (fd, request), is_ours(fd), -1)
FAILS(int, lio_listio64, (int mode, struct aiocb64 *const *list, int count, struct sigevent *event),
      (mode, list, count, event), is_listed64(list, count), -1)

/* Those that give nothing. */
#define TELLS_ONLY(name, parameters, words, kind, path, holds) \
    void name parameters \
    { \
        static __typeof__(&name) next; \
        prepare(); \
        if (holds) \
            leave_out(kind, #name, path); \
        find(&next, #name); \
        next words; \
    }
TELLS_ONLY(updwtmp, (const char *path, const struct utmp *entry), (path, entry), "path", path, is_plain(path))
TELLS_ONLY(updwtmpx, (const char *path, const struct utmpx *entry), (path, entry), "path", path, is_plain(path))
TELLS_ONLY(backtrace_symbols_fd, (void *const *list, int count, int fd), (list, count, fd), "call", NULL, is_ours(fd))
TELLS_ONLY(__backtrace_symbols_fd, (void *const *list, int count, int fd), (list, count, fd), "call", NULL, is_ours(fd))

#if __GLIBC_PREREQ(2, 29)
NAMES(int, posix_spawn_file_actions_addchdir_np, (posix_spawn_file_actions_t *acts, const char *path), (acts, path),
      "path", path, ENOSYS)
FAILS(int, posix_spawn_file_actions_addfchdir_np, (posix_spawn_file_actions_t *acts, int fd), (acts, fd),
      is_ours(fd), ENOSYS)
#endif
#if __GLIBC_PREREQ(2, 35)
FAILS(int, epoll_pwait2, (int poller, struct epoll_event *to, int most, const struct timespec *time,
                          const sigset_t *mask),
      (poller, to, most, time, mask), is_ours(poller), -1)
FAILS(int, posix_spawn_file_actions_addtcsetpgrp_np, (posix_spawn_file_actions_t *acts, int fd), (acts, fd),
      is_ours(fd), ENOSYS)
#endif
#if __GLIBC_PREREQ(2, 36)
MAKES(pidfd_open, (pid_t which, unsigned flags), (which, flags))
FAILS(int, pidfd_getfd, (int process_fd, int fd, unsigned flags), (process_fd, fd, flags), is_ours(process_fd), -1)
FAILS(int, pidfd_send_signal, (int process_fd, int number, siginfo_t *more, unsigned flags),
      (process_fd, number, more, flags), is_ours(process_fd), -1)
FAILS(int, process_mrelease, (int process_fd, unsigned flags), (process_fd, flags), is_ours(process_fd), -1)
FAILS(ssize_t, process_madvise, (int process_fd, const struct iovec *parts, size_t count, int advice, unsigned flags),
      (process_fd, parts, count, advice, flags), is_ours(process_fd), -1)
FAILS(int, fsmount, (int fd, unsigned flags, unsigned more), (fd, flags, more), is_ours(fd), -1)
FAILS(int, fsconfig, (int fd, unsigned command, const char *key, const void *value, int more),
      (fd, command, key, value, more), is_ours(fd), -1)
NAMES_IN(int, fspick, (int in, const char *path, unsigned flags), (in, path, flags), in, path)
NAMES_IN(int, open_tree, (int in, const char *path, unsigned flags), (in, path, flags), in, path)
NAMES_IN(int, mount_setattr, (int in, const char *path, unsigned flags, struct mount_attr *to, size_t size),
         (in, path, flags, to, size), in, path)
NAMES_IN(int, move_mount, (int in, const char *path, int to_in, const char *to, unsigned flags),
         (in, path, to_in, to, flags), to_in, to)
#endif
#endif
