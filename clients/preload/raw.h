/* raw.h: a part of fdref_preload.c. System calls that a program makes by their numbers, through syscall. */

/* A call that fdref has, or one of its kin: which of its words are descriptors, a bit for each, which one is a path, or
   NO_PATH, and whether the word before that is a folder. A call with neither gives descriptors, or a process. */
enum { NO_PATH = -1, MOST_WORDS = 6 };
struct raw {
    long number;
    const char *name;
    unsigned descriptors;
    int path, is_in;
};

#define BY_FD(name, descriptors) {SYS_##name, #name, descriptors, NO_PATH, 0},
#define BY_PATH(name) {SYS_##name, #name, 0, 0, 0},
#define IN_FOLDER(name) {SYS_##name, #name, 0, 1, 1},
#define BY_NEITHER(name) {SYS_##name, #name, 0, NO_PATH, 0},

static const struct raw raws[] = {
    BY_FD(close, 1) BY_FD(read, 1) BY_FD(write, 1) BY_FD(pread64, 1) BY_FD(pwrite64, 1) BY_FD(readv, 1)
    BY_FD(writev, 1) BY_FD(preadv, 1) BY_FD(pwritev, 1) BY_FD(dup, 1) BY_FD(dup3, 3) BY_FD(ioctl, 1)
    BY_FD(fsync, 1) BY_FD(fdatasync, 1) BY_FD(splice, 5) BY_FD(tee, 3) BY_FD(fallocate, 1)
    IN_FOLDER(openat) IN_FOLDER(mknodat) IN_FOLDER(linkat) IN_FOLDER(unlinkat) IN_FOLDER(faccessat)
    IN_FOLDER(execveat)
    BY_PATH(truncate) BY_PATH(execve)
    BY_NEITHER(pipe2) BY_NEITHER(clone)
#ifdef SYS_open
    BY_PATH(open) BY_PATH(creat) BY_PATH(link) BY_PATH(unlink) BY_PATH(rename) BY_PATH(mknod) BY_PATH(access)
    BY_FD(dup2, 3) BY_NEITHER(pipe) BY_NEITHER(fork) BY_NEITHER(vfork)
#endif
#ifdef SYS_stat
    BY_PATH(stat) BY_PATH(lstat)
#endif
#ifdef SYS_fstat
    BY_FD(fstat, 1)
#endif
#ifdef SYS_newfstatat
    IN_FOLDER(newfstatat)
#endif
#ifdef SYS_fstatat64
    IN_FOLDER(fstatat64)
#endif
#ifdef SYS_statx
    IN_FOLDER(statx)
#endif
#ifdef SYS_lseek
    BY_FD(lseek, 1)
#endif
#ifdef SYS__llseek
    BY_FD(_llseek, 1)
#endif
#ifdef SYS_fcntl
    BY_FD(fcntl, 1)
#endif
#ifdef SYS_fcntl64
    BY_FD(fcntl64, 1)
#endif
#ifdef SYS_ftruncate
    BY_FD(ftruncate, 1)
#endif
#ifdef SYS_ftruncate64
    BY_FD(ftruncate64, 1)
#endif
#ifdef SYS_sendfile
    BY_FD(sendfile, 3)
#endif
#ifdef SYS_copy_file_range
    BY_FD(copy_file_range, 5)
#endif
#ifdef SYS_renameat
    IN_FOLDER(renameat)
#endif
#ifdef SYS_renameat2
    IN_FOLDER(renameat2)
#endif
#ifdef SYS_openat2
    IN_FOLDER(openat2)
#endif
#ifdef SYS_clone3
    BY_NEITHER(clone3)
#endif
};

static const struct raw *raw_of(long number)
{
    size_t at = 0, count = sizeof raws / sizeof *raws;
    while (at < count && raws[at].number != number)
        at++;
    return at < count ? raws + at : NULL;
}

static const char *path_of(const struct raw *raw, const long *given)
{
    return raw->path == NO_PATH ? NULL : (const char *)(uintptr_t)given[raw->path];
}

/* Whether a call is told: one with a descriptor of fdref, with a path, or with neither. */
static int is_told(const struct raw *raw, const long *given)
{
    for (int at = 0; at < MOST_WORDS; at++)
        if ((raw->descriptors >> at & 1) && is_ours((int)given[at]))
            return 1;
    return raw->descriptors == 0;
}

/* Tells a call, and whether it is one with a file that fdref has, which the kernel would not find. */
static int fails_raw(const struct raw *raw, const long *given)
{
    const char *path = path_of(raw, given);
    char what[40];
    snprintf(what, sizeof what, "syscall of %s", raw->name);
    if (raw->descriptors != 0)
        return leave_out_ours(what);
    leave_out("call", what, path);
    return path && (!raw->is_in || (int)given[0] == AT_FDCWD) && is_file(path);
}

#ifdef SYS_close_range
static int raw_close_range(unsigned first, unsigned last, int flags)
{
    return (int)system_syscall(SYS_close_range, (long)first, (long)last, (long)flags);
}
#endif

/* Whether a call would close what this library has for itself, so that it is made otherwise, or fails. */
static int is_kept_open(long number, const long *given, int is_inside, long *done)
{
    *done = -1;
#ifdef SYS_close_range
    if (number == SYS_close_range) {
        *done = close_between((unsigned)given[0], (unsigned)given[1], (int)given[2], is_inside, raw_close_range);
        return 1;
    }
#endif
#ifdef SYS_dup2
    if (number == SYS_dup2)
        make_way((int)given[1]);
#endif
    if (number == SYS_dup3)
        make_way((int)given[1]);
    if (number != SYS_close || !is_own((int)given[0]))
        return 0;
    errno = EBADF;
    return 1;
}

/* Whether a call may take rights from this process. */
static int takes_rights(long number)
{
    static const long numbers[] = {
        SYS_setuid, SYS_setreuid, SYS_setresuid, SYS_setfsuid, SYS_unshare, SYS_setns, SYS_capset, SYS_prctl,
#ifdef SYS_seccomp
        SYS_seccomp,
#endif
#ifdef SYS_landlock_restrict_self
        SYS_landlock_restrict_self,
#endif
    };
    size_t at = 0, count = sizeof numbers / sizeof *numbers;
    while (at < count && numbers[at] != number)
        at++;
    return at < count;
}

/* Notes that a call limits how many descriptors there may be, or the size of files. */
static void note_limit(const long *given, int is_set)
{
    if (is_set && given[0] == RLIMIT_NOFILE)
        goes_past('!', "limit", "RLIMIT_NOFILE", NULL);
    if (is_set && given[0] == RLIMIT_FSIZE)
        limit_size();
}

long syscall(long number, ...)
{
    NEXT_OF(syscall);
    const struct raw *raw = raw_of(number);
    long given[MOST_WORDS], done;
    int is_inside = IS_INNER;
    va_list values;
    va_start(values, number);
    for (int at = 0; at < MOST_WORDS; at++)
        given[at] = va_arg(values, long);
    va_end(values);
    prepare();
    ours = -1;
    names_gone += !is_inside && !is_behind;
    if (!is_off() && is_kept_open(number, given, is_inside, &done))
        return done;
    if (how == ASKED && !is_inside && raw && is_told(raw, given) && fails_raw(raw, given))
        return (long)fails(ENOSYS);
    if (takes_rights(number))
        changes_rights("syscall");
    if (number == SYS_prlimit64 && !is_inside)
        note_limit(&given[1], given[2] != 0);
#ifdef SYS_setrlimit
    if (number == SYS_setrlimit && !is_inside)
        note_limit(given, 1);
#endif
    done = next(number, given[0], given[1], given[2], given[3], given[4], given[5]);
    if (number == SYS_rt_sigaction && given[1] != 0 && given[0] > 0 && given[0] < NSIG) {
        static const struct passed_on none;
        passed_on[given[0]] = none;
        note_handler((int)given[0]);
    }
    return done;
}

/* Its child is no process of fdref, and may make none of its calls. */
#define CLONES(name) \
    int name(int (*function)(void *), void *stack, int flags, void *argument, ...) \
    { \
        NEXT_OF(name); \
        void *more[3]; \
        va_list values; \
        va_start(values, argument); \
        for (int at = 0; at < 3; at++) \
            more[at] = va_arg(values, void *); \
        va_end(values); \
        prepare(); \
        leave_out("call", #name, NULL); \
        return next(function, stack, flags, argument, more[0], more[1], more[2]); \
    }
CLONES(clone)
#ifdef __GLIBC__
CLONES(__clone)
#endif
