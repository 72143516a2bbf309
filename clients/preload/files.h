/* files.h: a part of fdref_preload.c. What is told of files and of descriptors, and processes. */

/* ---- stat and access */

/* Keeps what an fstat told. */
static int64_t told(int64_t done, int fd, struct file *file)
{
    file->stat = process->outcome.stat;
    file->inode = told_inode(slot_of(fd).inode);
    return done;
}

/* The name that was looked at last which fdref is asked for, or is natively not asked for, or NULL. */
static __thread const char *looked_at;

/* Looks at a name: 0, -1, or 1 where the system is to be asked. */
static int look(const char *what, int folder, const char *name, int flags, struct file *file)
{
    enum way way = way_in(what, folder, &name);
    looked_at = way != PASS && *name && strlen(name) <= FDREF_NAME_MOST ? name : NULL;
    if (way == ASK && (*name || (flags & AT_EMPTY_PATH) == 0))
        return (int)ALONE(look_by_name(name, file));
    if (name && *name == 0 && (flags & AT_EMPTY_PATH) != 0 && folder >= 0 && way_of(folder) == ASK)
        return (int)ALONE(told(ask_aside(fdref_act_fstat(folder), NULL, 0), folder, file));
    return 1;
}

#define FILL(to, file) \
    do { \
        memset(to, 0, sizeof *(to)); \
        (to)->st_mode = (file).stat.kind == FDREF_KIND_REGULAR ? S_IFREG | 0644 : S_IFIFO | 0644; \
        (to)->st_size = (__typeof__((to)->st_size))(file).stat.size; \
        (to)->st_blocks = (__typeof__((to)->st_blocks))(((file).stat.size + 511) / 512); \
        (to)->st_nlink = (file).stat.links; \
        (to)->st_ino = (__typeof__((to)->st_ino))(file).inode; \
        (to)->st_dev = 0xfd; \
        (to)->st_blksize = 4096; \
        (to)->st_uid = geteuid(); \
        (to)->st_gid = getegid(); \
    } while (0)

/* Logs what the system told of a descriptor. */
static int seen(int fd, int done, mode_t mode, uint64_t size, uint32_t links)
{
    int pipe_kind = slot_of(fd).is_pipe ? FDREF_KIND_PIPE : FDREF_KIND_FIFO;
    int kind = S_ISREG(mode) ? FDREF_KIND_REGULAR : S_ISFIFO(mode) ? pipe_kind : FDREF_KIND_PIPE + 1;
    return (int)ALONE(note(fdref_act_fstat(fd), fdref_told(kind, size, links), done));
}

/* Notes what was told of such a name, by stat or by statx. */
static void note_look(const char *by, int done, mode_t mode, uint64_t size, uint64_t links)
{
    char text[FDREF_NAME_MOST + 80];
    int error = errno;
    if (done < 0)
        snprintf(text, sizeof text, "%s = error %d", looked_at, error);
    else if (S_ISREG(mode))
        snprintf(text, sizeof text, "%s = regular %llu %llu", looked_at, (unsigned long long)size,
                 (unsigned long long)links);
    else
        snprintf(text, sizeof text, "%s = %s", looked_at, S_ISFIFO(mode) ? "fifo" : "other");
    notes("look", by, text);
    errno = error;
}

/* Which file it is: what a system has told, and what the kernel tells, or of a pipe what this library keeps. */
struct identity {
    uint64_t device, number;
};
struct told_file {
    unsigned stamp;
    struct identity told, own;
};

/* What a native fstat has told of each descriptor that is open, and looks at names of late, as long as no name has
   gone. */
enum { TOLD_NAMES = 16 };
static struct told_file told_files[NUMBERS], told_names[TOLD_NAMES];
static unsigned name_stamp;

static int are_same_files(const struct identity *one, const struct identity *other)
{
    return one->device == other->device && one->number == other->number;
}

/* Notes natively that one file is told to be two, or two that are there to be one. */
static void compare_files(const char *name, const struct told_file *one, const struct told_file *other)
{
    int is_one = are_same_files(&one->own, &other->own), is_told = are_same_files(&one->told, &other->told);
    if (is_one && !is_told)
        note_wrong(name, "tells two files where there is one");
    else if (!is_one && is_told)
        note_wrong(name, "tells one file where there are two");
}

/* The same with all that were told. */
static void compare_with_all(const char *name, const struct told_file *now, int has_names)
{
    for (int fd = 0; fd < NUMBERS; fd++)
        if (slots[fd].held == OURS && stamps[fd] > 0 && told_files[fd].stamp == stamps[fd])
            compare_files(name, now, &told_files[fd]);
    for (int at = 0; has_names && at < TOLD_NAMES; at++)
        if (told_names[at].stamp == names_gone + 1)
            compare_files(name, now, &told_names[at]);
}

static int has_all_alone(void);

static void check_file(const char *name, int fd, uint64_t device, uint64_t number)
{
    struct told_file now = {0, {device, number}, {0, 0}};
    struct stat kernel;
    if (!is_watching() || !is_alone() || is_doubtful || slot_of(fd).held != OURS)
        return;
    kernel = told_in_kernel(fd);
    now.stamp = stamps[fd];
    now.own.device = slots[fd].is_pipe ? 0 : kernel.st_dev;
    now.own.number = slots[fd].is_pipe ? slots[fd].inode : kernel.st_ino;
    if (now.own.number == 0)
        return;
    compare_with_all(name, &now, has_all_alone());
    told_files[fd] = now;
}

/* The same of a name, which no other process and no handler can have led elsewhere. */
static void check_named(const char *name, const char *path, uint64_t device, uint64_t number, unsigned gone_before)
{
    struct told_file now = {names_gone + 1, {device, number}, {0, 0}};
    struct stat kernel;
    int error = errno;
    memset(&kernel, 0, sizeof kernel);
#ifdef SYS_newfstatat
    if (has_all_alone() && !is_doubtful)
        system_syscall(SYS_newfstatat, (long)AT_FDCWD, path, &kernel, (long)AT_SYMLINK_NOFOLLOW);
#endif
    now.own.device = kernel.st_dev;
    now.own.number = kernel.st_ino;
    if ((S_ISREG(kernel.st_mode) || S_ISFIFO(kernel.st_mode)) && names_gone == gone_before && !is_heard_elsewhere()) {
        compare_with_all(name, &now, 1);
        told_names[name_stamp++ % TOLD_NAMES] = now;
    }
    errno = error;
}

/* The same of a descriptor that no name has led to, and no handler can have led elsewhere. */
static void check_led(const char *name, int fd, uint64_t device, uint64_t number, unsigned runs_before)
{
    int error = errno;
    if (is_watching() && runs == runs_before && !is_heard_elsewhere())
        check_file(name, fd, device, number);
    errno = error;
}

/* Whether a call looks at a descriptor of fdref itself, which is noted by its number then. */
static int is_by_number(int folder, const char *name, int flags)
{
    static __thread char number[12];
    int is_numbered = !is_behind && slot_of(folder).held == OURS && name && *name == 0 && (flags & AT_EMPTY_PATH) != 0;
    snprintf(number, sizeof number, "%d", folder);
    looked_at = is_numbered ? number : looked_at;
    return is_numbered;
}

#define LOOKS(function, parameters, words, folder, flags) \
    int function parameters \
    { \
        NEXT_OF(function); \
        struct file file; \
        unsigned gone_before = names_gone, runs_before = runs; \
        int done; \
        if (IS_INNER) \
            return next words; \
        done = look("stat", folder, name, flags, &file); \
        if (done == 0) \
            FILL(to, file); \
        if (done > 0) \
            WITHIN(done, next words); \
        if (looked_at && done == 0) \
            check_named(#function, looked_at, to->st_dev, to->st_ino, gone_before); \
        if (is_by_number(folder, name, flags) && done == 0) \
            check_led(#function, folder, to->st_dev, to->st_ino, runs_before); \
        if (looked_at) \
            note_look("stat", done, done < 0 ? 0 : to->st_mode, done < 0 ? 0 : (uint64_t)to->st_size, \
                      done < 0 ? 0 : (uint64_t)to->st_nlink); \
        looked_at = NULL; \
        return done; \
    }
#define LOOKS_AT(function, parameters, words) \
    int function parameters \
    { \
        NEXT_OF(function); \
        enum way way; \
        struct file file; \
        int done; \
        if (IS_INNER) \
            return next words; \
        way = way_of(fd); \
        done = way == ASK ? (int)ALONE(told(ask(fdref_act_fstat(fd)), fd, &file)) : 1; \
        if (done == 0) \
            FILL(to, file); \
        if (done <= 0) \
            return done; \
        if (way == PASS) { \
            WITHIN(done, next words); \
            return done; \
        } \
        done = (int)BEHIND(next words); \
        if (done == 0) \
            check_file(#function, fd, to->st_dev, to->st_ino); \
        let_in(seen(fd, done, done < 0 ? 0 : to->st_mode, done < 0 ? 0 : (uint64_t)to->st_size, \
                    done < 0 ? 0 : (uint32_t)to->st_nlink)); \
        return done; \
    }

LOOKS(stat, (const char *name, struct stat *to), (name, to), AT_FDCWD, 0)
LOOKS(lstat, (const char *name, struct stat *to), (name, to), AT_FDCWD, 0)
LOOKS(fstatat, (int folder, const char *name, struct stat *to, int flags), (folder, name, to, flags), folder, flags)
LOOKS_AT(fstat, (int fd, struct stat *to), (fd, to))

/* Notes whether a name is there, as access has told; what refuses a right says that it is. */
static int64_t gone_looking(const struct going *it, int64_t given)
{
    (void)it;
    char text[FDREF_NAME_MOST + 40];
    int error = errno;
    if (looked_at && !is_behind) {
        if (given == 0 || error == EACCES || error == EROFS || error == ETXTBSY)
            snprintf(text, sizeof text, "%s = there", looked_at);
        else
            snprintf(text, sizeof text, "%s = error %d", looked_at, error);
        notes("look", "access", text);
    }
    looked_at = NULL;
    errno = error;
    return given;
}

static int is_accessed(struct going *it, int folder, const char *name, int mode, int flags)
{
    struct file file;
    int done = look("access", folder, name, 0, &file), is_known = (mode & ~(R_OK | W_OK | X_OK)) == 0;
    /* other modes and flags may be refused */
    looked_at = is_known && (flags & ~(AT_EACCESS | AT_SYMLINK_NOFOLLOW)) == 0 ? looked_at : NULL;
    it->way = PASS;
    it->done = done == 0 && (mode & X_OK) != 0 ? fails(EACCES) : done;
    if (done <= 0)
        gone_looking(it, it->done);
    return done <= 0;
}

GOES(int, access, (const char *name, int mode), (name, mode), is_accessed(&going, AT_FDCWD, name, mode, 0),
     gone_looking)
GOES(int, faccessat, (int folder, const char *name, int mode, int flags), (folder, name, mode, flags),
     is_accessed(&going, folder, name, mode, flags), gone_looking)

/* ---- what is asked of a descriptor */

/* Fails as a call with a descriptor of fdref that it leaves out. */
static int refuse(int fd, const char *what)
{
    if (slot_of(fd).held == FREE)
        return (int)fails(EBADF);
    leave_out_at(what, fd);
    return (int)fails(ENOSYS);
}

static int set_cloexec(int fd, int is_cloexec)
{
    slots[fd].is_cloexec = is_cloexec;
    return 0;
}

/* What the kernel adds to the flags of each open, and F_GETFL tells: its own O_LARGEFILE. */
#if defined __x86_64__
enum { ADDED_FLAGS = 0100000 };
#else
enum { ADDED_FLAGS = 0 };
#endif

/* Of F_GETFL's flags fdref tells these. Those that the kernel lets F_SETFL change beside them fdref leaves out. */
enum {
    STATUS_FLAGS = O_ACCMODE | O_APPEND | O_NONBLOCK,
    LEFT_OUT_FLAGS = O_ASYNC | O_DIRECT | O_NOATIME
};

static int is_asked_to_set(int command, int flags) { return command == F_SETFL && (flags & LEFT_OUT_FLAGS) == 0; }

static int64_t flags_ours(int fd)
{
    int64_t byte = ask_most(fdref_act_getfl(fd), NULL, FDREF_FLAGS_MOST);
    return byte < 0 ? byte : fdref_flags_of((int)byte) | (slot_of(fd).is_pipe ? 0 : ADDED_FLAGS);
}

static int control_ours(int fd, int command, int argument)
{
    struct slot slot = slot_of(fd);
    if (command == F_GETFL)
        return (int)ALONE(flags_ours(fd));
    if (is_asked_to_set(command, argument))
        return (int)ALONE(ask(fdref_act_setfl(fd, argument & ASKED_FLAGS)));
    if (slot.held == FREE)
        return (int)fails(EBADF);
    switch (command) {
    case F_GETFD: return slot.is_cloexec ? FD_CLOEXEC : 0;
    case F_SETFD: return set_cloexec(fd, (argument & FD_CLOEXEC) != 0);
    case F_SETFL: return refuse(fd, "fcntl with other flags");
    default: return refuse(fd, "fcntl with another command");
    }
}

/* What F_GETFD or F_SETFD has to give of a descriptor, or -1. */
static int flag_of(int fd, int command)
{
    struct slot slot = slot_of(fd);
    return slot.held == FREE ? -1 : command == F_GETFD && slot.is_cloexec ? FD_CLOEXEC : 0;
}

/* Notes natively that the system has given something else. Beside other threads, which may have set the flag or made
   another descriptor, that is not compared. */
static int64_t flag_noted(int fd, int command, int argument, int given)
{
    char text[40];
    int error = errno, is_set = command == F_SETFD, is_fault = given < 0 && errno != EBADF;
    /* F_SETFD may give any number but -1 */
    int told = given < 0 ? -1 : is_set ? 0 : given & FD_CLOEXEC, is_other = is_fault || told != flag_of(fd, command);
    if (is_other && (!is_alone() || is_doubtful)) {
        note_given(is_set ? "fcntl F_SETFD" : "fcntl F_GETFD", given, error);
    } else if (is_other) {
        snprintf(text, sizeof text, "%d = %s%d", fd, given < 0 ? "error " : "", given < 0 ? error : given);
        note_past('!', (uint64_t)log_length(), native_number, "cloexec", is_set ? "F_SETFD" : "F_GETFD", text);
    }
    if (is_set && given >= 0 && slot_of(fd).held != FREE)
        set_cloexec(fd, (argument & FD_CLOEXEC) != 0);
    errno = error;
    return given;
}

static int64_t control_noted(int fd, int command, int flags, int given)
{
    if (command == F_GETFD || command == F_SETFD)
        return flag_noted(fd, command, flags, given);
    if (command == F_GETFL)
        return ALONE(note(fdref_act_getfl(fd), fdref_result_flags(given & STATUS_FLAGS), given));
    return is_asked_to_set(command, flags) ? noted(fdref_act_setfl(fd, flags & ASKED_FLAGS), given) : given;
}

static int is_duplicating(int command) { return command == F_DUPFD || command == F_DUPFD_CLOEXEC; }

/* Whether a command is one of fdref, all of which wait for nobody. */
static int is_commanded(int command)
{
    int is_of_flags = command == F_GETFL || command == F_SETFL || command == F_GETFD || command == F_SETFD;
    return is_duplicating(command) || is_of_flags;
}

static int is_controlled(struct going *it, int fd, int command, int argument)
{
    it->way = way_of(fd);
    it->act = fdref_act_dup2(fd, how == NATIVE && is_duplicating(command) && is_alone() ? number_from(argument) : -1);
    it->is_cloexec = command == F_DUPFD_CLOEXEC;
    if (!is_commanded(command) || (is_duplicating(command) && (argument < 0 || argument >= NUMBERS)))
        lessen_due(ERROR_IS_DUE);
    if (is_duplicating(command))
        begin_making();
    if (how == ASKED && is_duplicating(command))
        it->done = ALONE(dup_from_asked(fd, argument, it->is_cloexec));
    else if (it->way == ASK)
        it->done = control_ours(fd, command, argument);
    else
        return 0;
    return 1;
}

static int64_t gone_by(const struct going *it, int command, int argument, int64_t given)
{
    if (is_behind)
        return given;
    if (is_duplicating(command))
        return gone_from(it, argument, given);
    return it->way == NOTE ? control_noted(it->act.fd, command, argument, (int)given) : given;
}

/* Asks the kernel whether there is a child, or any: -1, or one of a group: 0 or below -1; and which one has ended. It
   may wait for that. */
static int has_child(pid_t which, siginfo_t *ended, int options)
{
    long kind = which > 0 ? P_PID : which == -1 ? P_ALL : P_PGID;
    long number = which > 0 ? which : which == -1 ? 0 : which == 0 ? system_syscall(SYS_getpgid, 0L) : -(long)which;
    memset(ended, 0, sizeof *ended);
    return system_syscall(SYS_waitid, kind, number, ended, (long)(WEXITED | WNOWAIT | options), NULL) == 0;
}

/* Whether natively no other process and no other thread can have what this one has open: there was never any. */
static int has_all_alone(void)
{
    siginfo_t ended;
    int error = errno, is_one = is_watching() && is_alone() && native_number == 0 && shared->forks == 0;
    is_one = is_one && !has_child(-1, &ended, WNOHANG) && errno == ECHILD;
    errno = error;
    return is_one;
}

/* A native F_SETFL: what F_GETFL tells before it, or -1, and how many handlers had run. */
struct setting {
    int before;
    unsigned runs;
};

/* Notes that F_GETFL tells other flags than those that were to be set: of standard ones, and of those that fdref leaves
   out no new one. Of O_NONBLOCK that is so of pipes alone. Signals may have come meanwhile. */
static void check_set(const struct setting *it, int fd, int asked, int after)
{
    int set = O_APPEND | (is_pipe_at(fd) ? O_NONBLOCK : 0), wanted = (it->before & O_ACCMODE) | (asked & set);
    int added = after & ~it->before & ~asked & (LEFT_OUT_FLAGS | O_SYNC | O_DSYNC | O_RSYNC);
    if (it->runs == runs && after >= 0 && ((after & (O_ACCMODE | set)) != wanted || added != 0))
        note_wrong("fcntl", "F_SETFL has set other flags than it was asked for, as F_GETFL tells");
}

/* Makes a native F_SETFL, and asks the same function for the flags before and after that. */
#define LOOKS_BESIDE(asked, ask_flags, call) \
    do { \
        struct setting setting = {-1, runs}; \
        int given, error = errno; \
        setting.before = (int)let_in(BEHIND(ask_flags)); \
        errno = error; \
        given = (int)let_in(gone_by(&going, F_SETFL, asked, BEHIND(call))); \
        error = errno; \
        if (setting.before >= 0 && given >= 0) \
            check_set(&setting, fd, asked, (int)let_in(BEHIND(ask_flags))); \
        errno = error; \
        return given; \
    } while (0)

#define CONTROLS(name) \
    int name(int fd, int command, ...) \
    { \
        NEXT_OF(name); \
        struct going going; \
        void *argument; \
        int number; \
        va_list values; \
        va_start(values, command); \
        argument = va_arg(values, void *); \
        va_end(values); \
        if (IS_INNER) \
            return next(fd, command, argument); \
        number = (int)(intptr_t)argument; \
        if (is_controlled(&going, fd, command, number)) \
            return (int)going.done; \
        if (going.way == NOTE && is_asked_to_set(command, number) && has_all_alone()) \
            LOOKS_BESIDE(number, next(fd, F_GETFL, argument), next(fd, command, argument)); \
        if (going.way == NOTE && is_commanded(command)) \
            return (int)let_in(gone_by(&going, command, number, BEHIND(next(fd, command, argument)))); \
        WITHIN(number, next(fd, command, argument)); \
        return (int)gone_by(&going, command, (int)(intptr_t)argument, number); \
    }

CONTROLS(fcntl)

static int64_t set_nonblock(int fd, int is_set)
{
    int flags = control_ours(fd, F_GETFL, 0);
    return flags < 0 ? flags : control_ours(fd, F_SETFL, is_set ? flags | O_NONBLOCK : flags & ~O_NONBLOCK);
}

/* Logs that the system was to set O_NONBLOCK alone. */
static int64_t nonblock_noted(int fd, int is_set, int flags, int64_t given)
{
    int error = errno, wanted = is_set ? flags | O_NONBLOCK : flags & ~O_NONBLOCK;
    ALONE(note(fdref_act_getfl(fd), fdref_result_flags(flags & STATUS_FLAGS), flags));
    errno = error;
    return flags < 0 ? given : noted(fdref_act_setfl(fd, wanted & (STATUS_FLAGS | ASKED_FLAGS)), given);
}

#ifdef __GLIBC__
int ioctl(int fd, unsigned long command, ...)
#else
int ioctl(int fd, int command, ...)
#endif
{
    NEXT_OF(ioctl);
    enum way way;
    int flags;
    void *argument;
    va_list values;
    va_start(values, command);
    argument = va_arg(values, void *);
    va_end(values);
    if (IS_INNER)
        return next(fd, command, argument);
    way = way_of(fd);
    lessen_due(ERROR_IS_DUE);
    if (way == ASK && command == FIONBIO)
        return (int)set_nonblock(fd, *(const int *)argument);
    if (way == NOTE && command == FIONBIO) {
        flags = system_fcntl(fd, F_GETFL, 0);
        return (int)let_in(nonblock_noted(fd, *(const int *)argument, flags, BEHIND(next(fd, command, argument))));
    }
    if (way != ASK) {
        int given;
        WITHIN(given, next(fd, command, argument));
        if (way == NOTE && given == 0 && slot_of(fd).held != FREE && (command == FIOCLEX || command == FIONCLEX))
            set_cloexec(fd, command == FIOCLEX);
        return given;
    }
    if (slot_of(fd).held != FREE && (command == FIOCLEX || command == FIONCLEX))
        return set_cloexec(fd, command == FIOCLEX);
    return refuse(fd, "ioctl");
}

/* A native call that asks of a descriptor what no file of fdref tells: errno before, how many handlers had run, and
   what the kernel has there, which another thread may change. */
struct asking {
    int is_watched, is_alone, is_open, error;
    mode_t mode;
    unsigned runs;
};

static struct asking begin_asking(int fd)
{
    struct asking it = {is_watching() && !is_behind, is_alone(), is_open_in_kernel(fd), errno, 0, runs};
    it.mode = it.is_watched && it.is_open ? told_in_kernel(fd).st_mode : 0;
    return it;
}

/* Whether that is known to be so in the call. */
static int is_sure(const struct asking *it) { return it->is_watched && it->is_alone && it->runs == runs; }

/* Notes that what is no terminal is told to be one, or another error of it. The page lets errno be as it was. */
static int check_terminal(const struct asking *it, int fd, int given)
{
    int error = errno, is_none = S_ISREG(it->mode) || S_ISFIFO(it->mode) || !it->is_open;
    int is_other = error != it->error && error != ENOTTY && error != EINVAL;
    if (is_sure(it) && is_none && given != 0)
        note_wrong("isatty", "has not told that it is no terminal");
    else if (is_sure(it) && is_none && it->is_open && slot_of(fd).held == OURS && is_other)
        note_wrong("isatty", "has told no terminal by another error than ENOTTY or EINVAL");
    else if (it->is_watched && !is_sure(it) && is_none && given != 0)
        note_given("isatty", given, error);
    errno = error;
    return given;
}

static int is_no_terminal(struct going *it, int fd)
{
    it->way = way_of(fd) == ASK ? ASK : PASS;
    it->done = 0;
    if (it->way == ASK)
        fails(slot_of(fd).held == FREE ? EBADF : ENOTTY);
    return it->way == ASK;
}

int isatty(int fd)
{
    NEXT_OF(isatty);
    struct going going;
    struct asking asking;
    int given;
    if (IS_INNER)
        return next(fd);
    if (is_no_terminal(&going, fd))
        return (int)going.done;
    asking = begin_asking(fd);
    WITHIN(given, next(fd));
    return check_terminal(&asking, fd, given);
}

/* Nothing is to be written that is not there yet. No pipe has that (page of fsync), nor an offset. */
static int64_t sync_ours(int fd)
{
    int64_t done = ask_aside(fdref_act_lseek(fd, 0, SEEK_CUR), NULL, INT64_MAX);
    return done >= 0 ? 0 : errno == ESPIPE ? fails(EINVAL) : -1;
}

static int is_synced(struct going *it, int fd)
{
    it->way = way_of(fd) == ASK ? ASK : PASS;
    if (it->way != ASK)
        return 0;
    pthread_testcancel();
    it->done = ALONE(sync_ours(fd));
    return 1;
}

/* Notes what a native fsync may not give. That a disk fails is told by other errors, and what a pipe is, each system
   may say: that is not compared. */
static int check_synced(const struct asking *it, const char *name, int fd, int given)
{
    char text[80];
    int error = errno, is_file = S_ISREG(it->mode), is_ours = slot_of(fd).held == OURS;
    int is_due = given == (is_file ? 0 : -1) && (is_file || error == EINVAL);
    if (is_sure(it) && !it->is_open && (given != -1 || error != EBADF)) {
        note_wrong(name, "has not failed with EBADF, and nothing is open there");
    } else if (is_sure(it) && is_ours && given == -1 && (error == EBADF || (is_file && error == EINVAL))) {
        snprintf(text, sizeof text, "has failed with error %d, which no file gives that is open", error);
        note_wrong(name, text);
    } else if (it->is_watched && is_ours && !is_due) {
        note_given(name, given, error);
    }
    errno = error;
    return given;
}

#define SYNCS(name) \
    int name(int fd) \
    { \
        NEXT_OF(name); \
        struct going going; \
        struct asking asking; \
        int given; \
        if (IS_INNER) \
            return next(fd); \
        if (is_synced(&going, fd)) \
            return (int)going.done; \
        asking = begin_asking(fd); \
        WITHIN(given, next(fd)); \
        return check_synced(&asking, #name, fd, given); \
    }
SYNCS(fsync)
SYNCS(fdatasync)

/* ---- processes */

/* What the kernel tells of a process by a descriptor of it, from Linux 6.15 on also once a wait has told its end: the
   words that are asked for, and the status. */
struct told_end {
    uint64_t asked, group;
    uint32_t numbers[11];
    int32_t status;
};
enum { STATUS_IS_ASKED = 8, WATCHES = 512 };
#define ASKS_OF_PROCESS _IOWR(0xff, 11, struct told_end)

/* The children that fork has made last, by the numbers of the system and their own. In a native run a descriptor
   watches each, where its number is above 0, and the kernel gives the file of that a number. Each is there until it is
   seen that a wait has taken it. */
enum { CHILDREN = 64 };
static struct child {
    pid_t in_system;
    long number;
    int watch, is_there;
    unsigned long long file;
} children[CHILDREN];

/* What the program has closed is not closed again. */
static void unwatch(struct child *it)
{
    if (it->watch > 0 && inode_in_kernel(it->watch) == it->file)
        system_close(it->watch);
    it->watch = 0;
}

/* The descriptor has a low number for a moment, which would be seen beside other threads. */
static void watch(struct child *it)
{
#ifdef SYS_pidfd_open
    struct rlimit was;
    int made, error = errno;
    if (!is_watching() || !is_alone())
        return;
    was = raise_limit();
    made = (int)system_syscall(SYS_pidfd_open, (long)it->in_system, 0L);
    it->watch = made < 0 ? 0 : system_fcntl(made, F_DUPFD_CLOEXEC, WATCHES);
    it->file = it->watch > 0 ? inode_in_kernel(it->watch) : 0;
    system_setrlimit(RLIMIT_NOFILE, &was);
    if (made >= 0)
        system_close(made);
    if (it->watch > 0 && it->file == 0)
        system_close(it->watch);
    it->watch = it->file == 0 ? 0 : it->watch;
    errno = error;
#else
    (void)it;
#endif
}

static void keep_child(pid_t in_system, long number)
{
    static int kept;
    for (int at = 0; at < CHILDREN; at++)
        if (children[at].in_system == in_system)
            children[at].in_system = children[at].is_there = 0;
    has_others |= children[kept].is_there;
    unwatch(&children[kept]);
    children[kept].in_system = in_system;
    children[kept].number = number;
    children[kept].is_there = 1;
    watch(&children[kept]);
    kept = (kept + 1) % CHILDREN;
}

static struct child *child_of(pid_t in_system)
{
    int at = 0;
    while (at < CHILDREN && children[at].in_system != in_system)
        at++;
    return at < CHILDREN ? &children[at] : NULL;
}

/* Its number of its own, or -1 where it is not known. */
static long number_of(pid_t in_system) { return child_of(in_system) ? child_of(in_system)->number : -1; }

/* Whether a child is watched, by what the program has not closed. */
static int is_watched(const struct child *it) { return it->watch > 0 && inode_in_kernel(it->watch) == it->file; }

/* Whether the kernel keeps how a child has ended that is watched, as Linux does from 6.15 on. */
static int keeps_ends(void)
{
    static int is_keeping = -1;
    struct utsname told;
    char *rest = told.release;
    long first = 0, second = 0;
    if (is_keeping < 0 && system_syscall(SYS_uname, &told) == 0) {
        first = strtol(rest, &rest, 10);
        second = *rest == '.' ? strtol(rest + 1, NULL, 10) : 0;
    }
    if (is_keeping < 0)
        is_keeping = first > 6 || (first == 6 && second >= 15);
    return is_keeping;
}

/* Finds which of the children are not there any more, and gives the first of them, or 0. */
static pid_t first_gone(void)
{
    siginfo_t ended;
    pid_t first = 0;
    for (int at = 0; at < CHILDREN; at++)
        if (children[at].is_there && !has_child(children[at].in_system, &ended, WNOHANG) && errno == ECHILD) {
            children[at].is_there = 0;
            first = first ? first : children[at].in_system;
        }
    return first;
}

/* The status that the kernel keeps of a child which a wait has told, or -1 where it is not known. */
static int kept_status(pid_t in_system)
{
    struct child *it = child_of(in_system);
    struct told_end told = {STATUS_IS_ASKED, 0, {0}, 0};
    int error = errno, is_told;
    if (!it || !is_watched(it))
        return -1;
    is_told = system_syscall(SYS_ioctl, (long)it->watch, (unsigned long)ASKS_OF_PROCESS, &told) == 0;
    errno = error;
    return is_told && (told.asked & STATUS_IS_ASKED) != 0 ? told.status & 0xffff : -1;
}

/* A fork: which one of the run it is, the process that makes it, the parent of that, and its number in a native run. */
struct forking {
    uint32_t which, number;
    pid_t own, parent;
};

static struct forking begin_forking(void)
{
    struct forking it = {__atomic_add_fetch(&shared->forks, 1, __ATOMIC_SEQ_CST), native_number, 0, 0};
    it.own = system_getpid();
    it.parent = (pid_t)system_syscall(SYS_getppid);
    return it;
}

/* Whether this is the child, as the kernel tells, whatever the fork has told. The first processes of two name spaces
   have the same number. */
static int is_forked(const struct forking *it, pid_t made)
{
    pid_t own = system_getpid(), parent = (pid_t)system_syscall(SYS_getppid);
    return own != it->own || (made == 0 && (own == 1 || parent != it->parent));
}

/* The child is attached first, so that it has an exit of its own, however it ends. */
static int64_t fork_asked(pid_t (*next)(void))
{
    int64_t number = ask(fdref_act_fork());
    struct fdref *child;
    struct forking it = begin_forking();
    pid_t made;
    int error, is_child;
    if (number < 0)
        return number;
    child = fdref_attach(socket_path, (pid_t)number);
    if (!child)
        end_with(NO_ANSWER, "the child cannot be attached: %s", fdref_no_process(errno));
    child->socket = hidden(child->socket);
    is_forking = 1;
    WITHIN(made, next());
    error = errno;
    is_forking = 0;
    is_child = is_forked(&it, made);
    if (!is_child && made > 0)
        keep_child(made, (long)number);
    if (!is_child && made < 0)
        fdref_exit(child);
    else
        fdref_forget(is_child ? process : child);
    if (is_child)
        forget_threads();
    process = is_child ? child : process;
    own_pid = system_getpid();
    errno = error;
    return made;
}

/* Whether the children of this process stay until it waits for them. */
static int are_kept(void)
{
    struct sigaction action;
    return system_sigaction(SIGCHLD, NULL, &action) == 0 && action.sa_handler != SIG_IGN
           && (action.sa_flags & SA_NOCLDWAIT) == 0;
}

/* Notes natively that a fork has told a number that is none of its children's, and gives whether it was noted. */
static int check_forked(pid_t made)
{
    siginfo_t ended;
    int is_none = is_watching() && is_alone() && are_kept() && !has_child(made, &ended, WNOHANG) && errno == ECHILD;
    if (is_none)
        note_wrong("fork", "has told the number of no child");
    return is_none;
}

/* Notes that the parent was told another number than the child has. */
static void compare_forked(const struct forking *it, pid_t one, pid_t other)
{
    if (is_watching() && one != 0 && other != 0 && one != other)
        note_past('!', (uint64_t)log_length(), it->number, "wrong", "fork",
                  "has told the number of another process than its child");
}

/* Compares natively what a fork has told with what the kernel tells. */
static void check_told(const struct forking *it, pid_t made, int is_child)
{
    pid_t own = system_getpid();
    if (is_child && made != 0 && is_watching())
        note_past('!', (uint64_t)log_length(), it->number, "wrong", "fork", "has not told the child that it is one");
    if (!is_child && made == 0)
        note_wrong("fork", "has told a parent that it is the child");
    if (is_child && (pid_t)system_syscall(SYS_getppid) == it->own)
        compare_forked(it, own, say_forked(shared->own_forks, shared->told_forks, it->which, own));
}

/* This process is the child of a native fork. */
static void begin_child(uint32_t number)
{
    own_pid = system_getpid();
    native_number = number;
    say_exit(own_pid, -1);
    forget_threads();
    forget_others();
    note_handlers();
    for (int at = 0; at < CHILDREN; at++) {
        unwatch(&children[at]);
        children[at].in_system = children[at].is_there = 0;
    }
    has_others = 0;
}

static void know_child(const struct forking *it, pid_t made, uint32_t number)
{
    if (!check_forked(made))
        compare_forked(it, made, say_forked(shared->told_forks, shared->own_forks, it->which, made));
    keep_child(made, (long)number);
}

/* Looks before the first fork of a program whether another program has left children to it. */
static void find_others(void)
{
    static int is_found;
    siginfo_t ended;
    int error = errno;
    if (!is_found && is_watching())
        has_others |= has_child(-1, &ended, WNOHANG) || errno != ECHILD;
    is_found = 1;
    errno = error;
}

static pid_t fork_natively(pid_t (*next)(void))
{
    struct quiet before = be_quiet();
    struct forking it = begin_forking();
    uint32_t number;
    pid_t made;
    int error, is_child;
    begin_call();
    find_others();
    number = __atomic_fetch_add(&shared->next_number, 1, __ATOMIC_SEQ_CST);
    WITHIN_OF("fork", made, next());
    error = errno;
    is_child = is_forked(&it, made);
    check_told(&it, made, is_child);
    if (is_child)
        begin_child(number);
    else if (made > 0)
        know_child(&it, made, number);
    else if (made < 0)
        __atomic_fetch_sub(&shared->next_number, 1, __ATOMIC_SEQ_CST);
    errno = error;
    if (!is_child)
        made = (pid_t)ALONE(note(fdref_act_fork(), fdref_number(number), made));
    error = errno;
    end_quiet(before);
    errno = error;
    return made;
}

static pid_t forked(pid_t (*next)(void), int is_own)
{
    prepare();
    if (is_off() || is_own)
        return next();
    return how == NATIVE ? fork_natively(next) : (pid_t)ALONE(fork_asked(next));
}

#define FORKS(name) \
    pid_t name(void) \
    { \
        NEXT_OF(name); \
        return forked(next, IS_INNER); \
    }
FORKS(fork)

/* What shares its memory with its parent could not be told from that. */
#define FORKS_FOR(name) \
    pid_t name(void) \
    { \
        NEXT_OF(fork); \
        int is_own = IS_INNER; \
        prepare(); \
        if (!is_own) \
            goes_past('-', "vfork", "fork", NULL); \
        return forked(next, is_own); \
    }
FORKS_FOR(vfork)

/* Notes a child that has ended, where its parent is told of it, and its number is known; one that a signal ended in any
   case. */
static pid_t ended_child(pid_t child, int status)
{
    char number[12], name[24] = "";
    long known_as = number_of(child);
    if (known_as >= 0)
        snprintf(name, sizeof name, "p%ld", known_as);
    if (known_as >= 0 && (WIFEXITED(status) || WIFSIGNALED(status)))
        log_wait(known_as);
    if (WIFSIGNALED(status)) {
        snprintf(number, sizeof number, "%d", WTERMSIG(status));
        notes("signal", number, *name ? name : NULL);
    }
    return child;
}

/* ---- what a native wait tells, beside what the kernel tells of the children */

/* A wait for a child, or any: -1, or one of a group: 0 or below. What had ended before is known where the kernel has told
   it, and that there was no child where no other thread waits for one. The system's function is to wait itself, which
   is seen while the children live. So it is called then, where the kernel keeps how they end. Else the kernel is let
   wait before it, and whether the function waits is not seen. Beside others a handler may have been set while the
   kernel was asked, which has ended that, and so ends the wait. In one thread the kernel is asked again where a handler
   has run meanwhile, which may have taken that child. */
struct waiting {
    const char *name;
    pid_t which, child;
    int is_known, is_of_group, is_one, is_childless, is_there, is_unseen, is_ended, options, code, status;
    unsigned runs;
};
enum { KNOWN_OPTIONS = WNOHANG | WUNTRACED | WCONTINUED, NOT_NUMBERED = INT_MIN };

static int has_ending_handler(void)
{
    int number = 1;
    while (number < NSIG && handlings[number] != ENDS_CALLS)
        number++;
    return number < NSIG;
}

/* Whether the kernel keeps the end of each child that a wait may take. */
static int are_ends_kept(pid_t which)
{
    if (!keeps_ends() || (which == -1 && has_others))
        return 0;
    if (which > 0)
        return child_of(which) && is_watched(child_of(which));
    for (int at = 0; at < CHILDREN; at++)
        if (children[at].is_there && !is_watched(&children[at]))
            return 0;
    return 1;
}

/* Whether the kernel is to be let wait before the system's function does, and may: no handler ends that. */
static int may_wait(pid_t which, int options)
{
    return options == 0 && !has_ending_handler() && !are_ends_kept(which);
}

/* Asks the kernel beside other threads, where a wait may be cancelled. */
static int has_child_beside(pid_t which, siginfo_t *ended, int options)
{
    int kind, done, error;
    pthread_setcanceltype(PTHREAD_CANCEL_ASYNCHRONOUS, &kind);
    done = has_child(which, ended, options);
    error = errno;
    pthread_setcanceltype(kind, NULL);
    errno = error;
    return done;
}

static struct waiting begin_waiting(const char *name, pid_t which, int options)
{
    struct waiting it = {name, which, 0, 0, 0, 0, 0, 0, 0, 0, options, 0, 0, runs};
    siginfo_t ended;
    int error = errno, is_there = 0;
    int is_seen = is_watching() && (options & ~KNOWN_OPTIONS) == 0;
    it.is_known = is_seen && (which > 0 || which == -1);
    it.is_of_group = is_seen && !it.is_known;
    it.is_one = is_seen && is_alone();
    if (it.is_one) {
        find_others();
        first_gone();
    }
    if (it.is_known)
        do {
            it.runs = runs;
            is_there = has_child(which, &ended, WNOHANG);
            it.is_unseen = is_there && ended.si_pid == 0 && may_wait(which, options);
            if (it.is_unseen)
                is_there = it.is_one ? has_child(which, &ended, 0) : has_child_beside(which, &ended, 0);
        } while (it.is_one && is_there && it.runs != runs);
    else if (it.is_of_group && which != NOT_NUMBERED)
        it.is_there = has_child(which, &ended, WNOHANG);
    if (is_there) {
        it.child = ended.si_pid;
        it.code = ended.si_code;
        it.status = ended.si_status;
    } else if (it.is_known) {
        it.is_childless = it.is_one && errno == ECHILD;
        it.is_ended = !it.is_one && errno == EINTR;
    }
    it.runs = runs;
    errno = it.is_ended ? EINTR : error;
    return it;
}

/* Whether a child ended as the kernel has told before. */
static int is_status(const struct waiting *it, int status)
{
    if (it->code == CLD_EXITED)
        return WIFEXITED(status) && WEXITSTATUS(status) == (it->status & 255);
    return WIFSIGNALED(status) && WTERMSIG(status) == it->status;
}

/* What the kernel tells of the end of a child that a wait has told: the same, something else, or nothing that is sure. It
   keeps the end of the first thread, which may have ended before its process did. */
enum kept { KEPT_SAME, KEPT_OTHER, KEPT_NONE };
static enum kept kept_of(const struct waiting *it, pid_t child, int status)
{
    int kept = kept_status(child), said = said_exit(child);
    if (child == it->child)
        return is_status(it, status) ? KEPT_SAME : KEPT_OTHER;
    if (kept < 0)
        return KEPT_NONE;
    if (WIFSIGNALED(kept))
        return WIFSIGNALED(status) && WTERMSIG(status) == WTERMSIG(kept) ? KEPT_SAME : KEPT_OTHER;
    if (WIFEXITED(status) && WEXITSTATUS(status) == WEXITSTATUS(kept))
        return KEPT_SAME;
    return said == WEXITSTATUS(kept) && (said > 0 || ends_by_itself(child)) ? KEPT_OTHER : KEPT_NONE;
}

/* Whether a handler may have run that this library has not called. */
static int is_heard_elsewhere(void)
{
    struct sigaction now;
    int number = 1;
    while (number < NSIG && (are_heard[number] || system_sigaction(number, NULL, &now) != 0
                             || now.sa_handler == SIG_DFL || now.sa_handler == SIG_IGN))
        number++;
    return number < NSIG;
}

/* Whether the kernel has told a child that had ended. One that is traced may have stopped. */
static int has_found_end(const struct waiting *it)
{
    return it->child > 0 && (it->code == CLD_EXITED || it->code == CLD_KILLED || it->code == CLD_DUMPED);
}

/* Whether what a wait has told is no child: it is this process itself, or another one than the child that the wait has
   taken. In one thread nothing but the wait and handlers takes any. */
static int is_no_child(const struct waiting *it, pid_t child)
{
    siginfo_t ended;
    pid_t gone;
    if (child == system_getpid())
        return 1;
    if (!it->is_one || it->runs != runs || is_heard_elsewhere())
        return 0;
    if (has_found_end(it))
        return child != it->child && !has_child(it->child, &ended, WNOHANG) && errno == ECHILD;
    gone = are_kept() ? first_gone() : 0;
    return gone > 0 && child != gone;
}

/* Whether a child is not there after a wait that has told no end of it: it has taken what it found before, or one that
   fork has made. */
static int is_end_untold(const struct waiting *it, pid_t child)
{
    siginfo_t ended;
    if (has_found_end(it))
        return child == it->child;
    return it->is_one && it->runs == runs && !is_heard_elsewhere() && are_kept() && child_of(child)
           && !has_child(child, &ended, WNOHANG) && errno == ECHILD;
}

/* Why the kernel has told nothing of the end of a child. */
static const char *why_unlooked(const struct waiting *it)
{
    if (it->is_of_group)
        return "a group is waited for";
    if (!it->is_one)
        return "the process has threads";
    return has_ending_handler() ? "a handler is set that ends calls" : "it ended meanwhile";
}

/* Why the kernel was let wait before a wait. */
static const char *why_unseen(const struct waiting *it)
{
    if (!keeps_ends())
        return "before Linux 6.15 no end of a child is kept";
    return it->is_one ? "a child is not watched" : "the process has threads";
}

/* Notes that a native wait has told a child that has stopped or goes on, by which signal the kernel tells but once. */
static void note_stopped(const char *name, int status)
{
    char text[30] = "a child that goes on";
    if (!is_watching())
        return;
    if (WIFSTOPPED(status))
        snprintf(text, sizeof text, "a stop by signal %d", WSTOPSIG(status));
    notes("given", name, text);
}

static void check_ended(const struct waiting *it, pid_t child, int status)
{
    char text[100];
    siginfo_t ended;
    int said = said_exit(child);
    enum kept kept = KEPT_NONE;
    if (it->which > 0 && child != it->which) {
        note_wrong(it->name, "has told another child than it was asked for");
        return;
    }
    if (is_no_child(it, child)) {
        note_wrong(it->name, "has told a process that is no child");
        return;
    }
    if (!WIFEXITED(status) && !WIFSIGNALED(status)) {
        if (is_end_untold(it, child))
            note_wrong(it->name, "has told no end of a child that has ended");
        else
            note_stopped(it->name, status);
        return;
    }
    if (has_child(child, &ended, WNOHANG)) {
        note_wrong(it->name, "has told the end of a child that is still there");
        return;
    }
    kept = kept_of(it, child, status);
    if (WIFEXITED(status) && said >= 0 && WEXITSTATUS(status) != said) {
        /* where the kernel has told the same, the other function is wrong */
        int is_right = kept == KEPT_SAME;
        if (is_right)
            snprintf(text, sizeof text, "was called with %d, and the child has ended with %d, as %s tells", said,
                     WEXITSTATUS(status), it->name);
        else
            snprintf(text, sizeof text, "has told that a child has exited with %d, which has called %s(%d)",
                     WEXITSTATUS(status), ends_by(child), said);
        if (is_right && number_of(child) >= 0)
            note_past('!', (uint64_t)log_length(), (uint32_t)number_of(child), "wrong", ends_by(child), text);
        else
            note_wrong(is_right ? ends_by(child) : it->name, text);
    } else if (kept == KEPT_OTHER)
        note_wrong(it->name, "has told otherwise how a child has ended");
    else if (kept == KEPT_NONE && (said < 0 || WIFSIGNALED(status)))
        notes("unlooked", it->name, why_unlooked(it));
}

static void check_failed(const struct waiting *it, int error)
{
    char text[80];
    siginfo_t ended;
    /* a child of a group may come to be in it meanwhile */
    int may_be_there = it->is_known || (it->is_there && it->runs == runs);
    if (error == EINTR && it->runs == runs && !is_heard_elsewhere())
        note_wrong(it->name, "has failed with EINTR, and no handler has run");
    else if (error != EINTR && may_be_there && is_alone() && has_child(it->which, &ended, WNOHANG))
        note_wrong(it->name, "has failed, and there is such a child");
    else if (error != EINTR && error != ECHILD && it->is_known && is_alone()) {
        snprintf(text, sizeof text, "has failed with error %d, and ECHILD is due", error);
        note_wrong(it->name, text);
    }
}

static void check_wait(const struct waiting *it, pid_t child, int status)
{
    int error = errno;
    if (it->is_known && it->is_childless && child >= 0 && it->runs == runs)
        note_wrong(it->name, "has not failed, and there is no such child");
    else if ((it->is_known || it->is_of_group) && child > 0)
        check_ended(it, child, status);
    else if (is_watching() && child == 0 && (it->options & WNOHANG) == 0)
        note_wrong(it->name, "has told of no child, without WNOHANG");
    else if (it->is_known && it->is_one && child == 0 && it->child > 0 && it->runs == runs)
        note_wrong(it->name, "has told of no child, and one has ended");
    else if ((it->is_known || it->is_of_group) && child < 0)
        check_failed(it, error);
    if (it->is_unseen && child > 0)
        notes("unwaited", it->name, why_unseen(it));
    errno = error;
}

/* Waits by a system's function, so that it is seen where that goes on after a signal. */
static struct ending *begin_ending(struct ending *own, pid_t which)
{
    struct ending *outer = ending;
    *own = ending_of(-1, NULL, 0, 0);
    own->is_wait = 1;
    own->which = which;
    ending = is_watching() ? own : NULL;
    return outer;
}
#define WAITING(done, which, call) \
    do { \
        struct ending met, *ending_before = begin_ending(&met, which); \
        WITHIN(done, call); \
        ending = ending_before; \
        check_gone_on(&met, __func__, done); \
    } while (0)

#define WAITS(name, parameters, words, which, options) \
    pid_t name parameters \
    { \
        static __typeof__(&name) next; \
        struct waiting waiting; \
        int own = 0, *status = given ? given : &own; \
        pid_t child; \
        find(&next, #name); \
        if (IS_INNER) \
            return next words; \
        prepare(); \
        waiting = begin_waiting(#name, which, options); \
        if (waiting.is_ended) \
            return -1; \
        WAITING(child, which, next words); \
        check_wait(&waiting, child, child > 0 ? *status : 0); \
        return child > 0 ? ended_child(child, *status) : child; \
    }

/* What a status of waitpid is where waitid has told this. */
static int status_in(const siginfo_t *told)
{
    return told->si_code == CLD_EXITED ? (told->si_status & 255) << 8 : told->si_status & 127;
}

/* What waitpid calls what waitid is to wait for. */
static pid_t waited_for(idtype_t kind, id_t which)
{
    if (kind == P_ALL)
        return -1;
    if (kind == P_PID && (pid_t)which > 0)
        return (pid_t)which;
    return kind == P_PGID && (pid_t)which >= 0 && which != 1 ? -(pid_t)which : NOT_NUMBERED;
}

int waitid(idtype_t kind, id_t which, siginfo_t *given, int options)
{
    static __typeof__(&waitid) next;
    siginfo_t own, *to = given ? given : &own;
    struct waiting waiting;
    int done, is_ended, is_told;
    find(&next, "waitid");
    if (IS_INNER)
        return next(kind, which, given, options);
    prepare();
    memset(&own, 0, sizeof own);
    /* without WEXITED no end is waited for */
    waiting = begin_waiting("waitid", waited_for(kind, which),
                            options & WEXITED ? options & ~WEXITED : options | WNOHANG);
    if (waiting.is_ended)
        return -1;
    waiting.options = options;
    if ((options & (WEXITED | WNOWAIT)) != WEXITED)
        waiting.is_known = waiting.is_of_group = 0;
    WAITING(done, (pid_t)which, next(kind, which, to, options));
    is_ended = done == 0 && to->si_pid > 0
               && (to->si_code == CLD_EXITED || to->si_code == CLD_KILLED || to->si_code == CLD_DUMPED);
    /* what has been told of another child is not looked at where there is none */
    is_told = done == 0 && !is_ended && to->si_pid > 0 && !waiting.is_childless;
    if (is_told && (to->si_code == CLD_STOPPED || to->si_code == CLD_CONTINUED))
        note_stopped("waitid", to->si_code == CLD_STOPPED ? to->si_status << 8 | 0x7f : 0xffff);
    else if (!is_told)
        check_wait(&waiting, is_ended ? to->si_pid : done == 0 ? 0 : -1, is_ended ? status_in(to) : 0);
    if (is_ended)
        ended_child(to->si_pid, status_in(to));
    return done;
}

WAITS(wait, (int *given), (status), -1, 0)
WAITS(waitpid, (pid_t which, int *given, int options), (which, status, options), which, options)
WAITS(wait3, (int *given, int options, struct rusage *used), (status, options, used), -1, options)
WAITS(wait4, (pid_t which, int *given, int options, struct rusage *used), (which, status, options, used), which,
      options)

#define ENDS(name) \
    void name(int status) \
    { \
        NEXT_OF(name); \
        prepare(); \
        tell_exit(status, 1); \
        end(); \
        for (;;) \
            next(status); \
    }
ENDS(_exit)
ENDS(_Exit)
