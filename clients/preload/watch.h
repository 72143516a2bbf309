/* watch.h: a part of fdref_preload.c. What a native call does beside its answer, which no line tells: to the signals
   that are blocked, whether it goes on after one that ends it, and how often SIGPIPE comes with a write. */

/* ---- signals that end a call

   A handler without SA_RESTART ends a call that waits: with EINTR, or with what a write has moved. One that runs before
   the call waits, or after it has its answer, ends nothing. What the kernel has kept for the end of the handler tells
   that apart, which is looked at on x86-64 alone: where the handler has come, and what a system call gave there. */

/* What a call has: its descriptor, or -1; its bytes, the parts of these, or its path; how many bytes are there, and how
   many a write moves in all. And what a handler has met: that a signal has ended the call, of which so much was moved
   then, or that this is not known. */
struct ending {
    int fd;
    const char *at;
    uint64_t size, total;
    enum { NOT_MET, NOT_KNOWN, IS_ENDED } met;
    int number;
    uint64_t moved;
    /* a wait for children has their number in place of a descriptor */
    int is_wait;
    pid_t which;
};
static __thread struct ending *ending;

static struct ending ending_of(int fd, const void *at, uint64_t size, uint64_t total)
{
    struct ending it = {fd, (const char *)at, size, total, NOT_MET, 0, 0, 0, 0};
    return it;
}

#if defined __x86_64__ && !defined __ILP32__

/* Whether a handler has come right after a system call. The bytes before are looked at in one page alone. */
static int is_after_call(const greg_t *kept)
{
    const unsigned char *at = (const unsigned char *)(uintptr_t)kept[REG_RIP];
    return (uintptr_t)at % 4096 >= 2 && at[-2] == 0x0f && at[-1] == 0x05;
}

/* Whether that was made for a call, with its descriptor, or with its path. */
static int is_made_for(const struct ending *it, const greg_t *kept)
{
    uintptr_t one = (uintptr_t)kept[REG_RDI], other = (uintptr_t)kept[REG_RSI], at = (uintptr_t)it->at;
    if (it->is_wait)
        return (pid_t)one == it->which || one == P_ALL || (one == P_PID && (pid_t)other == it->which);
    if (it->fd < 0)
        return one == at || other == at;
    return (int)one == it->fd && other >= at && other - at <= it->size;
}

/* What a handler of a signal has met that ends calls. That all signals are blocked meanwhile does not tell it. */
static void meet(struct ending *it, int number, const ucontext_t *context)
{
    const greg_t *kept = context->uc_mcontext.gregs, given = kept[REG_RAX];
    uint64_t before = it->fd < 0 ? 0 : (uint64_t)kept[REG_RSI] - (uintptr_t)it->at;
    uint64_t asked = it->size > 0 ? (uint64_t)kept[REG_RDX] : it->total;
    int is_mask = given == 0 && (kept[REG_RDI] == SIG_UNBLOCK || kept[REG_RDI] == SIG_SETMASK) && kept[REG_R10] == 8;
    if (!is_after_call(kept))
        return;
    if (is_made_for(it, kept) && (given == -EINTR || (given > 0 && (uint64_t)given < asked && it->total > 0))) {
        it->met = IS_ENDED;
        it->moved = before + (given > 0 ? (uint64_t)given : 0);
    } else if (given == -EINTR || is_mask) {
        it->met = NOT_KNOWN;
    }
    if (it->met != NOT_MET)
        it->number = number;
}

/* A handler runs that the kernel has called, if what that has kept is behind its frame; else a library has. */
static void meet_handler(int number, const void *context, const char *frame)
{
    if (!ending || ending->met == IS_ENDED || handlings[number] != ENDS_CALLS)
        return;
    if ((const char *)context == frame + 16) {
        meet(ending, number, (const ucontext_t *)context);
    } else {
        ending->met = NOT_KNOWN;
        ending->number = number;
    }
}

#else

static void meet_handler(int number, const void *context, const char *frame)
{
    (void)number;
    (void)context;
    (void)frame;
}

#endif

/* Whether a descriptor is that of a pipe, and waits. */
static int is_waiting_pipe(int fd)
{
    int flags = seek_by(fd, SEEK_CUR) < 0 ? system_fcntl(fd, F_GETFL, 0) : -1;
    return flags >= 0 && (flags & O_NONBLOCK) == 0;
}

/* Notes that a call has gone on after a signal that ends it, or that it may have. */
static void check_gone_on(const struct ending *it, const char *name, int64_t given)
{
    char text[60];
    int error = errno, is_cut = given < 0 ? error == EINTR : it->total > 0 && (uint64_t)given < it->total;
    if (it->met == IS_ENDED && it->moved == 0 && !(given < 0 && error == EINTR)) {
        snprintf(text, sizeof text, "has gone on after signal %d has ended it", it->number);
        note_wrong(name, text);
    } else if (it->met == IS_ENDED && it->moved > 0 && given > (int64_t)it->moved && is_waiting_pipe(it->fd)) {
        snprintf(text, sizeof text, "has gone on after signal %d has cut it short", it->number);
        note_wrong(name, text);
    } else if (it->met == NOT_KNOWN && !is_cut) {
        snprintf(text, sizeof text, "%d", it->number);
        notes("unended", name, text);
    }
    errno = error;
}

/* ---- the number that a call gives

   A call that fails gives -1, and none gives a number below that, but for an offset in what is no file of fdref, a
   group of processes, what a device answers, and output by a format that fails. Many give 0 alone where they do not. */

/* Whether a function has one of these names, which end with NULL, beside what tells its version or its width. */
static int is_among(const char *name, const char *const *names)
{
    size_t size = 0;
    name += strspn(name, "_");
    for (; *names; names++) {
        size = strlen(*names);
        if (strncmp(name, *names, size) == 0 && (name[size] == 0 || strcmp(name + size, "64") == 0))
            break;
    }
    return *names != NULL;
}

/* Whether a function may give a number below -1. What its descriptor leads to is known where it has a line. */
static int may_be_below(const char *name, int has_line)
{
    static const char *const formats[] = {"dprintf", "vdprintf", "dprintf_chk", "vdprintf_chk", NULL};
    static const char *const without_line[] = {"ioctl", "lseek", "fcntl", NULL};
    return is_among(name, formats) || (!has_line && is_among(name, without_line));
}

/* Notes a native call that has given what it may not. */
static void check_number(const char *name, int64_t given, int has_line)
{
    static const char *const zeros[] = {
        "close", "close_range", "pipe", "pipe2", "ftruncate", "truncate", "mkfifo", "mkfifoat", "link", "linkat",
        "unlink", "unlinkat", "remove", "rename", "renameat", "renameat2", "stat", "lstat", "fstat", "fstatat",
        "xstat", "lxstat", "fxstat", "fxstatat", "statx", "access", "faccessat", "fsync", "fdatasync", "waitid", NULL,
    };
    char text[100];
    if (given < -1 && !may_be_below(name, has_line)) {
        snprintf(text, sizeof text, "has given %lld, and no call gives a number below -1", (long long)given);
        note_wrong(name, text);
    } else if (given > 0 && is_among(name, zeros)) {
        snprintf(text, sizeof text, "has given %lld, and 0 is due where it does not fail", (long long)given);
        note_wrong(name, text);
    }
}

/* ---- errno

   No function may set it to 0, and one that fails has to set it. So a native call finds a number in it that no function
   gives, in place of what was there. One that does not fail may set it, which a program has not to look at. */

enum { NOT_SET = 1 << 20 };

/* What errno was before a native call, how many handlers had run, and what is due of it. */
struct erring {
    int is_known, before;
    unsigned runs;
    enum due due;
    int is_real;
};

/* What it was before the call that this thread is in, for handlers that come meanwhile. */
static __thread int errno_there;

static struct erring begin_erring(int is_own)
{
    struct erring it = {is_watching() && is_own, errno, runs, ANY_IS_DUE, 0};
    if (runs_then == runs) {
        it.due = due_now;
        it.is_real = is_real_now;
    }
    if (is_own) {
        due_now = ANY_IS_DUE;
        is_real_now = 0;
    }
    if (it.is_known) {
        errno_there = errno;
        errno = NOT_SET;
    }
    return it;
}

/* Notes what a native call gave that is not compared. */
static void note_given(const char *name, int given, int error)
{
    char text[30];
    snprintf(text, sizeof text, given < 0 ? "error %d" : "%d", given < 0 ? error : given);
    notes("given", name, text);
}

static int is_heard_elsewhere(void);

/* Notes a native call that has not failed as it has to where nothing is open. Another thread may have opened one. */
static void check_due(const struct erring *it, const char *name, int64_t given, int error)
{
    static const char *const with_descriptor[] = {
        "read", "write", "pread", "pwrite", "readv", "writev", "read_chk", "pread_chk", "pread64_chk", "lseek",
        "ftruncate", "dup", "dup2", "dup3", "fcntl", "ioctl", "fstat", "fxstat", "close", NULL,
    };
    static const char *const of_any[] = {"dup", "fstat", "fxstat", "close", NULL};
    int is_due = given == -1 && (error == EBADF || it->due == ERROR_IS_DUE);
    if (it->is_real && given == -1 && error == EBADF && is_among(name, of_any) && is_alone() && !is_heard_elsewhere())
        note_wrong(name, "has failed with EBADF, and its descriptor is open");
    if (it->due == ANY_IS_DUE || is_due || !is_among(name, with_descriptor))
        return;
    if (is_alone())
        note_wrong(name, "has not failed with EBADF, and nothing is open there");
    else
        note_given(name, (int)given, error);
}

static int64_t end_erring(const struct erring *it, const char *name, int64_t given, int has_line)
{
    int error = errno, is_set = error != NOT_SET;
    if (it->is_known && !is_set)
        error = it->before;
    if (it->is_known)
        check_number(name, given, has_line);
    errno = error;
    if (!it->is_known || it->runs != runs)
        return given;
    check_due(it, name, given, error);
    if (is_set && error == 0)
        note_wrong(name, "has set errno to 0, as no function may");
    else if (!is_set && (given == -1 || (given < 0 && !may_be_below(name, has_line))))
        note_wrong(name, "has failed, and has not set errno");
    else if (is_set && given >= 0 && strcmp(name, "isatty") != 0)
        notes("errno", name, NULL);
    errno = error;
    return given;
}

/* What a handler finds in errno, and what the call in which it runs goes on with. */
static int pause_erring(void)
{
    int error = errno;
    errno = error == NOT_SET ? errno_there : error;
    return error;
}

static void go_on_erring(int error)
{
    if (error == NOT_SET && errno == errno_there)
        errno = error;
}

/* ---- the signals that are blocked */

/* What was blocked before a native call that may wait, how many handlers had run, and what ends this call, and the one
   around it. */
struct masked {
    int is_known;
    unsigned runs;
    sigset_t signals;
    struct ending *own, *outer;
    struct erring erring;
};

static struct masked before_call(const char *name, struct ending *own)
{
    struct masked before = {is_watching(), runs, {{0}}, own, ending, {0, 0, 0, ANY_IS_DUE, 0}};
    int error = errno;
    if (before.is_known)
        say_inside(own_pid, (uint64_t)native_number + 1, name, own ? own->fd : -1, own ? own->size : 0);
    if (before.is_known)
        before.is_known = pthread_sigmask(SIG_BLOCK, NULL, &before.signals) == 0;
    ending = before.is_known ? own : NULL;
    errno = error;
    before.erring = begin_erring(!is_behind);
    return before;
}

/* A handler may not come back to the call in which it runs. */
static struct inside leave(void)
{
    struct inside *it = &shared->inside[(uint64_t)own_pid % EXITS_MOST], was = *it;
    it->number = 0;
    return was;
}

static void come_back(struct inside was) { shared->inside[(uint64_t)own_pid % EXITS_MOST] = was; }

static int are_same(const sigset_t *one, const sigset_t *other)
{
    int number = 1;
    while (number < NSIG && sigismember(one, number) == sigismember(other, number))
        number++;
    return number == NSIG;
}

/* A handler may change what is blocked, and a call may not. */
static void after_call(const struct masked *before, const char *name, int64_t given)
{
    int error;
    sigset_t now;
    end_erring(&before->erring, name, given, 1);
    error = errno;
    ending = before->outer;
    if (before->own)
        check_gone_on(before->own, name, given);
    if (is_watching())
        say_inside(own_pid, 0, "", -1, 0);
    if (before->is_known && before->runs == runs && pthread_sigmask(SIG_BLOCK, NULL, &now) == 0
        && !are_same(&before->signals, &now))
        note_wrong(name, "has changed which signals are blocked");
    errno = error;
}

/* The system's sigaction, as it is behind that of this library. */
static int system_sigaction(int number, const struct sigaction *to, struct sigaction *was)
{
    static int (*next)(int, const struct sigaction *, struct sigaction *);
    int done;
    find(&next, "sigaction");
    is_setting = 1;
    done = next(number, to, was);
    is_setting = 0;
    return done;
}

/* A call that waits for nobody is made with all signals blocked, which is undone after it. Two are not, where they do
   nothing and the program has not blocked them: so it is seen where a call blocks all signals, or lets one come. */
static const int idle_signals[] = {SIGURG, SIGWINCH};
enum { IDLE_SIGNALS = sizeof idle_signals / sizeof *idle_signals };

static int is_idle(int number)
{
    struct sigaction action;
    return sigismember(&quiet_behind.signals, number) == 0 && system_sigaction(number, NULL, &action) == 0
           && action.sa_handler == SIG_DFL;
}

static struct masked mask_behind(const char *name)
{
    struct masked before = {is_watching(), runs, {{0}}, NULL, NULL, {0, 0, 0, ANY_IS_DUE, 0}};
    sigset_t idle;
    int error = errno;
    if (before.is_known)
        say_inside(own_pid, (uint64_t)native_number + 1, name, -1, 0);
    sigemptyset(&idle);
    for (int at = 0; before.is_known && at < IDLE_SIGNALS; at++)
        if (is_idle(idle_signals[at]))
            sigaddset(&idle, idle_signals[at]);
    if (before.is_known)
        before.is_known = pthread_sigmask(SIG_UNBLOCK, &idle, NULL) == 0
                          && pthread_sigmask(SIG_BLOCK, NULL, &before.signals) == 0;
    errno = error;
    before.erring = begin_erring(1);
    return before;
}

static __thread struct masked masked_behind;

static int64_t looked_at_mask(const char *name, int64_t value)
{
    int error;
    sigset_t now;
    end_erring(&masked_behind.erring, name, value, 1);
    error = errno;
    if (is_watching())
        say_inside(own_pid, 0, "", -1, 0);
    if (masked_behind.is_known && masked_behind.runs == runs && pthread_sigmask(SIG_BLOCK, NULL, &now) == 0
        && !are_same(&masked_behind.signals, &now))
        note_wrong(name, "has changed which signals are blocked");
    errno = error;
    return value;
}

#define BEHIND_OF(name, call) (go_behind(), masked_behind = mask_behind(name), looked_at_mask(name, back(call)))
#define BEHIND(call) BEHIND_OF(__func__, call)

/* ---- SIGPIPE

   The line of a write comes before what its SIGPIPE does. So a process of one thread counts the signal meanwhile, and
   sends it again after that; what is blocked stays as it is. Another process has it blocked. */

enum keeps { KEEPS_NONE, COUNTS, BLOCKS };
struct keeping {
    enum keeps keeps;
    int came, others, is_blocked, is_ignored;
    unsigned runs;
    struct sigaction action;
};
static __thread struct keeping *keeper;

static int has_pending(int number)
{
    sigset_t pending;
    return sigpending(&pending) == 0 && sigismember(&pending, number) == 1;
}

static void keep_pipe(int number, siginfo_t *info, void *context)
{
    (void)context;
    if (!keeper)
        return;
    keeper->came++;
    if (info->si_code <= 0 && info->si_pid == own_pid)
        return;
    keeper->others++;
    if (passed_on[number].plain || passed_on[number].more)
        note_run(number);
}

/* Counts the signal from now on. A call that waits ends by it as it would otherwise. */
static void count_pipes(struct keeping *it)
{
    struct sigaction own;
    memset(&own, 0, sizeof own);
    own.sa_flags = SA_SIGINFO | (it->action.sa_flags & (SA_RESTART | SA_ONSTACK));
    own.sa_sigaction = keep_pipe;
    it->keeps = system_sigaction(SIGPIPE, &own, NULL) == 0 ? COUNTS : KEEPS_NONE;
    keeper = it;
}

/* A handler of another signal finds this one as the program has set it. */
static struct keeping *pause_keeping(void)
{
    struct keeping *it = keeper;
    keeper = NULL;
    if (it && it->keeps == COUNTS)
        system_sigaction(SIGPIPE, &it->action, NULL);
    return it;
}

static void go_on_keeping(struct keeping *it)
{
    int error = errno;
    if (it && it->keeps == COUNTS && system_sigaction(SIGPIPE, NULL, &it->action) == 0 && it->action.sa_handler != SIG_IGN)
        count_pipes(it);
    else if (it)
        it->keeps = KEEPS_NONE;
    errno = error;
}

static void block_pipes(int how_to)
{
    sigset_t pipes;
    sigemptyset(&pipes);
    sigaddset(&pipes, SIGPIPE);
    pthread_sigmask(how_to, &pipes, NULL);
}

/* Keeps SIGPIPE from the program while a write is made. */
static void keep_pipes(struct keeping *it)
{
    sigset_t signals;
    memset(it, 0, sizeof *it);
    it->runs = runs;
    pthread_sigmask(SIG_BLOCK, NULL, &signals);
    it->is_blocked = sigismember(&signals, SIGPIPE) == 1;
    it->is_ignored = system_sigaction(SIGPIPE, NULL, &it->action) == 0 && it->action.sa_handler == SIG_IGN;
    if (it->is_blocked || it->is_ignored || keeper)
        return;
    if (is_watching() && is_alone()) {
        count_pipes(it);
        return;
    }
    it->keeps = BLOCKS;
    block_pipes(SIG_BLOCK);
}

/* Notes that SIGPIPE has not come with EPIPE, or oftener than once, or without that. A write that has moved a part may
   end by it, too. */
static void note_pipes(const struct keeping *it, const char *name, int is_due, int may_come)
{
    char text[80];
    int came = it->came - it->others + (it->keeps == COUNTS && has_pending(SIGPIPE));
    if (!is_watching() || it->runs != runs || it->is_ignored)
        return;
    if (it->keeps == COUNTS && (came < is_due || came > may_come)) {
        snprintf(text, sizeof text, "SIGPIPE has come %d times, where EPIPE has come %d times", came, is_due);
        note_wrong(name, text);
    } else if (it->keeps != COUNTS && (it->is_blocked || it->keeps == BLOCKS) && is_due && !has_pending(SIGPIPE)) {
        note_wrong(name, "SIGPIPE has not come with EPIPE");
    }
}

/* Lets SIGPIPE come again, as often as it came. */
static void let_pipes(struct keeping *it, const char *name, int64_t given, uint64_t count)
{
    struct sigaction now;
    int error = errno, is_due = given < 0 && error == EPIPE;
    note_pipes(it, name, is_due, is_due || (given >= 0 && (uint64_t)given < count));
    if (it->keeps == COUNTS) {
        keeper = NULL;
        if (system_sigaction(SIGPIPE, NULL, &now) == 0 && now.sa_sigaction == keep_pipe)
            system_sigaction(SIGPIPE, &it->action, NULL);
        for (int at = 0; at < it->came; at++)
            system_syscall(SYS_tgkill, (long)system_getpid(), system_syscall(SYS_gettid), (long)SIGPIPE);
    } else if (it->keeps == BLOCKS) {
        block_pipes(SIG_UNBLOCK);
    }
    errno = error;
}

/* What is written is only read, though the type of a transfer does not say so. */
static char *bytes_of(const void *data)
{
    char *bytes;
    memcpy(&bytes, &data, sizeof bytes);
    return bytes;
}

/* ---- what is beyond the buffer of a read

   It is looked at by the kernel, since it may not be there, and only in the page of the last byte. Another process may
   change it where memory is shared. */

enum { BEYOND_MOST = 16, PAGE = 4096 };
struct beyond {
    size_t size;
    unsigned runs;
    const char *at;
    char was[BEYOND_MOST];
};

static size_t copied(char *to, const char *from, size_t size)
{
    struct iovec here = {to, size}, there = {bytes_of(from), size};
    long some = system_syscall(SYS_process_vm_readv, (long)system_getpid(), &here, 1L, &there, 1L, 0L);
    return some == (long)size ? size : 0;
}

static void look_beyond(struct beyond *it, const char *bytes, uint64_t count)
{
    int error = errno;
    uintptr_t end = (uintptr_t)bytes + count;
    size_t rest = (size_t)(PAGE - end % PAGE);
    it->at = bytes + count;
    it->runs = runs;
    it->size = 0;
    if (is_watching() && is_alone() && count > 0 && count < PAGE && end % PAGE != 0)
        it->size = copied(it->was, it->at, rest < BEYOND_MOST ? rest : BEYOND_MOST);
    errno = error;
}

/* Whether an address is in memory that others may change, or it is not known. */
static int is_shared_memory(const char *at)
{
    char line_of_maps[600], kind[8];
    unsigned long first, last;
    int is_private = 0;
    FILE *maps = fopen("/proc/self/maps", "re");
    while (maps && fgets(line_of_maps, sizeof line_of_maps, maps))
        if (sscanf(line_of_maps, "%lx-%lx %7s", &first, &last, kind) == 3 && (uintptr_t)at >= first
            && (uintptr_t)at < last)
            is_private = kind[3] == 'p';
    if (maps)
        fclose(maps);
    return !is_private;
}

static void check_beyond(const struct beyond *it, const char *name)
{
    char now[BEYOND_MOST];
    int error = errno;
    if (it->size > 0 && it->runs == runs && copied(now, it->at, it->size) > 0 && memcmp(now, it->was, it->size) != 0
        && !is_shared_memory(it->at))
        note_wrong(name, "has changed what is beyond its buffer");
    errno = error;
}
