/* system.h: a part of fdref_preload.c. The system's functions, fdref.h by way of them, what is told, and the log. */

/* ---- the system's functions, as they are behind the ones of this library */

/* The function that takes 64 bits. */
#ifdef __GLIBC__
#define LARGE(name) #name "64"
#else
#define LARGE(name) #name
#endif

/* What this library calls for itself. Most of that it asks of the kernel, since the C library may be judged. */
#define SYSTEM_CALLS(X) \
    X(int64_t, lseek, LARGE(lseek), (int, int64_t, int)) \
    X(int, poll, "poll", (struct pollfd *, nfds_t, int)) \
    X(int, getrlimit, "getrlimit", (int, struct rlimit *)) \
    X(int, setrlimit, "setrlimit", (int, const struct rlimit *)) \
    X(long, syscall, "syscall", (long, ...)) \
    X(void, _exit, "_exit", (int))

#define DECLARED(type, name, symbol, parameters) static type(*system_##name) parameters;
SYSTEM_CALLS(DECLARED)
#undef DECLARED

static void end_with(int status, const char *format, ...) __attribute__((noreturn, format(printf, 2, 3)));

/* Finds the system's function of a name, where that was not done yet. */
static void find(void *function, const char *name)
{
    void *found;
    memcpy(&found, function, sizeof found);
    if (found)
        return;
    found = dlsym(RTLD_NEXT, name);
    if (!found)
        end_with(NO_ANSWER, "the system has no %s", name);
    memcpy(function, &found, sizeof found);
}

static void find_all(void)
{
#define FOUND(type, name, symbol, parameters) find(&system_##name, symbol);
    SYSTEM_CALLS(FOUND)
#undef FOUND
}

#ifdef SYS_fcntl
enum { RAW_FCNTL = SYS_fcntl };
#else
enum { RAW_FCNTL = SYS_fcntl64 };
#endif

static int system_open(const char *path, int flags, mode_t mode)
{
    return (int)system_syscall(SYS_openat, (long)AT_FDCWD, path, (long)flags, (long)mode);
}

static ssize_t system_write(int fd, const void *data, size_t count)
{
    return (ssize_t)system_syscall(SYS_write, (long)fd, data, count);
}

static int system_close(int fd) { return (int)system_syscall(SYS_close, (long)fd); }
/* A library under test may have a getpid that calls `syscall`, which is this library's. */
static pid_t system_getpid(void) { return system_syscall ? (pid_t)system_syscall(SYS_getpid) : getpid(); }
static int system_fcntl(int fd, int command, int number)
{
    return (int)system_syscall(RAW_FCNTL, (long)fd, (long)command, (long)number);
}

static int system_dup3(int fd, int to, int flags)
{
    return (int)system_syscall(SYS_dup3, (long)fd, (long)to, (long)flags);
}

static int system_socket(int family, int type, int protocol)
{
    return (int)system_syscall(SYS_socket, (long)family, (long)type, (long)protocol);
}

/* In the function of a name: the one of that name that comes after this library. */
#define NEXT_OF(name) \
    static __typeof__(&name) next; \
    find(&next, #name)

/* The client calls the system, and is no part of what this library shows to a program. */
#define open system_open
#define close system_close
#define write system_write
#define fcntl system_fcntl
#define socket(family, type, protocol) system_socket(family, type, protocol)
#define poll(parts, count, ms) system_poll(parts, count, ms)
#define recv(socket, to, size, flags) heard(socket, to, size, flags)
static ssize_t heard(int socket, void *to, size_t size, int flags);
#pragma GCC visibility push(hidden)
#define FDREF_IMPLEMENTATION
#include "../c/fdref.h"
#pragma GCC visibility pop
#undef open
#undef close
#undef write
#undef fcntl
#undef socket
#undef poll
#undef recv

/* ---- how it is used, and what is told */

/* OFF: nothing is changed. NATIVE: calls are only logged. ASKED: they are asked of a server. ENDED: its exit is
   recorded. */
enum how { UNKNOWN, OFF, NATIVE, ASKED, ENDED };
static volatile enum how how;

static struct fdref *process;
static char socket_path[sizeof ((struct sockaddr_un *)NULL)->sun_path + 1];
static int is_strict, log_file = -1, past_file = -1, blank = -1, shared_file = -1;

/* The number of this process in a native run. */
static uint32_t native_number;

/* Whether another thread waits in a call, so that this one may not end the process in fdref. */
static int is_kept;

/* Tells on standard error, ends the process in fdref too, and ends the program. */
static void end_with(int status, const char *format, ...)
{
    char text[300] = "fdref: ";
    size_t start = strlen(text), size;
    va_list words;
    va_start(words, format);
    vsnprintf(text + start, sizeof text - start - 1, format, words);
    va_end(words);
    size = strlen(text);
    text[size++] = '\n';
    if (system_syscall && system_write(2, text, size) < 0)
        size = 0;
    if (process && !is_kept)
        fdref_exit(process);
    process = is_kept ? process : NULL;
    for (;;)
        if (system__exit)
            system__exit(status);
        else
            abort();
}

/* No signal and no cancellation of a thread comes in between. */
struct quiet {
    sigset_t signals;
    int cancels;
};

static struct quiet be_quiet(void)
{
    struct quiet before;
    sigset_t all;
    sigfillset(&all);
    pthread_sigmask(SIG_BLOCK, &all, &before.signals);
    pthread_setcancelstate(PTHREAD_CANCEL_DISABLE, &before.cancels);
    return before;
}

static void end_quiet(struct quiet before)
{
    pthread_setcancelstate(before.cancels, NULL);
    pthread_sigmask(SIG_SETMASK, &before.signals, NULL);
}

/* Whether the program limits the size of files. */
static int is_size_limited;

/* Lifts that limit up to the hard one, and gives what it was. */
static struct rlimit lift_size(void)
{
    struct rlimit was, most;
    system_getrlimit(RLIMIT_FSIZE, &was);
    most = was;
    most.rlim_cur = was.rlim_max;
    system_setrlimit(RLIMIT_FSIZE, &most);
    return was;
}

/* Appends to a file of this library, which no limit of the program is for. */
static void append(int file, const char *what, const char *text, size_t size)
{
    struct quiet before = be_quiet();
    int error = errno, is_lifted = is_size_limited;
    struct rlimit was = {0, 0};
    if (is_lifted)
        was = lift_size();
    while (size > 0) {
        ssize_t some = system_write(file, text, size);
        if (some < 0 && errno == EFBIG)
            end_with(NO_ANSWER, "the program limits the size of files, and %s with it", what);
        if (some < 0 && errno != EINTR)
            end_with(NO_ANSWER, "%s cannot be written: %s", what, strerror(errno));
        text += some > 0 ? some : 0;
        size -= some > 0 ? (size_t)some : 0;
    }
    if (is_lifted)
        system_setrlimit(RLIMIT_FSIZE, &was);
    errno = error;
    end_quiet(before);
}

/* Notes in a line what is past fdref: `!` where FDREF_STRICT tells it, the place of the last record of its process,
   the process, its kind, and which call it is. After a tab stands the name that it has. */
static void note_past(char mark, uint64_t place, uint32_t number, const char *kind, const char *what, const char *of)
{
    char text[400];
    size_t size;
    if (past_file < 0)
        return;
    size = (size_t)snprintf(text, 150, "%c %llu p%lu %s %s%s", mark, (unsigned long long)place, (unsigned long)number,
                            kind, what, of ? "\t" : "");
    for (; of && *of && size < sizeof text - 5; of++)
        if (*of >= ' ' && *of < 127 && *of != '%')
            text[size++] = *of;
        else
            size += (size_t)snprintf(text + size, 4, "%%%02x", (unsigned char)*of);
    text[size++] = '\n';
    append(past_file, "what goes past fdref", text, size);
}

/* How often a name may have gone from its file, natively; and whether there may be children that fork has not made, or
   that have been forgotten. */
static unsigned names_gone;
static int has_others;

static void goes_past(char mark, const char *kind, const char *what, const char *of)
{
    names_gone++;
    has_others |= strcmp(kind, "program") == 0 || strstr(what, "clone");
    if (how == ASKED && process)
        note_past(mark, process->place, (uint32_t)process->number, kind, what, of);
}

/* Notes once that this library answers a call by itself in both runs. */
static void answers_itself(const char *what, int *is_noted)
{
    if (how == ASKED && process && !*is_noted)
        goes_past('-', "own", what, NULL);
    *is_noted |= how == ASKED;
}

/* The same in a native run, which has no places. */
static void goes_past_natively(char mark, const char *kind, const char *what)
{
    if (how == NATIVE)
        note_past(mark, 0, native_number, kind, what, NULL);
}

static int64_t log_length(void);

/* Notes what has to do with a signal in both runs. A native one has the length of its log in the place of the place. */
static void notes(const char *kind, const char *what, const char *of)
{
    if (how == NATIVE)
        note_past('-', (uint64_t)log_length(), native_number, kind, what, of);
    else
        goes_past('-', kind, what, of);
}

/* Whether it is noted natively what the system does otherwise than it has to, though no line tells it. */
static int is_watching(void) { return how == NATIVE && past_file >= 0; }

static void note_wrong(const char *call, const char *what)
{
    if (is_watching())
        note_past('!', (uint64_t)log_length(), native_number, "wrong", call, what);
}

/* Notes how a signal is handled from now on; 0 stands for all signals. */
static void note_handling(int number, const char *how_handled)
{
    char text[12];
    snprintf(text, sizeof text, "%d", number);
    notes("handler", text, how_handled);
}

/* Notes that a handler of a signal runs. It may have a small stack. */
static void note_run(int number)
{
    char text[80], *at = text + sizeof text;
    uint64_t numbers[3] = {(uint64_t)number, native_number, (uint64_t)log_length()};
    static const char *const before[3] = {" ran ", " p", "- "};
    *--at = '\n';
    for (int which = 0; which < 3; which++) {
        const char *word = before[which];
        size_t size = strlen(word);
        for (uint64_t rest = numbers[which], is_first = 1; rest > 0 || is_first; rest /= 10, is_first = 0)
            *--at = (char)('0' + rest % 10);
        at -= size;
        memcpy(at, word, size);
    }
    append(past_file, "what goes past fdref", at, (size_t)(text + sizeof text - at));
}

/* What fdref leaves out ends a program that has to be strict. */
static void end_strictly(const char *what)
{
    if (is_strict && how == ASKED)
        end_with(LEFT_OUT, "%s is left out", what);
}

static void leave_out(const char *kind, const char *what, const char *of)
{
    goes_past('!', kind, what, of);
    end_strictly(what);
}

/* The same of a call with a descriptor of fdref, which stands in place of a name; -1 is none. */
static void leave_out_at(const char *what, int fd)
{
    char number[12];
    snprintf(number, sizeof number, "%d", fd);
    leave_out("call", what, fd >= 0 ? number : NULL);
}

/* ---- numbers of this library's own, which are high */

enum { HIGH = 1024, OWN = 16, OWN_NUMBERS = 5 };

static int own_numbers(int at)
{
    const int own[OWN_NUMBERS] = {log_file, past_file, blank, shared_file, process ? process->socket : -1};
    return own[at];
}

static int is_own(int fd)
{
    int at = 0;
    while (at < OWN_NUMBERS && fd != own_numbers(at))
        at++;
    return fd >= 0 && at < OWN_NUMBERS;
}

/* Lets numbers go up to HIGH where the system permits it, and gives the limits that were before. */
static struct rlimit raise_limit(void)
{
    struct rlimit was = {0, 0}, raised;
    system_getrlimit(RLIMIT_NOFILE, &was);
    raised = was;
    if (was.rlim_cur < HIGH) {
        raised.rlim_cur = was.rlim_max < HIGH ? was.rlim_max : HIGH;
        system_setrlimit(RLIMIT_NOFILE, &raised);
    }
    return was;
}

/* Moves a descriptor to a high number. */
static int hidden(int fd)
{
    struct rlimit was = raise_limit(), now;
    int moved;
    system_getrlimit(RLIMIT_NOFILE, &now);
    moved = system_fcntl(fd, F_DUPFD_CLOEXEC, (int)(now.rlim_cur < HIGH ? now.rlim_cur : HIGH) - OWN);
    system_setrlimit(RLIMIT_NOFILE, &was);
    if (moved < 0)
        end_with(NO_ANSWER, "no descriptor is free: %s", strerror(errno));
    system_close(fd);
    return moved;
}

/* Moves what this library has at a number that the program is about to use. */
static void make_way(int to)
{
    if (to >= 0 && to == log_file)
        log_file = hidden(log_file);
    else if (to >= 0 && to == past_file)
        past_file = hidden(past_file);
    else if (to >= 0 && to == blank)
        blank = hidden(blank);
    else if (to >= 0 && to == shared_file)
        shared_file = hidden(shared_file);
    else if (to >= 0 && process && to == process->socket)
        process->socket = hidden(to);
}

/* ---- the log: a line of a call is that of fdref */

static const char *const words[] = {"open", "close", "read", "write", "pread", "pwrite", "lseek", "ftruncate", "dup",
                                    "dup2", "pipe", "mkfifo", "link", "unlink", "fstat", "fork", "getfl", "setfl",
                                    "rename"};

/* What was there for this thread before the call that it makes. */
static struct quiet quiet_before;

/* Whether a signal has come whose handler would end the call that waits. */
static int is_interrupting(void)
{
    sigset_t pending;
    struct sigaction action;
    int number = 1;
    for (sigpending(&pending); number < NSIG; number++)
        if (sigismember(&pending, number) == 1 && sigismember(&quiet_before.signals, number) == 0
            && sigaction(number, NULL, &action) == 0 && action.sa_handler != SIG_DFL && action.sa_handler != SIG_IGN
            && (action.sa_flags & SA_RESTART) == 0)
            return 1;
    return 0;
}

/* Receives for the client. While a call waits, which no signal ends, they come a little later, since a handler can make
   calls if the answer comes first. That one would have ended the call is noted once. */
enum { SIGNAL_MILLISECONDS = 100 };

static ssize_t heard(int socket, void *to, size_t size, int flags)
{
    static uint64_t interrupted = UINT64_MAX;
    struct pollfd answer = {socket, POLLIN, 0};
    int is_waiting = process && process->is_parked, is_late = is_waiting, is_ended = 0, error;
    ssize_t some;
    if (is_waiting) {
        is_late = system_poll(&answer, 1, SIGNAL_MILLISECONDS) == 0;
        is_ended = is_interrupting();
    }
    if (is_late)
        pthread_sigmask(SIG_SETMASK, &quiet_before.signals, NULL);
    some = recv(socket, to, size, flags);
    error = errno;
    if (is_late)
        be_quiet();
    is_ended |= is_waiting && some < 0 && error == EINTR;
    if (is_ended && process->place != interrupted) {
        interrupted = process->place;
        goes_past('-', "interrupt", words[process->act - FDREF_OPEN], NULL);
    }
    errno = error;
    return some;
}

/* The longest line has all bytes of a transfer, or two names. */
static char line[2 * FDREF_TRANSFER_MOST + 2 * 3 * FDREF_NAME_MOST + 300];
static size_t line_size;

static void put(const char *format, ...) __attribute__((format(printf, 1, 2)));
static void put(const char *format, ...)
{
    va_list values;
    int size;
    va_start(values, format);
    size = vsnprintf(line + line_size, sizeof line - line_size, format, values);
    va_end(values);
    line_size += size > 0 ? (size_t)size : 0;
}

static void put_data(const unsigned char *bytes, size_t size)
{
    static const char digits[] = "0123456789abcdef";
    if (size > 16 && memcmp(bytes, bytes + 1, size - 1) == 0) {
        put("%02x*%lu", bytes[0], (unsigned long)size);
        return;
    }
    put("x");
    for (size_t at = 0; at < size; at++) {
        line[line_size++] = digits[bytes[at] >> 4];
        line[line_size++] = digits[bytes[at] & 15];
    }
}

static void put_name(const char *name)
{
    if (*name == 0)
        put("%%");
    for (; *name; name++) {
        int is_itself = *name >= 33 && *name <= 126 && *name != '%';
        put(is_itself ? "%c" : "%%%02x", is_itself ? *name : (unsigned char)*name);
    }
}

static void put_flags(int flags)
{
    int mode = flags & O_ACCMODE;
    put("%s", mode == O_RDONLY ? "r" : mode == O_WRONLY ? "w" : mode == O_RDWR ? "rw" : "-");
    put("%s%s", flags & O_CREAT ? ",creat" : "", flags & O_EXCL ? ",excl" : "");
    put("%s%s", flags & O_TRUNC ? ",trunc" : "", flags & O_APPEND ? ",append" : "");
    put("%s", flags & O_NONBLOCK ? ",nonblock" : "");
}

static void put_field(const struct fdref_act *act, char field)
{
    put(" ");
    switch (field) {
    case 'f': put_flags(act->other); break;
    case 's': put_name(act->name); break;
    case 'S': put_name(act->new_name); break;
    case 'd': put("%d", act->fd); break;
    case 'D': put("%d", act->other); break;
    case 'n': put("%llu", (unsigned long long)act->count); break;
    case 'p': put("%lld", (long long)act->offset); break;
    case 'b': put_data((const unsigned char *)act->data, (size_t)act->count); break;
    default: put("%s", act->other == SEEK_SET ? "set" : act->other == SEEK_CUR ? "cur" : "end");
    }
}

/* The names of the errors that fdref has, else those of the system, else the number. */
static void put_error(int number)
{
    const char *name = fdref_error_byte(number) > 0 ? fdref_error_name(number) : NULL;
#ifdef __GLIBC__
#if __GLIBC_PREREQ(2, 32)
    name = name ? name : strerrorname_np(number);
#endif
#endif
    if (name)
        put("error %s", name);
    else
        put("error %d", number);
}

static void put_outcome(const struct fdref_outcome *outcome)
{
    static const char *const kinds[] = {"regular", "fifo", "pipe", "other"};
    const struct fdref_stat *stat = &outcome->stat;
    switch (outcome->kind) {
    case FDREF_DONE: put("ok"); break;
    case FDREF_NUMBER: put("%llu", (unsigned long long)outcome->number); break;
    case FDREF_DATA: put_data((const unsigned char *)outcome->data, outcome->size); break;
    case FDREF_DESCRIPTORS: put("%d %d", outcome->ends[0], outcome->ends[1]); break;
    case FDREF_STAT:
        put("%s %llu %lu", kinds[stat->kind], (unsigned long long)stat->size, (unsigned long)stat->links);
        break;
    default: put_error(outcome->error);
    }
}

/* Which thread of its process this one is, of those that have a line, from 1 on; and how many of these have not ended. */
static __thread int thread_number;
static int threads, live_threads;
static pthread_key_t ends_with_thread;

static void thread_ends(void *unused)
{
    (void)unused;
    __atomic_fetch_sub(&live_threads, 1, __ATOMIC_SEQ_CST);
}

static void number_thread(void)
{
    thread_number = ++threads;
    __atomic_fetch_add(&live_threads, 1, __ATOMIC_SEQ_CST);
    pthread_setspecific(ends_with_thread, &threads);
}

/* In a child only the thread that forked is there. */
static void forget_threads(void)
{
    threads = live_threads = thread_number = 0;
    pthread_setspecific(ends_with_thread, NULL);
}

/* Notes that a native process ends while other threads may be in a call, which has an effect then, and no line. */
static void note_cut(void)
{
    if (__atomic_load_n(&live_threads, __ATOMIC_SEQ_CST) - (thread_number > 0) > 0)
        goes_past_natively('-', "cut", "exit");
}

/* Where an offset of a descriptor is, or below 0. */
static int64_t seek_by(int fd, int whence)
{
    return sizeof(long) == 8 ? system_syscall(SYS_lseek, (long)fd, 0L, (long)whence) : system_lseek(fd, 0, whence);
}

/* How long the log was before this thread began its call, where that is told in a native run. */
static int tells_starts;
static __thread int64_t began;

static int64_t log_length(void)
{
    int64_t length = log_file >= 0 ? seek_by(log_file, SEEK_END) : 0;
    return length > 0 ? length : 0;
}

static void begin_call(void)
{
    int error = errno;
    if (how == NATIVE && tells_starts)
        began = log_length();
    errno = error;
}

/* The number of a thread but the first one. */
static void put_thread(const char *before)
{
    if (!thread_number)
        number_thread();
    if (thread_number > 1)
        put("%s%d", before, thread_number - 1);
}

/* What stands in the place of the place: `-`, and in a native run the number of a thread after it. */
static void put_no_place(void)
{
    put("-");
    if (how != NATIVE)
        return;
    put_thread("");
    if (tells_starts)
        put("@%lld", (long long)began);
}

/* The place of a record, after which a thread may be told. */
static void put_place(uint64_t place)
{
    put("%llu", (unsigned long long)place);
    if (how == ASKED && tells_starts)
        put_thread("-");
}

/* Appends to a native log whose lines tell when calls began that a wait has told that a child had ended. */
static void log_wait(long child)
{
    char text[100];
    int size = snprintf(text, sizeof text, "-@%lld p%lu wait = %ld\n", (long long)log_length(),
                        (unsigned long)native_number, child);
    if (how == NATIVE && tells_starts && log_file >= 0)
        append(log_file, "the log", text, (size_t)size);
}

/* Appends a line: at a place of the record, or `-`; with an outcome, or the name of a refusal. */
static void log_line(const uint64_t *place, struct fdref_act act, const struct fdref_outcome *outcome,
                     const char *refusal)
{
    const char *fields = fdref_calls[act.kind - FDREF_OPEN].fields;
    if (log_file < 0)
        return;
    line_size = 0;
    if (place)
        put_place(*place);
    else
        put_no_place();
    put(" p%lu %s", (unsigned long)(process ? (uint32_t)process->number : native_number),
        words[act.kind - FDREF_OPEN]);
    for (fields = act.kind == FDREF_OPEN ? "sf" : fields; *fields; fields++)
        put_field(&act, *fields);
    put(" = ");
    if (refusal)
        put("refused %s", refusal);
    else
        put_outcome(outcome);
    put("\n");
    append(log_file, "the log", line, line_size);
}
