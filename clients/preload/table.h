/* table.h: a part of fdref_preload.c. The lock, the table of descriptors, asking, and how a process begins and ends. */

/* ---- one thread at a time */

static pthread_mutex_t mutex = PTHREAD_MUTEX_INITIALIZER;
static pthread_t owner;
static volatile int is_held;
static int errno_before;

/* This process in the system, of those that are known; and whether the system's fork goes on. */
static pid_t own_pid;
static int is_forking;

/* A call that another thread keeps for longer than this is told. */
enum { KEPT_NANOSECONDS = 100000000 };

/* Tells that another thread waits in a call, and so keeps this one. */
static void tell_waiting(int act)
{
    goes_past('!', "thread", words[act - FDREF_OPEN], NULL);
    is_kept = 1;
    end_strictly("a thread that waits beside others");
    is_kept = 0;
}

/* Signals that come for a thread while another one keeps it are let in now and then. */
static void lock(struct quiet before)
{
    int is_told = 0, is_locked = pthread_mutex_trylock(&mutex) == 0;
    while (!is_locked) {
        struct timespec until;
        clock_gettime(CLOCK_REALTIME, &until);
        until.tv_nsec += KEPT_NANOSECONDS;
        until.tv_sec += until.tv_nsec / 1000000000;
        until.tv_nsec %= 1000000000;
        is_locked = pthread_mutex_timedlock(&mutex, &until) == 0;
        if (!is_locked && !is_told && process && process->is_parked) {
            is_told = 1;
            tell_waiting(process->act);
        }
        if (!is_locked) {
            pthread_sigmask(SIG_SETMASK, &before.signals, NULL);
            be_quiet();
        }
    }
}

/* Ends a call that comes where none can be made. */
static void refuse_call(void)
{
    if (system_getpid() != own_pid) {
        is_kept = 1;
        end_with(NO_ANSWER, "a call comes from a process that fork did not make, as one by clone");
    }
    if (is_held && pthread_equal(owner, pthread_self()) && is_forking)
        end_with(NO_ANSWER, "a call comes within fork, as from a handler of pthread_atfork");
    if (is_held && pthread_equal(owner, pthread_self()))
        end_with(NO_ANSWER, "a call comes while another one of the process waits, as from a handler of a signal");
}

/* No signal comes in between, so that a handler may make calls; but while a call waits. */
static void enter(void)
{
    int error = errno;
    struct quiet before;
    if (how == ASKED)
        refuse_call();
    before = be_quiet();
    lock(before);
    quiet_before = before;
    owner = pthread_self();
    is_held = 1;
    errno_before = error;
}

/* Hands on a value. One that is no failure leaves errno as it was. */
static int64_t left(int64_t value)
{
    int error = value < 0 ? errno : errno_before;
    struct quiet before = quiet_before;
    is_held = 0;
    pthread_mutex_unlock(&mutex);
    end_quiet(before);
    errno = error;
    return value;
}

#define ALONE(call) (enter(), left(call))

/* Whether this thread is in a function of the system that waits for nobody, so that no signal need come. A library in
   between may have it for its own, and may make it of others that are here: these go past. */
static __thread int is_behind;
static __thread struct quiet quiet_behind;

static void go_behind(void)
{
    quiet_behind = be_quiet();
    is_behind = 1;
}

static int64_t back(int64_t value)
{
    is_behind = 0;
    return value;
}

/* Hands on a value, once it is logged. Signals come again. */
static int64_t let_in(int64_t value)
{
    int error = errno;
    end_quiet(quiet_behind);
    errno = error;
    return value;
}

/* The same of one that may wait: the function, so that what its library calls is told from what a handler does. */
static __thread const void *within;

static const void *go_in(const void *function)
{
    const void *before = within;
    memcpy(&within, function, sizeof within);
    return before;
}

static const void *object_of(const void *code)
{
    Dl_info found;
    return dladdr(code, &found) ? found.dli_fbase : NULL;
}

/* Whether a call comes from that library, where it may be the last thing that it does. */
static int is_inner(const void *caller)
{
    const void *object = within ? object_of(caller) : NULL;
    return object && (object == object_of(within) || object == object_of(&mutex));
}
#define IS_INNER is_inner(__builtin_return_address(0))

static int64_t fails(int number)
{
    errno = number;
    return -1;
}

/* Whether this process certainly has one thread, so that nothing comes between a call of the system and a look: the C
   library says so, or the system lists no other one any more. */
static int is_alone(void)
{
    struct stat tasks;
    int error = errno, is_one = 0;
#if defined __GLIBC__ && __GLIBC_PREREQ(2, 32)
    if (__libc_single_threaded)
        return 1;
#endif
#ifdef SYS_newfstatat
    /* a folder has a link by its name, one by itself, and one by each folder in it */
    is_one = system_syscall(SYS_newfstatat, (long)AT_FDCWD, "/proc/self/task", &tasks, 0L) == 0 && tasks.st_nlink == 3;
#else
    (void)tasks;
#endif
    errno = error;
    return is_one;
}

/* ---- the table */

enum { NUMBERS = 32 };

/* FREE numbers are fdref's to refuse. OURS: fdref has the file. REAL: the kernel has it at the same number, and fdref a
   placeholder. The numbers of the others are taken in the kernel too, by `blank`. */
enum held { FREE, OURS, REAL };
struct slot {
    enum held held;
    int is_cloexec, is_pipe;
    uint64_t inode;
};
static struct slot slots[NUMBERS];

static int is_open_in_kernel(int fd)
{
    int error = errno, is_open = system_fcntl(fd, F_GETFD, 0) != -1;
    errno = error;
    return is_open;
}

/* In a native run the numbers that a call known to fdref has made, that were there from the start, or that are told. */
static char known[NUMBERS];

static int lowest_free(int from)
{
    while (from < NUMBERS && slots[from].held != FREE)
        from++;
    return from;
}

/* A number that is real, or -1. */
static int any_real(void)
{
    int at = 0;
    while (at < NUMBERS && slots[at].held != REAL)
        at++;
    return at < NUMBERS ? at : -1;
}

/* Whether another thread may have made a native descriptor another one beside this table. */
static int is_doubtful;

/* How often each number has come to lead elsewhere. */
static unsigned stamps[NUMBERS];

/* How many threads are in a native call that makes a descriptor, which has no place in the table yet; and the numbers
   that were found open meanwhile, which may be of these calls. */
static int makers;
static char are_suspect[NUMBERS];

/* Whether stdin, which reads on descriptor 0, may have read since a file of fdref is there: it has a buffer then. */
static int is_input_idle;

static int has_input(void)
{
#ifdef __GLIBC__
    return stdin && __fbufsize(stdin) > 0;
#else
    return 1;
#endif
}

static void tell_input(void)
{
    is_input_idle = !has_input();
    goes_past('-', is_input_idle ? "idle" : "stdio", "0", NULL);
}

/* The same once it has read. */
static void tell_late_input(void)
{
    if (is_input_idle && has_input())
        tell_input();
}

static void take(int fd, struct slot slot, int is_cloexec)
{
    if (fd < 0 || fd >= NUMBERS)
        return;
    is_doubtful = is_doubtful || (how == NATIVE && !is_alone());
    stamps[fd]++;
    are_suspect[fd] = 0;
    slots[fd] = slot;
    slots[fd].is_cloexec = is_cloexec;
    known[fd] = slot.held != FREE;
    if (slot.held == OURS && fd == 0)
        tell_input();
    else if (slot.held == OURS && fd <= 2)
        goes_past('-', "stdio", fd == 1 ? "1" : "2", NULL);
}

static void take_real(int fd)
{
    struct slot slot = {REAL, 0, 0, 0};
    take(fd, slot, 0);
}

static void set_free(int fd)
{
    struct slot slot = {FREE, 0, 0, 0};
    take(fd, slot, 0);
}

/* Tells a number that is open though no call known to fdref has made it, once. */
static void tell_unknown(int fd)
{
    char number[12];
    snprintf(number, sizeof number, "%d", fd);
    known[fd] = 1;
    goes_past_natively('!', "made", number);
}

/* Tells those that no other call had made after all. */
static void tell_suspects(void)
{
    for (int at = 0; at < NUMBERS; at++)
        if (are_suspect[at] && !known[at])
            tell_unknown(at);
    memset(are_suspect, 0, sizeof are_suspect);
}

static int64_t count_makers(int more)
{
    makers += more;
    if (makers == 0)
        tell_suspects();
    return 0;
}

/* A thread begins, or ends, a native call that makes a descriptor. */
static void begin_making(void)
{
    if (how == NATIVE && !is_behind)
        ALONE(count_makers(1));
}

static void end_making(void)
{
    int error = errno;
    if (how == NATIVE && !is_behind)
        ALONE(count_makers(-1));
    errno = error;
}

/* In a child of a native run no other thread is there, which may have had the lock. */
static void forget_others(void)
{
    static const pthread_mutex_t is_new = PTHREAD_MUTEX_INITIALIZER;
    mutex = is_new;
    is_held = makers = 0;
    memset(are_suspect, 0, sizeof are_suspect);
}

static int64_t look_below(int from, int64_t end)
{
    for (int at = from < 0 ? 0 : from; at < end && at < NUMBERS; at++)
        if (!known[at] && is_open_in_kernel(at)) {
            if (makers > 1)
                are_suspect[at] = 1;
            else
                tell_unknown(at);
        }
    return 0;
}

/* A native call has made a descriptor, the lowest that was free from one on. Those below it are told that are open
   though no call known to fdref has made them, each once. Where other threads make some, too, that is told after. */
static void tell_made(int from, int64_t fd)
{
    int error = errno;
    if (how == NATIVE)
        ALONE(look_below(from, fd < 0 && error == EMFILE ? NUMBERS : fd));
    errno = error;
}

/* Pipes have numbers of their own, above those of files. */
static uint64_t inode_of_pipe(void)
{
    static uint32_t pipes;
    uint32_t number = process ? (uint32_t)process->number : native_number;
    return (UINT64_C(1) << 31) + ((uint64_t)number << 20) + pipes++;
}

/* ---- asking */

/* The thread that has ended its process in fdref. */
static pthread_t ender;

/* Lets another thread wait until its process ends in the system, too. */
static void wait_for_end(void)
{
    is_held = 0;
    pthread_mutex_unlock(&mutex);
    for (;;)
        pause();
}

/* Makes a call that is not logged. An answer that is none ends the program. */
static int64_t ask_aside(struct fdref_act act, void *buffer, uint64_t most)
{
    int64_t value = process ? fdref_ask(process, act, buffer, most) : -1;
    const char *word = words[act.kind - FDREF_OPEN];
    int error = errno, refusal = process ? fdref_refusal(process) : FDREF_LOST;
    if (how == ENDED && !pthread_equal(ender, pthread_self()))
        wait_for_end();
    if (value >= 0 || refusal <= FDREF_UNSENT)
        return value;
    if (!process)
        end_with(NO_ANSWER, "%s after the exit", word);
    if (refusal == FDREF_LOST)
        end_with(NO_ANSWER, "the connection is lost in %s: %s", word, strerror(error));
    log_line(NULL, act, NULL, fdref_refusals[refusal - FDREF_NO_MEMORY].name);
    end_with(NO_ANSWER, "%s is refused: %s", word, fdref_refusals[refusal - FDREF_NO_MEMORY].name);
}

/* Makes a call, and logs what it came to. */
static int64_t ask_most(struct fdref_act act, void *buffer, uint64_t most)
{
    int64_t value = ask_aside(act, buffer, most);
    int error = errno;
    if (fdref_refusal(process) == FDREF_RECORDED)
        log_line(&process->place, act, &process->outcome, NULL);
    errno = error;
    return value;
}

static int64_t ask(struct fdref_act act) { return ask_most(act, NULL, INT_MAX); }

/* Logs what the system answered, if fdref could be asked, and hands that on. */
static int64_t note(struct fdref_act act, struct fdref_outcome outcome, int64_t value)
{
    int error = errno;
    const char *name = act.name ? act.name : "", *new_name = act.new_name ? act.new_name : "";
    if (strlen(name) <= FDREF_NAME_MOST && strlen(new_name) <= FDREF_NAME_MOST)
        log_line(NULL, act, value < 0 ? (outcome = fdref_error(error), &outcome) : &outcome, NULL);
    errno = error;
    return value;
}

/* The same of a call that gives a number, or nothing. */
static int64_t noted(struct fdref_act act, int64_t value)
{
    int is_number = fdref_calls[act.kind - FDREF_OPEN].gives == FDREF_NUMBER;
    int error = errno;
    enter();
    errno = error;
    return left(note(act, is_number ? fdref_number((uint64_t)value) : fdref_done(), value));
}

/* ---- placeholders, by which fdref holds the numbers of real files */

/* A new file without a name, at the lowest free descriptor. */
static int fresh(void)
{
    char name[FDREF_NAME_MOST];
    int fd, error;
    snprintf(name, sizeof name, "fdref-preload-p%ld", (long)process->number);
    fd = (int)ask_aside(fdref_act_open(name, O_RDWR | O_CREAT | O_EXCL), NULL, NUMBERS);
    error = errno;
    if (fd >= 0)
        ask_aside(fdref_act_unlink(name), NULL, 0);
    errno = error;
    return fd;
}

/* A placeholder at the lowest free descriptor. */
static int hold(void)
{
    int other = any_real();
    return other >= 0 ? (int)ask_aside(fdref_act_dup(other), NULL, NUMBERS) : fresh();
}

/* A placeholder at this descriptor, whatever is there. */
static int64_t hold_at(int fd)
{
    int other = any_real(), made;
    if (slots[fd].held == REAL)
        return 0;
    if (other >= 0)
        return ask_aside(fdref_act_dup2(other, fd), NULL, NUMBERS);
    if (slots[fd].held == OURS)
        ask_aside(fdref_act_close(fd), NULL, 0);
    made = fresh();
    if (made < 0 || made == fd)
        return made;
    ask_aside(fdref_act_dup2(made, fd), NULL, NUMBERS);
    return ask_aside(fdref_act_close(made), NULL, 0);
}

/* Takes a number in the kernel, by what can neither be read nor written, and leads to no folder. */
static void make_blank(int fd)
{
    if (system_dup3(blank, fd, O_CLOEXEC) < 0)
        end_with(NO_ANSWER, "descriptor %d cannot be held: %s", fd, strerror(errno));
}

/* Gives a file of the kernel the number that fdref gives, in place of the one that it has. */
static int adopt(int high, int is_cloexec)
{
    int fd = hold(), error = errno;
    if (fd >= 0 && system_dup3(high, fd, is_cloexec ? O_CLOEXEC : 0) < 0)
        end_with(NO_ANSWER, "descriptor %d cannot be made: %s", fd, strerror(errno));
    take_real(fd);
    system_close(high);
    errno = error;
    return fd;
}

/* ---- files by their names */

/* What fdref tells of a file, and the number that it has here. */
struct file {
    struct fdref_stat stat;
    uint64_t inode;
};

/* A name that cannot be opened for reading and writing, though it may be one, is that of a FIFO. */
static int is_fifo(const char *name)
{
    static const char portable[] = "ABCDEFGHIJKLMNOPQRSTUVWXYZabcdefghijklmnopqrstuvwxyz0123456789._-";
    return errno == EINVAL && name[strspn(name, portable)] == 0;
}

static int64_t look_by_name(const char *name, struct file *file)
{
    struct fdref_stat fifo = {FDREF_KIND_FIFO, 0, 1};
    int fd = (int)ask_aside(fdref_act_open(name, O_RDWR), NULL, NUMBERS);
    file->inode = told_inode(inode_of_name(name));
    file->stat = fifo;
    if (fd < 0)
        return is_fifo(name) ? 0 : -1;
    ask_aside(fdref_act_fstat(fd), NULL, 0);
    file->stat = process->outcome.stat;
    ask_aside(fdref_act_close(fd), NULL, 0);
    return 0;
}

/* ---- handlers of signals

   A signal without a handler ends no call. One may end a call that waits, unless it restarts that, and cut a write
   short in either way. */

/* How each signal is handled, as this program has set it: by no handler, one that ends calls, or one that restarts; or
   it is ignored. */
enum handling { NO_HANDLER, ENDS_CALLS, RESTARTS, IGNORED };
static enum handling handlings[NSIG];
static const char *const told_handlings[] = {"none", "ends", "restarts", "ignored"};
static const char *const told_heard[] = {"none", "ends heard", "restarts heard", "ignored"};

/* The handlers of a native run that this library calls, so that it is noted when they run. */
typedef void (*handler)(int);
struct passed_on {
    handler plain;
    void (*more)(int, siginfo_t *, void *);
};
static struct passed_on passed_on[NSIG];
static char are_heard[NSIG];

/* A library in between may set a handler by another function that is here. */
static __thread int is_setting;

static void note_how(int number)
{
    note_handling(number, (are_heard[number] ? told_heard : told_handlings)[handlings[number]]);
}

static enum handling handling_of(int number)
{
    struct sigaction now;
    if (sigaction(number, NULL, &now) != 0 || now.sa_handler == SIG_DFL)
        return NO_HANDLER;
    if (now.sa_handler == SIG_IGN)
        return IGNORED;
    return (now.sa_flags & SA_RESTART) != 0 ? RESTARTS : ENDS_CALLS;
}

/* Notes how a signal is handled, where that has changed. */
static void note_handler(int number)
{
    int error = errno, is_known = (how == ASKED || how == NATIVE) && number > 0 && number < NSIG, is_heard;
    if (is_known) {
        is_heard = passed_on[number].plain || passed_on[number].more;
        if (handling_of(number) != handlings[number] || is_heard != are_heard[number]) {
            handlings[number] = handling_of(number);
            are_heard[number] = (char)is_heard;
            note_how(number);
        }
    }
    errno = error;
}

/* A native child has the handlers of its parent. */
static void note_handlers(void)
{
    for (int number = 1; number < NSIG; number++)
        if (handlings[number] != NO_HANDLER)
            note_how(number);
}

/* ---- beginning and ending */

/* The exit is recorded when this returns, and no handler makes a call any more. Where another thread waits in a call it
   comes with the end of the program. */
static void end(void)
{
    if (own_pid != system_getpid())
        return;
    note_cut();
    tell_late_input();
    if (how == NATIVE)
        tell_suspects();
    if (how != ASKED || (is_held && pthread_equal(owner, pthread_self())) || pthread_mutex_trylock(&mutex) != 0)
        return;
    be_quiet();
    how = ENDED;
    ender = pthread_self();
    fdref_exit(process);
    process = NULL;
    pthread_mutex_unlock(&mutex);
}

/* Natively a process says with which status it exits. */
static void tell_exit(int status, int is_at_once)
{
    if (how == NATIVE && own_pid == system_getpid())
        say_exit(own_pid, (status & 255) | (is_at_once ? AT_ONCE : 0) | (is_alone() ? BY_ITSELF : 0));
}

#ifdef __GLIBC__
static void tell_at_exit(int status, void *unused)
{
    (void)unused;
    tell_exit(status, 0);
}
#endif

static void end_at_exit(void *unused)
{
    (void)unused;
    end();
}

static void end_quickly(void) { end(); }

/* Every number below NUMBERS is taken in the kernel; fdref holds those that the program has open. */
static void take_numbers(void)
{
    int made = fresh(), is_wanted = 0;
    blank = hidden(system_open("/dev/null", O_PATH | O_CLOEXEC, 0));
    if (made != 0 || blank < NUMBERS)
        end_with(NO_ANSWER, "descriptors cannot be held");
    for (int fd = 0; fd < NUMBERS; fd++) {
        if (!is_open_in_kernel(fd)) {
            make_blank(fd);
            continue;
        }
        is_wanted = is_wanted || fd == 0;
        take_real(fd);
        if (fd != 0)
            ask_aside(fdref_act_dup2(0, fd), NULL, NUMBERS);
    }
    if (!is_wanted)
        ask_aside(fdref_act_close(0), NULL, 0);
}

static void join(void)
{
    raise_limit();
    process = fdref_begin(socket_path, 1, FDREF_FIRST_ANSWER, FDREF_JOIN, 0);
    if (!process && (errno == ETIMEDOUT || errno == ECONNRESET))
        end_with(NO_ANSWER, "%s: %s", socket_path, fdref_no_process(errno));
    if (!process)
        end_with(NO_ANSWER, "no server at %s: %s", socket_path, strerror(errno));
    process->socket = hidden(process->socket);
    begin_sharing();
    take_numbers();
}

static int opened_log(const char *path)
{
    int fd = system_open(path, O_WRONLY | O_CREAT | O_APPEND | O_CLOEXEC, 0666);
    if (fd < 0)
        end_with(NO_ANSWER, "the log %s cannot be opened: %s", path, strerror(errno));
    return hidden(fd);
}

/* The first process of a native run is 0. A program that another one has started, as by system, has numbers of its own,
   which begin at NATIVE_MOST times that of its process in the system. */
enum { NATIVE_MOST = 1000 };

static void begin_natively(void)
{
    begin_sharing();
    for (int fd = 0; fd < NUMBERS; fd++)
        if (is_open_in_kernel(fd))
            take_real(fd);
    if (getenv("FDREF_BEGUN")) {
        native_number = (uint32_t)system_getpid() * NATIVE_MOST;
        shared->next_number = native_number + 1;
    }
}

/* ---- from one program to the next

   An exec hands the process on in a variable of the environment: its number in the system, its number and place in the
   run, the descriptors of the connection, or -1, and of what is shared, whether the table is sure, the table, and the
   words of the program. */

static const char handed_name[] = "FDREF_HANDED=", failed_name[] = "FDREF_FAILED=";
enum { HANDED_MOST = 250 + NUMBERS * 50 };

/* How many words a program is given, the first one, and the others. */
struct given_words {
    int count;
    uint64_t first, others;
};

static void add_word(struct given_words *it, const char *word)
{
    if (it->count++ == 0)
        it->first = hash_of(word);
    else
        it->others = (it->others ^ hash_of(word)) * UINT64_C(1099511628211);
}

/* The words that this program has in the system, of which the last ones are looked at, where it has so many. */
static struct given_words words_here(int last)
{
    enum { MOST = 1 << 20 };
    struct given_words all = {0, 0, 0}, it = {0, 0, 0};
    char *text = (char *)calloc(MOST + 1, 1);
    int file = system_open("/proc/self/cmdline", O_RDONLY | O_CLOEXEC, 0);
    ssize_t size = 0, some = 1;
    while (text && file >= 0 && some > 0 && size < MOST) {
        some = (ssize_t)system_syscall(SYS_read, (long)file, text + size, (size_t)(MOST - size));
        size += some > 0 ? some : 0;
    }
    for (ssize_t at = 0; at < size && size < MOST; at += (ssize_t)strlen(text + at) + 1)
        add_word(&all, text + at);
    for (ssize_t at = 0, number = 0; at < size && size < MOST; at += (ssize_t)strlen(text + at) + 1, number++)
        if (number == 0 || number > all.count - last)
            add_word(&it, text + at);
    it.count = all.count;
    system_close(file);
    free(text);
    return it;
}

/* Notes natively that an exec has given other words. A script has its interpreter before it, and no first word. */
static void check_words(const char *what, struct given_words given)
{
    struct given_words here = words_here(given.count);
    int is_script = here.count > given.count;
    if (given.count == 0 || here.count == 0)
        return;
    if (here.count < given.count || here.others != given.others || (!is_script && here.first != given.first))
        note_wrong(what, "has given a program other words");
}

/* Lets an exec keep what is handed on, or close it. */
static void hand_files(int flags)
{
    system_fcntl(shared_file, F_SETFD, flags);
    if (process)
        system_fcntl(process->socket, F_SETFD, flags);
}

/* The descriptors of which it was noted that FD_CLOEXEC is otherwise than it was set. */
static char are_flags_told[NUMBERS];

static void note_cloexec(const char *what, int fd, int is_kept_open)
{
    char text[40];
    are_flags_told[fd] = 1;
    snprintf(text, sizeof text, "%d = %s", fd, is_kept_open ? "kept" : "closed");
    note_past('!', (uint64_t)log_length(), native_number, "cloexec", what, text);
}

/* Whether an exec is to close a descriptor: what the kernel has where that was noted. */
static int is_closing(int fd)
{
    int flags = are_flags_told[fd] ? system_fcntl(fd, F_GETFD, 0) : -1;
    return flags >= 0 ? (flags & FD_CLOEXEC) != 0 : slots[fd].is_cloexec;
}

/* What the kernel has of the file of a descriptor, or zeros where it is not known. */
static struct stat told_in_kernel(int fd)
{
    struct stat told;
    int error = errno;
    memset(&told, 0, sizeof told);
#ifdef SYS_newfstatat
    if (system_syscall(SYS_newfstatat, (long)fd, "", &told, (long)AT_EMPTY_PATH) != 0)
        memset(&told, 0, sizeof told);
#endif
    errno = error;
    return told;
}

/* The number that the kernel has of it. */
static unsigned long long inode_in_kernel(int fd) { return told_in_kernel(fd).st_ino; }

/* What is at a number as an exec begins. Natively it may have been closed where no call is seen. */
static enum held held_now(int fd)
{
    return known[fd] && (how != NATIVE || is_open_in_kernel(fd)) ? slots[fd].held : FREE;
}

static void put_table(char *to, size_t size, const char *what, char *const list[])
{
    struct given_words given = {0, 0, 0};
    int is_sure = is_watching() && is_alone() && !is_doubtful;
    int used = snprintf(to, size, "%s%ld %ld %llu %d %d %d", handed_name, (long)system_getpid(),
                        process ? (long)process->number : (long)native_number,
                        process ? (unsigned long long)process->place : 0, process ? process->socket : -1, shared_file,
                        is_sure);
    for (int fd = 0; fd < NUMBERS; fd++)
        used += snprintf(to + used, size - (size_t)used, " %d %d %d %llx %llx", (int)held_now(fd), is_closing(fd),
                         slots[fd].is_pipe, (unsigned long long)slots[fd].inode, inode_in_kernel(fd));
    for (; *list; list++)
        add_word(&given, *list);
    snprintf(to + used, size - (size_t)used, " %d %llx %llx %s", given.count, (unsigned long long)given.first,
             (unsigned long long)given.others, what);
}

/* Reads one number of what was handed on. */
static long long next_of(char **at, int base) { return strtoll(*at, at, base); }

static struct given_words next_words(char **at)
{
    struct given_words given;
    given.count = (int)next_of(at, 10);
    given.first = strtoull(*at, at, 16);
    given.others = strtoull(*at, at, 16);
    *at += **at == ' ';
    return given;
}

/* Notes natively which descriptors an exec has kept or closed otherwise than by FD_CLOEXEC. Another file may have come
   to one that it has closed, before this library began. */
static void check_kept(const char *what, const struct slot *before, const unsigned long long *inodes)
{
    for (int fd = 0; fd < NUMBERS; fd++) {
        int is_open = is_open_in_kernel(fd), is_cloexec = before[fd].is_cloexec != 0;
        if (before[fd].held == OURS && is_open == is_cloexec && (!is_open || inode_in_kernel(fd) == inodes[fd]))
            note_cloexec(what, fd, is_cloexec);
    }
}

/* What an exec closes is closed in fdref too. Gives whether the program opened the number before this library began. */
static int take_slot(int fd, struct slot slot)
{
    int is_open = is_open_in_kernel(fd), is_early = how == ASKED && slot.held == FREE && is_open;
    int is_there = slot.held != FREE && (slot.held == OURS && how == ASKED ? !slot.is_cloexec : is_open);
    if (how == ASKED && slot.held != FREE && !is_there)
        ask_aside(fdref_act_close(fd), NULL, 0);
    if (how == ASKED && !is_early && (slot.held == OURS || !is_there))
        make_blank(fd);
    if (is_there || is_early)
        take(fd, slot, 0);
    return is_early;
}

/* Goes on as the process that a program before this one was, where it is still this one. */
static int take_over(char *at)
{
    long number;
    unsigned long long place;
    int connection, is_sure, are_early[NUMBERS];
    struct given_words given;
    struct slot before[NUMBERS];
    unsigned long long inodes[NUMBERS];
    if (!at || next_of(&at, 10) != system_getpid())
        return 0;
    number = (long)next_of(&at, 10);
    place = (unsigned long long)next_of(&at, 10);
    connection = (int)next_of(&at, 10);
    shared_file = (int)next_of(&at, 10);
    is_sure = (int)next_of(&at, 10);
    map_shared();
    if (how == NATIVE) {
        native_number = (uint32_t)number;
    } else {
        process = (struct fdref *)calloc(1, sizeof *process);
        if (!process)
            end_with(NO_ANSWER, "no memory for the connection");
        process->socket = connection;
        process->number = (pid_t)number;
        process->place = place;
        blank = hidden(system_open("/dev/null", O_PATH | O_CLOEXEC, 0));
    }
    hand_files(FD_CLOEXEC);
    if (how == NATIVE)
        note_handling(0, told_handlings[NO_HANDLER]);
    for (int fd = 0; fd < NUMBERS; fd++) {
        struct slot slot = {FREE, 0, 0, 0};
        slot.held = (enum held)next_of(&at, 10);
        slot.is_cloexec = (int)next_of(&at, 10);
        slot.is_pipe = (int)next_of(&at, 10);
        slot.inode = (uint64_t)next_of(&at, 16);
        inodes[fd] = strtoull(at, &at, 16);
        before[fd] = slot;
        are_early[fd] = take_slot(fd, slot);
    }
    for (int fd = 0; fd < NUMBERS; fd++)
        if (are_early[fd] && hold_at(fd) >= 0)
            take_real(fd);
    given = next_words(&at);
    if (is_watching())
        check_words(at, given);
    if (is_watching() && is_sure)
        check_kept(at, before, inodes);
    return 1;
}

static void end_at_last(void)
{
    __cxa_atexit(end_at_exit, NULL, NULL);
    at_quick_exit(end_quickly);
#ifdef __GLIBC__
    on_exit(tell_at_exit, NULL);
#endif
}

/* Begins where that was not done yet. Before the program has its environment, nothing is changed. */
static void prepare(void)
{
    const char *socket_named, *log_named, *past_named, *strict, *starts;
    int error = errno, is_handed;
    struct rlimit size;
    if (how != UNKNOWN)
        return;
    find_all();
    if (!environ)
        return;
    own_pid = system_getpid();
    socket_named = getenv("FDREF_SOCKET");
    log_named = getenv("FDREF_LOG");
    past_named = getenv("FDREF_PAST");
    strict = getenv("FDREF_STRICT");
    starts = getenv("FDREF_STARTS");
    is_strict = strict && strcmp(strict, "1") == 0;
    tells_starts = starts && strcmp(starts, "1") == 0;
    how = socket_named ? ASKED : log_named ? NATIVE : OFF;
    is_size_limited = system_getrlimit(RLIMIT_FSIZE, &size) == 0 && size.rlim_cur != RLIM_INFINITY;
    if (log_named)
        log_file = opened_log(log_named);
    if (how == NATIVE || how == ASKED)
        pthread_key_create(&ends_with_thread, thread_ends);
    if ((how == ASKED || how == NATIVE) && past_named)
        past_file = opened_log(past_named);
    if (how == ASKED)
        snprintf(socket_path, sizeof socket_path, "%s", socket_named);
    is_handed = how != OFF && take_over(getenv("FDREF_HANDED"));
    if (getenv("FDREF_FAILED"))
        note_wrong(getenv("FDREF_FAILED"), "has failed, and the kernel runs the program");
    unsetenv("FDREF_FAILED");
    unsetenv("FDREF_HANDED");
    if (how == NATIVE && !is_handed)
        begin_natively();
    if (how == NATIVE)
        setenv("FDREF_BEGUN", "1", 1);
    if (how == ASKED && !is_handed)
        join();
    if (how == ASKED || how == NATIVE)
        end_at_last();
    for (int number = 1; number < NSIG; number++)
        note_handler(number);
    errno = error;
}

__attribute__((constructor)) static void prepare_at_load(void) { prepare(); }

static int is_off(void) { return how == OFF || how == UNKNOWN; }

/* ---- ways */

/* PASS: the call is the system's alone. NOTE: the same, and logged. ASK: it is asked of fdref. */
enum way { PASS, NOTE, ASK };

static enum way way_of_ours(void)
{
    if (is_behind || is_off())
        return PASS;
    begin_call();
    tell_late_input();
    return how == NATIVE ? NOTE : ASK;
}

/* What is due of the native call that this thread is about to make: EBADF, since its number is none of fdref's, and
   nothing is open there; where its other words may be refused, too, any error; and else anything. */
enum due { ANY_IS_DUE, ERROR_IS_DUE, EBADF_IS_DUE };
static __thread enum due due_now;

/* Whether the descriptor of that call is one of the system alone, which is open. */
static __thread int is_real_now;

/* How many handlers that this library calls have run in this thread, and had as that was found. */
static __thread unsigned runs, runs_then;

static void lessen_due(enum due most) { due_now = due_now < most ? due_now : most; }

/* The way of a call with a descriptor. In a native run the kernel knows best which are open. */
static enum way way_of(int fd)
{
    int error = errno;
    prepare();
    if (!is_behind)
        due_now = how == NATIVE && fd >= NUMBERS && !is_open_in_kernel(fd) ? EBADF_IS_DUE : ANY_IS_DUE;
    is_real_now &= is_behind;
    runs_then = is_behind ? runs_then : runs;
    if (is_off() || is_behind || fd >= NUMBERS)
        return PASS;
    if (how == NATIVE && fd >= 0 && slots[fd].held != OURS)
        slots[fd].held = is_open_in_kernel(fd) ? REAL : FREE;
    is_real_now = how == NATIVE && fd >= 0 && slots[fd].held == REAL;
    errno = error;
    return fd >= 0 && slots[fd].held == REAL ? PASS : way_of_ours();
}

/* The name as fdref has it, or NULL where it leads elsewhere, and is the kernel's. */
static const char *plain(const char *name)
{
    const char *rest = name;
    if (!name)
        return NULL;
    while (rest[0] == '.' && rest[1] == '/')
        for (rest += 2; *rest == '/';)
            rest++;
    if ((rest != name && *rest == 0) || strchr(rest, '/') || strcmp(rest, ".") == 0 || strcmp(rest, "..") == 0)
        return NULL;
    return rest;
}

/* A path that leads elsewhere is the kernel's. */
static enum way way_elsewhere(const char *what, const char *name)
{
    if (name && *name)
        goes_past('!', "path", what, name);
    if (is_strict && how == ASKED && name && *name)
        end_with(LEFT_OUT, "the path %s is left out", name);
    return PASS;
}

/* The same of a name in a folder. */
static enum way way_in_folder(const char *what, const char *name)
{
    if (is_strict && how == ASKED && name && *name && *name != '/')
        end_with(LEFT_OUT, "%s in a folder is left out", name);
    return way_elsewhere(what, name);
}

/* Whether fdref has a file of a name that is asked of it. */
static int is_file(const char *name)
{
    int error = errno, is_there;
    struct file file;
    is_there = how == ASKED && plain(name) && ALONE(look_by_name(plain(name), &file)) == 0;
    errno = error;
    return is_there;
}

/* Whether the kernel has something at a path. */
static int is_reached(const char *path)
{
    return system_syscall(SYS_faccessat, (long)AT_FDCWD, path, (long)F_OK) == 0 || errno == EACCES;
}

/* Whether a plain name is that of a folder of the kernel, and of no file of fdref. */
static int is_folder(const char *name)
{
    char path[NAME_MAX + 3];
    int error = errno, is_there = 0;
    if (*name && snprintf(path, sizeof path, "%s/.", name) < (int)sizeof path)
        is_there = is_reached(path) && !is_file(name);
    errno = error;
    return is_there;
}

/* The way of a call with a name, from which `./` is taken. */
static enum way way_of_name(const char *what, const char **name)
{
    const char *rest = plain(*name);
    prepare();
    if (!rest || is_off() || is_folder(rest))
        return way_elsewhere(what, *name);
    *name = rest;
    return way_of_ours();
}

/* The same of a name in a folder. */
static enum way way_in(const char *what, int folder, const char **name)
{
    prepare();
    return folder == AT_FDCWD ? way_of_name(what, name) : way_in_folder(what, *name);
}
