/* Runs a script of file calls on the system at hand, with a real process for each process of the script, and
   prints the run as it happened in the lines of fdref. docs/FORMATS.md has the lines, docs/KERNELS.md the rest.

   usage: ask_kernel [--dir DIR] [--wait MS] < script

   A process is told its calls over a socket, which it holds at a descriptor above 31. A call waits where its process
   sleeps and has not answered: on Linux that is seen in /proc; elsewhere, or with --wait, where it has not answered
   after MS milliseconds (20). Where it comes back, a line `resume` tells it. `?` is a number that cannot be seen.
   Names are made in a fresh folder in DIR, or else in $TMPDIR or /tmp. `not asked` is a call that was not made: its
   name would lead out of the folder, or C cannot say its flags.

   Exit status: 0 the script was run; 2 wrong words; 3 a line is no act; 4 a stream failed; 5 the system refused what
   this program itself needs; 6 a process was ended from outside; 7 a call neither answered nor slept for ten seconds. */

#define DRIVER "ask_kernel"

#include "acts.h"

#include <poll.h>
#include <sys/socket.h>
#include <sys/un.h>

/* From LARGE_WRITE bytes on a write may go into a pipe in parts. */
enum { PROCESSES_MOST = 65536, LARGE_WRITE = 513 };

/* A process of the script, as this program sees it, and the call that it waits in. */
struct process {
    pid_t pid;
    int channel, is_live, is_attached, waits, is_large;
    enum call call;
    long switches;
};

static unsigned char buffer[READ_MOST];
static struct process processes[PROCESSES_MOST];
static unsigned long process_count;
static unsigned long long records, bytes_in, bytes_out;
static int is_closed, may_have_room, unknown_writes;
static int listener = -1, channel = -1;

static void die_of(const struct process *process, int status)
{
    char who[64];
    snprintf(who, sizeof who, "p%ld, process %ld", (long)(process - processes), (long)process->pid);
    die(status, who, status == PROCESS_LOST ? "was ended from outside" : "neither answered nor slept for ten seconds");
}

/* ---- writing lines */

/* Begins a line: a record has a place. */
static void put_record(const struct act *act, int is_record)
{
    printf(is_record ? "%llu " : "- ", records);
    records += (unsigned long long)is_record;
    put_act(act, data);
}

static void tell(const struct act *act, int is_record, const char *what)
{
    put_record(act, is_record);
    printf("%s\n", what);
}

/* Records what an act came to, and counts what it moved. What the act tells again is a call that came back. */
static void record_answer(const struct act *act, enum call call, const struct answer *answer)
{
    put_record(act, 1);
    put_answer(call, answer, buffer);
    if (answer->error)
        return;
    bytes_in += call == WRITE || call == PWRITE ? (unsigned long long)answer->value : 0;
    bytes_out += answer->size;
    may_have_room |= (call == READ && answer->size > 0) || call == CLOSE || call == DUP2;
}

/* Whether a channel is ready within a time, as one is whose other end is closed. */
static int is_ready(int fd, short events, int ms)
{
    struct pollfd one = {fd, events, 0};
    int found = 0;
    for (int left = ms; found <= 0 && (left > 0 || left == ms); left -= 100) {
        heed_signals();
        found = poll(&one, 1, left < 100 ? left : 100);
    }
    return found > 0;
}

/* Reads or writes so many bytes of a channel: of that process or, in a process of the script, of its own. */
static void move(int fd, void *bytes, size_t size, int is_read, const struct process *process)
{
    for (char *at = bytes; size > 0;) {
        ssize_t moved = is_read ? read(fd, at, size) : write(fd, at, size);
        int is_lost = moved == 0 || (moved < 0 && errno != EAGAIN && errno != EINTR);
        must(process || !is_lost);
        if (is_lost)
            die_of(process, PROCESS_LOST);
        if (moved < 0 && process && !is_ready(fd, is_read ? POLLIN : POLLOUT, PATIENCE))
            die_of(process, CALL_STUCK);
        at += moved > 0 ? moved : 0;
        size -= moved > 0 ? (size_t)moved : 0;
    }
}

/* ---- a process of the script */

/* Gives the process a channel of its own, in place of its parent's. */
static void open_channel(void)
{
    static const struct sockaddr_un address = {.sun_family = AF_UNIX, .sun_path = "../socket"};
    int old = channel;
    limit_files(RLIM_INFINITY);
    channel = lifted(socket(AF_UNIX, SOCK_STREAM, 0));
    must(channel >= 0 && connect(channel, (const struct sockaddr *)&address, sizeof address) == 0);
    close(old);
    limit_files(OPEN_FILES);
}

static long long make_child(void)
{
    pid_t pid = fork();
    if (pid == 0)
        open_channel();
    return pid;
}

/* Makes each call that comes, until an exit or the end of the channel. A new process answers at once. */
static void serve(void)
{
    static struct answer answer;
    static struct act act;
    for (;;) {
        move(channel, &answer, sizeof answer, 0, NULL);
        move(channel, buffer, answer.size, 0, NULL);
        move(channel, &act, sizeof act, 1, NULL);
        move(channel, data, act.size, 1, NULL);
        memset(&answer, 0, sizeof answer);
        set_answer(&act, act.call == FORK ? make_child() : called(&act, data, buffer, &answer), &answer);
    }
}

/* Begins a process that joins: it has nothing open but its channel. */
static void begin(void)
{
    begin_process();
    open_channel();
    serve();
}

/* Makes the socket to which the processes connect. */
static void open_listener(void)
{
    static const struct sockaddr_un address = {.sun_family = AF_UNIX, .sun_path = "socket"};
    listener = lifted(socket(AF_UNIX, SOCK_STREAM, 0));
    need(listener >= 0 && bind(listener, (const struct sockaddr *)&address, sizeof address) == 0, "socket");
    need(listen(listener, 1) == 0, "socket");
}

/* Ends all processes of the script, also one that is not in the group yet, and waits until they are gone. */
static void clean_up(void)
{
    if (group <= 0)
        return;
    end_group();
    for (unsigned long at = 0; at < process_count; at++) {
        if (processes[at].is_live) {
            kill(processes[at].pid, SIGKILL);
            await_end(processes[at].pid);
        }
    }
    group = 0;
}

enum sight { ANSWERS, MOVES, SLEEPS };

/* Looks at a process in a call until it answers or sleeps. MOVES: it sleeps, and was awake since the last look.
   Where sleep is not seen, it sleeps if it does not answer in so many milliseconds. */
static enum sight look_again(struct process *process, int ms)
{
    long before = process->switches;
    if (!sees_sleep)
        return is_ready(process->channel, POLLIN, ms) ? ANSWERS : SLEEPS;
    for (int looks = 0;; looks++) {
        int is_asleep = state_of(process->pid, &process->switches) == 'S';
        if (is_ready(process->channel, POLLIN, is_asleep ? 0 : 1))
            return ANSWERS;
        if (is_asleep)
            return process->switches == before ? SLEEPS : MOVES;
        if (looks == PATIENCE)
            die_of(process, CALL_STUCK);
    }
}

/* Lets a process make a call, and waits until it answers or, in a call that may wait, sleeps. */
static enum sight ask(struct process *process, struct act *act)
{
    int may_wait = act->call == OPEN || act->call == READ || act->call == WRITE;
    move(process->channel, act, sizeof *act, 0, process);
    move(process->channel, data, act->size, 0, process);
    process->switches = -1;
    if (!may_wait && !is_ready(process->channel, POLLIN, PATIENCE))
        die_of(process, CALL_STUCK);
    while (!is_ready(process->channel, POLLIN, 1))
        if (look_again(process, wait_ms) == SLEEPS)
            return SLEEPS;
    return ANSWERS;
}

static struct answer answer_of(struct process *process)
{
    struct answer answer;
    move(process->channel, &answer, sizeof answer, 1, process);
    move(process->channel, buffer, answer.size, 1, process);
    return answer;
}

/* ---- the run */

/* A join, which has no parent, or a fork. The new process connects to the socket, and answers. */
static void make_process(struct act *act, struct process *parent)
{
    struct process *process = &processes[process_count];
    struct answer answer = {0};
    act->actor = parent ? act->actor : process_count;
    if (is_closed) {
        tell(act, 1, "error EAGAIN");
        return;
    }
    if (process_count == PROCESSES_MOST)
        die(SYSTEM_REFUSED, calls[act->call].word, "too many processes");
    if (parent && ask(parent, act) == ANSWERS)
        answer = answer_of(parent);
    else if ((answer.value = fork()) == 0)
        begin();
    else if (answer.value < 0)
        answer.error = errno;
    *process = (struct process){.pid = (pid_t)answer.value, .is_live = 1, .is_attached = !parent};
    answer.value = (long long)process_count;
    record_answer(act, act->call, &answer);
    if (answer.error)
        return;
    process_count++;
    if (!is_ready(listener, POLLIN, PATIENCE))
        die_of(process, CALL_STUCK);
    process->channel = lifted(accept(listener, NULL, NULL));
    need(process->channel >= 0 && fcntl(process->channel, F_SETFL, O_NONBLOCK) == 0, "accept");
    answer_of(process);
}

static void make_call(struct process *process, struct act *act)
{
    if (!act->is_askable) {
        tell(act, 1, "not asked");
    } else if (ask(process, act) == ANSWERS) {
        struct answer answer = answer_of(process);
        record_answer(act, act->call, &answer);
    } else {
        process->waits = 1;
        process->call = act->call;
        process->is_large = act->call == WRITE && act->size >= LARGE_WRITE;
        unknown_writes += process->is_large;
        tell(act, 1, process->is_large ? "parked ?" : "parked 0");
    }
}

/* Ends a process; one that waits can only be killed. */
static void end_process(struct process *process)
{
    struct act act = {.call = EXIT, .actor = (unsigned long)(process - processes)};
    if (process->waits)
        kill(process->pid, SIGKILL);
    else
        move(process->channel, &act, sizeof act, 0, process);
    if (!await_end(process->pid))
        die_of(process, CALL_STUCK);
    close(process->channel);
    process->is_live = process->waits = 0;
    may_have_room = 1;
    tell(&act, 1, "ok");
}

static void close_run(const struct act *act)
{
    for (unsigned long at = 0; !is_closed && at < process_count; at++)
        if (processes[at].is_live && !processes[at].is_attached)
            end_process(&processes[at]);
    tell(act, !is_closed, is_closed ? "still" : "ok");
    is_closed = 1;
}

static void attach(struct process *process, const struct act *act)
{
    int is_child = process && process->is_live && !process->is_attached;
    if (is_child)
        process->is_attached = 1;
    tell(act, 1, is_child ? "ok" : "error ESRCH");
}

static void run_act(struct act *act)
{
    struct process *process = act->actor < process_count ? &processes[act->actor] : NULL;
    if (act->call == JOIN)
        make_process(act, NULL);
    else if (act->call == CLOSE_RUN)
        close_run(act);
    else if (act->call == ATTACH)
        attach(process, act);
    else if (!process || !process->is_live || !process->is_attached)
        tell(act, 0, "refused NotHere");
    else if (act->call == EXIT)
        end_process(process);
    else if (act->call == RESUME || process->waits)
        tell(act, 0, act->call == RESUME ? "still" : "refused Waiting");
    else if (act->call == FORK)
        make_process(act, process);
    else
        make_call(process, act);
}

/* Looks at all processes that wait; gives whether one has come back, or was awake. */
static int look_round(void)
{
    int has_news = 0, ms = wait_ms;
    for (unsigned long at = 0; at < process_count; at++) {
        struct process *process = &processes[at];
        struct act act = {.call = RESUME, .actor = at};
        enum sight sight = process->waits ? look_again(process, ms) : SLEEPS;
        ms = process->waits ? 0 : ms;
        if (sight == ANSWERS) {
            struct answer answer = answer_of(process);
            process->waits = 0;
            unknown_writes -= process->is_large;
            record_answer(&act, process->call, &answer);
        }
        has_news |= sight != SLEEPS;
    }
    return has_news;
}

/* Tells all that comes back after an act, and that large writes which still wait may have moved on. */
static void settle(void)
{
    while (look_round())
        continue;
    for (unsigned long at = 0; at < process_count; at++) {
        struct act act = {.call = RESUME, .actor = at};
        if (may_have_room && processes[at].waits && processes[at].is_large)
            tell(&act, 1, "?");
        if (processes[at].is_live && !processes[at].waits && is_ready(processes[at].channel, POLLIN, 0))
            die_of(&processes[at], PROCESS_LOST);
    }
    may_have_room = 0;
}

static void run_script(void)
{
    char *line = NULL, where[64];
    size_t room = 0;
    ssize_t size;
    struct act act;
    for (unsigned long number = 1; errno = 0, !ferror(stdout) && (size = getline(&line, &room, stdin)) >= 0; number++) {
        size -= line[size - 1] == '\n';
        line[size] = 0;
        snprintf(where, sizeof where, "line %lu", number);
        if (size > 0 && (strlen(line) != (size_t)size || !read_act(line, &act)))
            die(BAD_SCRIPT, where, "not an act; fdref replay tells the column and what could stand there");
        heed_signals();
        if (size > 0)
            run_act(&act);
        settle();
    }
    heed_signals();
    if (ferror(stdin) || errno != 0)
        die(STREAM_FAILED, "cannot read", strerror(errno));
    free(line);
    printf("records %llu in ", records);
    printf(unknown_writes ? "?" : "%llu", bytes_in);
    printf(" out %llu\n", bytes_out);
    if (fflush(stdout) != 0 || ferror(stdout))
        die(STREAM_FAILED, "cannot write", strerror(errno));
}

int main(int count, char **words)
{
    const char *dir = getenv("TMPDIR");
    long long ms = 0;
    dir = dir && *dir ? dir : "/tmp";
    for (int at = 1; at < count; at += 2) {
        const char *next = at + 1 < count ? words[at + 1] : "";
        if (strcmp(words[at], "--dir") == 0 && *next) {
            dir = next;
        } else if (strcmp(words[at], "--wait") != 0 || !read_number(next, 1, PATIENCE, &ms)) {
            int is_help = strcmp(words[at], "--help") == 0;
            fprintf(is_help ? stdout : stderr, "usage: ask_kernel [--dir DIR] [--wait MS] < script\n");
            return is_help ? 0 : USAGE;
        }
    }
    wait_ms = ms ? (int)ms : wait_ms;
    begin_driver(dir);
    open_listener();
    if (!ms)
        find_sight();
    run_script();
    clean_up();
    return 0;
}
