/* Lets real processes make file calls at once, at full speed, and prints when each call began and came back.
   docs/KERNELS.md has more.

   usage: race_kernel [--dir DIR] [--rounds N] [--seed S] [--pin] [--exchange] [--wait MS] < script

   A script is acts as ask_kernel has them, which are made one after another, then a line `race`, and then the parts:
   the calls of one process are its part, in their order, and nothing orders the parts. Each of N rounds (1) is run by
   new processes in a new folder in DIR, or else in $TMPDIR or /tmp. A line is a call, `START END pK ACT = OUTCOME`, in
   nanoseconds of CLOCK_MONOTONIC from the start of the round; an empty line ends the round.

   A round ends with its parts, or where nothing has come back for MS milliseconds (20) and each call under way is an
   open, a read or a write that sleeps, as far as that is seen: its END is `-`, and its OUTCOME `parked ?`. With a seed
   above 0, processes wait for a short random time before each call. With --pin, on Linux, process K is run by the
   processor K modulo how many there are. With --exchange the ends of a pipe change places at once, by dup2 and close,
   where the writing end has the lower number.

   Exit status: as ask_kernel has them. A script that cannot be raced is 3; a call that may not wait, or is none of the
   race, and has not come back after ten seconds is 7. */

#ifdef __linux__
#define _GNU_SOURCE
#endif
#define DRIVER "race_kernel"

#include "acts.h"

#include <sched.h>
#include <stdatomic.h>
#include <sys/mman.h>

/* How many processes and acts a script has at most; how often one looks for what it waits for before it lets others
   run, at the start of a race and before it; and the bytes that processors share at once. */
enum { PROCESSES_MOST = 64, ACTS_MOST = 65536, LOOKS_AT_START = 20000, LOOKS_BEFORE = 200 };
enum { LINE_BYTES = 128, PAGE_BYTES = 4096 };

/* What is known of a call of a round. It is written by the process that makes it. */
struct note {
    _Alignas(LINE_BYTES) atomic_int state;
    long long start, end;
    struct answer answer;
};

enum { NOT_BEGUN, UNDER_WAY, CAME_BACK };

/* An act of the script with its bytes, where what it reads goes, its note, and the process that it makes. */
struct step {
    struct act act;
    unsigned char *bytes, *into;
    size_t room;
    struct note *note;
    unsigned long child;
};

/* What all processes of a round see: whose turn it is before the race, how many are ready for it, and how many of
   these are awake. */
struct common {
    _Alignas(LINE_BYTES) atomic_ulong turn;
    _Alignas(LINE_BYTES) atomic_ulong ready;
    _Alignas(LINE_BYTES) atomic_ulong awake;
    _Alignas(LINE_BYTES) pid_t pids[PROCESSES_MOST];
};

/* A process of the script: the steps of its part, and whether it is there when the race begins. */
struct process {
    unsigned long first, count;
    int is_live, is_attached;
};

static struct step *steps;
static unsigned long *parts;
static unsigned long step_count, setup_count, process_count, part_count;
static struct process processes[PROCESSES_MOST];
static struct common *common;
static unsigned long long seed, shuffle;
static long long begun;
static int is_pinned, exchanges_ends;

/* Ends all processes of the script, also one that is not in the group yet, and waits until they are gone. */
static void clean_up(void)
{
    if (group <= 0)
        return;
    end_group();
    for (unsigned long at = 0; at < process_count; at++) {
        if (common->pids[at] > 0) {
            kill(common->pids[at], SIGKILL);
            await_end(common->pids[at]);
        }
    }
    group = 0;
}

static void die_of(unsigned long process, int status)
{
    char who[64];
    snprintf(who, sizeof who, "p%lu, process %ld", process, (long)common->pids[process]);
    die(status, who, status == PROCESS_LOST ? "was ended from outside" : "neither answered nor slept for ten seconds");
}

/* Nanoseconds of the clock since the round has begun. */
static long long now(void)
{
    struct timespec time;
    clock_gettime(CLOCK_MONOTONIC, &time);
    return (long long)time.tv_sec * 1000000000 + time.tv_nsec - begun;
}

/* ---- the script */

static void die_of_line(unsigned long number, const char *why)
{
    char where[64];
    snprintf(where, sizeof where, "line %lu", number);
    die(BAD_SCRIPT, where, why);
}

/* Why an act cannot be made where it stands, or nothing. */
static const char *fault_of(const struct act *act, int is_race)
{
    int is_child = act->call == ATTACH, is_call = act->call < FORK || act->call == EXIT;
    const struct process *process = act->actor < process_count ? &processes[act->actor] : NULL;
    if (is_race && !is_call)
        return "no call of a race";
    if (act->call == RESUME || act->call == CLOSE_RUN)
        return "no call";
    if ((act->call == JOIN || act->call == FORK) && process_count == PROCESSES_MOST)
        return "too many processes";
    if (act->call != JOIN && (!process || !process->is_live || process->is_attached == is_child))
        return "no such process";
    return act->is_askable ? NULL : "a call that is not asked";
}

/* Keeps an act. Whom it makes, attaches or ends is known from then on. */
static void keep_act(const struct act *act)
{
    struct step *step = &steps[step_count++];
    *step = (struct step){.act = *act, .child = process_count};
    step->room = act->call == READ ? (size_t)act->numbers[1] : act->call == PREAD ? (size_t)act->numbers[2] : 0;
    step->room = step->room < READ_MOST ? step->room : READ_MOST;
    need((step->bytes = malloc(act->size + 1)) != NULL, "malloc");
    memcpy(step->bytes, data, act->size);
    if (act->call == JOIN)
        step->act.actor = process_count;
    if (act->call == JOIN || act->call == FORK)
        processes[process_count++] = (struct process){.is_live = 1, .is_attached = act->call == JOIN};
    processes[step->act.actor].is_attached |= act->call == ATTACH;
    processes[step->act.actor].is_live &= act->call != EXIT;
}

static void read_line(char *line, unsigned long number, int *is_race)
{
    struct act act;
    const char *fault;
    if (strcmp(line, "race") == 0 && !*is_race) {
        *is_race = 1;
        setup_count = step_count;
        return;
    }
    if (!read_act(line, &act))
        die_of_line(number, "not an act");
    fault = step_count == ACTS_MOST ? "too many acts" : fault_of(&act, *is_race);
    if (fault)
        die_of_line(number, fault);
    keep_act(&act);
}

/* Finds the parts. A process that ends in the race is there when it begins. */
static void find_parts(void)
{
    unsigned long found = 0;
    need((parts = malloc((step_count + 1) * sizeof *parts)) != NULL, "malloc");
    for (unsigned long who = 0; who < process_count; who++) {
        processes[who].first = found;
        for (unsigned long at = setup_count; at < step_count; at++)
            if (steps[at].act.actor == who)
                parts[found++] = at;
        processes[who].count = found - processes[who].first;
        processes[who].is_live |= processes[who].count > 0;
        part_count += processes[who].count > 0;
    }
}

static void read_script(void)
{
    char *line = NULL;
    size_t room = 0;
    ssize_t size;
    int is_race = 0;
    need((steps = malloc(ACTS_MOST * sizeof *steps)) != NULL, "malloc");
    for (unsigned long number = 1; errno = 0, (size = getline(&line, &room, stdin)) >= 0; number++) {
        size -= line[size - 1] == '\n';
        line[size] = 0;
        if (strlen(line) != (size_t)size)
            die_of_line(number, "not an act");
        if (size > 0)
            read_line(line, number, &is_race);
    }
    if (ferror(stdin) || errno != 0)
        die(STREAM_FAILED, "cannot read", strerror(errno));
    if (!is_race)
        die(BAD_SCRIPT, "script", "no line `race`");
    free(line);
    find_parts();
}

/* Makes the memory that the processes share: what all see, the notes, and the bytes that are read. */
static void make_common(void)
{
    size_t notes = sizeof *common, bytes = notes + step_count * sizeof(struct note), size = bytes;
    unsigned char *memory;
    for (unsigned long at = 0; at < step_count; at++)
        size += steps[at].room;
    memory = mmap(NULL, size, PROT_READ | PROT_WRITE, MAP_SHARED | MAP_ANONYMOUS, -1, 0);
    need(memory != MAP_FAILED, "mmap");
    common = (struct common *)(void *)memory;
    for (unsigned long at = 0; at < step_count; at++) {
        steps[at].note = (struct note *)(void *)(memory + notes) + at;
        steps[at].into = memory + bytes;
        bytes += steps[at].room;
    }
}

/* ---- a process of the script */

static void came_back(struct step *step) { atomic_store_explicit(&step->note->state, CAME_BACK, memory_order_release); }

/* Notes an act that is no call of a process, or one whose process is gone. */
static void note_own(struct step *step, long long start, long long value)
{
    step->note->start = start;
    step->note->end = now();
    step->note->answer = (struct answer){.value = value};
    came_back(step);
}

/* Gives the turn to the act after one, or to the next that is no attach: these only say that a process may go on. */
static void pass_on(unsigned long at)
{
    for (at++; at < setup_count && steps[at].act.call == ATTACH; at++)
        note_own(&steps[at], now(), 0);
    atomic_store(&common->turn, at);
}

/* Waits until a number that all see is there, asleep where that takes long. */
static void await_number(const atomic_ulong *number, unsigned long wanted)
{
    for (int looks = 0; atomic_load(number) != wanted; looks++)
        if (looks >= LOOKS_BEFORE)
            nanosleep(&(struct timespec){0, 20000}, NULL);
}

/* Waits for the common start: first until all are there, and then, awake, until all are awake. */
static void await_start(void)
{
    atomic_fetch_add(&common->ready, 1);
    await_number(&common->ready, part_count);
    atomic_fetch_add(&common->awake, 1);
    for (int looks = 0; atomic_load_explicit(&common->awake, memory_order_acquire) != part_count; looks++)
        if (looks >= LOOKS_AT_START)
            sched_yield();
}

static void pin(unsigned long process)
{
#ifdef __linux__
    cpu_set_t all, one;
    unsigned long left;
    must(sched_getaffinity(0, sizeof all, &all) == 0);
    left = process % (unsigned long)CPU_COUNT(&all);
    for (size_t at = 0; at < CPU_SETSIZE; at++) {
        if (CPU_ISSET(at, &all) && left-- == 0) {
            CPU_ZERO(&one);
            CPU_SET(at, &one);
            must(sched_setaffinity(0, sizeof one, &one) == 0);
            return;
        }
    }
#else
    (void)process;
#endif
}

/* The next random number of a process. */
static unsigned long long next_random(void)
{
    shuffle ^= shuffle << 13;
    shuffle ^= shuffle >> 7;
    shuffle ^= shuffle << 17;
    return shuffle;
}

/* Lets the ends of a pipe change places where the writing end has the lower number, which nobody else sees; gives which
   one has it then. They stay where no descriptor can be had for that. */
static long long exchanged(long long first, struct answer *answer)
{
    int reading = (int)first, writing = (int)answer->other, between;
    if (!exchanges_ends || reading < writing)
        return first;
    limit_files(2 * OPEN_FILES);
    between = dup(writing);
    limit_files(OPEN_FILES);
    if (between < 0)
        return first;
    must(dup2(reading, writing) == writing && dup2(between, reading) == reading && close(between) == 0);
    answer->other = first;
    return writing;
}

/* Makes the call of a step, between two looks at the clock. */
static void make_call(struct step *step)
{
    struct note *note = step->note;
    long long value;
    note->start = now();
    atomic_store_explicit(&note->state, UNDER_WAY, memory_order_release);
    value = called(&step->act, step->bytes, step->into, &note->answer);
    note->end = now();
    if (step->act.call == PIPE && value >= 0)
        value = exchanged(value, &note->answer);
    set_answer(&step->act, value, &note->answer);
    came_back(step);
}

/* Forks; the child is another process from then on. Gives which one this is. */
static unsigned long make_child(struct step *step, unsigned long me)
{
    long long start = now();
    pid_t pid = fork();
    if (pid == 0)
        return step->child;
    must(pid > 0);
    common->pids[step->child] = pid;
    note_own(step, start, (long long)step->child);
    return me;
}

/* Makes the acts that a process has before the race, each in its turn; gives which process this is after them. */
static unsigned long make_setup(unsigned long at, unsigned long me)
{
    for (; at < setup_count; at++) {
        struct step *step = &steps[at];
        unsigned long was = me;
        if (step->act.actor != me || step->act.call == ATTACH)
            continue;
        await_number(&common->turn, at);
        if (step->act.call == FORK)
            me = make_child(step, me);
        else
            make_call(step);
        if (was == me)
            pass_on(at);
    }
    return me;
}

/* Touches what the calls of a part will write, so that no page of it is missing then. */
static void touch(const struct process *process)
{
    for (unsigned long at = process->first; at < process->first + process->count; at++) {
        const struct step *step = &steps[parts[at]];
        atomic_store(&step->note->state, NOT_BEGUN);
        for (size_t byte = 0; byte < step->room; byte += PAGE_BYTES)
            *(volatile unsigned char *)(step->into + byte) = 0;
        if (step->room > 0)
            *(volatile unsigned char *)(step->into + step->room - 1) = 0;
    }
}

/* Makes the calls of a part as fast as can be, or with random delays: these are short in one round, long in another. */
static void make_part(const struct process *process)
{
    unsigned long long most = 1ULL << next_random() % 10;
    touch(process);
    now();
    await_start();
    for (unsigned long at = process->first; at < process->first + process->count; at++) {
        struct step *step = &steps[parts[at]];
        for (volatile unsigned long long left = seed ? next_random() % most : 0; left > 0; left--)
            continue;
        make_call(step);
    }
}

/* Begins the process that a join makes, and runs it. What it has open stays open until the round is over. */
static void run_process(unsigned long at, unsigned long me, unsigned long long round)
{
    begin_process();
    limit_files(OPEN_FILES);
    me = make_setup(at + 1, me);
    if (is_pinned)
        pin(me);
    await_number(&common->turn, setup_count);
    shuffle = (seed << 32) + round * PROCESSES_MOST + me + 1;
    for (int warm = 0; warm < 20; warm++)
        next_random();
    if (processes[me].count > 0)
        make_part(&processes[me]);
    for (;;)
        pause();
}

/* ---- a round */

static int is_under_way(const struct step *step)
{
    return atomic_load_explicit(&step->note->state, memory_order_acquire) == UNDER_WAY;
}

static int has_come_back(const struct step *step)
{
    return atomic_load_explicit(&step->note->state, memory_order_acquire) == CAME_BACK;
}

/* Whether a process has an exit under way, and is gone; its exit is noted then. */
static int has_exited(struct step *step)
{
    if (step->act.call != EXIT || !is_under_way(step) || !is_gone(common->pids[step->act.actor]))
        return 0;
    common->pids[step->act.actor] = 0;
    note_own(step, step->note->start, 0);
    return 1;
}

/* The first step of a part that has not come back, or nothing. */
static struct step *next_step(const struct process *process)
{
    for (unsigned long at = process->first; at < process->first + process->count; at++)
        if (!has_come_back(&steps[parts[at]]))
            return &steps[parts[at]];
    return NULL;
}

/* No process may be gone that has not exited, and is not in an exit of the race, which is not noted yet. */
static void find_lost(void)
{
    for (unsigned long at = 0; at < process_count; at++) {
        const struct step *step;
        if (common->pids[at] <= 0 || !is_gone(common->pids[at]))
            continue;
        step = next_step(&processes[at]);
        if (!step || step->act.call != EXIT || !is_under_way(step))
            die_of(at, PROCESS_LOST);
    }
}

static void join(unsigned long at, unsigned long long round)
{
    struct step *step = &steps[at];
    long long start = now();
    pid_t pid = fork();
    if (pid == 0)
        run_process(at, step->child, round);
    need(pid > 0, "fork");
    common->pids[step->child] = pid;
    note_own(step, start, (long long)step->child);
    pass_on(at);
}

/* Makes an act before the race, or waits until its process has made it. */
static void make_step(unsigned long at, unsigned long long round)
{
    struct step *step = &steps[at];
    long long start = now();
    if (step->act.call == JOIN)
        join(at, round);
    for (unsigned long naps = 0; atomic_load(&common->turn) <= at; naps++) {
        heed_signals();
        if (has_exited(step))
            pass_on(at);
        else if (naps % 10 == 9 && step->act.call != EXIT)
            find_lost();
        if (now() - start > PATIENCE * 1000000LL)
            die_of(step->act.actor, CALL_STUCK);
        nap();
    }
}

/* How many steps of the race have come back; exits are noted. */
static unsigned long count_back(void)
{
    unsigned long count = 0;
    for (unsigned long at = setup_count; at < step_count; at++)
        count += has_come_back(&steps[at]) || has_exited(&steps[at]);
    return count;
}

/* Whether each part that has not ended is in a call that may wait, and sleeps as far as that is seen. */
static int all_wait(void)
{
    for (unsigned long who = 0; who < process_count; who++) {
        struct step *step = next_step(&processes[who]);
        enum call call = step ? step->act.call : READ;
        long switches;
        if (!step)
            continue;
        if (!is_under_way(step) || (call != OPEN && call != READ && call != WRITE))
            return 0;
        if (sees_sleep && state_of(common->pids[who], &switches) != 'S')
            return 0;
    }
    return 1;
}

static void die_of_first(void)
{
    for (unsigned long who = 0; who < process_count; who++)
        if (next_step(&processes[who]))
            die_of(who, CALL_STUCK);
}

/* Waits until the race is over. */
static void await_parts(void)
{
    unsigned long before = 0, naps = 0, count;
    long long news = now();
    while ((count = count_back()) < step_count - setup_count) {
        int is_late = count == before && now() - news > wait_ms * 1000000LL;
        news = count == before ? news : now();
        before = count;
        heed_signals();
        if (is_late || ++naps % 100 == 0)
            find_lost();
        if (is_late) {
            if (all_wait() && count_back() == before)
                return;
            if (now() - news > PATIENCE * 1000000LL)
                die_of_first();
        }
        nap();
    }
}

/* Ends the processes of a round, and waits until they are gone. Until then none may have been ended from outside. */
static void end_processes(void)
{
    for (unsigned long at = 0; at < process_count; at++)
        if (common->pids[at] > 0 && kill(common->pids[at], 0) != 0)
            die_of(at, PROCESS_LOST);
    for (unsigned long at = 0; at < process_count; at++)
        if (common->pids[at] > 0)
            kill(common->pids[at], SIGKILL);
    for (unsigned long at = 0; at < process_count; at++) {
        if (common->pids[at] > 0 && !await_end(common->pids[at]))
            die_of(at, CALL_STUCK);
        common->pids[at] = 0;
    }
}

/* Writes a call, as it was at a time: what came back later had not come back then. */
static void put_step(const struct step *step, long long until)
{
    const struct note *note = step->note;
    int is_back = has_come_back(step) && note->end <= until;
    if ((!has_come_back(step) && !is_under_way(step)) || note->start > until)
        return;
    printf("%lld ", note->start);
    printf(is_back ? "%lld " : "- ", note->end);
    put_act(&step->act, step->bytes);
    if (is_back)
        put_answer(step->act.call, &note->answer, step->into);
    else
        printf("parked ?\n");
}

static int compare_starts(const void *one, const void *other)
{
    const struct note *a = steps[*(const unsigned long *)one].note, *b = steps[*(const unsigned long *)other].note;
    return (a->start > b->start) - (a->start < b->start);
}

static void put_round(long long until)
{
    unsigned long *order = malloc((step_count + 1) * sizeof *order);
    need(order != NULL, "malloc");
    for (unsigned long at = 0; at < step_count; at++)
        order[at] = at < setup_count ? at : parts[at - setup_count];
    qsort(order + setup_count, step_count - setup_count, sizeof *order, compare_starts);
    for (unsigned long at = 0; at < step_count; at++)
        put_step(&steps[order[at]], until);
    putchar('\n');
    free(order);
    if (fflush(stdout) != 0 || ferror(stdout)) {
        heed_signals();
        die(STREAM_FAILED, "cannot write", strerror(errno));
    }
}

static void run_round(unsigned long long round)
{
    long long until;
    heed_signals();
    if (round > 0)
        need(mkdir("names", 0700) == 0, "names");
    begun = 0;
    begun = now();
    atomic_store(&common->turn, 0);
    atomic_store(&common->ready, 0);
    atomic_store(&common->awake, 0);
    for (unsigned long at = 0; at < step_count; at++) {
        atomic_store(&steps[at].note->state, NOT_BEGUN);
        steps[at].note->answer = (struct answer){0};
    }
    for (unsigned long at = 0; at < setup_count; at++)
        make_step(at, round);
    await_parts();
    until = now();
    end_processes();
    put_round(until);
    remove_folder("names");
}

/* Takes a word that has a value; gives whether it is one. */
static int read_option(const char *word, const char *value, const char **dir, long long *rounds)
{
    long long number = 0;
    int is_seed = strcmp(word, "--seed") == 0, is_wait = strcmp(word, "--wait") == 0;
    if (strcmp(word, "--dir") == 0)
        return *(*dir = value) != 0;
    if (strcmp(word, "--rounds") == 0)
        return read_number(value, 1, 1000000000, rounds);
    if (is_seed && read_number(value, 0, 0xffffffff, &number))
        return seed = (unsigned long long)number, 1;
    if (is_wait && read_number(value, 1, PATIENCE, &number))
        return wait_ms = (int)number, 1;
    return 0;
}

static int read_words(int count, char **words, const char **dir, long long *rounds)
{
    for (int at = 1; at < count; at++) {
        if (strcmp(words[at], "--exchange") == 0) {
            exchanges_ends = 1;
            continue;
        }
#ifdef __linux__
        if (strcmp(words[at], "--pin") == 0) {
            is_pinned = 1;
            continue;
        }
#endif
        if (!read_option(words[at], at + 1 < count ? words[at + 1] : "", dir, rounds))
            return 0;
        at++;
    }
    return 1;
}

int main(int count, char **words)
{
    const char *dir = getenv("TMPDIR");
    long long rounds = 1;
    int is_help = count == 2 && strcmp(words[1], "--help") == 0;
    dir = dir && *dir ? dir : "/tmp";
    if (is_help || !read_words(count, words, &dir, &rounds)) {
        FILE *to = is_help ? stdout : stderr;
        fprintf(to, "usage: race_kernel [--dir DIR] [--rounds N] [--seed S] [--pin] [--exchange] [--wait MS] "
                    "< script\n");
        return is_help ? 0 : USAGE;
    }
    read_script();
    make_common();
    begin_driver(dir);
    find_sight();
    for (long long round = 0; round < rounds; round++)
        run_round((unsigned long long)round);
    clean_up();
    return 0;
}
