/* Plays one process of a server at full speed, and notes the clock before and after each of its calls.

   usage: clocked PATH CALLS SEED [CHILD]

   It joins at the server at PATH, opens files that all share, makes a pipe and a child, and prints `child N`. With a
   CHILD it attaches that one. It prints `ready`, and waits until nothing more comes by its standard input. Then it
   makes CALLS random calls, which follow from SEED. Now and then the parent writes into the pipe and the child reads
   from it, so both wait at times. At last it prints a line for each call, `START END ACT = PLACE OUTCOME; PLACE
   OUTCOME`, with a place and an outcome for each answer: the times are nanoseconds of the monotonic clock, ACT and
   OUTCOME those of a record.

   The status is 1 where a call was not answered. */

#define _POSIX_C_SOURCE 200809L

#include <stdarg.h>
#include <stdio.h>
#include <stdlib.h>
#include <string.h>
#include <time.h>

#define FDREF_IMPLEMENTATION
#include "fdref.h"

enum { FILE_FD, APPEND_FD, READ_FD, WRITE_FD, OTHER_FD, NAMES = 3, ACT_MOST = 4200, READ_MOST = 1200 };
enum gives { NUMBER, NOTHING, BYTES, TOLD, ENDS };

static struct fdref *process;
static struct fdref_stat told;
static int ends[2];
static char act[ACT_MOST], buffer[READ_MOST];
static char *text;
static size_t size;
static FILE *notes, *answers;
static long long start;
static unsigned long long chance;

static void fail(const char *why)
{
    fprintf(stderr, "clocked: %s: %s: %s\n", act, why, strerror(errno));
    exit(1);
}

/* A number below a limit. */
static int pick(int limit)
{
    chance = chance * 6364136223846793005ULL + 1442695040888963407ULL;
    return (int)((chance >> 33) % (unsigned)limit);
}

static long long now(void)
{
    struct timespec time;
    clock_gettime(CLOCK_MONOTONIC, &time);
    return (long long)time.tv_sec * 1000000000 + time.tv_nsec;
}

/* ---- noting */

static void begin(const char *format, ...)
{
    va_list values;
    va_start(values, format);
    vsnprintf(act, sizeof act, format, values);
    va_end(values);
    start = now();
}

static void print_bytes(FILE *file, const char *bytes, size_t count)
{
    size_t equal = 0;
    while (equal < count && bytes[equal] == bytes[0])
        equal++;
    if (count > 16 && equal == count) {
        fprintf(file, "%02x*%zu", (unsigned char)bytes[0], count);
        return;
    }
    fputc('x', file);
    for (size_t at = 0; at < count; at++)
        fprintf(file, "%02x", (unsigned char)bytes[at]);
}

static void print_outcome(long long result, enum gives gives)
{
    static const char *const kinds[] = {"regular", "fifo", "pipe"};
    if (result < 0)
        fprintf(answers, "error %s", fdref_error_name(errno));
    else if (gives == BYTES)
        print_bytes(answers, buffer, (size_t)result);
    else if (gives == TOLD)
        fprintf(answers, "%s %llu %lu", kinds[told.kind], (unsigned long long)told.size, (unsigned long)told.links);
    else if (gives == ENDS)
        fprintf(answers, "%d %d", ends[0], ends[1]);
    else if (gives == NOTHING)
        fputs("ok", answers);
    else
        fprintf(answers, "%lld", result);
}

/* Notes a call that was begun: its answers while it waits, and the last one. */
static void noted(long long result, enum gives gives)
{
    answers = open_memstream(&text, &size);
    if (!answers)
        fail("no memory");
    while (result < 0 && errno == EINPROGRESS) {
        const char *word = fdref_waits(process) > 1 ? "part" : "parked";
        fprintf(answers, "%llu %s %zu; ", (unsigned long long)fdref_place(process), word, fdref_moved(process));
        result = fdref_finish(process);
    }
    long long end = now();
    if (result < 0 && fdref_refusal(process) != FDREF_RECORDED)
        fail("not answered");
    fprintf(answers, "%llu ", (unsigned long long)fdref_place(process));
    print_outcome(result, gives);
    fclose(answers);
    fprintf(notes, "%lld %lld p%d %s = %s\n", start, end, (int)fdref_getpid(process), act, text);
    free(text);
}

/* Begins a call that has bytes of its own, and gives how many they are. */
static size_t begin_with(const char *call, int count)
{
    char *bytes_text = NULL;
    size_t bytes_size = 0;
    FILE *bytes = open_memstream(&bytes_text, &bytes_size);
    if (!bytes)
        fail("no memory");
    memset(buffer, 'a' + pick(26), (size_t)count);
    buffer[0] = (char)('A' + pick(26));
    print_bytes(bytes, buffer, (size_t)count);
    fclose(bytes);
    begin("%s %s", call, bytes_text);
    free(bytes_text);
    return (size_t)count;
}

/* ---- calls */

static void write_to(int fd, int count)
{
    char call[32];
    snprintf(call, sizeof call, "write %d", fd);
    size_t bytes = begin_with(call, count);
    noted(fdref_write(process, fd, buffer, bytes), NUMBER);
}

static void pwrite_at(int at)
{
    char call[32];
    snprintf(call, sizeof call, "pwrite %d %d", FILE_FD, at);
    size_t bytes = begin_with(call, 1 + pick(12));
    noted(fdref_pwrite(process, FILE_FD, buffer, bytes, at), NUMBER);
}

static void read_from(int fd, int count)
{
    begin("read %d %d", fd, count);
    noted(fdref_read(process, fd, buffer, (size_t)count), BYTES);
}

static void pread_at(int fd, int at)
{
    begin("pread %d %d 16", fd, at);
    noted(fdref_pread(process, fd, buffer, 16, at), BYTES);
}

static void close_one(int fd)
{
    begin("close %d", fd);
    noted(fdref_close(process, fd), NOTHING);
}

static void move(void)
{
    int at = pick(60);
    begin("lseek %d %d set", FILE_FD, at);
    noted(fdref_lseek(process, FILE_FD, at, SEEK_SET), NUMBER);
}

static void cut(int fd, int length)
{
    begin("ftruncate %d %d", fd, length);
    noted(fdref_ftruncate(process, fd, length), NOTHING);
}

static void look(int fd)
{
    begin("fstat %d", fd);
    noted(fdref_fstat(process, fd, &told), TOLD);
}

/* Puts one of the two files behind a descriptor, uses it, and closes it. */
static void duplicate(void)
{
    int from = pick(2) ? FILE_FD : APPEND_FD;
    begin("dup2 %d %d", from, OTHER_FD);
    noted(fdref_dup2(process, from, OTHER_FD), NUMBER);
    write_to(OTHER_FD, 1 + pick(12));
    close_one(OTHER_FD);
}

/* Makes a name or finds it, or takes it away, or gives its file another one. */
static void use_name(void)
{
    static const char *const names[NAMES] = {"c", "d", "e"};
    const char *name = names[pick(NAMES)], *other = names[pick(NAMES)];
    int how = pick(3);
    if (how == 0) {
        begin("unlink %s", name);
        noted(fdref_unlink(process, name), NOTHING);
    } else if (how == 1) {
        begin("link %s %s", name, other);
        noted(fdref_link(process, name, other), NOTHING);
    } else {
        begin("open %s rw,creat", name);
        int fd = fdref_open(process, name, O_RDWR | O_CREAT);
        noted(fd, NUMBER);
        close_one(fd);
    }
}

/* ---- the whole */

static void one_call(int is_child)
{
    int how = pick(24);
    if (how < 4)
        pread_at(pick(2), pick(60));
    else if (how < 7)
        pwrite_at(pick(60));
    else if (how < 9)
        read_from(FILE_FD, 1 + pick(12));
    else if (how < 11)
        write_to(FILE_FD, 1 + pick(12));
    else if (how < 13)
        write_to(APPEND_FD, 1 + pick(12));
    else if (how < 15)
        move();
    else if (how == 15)
        look(pick(2));
    else if (how == 16)
        cut(pick(2), pick(40));
    else if (how < 19)
        use_name();
    else if (how == 19)
        duplicate();
    else if (is_child)
        read_from(READ_FD, 1 + pick(1000));
    else
        write_to(WRITE_FD, 1 + pick(how < 23 ? 300 : 1100));
}

static void set_up(void)
{
    begin("open a rw,creat");
    noted(fdref_open(process, "a", O_RDWR | O_CREAT), NUMBER);
    begin("open b rw,creat,append");
    noted(fdref_open(process, "b", O_RDWR | O_CREAT | O_APPEND), NUMBER);
    begin("pipe");
    noted(fdref_pipe(process, ends), ENDS);
    begin("fork");
    pid_t child = fdref_fork(process);
    noted(child, NUMBER);
    /* so a write ends once the child is gone */
    close_one(READ_FD);
    printf("child %d\n", (int)child);
}

int main(int count, char **words)
{
    int is_child = count > 4;
    char *all = NULL;
    size_t all_size = 0;
    if (count < 4)
        return 2;
    notes = open_memstream(&all, &all_size);
    begin(is_child ? "attach" : "join");
    process = is_child ? fdref_attach(words[1], (pid_t)atol(words[4])) : fdref_join_within(words[1], 10);
    if (!process || !notes)
        fail("no process");
    noted(fdref_getpid(process), is_child ? NOTHING : NUMBER);
    fdref_return_when_parked(process, 1);
    chance = strtoull(words[3], NULL, 10);
    if (is_child) {
        close_one(WRITE_FD);
    } else {
        set_up();
    }
    puts("ready");
    fflush(stdout);
    while (getchar() != EOF)
        continue;
    for (long left = atol(words[2]); left > 0; left--)
        one_call(is_child);
    close_one(is_child ? READ_FD : WRITE_FD);
    fdref_exit(process);
    fclose(notes);
    fputs(all, stdout);
    return 0;
}
