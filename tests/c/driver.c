/* Plays one process after another by fdref.h: it makes the calls that it is told, and prints what they come to.

   usage: driver PATH ODD

   PATH is that of a server. With an ODD other than 0 the system calls of fdref.h are odd. A line of input is `join` or
   `join SECONDS`, `attach N` or `attach N SECONDS`, `exit`, `returns N` (whether calls of the next process return when
   they are parked), `within SECONDS` (a limit of its answers), or a call and its arguments in their order in C. Flags, and where an offset begins, are the system's numbers. Names and data are x and
   hexadecimal digits, or two digits, * and a count.

   Each answer is a line, `PLACE OUTCOME`. A call that has waited, and did not return when it was parked, has ` after N
   M` behind that: it was told N times to wait, and had moved M bytes. A call that leaves no record gives `- REFUSAL
   ERRNO`, a join or attach that fails `- ERRNO`, and with it `no answer ..` on standard error where that is so, and an
   exit, `returns` or `within` nothing, but that an exit that passed its limit tells so on standard error. */

#include <stdio.h>
#include <stdlib.h>
#include <string.h>

#include "odd.h"

enum { LINE_MOST = 300000, BYTES_MOST = 70000, WORDS_MOST = 4 };

enum call {
    OPEN, CLOSE, READ, WRITE, PREAD, PWRITE, LSEEK, FTRUNCATE, DUP, DUP2, PIPE, MKFIFO, LINK, UNLINK, FSTAT, FORK,
    GETFL, SETFL, RENAME, CALLS
};

/* The word of each call, and what it gives: n a number, o nothing, b bytes, e two ends, t what fstat tells, f flags. */
static const struct {
    const char *word;
    char gives;
} calls[CALLS] = {
    {"open", 'n'}, {"close", 'o'}, {"read", 'b'}, {"write", 'n'}, {"pread", 'b'}, {"pwrite", 'n'}, {"lseek", 'n'},
    {"ftruncate", 'o'}, {"dup", 'n'}, {"dup2", 'n'}, {"pipe", 'e'}, {"mkfifo", 'o'}, {"link", 'o'}, {"unlink", 'o'},
    {"fstat", 't'}, {"fork", 'n'}, {"getfl", 'f'}, {"setfl", 'o'}, {"rename", 'o'}
};

static char line[LINE_MOST], *words[WORDS_MOST];
static unsigned char data[WORDS_MOST][BYTES_MOST], *buffer;
static const char *path;
static struct fdref *process;
static struct fdref_stat file;
static int ends[2], returns;

/* ---- words */

static long long number(int at) { return words[at] ? strtoll(words[at], NULL, 10) : 0; }
static int small(int at) { return (int)number(at); }
static size_t count(int at) { return words[at] ? (size_t)strtoull(words[at], NULL, 10) : 0; }

static unsigned char byte_at(const char *text)
{
    char digits[3] = {text[0], text[1], 0};
    return (unsigned char)strtoul(digits, NULL, 16);
}

/* Reads the bytes of a word, puts a zero byte after them, and gives how many they are. */
static size_t size_of(int at)
{
    int is_repeated = words[at][0] != 'x';
    size_t size = is_repeated ? (size_t)strtoull(words[at] + 3, NULL, 10) : strlen(words[at]) / 2;
    for (size_t place = 0; place < size; place++)
        data[at][place] = byte_at(is_repeated ? words[at] : words[at] + 1 + 2 * place);
    data[at][size] = 0;
    return size;
}

static const char *name(int at)
{
    size_of(at);
    return (const char *)data[at];
}

/* ---- calls */

static long long called(enum call call)
{
    size_t size = call == WRITE || call == PWRITE ? size_of(2) : 0;
    switch (call) {
    case OPEN: return fdref_open(process, name(1), small(2));
    case CLOSE: return fdref_close(process, small(1));
    case READ: return fdref_read(process, small(1), buffer, count(2));
    case WRITE: return fdref_write(process, small(1), data[2], size);
    case PREAD: return fdref_pread(process, small(1), buffer, count(2), (off_t)number(3));
    case PWRITE: return fdref_pwrite(process, small(1), data[2], size, (off_t)number(3));
    case LSEEK: return fdref_lseek(process, small(1), (off_t)number(2), small(3));
    case FTRUNCATE: return fdref_ftruncate(process, small(1), (off_t)number(2));
    case DUP: return fdref_dup(process, small(1));
    case DUP2: return fdref_dup2(process, small(1), small(2));
    case PIPE: return fdref_pipe(process, ends);
    case MKFIFO: return fdref_mkfifo(process, name(1));
    case LINK: return fdref_link(process, name(1), name(2));
    case UNLINK: return fdref_unlink(process, name(1));
    case FSTAT: return fdref_fstat(process, small(1), &file);
    case GETFL: return fdref_getfl(process, small(1));
    case SETFL: return fdref_setfl(process, small(1), small(2));
    case RENAME: return fdref_rename(process, name(1), name(2));
    default: return fdref_fork(process);
    }
}

static void put_bytes(const unsigned char *bytes, size_t size)
{
    int is_repeated = size > 16 && memcmp(bytes, bytes + 1, size - 1) == 0;
    printf(is_repeated ? "%02x*%lu" : "x", bytes[0], (unsigned long)size);
    for (size_t at = 0; !is_repeated && at < size; at++)
        printf("%02x", bytes[at]);
}

static void put_value(char gives, long long value)
{
    static const char *const kinds[] = {"regular", "fifo", "pipe"};
    switch (gives) {
    case 'o': printf(value == 0 ? "ok" : "?"); break;
    case 'b': put_bytes(buffer, (size_t)value); break;
    case 'e': printf("%d %d", ends[0], ends[1]); break;
    case 't': printf("%s %llu %lu", kinds[file.kind], (unsigned long long)file.size, (unsigned long)file.links); break;
    case 'f': printf("%d", fdref_flags_byte((int)value)); break;
    default: printf("%lld", value);
    }
}

/* Prints what a call gave, and the error of it. */
static void tell(char gives, long long value, int error)
{
    const char *error_name = fdref_error_name(error);
    if (value < 0 && fdref_refusal(process) != FDREF_RECORDED) {
        printf("- %d %d\n", fdref_refusal(process), error);
        return;
    }
    printf("%llu ", (unsigned long long)fdref_place(process));
    if (value >= 0)
        put_value(gives, value);
    else if (error == EINPROGRESS)
        printf("%s %lu", fdref_waits(process) == 1 ? "parked" : "part", (unsigned long)fdref_moved(process));
    else
        printf("error %s", error_name ? error_name : "?");
    if (fdref_waits(process) > 0 && !returns)
        printf(" after %llu %lu", (unsigned long long)fdref_waits(process), (unsigned long)fdref_moved(process));
    printf("\n");
}

static void begin(int is_join)
{
    unsigned seconds = words[is_join ? 1 : 2] ? (unsigned)number(is_join ? 1 : 2) : 10;
    if (is_join)
        process = fdref_join_within(path, seconds);
    else
        process = words[2] ? fdref_attach_within(path, (pid_t)number(1), seconds) : fdref_attach(path, (pid_t)number(1));
    if (!process) {
        printf("- %d\n", errno);
        if (errno == ETIMEDOUT)
            fprintf(stderr, "%s\n", fdref_no_process(errno));
        return;
    }
    fdref_return_when_parked(process, returns);
    tell(is_join ? 'n' : 'o', is_join ? fdref_getpid(process) : 0, 0);
}

static void make_call(void)
{
    int call = 0;
    while (call < CALLS && strcmp(words[0], calls[call].word) != 0)
        call++;
    if (call == CALLS) {
        printf("no call is %s\n", words[0]);
        return;
    }
    long long value = called((enum call)call);
    while (value < 0 && errno == EINPROGRESS) {
        tell(calls[call].gives, value, errno);
        fflush(stdout);
        value = fdref_finish(process);
    }
    tell(calls[call].gives, value, errno);
}

static int is(const char *word) { return strcmp(words[0], word) == 0; }

static void take_line(void)
{
    if (is("join") || is("attach")) {
        begin(is("join"));
    } else if (is("exit")) {
        if (fdref_exit(process) == ETIMEDOUT)
            fprintf(stderr, "no end of the connection\n");
        process = NULL;
    } else if (is("returns")) {
        returns = small(1);
    } else if (is("within")) {
        fdref_answer_within(process, (unsigned)number(1));
    } else {
        make_call();
    }
    fflush(stdout);
}

/* Status 1: a descriptor was left open. */
int main(int given_count, char **given)
{
    int fd = lowest_free();
    buffer = malloc(FDREF_TRANSFER_MOST);
    if (given_count != 3 || !buffer)
        return 2;
    path = given[1];
    odd_choice = strtoull(given[2], NULL, 10);
    while (fgets(line, sizeof line, stdin)) {
        char *word = strtok(line, " \n");
        for (int at = 0; at < WORDS_MOST; at++, word = word ? strtok(NULL, " \n") : NULL)
            words[at] = word;
        if (words[0])
            take_line();
    }
    fdref_exit(process);
    free(buffer);
    return lowest_free() != fd;
}
