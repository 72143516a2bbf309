/* What the drivers share that run scripts on the system at hand: how acts are read and written, the folder, the signals
   and the guard, the calls, and what can be seen of a process.

   A driver defines DRIVER, its name, before it includes this, and has the function clean_up. */

#ifndef DRIVER
#error "a driver defines its name"
#endif

#define _XOPEN_SOURCE 700
#define _FILE_OFFSET_BITS 64

#include <errno.h>
#include <fcntl.h>
#include <ftw.h>
#include <limits.h>
#include <signal.h>
#include <stdio.h>
#include <stdlib.h>
#include <string.h>
#include <sys/resource.h>
#include <sys/stat.h>
#include <time.h>
#include <unistd.h>

/* A script has the descriptors 0 to 31 and files of at most FILE_BYTES; a call reads READ_MOST bytes at most. Nothing
   may take longer than PATIENCE, in milliseconds. */
#define FILE_BYTES (1LL << 40)
enum { OPEN_FILES = 32, READ_MOST = 1048576, PATIENCE = 10000 };
enum { NAME_MOST = 255, DATA_MOST = 65700 };
enum { USAGE = 2, BAD_SCRIPT, STREAM_FAILED, SYSTEM_REFUSED, PROCESS_LOST, CALL_STUCK };

enum call {
    OPEN, CLOSE, READ, WRITE, PREAD, PWRITE, LSEEK, FTRUNCATE, DUP, DUP2, PIPE, MKFIFO, LINK, UNLINK, FSTAT,
    GETFL, SETFL, RENAME, FORK, ATTACH, RESUME, EXIT, JOIN, CLOSE_RUN, CALLS
};

/* The word of each act, the kinds of its fields (d a descriptor, n a count, p a position, b bytes, s a name, f
   flags to open with, g flags to set, w where an offset begins) and of what it gives (o ok, n a number, b bytes, e two
   ends, t what fstat tells). */
static const struct {
    const char *word, *fields;
    char gives;
} calls[CALLS] = {
    {"open", "sf", 'n'}, {"close", "d", 'o'}, {"read", "dn", 'b'}, {"write", "db", 'n'}, {"pread", "dpn", 'b'},
    {"pwrite", "dpb", 'n'}, {"lseek", "dpw", 'n'}, {"ftruncate", "dp", 'o'}, {"dup", "d", 'n'}, {"dup2", "dd", 'n'},
    {"pipe", "", 'e'}, {"mkfifo", "s", 'o'}, {"link", "ss", 'o'}, {"unlink", "s", 'o'}, {"fstat", "d", 't'},
    {"getfl", "d", 'n'}, {"setfl", "dg", 'o'}, {"rename", "ss", 'o'},
    {"fork", "", 'n'}, {"attach", "", 'o'}, {"resume", "", 'o'}, {"exit", "", 'o'}, {"join", "", 'n'},
    {"close-run", "", 'o'}
};

/* An act. Each field has its text, as fdref writes it, but that of bytes, which stand in `data`. */
struct act {
    enum call call;
    unsigned long actor;
    char texts[3][3 * NAME_MOST + 1], names[2][NAME_MOST + 1];
    long long numbers[3];
    size_t size;
    int is_askable;
};

/* What a call came to: its error number, or 0 and what it gives; bytes stand in `buffer`. */
struct answer {
    int error;
    long long value, other;
    char kind[8];
    size_t size;
};

/* `data` are the bytes of the act that was read last; the names of a script are made in `names` of the folder. */
static unsigned char data[DATA_MOST];
static int sees_sleep, wait_ms = 20, guard_end = -1, guard_told = -1, highest;
static pid_t driver, group;
static const int ending[] = {SIGINT, SIGTERM, SIGHUP};
static volatile sig_atomic_t caught;

/* Ends all that was begun, and removes the folder. */
static void clean_up(void);

static void die(int status, const char *what, const char *why)
{
    fflush(stdout);
    fprintf(stderr, DRIVER ": %s: %s\n", what, why);
    clean_up();
    exit(status);
}

static void need(int done, const char *what) { if (!done) die(SYSTEM_REFUSED, what, strerror(errno)); }

static void keep_signal(int number) { caught = number; close(STDIN_FILENO); }

/* Ends this program as a signal wants it that came; the script ended there, so that none is missed before a line is
   read. */
static void heed_signals(void)
{
    if (!caught)
        return;
    fflush(stdout);
    clean_up();
    signal(caught, SIG_DFL);
    raise(caught);
}

/* ---- reading acts */

static int read_number(const char *word, long long low, long long high, long long *value)
{
    const char *digits = word + (*word == '-');
    char *end;
    errno = 0;
    *value = strtoll(word, &end, 10);
    if (*digits < '0' || *digits > '9' || (*digits == '0' && strcmp(word, "0") != 0))
        return 0;
    return errno == 0 && *end == 0 && low <= *value && *value <= high;
}

/* The byte that two hexadecimal digits spell, or -1. */
static int byte_at(const char *text)
{
    static const char digits[] = "0123456789abcdef";
    const char *high = memchr(digits, text[0], 16), *low = high ? memchr(digits, text[1], 16) : NULL;
    return low ? (int)((high - digits) * 16 + (low - digits)) : -1;
}

static int read_bytes(const char *word, size_t *size)
{
    int is_repeated = byte_at(word) >= 0 && word[2] == '*';
    long long count = (long long)(strlen(word) / 2);
    if (is_repeated ? !read_number(word + 3, 0, DATA_MOST, &count) : *word != 'x' || strlen(word) % 2 == 0)
        return 0;
    if (count > DATA_MOST)
        return 0;
    for (*size = 0; *size < (size_t)count; ++*size) {
        int byte = byte_at(is_repeated ? word : word + 1 + 2 * *size);
        if (byte < 0)
            return 0;
        data[*size] = (unsigned char)byte;
    }
    return 1;
}

/* Reads a name, and writes it as fdref does. One that leads out of the folder or that C cannot spell is not asked
   about. */
static int read_name(const char *word, char *name, char *text, int *is_askable)
{
    int size = 0, is_empty = strcmp(word, "%") == 0;
    for (const char *at = word; *at && !is_empty; at++) {
        int byte = *at == '%' ? byte_at(at + 1) : *at >= 33 && *at <= 126 ? *at : -1;
        if (byte < 0 || size == NAME_MOST)
            return 0;
        at += *at == '%' ? 2 : 0;
        name[size++] = (char)byte;
        text += sprintf(text, byte >= 33 && byte <= 126 && byte != '%' ? "%c" : "%%%02x", byte);
    }
    if (memchr(name, '/', (size_t)size) || memchr(name, 0, (size_t)size))
        *is_askable = 0;
    if (strcmp(name, ".") == 0 || strcmp(name, "..") == 0)
        *is_askable = 0;
    return is_empty || size > 0;
}

/* The flags beside the mode. A number of fdref has 4 for the first, 8 for the second, and so on. */
enum { FLAGS = 5 };
static const int flag_bits[FLAGS] = {O_CREAT, O_EXCL, O_TRUNC, O_APPEND, O_NONBLOCK};

/* Reads flags. An open for neither reading nor writing is not asked. */
static int read_flags(const char *word, long long *flags, int *is_askable)
{
    static const char *const words[FLAGS] = {",creat", ",excl", ",trunc", ",append", ",nonblock"};
    size_t size = strcspn(word, ",");
    if (size == 2 ? strncmp(word, "rw", 2) != 0 : size != 1 || !strchr("rw-", *word))
        return 0;
    *is_askable &= *word != '-';
    *flags = size == 2 ? O_RDWR : *word == 'w' ? O_WRONLY : O_RDONLY;
    for (int at = 0; at < FLAGS; at++) {
        word += size;
        size = strncmp(word, words[at], strlen(words[at])) == 0 ? strlen(words[at]) : 0;
        *flags |= size > 0 ? flag_bits[at] : 0;
    }
    return word[size] == 0;
}

static int read_field(char kind, int place, const char *word, struct act *act)
{
    long long *value = &act->numbers[place];
    char *text = act->texts[place];
    int is_any = 1;
    snprintf(text, sizeof act->texts[place], "%s", word);
    switch (kind) {
    case 'd': return read_number(word, INT_MIN, INT_MAX, value);
    case 'n': return read_number(word, 0, 0xffffffff, value);
    case 'p': return read_number(word, LLONG_MIN, LLONG_MAX, value);
    case 'b': return read_bytes(word, &act->size);
    case 's': return read_name(word, act->names[place], text, &act->is_askable);
    case 'f': return read_flags(word, value, &act->is_askable);
    case 'g': return read_flags(word, value, &is_any);
    default:
        *value = strcmp(word, "set") == 0 ? SEEK_SET : strcmp(word, "cur") == 0 ? SEEK_CUR : SEEK_END;
        return *value != SEEK_END || strcmp(word, "end") == 0;
    }
}

/* The next word of a line, or nothing; its space becomes its end. */
static char *next_word(char **line)
{
    char *word = *line, *space = word ? strchr(word, ' ') : NULL;
    *line = space ? space + 1 : NULL;
    if (space)
        *space = 0;
    return word;
}

static int read_act(char *line, struct act *act)
{
    char *word = next_word(&line);
    long long actor = 0;
    const char *fields;
    memset(act, 0, sizeof *act);
    act->is_askable = 1;
    act->call = strcmp(word, "join") == 0 ? JOIN : CLOSE_RUN;
    if (act->call == JOIN || strcmp(word, "close-run") == 0)
        return line == NULL;
    if (*word != 'p' || !read_number(word + 1, 0, 0xffffffff, &actor) || !(word = next_word(&line)))
        return 0;
    act->actor = (unsigned long)actor;
    for (act->call = OPEN; act->call < JOIN && strcmp(word, calls[act->call].word) != 0; act->call++)
        continue;
    fields = calls[act->call].fields;
    for (int place = 0; fields[place]; place++)
        if (!(word = next_word(&line)) || !read_field(fields[place], place, word, act))
            return 0;
    return act->call < JOIN && line == NULL;
}

/* ---- writing lines */

static void put_bytes(const unsigned char *bytes, size_t size)
{
    int is_repeated = size > 16 && memcmp(bytes, bytes + 1, size - 1) == 0;
    printf(is_repeated ? "%02x*%zu" : "x", bytes[0], size);
    for (size_t at = 0; !is_repeated && at < size; at++)
        printf("%02x", bytes[at]);
}

/* Writes a process and its act, as far as its outcome. */
static void put_act(const struct act *act, const unsigned char *bytes)
{
    const char *fields = calls[act->call].fields;
    printf(act->call == CLOSE_RUN ? "house" : "p%lu", act->actor);
    printf(" %s", calls[act->call].word);
    for (int at = 0; fields[at]; at++) {
        printf(" %s", fields[at] == 'b' ? "" : act->texts[at]);
        if (fields[at] == 'b')
            put_bytes(bytes, act->size);
    }
    printf(" = ");
}

static void put_error(int number)
{
#define NAMED(error) {error, #error}
    static const struct { int number; const char *name; } errors[] = {
        NAMED(EBADF), NAMED(EINVAL), NAMED(ESPIPE), NAMED(EFBIG), NAMED(EOVERFLOW), NAMED(ENOENT), NAMED(EEXIST),
        NAMED(EMLINK), NAMED(ENAMETOOLONG), NAMED(EMFILE), NAMED(ENFILE), NAMED(ENOSPC), NAMED(EAGAIN), NAMED(EPIPE),
        NAMED(ENXIO), NAMED(EISDIR), NAMED(EACCES), NAMED(EPERM), NAMED(EIO), NAMED(EINTR), NAMED(ENOMEM), {0, NULL}};
    for (int at = 0; errors[at].name; at++) {
        if (errors[at].number == number) {
            printf("error %s\n", errors[at].name);
            return;
        }
    }
    printf("error %d\n", number);
}

/* Writes what a call came to, and the end of its line. */
static void put_answer(enum call call, const struct answer *answer, const unsigned char *bytes)
{
    if (answer->error) {
        put_error(answer->error);
        return;
    }
    switch (calls[call].gives) {
    case 'b': put_bytes(bytes, answer->size); break;
    case 'o': printf("ok"); break;
    case 'e': printf("%lld %lld", answer->value, answer->other); break;
    case 't': printf("%s %lld %lld", answer->kind, answer->value, answer->other); break;
    default: printf("%lld", answer->value);
    }
    putchar('\n');
}

/* ---- a process of the script */

/* Ends a process of the script where something fails that it needs for itself. */
static void must(int done) { if (!done) _exit(1); }

/* The lowest descriptors are the script's; others go above them. */
static int lifted(int fd)
{
    int high = fd < OPEN_FILES ? fcntl(fd, F_DUPFD, OPEN_FILES) : fd;
    if (high != fd && fd >= 0)
        close(fd);
    highest = high > highest ? high : highest;
    return high;
}

/* Sets a limit of this process, as far as it may. */
#define LIMIT(what, to) \
    do { \
        struct rlimit limit; \
        must(getrlimit(what, &limit) == 0); \
        limit.rlim_cur = (to) < limit.rlim_max ? (to) : limit.rlim_max; \
        must(setrlimit(what, &limit) == 0); \
    } while (0)

static void limit_files(rlim_t to) { LIMIT(RLIMIT_NOFILE, to); }

/* A descriptor of the script; those above are nobody's. */
static int descriptor(long long fd) { return fd < OPEN_FILES ? (int)fd : INT_MAX; }

/* Tells a regular file, a FIFO, which is in the folder's file system, or a pipe, which is not. */
static long long stat_file(int fd, struct answer *answer)
{
    struct stat file, here;
    const char *kind;
    if (fstat(fd, &file) != 0 || stat(".", &here) != 0)
        return -1;
    kind = !S_ISFIFO(file.st_mode) ? "other" : file.st_dev == here.st_dev ? "fifo" : "pipe";
    strcpy(answer->kind, S_ISREG(file.st_mode) ? "regular" : kind);
    answer->other = (long long)file.st_nlink;
    return (long long)file.st_size;
}

static int make_pipe(struct answer *answer)
{
    int ends[2], made = pipe(ends);
    answer->other = made == 0 ? ends[1] : 0;
    return made == 0 ? ends[0] : -1;
}

/* Tells the mode and the flags of a description as a number of fdref. What else F_GETFL may tell by its page, as
   O_LARGEFILE, is left out. */
static long long get_flags(int fd)
{
    int flags = fcntl(fd, F_GETFL), mode = flags & O_ACCMODE;
    long long told = mode == O_RDWR ? 3 : mode == O_WRONLY ? 2 : 1;
    for (int at = 0; at < FLAGS; at++)
        told |= flags & flag_bits[at] ? 4 << at : 0;
    return flags < 0 ? -1 : told;
}

/* Sets O_APPEND and O_NONBLOCK as in these flags. Mode and creation flags are given too, which the system has to
   ignore; all other flags stay as they are. */
static int set_flags(int fd, int flags)
{
    int old = fcntl(fd, F_GETFL);
    return old < 0 ? -1 : fcntl(fd, F_SETFL, (old & ~(O_ACCMODE | O_APPEND | O_NONBLOCK)) | flags);
}

/* Makes a call, or exits; a fork is made elsewhere. Of so many bytes at most, what is read goes to `into`. */
static long long called(const struct act *act, const unsigned char *bytes, unsigned char *into, struct answer *answer)
{
    long long second = act->numbers[1], third = act->numbers[2], most = READ_MOST;
    int fd = descriptor(act->numbers[0]);
    switch (act->call) {
    case OPEN: return open(act->names[0], (int)second, 0600);
    case CLOSE: return close(fd);
    case READ: return read(fd, into, (size_t)(second < most ? second : most));
    case WRITE: return write(fd, bytes, act->size);
    case PREAD: return pread(fd, into, (size_t)(third < most ? third : most), (off_t)second);
    case PWRITE: return pwrite(fd, bytes, act->size, (off_t)second);
    case LSEEK: return (long long)lseek(fd, (off_t)second, (int)third);
    case FTRUNCATE: return ftruncate(fd, (off_t)second);
    case DUP: return dup(fd);
    case DUP2: return dup2(fd, descriptor(second));
    case PIPE: return make_pipe(answer);
    case MKFIFO: return mkfifo(act->names[0], 0600);
    case LINK: return link(act->names[0], act->names[1]);
    case UNLINK: return unlink(act->names[0]);
    case FSTAT: return stat_file(fd, answer);
    case GETFL: return get_flags(fd);
    case SETFL: return set_flags(fd, (int)second);
    case RENAME: return rename(act->names[0], act->names[1]);
    default: _exit(0);
    }
}

/* Sets what an answer tells of a call that has returned this. */
static void set_answer(const struct act *act, long long value, struct answer *answer)
{
    answer->error = value < 0 ? errno : 0;
    answer->value = value;
    answer->size = value > 0 && calls[act->call].gives == 'b' ? (size_t)value : 0;
}

/* Begins a process that joins: it has nothing open, and is in the folder of the names. One that came into the group
   too late to be ended with it sees that the driver is gone. */
static void begin_process(void)
{
    for (int fd = 0; fd <= highest; fd++)
        close(fd);
    for (int at = 0; at < 3; at++)
        signal(ending[at], SIG_DFL);
    must(setpgid(0, group) == 0 && getppid() == driver && chdir("names") == 0);
    LIMIT(RLIMIT_FSIZE, FILE_BYTES);
}

/* ---- the folder and the guard */

static void nap(void) { nanosleep(&(struct timespec){0, 100000}, NULL); }

static int remove_one(const char *path, const struct stat *file, int type, struct FTW *place)
{
    (void)file, (void)type, (void)place;
    return remove(path);
}

/* Removes a folder with all that is in it. */
static void remove_folder(const char *path) { nftw(path, remove_one, 4, FTW_DEPTH | FTW_PHYS); }

/* Where SIGCHLD is ignored, nobody has to wait for a process that ends. */
static void set_signals(void)
{
    struct sigaction action = {.sa_handler = keep_signal};
    sigemptyset(&action.sa_mask);
    for (int at = 0; at < 3; at++)
        need(sigaction(ending[at], &action, NULL) == 0, "sigaction");
    signal(SIGPIPE, SIG_IGN);
    signal(SIGXFSZ, SIG_IGN);
    signal(SIGCHLD, SIG_IGN);
}

/* What the guard tells of the folder that it makes: its name, or why there is none. */
struct made {
    int error;
    char name[sizeof DRIVER "-XXXXXX"];
};

/* The guard, which leads the group of the script's processes. It makes the folder, so that there is none without a
   guard. When this program is gone, however that is, or has closed its end, it ends the group, and a process outside of
   that removes the folder: nobody makes names in it then. `told` stays open until all is done. */
static void guard(int end, int told)
{
    struct made made = {0, DRIVER "-XXXXXX"};
    pid_t cleaner;
    char byte;
    setpgid(0, 0);
    for (int fd = 0; fd <= highest; fd++)
        if (fd != end && fd != told && fd != STDERR_FILENO)
            close(fd);
    if (!mkdtemp(made.name) || chdir(made.name) != 0)
        made.error = errno;
    if (write(told, &made, sizeof made) == sizeof made)
        while (read(end, &byte, 1) < 0)
            continue;
    cleaner = fork();
    setpgid(cleaner > 0 ? cleaner : 0, 0);
    if (cleaner > 0)
        kill(0, SIGKILL);
    if (made.error == 0 && chdir("..") == 0) {
        for (int naps = 0; access(made.name, F_OK) == 0 && naps < 10 * PATIENCE; naps++) {
            remove_folder(made.name);
            nap();
        }
    }
    kill(0, SIGKILL);
}

/* Starts the guard, and goes into the folder that it makes. */
static void start_guard(const char *dir)
{
    struct made made;
    int ends[2], told[2];
    ssize_t size;
    need(chdir(dir) == 0, dir);
    need(pipe(ends) == 0 && (guard_end = lifted(ends[1])) >= 0, "pipe");
    need(pipe(told) == 0 && (guard_told = lifted(told[0])) >= 0, "pipe");
    group = fork();
    if (group == 0)
        guard(ends[0], told[1]);
    close(ends[0]);
    close(told[1]);
    need(group > 0, "fork");
    setpgid(group, group);
    while ((size = read(guard_told, &made, sizeof made)) < 0 && errno == EINTR)
        continue;
    errno = size == sizeof made ? made.error : ECHILD;
    need(errno == 0, dir);
    need(chdir(made.name) == 0 && mkdir("names", 0700) == 0, made.name);
}

/* Has the guard end the group and remove the folder, and waits until it has. */
static void end_group(void)
{
    char byte;
    close(guard_end);
    while (read(guard_told, &byte, 1) < 0 && errno == EINTR)
        continue;
}

/* Frees all but the standard descriptors, and makes the folder with its guard. */
static void begin_driver(const char *dir)
{
    limit_files(RLIM_INFINITY);
    for (int given = STDERR_FILENO + 1; given < 65536; given++)
        close(given);
    set_signals();
    umask(077);
    driver = getpid();
    start_guard(dir);
}

/* ---- what can be seen of a process */

/* A line of a process in /proc that has this format, or the first line; gives whether there is one. */
static int look_up(pid_t pid, const char *file, const char *format, void *value)
{
    char text[256];
    int found = 0;
    FILE *lines;
    snprintf(text, sizeof text, "/proc/%ld/%s", (long)pid, file);
    lines = fopen(text, "r");
    while (lines && !found && fgets(text, sizeof text, lines))
        found = sscanf(text, format, value) == 1;
    return lines && fclose(lines) == 0 && found;
}

/* The state of a process, or 0 where it is not seen. S is one that has left the processor, which one that was only
   interrupted on its way to sleep has not: it has no wait channel. Also, how often it has gone to sleep. */
static char state_of(pid_t pid, long *switches)
{
    char state = 0, place[256] = "0";
    int is_off = look_up(pid, "wchan", "%255s", place) && strcmp(place, "0") != 0;
    if (!look_up(pid, "status", "State: %c", &state))
        return 0;
    if (!look_up(pid, "status", "voluntary_ctxt_switches: %ld", switches))
        return 0;
    return state == 'S' && !is_off ? 'R' : state;
}

/* Finds out whether it is seen here that a process sleeps: the guard does. */
static void find_sight(void)
{
    long switches;
    char state;
    for (int naps = 0; !sees_sleep && naps < 3000 && (state = state_of(group, &switches)) != 0; naps++, nap())
        sees_sleep = state == 'S';
}

/* Whether a process is gone with what it had open, as a zombie is. */
static int is_gone(pid_t pid)
{
    long switches;
    char state = sees_sleep && kill(pid, 0) == 0 ? state_of(pid, &switches) : 'R';
    return kill(pid, 0) != 0 || !state || state == 'Z' || state == 'X';
}

/* Waits until a process is gone. Where zombies are not seen, it has so many milliseconds. */
static int await_end(pid_t pid)
{
    for (int naps = 0; naps < 10 * PATIENCE; naps++) {
        if (is_gone(pid) || (!sees_sleep && naps >= 10 * wait_ms))
            return 1;
        nap();
    }
    return 0;
}
