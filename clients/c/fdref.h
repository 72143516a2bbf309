/* fdref.h: a client of `fdref serve`, and a writer of traces for `fdref audit`, in C99 or C++11 with POSIX sockets.

   One file of a program defines FDREF_IMPLEMENTATION before it includes this, and has the code then; all others only
   include it. Each connection is a process. A call has the name, the arguments and the values of the function in
   POSIX, with fdref_ before its name and the process before its arguments. Only the mode of a new file is missing, and
   of fcntl the commands F_GETFL and F_SETFL have names of their own.

       struct fdref *p = fdref_join("/tmp/fdref.socket");
       if (!p) {
           fprintf(stderr, "/tmp/fdref.socket: %s\n", fdref_no_process(errno));
           exit(1);
       }
       int fd = fdref_open(p, "a", O_RDWR | O_CREAT);
       if (fdref_write(p, fd, "hello", 5) < 0)
           perror("write");
       printf("at place %llu\n", (unsigned long long)fdref_place(p));
       fdref_exit(p);

   A process makes one call at a time, so only one thread at a time may use it. Processes share nothing here.

   A call that fails gives -1 and sets errno. fdref_refusal then tells why:

     FDREF_RECORDED  An error of the call, as EBADF. It is the answer, and has a place in the record of the run.
     FDREF_UNSENT    EINVAL or ENAMETOOLONG: no request can hold the call, and nothing was sent. It has flags or a base
                     of an offset that fdref does not know, a name of more than 255 bytes, more than 65,700 bytes of
                     data, or asks for 2^32 bytes or more.
     FDREF_LOST      ECONNRESET: the connection is lost. EPROTO: what came is no answer, and the connection was given
                     up. ETIMEDOUT: no answer came within the limit of fdref_answer_within, and it was given up. The
                     process has ended then, and each later call gives ENOTCONN.
     another         The run could not record the call. FDREF_NO_MEMORY is ENOMEM, FDREF_RUN_FULL EDQUOT, FDREF_WAITING
                     EBUSY, FDREF_NOT_HERE ECHILD, and FDREF_FOREIGN ESTALE. fdref_error_name has their names, where
                     perror would speak of a quota. FDREF_RUN_FULL is that no record is free: of the --records of the
                     server one is kept for the exit of each process, and one for the end of the run. The process may
                     go on, but not after FDREF_RUN_FULL of a call that waits: the server ends the process then.

   A recorded error is never one of the numbers in the last two rows: EPIPE is that of a pipe.

   A call that has to wait is answered more than once: first that it is parked, then perhaps that it has moved a part,
   and at last its reply. It returns with the reply; fdref_waits and fdref_moved tell what came before. To play several
   processes in one thread, set fdref_return_when_parked: then each answer that the call waits makes it return -1, with
   EINPROGRESS, and fdref_finish waits for the next answer. No other call is sent meanwhile: it gives EBUSY.

   docs/PROFILE.md says what each call does, docs/FORMATS.md has the bytes of requests, answers and traces. */

#ifndef FDREF_H
#define FDREF_H

#include <errno.h>
#include <fcntl.h>
#include <stddef.h>
#include <stdint.h>
#include <sys/types.h>
#include <unistd.h>

#ifdef __cplusplus
extern "C" {
#endif

/* The flags of an open that neither reads nor writes, which is EINVAL. */
#define FDREF_O_NEITHER (O_RDONLY == 0 ? O_WRONLY | O_RDWR : 0)

/* The greatest lengths in bytes: of what one read gives, of data and of a name in a call, and of a frame's payload. */
enum { FDREF_TRANSFER_MOST = 65536, FDREF_DATA_MOST = 65700, FDREF_NAME_MOST = 255, FDREF_FRAME_MOST = 66048 };

/* Why the last call of a process has no record. */
enum fdref_refusal {
    FDREF_RECORDED, FDREF_UNSENT, FDREF_LOST,
    FDREF_NO_MEMORY = 17, FDREF_RUN_FULL, FDREF_WAITING, FDREF_NOT_HERE, FDREF_FOREIGN
};

/* What fstat tells: the kind of file, its size in bytes, and how many names it has; and the kinds. */
enum fdref_file_kind { FDREF_KIND_REGULAR, FDREF_KIND_FIFO, FDREF_KIND_PIPE };
struct fdref_stat {
    int kind;
    uint64_t size;
    uint32_t links;
};

/* ---- processes */

struct fdref;

/* How many seconds the first answer is waited for where no limit is given. A server that has a place answers at once. */
#define FDREF_FIRST_ANSWER 10u

/* Connects to the server at a path as a new process, without open descriptors. NULL: errno is EAGAIN where the run has
   64 processes already, or that of a refusal, or what kept it from connecting, as ECONNREFUSED of a socket that a
   server has left and at which nobody listens; or it is ETIMEDOUT where the connection was made and no answer came
   within FDREF_FIRST_ANSWER seconds: the server has as many connections as its --sessions says, and answers no other,
   or has no descriptors for one more, or is late, or it is no fdref. fdref_no_process has that in words. A connection
   that was made is one of the sessions of the server, also where the run takes no process. */
struct fdref *fdref_join(const char *path);

/* The same; a server that is only starting is waited for, at most so many seconds, and its answer no longer than that
   from the call on. 0 seconds: as fdref_join. */
struct fdref *fdref_join_within(const char *path, unsigned seconds);

/* Connects as a child, by the number that fork gave. NULL: also ESRCH, where it is no child still to be attached. */
struct fdref *fdref_attach(const char *path, pid_t child);
struct fdref *fdref_attach_within(const char *path, pid_t child, unsigned seconds);

/* What to tell where one of these gave NULL, by its errno: "no answer: all sessions are taken, the server can take no
   further connection or is late, or no fdref listens there" of ETIMEDOUT, "the server ended, or had no memory,
   descriptor or thread for this process" of ECONNRESET, of EAGAIN, EDQUOT and ESRCH that the run has as many processes
   as it may, no record for one more, or no such child, and of another what strerror has. */
const char *fdref_no_process(int number);

/* Limits how many seconds may pass in which nothing comes of an answer that is waited for, or in which the server takes
   nothing of a request; 0, as at the beginning, is no limit. Each answer that a call waits begins a new wait, and a
   signal does not. */
void fdref_answer_within(struct fdref *p, unsigned seconds);

/* Ends a process, as _exit does, and frees it. Its exit is recorded when this gives 0, and it waits for that as long as
   fdref_answer_within allows. It gives ETIMEDOUT where that limit passed before the server closed the connection, which
   then records the exit later, and ECONNRESET where the connection was lost or given up, and the exit is perhaps not
   recorded yet. NULL is no process, and gives 0. It does not change errno. */
int fdref_exit(struct fdref *p);

/* Frees a process in a child made by fork; the connection stays its parent's. A child that does not do this keeps the
   connection open, so the server does not see the parent end without fdref_exit, and a read of a pipe to which the
   process could write waits on. It does not change errno. */
void fdref_forget(struct fdref *p);

pid_t fdref_getpid(const struct fdref *p);

/* The place of the last answer. It stays where a call leaves no record. */
uint64_t fdref_place(const struct fdref *p);

/* Why the last call has no record: FDREF_RECORDED, which is 0, where it has one. */
int fdref_refusal(const struct fdref *p);

/* The name that fdref has for an errno, as "EBADF" or, of a refusal, "RunFull"; else NULL. */
const char *fdref_error_name(int number);

/* ---- calls

   docs/PROFILE.md lists the errors of each. Only fdref_open, fdref_read and fdref_write ever wait, at pipes and FIFOs
   and without O_NONBLOCK, for as long as fdref_answer_within allows. Sizes and offsets are in bytes; to read or write
   more than FDREF_TRANSFER_MOST at once is EINVAL. A process has 32 descriptors, 0 to 31. There are no folders: a name
   has 1 to 64 letters, digits, '.', '_' and '-'. */

int fdref_open(struct fdref *p, const char *name, int flags);
int fdref_close(struct fdref *p, int fd);
ssize_t fdref_read(struct fdref *p, int fd, void *buffer, size_t count);
ssize_t fdref_write(struct fdref *p, int fd, const void *data, size_t count);
ssize_t fdref_pread(struct fdref *p, int fd, void *buffer, size_t count, off_t offset);
ssize_t fdref_pwrite(struct fdref *p, int fd, const void *data, size_t count, off_t offset);
off_t fdref_lseek(struct fdref *p, int fd, off_t offset, int whence);
int fdref_ftruncate(struct fdref *p, int fd, off_t length);
int fdref_dup(struct fdref *p, int fd);
int fdref_dup2(struct fdref *p, int fd, int to);
int fdref_pipe(struct fdref *p, int ends[2]);
int fdref_mkfifo(struct fdref *p, const char *name);
int fdref_link(struct fdref *p, const char *old_name, const char *new_name);
int fdref_unlink(struct fdref *p, const char *name);
int fdref_fstat(struct fdref *p, int fd, struct fdref_stat *stat);
int fdref_rename(struct fdref *p, const char *old_name, const char *new_name);

/* The mode of a description and its flags, as F_GETFL gives them: one of O_RDONLY, O_WRONLY and O_RDWR, with O_APPEND
   and O_NONBLOCK where they are set. */
int fdref_getfl(struct fdref *p, int fd);

/* Sets O_APPEND and O_NONBLOCK of a description to those of the flags, as F_SETFL does. A mode, O_CREAT, O_EXCL and
   O_TRUNC are ignored. */
int fdref_setfl(struct fdref *p, int fd, int flags);

/* Makes a child with the same open descriptors, and gives its number. It makes calls once it is attached. Until then it
   has them open, too: while it has the writing end of a pipe, no read comes to the end. */
pid_t fdref_fork(struct fdref *p);

/* ---- waiting */

/* Whether a call returns, with EINPROGRESS, when an answer tells that it waits. */
void fdref_return_when_parked(struct fdref *p, int is_to_return);

/* Waits for the next answer of the call that waits, as long as fdref_answer_within allows, and gives what the call
   would give. What a read gets goes where the call had its buffer, which has to be there still. EINVAL: no call
   waits. */
ssize_t fdref_finish(struct fdref *p);

/* How many answers told that the last call waits; 0 where it did not have to. */
uint64_t fdref_waits(const struct fdref *p);

/* How many bytes it had moved at the last of these. */
size_t fdref_moved(const struct fdref *p);

/* The socket of a process, to be polled and for nothing else; -1 once the connection is lost. */
int fdref_fileno(const struct fdref *p);

/* ---- traces

   A program that has run calls of its own records what they came to, and `fdref audit FILE` judges it:

       struct fdref_trace *trace = fdref_trace_open("trace");
       fdref_record(trace, 0, fdref_act_join(), fdref_number(0));
       fdref_record(trace, 0, fdref_act_open("a", O_RDWR | O_CREAT), fdref_result(my_open("a", O_RDWR | O_CREAT)));
       fdref_record(trace, 0, fdref_act_read(0, 9), fdref_result_data(buffer, my_read(0, buffer, 9)));
       fdref_record(trace, 0, fdref_act_exit(), fdref_done());
       if (fdref_trace_fault(trace))
           fprintf(stderr, "trace: %s\n", fdref_trace_fault(trace));
       if (fdref_trace_close(trace) != 0)
           perror("trace");

   The records stand in the order in which the calls took effect. Processes have the numbers 0, 1, 2 and so on, in the
   order of their joins and forks, and the first begins with no descriptor open. A record may be wrong. One that no
   trace can hold is EINVAL, or ENAMETOOLONG for a name of more than 255 bytes; so is an error that fdref does not have.
   After that, and after a failed write, nothing more is recorded and each later function fails in the same way. So it
   is enough to look at what fdref_trace_close gives. */

struct fdref_trace;

/* How many records a run has at most. How many bytes a pipe holds, if nothing else is asked for, and the least and the
   most that it may hold. How many bytes a file has at most, and how many in runs whose traces have version 1. */
enum {
    FDREF_RECORDS_MOST = 1000000,
    FDREF_PIPE_CAPACITY = 1024, FDREF_PIPE_CAPACITY_LEAST = 512, FDREF_PIPE_CAPACITY_MOST = 65536
};
#define FDREF_FILE_SIZE UINT64_C(1099511627776)
#define FDREF_OLD_FILE_SIZE UINT64_C(1048576)

/* Makes a file, or empties it; NULL where that fails. The trace tells no number of records, that a pipe holds
   FDREF_PIPE_CAPACITY bytes, and that a file has FDREF_FILE_SIZE at most. */
struct fdref_trace *fdref_trace_open(const char *path);

/* The same of another run. It may have so many records, with those of the exit of each process and of the closing, from
   1 to FDREF_RECORDS_MOST, or 0 where nobody knows: so a run that goes on for longer is found. A pipe holds so many
   bytes, and a file has FDREF_FILE_SIZE or FDREF_OLD_FILE_SIZE at most. Another number is EINVAL; no file is made. */
struct fdref_trace *fdref_trace_open_of(const char *path, uint32_t records, uint32_t pipe_capacity, uint64_t file_size);

/* Writes all records that are gathered to the file, so that they are there though the program is killed. 0, or -1. */
int fdref_trace_flush(struct fdref_trace *trace);

/* The first fault: the record, counted from 0, and what no trace holds of it, as "record 1: flags that no trace holds",
   or that the file cannot be written. NULL where there was none. */
const char *fdref_trace_fault(const struct fdref_trace *trace);

/* Writes all records and frees the trace. 0: the file has every record; else -1, with the errno of the first fault. */
int fdref_trace_close(struct fdref_trace *trace);

/* An act, and its arguments. The functions below make each. */
enum fdref_act_kind {
    FDREF_JOIN = 1, FDREF_ATTACH, FDREF_RESUME, FDREF_EXIT, FDREF_CLOSE_RUN,
    FDREF_OPEN = 16, FDREF_CLOSE, FDREF_READ, FDREF_WRITE, FDREF_PREAD, FDREF_PWRITE, FDREF_LSEEK, FDREF_FTRUNCATE,
    FDREF_DUP, FDREF_DUP2, FDREF_PIPE, FDREF_MKFIFO, FDREF_LINK, FDREF_UNLINK, FDREF_FSTAT, FDREF_FORK, FDREF_GETFL,
    FDREF_SETFL, FDREF_RENAME
};
struct fdref_act {
    int kind, fd, other;
    const char *name, *new_name;
    int64_t offset;
    const void *data;
    uint64_t count;
};

/* What an act came to, and the values of that. */
enum fdref_outcome_kind {
    FDREF_DONE = 1, FDREF_NUMBER, FDREF_DATA, FDREF_DESCRIPTORS, FDREF_STAT, FDREF_ERROR, FDREF_PARKED, FDREF_PART
};
struct fdref_outcome {
    int kind, error, ends[2];
    uint64_t number;
    struct fdref_stat stat;
    const void *data;
    size_t size;
};

/* The number that stands for a process in the record that closes a run. */
#define FDREF_HOUSE INT64_C(4294967295)

/* Records what an act of a process came to. 0, or -1 where it or one before it cannot be recorded. */
int fdref_record(struct fdref_trace *trace, int64_t process, struct fdref_act act, struct fdref_outcome outcome);

/* The acts, to be recorded. */
struct fdref_act fdref_act_join(void);
struct fdref_act fdref_act_attach(void);
struct fdref_act fdref_act_resume(void);
struct fdref_act fdref_act_exit(void);
struct fdref_act fdref_act_close_run(void);
struct fdref_act fdref_act_open(const char *name, int flags);
struct fdref_act fdref_act_close(int fd);
struct fdref_act fdref_act_read(int fd, size_t count);
struct fdref_act fdref_act_write(int fd, const void *data, size_t count);
struct fdref_act fdref_act_pread(int fd, size_t count, int64_t offset);
struct fdref_act fdref_act_pwrite(int fd, const void *data, size_t count, int64_t offset);
struct fdref_act fdref_act_lseek(int fd, int64_t offset, int whence);
struct fdref_act fdref_act_ftruncate(int fd, int64_t length);
struct fdref_act fdref_act_dup(int fd);
struct fdref_act fdref_act_dup2(int fd, int to);
struct fdref_act fdref_act_pipe(void);
struct fdref_act fdref_act_mkfifo(const char *name);
struct fdref_act fdref_act_link(const char *old_name, const char *new_name);
struct fdref_act fdref_act_unlink(const char *name);
struct fdref_act fdref_act_fstat(int fd);
struct fdref_act fdref_act_fork(void);
struct fdref_act fdref_act_getfl(int fd);
struct fdref_act fdref_act_setfl(int fd, int flags);
struct fdref_act fdref_act_rename(const char *old_name, const char *new_name);

/* What they may come to. */
struct fdref_outcome fdref_done(void);
struct fdref_outcome fdref_number(uint64_t number);
struct fdref_outcome fdref_data(const void *data, size_t size);
struct fdref_outcome fdref_descriptors(int reading, int writing);
struct fdref_outcome fdref_told(int kind, uint64_t size, uint32_t links);
struct fdref_outcome fdref_error(int number);
struct fdref_outcome fdref_parked(uint32_t moved);
struct fdref_outcome fdref_part(uint32_t moved);

/* The same, of what a function returned: a number, 0, or how many bytes it put into a buffer. Below 0 it is errno. */
struct fdref_outcome fdref_result(int64_t result);
struct fdref_outcome fdref_result_done(int result);
struct fdref_outcome fdref_result_data(const void *buffer, ssize_t result);

/* The same, of the flags that F_GETFL returned. A trace holds no other flags than an open has; what else a system tells
   has to be left out before. */
struct fdref_outcome fdref_result_flags(int result);

#ifdef __cplusplus
}
#endif

#endif

#if defined FDREF_IMPLEMENTATION && !defined FDREF_IS_IMPLEMENTED
#define FDREF_IS_IMPLEMENTED

#include <limits.h>
#include <poll.h>
#include <stdio.h>
#include <stdlib.h>
#include <string.h>
#include <sys/socket.h>
#include <sys/time.h>
#include <sys/times.h>
#include <sys/un.h>
#include <time.h>

/* Where a system has no such flag it has SO_NOSIGPIPE. */
#ifdef MSG_NOSIGNAL
#define FDREF_NO_SIGNAL MSG_NOSIGNAL
#else
#define FDREF_NO_SIGNAL 0
#endif

#ifdef __cplusplus
extern "C" {
#endif

/* The fields of each call from open on, in the order of a frame (f flags, s a name, S the second name, d a descriptor,
   D the second one, n a count, p a position, w where an offset begins, b data), and the kind of its reply. */
static const struct {
    const char *fields;
    int gives;
} fdref_calls[] = {
    {"fs", FDREF_NUMBER}, {"d", FDREF_DONE}, {"dn", FDREF_DATA}, {"db", FDREF_NUMBER}, {"dpn", FDREF_DATA},
    {"dpb", FDREF_NUMBER}, {"dpw", FDREF_NUMBER}, {"dp", FDREF_DONE}, {"d", FDREF_NUMBER}, {"dD", FDREF_NUMBER},
    {"", FDREF_DESCRIPTORS}, {"s", FDREF_DONE}, {"sS", FDREF_DONE}, {"s", FDREF_DONE}, {"d", FDREF_STAT},
    {"", FDREF_NUMBER}, {"d", FDREF_NUMBER}, {"df", FDREF_DONE}, {"sS", FDREF_DONE}
};

/* The errors from number 1 on, and the refusals from FDREF_NO_MEMORY on. */
struct fdref_named {
    int number;
    const char *name;
};
#define FDREF_NAMED(error) {error, #error}
static const struct fdref_named fdref_errors[] = {
    FDREF_NAMED(EBADF), FDREF_NAMED(EINVAL), FDREF_NAMED(ESPIPE), FDREF_NAMED(EFBIG), FDREF_NAMED(EOVERFLOW),
    FDREF_NAMED(ENOENT), FDREF_NAMED(EEXIST), FDREF_NAMED(EMLINK), FDREF_NAMED(ENAMETOOLONG), FDREF_NAMED(EMFILE),
    FDREF_NAMED(ENFILE), FDREF_NAMED(ENOSPC), FDREF_NAMED(EAGAIN), FDREF_NAMED(EPIPE), FDREF_NAMED(ENXIO),
    FDREF_NAMED(ESRCH)
};
#undef FDREF_NAMED
static const struct fdref_named fdref_refusals[] = {
    {ENOMEM, "NoMemory"}, {EDQUOT, "RunFull"}, {EBUSY, "Waiting"}, {ECHILD, "NotHere"}, {ESTALE, "Foreign"}
};
enum { FDREF_ERRORS = sizeof fdref_errors / sizeof fdref_errors[0] };
enum { FDREF_REFUSALS = sizeof fdref_refusals / sizeof fdref_refusals[0] };

static int fdref_is_call(int act) { return act >= FDREF_OPEN && act <= FDREF_RENAME; }
static int fdref_is_refusal(int refusal) { return refusal >= FDREF_NO_MEMORY && refusal <= FDREF_FOREIGN; }

/* The number of an error in frames, or 0. */
static unsigned fdref_error_byte(int number)
{
    unsigned at = 0;
    while (at < FDREF_ERRORS && fdref_errors[at].number != number)
        at++;
    return at < FDREF_ERRORS ? at + 1 : 0;
}

const char *fdref_error_name(int number)
{
    unsigned byte = fdref_error_byte(number), at = 0;
    while (at < FDREF_REFUSALS && fdref_refusals[at].number != number)
        at++;
    return byte > 0 ? fdref_errors[byte - 1].name : at < FDREF_REFUSALS ? fdref_refusals[at].name : NULL;
}

/* ---- flags */

/* The flags after the mode, from 4 on in a frame, where a mode is 0 to 3. */
static const int fdref_flags[] = {O_CREAT, O_EXCL, O_TRUNC, O_APPEND, O_NONBLOCK};
static const int fdref_modes[] = {FDREF_O_NEITHER, O_RDONLY, O_WRONLY, O_RDWR};
enum { FDREF_FLAGS = sizeof fdref_flags / sizeof fdref_flags[0], FDREF_FLAGS_MOST = (4 << FDREF_FLAGS) - 1 };

/* Flags as a frame has them, or -1 where fdref does not know them all. */
static int fdref_flags_byte(int flags)
{
    int modes = O_RDONLY | O_WRONLY | O_RDWR, mode = flags & modes;
    int byte = mode == O_RDWR ? 3 : mode == O_WRONLY ? 2 : mode == O_RDONLY ? 1 : 0;
    flags &= ~modes;
    for (int at = 0; at < FDREF_FLAGS; at++) {
        if ((flags & fdref_flags[at]) == fdref_flags[at]) {
            byte |= 4 << at;
            flags &= ~fdref_flags[at];
        }
    }
    return flags == 0 ? byte : -1;
}

/* The flags that a frame has, of at most FDREF_FLAGS_MOST. */
static int fdref_flags_of(int byte)
{
    int flags = fdref_modes[byte & 3];
    for (int at = 0; at < FDREF_FLAGS; at++)
        flags |= byte & 4 << at ? fdref_flags[at] : 0;
    return flags;
}

/* ---- acts and outcomes */

/* `other` is the second descriptor, where an offset begins, or flags; `offset` is also a length of a file. */
static struct fdref_act fdref_act_of(int kind, int fd, int other, int64_t offset, const void *data, uint64_t count)
{
    struct fdref_act act = {kind, fd, other, NULL, NULL, offset, data, count};
    return act;
}

static struct fdref_act fdref_act_plain(int kind, int fd) { return fdref_act_of(kind, fd, 0, 0, NULL, 0); }

static struct fdref_act fdref_act_named(int kind, const char *name, const char *new_name, int flags)
{
    struct fdref_act act = {kind, 0, flags, name, new_name, 0, NULL, 0};
    return act;
}

struct fdref_act fdref_act_join(void) { return fdref_act_plain(FDREF_JOIN, 0); }
struct fdref_act fdref_act_attach(void) { return fdref_act_plain(FDREF_ATTACH, 0); }
struct fdref_act fdref_act_resume(void) { return fdref_act_plain(FDREF_RESUME, 0); }
struct fdref_act fdref_act_exit(void) { return fdref_act_plain(FDREF_EXIT, 0); }
struct fdref_act fdref_act_close_run(void) { return fdref_act_plain(FDREF_CLOSE_RUN, 0); }

struct fdref_act fdref_act_open(const char *name, int flags) { return fdref_act_named(FDREF_OPEN, name, NULL, flags); }
struct fdref_act fdref_act_close(int fd) { return fdref_act_plain(FDREF_CLOSE, fd); }
struct fdref_act fdref_act_read(int fd, size_t count) { return fdref_act_of(FDREF_READ, fd, 0, 0, NULL, count); }

struct fdref_act fdref_act_write(int fd, const void *data, size_t count)
{
    return fdref_act_of(FDREF_WRITE, fd, 0, 0, data, count);
}

struct fdref_act fdref_act_pread(int fd, size_t count, int64_t offset)
{
    return fdref_act_of(FDREF_PREAD, fd, 0, offset, NULL, count);
}

struct fdref_act fdref_act_pwrite(int fd, const void *data, size_t count, int64_t offset)
{
    return fdref_act_of(FDREF_PWRITE, fd, 0, offset, data, count);
}

struct fdref_act fdref_act_lseek(int fd, int64_t offset, int whence)
{
    return fdref_act_of(FDREF_LSEEK, fd, whence, offset, NULL, 0);
}

struct fdref_act fdref_act_ftruncate(int fd, int64_t length)
{
    return fdref_act_of(FDREF_FTRUNCATE, fd, 0, length, NULL, 0);
}

struct fdref_act fdref_act_dup(int fd) { return fdref_act_plain(FDREF_DUP, fd); }
struct fdref_act fdref_act_dup2(int fd, int to) { return fdref_act_of(FDREF_DUP2, fd, to, 0, NULL, 0); }
struct fdref_act fdref_act_pipe(void) { return fdref_act_plain(FDREF_PIPE, 0); }
struct fdref_act fdref_act_mkfifo(const char *name) { return fdref_act_named(FDREF_MKFIFO, name, NULL, 0); }

struct fdref_act fdref_act_link(const char *old_name, const char *new_name)
{
    return fdref_act_named(FDREF_LINK, old_name, new_name, 0);
}

struct fdref_act fdref_act_unlink(const char *name) { return fdref_act_named(FDREF_UNLINK, name, NULL, 0); }
struct fdref_act fdref_act_fstat(int fd) { return fdref_act_plain(FDREF_FSTAT, fd); }
struct fdref_act fdref_act_fork(void) { return fdref_act_plain(FDREF_FORK, 0); }
struct fdref_act fdref_act_getfl(int fd) { return fdref_act_plain(FDREF_GETFL, fd); }
struct fdref_act fdref_act_setfl(int fd, int flags) { return fdref_act_of(FDREF_SETFL, fd, flags, 0, NULL, 0); }

struct fdref_act fdref_act_rename(const char *old_name, const char *new_name)
{
    return fdref_act_named(FDREF_RENAME, old_name, new_name, 0);
}

/* The kind of an outcome with flags that no trace holds. */
#define FDREF_NO_FLAGS (-1)

/* `number` is also how many bytes have moved. */
static struct fdref_outcome fdref_outcome_of(int kind, uint64_t number)
{
    struct fdref_outcome outcome = {kind, 0, {0, 0}, number, {0, 0, 0}, NULL, 0};
    return outcome;
}

struct fdref_outcome fdref_done(void) { return fdref_outcome_of(FDREF_DONE, 0); }
struct fdref_outcome fdref_number(uint64_t number) { return fdref_outcome_of(FDREF_NUMBER, number); }
struct fdref_outcome fdref_parked(uint32_t moved) { return fdref_outcome_of(FDREF_PARKED, moved); }
struct fdref_outcome fdref_part(uint32_t moved) { return fdref_outcome_of(FDREF_PART, moved); }

struct fdref_outcome fdref_data(const void *data, size_t size)
{
    struct fdref_outcome outcome = {FDREF_DATA, 0, {0, 0}, 0, {0, 0, 0}, data, size};
    return outcome;
}

struct fdref_outcome fdref_descriptors(int reading, int writing)
{
    struct fdref_outcome outcome = {FDREF_DESCRIPTORS, 0, {reading, writing}, 0, {0, 0, 0}, NULL, 0};
    return outcome;
}

struct fdref_outcome fdref_told(int kind, uint64_t size, uint32_t links)
{
    struct fdref_outcome outcome = {FDREF_STAT, 0, {0, 0}, 0, {kind, size, links}, NULL, 0};
    return outcome;
}

struct fdref_outcome fdref_error(int number)
{
    struct fdref_outcome outcome = {FDREF_ERROR, number, {0, 0}, 0, {0, 0, 0}, NULL, 0};
    return outcome;
}

struct fdref_outcome fdref_result(int64_t result)
{
    return result < 0 ? fdref_error(errno) : fdref_number((uint64_t)result);
}

struct fdref_outcome fdref_result_done(int result) { return result < 0 ? fdref_error(errno) : fdref_done(); }

struct fdref_outcome fdref_result_data(const void *buffer, ssize_t result)
{
    return result < 0 ? fdref_error(errno) : fdref_data(buffer, (size_t)result);
}

struct fdref_outcome fdref_result_flags(int result)
{
    int byte = result < 0 ? 0 : fdref_flags_byte(result);
    return result < 0 ? fdref_error(errno) : fdref_outcome_of(byte < 0 ? FDREF_NO_FLAGS : FDREF_NUMBER, (uint64_t)byte);
}

/* ---- frames, written */

/* The payload of a frame, after four bytes for its length, the errno of the first thing that no frame holds, and what
   was put last before that. */
struct fdref_payload {
    unsigned char *bytes;
    size_t size;
    int fault;
    const char *what;
};

/* Notes what is put next. */
static void fdref_put_next(struct fdref_payload *to, const char *what) { to->what = to->fault == 0 ? what : to->what; }

static void fdref_need(struct fdref_payload *to, int is_held, int fault)
{
    if (!is_held && to->fault == 0)
        to->fault = fault;
}

static void fdref_put(struct fdref_payload *to, uint64_t number, unsigned width)
{
    fdref_need(to, width <= FDREF_FRAME_MOST - to->size, EINVAL);
    while (width > 0 && to->fault == 0)
        to->bytes[to->size++] = (unsigned char)(number >> 8 * --width);
}

/* Puts bytes after their number, which has a width of its own. */
static void fdref_put_bytes(struct fdref_payload *to, const void *bytes, uint64_t size, uint64_t most, unsigned width)
{
    fdref_need(to, size <= most && (bytes || size == 0), EINVAL);
    fdref_put(to, size, width);
    fdref_need(to, size <= FDREF_FRAME_MOST - to->size, EINVAL);
    if (size > 0 && to->fault == 0) {
        memcpy(to->bytes + to->size, bytes, (size_t)size);
        to->size += (size_t)size;
    }
}

static void fdref_put_name(struct fdref_payload *to, const char *name)
{
    size_t size = name ? strlen(name) : 0;
    fdref_need(to, name != NULL, EINVAL);
    fdref_need(to, size <= FDREF_NAME_MOST, ENAMETOOLONG);
    fdref_put_bytes(to, name, size, FDREF_NAME_MOST, 1);
}

static void fdref_put_flags(struct fdref_payload *to, int flags)
{
    int byte = fdref_flags_byte(flags);
    fdref_need(to, byte >= 0, EINVAL);
    fdref_put(to, (uint64_t)byte, 1);
}

/* What a field of a call is, by its letter in `fdref_calls`. */
static const char *fdref_field_name(char field)
{
    switch (field) {
    case 'f': return "flags";
    case 's':
    case 'S': return "a name";
    case 'b': return "data";
    case 'n': return "a count";
    case 'w': return "a base of an offset";
    default: return "a number";
    }
}

static void fdref_put_act(struct fdref_payload *to, const struct fdref_act *act)
{
    const char *field = fdref_is_call(act->kind) ? fdref_calls[act->kind - FDREF_OPEN].fields : "";
    fdref_need(to, fdref_is_call(act->kind) || (act->kind >= FDREF_JOIN && act->kind <= FDREF_CLOSE_RUN), EINVAL);
    fdref_put(to, (uint64_t)act->kind, 1);
    for (; *field; field++) {
        fdref_put_next(to, fdref_field_name(*field));
        switch (*field) {
        case 'f': fdref_put_flags(to, act->other); break;
        case 's': fdref_put_name(to, act->name); break;
        case 'S': fdref_put_name(to, act->new_name); break;
        case 'd': fdref_put(to, (uint64_t)act->fd, 4); break;
        case 'D': fdref_put(to, (uint64_t)act->other, 4); break;
        case 'p': fdref_put(to, (uint64_t)act->offset, 8); break;
        case 'b': fdref_put_bytes(to, act->data, act->count, FDREF_DATA_MOST, 4); break;
        case 'n':
            fdref_need(to, act->count <= UINT32_MAX, EINVAL);
            fdref_put(to, act->count, 4);
            break;
        default:
            fdref_need(to, act->other == SEEK_SET || act->other == SEEK_CUR || act->other == SEEK_END, EINVAL);
            fdref_put(to, act->other == SEEK_SET ? 0 : act->other == SEEK_CUR ? 1 : 2, 1);
        }
    }
}

static void fdref_put_outcome(struct fdref_payload *to, const struct fdref_outcome *outcome)
{
    const struct fdref_stat *stat = &outcome->stat;
    fdref_put(to, (uint64_t)outcome->kind, 1);
    switch (outcome->kind) {
    case FDREF_DONE: break;
    case FDREF_NUMBER: fdref_put(to, outcome->number, 8); break;
    case FDREF_DATA: fdref_put_bytes(to, outcome->data, outcome->size, FDREF_TRANSFER_MOST, 4); break;
    case FDREF_DESCRIPTORS:
        fdref_need(to, outcome->ends[0] >= 0 && outcome->ends[1] >= 0, EINVAL);
        fdref_put(to, (uint64_t)outcome->ends[0], 4);
        fdref_put(to, (uint64_t)outcome->ends[1], 4);
        break;
    case FDREF_STAT:
        fdref_need(to, stat->kind >= FDREF_KIND_REGULAR && stat->kind <= FDREF_KIND_PIPE, EINVAL);
        fdref_put(to, (uint64_t)stat->kind, 1);
        fdref_put(to, stat->size, 8);
        fdref_put(to, stat->links, 4);
        break;
    case FDREF_ERROR:
        fdref_need(to, fdref_error_byte(outcome->error) > 0, EINVAL);
        fdref_put(to, fdref_error_byte(outcome->error), 1);
        break;
    case FDREF_PARKED:
    case FDREF_PART: fdref_put(to, outcome->number, 4); break;
    default: fdref_need(to, 0, EINVAL);
    }
}

/* Puts the length before a payload, and gives that of the frame. */
static size_t fdref_end_frame(const struct fdref_payload *payload)
{
    for (int at = 0; at < 4; at++)
        payload->bytes[at - 4] = (unsigned char)(payload->size >> 8 * (3 - at));
    return 4 + payload->size;
}

/* ---- outcomes, read */

static uint64_t fdref_number_at(const unsigned char *bytes, int width)
{
    uint64_t number = 0;
    for (int at = 0; at < width; at++)
        number = number << 8 | bytes[at];
    return number;
}

/* Reads an outcome, which is all of these bytes, one at least: whether it is one. */
static int fdref_read_outcome(const unsigned char *bytes, size_t size, struct fdref_outcome *outcome)
{
    static const size_t sizes[] = {0, 1, 9, 5, 9, 14, 2, 5, 5};
    int kind = *bytes++, is_right = kind >= FDREF_DONE && kind <= FDREF_PART && size >= sizes[kind];
    *outcome = fdref_outcome_of(kind, 0);
    if (is_right && kind == FDREF_DATA) {
        outcome->data = bytes + 4;
        outcome->size = (size_t)fdref_number_at(bytes, 4);
        return outcome->size <= FDREF_TRANSFER_MOST && outcome->size == size - 5;
    }
    if (!is_right || size != sizes[kind])
        return 0;
    switch (kind) {
    case FDREF_NUMBER: outcome->number = fdref_number_at(bytes, 8); return 1;
    case FDREF_DESCRIPTORS:
        outcome->ends[0] = (int)(fdref_number_at(bytes, 4) & INT_MAX);
        outcome->ends[1] = (int)(fdref_number_at(bytes + 4, 4) & INT_MAX);
        return bytes[0] < 128 && bytes[4] < 128;
    case FDREF_STAT:
        outcome->stat.kind = bytes[0];
        outcome->stat.size = fdref_number_at(bytes + 1, 8);
        outcome->stat.links = (uint32_t)fdref_number_at(bytes + 9, 4);
        return bytes[0] <= FDREF_KIND_PIPE;
    case FDREF_ERROR:
        outcome->error = bytes[0] > 0 && bytes[0] <= FDREF_ERRORS ? fdref_errors[bytes[0] - 1].number : 0;
        return outcome->error != 0;
    case FDREF_PARKED:
    case FDREF_PART: outcome->number = fdref_number_at(bytes, 4); return 1;
    default: return 1;
    }
}

/* ---- connections */

/* A process, and its last call: the act, where what it reads goes, the greatest value that it may give, how it went on,
   and its last outcome. `limit` is how many milliseconds one wait may take, or 0. `frame` is that of the last request,
   or of the last answer. */
struct fdref {
    int socket, returns_when_parked, refusal, act, is_parked;
    unsigned limit;
    pid_t number;
    void *buffer;
    uint64_t most, place, waits;
    size_t moved;
    struct fdref_outcome outcome;
    unsigned char frame[4 + FDREF_FRAME_MOST];
};

pid_t fdref_getpid(const struct fdref *p) { return p->number; }
uint64_t fdref_place(const struct fdref *p) { return p->place; }
int fdref_refusal(const struct fdref *p) { return p->refusal; }
int fdref_fileno(const struct fdref *p) { return p->socket; }
uint64_t fdref_waits(const struct fdref *p) { return p->waits; }
size_t fdref_moved(const struct fdref *p) { return p->moved; }
void fdref_return_when_parked(struct fdref *p, int is_to_return) { p->returns_when_parked = is_to_return; }

/* Fails as a call that has no record. */
static int64_t fdref_refuse(struct fdref *p, int refusal, int number)
{
    p->refusal = refusal;
    errno = number;
    return -1;
}

/* Gives the connection up. */
static int64_t fdref_lose(struct fdref *p, int number)
{
    close(p->socket);
    p->socket = -1;
    p->is_parked = 0;
    return fdref_refuse(p, FDREF_LOST, number);
}

/* Milliseconds of a clock that nobody sets, and the greatest step of it. Where a program asks its system for C alone, as
   by -std=c99, CLOCK_MONOTONIC is not there. */
#ifdef CLOCK_MONOTONIC
enum { FDREF_STEP = 1 };
static int64_t fdref_now(void)
{
    struct timespec now;
    clock_gettime(CLOCK_MONOTONIC, &now);
    return (int64_t)now.tv_sec * 1000 + now.tv_nsec / 1000000;
}
#else
enum { FDREF_STEP = 20 };
static int64_t fdref_now(void)
{
    struct tms unused;
    return (int64_t)times(&unused) * 1000 / sysconf(_SC_CLK_TCK);
}
#endif

/* When a wait ends that begins now, and may take so many milliseconds; 0 milliseconds are no limit. */
static int64_t fdref_until(unsigned limit) { return limit > 0 ? fdref_now() + limit + FDREF_STEP : INT64_MAX; }

/* How many milliseconds are left until then, one at least. */
static unsigned fdref_left(int64_t until)
{
    int64_t left = until - fdref_now();
    return left < 1 ? 1 : left < INT_MAX ? (unsigned)left : INT_MAX;
}

/* Limits how long one recv, send or connect of a socket may take; 0 milliseconds are no limit. */
static void fdref_limit(int socket, unsigned milliseconds)
{
    struct timeval limit;
    limit.tv_sec = (time_t)(milliseconds / 1000);
    limit.tv_usec = (suseconds_t)(milliseconds % 1000 * 1000);
    setsockopt(socket, SOL_SOCKET, SO_RCVTIMEO, &limit, sizeof limit);
    setsockopt(socket, SOL_SOCKET, SO_SNDTIMEO, &limit, sizeof limit);
}

/* So many seconds in milliseconds, or the most that there are. */
static unsigned fdref_milliseconds(unsigned seconds) { return seconds < INT_MAX / 1000 ? seconds * 1000 : INT_MAX; }

/* Limits how many milliseconds one wait of a process may take. */
static void fdref_limit_waits(struct fdref *p, unsigned limit)
{
    p->limit = limit;
    if (p->socket >= 0)
        fdref_limit(p->socket, limit);
}

void fdref_answer_within(struct fdref *p, unsigned seconds) { fdref_limit_waits(p, fdref_milliseconds(seconds)); }

/* What a recv, send or connect that failed came to: 0 where it was interrupted, and what is left of its wait is then
   the limit of the next one; ETIMEDOUT where nothing is left; or ECONNRESET. */
static int fdref_fault(int socket, int error, int64_t until)
{
    if (error == EAGAIN || error == EWOULDBLOCK)
        return ETIMEDOUT;
    if (error != EINTR)
        return ECONNRESET;
    if (until == INT64_MAX)
        return 0;
    fdref_limit(socket, fdref_left(until));
    return fdref_now() < until ? 0 : ETIMEDOUT;
}

/* Sends or receives some bytes, of so many: more than 0, or 0 and what it came to. */
static size_t fdref_move_some(const struct fdref *p, unsigned char *at, size_t size, int is_received, int *fault)
{
    int64_t until = fdref_until(p->limit);
    int tries = 0;
    ssize_t moved;
    *fault = 0;
    do {
        moved = is_received ? recv(p->socket, at, size, 0) : send(p->socket, at, size, FDREF_NO_SIGNAL);
        if (moved <= 0)
            *fault = moved == 0 ? ECONNRESET : fdref_fault(p->socket, errno, until);
        tries++;
    } while (moved < 0 && *fault == 0);
    if (tries > 1 && p->limit > 0)
        fdref_limit(p->socket, p->limit);
    return moved > 0 ? (size_t)moved : 0;
}

/* Sends or receives so many bytes: 0, ETIMEDOUT where the limit has passed, or ECONNRESET where the connection is
   lost. */
static int fdref_move(const struct fdref *p, unsigned char *at, size_t size, int is_received)
{
    int fault = 0;
    while (size > 0 && fault == 0) {
        size_t moved = fdref_move_some(p, at, size, is_received, &fault);
        at += moved;
        size -= moved;
    }
    return fault;
}

/* What the last outcome gives; where it is no reply of the call, the connection is given up. */
static int64_t fdref_value(struct fdref *p)
{
    const struct fdref_outcome *outcome = &p->outcome;
    int other = p->act == FDREF_JOIN ? FDREF_NUMBER : FDREF_DONE;
    int wanted = fdref_is_call(p->act) ? fdref_calls[p->act - FDREF_OPEN].gives : other;
    uint64_t value = outcome->kind == FDREF_NUMBER ? outcome->number : outcome->size;
    if (outcome->kind != wanted || value > p->most)
        return fdref_lose(p, EPROTO);
    if (outcome->size > 0)
        memcpy(p->buffer, outcome->data, outcome->size);
    return (int64_t)value;
}

/* Takes an answer of so many bytes, and gives what the call does; or keeps that it waits. */
static int64_t fdref_take(struct fdref *p, size_t size)
{
    const unsigned char *answer = p->frame + 4;
    int may_wait = p->act == FDREF_OPEN || p->act == FDREF_READ || p->act == FDREF_WRITE;
    p->is_parked = 0;
    if (size >= 2 && answer[0] == 2 && fdref_is_refusal(answer[1]) && size == (answer[1] == FDREF_FOREIGN ? 18u : 2u))
        return fdref_refuse(p, answer[1], fdref_refusals[answer[1] - FDREF_NO_MEMORY].number);
    if (size < 10 || answer[0] != 1 || !fdref_read_outcome(answer + 9, size - 9, &p->outcome))
        return fdref_lose(p, EPROTO);
    p->place = fdref_number_at(answer + 1, 8);
    p->is_parked = may_wait && p->outcome.kind >= FDREF_PARKED;
    if (!p->is_parked && p->outcome.kind != FDREF_ERROR)
        return fdref_value(p);
    if (p->is_parked) {
        p->waits++;
        p->moved = (size_t)p->outcome.number;
    }
    errno = p->is_parked ? EINPROGRESS : p->outcome.error;
    return -1;
}

/* Receives the next answer, or all of them up to the reply. */
static int64_t fdref_hear(struct fdref *p)
{
    int64_t value;
    p->refusal = FDREF_RECORDED;
    do {
        int fault = fdref_move(p, p->frame, 4, 1);
        size_t size = fault == 0 ? (size_t)fdref_number_at(p->frame, 4) : 0;
        if (size > FDREF_FRAME_MOST)
            fault = EPROTO;
        if (fault == 0)
            fault = fdref_move(p, p->frame + 4, size, 1);
        if (fault != 0)
            return fdref_lose(p, fault);
        value = fdref_take(p, size);
    } while (p->is_parked && !p->returns_when_parked);
    return value;
}

/* Sends a request, and gives what its act does. */
static int64_t fdref_exchange(struct fdref *p, const struct fdref_payload *request, int act, uint64_t most)
{
    int fault = fdref_move(p, p->frame, fdref_end_frame(request), 0);
    p->act = act;
    p->most = most;
    return fault == 0 ? fdref_hear(p) : fdref_lose(p, fault);
}

/* Connects, or gives -1. A server is waited for until the first time, and room in its queue until the second one. */
static int fdref_connect(const char *path, int64_t until_started, int64_t until)
{
    struct sockaddr_un address;
    size_t size = strlen(path);
    memset(&address, 0, sizeof address);
    address.sun_family = AF_UNIX;
    if (size == 0 || size >= sizeof address.sun_path) {
        errno = size == 0 ? ENOENT : ENAMETOOLONG;
        return -1;
    }
    memcpy(address.sun_path, path, size);
    for (;;) {
        int error = 1, fd = socket(AF_UNIX, SOCK_STREAM, 0);
        if (fd < 0)
            return -1;
        fcntl(fd, F_SETFD, FD_CLOEXEC);
#ifdef SO_NOSIGPIPE
        setsockopt(fd, SOL_SOCKET, SO_NOSIGPIPE, &error, sizeof error);
#endif
        fdref_limit(fd, fdref_left(until));
        do
            error = connect(fd, (const struct sockaddr *)&address, sizeof address) == 0 ? 0 : errno;
        while (error == EINTR && fdref_fault(fd, error, until) == 0);
        if (error == 0 || error == EISCONN)
            return fd;
        close(fd);
        /* so many connections wait to be taken that there is no room for one more */
        errno = error == EAGAIN || error == EINTR ? ETIMEDOUT : error;
        if ((error != ENOENT && error != ECONNREFUSED) || fdref_now() >= until_started)
            return -1;
        poll(NULL, 0, 10);
    }
}

/* Connects, and joins or attaches: a server is waited for, and the first answer, at most so many seconds from now. */
static struct fdref *fdref_begin(const char *path, unsigned start, unsigned answer, int act, pid_t child)
{
    struct fdref *p = (struct fdref *)calloc(1, sizeof *p);
    int64_t until_started = start > 0 ? fdref_until(fdref_milliseconds(start)) : 0;
    int64_t until = fdref_until(fdref_milliseconds(answer)), number = -1;
    if (p && (p->socket = fdref_connect(path, until_started, until)) >= 0) {
        struct fdref_payload request = {p->frame + 4, 0, 0, ""};
        fdref_limit_waits(p, fdref_left(until));
        fdref_put(&request, (uint64_t)act, 1);
        if (act == FDREF_ATTACH)
            fdref_put(&request, (uint64_t)child, 4);
        number = fdref_exchange(p, &request, act, INT_MAX);
        p->number = act == FDREF_ATTACH ? child : (pid_t)number;
    }
    if (number >= 0) {
        fdref_answer_within(p, 0);
        return p;
    }
    fdref_exit(p);
    return NULL;
}

struct fdref *fdref_join(const char *path) { return fdref_join_within(path, 0); }

struct fdref *fdref_join_within(const char *path, unsigned seconds)
{
    return fdref_begin(path, seconds, seconds > 0 ? seconds : FDREF_FIRST_ANSWER, FDREF_JOIN, 0);
}

struct fdref *fdref_attach(const char *path, pid_t child) { return fdref_attach_within(path, child, 0); }

struct fdref *fdref_attach_within(const char *path, pid_t child, unsigned seconds)
{
    if (child >= 0)
        return fdref_begin(path, seconds, seconds > 0 ? seconds : FDREF_FIRST_ANSWER, FDREF_ATTACH, child);
    errno = ESRCH;
    return NULL;
}

const char *fdref_no_process(int number)
{
    switch (number) {
    case ECONNRESET: return "the server ended, or had no memory, descriptor or thread for this process";
    case ETIMEDOUT:
        return "no answer: all sessions are taken, the server can take no further connection or is late, or no fdref "
               "listens there";
    case EAGAIN: return "the run has as many processes as it may";
    case EDQUOT: return "the run has no record free for this process";
    case ESRCH: return "there is no child of this number to be attached";
    default: return strerror(number);
    }
}

/* The server hangs up once the exit is recorded. */
int fdref_exit(struct fdref *p)
{
    int error = errno, fault = p && p->socket < 0 ? ECONNRESET : 0;
    if (p && p->socket >= 0) {
        int64_t until = fdref_until(p->limit);
        ssize_t some;
        shutdown(p->socket, SHUT_WR);
        do {
            some = recv(p->socket, p->frame, sizeof p->frame, 0);
            fault = some < 0 ? fdref_fault(p->socket, errno, until) : 0;
        } while (some > 0 || (some < 0 && fault == 0));
        close(p->socket);
    }
    free(p);
    errno = error;
    return fault;
}

void fdref_forget(struct fdref *p)
{
    int error = errno;
    if (p && p->socket >= 0)
        close(p->socket);
    free(p);
    errno = error;
}

ssize_t fdref_finish(struct fdref *p)
{
    if (p->socket < 0)
        return (ssize_t)fdref_refuse(p, FDREF_LOST, ENOTCONN);
    return (ssize_t)(p->is_parked ? fdref_hear(p) : fdref_refuse(p, FDREF_UNSENT, EINVAL));
}

/* ---- calls */

/* Makes a call, which gives at most this value; what it reads goes into the buffer. */
static int64_t fdref_ask(struct fdref *p, struct fdref_act act, void *buffer, uint64_t most)
{
    struct fdref_payload request = {p->frame + 4, 0, 0, ""};
    if (p->is_parked)
        return fdref_refuse(p, FDREF_WAITING, EBUSY);
    p->waits = 0;
    p->moved = 0;
    if (p->socket < 0)
        return fdref_refuse(p, FDREF_LOST, ENOTCONN);
    fdref_put_act(&request, &act);
    if (request.fault != 0)
        return fdref_refuse(p, FDREF_UNSENT, request.fault);
    p->buffer = buffer;
    return fdref_exchange(p, &request, act.kind, most);
}

static int fdref_ask_int(struct fdref *p, struct fdref_act act) { return (int)fdref_ask(p, act, NULL, INT_MAX); }

int fdref_open(struct fdref *p, const char *name, int flags) { return fdref_ask_int(p, fdref_act_open(name, flags)); }
int fdref_close(struct fdref *p, int fd) { return fdref_ask_int(p, fdref_act_close(fd)); }

ssize_t fdref_read(struct fdref *p, int fd, void *buffer, size_t count)
{
    return (ssize_t)fdref_ask(p, fdref_act_read(fd, count), buffer, count);
}

ssize_t fdref_write(struct fdref *p, int fd, const void *data, size_t count)
{
    return (ssize_t)fdref_ask(p, fdref_act_write(fd, data, count), NULL, count);
}

ssize_t fdref_pread(struct fdref *p, int fd, void *buffer, size_t count, off_t offset)
{
    return (ssize_t)fdref_ask(p, fdref_act_pread(fd, count, offset), buffer, count);
}

ssize_t fdref_pwrite(struct fdref *p, int fd, const void *data, size_t count, off_t offset)
{
    return (ssize_t)fdref_ask(p, fdref_act_pwrite(fd, data, count, offset), NULL, count);
}

/* Where off_t is too small for the new offset, that is EOVERFLOW. */
off_t fdref_lseek(struct fdref *p, int fd, off_t offset, int whence)
{
    int64_t reached = fdref_ask(p, fdref_act_lseek(fd, offset, whence), NULL, INT64_MAX);
    if (sizeof(off_t) >= sizeof reached || reached <= INT32_MAX)
        return (off_t)reached;
    errno = EOVERFLOW;
    return -1;
}

int fdref_ftruncate(struct fdref *p, int fd, off_t length) { return fdref_ask_int(p, fdref_act_ftruncate(fd, length)); }
int fdref_dup(struct fdref *p, int fd) { return fdref_ask_int(p, fdref_act_dup(fd)); }
int fdref_dup2(struct fdref *p, int fd, int to) { return fdref_ask_int(p, fdref_act_dup2(fd, to)); }

int fdref_pipe(struct fdref *p, int ends[2])
{
    int done = fdref_ask_int(p, fdref_act_pipe());
    if (done == 0)
        memcpy(ends, p->outcome.ends, sizeof p->outcome.ends);
    return done;
}

int fdref_mkfifo(struct fdref *p, const char *name) { return fdref_ask_int(p, fdref_act_mkfifo(name)); }

int fdref_link(struct fdref *p, const char *old_name, const char *new_name)
{
    return fdref_ask_int(p, fdref_act_link(old_name, new_name));
}

int fdref_unlink(struct fdref *p, const char *name) { return fdref_ask_int(p, fdref_act_unlink(name)); }

int fdref_fstat(struct fdref *p, int fd, struct fdref_stat *stat)
{
    int done = fdref_ask_int(p, fdref_act_fstat(fd));
    if (done == 0)
        *stat = p->outcome.stat;
    return done;
}

int fdref_rename(struct fdref *p, const char *old_name, const char *new_name)
{
    return fdref_ask_int(p, fdref_act_rename(old_name, new_name));
}

int fdref_getfl(struct fdref *p, int fd)
{
    int byte = (int)fdref_ask(p, fdref_act_getfl(fd), NULL, FDREF_FLAGS_MOST);
    return byte < 0 ? byte : fdref_flags_of(byte);
}

int fdref_setfl(struct fdref *p, int fd, int flags) { return fdref_ask_int(p, fdref_act_setfl(fd, flags)); }

pid_t fdref_fork(struct fdref *p) { return fdref_ask_int(p, fdref_act_fork()); }

/* ---- traces */

/* A trace: its file, the errno of its first fault and what is told of it, how many records it has, and what is not
   written yet. */
struct fdref_trace {
    int file, fault;
    uint64_t records;
    char told[120];
    size_t size;
    unsigned char frames[131072];
};

struct fdref_trace *fdref_trace_open(const char *path)
{
    return fdref_trace_open_of(path, 0, FDREF_PIPE_CAPACITY, FDREF_FILE_SIZE);
}

/* The header of a trace: how many bytes it has, or 0 where it can not be. */
static size_t fdref_put_header(unsigned char *to, uint32_t records, uint32_t pipe_capacity, uint64_t file_size)
{
    struct fdref_payload header = {to, 0, 0, ""};
    fdref_need(&header, records <= FDREF_RECORDS_MOST, EINVAL);
    fdref_need(&header, pipe_capacity >= FDREF_PIPE_CAPACITY_LEAST, EINVAL);
    fdref_need(&header, pipe_capacity <= FDREF_PIPE_CAPACITY_MOST, EINVAL);
    fdref_need(&header, file_size == FDREF_FILE_SIZE || file_size == FDREF_OLD_FILE_SIZE, EINVAL);
    fdref_put(&header, UINT64_C(0x4644545241434532), 8); /* FDTRACE2 in ASCII */
    fdref_put(&header, records, 4);
    fdref_put(&header, pipe_capacity, 4);
    fdref_put(&header, file_size, 8);
    return header.fault == 0 ? header.size : 0;
}

struct fdref_trace *fdref_trace_open_of(const char *path, uint32_t records, uint32_t pipe_capacity, uint64_t file_size)
{
    struct fdref_trace *trace = (struct fdref_trace *)calloc(1, sizeof *trace);
    int error;
    if (!trace)
        return NULL;
    trace->size = fdref_put_header(trace->frames, records, pipe_capacity, file_size);
    if (trace->size == 0) {
        free(trace);
        errno = EINVAL;
        return NULL;
    }
    do
        trace->file = open(path, O_WRONLY | O_CREAT | O_TRUNC, 0666);
    while (trace->file < 0 && errno == EINTR);
    if (trace->file >= 0) {
        fcntl(trace->file, F_SETFD, FD_CLOEXEC);
        return trace;
    }
    error = errno;
    free(trace);
    errno = error;
    return NULL;
}

/* Fails where there was a fault. */
static int fdref_trace_result(int fault)
{
    errno = fault != 0 ? fault : errno;
    return fault != 0 ? -1 : 0;
}

/* Keeps what is told of the record after those that the trace has. */
static void fdref_tell(struct fdref_trace *trace, const char *what, const char *why)
{
    snprintf(trace->told, sizeof trace->told, "record %llu: %s %s", (unsigned long long)trace->records, what, why);
}

const char *fdref_trace_fault(const struct fdref_trace *trace) { return trace->fault != 0 ? trace->told : NULL; }

int fdref_trace_flush(struct fdref_trace *trace)
{
    for (size_t at = 0; at < trace->size;) {
        ssize_t written = write(trace->file, trace->frames + at, trace->size - at);
        if (written == 0 || (written < 0 && errno != EINTR)) {
            trace->fault = written == 0 ? EIO : errno;
            snprintf(trace->told, sizeof trace->told, "the file cannot be written: %s", strerror(trace->fault));
            break;
        }
        at += written > 0 ? (size_t)written : 0;
    }
    trace->size = 0;
    return fdref_trace_result(trace->fault);
}

int fdref_trace_close(struct fdref_trace *trace)
{
    int fault;
    fdref_trace_flush(trace);
    fault = trace->fault;
    if (close(trace->file) != 0 && errno != EINTR && fault == 0)
        fault = errno;
    free(trace);
    return fdref_trace_result(fault);
}

int fdref_record(struct fdref_trace *trace, int64_t process, struct fdref_act act, struct fdref_outcome outcome)
{
    if (trace->fault == 0 && sizeof trace->frames - trace->size < 4 + FDREF_FRAME_MOST)
        fdref_trace_flush(trace);
    if (trace->fault != 0)
        return fdref_trace_result(trace->fault);
    int is_astray = act.kind == FDREF_CLOSE_RUN && process != FDREF_HOUSE;
    struct fdref_payload record = {trace->frames + trace->size + 4, 0, 0, is_astray ? "a close-run" : "a process"};
    char result[64] = "an outcome";
    if (outcome.kind == FDREF_NO_FLAGS)
        snprintf(result, sizeof result, "an outcome with flags");
    if (outcome.kind == FDREF_ERROR && fdref_error_byte(outcome.error) == 0)
        snprintf(result, sizeof result, "the error %d (%.36s)", outcome.error, strerror(outcome.error));
    fdref_need(&record, process >= 0 && process <= FDREF_HOUSE && !is_astray, EINVAL);
    fdref_put(&record, (uint64_t)process, 4);
    fdref_put_next(&record, "an act");
    fdref_put_act(&record, &act);
    fdref_put_next(&record, result);
    fdref_put_outcome(&record, &outcome);
    trace->fault = record.fault;
    if (record.fault == 0)
        trace->records++;
    else
        fdref_tell(trace, record.what, is_astray ? "of another process than FDREF_HOUSE" : "that no trace holds");
    trace->size += record.fault == 0 ? fdref_end_frame(&record) : 0;
    return fdref_trace_result(trace->fault);
}

#ifdef __cplusplus
}
#endif

#endif
