/* Puts load on a server of frames, and prints how many requests a second it answers.

   usage: load fdref PATH MODE CONNECTIONS DEPTH REQUESTS
          load echo  PATH MODE CONNECTIONS DEPTH REQUESTS

   With `fdref` a server must listen at PATH. With `echo` this program listens there itself, with a thread
   for each connection, and answers each request with a frame of the size that fdref's answer has, and
   nothing else: that is as much as the sockets of this machine give. PATH is removed then.

   Each connection is driven by a thread of its own, keeps DEPTH requests in flight, and makes REQUESTS of
   them. MODE is

     fstat     fstat of a pipe
     pwrite    pwrite of 8 bytes to a file
     pipe      pairs of connections that share a pipe: one writes 8 bytes at a time, the other reads them
     sleepers  one connection makes fstats, while CONNECTIONS others wait in reads of a pipe

   Time begins when all connections are ready. An answer that is an error, a refusal or none of its request ends it
   with status 1, and so do answers that nobody asked for. */

#define _POSIX_C_SOURCE 200809L

#include <errno.h>
#include <pthread.h>
#include <signal.h>
#include <stdarg.h>
#include <stdio.h>
#include <stdlib.h>
#include <string.h>
#include <sys/socket.h>
#include <sys/un.h>
#include <time.h>
#include <unistd.h>

enum {
    CONNECTIONS_MOST = 64,
    DEPTH_MOST = 256,
    REQUEST_MOST = 64,
    ANSWER_MOST = 64,
    PIECE = 65536
};

/* The bytes of some requests, and the kinds of outcomes. */
enum { ATTACH = 2, CLOSE = 17, READ = 18, WRITE = 19, PIPE = 26, FSTAT = 30 };
enum { DONE = 1, NUMBER, DATA, DESCRIPTORS, STAT, ERROR, PARKED, PART, KINDS };

/* The sizes of the payloads of answers, by their kinds. A read is of COUNT bytes. */
enum { COUNT = 8 };
static const size_t sizes[KINDS] = {0, 10, 18, 14 + COUNT, 18, 23, 11, 14, 14};

/* A request, and how many bytes it has. */
struct request {
    unsigned char bytes[REQUEST_MOST];
    size_t size;
};

/* A connection, what it asks, how often, and when it began and ended. */
struct job {
    int fd;
    struct request request;
    long count;
    int depth;
    pthread_barrier_t *begin;
    double from, to;
};

/* Ends this program, and tells why: the first thread that fails does. */
static void fail(const char *what, ...)
{
    static pthread_mutex_t once = PTHREAD_MUTEX_INITIALIZER;
    va_list values;
    pthread_mutex_lock(&once);
    va_start(values, what);
    fprintf(stderr, "load: ");
    vfprintf(stderr, what, values);
    fprintf(stderr, "\n");
    va_end(values);
    exit(1);
}

static void need(int done, const char *what)
{
    if (!done)
        fail("%s: %s", what, strerror(errno));
}

static void put_u32(unsigned char *to, unsigned long value)
{
    for (int at = 0; at < 4; at++)
        to[at] = (unsigned char)(value >> (24 - 8 * at));
}

static unsigned long get_u32(const unsigned char *from)
{
    return (unsigned long)from[0] << 24 | (unsigned long)from[1] << 16 | (unsigned long)from[2] << 8 | from[3];
}

/* A request of a byte and fields. */
static struct request request_of(int byte, const void *fields, size_t size)
{
    struct request request;
    put_u32(request.bytes, size + 1);
    request.bytes[4] = (unsigned char)byte;
    memcpy(request.bytes + 5, fields, size);
    request.size = size + 5;
    return request;
}

static struct request request_of_number(int byte, unsigned long number)
{
    unsigned char field[4];
    put_u32(field, number);
    return request_of(byte, field, 4);
}

static struct request join_request(void) { return request_of(1, "", 0); }
static struct request attach_request(unsigned long process) { return request_of_number(2, process); }
static struct request open_request(void) { return request_of(16, "\x07\x01" "a", 3); }
static struct request close_request(unsigned long fd) { return request_of_number(17, fd); }
static struct request read_request(void) { return request_of(18, "\0\0\0\0\0\0\0\x08", 8); }
static struct request write_request(void) { return request_of(19, "\0\0\0\x01\0\0\0\x08" "fdref567", 16); }
static struct request pwrite_request(void) { return request_of(21, "\0\0\0\0\0\0\0\0\0\0\0\x08\0\0\0\x08" "fdref567", 24); }
static struct request pipe_request(void) { return request_of(26, "", 0); }
static struct request fstat_request(void) { return request_of_number(30, 0); }
static struct request fork_request(void) { return request_of(31, "", 0); }

/* A time, in seconds. */
static double now(void)
{
    struct timespec time;
    clock_gettime(CLOCK_MONOTONIC, &time);
    return (double)time.tv_sec + (double)time.tv_nsec / 1e9;
}

/* ---- streams */

static void send_all(int fd, const unsigned char *bytes, size_t count)
{
    while (count > 0) {
        ssize_t sent = send(fd, bytes, count, MSG_NOSIGNAL);
        if (sent < 0 && errno == EINTR)
            continue;
        need(sent > 0, "send");
        bytes += sent;
        count -= (size_t)sent;
    }
}

/* Receives at least one byte, or none at the end. */
static size_t receive_some(int fd, unsigned char *bytes, size_t most)
{
    for (;;) {
        ssize_t got = recv(fd, bytes, most, 0);
        if (got >= 0)
            return (size_t)got;
        if (errno == ECONNRESET)
            return 0;
        need(errno == EINTR, "recv");
    }
}

static void receive_exactly(int fd, unsigned char *bytes, size_t count)
{
    while (count > 0) {
        size_t got = receive_some(fd, bytes, count);
        if (got == 0)
            fail("the server has hung up");
        bytes += got;
        count -= got;
    }
}

/* The kind of the reply to a request, which its byte tells. */
static int reply_kind(int byte)
{
    switch (byte) {
    case ATTACH:
    case CLOSE:
        return DONE;
    case READ:
        return DATA;
    case PIPE:
        return DESCRIPTORS;
    case FSTAT:
        return STAT;
    default:
        return NUMBER;
    }
}

/* The size of the payload of an answer, which comes after it. */
static size_t size_at(const unsigned char *answer)
{
    size_t size = get_u32(answer);
    if (size > ANSWER_MOST)
        fail("an answer of %zu bytes", size);
    return size;
}

/* Whether an answer, whose payload is given, is the reply to a request, and not that its call waits. */
static int is_reply(int byte, const unsigned char *payload, size_t size)
{
    int may_wait = byte == READ || byte == WRITE, kind = size < 10 ? 0 : payload[9];
    if (kind == 0 || payload[0] != 1)
        fail("a refusal, or no answer");
    if (kind == ERROR)
        fail("an error");
    if (kind != reply_kind(byte) && !(may_wait && (kind == PARKED || kind == PART)))
        fail("an answer of another kind than that of its request");
    if (size != sizes[kind] || (kind == DATA && get_u32(payload + 10) != COUNT))
        fail("an answer of another size than that of its request");
    return kind == reply_kind(byte);
}

/* Asks once; the last four bytes of the answer, as a number. */
static unsigned long ask(int fd, struct request request)
{
    unsigned char answer[ANSWER_MOST];
    send_all(fd, request.bytes, request.size);
    receive_exactly(fd, answer, 4);
    size_t size = size_at(answer);
    receive_exactly(fd, answer, size);
    is_reply(request.bytes[4], answer, size);
    return get_u32(answer + size - 4);
}

static struct sockaddr_un address_of(const char *path)
{
    struct sockaddr_un address = {.sun_family = AF_UNIX};
    if (strlen(path) >= sizeof address.sun_path)
        fail("the path is too long");
    strcpy(address.sun_path, path);
    return address;
}

static int connected(const char *path)
{
    struct sockaddr_un address = address_of(path);
    int fd = socket(AF_UNIX, SOCK_STREAM, 0);
    need(fd >= 0, "socket");
    need(connect(fd, (struct sockaddr *)&address, sizeof address) == 0, "connect");
    return fd;
}

/* ---- the echo */

/* Answers each request of a connection, all that came in one piece at once. */
static void *echo(void *given)
{
    int fd = *(int *)given;
    unsigned char *in = malloc(PIECE), *out = malloc(PIECE * 8);
    size_t held = 0;
    free(given);
    need(in && out, "malloc");
    for (;;) {
        size_t got = receive_some(fd, in + held, PIECE - held);
        if (got == 0)
            break;
        held += got;
        size_t at = 0, told = 0;
        while (held - at >= 4 && held - at >= 4 + get_u32(in + at)) {
            int kind = reply_kind(in[at + 4]);
            size_t size = sizes[kind];
            memset(out + told, 0, 4 + size);
            put_u32(out + told, size);
            out[told + 4] = 1;
            out[told + 13] = (unsigned char)kind;
            if (kind == DATA)
                put_u32(out + told + 14, COUNT);
            told += 4 + size;
            at += 4 + get_u32(in + at);
        }
        memmove(in, in + at, held - at);
        held -= at;
        send_all(fd, out, told);
    }
    free(in);
    free(out);
    close(fd);
    return NULL;
}

static void *accept_all(void *given)
{
    int listener = *(int *)given;
    for (;;) {
        int *fd = malloc(sizeof *fd);
        pthread_t thread;
        need(fd != NULL, "malloc");
        *fd = accept(listener, NULL, NULL);
        need(*fd >= 0, "accept");
        need(pthread_create(&thread, NULL, echo, fd) == 0, "pthread_create");
        pthread_detach(thread);
    }
    return NULL;
}

static void start_echo(const char *path)
{
    static int listener;
    struct sockaddr_un address = address_of(path);
    pthread_t thread;
    listener = socket(AF_UNIX, SOCK_STREAM, 0);
    need(listener >= 0, "socket");
    need(bind(listener, (struct sockaddr *)&address, sizeof address) == 0, "bind");
    need(listen(listener, CONNECTIONS_MOST) == 0, "listen");
    need(pthread_create(&thread, NULL, accept_all, &listener) == 0, "pthread_create");
    pthread_detach(thread);
}

/* ---- the load */

/* How many of the answers to a request that are held are replies; those that say that its call waits are none. What is
   left is moved to the front. */
static long replies(int byte, unsigned char *in, size_t *held)
{
    size_t at = 0;
    long count = 0;
    while (*held - at >= 4 && *held - at >= 4 + size_at(in + at)) {
        size_t size = size_at(in + at);
        count += is_reply(byte, in + at + 4, size);
        at += 4 + size;
    }
    memmove(in, in + at, *held - at);
    *held -= at;
    return count;
}

static void *run(void *given)
{
    struct job *job = given;
    unsigned char *in = malloc(PIECE), *burst = malloc(DEPTH_MOST * REQUEST_MOST);
    size_t held = 0;
    long sent = 0, answered = 0, more = job->depth < job->count ? job->depth : job->count;
    need(in && burst, "malloc");
    for (int at = 0; at < job->depth; at++)
        memcpy(burst + (size_t)at * job->request.size, job->request.bytes, job->request.size);
    pthread_barrier_wait(job->begin);
    job->from = now();
    while (answered < job->count) {
        long done = 0;
        send_all(job->fd, burst, (size_t)more * job->request.size);
        sent += more;
        while (done == 0) {
            size_t got = receive_some(job->fd, in + held, PIECE - held);
            if (got == 0)
                fail("the server has hung up");
            held += got;
            done = replies(job->request.bytes[4], in, &held);
        }
        answered += done;
        if (answered > sent)
            fail("more answers than requests");
        more = done < job->count - sent ? done : job->count - sent;
    }
    job->to = now();
    shutdown(job->fd, SHUT_WR);
    if (held > 0 || receive_some(job->fd, in, PIECE) > 0)
        fail("more answers than requests");
    free(in);
    free(burst);
    return NULL;
}

static int joined(const char *path)
{
    int fd = connected(path);
    ask(fd, join_request());
    return fd;
}

/* Connections that have joined and made a file or a pipe. */
static int open_alike(struct job *jobs, int connections, const char *path, struct request first, struct request each)
{
    for (int at = 0; at < connections; at++) {
        jobs[at].fd = joined(path);
        ask(jobs[at].fd, first);
        jobs[at].request = each;
    }
    return connections;
}

/* Pairs of a parent that writes into its pipe and a child that reads it. */
static int open_pairs(struct job *jobs, int connections, const char *path)
{
    if (connections % 2)
        fail("pairs need an even number of connections");
    for (int at = 0; at < connections; at += 2) {
        jobs[at].fd = joined(path);
        ask(jobs[at].fd, pipe_request());
        unsigned long child = ask(jobs[at].fd, fork_request());
        jobs[at].request = write_request();
        jobs[at + 1].fd = connected(path);
        ask(jobs[at + 1].fd, attach_request(child));
        jobs[at + 1].request = read_request();
    }
    return connections;
}

/* One connection that asks, and others that wait in reads of its pipe until it goes. */
static int open_sleepers(struct job *jobs, int sleepers, const char *path)
{
    jobs[0].fd = joined(path);
    ask(jobs[0].fd, pipe_request());
    jobs[0].request = fstat_request();
    for (int at = 0; at < sleepers; at++) {
        unsigned long child = ask(jobs[0].fd, fork_request());
        int fd = connected(path);
        ask(fd, attach_request(child));
        ask(fd, close_request(1));
        ask(fd, read_request());
    }
    return 1;
}

static int open_jobs(struct job *jobs, const char *mode, int connections, const char *path)
{
    if (strcmp(mode, "fstat") == 0)
        return open_alike(jobs, connections, path, pipe_request(), fstat_request());
    if (strcmp(mode, "pwrite") == 0)
        return open_alike(jobs, connections, path, open_request(), pwrite_request());
    if (strcmp(mode, "pipe") == 0)
        return open_pairs(jobs, connections, path);
    if (strcmp(mode, "sleepers") == 0)
        return open_sleepers(jobs, connections, path);
    fail("no mode %s", mode);
    return 0;
}

/* From the first begin to the last end. */
static double seconds_of(const struct job *jobs, int made)
{
    double from = jobs[0].from, to = jobs[0].to;
    for (int at = 1; at < made; at++) {
        from = jobs[at].from < from ? jobs[at].from : from;
        to = jobs[at].to > to ? jobs[at].to : to;
    }
    return to - from;
}

static long number(const char *word, long least, long most)
{
    char *end;
    long value = strtol(word, &end, 10);
    if (*word == 0 || *end != 0 || value < least || value > most)
        fail("%s is not a number from %ld to %ld", word, least, most);
    return value;
}

int main(int count, char **words)
{
    static struct job jobs[CONNECTIONS_MOST];
    static pthread_t threads[CONNECTIONS_MOST];
    pthread_barrier_t begin;
    if (count != 7 || (strcmp(words[1], "fdref") != 0 && strcmp(words[1], "echo") != 0))
        fail("usage: load fdref|echo PATH fstat|pwrite|pipe|sleepers CONNECTIONS DEPTH REQUESTS");
    int is_echo = strcmp(words[1], "echo") == 0;
    int connections = (int)number(words[4], 0, CONNECTIONS_MOST);
    int depth = (int)number(words[5], 1, DEPTH_MOST);
    long requests = number(words[6], 1, 1000000);
    if (is_echo)
        start_echo(words[2]);
    int made = open_jobs(jobs, words[3], connections, words[2]);
    if (made == 0)
        fail("no connection makes requests");
    need((errno = pthread_barrier_init(&begin, NULL, (unsigned)made)) == 0, "pthread_barrier_init");
    for (int at = 0; at < made; at++) {
        jobs[at].count = requests;
        jobs[at].depth = depth;
        jobs[at].begin = &begin;
        need((errno = pthread_create(&threads[at], NULL, run, &jobs[at])) == 0, "pthread_create");
    }
    for (int at = 0; at < made; at++)
        pthread_join(threads[at], NULL);
    printf("%.0f requests a second\n", (double)made * (double)requests / seconds_of(jobs, made));
    if (is_echo)
        unlink(words[2]);
    return 0;
}
