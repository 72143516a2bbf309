/* Makes calls of the C library by their names, with a descriptor and a name of fdref.

   usage: preload_tells NAME:LETTERS ..

   Each letter is an argument: d a descriptor, w the working folder, n a plain name, e an empty name, l a list of names,
   p polled descriptors, s a set of them, r a request of aio, R a list of these, b zeros, 4 the number. All go as one
   word of the machine, as integers and pointers do in the first six places. For each call a line has its name, what it
   gives, and errno. It runs in an empty folder. */

#include "preload.h"

#include <aio.h>
#include <dlfcn.h>
#include <poll.h>
#include <sys/select.h>

enum { FD = 3, NUMBER = 4, MOST = 6 };

static long zeros[1000];
static char plain_name[8] = "a", empty_name[8];
static char *names[] = {plain_name, NULL};
static struct pollfd polled[NUMBER];
static struct aiocb request;
static struct aiocb *requests[NUMBER] = {&request};
static fd_set set;

static long argument(char letter)
{
    switch (letter) {
    case 'd': return FD;
    case 'w': return AT_FDCWD;
    case 'n': return (long)plain_name;
    case 'e': return (long)empty_name;
    case 'l': return (long)names;
    case 'p': return (long)polled;
    case 's': return (long)&set;
    case 'r': return (long)&request;
    case 'R': return (long)requests;
    case 'b': return (long)zeros;
    default: return NUMBER;
    }
}

static int call(const char *name, const char *letters)
{
    long (*function)(long, long, long, long, long, long), given[MOST] = {0};
    void *found = dlsym(RTLD_DEFAULT, name);
    if (!found)
        return -1;
    memcpy(&function, &found, sizeof found);
    for (int at = 0; at < MOST && letters[at]; at++)
        given[at] = argument(letters[at]);
    memset(zeros, 0, sizeof zeros);
    strcpy(plain_name, "a");
    errno = 0;
    given[0] = function(given[0], given[1], given[2], given[3], given[4], given[5]);
    printf("%s %d %d\n", name, (int)given[0], errno);
    return 0;
}

int main(int count, char **words)
{
    if (open("a", O_RDWR | O_CREAT, 0600) != FD)
        return 1;
    polled[0].fd = FD;
    request.aio_fildes = FD;
    FD_SET(FD, &set);
    for (int at = 1; at < count; at++) {
        char *letters = strchr(words[at], ':');
        if (!letters)
            return 1;
        *letters++ = 0;
        if (call(words[at], letters) < 0)
            return 1;
    }
    return 0;
}
