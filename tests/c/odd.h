/* fdref.h with its code, whose system calls can be odd: one of four is interrupted, and the others move few bytes. They
   are so while odd_choice is not 0. lowest_free tells whether a descriptor is left open. */

#include <errno.h>
#include <fcntl.h>
#include <stddef.h>
#include <stdint.h>
#include <sys/socket.h>
#include <sys/types.h>
#include <unistd.h>

static uint64_t odd_choice;

/* The lowest free descriptor of this program itself. */
static int lowest_free(void)
{
    int fd = fcntl(0, F_DUPFD, 0);
    close(fd);
    return fd;
}

/* How many bytes of so many a call may move; 0 where it is interrupted. */
static size_t odd_size(size_t size)
{
    if (odd_choice == 0 || size == 0)
        return size;
    odd_choice = (odd_choice * 6364136223846793005u + 1442695040888963407u) | 1;
    errno = EINTR;
    return odd_choice >> 60 < 4 ? 0 : 1 + (size_t)(odd_choice >> 32) % size;
}

static ssize_t odd_send(int fd, const void *bytes, size_t size, int flags)
{
    size_t some = odd_size(size);
    return some == 0 && size > 0 ? -1 : send(fd, bytes, some, flags);
}

static ssize_t odd_recv(int fd, void *bytes, size_t size, int flags)
{
    size_t some = odd_size(size);
    return some == 0 && size > 0 ? -1 : recv(fd, bytes, some, flags);
}

static int odd_connect(int fd, const struct sockaddr *address, socklen_t size)
{
    return odd_size(1) == 0 ? -1 : connect(fd, address, size);
}

static ssize_t odd_write(int fd, const void *bytes, size_t size)
{
    size_t some = odd_size(size);
    return some == 0 && size > 0 ? -1 : write(fd, bytes, some);
}

#define connect odd_connect
#define send odd_send
#define recv odd_recv
#define write odd_write
#define FDREF_IMPLEMENTATION
#include "fdref.h"
#undef connect
#undef send
#undef recv
#undef write
