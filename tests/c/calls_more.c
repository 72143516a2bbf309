/* A part of a C library whose functions make further calls, and come back to where they were. Where the variable WRONG
   of the environment is `read`, a read of two bytes or more gives the first one twice. */

#define _GNU_SOURCE

#include <dlfcn.h>
#include <errno.h>
#include <fcntl.h>
#include <stdarg.h>
#include <stdio.h>
#include <stdlib.h>
#include <string.h>
#include <sys/ioctl.h>
#include <sys/stat.h>
#include <sys/syscall.h>
#include <sys/wait.h>
#include <unistd.h>

#include "exec_words.h"

/* Looks about, also for a descriptor, makes some, and leaves all as it was. */
static void look_about(int fd)
{
    struct stat told;
    int error = errno, none = 0, ends[2], copy = dup(fd);
    if (copy >= 0)
        dup2(copy, copy + 1);
    if (copy >= 0 && close(copy + 1) == 0)
        close(copy);
    if (pipe(ends) == 0 && close(ends[0]) == 0)
        close(ends[1]);
    if (fstat(fd, &told) == 0 && stat("a", &told) == 0)
        access("a", F_OK);
    if (lseek(fd, 0, SEEK_CUR) >= 0)
        lseek(fd, 0, SEEK_CUR);
    if (mkfifo("more", 0600) == 0 && link("more", "most") == 0 && rename("most", "moved") == 0 && unlink("more") == 0)
        remove("moved");
    fcntl(fd, F_SETFL, fcntl(fd, F_GETFL));
    fcntl(fd, F_SETFD, fcntl(fd, F_GETFD));
    ioctl(-1, FIONBIO, &none);
    ftruncate(-1, 0);
    fsync(-1);
    close_range(100, 200, 0);
    dup3(fd, fd, 0);
    errno = error;
}

/* Reads a file by pread, and goes on from there. */
ssize_t read(int fd, void *to, size_t count)
{
    const char *wrong = getenv("WRONG");
    off_t at = lseek(fd, 0, SEEK_CUR);
    ssize_t done;
    int error;
    look_about(fd);
    done = at < 0 ? (ssize_t)syscall(SYS_read, fd, to, count) : pread(fd, to, count, at);
    error = errno;
    if (at >= 0 && done > 0)
        lseek(fd, at + done, SEEK_SET);
    if (done > 1 && wrong && strcmp(wrong, "read") == 0)
        ((char *)to)[1] = ((char *)to)[0];
    errno = error;
    return done;
}

/* Closes by itself what is not to be kept, and runs a program by another function that is here. */
int execve(const char *path, char *const list[], char *const env[])
{
    for (int fd = 3; fd < 20; fd++)
        if (fcntl(fd, F_GETFD) == FD_CLOEXEC)
            close(fd);
    return (int)syscall(SYS_execve, path, list, env);
}

int execl(const char *path, const char *word, ...)
{
    char *list[EXEC_WORDS_MOST];
    va_list others;
    va_start(others, word);
    list_words(list, word, others);
    va_end(others);
    look_about(-1);
    return execve(path, list, environ);
}

ssize_t write(int fd, const void *data, size_t count)
{
    look_about(fd);
    return syscall(SYS_write, fd, data, count);
}

int open(const char *name, int flags, ...)
{
    va_list values;
    mode_t mode;
    va_start(values, flags);
    mode = va_arg(values, mode_t);
    va_end(values);
    look_about(-1);
    return (int)syscall(SYS_openat, AT_FDCWD, name, flags, mode);
}

int creat(const char *name, mode_t mode) { return open(name, O_WRONLY | O_CREAT | O_TRUNC, mode); }

int dup2(int fd, int to)
{
    if (fd == to)
        return fcntl(fd, F_GETFD) < 0 ? -1 : to;
    return dup3(fd, to, 0);
}

pid_t wait(int *status) { return waitpid(-1, status, 0); }

pid_t fork(void)
{
    pid_t (*next)(void);
    void *found = dlsym(RTLD_NEXT, "fork");
    memcpy(&next, &found, sizeof next);
    look_about(-1);
    return next();
}

int stat(const char *name, struct stat *to) { return fstatat(AT_FDCWD, name, to, 0); }
