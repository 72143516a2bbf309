/* Goes another way with fdref, or gets another answer, by what is no answer of fdref.

   usage: judge_otherwise sends|unnamed|limits|makes|advises|times|resolves|by-number|environment|
                          renames|links|bare|raises

   sends        sends its file into a pipe by sendfile, and reads the other end
   unnamed      writes by pwritev into its file, whose name is gone, and reads it by another descriptor
   limits       sets the limit of the size of files, and writes past it
   makes        makes a file by a pattern of names, and opens it by its name
   advises      writes something else where posix_fadvise fails
   times        writes for 0.1 seconds, and asks for the offset
   resolves     writes something else where realpath does not find its file
   by-number    prints whether its file can be read by a path of its descriptor
   environment  writes its environment into its file
   renames      gives its file, which is at descriptor 1, too, another name by renameat2, and opens it by the first
   links        opens a file where it finds the symbolic link that it has made
   bare         runs itself without its environment, to write into its file
   writes       writes into descriptor 3
   raises       lets more descriptors be open, by a system call that no library sees, and has one above 31 */

#define _GNU_SOURCE

#include <fcntl.h>
#include <signal.h>
#include <stdio.h>
#include <stdlib.h>
#include <string.h>
#include <sys/resource.h>
#include <sys/sendfile.h>
#include <sys/stat.h>
#include <sys/syscall.h>
#include <sys/uio.h>
#include <sys/wait.h>
#include <time.h>
#include <unistd.h>

static char text[] = "hello";
/* The limit holds for the log of the library, too. */
enum { SIZE = sizeof text - 1, MOST = 1000000 };

static int says(int fd, const char *what) { return write(fd, what, strlen(what)) < 0; }

static int sends(int fd)
{
    char bytes[SIZE];
    int ends[2];
    if (says(fd, text) || lseek(fd, 0, SEEK_SET) != 0 || pipe(ends) != 0)
        return 1;
    sendfile(ends[1], fd, NULL, SIZE);
    return close(ends[1]) != 0 || read(ends[0], bytes, SIZE) < 0;
}

static int unnamed(int fd)
{
    char bytes[SIZE];
    struct iovec part = {text, SIZE};
    int other = unlink("a") == 0 ? fcntl(fd, F_DUPFD, 0) : -1;
    pwritev(fd, &part, 1, 0);
    return read(other, bytes, SIZE) < 0;
}

static int limits(int fd)
{
    struct rlimit limit = {MOST, MOST};
    if (signal(SIGXFSZ, SIG_IGN) == SIG_ERR || setrlimit(RLIMIT_FSIZE, &limit) != 0)
        return 1;
    return pwrite(fd, text, SIZE, MOST - 2) < 0;
}

static int makes(void)
{
    char name[] = "madeXXXXXX";
    int made = mkstemp(name), found = open(name, O_RDONLY);
    return made < 0 || (found < 0 && unlink("a") != 0);
}

static int renames(int fd)
{
    if (dup2(fd, 1) != 1 || says(1, text))
        return 1;
    renameat2(AT_FDCWD, "a", AT_FDCWD, "b", RENAME_NOREPLACE);
    return open("a", O_RDONLY) == 0;
}

static int links(void)
{
    struct stat told;
    return symlink("a", "l") != 0 || (lstat("l", &told) == 0 && open("b", O_RDWR | O_CREAT, 0600) < 0);
}

static int raises(int fd)
{
    const unsigned long long limits[] = {200, 200};
    return syscall(SYS_prlimit64, 0, RLIMIT_NOFILE, limits, NULL) != 0 || dup2(fd, 99) == 0;
}

static int bare(int fd, char *path)
{
    char *list[] = {path, (char[]){"writes"}, NULL}, *none[] = {NULL};
    if (fork() == 0) {
        execve(path, list, none);
        _exit(1);
    }
    return wait(NULL) < 0 || lseek(fd, 0, SEEK_END) < 0;
}

static double now(void)
{
    struct timespec time;
    return clock_gettime(CLOCK_MONOTONIC, &time) == 0 ? (double)time.tv_sec + (double)time.tv_nsec / 1e9 : 0;
}

static int times(int fd)
{
    for (double end = now() + 0.1; now() < end;)
        if (says(fd, "a"))
            return 1;
    return lseek(fd, 0, SEEK_CUR) < 0;
}

static int resolves(int fd)
{
    char *path = realpath("a", NULL);
    int has_failed = says(fd, path ? "found" : "not found");
    free(path);
    return has_failed;
}

static int by_number(int fd)
{
    char path[30], byte;
    return says(fd, text) || snprintf(path, sizeof path, "/dev/fd/%d", fd) < 0
        || printf("%d\n", (int)read(open(path, O_RDONLY), &byte, 1)) < 0;
}

static int environment(int fd)
{
    for (char **each = environ; *each; each++)
        if (says(fd, *each))
            return 1;
    return 0;
}

int main(int count, char **words)
{
    const char *what = count > 1 ? words[1] : "";
    if (strcmp(what, "writes") == 0)
        return says(3, text);
    int fd = open("a", O_RDWR | O_CREAT, 0600);
    if (fd < 0 || (strcmp(what, "sends") == 0 && sends(fd)) || (strcmp(what, "unnamed") == 0 && unnamed(fd))
        || (strcmp(what, "renames") == 0 && renames(fd)) || (strcmp(what, "links") == 0 && links())
        || (strcmp(what, "bare") == 0 && bare(fd, words[0])) || (strcmp(what, "raises") == 0 && raises(fd)))
        return 1;
    if (strcmp(what, "advises") == 0)
        return says(fd, posix_fadvise(fd, 0, 0, POSIX_FADV_SEQUENTIAL) == 0 ? "advised" : "not");
    return (strcmp(what, "limits") == 0 && limits(fd)) || (strcmp(what, "makes") == 0 && makes())
        || (strcmp(what, "times") == 0 && times(fd)) || (strcmp(what, "resolves") == 0 && resolves(fd))
        || (strcmp(what, "by-number") == 0 && by_number(fd)) || (strcmp(what, "environment") == 0 && environment(fd));
}
