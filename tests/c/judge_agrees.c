/* Makes calls to which each system gives the same answers.

   usage: judge_agrees [WORD]

   A line of standard input is put into a file and read again, by descriptors that share an offset and by one that has
   an offset of its own. Their flags and the line are printed, the line after WORD. The status is 1 where an answer is
   not the one of POSIX. */

#define _POSIX_C_SOURCE 200809L

#include "judge.h"

#include <errno.h>
#include <fcntl.h>
#include <stdio.h>
#include <string.h>
#include <sys/stat.h>
#include <unistd.h>

/* Puts text into a file under two names and reads it by a descriptor of its own. */
static int put_and_read(const char *text, size_t length)
{
    char given[100];
    struct stat told;
    int fd = open("a", O_RDWR | O_CREAT | O_EXCL, 0600);
    CHECK(fd >= 0);
    int shared = dup(fd);
    CHECK(shared == fd + 1 && write(shared, text, length) == (ssize_t)length);
    CHECK(lseek(fd, 0, SEEK_CUR) == (off_t)length);
    CHECK(link("a", "b") == 0 && unlink("a") == 0);
    CHECK(open("a", O_RDONLY) == -1 && errno == ENOENT);
    int other = open("b", O_RDONLY);
    CHECK(other == shared + 1 && read(other, given, sizeof given) == (ssize_t)length);
    CHECK(memcmp(given, text, length) == 0);
    CHECK(write(other, "x", 1) == -1 && errno == EBADF);
    CHECK(ftruncate(fd, 2) == 0 && fstat(other, &told) == 0 && told.st_size == 2);
    CHECK(close(shared) == 0 && close(shared) == -1 && errno == EBADF);
    CHECK(dup2(other, 9) == 9 && pread(9, given, 1, 1) == 1 && given[0] == text[1]);
    printf("%#x %#x ", fcntl(fd, F_GETFL), fcntl(9, F_GETFL));
    return 0;
}

int main(int count, char **words)
{
    char line[100] = "no line\n";
    if (!fgets(line, sizeof line, stdin) && !feof(stdin))
        return 1;
    if (put_and_read(line, strlen(line)))
        return 1;
    printf("%s %s", count > 1 ? words[1] : "-", line);
    return 0;
}
