/* Writes at a position under O_APPEND, where Linux appends, and looks at what came of it.

   usage: judge_appends [tell]

   It ends with status 0 whatever came of it. With `tell` it prints the file. */

#define _POSIX_C_SOURCE 200809L

#include <fcntl.h>
#include <stdio.h>
#include <unistd.h>

int main(int count, char **words)
{
    char given[10];
    int fd = open("a", O_RDWR | O_CREAT | O_APPEND, 0600);
    if (fd < 0 || write(fd, "old", 3) != 3 || pwrite(fd, "N", 1, 0) != 1)
        return 1;
    ssize_t length = pread(fd, given, sizeof given, 0);
    if (length < 3)
        return 1;
    if (count > 1 && words[1][0] == 't')
        printf("%.*s\n", (int)length, given);
    return close(fd);
}
