/* Has children, who write to pipes and share an offset, and a grandchild.

   Each child writes a line of its own; the parent reads it byte by byte up to the end, and prints it. What each process
   is told does not depend on the time. */

#define _POSIX_C_SOURCE 200809L

#include <fcntl.h>
#include <stdio.h>
#include <stdlib.h>
#include <string.h>
#include <sys/wait.h>
#include <unistd.h>

/* Waits for a child, which has to end well. */
static void wait_for(pid_t child)
{
    int status;
    if (child < 0 || waitpid(child, &status, 0) != child || status != 0)
        exit(1);
}

/* A child: its own child writes to the shared file first. */
static void write_lines(int file, int to, int number)
{
    char line[30];
    pid_t child = fork();
    if (child == 0)
        _exit(write(file, "grandchild ", 11) != 11);
    wait_for(child);
    int length = snprintf(line, sizeof line, "child %d\n", number);
    _exit(write(file, line, (size_t)length) != length || write(to, line, (size_t)length) != length);
}

/* Makes a child, and prints what it writes. */
static void have_child(int file, int number)
{
    int ends[2];
    char byte;
    if (pipe(ends) != 0)
        exit(1);
    pid_t child = fork();
    if (child == 0)
        write_lines(file, ends[1], number);
    close(ends[1]);
    while (read(ends[0], &byte, 1) == 1)
        putchar(byte);
    close(ends[0]);
    wait_for(child);
}

int main(void)
{
    int file = open("shared", O_RDWR | O_CREAT, 0600);
    if (file < 0)
        return 1;
    setvbuf(stdout, NULL, _IONBF, 0);
    for (int number = 1; number <= 3; number++)
        have_child(file, number);
    return lseek(file, 0, SEEK_CUR) != 3 * 19;
}
