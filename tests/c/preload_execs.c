/* Runs itself again and again, by each function that does, and goes on with its descriptors each time.

   usage: preload_execs [STEP]

   It runs in an empty folder, natively or asking a server, with the descriptors 0, 1 and 2 alone. The last
   program has a child. The line of each check that fails is printed, and the status is 1 then. */

#include "preload.h"

extern char **environ;

enum { A_FILE = 3, READING, WRITING, CLOSED, NOTHING, CLOSED_TOO, STEPS = 8 };

static char bytes[99];

/* What each program finds: the file with its offset, the pipe, a file of the kernel, and no more. */
static void finds(int step)
{
    struct stat told, by_name;
    errno = 0;
    GIVES(lseek(A_FILE, 0, SEEK_CUR), step);
    GIVES(write(A_FILE, "x", 1), 1);
    GIVES(write(WRITING, "y", 1), 1);
    GIVES(read(READING, bytes, 9), 1);
    GIVES(read(NOTHING, bytes, 9), 0);
    GIVES(fcntl(A_FILE, F_GETFD), 0);
    GIVES(fcntl(READING, F_GETFL), O_RDONLY);
    FAILS(read(CLOSED, bytes, 1), EBADF);
    FAILS(read(CLOSED_TOO, bytes, 1), EBADF);
    FAILS(execve("/no/such/program", environ, environ), ENOENT);
    errno = 0;
    CHECK(fstat(A_FILE, &told) == 0 && S_ISREG(told.st_mode) && told.st_size == step + 1);
    CHECK(stat("a", &by_name) == 0 && by_name.st_ino == told.st_ino);
}

/* What the next one does not find. */
static void opens(void)
{
    errno = 0;
    GIVES(fcntl(READING, F_DUPFD, 0), CLOSED);
    GIVES(fcntl(CLOSED, F_SETFD, FD_CLOEXEC), 0);
    GIVES(open("/dev/null", O_RDWR | O_CLOEXEC), CLOSED_TOO);
}

static void run(int step, char *program)
{
    char word[] = "0", *list[] = {program, word, NULL};
    word[0] = (char)('0' + step + 1);
    switch (step) {
    case 0: execve(program, list, environ); break;
    case 1: execv(program, list); break;
    case 2: execvp(program, list); break;
    case 3: execl(program, program, word, (char *)NULL); break;
    case 4: execle(program, program, word, (char *)NULL, environ); break;
    case 5: execlp(program, program, word, (char *)NULL); break;
    case 6: fexecve(open(program, O_RDONLY | O_CLOEXEC), list, environ); break;
    default: execvpe(program, list, environ);
    }
    check(0, "a program runs", __LINE__);
}

static void begin(void)
{
    int ends[2];
    errno = 0;
    GIVES(open("b", O_RDWR | O_CREAT | O_APPEND, 0600), A_FILE);
    GIVES(rename("b", "a"), 0);
    GIVES(pipe(ends), 0);
    GIVES(open("/dev/null", O_RDWR), CLOSED);
    GIVES(fcntl(CLOSED, F_DUPFD, 0), NOTHING);
    GIVES(close(CLOSED), 0);
}

/* The last one has a child, which writes to the same file. */
static void end(void)
{
    pid_t child = fork();
    errno = 0;
    if (child == 0)
        _exit(write(A_FILE, "z", 1) == 1 ? 7 : 8);
    CHECK(status_of(child) == 7);
    errno = 0;
    GIVES(lseek(A_FILE, 0, SEEK_CUR), STEPS + 2);
    GIVES(pread(A_FILE, bytes, 99, 0), STEPS + 2);
    CHECK(memcmp(bytes, "xxxxxxxxxz", STEPS + 2) == 0);
    GIVES(write(1, "said\n", 5), 5);
}

int main(int count, char **words)
{
    int step = count > 1 ? words[1][0] - '0' : 0;
    if (count == 1)
        begin();
    finds(step);
    if (failures > 0)
        return 1;
    if (step == STEPS) {
        end();
        return failures > 0;
    }
    opens();
    run(step, words[0]);
    return 1;
}
