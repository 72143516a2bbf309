/* Does not end, or not with fdref, or leaves a process.

   usage: judge_stays reads|fills|forks|waits|sleeps|leaves|keeps|takes|gives

   reads   reads its own empty pipe, in a child as well
   fills   writes 2,000 bytes to its own pipe, for which fdref has no room
   forks   does so before it forks a child that reads it
   waits   has a child that does so, and reads once that has ended
   sleeps  has a child that does so, and reads after three seconds
   leaves  ends, and leaves a process in a session of its own
   keeps   does so, and the process keeps standard output open
   takes   reads more than its pipe has of 65,536 bytes, and ends
   gives   writes more to a pipe that does not wait than it has room for, and ends */

#define _POSIX_C_SOURCE 200809L

#include <fcntl.h>
#include <string.h>
#include <sys/wait.h>
#include <unistd.h>

static char bytes[2000], large[200000];
enum { MOST = 65536 };

int main(int count, char **words)
{
    const char *what = count > 1 ? words[1] : "";
    int ends[2];
    if (pipe(ends) != 0)
        return 1;
    if (strcmp(what, "fills") == 0)
        return write(ends[1], bytes, sizeof bytes) != (ssize_t)sizeof bytes;
    if (strcmp(what, "takes") == 0)
        return write(ends[1], large, MOST) != MOST || read(ends[0], large, sizeof large) != MOST;
    if (strcmp(what, "gives") == 0)
        return fcntl(ends[1], F_SETFL, O_NONBLOCK) != 0 || write(ends[1], large, sizeof large) != MOST;
    if (strcmp(what, "forks") == 0 && write(ends[1], bytes, sizeof bytes) != (ssize_t)sizeof bytes)
        return 1;
    pid_t child = fork();
    if (child < 0)
        return 1;
    if ((strcmp(what, "waits") == 0 || strcmp(what, "sleeps") == 0) && child == 0)
        return write(ends[1], bytes, sizeof bytes) != (ssize_t)sizeof bytes;
    if (strcmp(what, "sleeps") == 0)
        return sleep(3) != 0 || read(ends[0], bytes, 1) != 1 || waitpid(child, 0, 0) != child;
    if (strcmp(what, "waits") == 0)
        return waitpid(child, 0, 0) != child || read(ends[0], bytes, sizeof bytes) != (ssize_t)sizeof bytes;
    if (strcmp(what, "forks") == 0)
        return child > 0 ? waitpid(child, 0, 0) != child : read(ends[0], bytes, sizeof bytes) != sizeof bytes;
    if ((strcmp(what, "leaves") == 0 || strcmp(what, "keeps") == 0) && child > 0)
        return 0;
    if (strcmp(what, "keeps") == 0)
        setsid();
    if (strcmp(what, "leaves") == 0) {
        setsid();
        close(0);
        close(1);
        close(2);
    }
    return read(ends[0], bytes, 1) != 0;
}
