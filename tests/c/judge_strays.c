/* Does what the answers of no two systems agree on.

   usage: judge_strays call|answer|output|leaves-out|passes|spawns|starts|stdio|closes|streams|threads|looks|vforks
                      |copies|cancels|modes|renames|formats
                      |limited

   call        writes the number of its process into a file
   answer      changes a file by a system call that no library sees, and asks for the size of it
   output      prints the number of its process, and makes the same calls
   leaves-out  makes a symbolic link, which fdref leaves out
   passes      does more that goes past fdref
   spawns      prints the number of its process, and has a shell exit
   starts      has programs read its file and make others, by system and popen
   stdio       has a file at descriptor 1, to which it prints, and looks at files before and after that
   closes      has a file at descriptor 1, and closes standard output before it opens another one
   streams     makes a file by stdio, and one by a path with a slash, and opens the first
   threads     has a thread that waits for what another one writes
   looks       has a file at descriptor 0 and prints when its own file was changed
   vforks      has a child by vfork
   copies      copies its file by copy_file_range, or by a read and a write where it cannot, as cat does
   cancels     cancels a thread that waits, and reads what it writes then
   modes       ends where the mode of its file is another one
   renames     prints whether its file can be moved into a folder that it makes
   formats     prints a number by dprintf
   limited     writes to its file under a limit of its size that is smaller than any log */

#define _GNU_SOURCE

#include <fcntl.h>
#include <pthread.h>
#include <stdio.h>
#include <stdlib.h>
#include <string.h>
#include <sys/resource.h>
#include <sys/stat.h>
#include <sys/syscall.h>
#include <sys/wait.h>
#include <unistd.h>

/* Makes a folder, opens files by paths with a slash, and by stdio, and asks for what no fcntl of fdref has. */
static int passes(int fd)
{
    FILE *file = fopen("/dev/null", "r");
    int null = open("/dev/null", O_RDONLY), is_made = mkdir("d", 0700) == 0;
    int in = open("d/x", O_RDWR | O_CREAT, 0600);
    fcntl(fd, F_SETFL, O_ASYNC);
    return !file || fclose(file) != 0 || !is_made || close(in) != 0 || close(null) != 0;
}

static int copies(int fd)
{
    char bytes[4] = "text";
    int to = open("b", O_WRONLY | O_CREAT, 0600);
    if (pwrite(fd, bytes, sizeof bytes, 0) != sizeof bytes || to < 0)
        return 1;
    if (copy_file_range(fd, NULL, to, NULL, sizeof bytes, 0) == sizeof bytes)
        return close(to);
    return read(fd, bytes, sizeof bytes) != sizeof bytes || write(to, bytes, sizeof bytes) != sizeof bytes || close(to);
}

static void streams(void)
{
    FILE *file = fopen("log", "w");
    int made = open("./d/x", O_RDONLY);
    if (!file || fclose(file) != 0 || made >= 0 || close(open("log", O_RDONLY)) != 0)
        printf("no log\n");
}

/* The file is open here, so natively the programs have one descriptor more that is taken. */
static int starts(int fd)
{
    FILE *input = write(fd, "text", 4) == 4 && system("read line <a; echo $line >b") == 0 ? popen("cat >c", "w") : NULL;
    return !input || fputs("text", input) < 0 || pclose(input) != 0;
}

static int ends[2];

/* It has with fdref, where each mode is 0644. */
static int has_other_mode(int fd)
{
    struct stat told;
    return fstat(fd, &told) != 0 || (told.st_mode & 0777) != 0600;
}

static int renames(void) { return mkdir("d", 0700) != 0 || printf("%d\n", rename("a", "d/n")) < 0; }

static void *wait_for_byte(void *unused)
{
    char byte;
    return read(ends[0], &byte, 1) == 1 ? unused : NULL;
}

static int threads(void)
{
    pthread_t thread;
    if (pipe(ends) != 0 || pthread_create(&thread, NULL, wait_for_byte, NULL) != 0)
        return 1;
    usleep(200000);
    return write(ends[1], "z", 1) != 1 || pthread_join(thread, NULL) != 0;
}

static int cancels(void)
{
    char byte;
    pthread_t thread;
    if (pipe(ends) != 0 || pthread_create(&thread, NULL, wait_for_byte, NULL) != 0)
        return 1;
    usleep(200000);
    if (pthread_cancel(thread) != 0 || pthread_join(thread, NULL) != 0)
        return 1;
    return write(ends[1], "z", 1) != 1 || read(ends[0], &byte, 1) != 1;
}

static int vforks(void)
{
    int status;
    pid_t child = vfork();
    if (child == 0)
        _exit(0);
    return child < 0 || waitpid(child, &status, 0) != child || status != 0;
}

static int is_limited(int fd)
{
    struct rlimit limit;
    if (getrlimit(RLIMIT_FSIZE, &limit) != 0)
        return 1;
    limit.rlim_cur = 100;
    return setrlimit(RLIMIT_FSIZE, &limit) != 0 || write(fd, "abc", 3) != 3 || lseek(fd, 0, SEEK_SET) != 0;
}

static int fails_with(const char *what, int fd)
{
    return (strcmp(what, "passes") == 0 && passes(fd) != 0) || (strcmp(what, "copies") == 0 && copies(fd) != 0)
        || (strcmp(what, "starts") == 0 && starts(fd) != 0) || (strcmp(what, "cancels") == 0 && cancels() != 0)
        || (strcmp(what, "modes") == 0 && has_other_mode(fd)) || (strcmp(what, "renames") == 0 && renames() != 0);
}

int main(int count, char **words)
{
    const char *what = count > 1 ? words[1] : "";
    char text[30];
    struct stat told;
    int fd = open("a", O_RDWR | O_CREAT, 0600);
    int length = snprintf(text, sizeof text, "%ld\n", (long)getpid());
    if (fd < 0 || length < 0)
        return 1;
    if (strcmp(what, "call") == 0 && write(fd, text, (size_t)length) != length)
        return 1;
    if (strcmp(what, "answer") == 0)
        syscall(SYS_write, fd, "abc", (size_t)3);
    if (strcmp(what, "output") == 0 || strcmp(what, "spawns") == 0)
        printf("%s", text);
    if (strcmp(what, "spawns") == 0 && system("exit 3") == 0)
        return 1;
    if (fails_with(what, fd))
        return 1;
    if (strcmp(what, "leaves-out") == 0 && symlink("a", "b") != 0)
        return 1;
    if (strcmp(what, "streams") == 0)
        streams();
    if (strcmp(what, "limited") == 0 && is_limited(fd))
        return 1;
    if (strcmp(what, "formats") == 0 && dprintf(fd, "%d\n", length) < 2)
        return 1;
    if (strcmp(what, "looks") == 0 && dup2(fd, 0) == 0 && fstat(fd, &told) == 0)
        printf("%d\n", told.st_mtime > 0);
    if (strcmp(what, "vforks") == 0 && vforks() != 0)
        return 1;
    if (strcmp(what, "threads") == 0 && threads() != 0)
        return 1;
    if (strcmp(what, "closes") == 0 && (dup2(fd, 1) != 1 || fclose(stdout) != 0 || open("b", O_CREAT, 0600) != 1))
        return 1;
    if (strcmp(what, "stdio") == 0 && dup2(fd, 1) == 1 && stat("/", &told) == 0 && printf("%s", text) > 0) {
        posix_fadvise(fd, 0, 0, POSIX_FADV_NORMAL);
        fflush(stdout);
        posix_fadvise(fd, 0, 0, POSIX_FADV_NORMAL);
    }
    return fstat(fd, &told) || close(fd);
}
