/* Replaces a file while it is open, as a program does that may not lose what it has.

   The new contents are written to a temporary file, which is renamed over the old one. Who has the file open reads the
   old contents on, and who opens it then reads the new ones. Both are printed. The status is 1 where an answer is not
   the one of POSIX. */

#define _POSIX_C_SOURCE 200809L

#include "judge.h"

#include <errno.h>
#include <fcntl.h>
#include <stdio.h>
#include <string.h>
#include <sys/stat.h>
#include <unistd.h>

static const char before[] = "the old contents\n", after[] = "the new ones\n";
enum { BEFORE = sizeof before - 1, AFTER = sizeof after - 1 };

/* Makes a file with these bytes, which reach the disk before it is closed. */
static int make(const char *name, const char *bytes, size_t size)
{
    int fd = open(name, O_WRONLY | O_CREAT | O_EXCL, 0600);
    CHECK(fd >= 0 && write(fd, bytes, size) == (ssize_t)size);
    CHECK(fsync(fd) == 0 && close(fd) == 0);
    return 0;
}

int main(void)
{
    char old[100] = "", new[100] = "";
    struct stat told;
    CHECK(make("settings", before, BEFORE) == 0);
    int reader = open("settings", O_RDONLY);
    CHECK(reader >= 0 && read(reader, old, 4) == 4);
    CHECK(make("settings.new", after, AFTER) == 0);
    CHECK(rename("settings.new", "settings") == 0);
    CHECK(open("settings.new", O_RDONLY) == -1 && errno == ENOENT);
    CHECK(rename("settings.new", "settings") == -1 && errno == ENOENT);
    CHECK(read(reader, old + 4, sizeof old - 4) == BEFORE - 4 && strcmp(old, before) == 0);
    CHECK(fstat(reader, &told) == 0 && told.st_nlink == 0 && told.st_size == BEFORE);
    int other = open("settings", O_RDONLY);
    CHECK(other == reader + 1 && read(other, new, sizeof new) == AFTER && strcmp(new, after) == 0);
    CHECK(fstat(other, &told) == 0 && told.st_nlink == 1 && told.st_size == AFTER);
    CHECK(pread(reader, old, BEFORE, 0) == BEFORE && strcmp(old, before) == 0);
    printf("%s%s", old, new);
    return close(reader) + close(other);
}
