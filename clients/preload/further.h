/* further.h: a part of fdref_preload.c. The names that only Linux and glibc have of what fdref answers. */

#ifdef __GLIBC__
static void fill_statx(struct statx *to, const struct file *file)
{
    struct stat plainly;
    FILL(&plainly, *file);
    memset(to, 0, sizeof *to);
    to->stx_mask = STATX_BASIC_STATS;
    to->stx_blksize = (uint32_t)plainly.st_blksize;
    to->stx_nlink = (uint32_t)plainly.st_nlink;
    to->stx_uid = plainly.st_uid;
    to->stx_gid = plainly.st_gid;
    to->stx_mode = (uint16_t)plainly.st_mode;
    to->stx_ino = plainly.st_ino;
    to->stx_size = file->stat.size;
    to->stx_blocks = (uint64_t)plainly.st_blocks;
    to->stx_dev_minor = (uint32_t)plainly.st_dev;
}

/* The number of a device, as stat has it. */
static uint64_t device_in(const struct statx *told)
{
    uint64_t major = told->stx_dev_major, minor = told->stx_dev_minor;
    return (major & 0xfff) << 8 | (major & ~UINT64_C(0xfff)) << 32 | (minor & 0xff) | (minor & ~UINT64_C(0xff)) << 12;
}

/* What statx has to tell, so that it is compared as what stat tells. */
enum { TOLD_BY_STAT = STATX_TYPE | STATX_SIZE | STATX_NLINK };

int statx(int folder, const char *name, int flags, unsigned wanted, struct statx *to)
{
    NEXT_OF(statx);
    struct file file;
    unsigned gone_before = names_gone, runs_before = runs;
    int done, is_numbered;
    if (IS_INNER)
        return next(folder, name, flags, wanted, to);
    done = look("statx", folder, name, flags, &file);
    if (done == 0)
        fill_statx(to, &file);
    if (done > 0)
        WITHIN(done, next(folder, name, flags, wanted, to));
    is_numbered = done == 0 && (wanted & STATX_INO) != 0 && (to->stx_mask & STATX_INO) != 0;
    if (looked_at && is_numbered)
        check_named("statx", looked_at, device_in(to), to->stx_ino, gone_before);
    if (is_by_number(folder, name, flags) && is_numbered)
        check_led("statx", folder, device_in(to), to->stx_ino, runs_before);
    if (looked_at && (wanted & TOLD_BY_STAT) == TOLD_BY_STAT)
        note_look("statx", done, done < 0 ? 0 : to->stx_mode, done < 0 ? 0 : to->stx_size,
                  done < 0 ? 0 : to->stx_nlink);
    looked_at = NULL;
    return done;
}

/* No call of fdref does what flags ask for. After ENOSYS programs do without them. */
static int is_renamed_with(struct going *it, int folder, const char *name, int new_folder, const char *new_name,
                           unsigned flags)
{
    prepare();
    if (flags == 0)
        return is_renamed(it, folder, name, new_folder, new_name);
    it->way = PASS;
    if (!is_plain_in(folder, name) && !is_plain_in(new_folder, new_name)) {
        passes("path", "renameat2", name);
        return 0;
    }
    leave_out("call", "renameat2 with flags", name);
    it->done = fails(ENOSYS);
    return 1;
}

GOES(int, renameat2, (int folder, const char *name, int new_folder, const char *new_name, unsigned flags),
     (folder, name, new_folder, new_name, flags),
     is_renamed_with(&going, folder, name, new_folder, new_name, flags), RENAMED)

OPENS(open64, O_LARGEFILE)
OPENS_IN(openat64, O_LARGEFILE)
CREATES(creat64, O_LARGEFILE)
OPENS(__open, 0)
OPENS(__open64, O_LARGEFILE)

/* What was compiled with checks: of the mode of an open, and of buffers. */
#define OPENS_CHECKED(name, also) \
    OPENS_SO(name, (const char *path, int flags), (path, flags), AT_FDCWD, path, flags | (also), )
#define OPENS_CHECKED_IN(name, also) \
    OPENS_SO(name, (int folder, const char *path, int flags), (folder, path, flags), folder, path, flags | (also), )
OPENS_CHECKED(__open_2, 0)
OPENS_CHECKED(__open64_2, O_LARGEFILE)
OPENS_CHECKED_IN(__openat_2, 0)
OPENS_CHECKED_IN(__openat64_2, O_LARGEFILE)

static size_t checked(size_t count, size_t room)
{
    if (count > room)
        abort();
    return count;
}

#define READS_CHECKED(name, type) \
    MOVES(name, (int fd, void *buffer, size_t count, type offset, size_t room), (fd, buffer, count, offset, room), \
          fdref_act_pread(fd, checked(count, room), offset), buffer)
MOVES(__read_chk, (int fd, void *buffer, size_t count, size_t room), (fd, buffer, count, room),
      fdref_act_read(fd, checked(count, room)), buffer)
READS_CHECKED(__pread_chk, off_t)
READS_CHECKED(__pread64_chk, off64_t)

#define READS_AT(name) \
    MOVES(name, (int fd, void *buffer, size_t count, off64_t offset), (fd, buffer, count, offset), \
          fdref_act_pread(fd, count, offset), buffer)
#define WRITES_AT(name) \
    MOVES(name, (int fd, const void *data, size_t count, off64_t offset), (fd, data, count, offset), \
          fdref_act_pwrite(fd, NULL, count, offset), data)
READS_AT(pread64)
READS_AT(__pread64)
WRITES_AT(pwrite64)
WRITES_AT(__pwrite64)
MOVES(__read, (int fd, void *buffer, size_t count), (fd, buffer, count), fdref_act_read(fd, count), buffer)
MOVES(__write, (int fd, const void *data, size_t count), (fd, data, count), fdref_act_write(fd, NULL, count), data)

CLOSES(__close)
DUPLICATES_TO(__dup2)
MAKES_PIPE(__pipe, (int ends[2]), (made), 0)
SEEKS(off_t, __lseek)
SEEKS(off64_t, lseek64)
CUTS(ftruncate64, off64_t)
CUTS_NAME(truncate64, off64_t)
CONTROLS(fcntl64)
CONTROLS(__fcntl)
FORKS(__fork)
FORKS(__libc_fork)
FORKS(_Fork)
FORKS_FOR(__vfork)
WAITS(__wait, (int *given), (status), -1, 0)
WAITS(__waitpid, (pid_t which, int *given, int options), (which, status, options), which, options)
TELLS_NUMBERS(__sysconf)

/* What is compiled with checks of buffers has the C library check the format too. */
static int checked_text(char **text, int flag, const char *format, va_list values)
{
    static int (*formats)(char **, int, const char *, va_list);
    find(&formats, "__vasprintf_chk");
    return formats(text, flag, format, values);
}

int __vdprintf_chk(int fd, int flag, const char *format, va_list values)
{
    NEXT_OF(__vdprintf_chk);
    va_list again;
    char *text = NULL;
    int size;
    if (IS_INNER)
        return next(fd, flag, format, values);
    va_copy(again, values);
    size = checked_text(&text, flag, format, again);
    va_end(again);
    PRINTS(fd, size < 0 ? NULL : text, size, next(fd, flag, format, values));
}

int __dprintf_chk(int fd, int flag, const char *format, ...)
{
    NEXT_OF(__dprintf_chk);
    va_list values;
    char *text = NULL;
    int size;
    va_start(values, format);
    size = checked_text(&text, flag, format, values);
    va_end(values);
    if (size < 0)
        return size;
    PRINTS_VALUES(fd, format, text, size, next(fd, flag, "%s", text), __vdprintf_chk(fd, flag, format, values));
}

int getrlimit64(resource_kind resource, struct rlimit64 *to)
{
    static __typeof__(&getrlimit64) next;
    int done;
    prepare();
    find(&next, "getrlimit64");
    done = next(resource, to);
    if (done == 0 && is_limit_of_numbers(resource))
        to->rlim_cur = NUMBERS;
    return done;
}

int setrlimit64(resource_kind resource, const struct rlimit64 *to)
{
    static __typeof__(&setrlimit64) next;
    prepare();
    if (is_limit_of_numbers(resource))
        return keep_numbers(to->rlim_cur == NUMBERS && to->rlim_max >= NUMBERS);
    if (resource == RLIMIT_FSIZE && to->rlim_cur != RLIM64_INFINITY)
        limit_size();
    find(&next, "setrlimit64");
    return next(resource, to);
}

#define LIMITS_OF(name, limits, none) \
    int name(pid_t pid, resource_kind resource, const struct limits *to, struct limits *was) \
    { \
        static __typeof__(&name) next; \
        int is_own = pid == 0 || pid == system_getpid(), done; \
        prepare(); \
        if (is_own && is_limit_of_numbers(resource) && to \
            && keep_numbers(to->rlim_cur == NUMBERS && to->rlim_max >= NUMBERS) < 0) \
            return -1; \
        if (is_own && resource == RLIMIT_FSIZE && to && to->rlim_cur != none) \
            limit_size(); \
        find(&next, #name); \
        done = next(pid, resource, is_own && is_limit_of_numbers(resource) ? NULL : to, was); \
        if (done == 0 && was && is_own && is_limit_of_numbers(resource)) \
            was->rlim_cur = NUMBERS; \
        return done; \
    }
LIMITS_OF(prlimit, rlimit, RLIM_INFINITY)
LIMITS_OF(prlimit64, rlimit64, RLIM64_INFINITY)

LOOKS(stat64, (const char *name, struct stat64 *to), (name, to), AT_FDCWD, 0)
LOOKS(lstat64, (const char *name, struct stat64 *to), (name, to), AT_FDCWD, 0)
LOOKS(fstatat64, (int folder, const char *name, struct stat64 *to, int flags), (folder, name, to, flags), folder, flags)
LOOKS_AT(fstat64, (int fd, struct stat64 *to), (fd, to))
LOOKS(__xstat, (int version, const char *name, struct stat *to), (version, name, to), AT_FDCWD, 0)
LOOKS(__lxstat, (int version, const char *name, struct stat *to), (version, name, to), AT_FDCWD, 0)
LOOKS(__fxstatat, (int version, int folder, const char *name, struct stat *to, int flags),
      (version, folder, name, to, flags), folder, flags)
LOOKS_AT(__fxstat, (int version, int fd, struct stat *to), (version, fd, to))
LOOKS(__xstat64, (int version, const char *name, struct stat64 *to), (version, name, to), AT_FDCWD, 0)
LOOKS(__lxstat64, (int version, const char *name, struct stat64 *to), (version, name, to), AT_FDCWD, 0)
LOOKS(__fxstatat64, (int version, int folder, const char *name, struct stat64 *to, int flags),
      (version, folder, name, to, flags), folder, flags)
LOOKS_AT(__fxstat64, (int version, int fd, struct stat64 *to), (version, fd, to))
#endif
