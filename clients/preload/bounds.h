/* bounds.h: a part of fdref_preload.c. What a program is told that asks for a limit: that of fdref. */

/* ---- limits of names and files

   They are told in a native run too, so that a program that goes by them makes the same calls. */

static long limit_of(int name)
{
    switch (name) {
    case _PC_PIPE_BUF: return 512;
    case _PC_NAME_MAX: return 64;
    case _PC_LINK_MAX: return 8;
    case _PC_FILESIZEBITS: return 42;
    case _PC_NO_TRUNC: return 1;
    default: return -1;
    }
}

long fpathconf(int fd, int name)
{
    NEXT_OF(fpathconf);
    enum way way = way_of(fd);
    if (way != PASS && slot_of(fd).held == OURS && limit_of(name) >= 0)
        return limit_of(name);
    return way == ASK ? refuse(fd, "fpathconf of another limit") : next(fd, name);
}

static long limit_of_ours(const char *path, int name)
{
    struct file file;
    if (limit_of(name) < 0)
        leave_out("path", "pathconf of another limit", path);
    if (ALONE(look_by_name(path, &file)) < 0)
        return -1;
    return limit_of(name) >= 0 ? limit_of(name) : fails(ENOSYS);
}

/* The folder of fdref has no name but this one. */
static int is_dot(const char *path) { return path && (strcmp(path, ".") == 0 || strcmp(path, "./") == 0); }

long pathconf(const char *path, int name)
{
    NEXT_OF(pathconf);
    const char *rest = path;
    enum way way;
    prepare();
    if (!is_off() && is_dot(path) && limit_of(name) >= 0)
        return limit_of(name);
    way = way_of_name("pathconf", &rest);
    if (way == ASK)
        return limit_of_ours(rest, name);
    return way == NOTE && limit_of(name) >= 0 && next(path, name) >= 0 ? limit_of(name) : next(path, name);
}

/* ---- limits of processes */

#define TELLS_NUMBERS(function) \
    long function(int name) \
    { \
        NEXT_OF(function); \
        prepare(); \
        return how == ASKED && name == _SC_OPEN_MAX ? NUMBERS : next(name); \
    }
TELLS_NUMBERS(sysconf)

int getdtablesize(void)
{
    NEXT_OF(getdtablesize);
    prepare();
    return how == ASKED ? NUMBERS : next();
}

#ifdef __GLIBC__
typedef __rlimit_resource_t resource_kind;
#else
typedef int resource_kind;
#endif

static int is_limit_of_numbers(resource_kind resource) { return how == ASKED && resource == RLIMIT_NOFILE; }

/* Of fdref the limit of numbers cannot be changed. */
static int keep_numbers(int is_same)
{
    if (is_same)
        return 0;
    goes_past('!', "limit", "RLIMIT_NOFILE", NULL);
    end_strictly("setrlimit of RLIMIT_NOFILE");
    return (int)fails(ENOSYS);
}

/* That of the size of files holds for real ones alone. */
static void limit_size(void)
{
    is_size_limited = 1;
    goes_past('!', "limit", "RLIMIT_FSIZE", NULL);
    end_strictly("setrlimit of RLIMIT_FSIZE");
}

int getrlimit(resource_kind resource, struct rlimit *to)
{
    int done;
    prepare();
    done = system_getrlimit((int)resource, to);
    if (done == 0 && is_limit_of_numbers(resource))
        to->rlim_cur = NUMBERS;
    return done;
}

int setrlimit(resource_kind resource, const struct rlimit *to)
{
    prepare();
    if (is_limit_of_numbers(resource))
        return keep_numbers(to->rlim_cur == NUMBERS && to->rlim_max >= NUMBERS);
    if (resource == RLIMIT_FSIZE && to->rlim_cur != RLIM_INFINITY)
        limit_size();
    return system_setrlimit((int)resource, to);
}
