/* shared.h: a part of fdref_preload.c. What the processes of a run share, by a file in memory: the next number of a
   native run, and the numbers of files, which st_ino tells. */

/* A name, by its hash, or 0 where no name has this place yet; the number of its file, or 0 where the name has got none
   since it went; and how often it went. */
struct named {
    uint64_t hash, inode, times;
};
enum { NAMED_MOST = 4096, EXITS_MOST = 1024 };
struct shared {
    uint32_t next_number, forks;
    /* of each fork, by which one of the run it is: the number that its parent was told, and the one that its child has */
    uint64_t told_forks[EXITS_MOST], own_forks[EXITS_MOST];
    struct named named[NAMED_MOST];
    /* the exits of processes as they make them: the number in the system, and the status after that */
    uint64_t exits[EXITS_MOST];
    /* the calls that native processes are in, by their numbers in the system: of one that may wait with the descriptor,
       else -1, and how many bytes */
    struct inside {
        uint64_t number;
        char name[16];
        int64_t fd;
        uint64_t size;
    } inside[EXITS_MOST];
};
static struct shared *shared;

/* Finds what is shared in its file. */
static void map_shared(void)
{
    void *found = mmap(NULL, sizeof *shared, PROT_READ | PROT_WRITE, MAP_SHARED, shared_file, 0);
    if (found == MAP_FAILED)
        end_with(NO_ANSWER, "no shared memory: %s", strerror(errno));
    shared = (struct shared *)found;
}

/* Makes the file, which is zeros, for a first process and all that come of it. One with a name may be read later. */
static void begin_sharing(void)
{
    const char *path = getenv("FDREF_SHARED");
    int made = path ? system_open(path, O_RDWR | O_CREAT | O_EXCL | O_CLOEXEC, 0600) : -1;
    made = made < 0 ? (int)system_syscall(SYS_memfd_create, "fdref-preload", (long)MFD_CLOEXEC) : made;
    if (made < 0 || system_syscall(SYS_ftruncate, (long)made, (long)sizeof *shared) != 0)
        end_with(NO_ANSWER, "no shared memory: %s", strerror(errno));
    shared_file = hidden(made);
    map_shared();
    shared->next_number = 1;
}

/* ---- exits */

static uint64_t *exit_of(pid_t pid) { return &shared->exits[(uint64_t)pid % EXITS_MOST]; }

/* Says that this process exits with a status, to which AT_ONCE is added by _exit, and BY_ITSELF where it has one thread;
   or that it is there, below 0. */
enum { AT_ONCE = 256, BY_ITSELF = 512 };
static void say_exit(pid_t pid, int status)
{
    uint64_t said = status < 0 ? 0 : (uint64_t)pid << 32 | (uint64_t)status;
    __atomic_store_n(exit_of(pid), said, __ATOMIC_SEQ_CST);
}

/* The status with which a process has exited, or -1 where it has said none. */
static int said_exit(pid_t pid)
{
    uint64_t said = __atomic_load_n(exit_of(pid), __ATOMIC_SEQ_CST);
    return said >> 32 == (uint64_t)pid ? (int)(said & 255) : -1;
}

/* The function by which it has said so, and whether it had one thread then. */
static const char *ends_by(pid_t pid)
{
    return (__atomic_load_n(exit_of(pid), __ATOMIC_SEQ_CST) & AT_ONCE) != 0 ? "_exit" : "exit";
}

static int ends_by_itself(pid_t pid) { return (__atomic_load_n(exit_of(pid), __ATOMIC_SEQ_CST) & BY_ITSELF) != 0; }

/* ---- forks

   A parent is told the number of its child, which the child has from the kernel. Each of the two says what it knows, and
   the one that is second knows both. */

/* Says a number of one fork in its place, and gives what stands in the other one, or 0 where nothing does yet. */
static pid_t say_forked(uint64_t *own, const uint64_t *other, uint32_t which, pid_t number)
{
    uint64_t said;
    __atomic_store_n(&own[which % EXITS_MOST], (uint64_t)which << 32 | (uint32_t)number, __ATOMIC_SEQ_CST);
    said = __atomic_load_n(&other[which % EXITS_MOST], __ATOMIC_SEQ_CST);
    return said >> 32 == which ? (pid_t)(uint32_t)said : 0;
}

/* Says in which call a process is, which has a number that is one more than its own, or 0 where it is in none. */
static void say_inside(pid_t pid, uint64_t number, const char *name, int fd, uint64_t count)
{
    struct inside *it = &shared->inside[(uint64_t)pid % EXITS_MOST];
    size_t size = strlen(name);
    memset(it->name, 0, sizeof it->name);
    memcpy(it->name, name, size < sizeof it->name ? size : sizeof it->name);
    it->fd = fd;
    it->size = count;
    __atomic_store_n(&it->number, number, __ATOMIC_SEQ_CST);
}

/* ---- the numbers of files

   A name gives its file a number when it is first met, one that no other name gives. The number goes with the file to
   its next name. Each step is one that other processes may see, or not yet. */

static uint64_t hash_of(const char *name)
{
    uint64_t hash = UINT64_C(14695981039346656037);
    for (; *name; name++)
        hash = (hash ^ (unsigned char)*name) * UINT64_C(1099511628211);
    return hash | 1;
}

/* Where a name is kept, or NULL where there are too many. */
static struct named *named_of(const char *name)
{
    uint64_t hash = hash_of(name);
    for (int tries = 0; tries < NAMED_MOST; tries++) {
        struct named *at = &shared->named[(hash + (uint64_t)tries) % NAMED_MOST];
        uint64_t none = 0;
        if (__atomic_compare_exchange_n(&at->hash, &none, hash, 0, __ATOMIC_SEQ_CST, __ATOMIC_SEQ_CST) || none == hash)
            return at;
    }
    return NULL;
}

/* The number that a name gives to a file for the first time, or after it went so often. */
static uint64_t number_of_name(const char *name, uint64_t times)
{
    return (((hash_of(name) >> 1) + times * UINT64_C(0x9e3779b97f4a7c15)) & INT32_MAX) + 1;
}

static uint64_t inode_of_name(const char *name)
{
    struct named *at = named_of(name);
    uint64_t found = 0, made;
    if (!at)
        return number_of_name(name, 0);
    made = number_of_name(name, __atomic_load_n(&at->times, __ATOMIC_SEQ_CST));
    __atomic_compare_exchange_n(&at->inode, &found, made, 0, __ATOMIC_SEQ_CST, __ATOMIC_SEQ_CST);
    return found ? found : made;
}

/* The numbers of FIFOs have this bit, which st_ino does not tell. */
static const uint64_t fifo_bit = UINT64_C(1) << 62;

static uint64_t told_inode(uint64_t inode) { return inode & ~fifo_bit; }

/* A new name leads to a FIFO. */
static void name_is_of_fifo(const char *name)
{
    struct named *at = named_of(name);
    if (at)
        __atomic_store_n(&at->inode, inode_of_name(name) | fifo_bit, __ATOMIC_SEQ_CST);
}

/* A name leads to no file any more. */
static void name_goes(const char *name)
{
    struct named *at = named_of(name);
    if (!at)
        return;
    __atomic_fetch_add(&at->times, 1, __ATOMIC_SEQ_CST);
    __atomic_store_n(&at->inode, 0, __ATOMIC_SEQ_CST);
}

/* A new name leads to the file of another one. */
static void name_is_linked(const char *name, const char *new_name)
{
    struct named *at = named_of(new_name);
    if (at)
        __atomic_store_n(&at->inode, inode_of_name(name), __ATOMIC_SEQ_CST);
}

/* The same, and that name leads to it no more, unless both did before. */
static void name_moves(const char *name, const char *new_name)
{
    if (inode_of_name(name) == inode_of_name(new_name))
        return;
    name_is_linked(name, new_name);
    name_goes(name);
}
