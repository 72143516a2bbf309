/* Records what is chosen at random at the edges of fields by fdref.h, for the tests.

   usage: edges SEED COUNT FILE

   It chooses COUNT records, and writes a trace of those that fdref_record takes, as if none were refused between them.
   How many these are is printed. What is refused must be so with EINVAL or ENAMETOOLONG, or the status is 1. */

#include <limits.h>
#include <stdio.h>
#include <stdlib.h>
#include <string.h>

#include "odd.h"

static uint64_t chosen;
static char bytes[FDREF_DATA_MOST + 1], names[3][FDREF_NAME_MOST + 2];

static uint64_t below(uint64_t most)
{
    chosen = chosen * 6364136223846793005u + 1442695040888963407u;
    return (chosen >> 33) % most;
}

static int64_t edge(void)
{
    static const int64_t edges[] = {
        0, 1, -1, 5, 31, INT32_MAX, INT32_MIN, UINT32_MAX, INT64_C(4294967296), INT64_MAX, INT64_MIN, -2, 1024, 255
    };
    return edges[below(sizeof edges / sizeof edges[0])];
}

static int small_edge(void) { return (int)(uint32_t)edge(); }

/* The length of data, which is most often right. */
static uint64_t size_edge(void)
{
    static const uint64_t edges[] = {
        0, 1, 2, 17, 300, FDREF_TRANSFER_MOST, FDREF_TRANSFER_MOST + 1, FDREF_DATA_MOST, FDREF_DATA_MOST + 1,
        UINT32_MAX, UINT64_C(4294967296), UINT64_MAX
    };
    return edges[below(3) > 0 ? below(5) : below(sizeof edges / sizeof edges[0])];
}

static const char *name_edge(char *name)
{
    static const size_t sizes[] = {0, 1, 2, 64, 65, FDREF_NAME_MOST, FDREF_NAME_MOST + 1};
    size_t size = sizes[below(sizeof sizes / sizeof sizes[0])];
    for (size_t at = 0; at < size; at++)
        name[at] = (char)(1 + below(255));
    name[size] = 0;
    return below(20) == 0 ? NULL : name;
}

static int flags_edge(void)
{
    static const int flags[] = {O_CREAT, O_EXCL, O_TRUNC, O_APPEND, O_NONBLOCK, O_SYNC};
    static const int modes[] = {O_RDONLY, O_WRONLY, O_RDWR, FDREF_O_NEITHER};
    int value = modes[below(4)];
    for (int at = 0; at < 6; at++)
        value |= below(at < 5 ? 2 : 20) == 0 ? flags[at] : 0;
    return value;
}

static int other_edge(int kind)
{
    static const int bases[] = {SEEK_SET, SEEK_CUR, SEEK_END, 7};
    int has_flags = kind == FDREF_OPEN || kind == FDREF_SETFL;
    int value = kind == FDREF_LSEEK ? bases[below(4)] : has_flags ? flags_edge() : small_edge();
    return below(20) == 0 ? small_edge() : value;
}

static struct fdref_act act_edge(void)
{
    int kind = below(4) == 0 ? (int)below(7) : FDREF_OPEN + (int)below(FDREF_RENAME + 2 - FDREF_OPEN);
    struct fdref_act act = fdref_act_plain(below(50) == 0 ? small_edge() : kind, small_edge());
    act.other = other_edge(kind);
    act.name = name_edge(names[0]);
    act.new_name = name_edge(names[1]);
    act.offset = edge();
    act.data = below(20) == 0 ? NULL : bytes;
    act.count = size_edge();
    return act;
}

static struct fdref_outcome outcome_edge(void)
{
    static const int errors[] = {EBADF, ESRCH, EAGAIN, EPIPE, EPERM, 0, -1, INT_MAX};
    struct fdref_outcome outcome = fdref_outcome_of(0, 0);
    switch (below(11)) {
    case 0: return fdref_done();
    case 1: return fdref_number((uint64_t)edge());
    case 2: return fdref_data(below(20) == 0 ? NULL : bytes, (size_t)size_edge());
    case 3: return fdref_descriptors(small_edge(), small_edge());
    case 4: return fdref_told(below(4) == 0 ? small_edge() : (int)below(3), (uint64_t)edge(), (uint32_t)edge());
    case 5: return fdref_error(errors[below(sizeof errors / sizeof errors[0])]);
    case 6: return fdref_parked((uint32_t)edge());
    case 7: return fdref_part((uint32_t)edge());
    case 8: return fdref_result(edge());
    case 9: return fdref_result_flags(below(20) == 0 ? small_edge() : flags_edge());
    default: outcome.kind = small_edge(); return outcome;
    }
}

int main(int count, char **words)
{
    int fd = lowest_free(), failures = 0;
    struct fdref_trace *trace = count == 4 ? fdref_trace_open(words[3]) : NULL;
    unsigned long left = trace ? strtoul(words[2], NULL, 10) : 0, taken = 0;
    if (!trace)
        return 2;
    chosen = odd_choice = strtoull(words[1], NULL, 10);
    for (size_t at = 0; at < sizeof bytes; at++)
        bytes[at] = (char)at;
    while (left-- > 0) {
        int64_t process = below(4) == 0 ? edge() : 0;
        struct fdref_act act = act_edge();
        struct fdref_outcome outcome = outcome_edge();
        errno = 0;
        if (fdref_record(trace, process, act, outcome) == 0) {
            taken++;
        } else {
            failures += errno != EINVAL && errno != ENAMETOOLONG;
            trace->fault = 0;
        }
    }
    failures += fdref_trace_close(trace) != 0;
    printf("%lu\n", taken);
    return failures > 0 || lowest_free() != fd;
}
