/* The checks of the programs that tools/judge.py judges. A wrong answer is told, and makes a function return 1. */

#include <stdio.h>

static inline int is_right(int condition, const char *what)
{
    if (!condition)
        fprintf(stderr, "not so: %s\n", what);
    return condition;
}

#define CHECK(condition) \
    do { \
        if (!is_right(condition, #condition)) \
            return 1; \
    } while (0)
