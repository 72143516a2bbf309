/* The same as interrupted.c, by the clock that fdref.h has where its system shows it no CLOCK_MONOTONIC. */

#define COARSE
#include "interrupted.c"
