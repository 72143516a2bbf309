/* The words of an execl as the list that execve takes. */

#include <stdarg.h>
#include <string.h>

#define EXEC_WORDS_MOST 8

/* Fills a list with the first word and the others, up to and with the NULL after the last. */
static void list_words(char *list[EXEC_WORDS_MOST], const char *word, va_list others)
{
    memcpy(&list[0], &word, sizeof word);
    for (int at = 0; at < EXEC_WORDS_MOST - 1 && list[at];)
        list[++at] = va_arg(others, char *);
}
