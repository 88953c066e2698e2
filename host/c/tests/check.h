/* Counts what holds and what fails, and prints what fails. */
#ifndef CHECK_H
#define CHECK_H

#include <stdio.h>

static int passed, failed;

static inline void check_at(const char *file, int line, const char *what, int holds)
{
    if (holds) {
        passed++;
    } else {
        failed++;
        printf("%s:%d: %s\n", file, line, what);
    }
}

#define CHECK(condition) check_at(__FILE__, __LINE__, #condition, (condition) ? 1 : 0)

/* The last line, and the exit status. */
static inline int check_end(void)
{
    printf("%d passed, %d failed\n", passed, failed);
    return failed != 0;
}

#endif
