/* What all tests have in common: checks, and how many of them failed. */
#ifndef CHECKS_H
#define CHECKS_H

#include <stdio.h>
#include <string.h>

static int failures;

static inline void check(int holds, const char *file, int line, const char *what)
{
    if (!holds) {
        printf("%s:%d: %s\n", file, line, what);
        failures++;
    }
}

#define CHECK(holds) check(holds, __FILE__, __LINE__, #holds)

/* Prints how many checks failed. The status of the program: 1 where one did. */
static inline int failed(void)
{
    printf("%d failed\n", failures);
    return failures != 0;
}

#endif
