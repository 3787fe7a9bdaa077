/* What the C library's tests share: they count their checks, and tell on standard output what isn't as it has to be. */
#ifndef CHECKS_H
#define CHECKS_H

#include "goodlock.h"

#include <stdio.h>

static unsigned passed, failed;

/* Counts a check. The first twenty that fail are told. */
static void check(bool is_right, const char *what)
{
    if (is_right) {
        passed++;
        return;
    }
    if (++failed <= 20)
        printf("%s\n", what);
}

/* Checks what a call answers. */
static void expect(const char *what, uint32_t got, uint32_t right)
{
    char text[300];
    snprintf(text, sizeof text, "%s: answers %u (%s), and %u (%s) is right", what, got, goodlock_says(got), right,
             goodlock_says(right));
    check(got == right, text);
}

#endif
