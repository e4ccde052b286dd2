/* What the tests of one thread share: a check that is counted, and ends the test with status 1 where it fails. */
#ifndef CHECK_H
#define CHECK_H

#include <stddef.h>
#include <stdint.h>
#include <stdio.h>
#include <stdlib.h>

static int checks;

#define CHECK(condition) check(condition, #condition, __LINE__)
static void check(int good, const char *what, int line)
{
    checks++;
    if (!good) {
        printf("line %d: not so: %s\n", line, what);
        exit(1);
    }
}

/* 1 where all bytes are this one. */
static int all_are(const void *bytes, size_t length, uint8_t byte)
{
    const uint8_t *from = bytes;
    size_t at = 0;
    while (at < length && from[at] == byte) {
        at++;
    }
    return at == length;
}

#endif
