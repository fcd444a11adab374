/* What the C tests share: checks that are counted, and a lent buffer of which every byte is known. */
#ifndef CHECKS_H
#define CHECKS_H

#include "saltorchard.h"

#include <stdio.h>
#include <string.h>

/* ---- checks */

static unsigned long passed, failed;
static const char *about = "";
static size_t which;

static void now(const char *what, size_t number)
{
    about = what;
    which = number;
}

static int check_at(int line, int ok)
{
    if (ok)
        passed++;
    else {
        failed++;
        printf("%s:%d: %s %zu: ", __BASE_FILE__, line, about, which);
    }
    return ok;
}

static void true_at(int line, int ok, const char *text)
{
    if (!check_at(line, ok))
        printf("not so: %s\n", text);
}

static void reply_at(int line, saltorchard_reply got, uint64_t number, uint64_t count, uint64_t at, uint64_t length)
{
    saltorchard_reply want = {number, count, at, length};
    if (!check_at(line, memcmp(&got, &want, sizeof got) == 0))
        printf("replies %d %d %d %d, not %d %d %d %d\n", (int)got.number, (int)got.count, (int)got.at, (int)got.length,
               (int)number, (int)count, (int)at, (int)length);
}

#define CHECK(ok) true_at(__LINE__, (ok), #ok)
#define REPLY(got, number, count, at, length) reply_at(__LINE__, (got), (number), (count), (at), (length))

/* Says how many checks failed and passed; answers main's status. */
static int checked(void)
{
    if (failed > 0)
        printf("%lu checks failed\n", failed);
    printf("%lu checks passed\n", passed);
    return failed > 0;
}

/* ---- the lent buffer: junk before, in and after it, and what all of it must be after a call */

/* LENT bytes are more than any call writes: the longest text has 88,699. A test of calls that write less may say how many. */
#ifndef LENT
#define LENT 90000
#endif
enum { GUARD = 64 };
static uint8_t ground[GUARD + LENT + GUARD], want[sizeof ground];
static uint8_t *const lent = ground + GUARD;

static void lend_junk(void)
{
    for (size_t i = 0; i < sizeof ground; i++)
        ground[i] = (uint8_t)(i * 37 + 11);
    memcpy(want, ground, sizeof ground);
}

static void ground_at(int line)
{
    size_t i = 0;
    while (i < sizeof ground && ground[i] == want[i])
        i++;
    if (!check_at(line, i == sizeof ground))
        printf("byte %ld of the lent buffer is %02x, not %02x\n", (long)i - GUARD, ground[i], want[i]);
}

#define KEPT() ground_at(__LINE__)

#endif
