/* The words of a line: numbers, checksums, and what a call left in the lent buffers. */
#ifndef SAY_H
#define SAY_H

#include "ask.h"

/* Adler-32 (RFC 1950). */
static uint32_t checksum(const uint8_t *bytes, size_t count)
{
    uint32_t a = 1, b = 0;
    for (size_t k = 0; k < count; k++) {
        a = (a + bytes[k]) % 65521;
        b = (b + a) % 65521;
    }
    return b << 16 | a;
}

static void say_hex(const char *before, const uint8_t *bytes, size_t count)
{
    for (size_t k = 0; k < count; k++)
        printf("%s%02x", before, bytes[k]);
}

/* The checksum of the bytes of a slice from one place to another. */
static void say_between(const Args *a, enum slice s, size_t from, size_t to)
{
    if (from > to || to > a->count[s])
        printf("past its end");
    else
        printf("%08x", (unsigned)checksum((const uint8_t *)a->at[s] + from, to - from));
}

static void say_first(const Args *a, enum slice s, size_t count)
{
    say_between(a, s, 0, count);
}

/* The checksums of three slices, a name in front of each. */
static void say_three(const Args *a, enum slice s, size_t luma, size_t chroma)
{
    printf(" y ");
    say_first(a, s, luma);
    printf(" u ");
    say_first(a, (enum slice)(s + 1), chroma);
    printf(" v ");
    say_first(a, (enum slice)(s + 2), chroma);
}

/* Numbers that were all the same before a call: a dot is one that is as it was. */
enum { NUMBER_BEFORE = 43690 };
static void say_numbers(const uint16_t *numbers, size_t count)
{
    for (size_t k = 0; k < count; k++)
        if (numbers[k] == NUMBER_BEFORE)
            printf(" .");
        else
            printf(" %u", (unsigned)numbers[k]);
}

static void say_answer(const char *name, const Result *r)
{
    printf("%s: %lu %zu", name, (unsigned long)r->number, r->count);
}

/* What an output holds before a call, where nothing else is said. */
enum { UNWRITTEN = 201 };

/* A slice whose bytes all have one value. */
static void lend_all(Args *a, enum slice s, size_t count, uint8_t value)
{
    lend_as(a, s, count, NULL);
    if (count > 0)
        memset(a->at[s], value, count);
}

static bool all_still(const Args *a, enum slice s, uint8_t before)
{
    return all_are(a->at[s], a->count[s], before);
}

/* Whether a slice, or three, that a call only reads are as they were. */
static void say_read(const char *name, const Args *a, enum slice first, enum slice last, uint8_t before)
{
    bool still = true;
    for (int s = first; s <= (int)last; s++)
        still = still && all_still(a, (enum slice)s, before);
    printf("%s%s", name, still ? "unchanged" : "changed");
}

/* A slice that had one value before a call that may write the first `count` of its bytes: unchanged, or the checksum of these. */
static void say_written(const char *name, const Args *a, enum slice s, uint8_t before, size_t count)
{
    const size_t part = count < a->count[s] ? count : a->count[s];
    const uint8_t *bytes = a->at[s];
    printf("%s", name);
    if (all_are(bytes, part, before))
        printf("unchanged");
    else
        say_first(a, s, part);
    if (!all_are(bytes + part, a->count[s] - part, before))
        printf(" and past its end");
}

static void say_planes(const Args *a, uint8_t before, size_t count)
{
    say_written(", y ", a, Y, before, count);
    say_written(", u ", a, U, before, count);
    say_written(", v ", a, V, before, count);
}

#endif
