/* What wire.c and write.c share: which case it is, what differs in it, what the self-test alters, and the last line. A run says before
   it takes this in what it is called (PROGRAM) and what its cases are (CASES_ARE), and has `run` and `say_case`. */
#ifndef TALLY_H
#define TALLY_H

#include <stdbool.h>
#include <stddef.h>
#include <stdint.h>
#include <stdio.h>
#include <unistd.h>

#include "haythaw.h"

static uint64_t seed = 1, number;                                       /* the case: its seed and its number */
static uint64_t compared, differences, differing, smallest_number;      /* answers, what differs in them, cases that differ */
static bool quiet;

static void run(uint64_t seeded, uint64_t which); /* makes a case and compares it */
static int say_case(char *to, size_t room);       /* what the lines about the case say of it; gives its length */

static void same(bool holds, const char *what, const char *which, uint64_t i)
{
    char said[80];
    if (holds || differences++ >= 5 || quiet) return;
    say_case(said, sizeof said);
    printf(PROGRAM ": --seed %llu --only %llu: %s: %s%s differs (%llu)\n", (unsigned long long)seed, (unsigned long long)number, said,
           which, what, (unsigned long long)i);
}

/* What the self-test alters: a field of every answer of a call, or bytes. */
enum { MOST_FIELDS = 12 };
typedef struct { const char *name; int count; size_t fields[MOST_FIELDS]; } Alterable;
#define AN_ANSWER(name) {name, 2, {offsetof(haythaw_answer, number), offsetof(haythaw_answer, count)}}
#define AN_ANSWER_OF_READ \
    {"an answer of read", 12, \
     {offsetof(haythaw_avc444, number), offsetof(haythaw_avc444, kind), offsetof(haythaw_avc444, luma.count), \
      offsetof(haythaw_avc444, luma.rects), offsetof(haythaw_avc444, luma.pairs), offsetof(haythaw_avc444, luma.data), \
      offsetof(haythaw_avc444, luma.length), offsetof(haythaw_avc444, chroma.count), offsetof(haythaw_avc444, chroma.rects), \
      offsetof(haythaw_avc444, chroma.pairs), offsetof(haythaw_avc444, chroma.data), offsetof(haythaw_avc444, chroma.length)}}
static const Alterable *altered; /* null: nothing */
static int altered_field;

static void alter(const Alterable *what, void *answer)
{
    if (what == altered) ((uint8_t *)answer)[what->fields[altered_field]] ^= 1;
}

/* Whether one case of a round, or more, shows a difference; one in 61 is tried. */
static bool noticed(uint64_t round)
{
    differences = 0;
    for (uint64_t k = 0; k < round && !differences; k += 61) run(1, k);
    return differences > 0;
}

/* Alters each field in turn: gives how many there are, and counts those that are not noticed. */
static int alter_each(const Alterable *all, int count, uint64_t round, int *missed)
{
    int fields = 0;
    for (altered = all; altered < all + count; altered++)
        for (altered_field = 0; altered_field < altered->count; altered_field++, fields++)
            if (!noticed(round)) ++*missed, printf(PROGRAM ": not noticed, though altered: %s (%d)\n", altered->name, altered_field);
    altered = NULL;
    if (noticed(round)) ++*missed, printf(PROGRAM ": something differs, and nothing was altered\n");
    return fields;
}

/* Whether the library says of a stream what the other reader says. */
static bool same_places(haythaw_stream s, const Part *p)
{
    return s.count == p->count && s.rects == p->rects && s.pairs == p->pairs && s.data == p->data && s.length == p->length;
}

static void trapped(int by)
{
    char said[240], of[80];
    say_case(of, sizeof of);
    int n = snprintf(said, sizeof said, PROGRAM ": --seed %llu --only %llu: %s: a byte outside was touched (signal %d)\n",
                     (unsigned long long)seed, (unsigned long long)number, of, by);
    _exit(write(1, said, (size_t)n) == n ? 1 : 2);
}

/* The last line, and the status. */
static int last_line(const char *const *names, const uint64_t *made, int families)
{
    uint64_t ran = 0;
    for (int k = 0; k < families; k++) ran += made[k];
    printf(PROGRAM ": %llu " CASES_ARE " (", (unsigned long long)ran);
    for (int k = 0; k < families; k++) printf("%s%llu %s", k ? ", " : "", (unsigned long long)made[k], names[k]);
    printf("), %llu answers compared, %llu differences, seed %llu\n", (unsigned long long)compared, (unsigned long long)differences,
           (unsigned long long)seed);
    return differences != 0;
}

#endif
