/* What the runs of this folder share: random numbers, the options, and the walk over the cases with a line every five seconds. */
#ifndef RUN_H
#define RUN_H

#include <stdint.h>
#include <stdio.h>
#include <stdlib.h>
#include <string.h>
#include <time.h>

/* Random numbers: splitmix64. */
static uint64_t state;

static uint64_t any(void)
{
    uint64_t z = (state += 0x9E3779B97F4A7C15u);
    z = (z ^ z >> 30) * 0xBF58476D1CE4E5B9u;
    z = (z ^ z >> 27) * 0x94D049BB133111EBu;
    return z ^ z >> 31;
}

static uint32_t below(uint32_t n)
{
    return (uint32_t)(any() % n);
}

/* Cases in all, or seconds, or one case again. */
typedef struct { uint64_t seed, cases, seconds, only; } Options;

static uint64_t number_of(const char *program, int argc, char **argv, int at)
{
    char *end = "";
    uint64_t n = at < argc ? strtoull(argv[at], &end, 10) : 0;
    if (at >= argc || *end || !*argv[at]) {
        fprintf(stderr, "%s: %s wants a number\n", program, argv[at - 1]);
        exit(2);
    }
    return n;
}

static Options options_of(const char *program, uint64_t cases, int argc, char **argv)
{
    Options o = {1, cases, 0, UINT64_MAX};
    for (int i = 1; i < argc; i += 2) {
        uint64_t *into = !strcmp(argv[i], "--seed") ? &o.seed : !strcmp(argv[i], "--cases") ? &o.cases
                         : !strcmp(argv[i], "--seconds") ? &o.seconds : !strcmp(argv[i], "--only") ? &o.only : NULL;
        if (!into) {
            fprintf(stderr, "usage: %s [--seed N] [--cases N] [--seconds N] [--only CASE], or %s --self-test\n", program, program);
            exit(2);
        }
        *into = number_of(program, argc, argv, i + 1);
    }
    return o;
}

/* Runs the cases, and gives how many. */
static uint64_t walk(const char *program, const char *cases, Options o, const uint64_t *differences, void (*run)(uint64_t seed, uint64_t k))
{
    uint64_t ran = 0, start = o.only == UINT64_MAX ? 0 : o.only, end = o.only == UINT64_MAX ? o.cases : o.only + 1;
    time_t begun = time(NULL), shown = begun;
    for (uint64_t k = start; o.seconds ? (uint64_t)(time(NULL) - begun) < o.seconds : k < end; k++, ran++) {
        run(o.seed, k);
        if (time(NULL) - shown >= 5) {
            shown = time(NULL);
            fprintf(stderr, "%s: %llu %s, %llu differences, %ld s\n", program, (unsigned long long)ran, cases,
                    (unsigned long long)*differences, (long)(shown - begun));
        }
    }
    return ran;
}

#endif
