/* What the writer is given in write.c: a kind and two streams, made of the seed and the case's number. A round has five families of them,
   and the next round has others:

     lists      every mix of small lists and pairs, right and wrong, in both streams: lists of 0 to 12 numbers, pairs as many as there
                are to be, one or two bytes too many, one too few, half of them, none, as many as numbers
     far        every mix of lengths about 2^30, 2^32 and 2^64 and small ones, over memory that nothing may touch, for a refusal reads
                and writes nothing; some lengths are such that no memory has them, and there a sum of 64 bits would wrap
     parts      up to 40 rectangles and 300 H.264 bytes in a stream, seldom over 1,000 rectangles; now and then a list or pairs are wrong
     payloads   the payloads of wire_payloads.h one after the other, to be read and written back; a good one in place of a long one
     good       good payloads whose size is the standard's

   In the first three some kinds are above 2. The parts of a stream that is not carried are good, or wrong, or of any length at all over
   memory that nothing may touch. */
#ifndef WIRE_GIVEN_H
#define WIRE_GIVEN_H

#include <stdbool.h>
#include <stddef.h>
#include <stdint.h>

#include "run.h"
#include "wire_payloads.h"
#include "wire_writer.h"

enum source { LISTS, FAR, PARTS, PAYLOADS, GOOD, SOURCES };
static const char *const source_names[SOURCES] = {"lists", "far", "parts", "payloads", "good payloads"};

/* A case. Where a stream is not there, its lengths are lent over memory that nothing may touch. */
typedef struct {
    enum source source;
    uint32_t kind;
    Given given[2]; /* luma, chroma; the pointers are to what follows */
    bool there[2];
    uint16_t rects[2][LONGEST / 2];
    uint8_t pairs[2][LONGEST], data[2][LONGEST];
} Case;

static const uint32_t kinds_above[] = {
    3, 4, 5, 6, 7, 8, 255, 256, 257, 258, 65536, 65537, 1u << 29, 1u << 30, (1u << 30) + 1, 1u << 31, (1u << 31) + 1, (1u << 31) + 2,
    UINT32_MAX - 3, UINT32_MAX - 2, UINT32_MAX - 1, UINT32_MAX};

/* Lengths of a stream for the far family: numbers of the list, bytes of the pairs, H.264 bytes. */
#define E30 ((uint64_t)1 << 30)
#define E32 ((uint64_t)1 << 32)
#define E62 ((uint64_t)1 << 62)
#define RECTANGLES(n) 4 * (n), 2 * (n) /* a list and its pairs */
static const struct { uint64_t rects, pairs, data; } far_sizes[] = {
    /* small; wrong and small */
    {RECTANGLES(0), 0}, {RECTANGLES(1), 1}, {RECTANGLES(3), 100}, {5, 2, 0}, {4, 1, 0}, {8, 2, 9}, {0, 2, 0}, {3, 0, 0},
    /* about 2^30, by the H.264 bytes alone, with one rectangle, and by rectangles: 107,374,182 of them have 2^30 - 4 bytes */
    {RECTANGLES(0), E30 - 9}, {RECTANGLES(0), E30 - 8}, {RECTANGLES(0), E30 - 6}, {RECTANGLES(0), E30 - 5}, {RECTANGLES(0), E30 - 4},
    {RECTANGLES(0), E30 - 3}, {RECTANGLES(0), E30 - 1}, {RECTANGLES(0), E30}, {RECTANGLES(1), E30 - 15}, {RECTANGLES(1), E30 - 14},
    {RECTANGLES((uint64_t)107374181), 8}, {RECTANGLES((uint64_t)107374181), 9}, {RECTANGLES((uint64_t)107374181), 10},
    {RECTANGLES((uint64_t)107374182), 0}, {RECTANGLES((uint64_t)107374183), 0}, {RECTANGLES(E30 / 8), 0}, {RECTANGLES(E30 / 4), 0},
    /* wrong and long */
    {4 * (uint64_t)107374182 + 1, 2 * (uint64_t)107374182, 0}, {4 * (uint64_t)107374182, 2 * (uint64_t)107374182 + 1, 0}, {2, 0, E30},
    {4, 4, E30}, {4 * E32, 2 * E32 - 2, 0}, {4 * E32 + 2, 2 * E32, 0}, {4 * E32, 0, 0}, {0, E32, 0}, {4, E32 + 2, 0}, {E32 + 4, 2, 0},
    /* small if cut to 32 bits */
    {RECTANGLES(0), E32 - 8}, {RECTANGLES(0), E32 - 4}, {RECTANGLES(0), E32}, {RECTANGLES(0), E32 + 100}, {RECTANGLES(E32 / 4), 0},
    {RECTANGLES(E32 / 2), 20},
    /* counts about 2^32 */
    {RECTANGLES(E32 - 2), 0}, {RECTANGLES(E32 - 1), 0}, {RECTANGLES(E32 - 1), 77}, {RECTANGLES(E32), 0}, {RECTANGLES(E32 + 1), 3},
    {RECTANGLES(2 * E32), 0}, {RECTANGLES(E32 * E32 / 16), 0},
    /* sums about 2^64: small if cut to 64 bits */
    {RECTANGLES(0), UINT64_MAX}, {RECTANGLES(0), UINT64_MAX - 2}, {RECTANGLES(0), UINT64_MAX - 3}, {RECTANGLES(0), UINT64_MAX - 4},
    {RECTANGLES(0), UINT64_MAX - 7}, {RECTANGLES(0), UINT64_MAX - 11}, {RECTANGLES(0), UINT64_MAX / 2}, {RECTANGLES(1), UINT64_MAX - 13},
    {RECTANGLES(1), UINT64_MAX - 17}, {RECTANGLES(E32 - 1), UINT64_MAX - 10 * (E32 - 1)}, {RECTANGLES(E32 - 1), UINT64_MAX - 10 * E32},
    {RECTANGLES(E62 / 2), 0}, {RECTANGLES(E62 / 2), UINT64_MAX - E62}, {RECTANGLES(E62 - 1), 0}, {RECTANGLES(E62 - 1), UINT64_MAX},
    {UINT64_MAX, UINT64_MAX, UINT64_MAX}};

enum {
    KINDS_ABOVE = sizeof kinds_above / sizeof *kinds_above,
    FAR_SIZES = sizeof far_sizes / sizeof *far_sizes,
    LIST_LENGTHS = 13, PAIR_LENGTHS = 7, STREAM_LISTS = LIST_LENGTHS * PAIR_LENGTHS,
    LIST_CASES = STREAM_LISTS * STREAM_LISTS * 4, FAR_CASES = FAR_SIZES * FAR_SIZES * 4,
    CASES = 120000, /* of a round */
    OTHER_CASES = CASES - LIST_CASES - FAR_CASES
};

static uint32_t kind_of(uint64_t k)
{
    return k < 3 ? (uint32_t)k : kinds_above[below(KINDS_ABOVE)];
}

/* The pairs of a list of so many numbers: right where k is 0. */
static uint64_t pairs_of(uint64_t rects, uint64_t k)
{
    uint64_t n = rects / 4;
    const uint64_t lengths[PAIR_LENGTHS] = {2 * n, 2 * n + 1, n ? 2 * n - 1 : 3, n, 0, rects, 2 * n + 2};
    return lengths[k];
}

static void set_lengths(Given *g, uint64_t rects, uint64_t pairs, uint64_t data)
{
    g->rects_count = rects;
    g->pairs_count = pairs;
    g->data_count = data;
}

static void make_lists(Case *c, uint64_t k)
{
    c->kind = kind_of(k % 4);
    k /= 4;
    for (int which = 0; which < 2; which++, k /= STREAM_LISTS) {
        uint64_t rects = k % LIST_LENGTHS;
        set_lengths(&c->given[which], rects, pairs_of(rects, k / LIST_LENGTHS % PAIR_LENGTHS), below(6));
    }
}

static void make_far(Case *c, uint64_t k)
{
    c->kind = kind_of(k % 4);
    k /= 4;
    for (int which = 0; which < 2; which++, k /= FAR_SIZES) {
        uint64_t i = k % FAR_SIZES;
        set_lengths(&c->given[which], far_sizes[i].rects, far_sizes[i].pairs, far_sizes[i].data);
        c->there[which] = false;
    }
}

static void make_parts(Case *c)
{
    uint64_t n = 0;
    int many = below(256) == 0;
    c->kind = kind_of(below(16) ? below(3) : 3);
    for (int which = 0; which < 2; which++) {
        if (which == 0 || below(4)) n = many ? 1000 + below(400) : below(2) ? below(5) : below(41); /* or as many as in luma */
        uint64_t rects = 4 * n + (below(12) ? 0 : 1 + below(3));
        set_lengths(&c->given[which], rects, pairs_of(rects, below(12) ? 0 : below(PAIR_LENGTHS)), below(8) ? below(301) : 0);
    }
}

/* A stream that is not carried may have any lengths, where nothing may touch it. */
static void make_untouchable(Given *g)
{
    set_lengths(g, below(2) ? any() : below(50), below(2) ? any() : below(50), below(2) ? any() : below(50));
}

/* The payload of a case that begins with one. */
static void make_payload(Payload *p, enum source source, uint64_t seed, uint64_t k)
{
    if (source == PAYLOADS) make(p, seed, k);
    if (source == PAYLOADS && p->family != LONG) return;
    uint32_t kind = below(3);
    Shape s = {kind, {below(41), below(41)}, {below(301), below(301)}, kind == 2 ? ZERO : STANDARD};
    make_good(p, &s);
}

/* Everything but what the payload of a case decides: the kind, and the streams that it carries. */
static void make_case(Case *c, Payload *p, uint64_t seed, uint64_t number)
{
    uint64_t round = number / CASES, k = number % CASES;
    for (int which = 0; which < 2; which++) {
        c->given[which] = (Given){c->rects[which], c->pairs[which], c->data[which], 0, 0, 0};
        c->there[which] = true;
    }
    c->kind = 0;
    state = seed * 0xD1342543DE82EF95u + number;
    if (k < LIST_CASES) {
        c->source = LISTS;
        make_lists(c, k);
    } else if ((k -= LIST_CASES) < FAR_CASES) {
        c->source = FAR;
        make_far(c, k);
        return;
    } else {
        k -= FAR_CASES;
        c->source = k % 3 == 0 ? PARTS : k % 3 == 1 ? PAYLOADS : GOOD;
        if (c->source == PARTS)
            make_parts(c);
        else
            make_payload(p, c->source, seed, round * (OTHER_CASES / 3 + 1) + k / 3);
    }
    state = (seed * 0xAF251AF3B0F025B5u + number) * 0xD1342543DE82EF95u;
}

#endif
