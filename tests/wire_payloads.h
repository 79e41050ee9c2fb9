/* The payloads of wire.c and write.c, each made of the seed and its number. A round has six kinds of them, and the next round has others:

     prefixes      every prefix of good payloads, of 0 bytes to the whole
     changes       every change of one byte of good payloads, to each of the 255 other values
     boundaries    good payloads, one byte shorter or longer or neither, whose size, kind and one count have every mix of boundary values
     long          2^30 to 2^33 bytes, nearly all of them 0, with sizes to 2^30 - 1 and few rectangles
     altered       good payloads of up to 40 rectangles in a stream, seldom over 1,000: as they are, or bits altered, or cut, or lengthened
     random        0 to 64 random bytes whose first number, and mostly the counts, are plausible */
#ifndef WIRE_PAYLOADS_H
#define WIRE_PAYLOADS_H

#include <stddef.h>
#include <stdint.h>
#include <string.h>

#include "run.h"

enum family { PREFIXES, CHANGES, BOUNDARIES, LONG, ALTERED, RANDOM, FAMILIES };
static const char *const family_names[FAMILIES] = {"prefixes", "changes of one byte", "boundaries", "long", "altered", "random"};

/* What a good payload is like: its kind, the rectangles and the H.264 bytes of its streams in their order on the wire, and, where
   there is one stream, what the size says, which may be anything up to the payload's end. */
enum said { STANDARD, ZERO, WITHIN };
typedef struct {
    uint32_t kind, count[2], data[2];
    enum said said;
} Shape;

static const Shape prefix_shapes[] = {
    {0, {0, 0}, {0, 0}, STANDARD}, {0, {1, 1}, {0, 0}, STANDARD}, {0, {2, 3}, {5, 0}, STANDARD}, {0, {0, 4}, {7, 30}, STANDARD},
    {0, {5, 0}, {0, 9}, STANDARD}, {0, {40, 17}, {33, 64}, STANDARD},
    {1, {0}, {0}, STANDARD}, {1, {1}, {3}, STANDARD}, {1, {4}, {20}, ZERO}, {1, {9}, {0}, WITHIN}, {1, {40}, {50}, ZERO},
    {2, {0}, {0}, ZERO}, {2, {1}, {3}, STANDARD}, {2, {4}, {20}, ZERO}, {2, {9}, {0}, WITHIN}, {2, {40}, {50}, ZERO}};
static const Shape change_shapes[] = {
    {0, {0, 0}, {0, 0}, STANDARD}, {0, {1, 1}, {1, 2}, STANDARD}, {0, {0, 1}, {10, 0}, STANDARD}, {0, {2, 0}, {0, 10}, STANDARD},
    {1, {0}, {4}, STANDARD}, {1, {1}, {3}, ZERO}, {1, {2}, {10}, WITHIN}, {2, {0}, {4}, ZERO}, {2, {1}, {3}, STANDARD},
    {2, {2}, {10}, WITHIN}};
static const Shape boundary_shapes[] = {
    {0, {0, 0}, {0, 0}, STANDARD}, {0, {2, 1}, {0, 0}, STANDARD}, {0, {1, 3}, {5, 7}, STANDARD}, {1, {3}, {0}, STANDARD},
    {2, {2}, {9}, ZERO}};

enum {
    PREFIX_SHAPES = sizeof prefix_shapes / sizeof *prefix_shapes,
    CHANGE_SHAPES = sizeof change_shapes / sizeof *change_shapes,
    BOUNDARY_SHAPES = sizeof boundary_shapes / sizeof *boundary_shapes,
    SIZES = 24, COUNTS = 25, LENGTHS = 3, KINDS = 4, LONG_LENGTHS = 19, LONG_SIZES = 7, PIECE = 64,
    ROUND = 250000
};

/* A payload, in room for a few bytes more. A long one has a piece at its front and one where its second stream would be, if that is
   inside; all else is 0. */
typedef struct {
    enum family family;
    size_t length, second;
    uint8_t bytes[LONGEST]; /* of a long one, the two pieces */
} Payload;

static void fill(uint8_t *at, size_t n)
{
    for (; n >= 8; at += 8, n -= 8) {
        uint64_t z = any();
        memcpy(at, &z, 8);
    }
    for (; n; n--) *at++ = (uint8_t)any();
}

static void put(uint8_t *at, uint32_t number)
{
    for (int k = 0; k < 4; k++) at[k] = (uint8_t)(number >> 8 * k);
}

static size_t stream_length(const Shape *s, int which)
{
    return 4 + (size_t)10 * s->count[which] + s->data[which];
}

static size_t shape_length(const Shape *s)
{
    return 4 + stream_length(s, 0) + (s->kind == 0 ? stream_length(s, 1) : 0);
}

/* A good payload of a shape; what it holds is random. */
static void make_good(Payload *p, const Shape *s)
{
    size_t first = stream_length(s, 0);
    p->length = shape_length(s);
    fill(p->bytes, p->length);
    uint32_t size = (uint32_t)(s->said == STANDARD ? first : s->said == ZERO ? 0 : below((uint32_t)first + 1));
    put(p->bytes, size | s->kind << 30);
    put(p->bytes + 4, s->count[0]);
    if (s->kind == 0) put(p->bytes + 4 + first, s->count[1]);
}

static void make_prefix(Payload *p, const Shape *s, uint64_t k)
{
    make_good(p, s);
    p->length = k;
}

static void make_change(Payload *p, const Shape *s, uint64_t k)
{
    make_good(p, s);
    p->bytes[k / 255] = (uint8_t)(p->bytes[k / 255] + 1 + k % 255);
}

static uint64_t boundaries_of(const Shape *s)
{
    return (uint64_t)SIZES * COUNTS * LENGTHS * KINDS * (s->kind == 0 ? 2 : 1);
}

static void make_boundary(Payload *p, const Shape *s, uint64_t k)
{
    make_good(p, s);
    fill(p->bytes + p->length, 1);
    p->length = p->length + k % LENGTHS - 1;
    k /= LENGTHS;
    uint32_t n = (uint32_t)p->length, first = (uint32_t)stream_length(s, 0), lists = 4 + 10 * s->count[0];
    const uint32_t sizes[SIZES] = {
        0, 1, 3, 4, 5, lists - 1, lists, lists + 1, first - 1, first, first + 1, n - 5, n - 4, n - 3, n - 1, n, n + 1,
        (1u << 29) - 1, 1u << 29, (1u << 29) + 1, (1u << 30) - 5, (1u << 30) - 4, (1u << 30) - 2, (1u << 30) - 1};
    put(p->bytes, sizes[k % SIZES] | (uint32_t)(k / SIZES % KINDS) << 30);
    k /= SIZES * KINDS;
    int which = (int)(k / COUNTS);
    uint32_t c = s->count[which], room = (uint32_t)stream_length(s, which) - 4;
    const uint32_t counts[COUNTS] = {
        0, 1, c - 1, c, c + 1, room / 10, room / 10 + 1, room / 8, room / 8 + 1, 0xFFFF, 0x10000 + c, (1u << 29) - 1, 1u << 29,
        (1u << 29) + 1, (1u << 29) + c, 1u << 30, (1u << 30) + c, (1u << 31) - 1, 1u << 31, (1u << 31) + 1, (1u << 31) + c,
        UINT32_MAX / 10, UINT32_MAX / 10 + 1, UINT32_MAX - 1, UINT32_MAX};
    put(p->bytes + 4 + (which ? first : 0), counts[k % COUNTS]);
}

static void make_long(Payload *p, uint64_t k)
{
    const uint64_t most = (1u << 30) - 1, full = 4 + most, four = (uint64_t)1 << 32;
    const uint64_t lengths[LONG_LENGTHS] = {
        full - 1, full, full + 1, full + 3, full + 4, full + 5, full + 14, full + 15, full + 100, four / 2 - 1, four / 2, four / 2 + 9,
        four - 1, four, four + 3, four + 4, four + 8, four + 9, 2 * four - 1};
    const uint32_t sizes[LONG_SIZES] = {0, 4, 5, 14, 1u << 29, (1u << 30) - 5, (1u << 30) - 1};
    p->length = lengths[k % LONG_LENGTHS];
    k /= LONG_LENGTHS;
    uint32_t size = sizes[k % LONG_SIZES];
    p->second = 4 + (size_t)size;
    fill(p->bytes, 2 * PIECE);
    put(p->bytes, size | (uint32_t)(k / LONG_SIZES) << 30);
    put(p->bytes + 4, below(4));
    put(p->bytes + PIECE, below(4));
}

static void make_altered(Payload *p)
{
    int many = below(256) == 0;
    Shape s = {below(3), {0, 0}, {0, 0}, (enum said)below(3)};
    if (s.kind == 0) s.said = STANDARD;
    for (int which = 0; which < 2; which++) {
        s.count[which] = many ? 1000 + below(400) : below(41);
        s.data[which] = below(201);
    }
    make_good(p, &s);
    size_t more;
    switch (below(4)) {
    case 0: break;
    case 1:
        for (uint32_t bits = 1 + below(8); bits; bits--) /* half of them near the front, where size and count are */
            p->bytes[below(below(2) ? 8 : (uint32_t)p->length)] ^= (uint8_t)(1u << below(8));
        break;
    case 2: p->length = below((uint32_t)p->length); break;
    default:
        more = 1 + below(64);
        fill(p->bytes + p->length, more);
        p->length += more;
    }
}

static void make_random(Payload *p)
{
    p->length = below(65);
    fill(p->bytes, p->length);
    if (p->length < 4 || below(8) == 0) return;
    uint32_t size = below((uint32_t)p->length), second = 4 + size;
    put(p->bytes, size | below(KINDS) << 30);
    if (p->length >= 8 && below(4)) put(p->bytes + 4, below(4));
    if (second + 4 <= p->length && below(4)) put(p->bytes + second, below(4));
}

typedef void Make(Payload *, const Shape *, uint64_t);
static uint64_t prefixes_of(const Shape *s) { return shape_length(s) + 1; }
static uint64_t changes_of(const Shape *s) { return shape_length(s) * 255; }

/* The three families that have so many payloads in a round. */
static const struct {
    const Shape *shapes;
    size_t count;
    uint64_t (*payloads)(const Shape *);
    Make *make;
} lists[] = {{prefix_shapes, PREFIX_SHAPES, prefixes_of, make_prefix},
             {change_shapes, CHANGE_SHAPES, changes_of, make_change},
             {boundary_shapes, BOUNDARY_SHAPES, boundaries_of, make_boundary}};

/* The payload of a number. Those of a list that come of one good payload find the same random numbers. */
static void make_bytes(Payload *p, uint64_t seed, uint64_t number)
{
    uint64_t round = number / ROUND, k = number % ROUND;
    for (int family = 0; family < 3; family++)
        for (size_t i = 0; i < lists[family].count; i++) {
            const Shape *s = &lists[family].shapes[i];
            if (k < lists[family].payloads(s)) {
                state = (seed * 0xD1342543DE82EF95u + round) * 0xAF251AF3B0F025B5u + (uint64_t)family * 64 + i;
                p->family = (enum family)family;
                lists[family].make(p, s, k);
                return;
            }
            k -= lists[family].payloads(s);
        }
    state = seed * 0xD1342543DE82EF95u + number;
    if (k < LONG_LENGTHS * LONG_SIZES * KINDS) {
        p->family = LONG;
        make_long(p, k);
        return;
    }
    p->family = k % 2 ? RANDOM : ALTERED;
    (k % 2 ? make_random : make_altered)(p);
}

/* The same; the random numbers that follow are the number's own. */
static void make(Payload *p, uint64_t seed, uint64_t number)
{
    make_bytes(p, seed, number);
    state = (seed * 0xAF251AF3B0F025B5u + number) * 0xD1342543DE82EF95u;
}

#endif
