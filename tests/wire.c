/* The reader of the AVC444 payload in the library beside another one, written from request E1's words alone (wire_reader.h).

   A case is a payload (wire_payloads.h) in memory that ends where a page begins that nothing may touch, or begins where one ends. The
   library reads it, answers rectangles and pairs of both streams at places inside and outside them, and copies the rectangles of both
   into outputs that are exact, one number short, longer, empty and null, each before such a page too. Every field of every answer, and
   every byte of every output and around it, is compared with what the other reader says; the payload has to be as it was.

       wire [--seed N] [--cases N] [--seconds N] [--only CASE]
       wire --self-test      each wrong reader, each altered field or byte and a touch of each page beside a buffer has to be noticed

   The last line has the payloads of each family, the answers compared, the differences and the seed. The status is 1 if there is a
   difference, and the smallest payload that shows one is printed. */
#define _DEFAULT_SOURCE
#include <signal.h>
#include <stdbool.h>
#include <stdint.h>
#include <stdio.h>
#include <stdlib.h>
#include <string.h>
#include <unistd.h>

#define PROGRAM "wire"
#define CASES_ARE "payloads"
#include "haythaw.h"
#include "pages.h"
#include "run.h"
#include "wire_reader.h"
#include "wire_payloads.h"
#include "tally.h"

enum { AROUND = 8, PLACES = 11, ROOM = 2 * LONGEST };

enum call { READ, RECTANGLE, PAIR, COPY, PAYLOAD, WRITTEN, AFTER, BEFORE, ALTERABLE };
static const Alterable alterable[ALTERABLE] = {
    AN_ANSWER_OF_READ,
    {"a rectangle", 6,
     {offsetof(haythaw_rectangle, number), offsetof(haythaw_rectangle, present), offsetof(haythaw_rectangle, left),
      offsetof(haythaw_rectangle, top), offsetof(haythaw_rectangle, right), offsetof(haythaw_rectangle, bottom)}},
    {"a pair", 6,
     {offsetof(haythaw_pair, number), offsetof(haythaw_pair, present), offsetof(haythaw_pair, value), offsetof(haythaw_pair, reserved),
      offsetof(haythaw_pair, progressive), offsetof(haythaw_pair, quality)}},
    AN_ANSWER("a copy's answer"),
    {"a byte of the payload", 1, {0}},
    {"a number written", 1, {0}},
    {"a number after those written", 1, {0}},
    {"a number before the output", 1, {0}}};

static Payload payload, smallest;
static Reading expected;
static uint8_t *lent, *output, *far; /* ROOM bytes each, and FAR, between pages that nothing may touch */
static const uint8_t *at;            /* where the payload lies */
static const size_t FAR = (size_t)1 << 33;
static uint64_t made[FAMILIES], answered[11];
static enum reader how;

static int say_case(char *to, size_t room)
{
    return snprintf(to, room, "%zu bytes", payload.length);
}

/* The byte that a truth value is, which has to be 0 or 1. */
static uint8_t byte_of(const bool *truth)
{
    uint8_t byte;
    memcpy(&byte, truth, 1);
    return byte;
}

typedef haythaw_rectangle Rectangle(const uint8_t *, size_t, size_t);
typedef haythaw_pair Pair(const uint8_t *, size_t, size_t);
typedef haythaw_answer Rects(const uint8_t *, size_t, uint16_t *, size_t);

static void same_rectangle(Rectangle *call, const Part *p, const char *which, size_t i)
{
    static const uint16_t none[4];
    const uint16_t *r = i < p->count ? p->rectangle[i] : none;
    haythaw_rectangle got = call(at, payload.length, i);
    compared++;
    alter(&alterable[RECTANGLE], &got);
    same(got.number == expected.number && byte_of(&got.present) == (i < p->count) && got.left == r[0] && got.top == r[1]
             && got.right == r[2] && got.bottom == r[3],
         "rectangle", which, i);
}

static void same_pair(Pair *call, const Part *p, const char *which, size_t i)
{
    bool in = i < p->count;
    haythaw_pair got = call(at, payload.length, i);
    compared++;
    alter(&alterable[PAIR], &got);
    same(got.number == expected.number && byte_of(&got.present) == in && got.value == (in ? p->pair[i].value : 0)
             && byte_of(&got.reserved) == (in ? p->pair[i].reserved : 0)
             && byte_of(&got.progressive) == (in ? p->pair[i].progressive : 0) && got.quality == (in ? p->pair[i].quality : 0),
         "pair", which, i);
}

/* The rectangles copied into an output of so many numbers, which differ from place to place before the call. */
static void same_copy(Rects *call, const Part *p, const char *which, size_t numbers, bool null)
{
    uint16_t *out = (uint16_t *)(void *)(output + ROOM) - numbers, salt = (uint16_t)any();
    size_t needed = 4 * p->count, written = expected.number || needed > numbers ? 0 : needed;
    uint32_t refusal = expected.number ? expected.number : needed > numbers ? 6 : 0;
    for (size_t k = 0; k < AROUND + numbers; k++) (out - AROUND)[k] = (uint16_t)(salt + k * 40503);
    haythaw_answer got = call(at, payload.length, null ? NULL : out, numbers);
    compared++;
    alter(&alterable[COPY], &got);
    if (written) alter(&alterable[WRITTEN], &out[written - 1]);
    if (written < numbers) alter(&alterable[AFTER], &out[numbers - 1]);
    alter(&alterable[BEFORE], &out[-1]);
    bool kept = true;
    for (size_t k = 0; k < AROUND + numbers; k++)
        kept &= (k >= AROUND && k < AROUND + written) || (out - AROUND)[k] == (uint16_t)(salt + k * 40503);
    same(got.number == refusal && got.count == written, "copy's answer", which, numbers);
    same(!written || !memcmp(out, p->rectangle, 2 * written), "copy", which, numbers);
    same(kept, "copy's surroundings", which, numbers);
}

static void compare_stream(const Part *p, const char *which, Rectangle *rectangle, Pair *pair, Rects *rects)
{
    /* The last ones are inside if a number wraps or is cut to 32 bits on the way. */
    const size_t places[PLACES] = {
        0, p->count - 1, p->count, p->count + 1, p->count ? any() % p->count : any(), any(), SIZE_MAX, ((size_t)1 << 32) + below(2),
        ((size_t)1 << 61) + below(2), ((size_t)1 << 62) + below(2), ((size_t)1 << 63) + below(2)};
    for (int k = 0; k < PLACES; k++) {
        same_rectangle(rectangle, p, which, places[k]);
        same_pair(pair, p, which, places[k]);
    }
    const size_t exact = 4 * p->count;
    same_copy(rects, p, which, exact, false);
    same_copy(rects, p, which, exact + 1 + below(16), false);
    same_copy(rects, p, which, 0, false);
    same_copy(rects, p, which, 0, true);
    if (exact) same_copy(rects, p, which, exact - 1, false);
}

/* Puts the payload where this case has it: before a page that nothing may touch, one in eight after one; no bytes, half of them null. */
static void lend(void)
{
    uint8_t *to = number % 8 == 7 ? lent : lent + ROOM - payload.length;
    memcpy(to, payload.bytes, payload.length);
    at = payload.length == 0 && below(2) ? NULL : to;
}

/* The pieces of a long payload, as far as they are inside; a piece may lie on the other. */
static void lend_long(void)
{
    uint8_t *to = far + FAR - payload.length;
    memcpy(to, payload.bytes, PIECE);
    if (payload.second < payload.length) {
        size_t left = payload.length - payload.second, piece = left < PIECE ? left : PIECE;
        memcpy(to + payload.second, payload.bytes + PIECE, piece);
    }
    at = to;
}

/* Whether the payload is as it was; the pieces of a long one, which then go. */
static bool kept(void)
{
    if (payload.family != LONG) return !at || !memcmp(at, payload.bytes, payload.length);
    uint8_t *to = far + FAR - payload.length;
    bool same = true;
    for (size_t k = 0; k < PIECE; k++) {
        bool both = payload.second <= k && k < payload.second + PIECE;
        same &= to[k] == payload.bytes[both ? PIECE + k - payload.second : k];
    }
    for (size_t k = payload.second; k < payload.second + PIECE && k < payload.length; k++)
        same &= to[k] == payload.bytes[PIECE + k - payload.second];
    for (size_t k = payload.second; k < payload.second + PIECE && k < payload.length; k++) to[k] = 0;
    memset(to, 0, PIECE);
    return same;
}

static void run(uint64_t of, uint64_t which)
{
    seed = of;
    uint64_t before = differences;
    number = which;
    make(&payload, seed, number);
    if (payload.family == LONG && !far) return;
    (payload.family == LONG ? lend_long : lend)();
    read_payload(payload.family == LONG ? at : payload.bytes, payload.length, how, &expected);
    made[payload.family]++;
    answered[expected.number]++;

    haythaw_avc444 got = haythaw_avc444_read(at, payload.length);
    compared++;
    alter(&alterable[READ], &got);
    same(got.number == expected.number, "number", "", got.number);
    same(got.kind == expected.kind, "kind", "", got.kind);
    same(same_places(got.luma, &expected.part[0]), "stream", "luma's ", got.luma.count);
    same(same_places(got.chroma, &expected.part[1]), "stream", "chroma's ", got.chroma.count);
    compare_stream(&expected.part[0], "luma's ", haythaw_avc444_luma_rectangle, haythaw_avc444_luma_pair, haythaw_avc444_luma_rects);
    compare_stream(&expected.part[1], "chroma's ", haythaw_avc444_chroma_rectangle, haythaw_avc444_chroma_pair,
                   haythaw_avc444_chroma_rects);
    if (payload.length) alter(&alterable[PAYLOAD], &payload.bytes[payload.family == LONG ? 0 : payload.length - 1]);
    same(kept(), "payload itself", "the ", 0);

    if (differences == before || (differing++ && payload.length >= smallest.length)) return;
    smallest = payload;
    smallest_number = number;
}

static int self_test(void)
{
    int missed = 0, readers = 0, fields;
    quiet = true;
    for (int k = AS_ASKED + 1; k < READERS; k++) {
        how = (enum reader)k;
        if (how == LENGTH_32_BITS && !far) continue; /* only a long payload shows it */
        readers++;
        if (!noticed(ROUND)) missed++, printf("wire: a wrong reader was not noticed: %s\n", reader_names[k]);
    }
    how = AS_ASKED;
    fields = alter_each(alterable, ALTERABLE, ROUND, &missed);
    if (!traps(lent - 1) || !traps(lent + ROOM) || !traps(output + ROOM) || (far && !traps(far + FAR)) || traps(lent))
        missed++, printf("wire: a byte beside a buffer may be touched\n");
    if (!missed)
        printf("wire: %d wrong readers, %d altered answers or bytes and a touch of each page beside a buffer are noticed\n",
               readers, fields);
    return missed != 0;
}

static int summary(void)
{
    if (differing) {
        printf("wire: %llu payloads differ; the smallest, --seed %llu --only %llu, has %zu bytes:", (unsigned long long)differing,
               (unsigned long long)seed, (unsigned long long)smallest_number, smallest.length);
        for (size_t k = 0; k < (smallest.family == LONG ? PIECE : smallest.length); k++) printf(" %02x", smallest.bytes[k]);
        printf(smallest.family == LONG ? " ...\n" : "\n");
    }
    printf("wire: %llu read; refused with 8 %llu, with 9 %llu, with 10 %llu\n", (unsigned long long)answered[0],
           (unsigned long long)answered[8], (unsigned long long)answered[9], (unsigned long long)answered[10]);
    return last_line(family_names, made, FAMILIES);
}

int main(int argc, char **argv)
{
    lent = room(ROOM);
    output = room(ROOM);
    far = room(FAR);
    if (!lent || !output) return 2;
    if (!far) printf("wire: long payloads are left out\n");
    signal(SIGSEGV, trapped);
    signal(SIGBUS, trapped);
    if (argc == 2 && !strcmp(argv[1], "--self-test")) return self_test();
    const Options options = options_of(PROGRAM, 1000000, argc, argv);
    walk(PROGRAM, CASES_ARE, options, &differences, run);
    return summary();
}
