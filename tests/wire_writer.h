/* An AVC444 payload written by request E7's words alone, for write.c. Lengths are added in 128 bits, where no sum of them wraps. A pen
   goes from the front to the back, one number after the other; the size is how far it went for the first stream, and is put in last.

   write_payload() answers and writes what the words say. A writer other than AS_WORDED has one mistake, and the self-test shows that the
   mistake is seen. */
#ifndef WIRE_WRITER_H
#define WIRE_WRITER_H

#include <stddef.h>
#include <stdint.h>
#include <string.h>

enum writer {
    AS_WORDED,
    SIZE_LACKS_COUNT, SIZE_OF_DATA, SIZE_WITH_FIRST, SIZE_IN_TWO, NO_SIZE_IN_ONE, SIZE_OF_ALL, KIND_AT_29, KIND_AT_BOTTOM, FIRST_TURNED,
    COUNT_TURNED, RECTS_TURNED, COUNT_OF_NUMBERS, PAIRS_BEFORE_RECTS, PAIRS_OF_THE_OTHER, PAIRS_TURNED, RESERVED_CLEARED, CHROMA_FIRST,
    OTHER_STREAM, IGNORED_WRITTEN, IGNORED_COUNTS, SEVEN_FOR_IGNORED, COUNT_OF_IGNORED, SEVEN_IN_FIRST_ALONE, FOURS_ALONE, PAIRS_ALONE,
    PAIRS_TO_SPARE, KIND_THREE, KIND_2_BITS, KIND_8_BITS, SEVEN_BEFORE_EIGHT, ELEVEN_BEFORE_SEVEN, SIX_BEFORE_ELEVEN, SIX_BEFORE_SEVEN,
    ELEVEN_EARLY, ELEVEN_LATE, ELEVEN_WITH_FIRST, ELEVEN_OF_DATA, ELEVEN_BY_SIZE, ELEVEN_IN_SECOND, COUNT_UNTESTED, COUNT_EARLY,
    COUNT_IN_FIRST_ALONE, SUMS_32_BITS, SUMS_64_BITS, SIX_EARLY, SIX_LATE, SIX_BY_FIRST, BYTE_IN_REFUSAL, ANSWER_IN_REFUSAL,
    BYTE_AFTER, REST_CLEARED, ROOM_COUNTED, COUNT_LACKS_FIRST, WRITERS
};

static const char *const writer_names[WRITERS] = {
    "as worded",
    "size without the count's four bytes", "size of the H.264 bytes alone", "size that counts its own four bytes", "size in kind 2",
    "no size in kind 1", "size of both streams", "kind from bit 29 on", "kind in the low bits", "first number big-endian",
    "count big-endian", "rectangles big-endian", "count of numbers, not of fours", "pairs before rectangles",
    "pairs of the second list under the first", "quality before quantiser", "bit 6 of a quantiser cleared", "chroma before luma",
    "kind 1 with chroma and kind 2 with luma", "a stream not carried is written", "a stream not carried needs room",
    "7 for a list not carried", "11 for a count not carried", "7 for the first stream alone", "pairs not tested", "fours not tested",
    "more pairs than rectangles", "kind 3 taken", "two bits of the kind", "eight bits of the kind", "7 before 8", "11 before 7",
    "6 before 11", "6 before 7", "11 at 2^30 - 1", "11 only above 2^30", "11 with the first number's bytes", "11 for the H.264 bytes alone",
    "no 11 for the length in kind 2, whose size is 0", "11 for the length of the second stream", "count not tested",
    "11 at a count of 2^32 - 1", "count of the first stream alone tested", "sums of 32 bits", "sums of 64 bits",
    "6 for exact room", "6 only when two bytes or more lack", "room for the first stream alone", "a byte written in a refusal",
    "count in a refusal", "a byte written after the payload", "the rest of the output cleared", "the output's length as the count",
    "count without the first number"};

/* Wide enough for any sum of lengths here. */
__extension__ typedef unsigned __int128 Wide;

/* What is given for a stream: a rectangle list, its pairs and the H.264 bytes. */
typedef struct {
    const uint16_t *rects;
    const uint8_t *pairs, *data;
    uint64_t rects_count, pairs_count, data_count;
} Given;

typedef struct {
    uint32_t number;
    uint64_t count;
} Answered;

/* Where the next byte goes; past the room none does. */
typedef struct {
    uint8_t *bytes;
    uint64_t room, place;
} Pen;

static void pen_byte(Pen *pen, uint8_t byte)
{
    if (pen->place < pen->room) pen->bytes[pen->place] = byte;
    pen->place++;
}

/* A little-endian number of so many bytes, or one that is turned. */
static void pen_number(Pen *pen, unsigned bytes, uint32_t number, int turned)
{
    for (unsigned k = 0; k < bytes; k++) pen_byte(pen, (uint8_t)(number >> 8 * (turned ? bytes - 1 - k : k)));
}

/* Kind 0 has both streams, kind 1 luma (0) only, kind 2 chroma (1) only. */
static int is_carried(uint32_t kind, int which, enum writer how)
{
    if (how == OTHER_STREAM && kind) which = !which;
    return which == 0 ? kind != 2 : kind != 1;
}

static uint32_t kind_taken(uint32_t kind, enum writer how)
{
    return how == KIND_2_BITS ? kind & 3 : how == KIND_8_BITS ? kind & 255 : kind;
}

static Wide sum_of(Wide sum, enum writer how)
{
    return how == SUMS_32_BITS ? (uint32_t)sum : how == SUMS_64_BITS ? (uint64_t)sum : sum;
}

/* The bytes of a stream, its count, rectangles and pairs included. */
static Wide bytes_of(const Given *g, enum writer how)
{
    return sum_of((Wide)4 + (Wide)2 * g->rects_count + g->pairs_count + g->data_count, how);
}

/* The bytes of a payload. */
static Wide bytes_needed(uint32_t kind, const Given given[2], enum writer how)
{
    Wide bytes = 4;
    for (int which = 0; which < 2; which++) {
        if (is_carried(kind, which, how) || how == IGNORED_WRITTEN || how == IGNORED_COUNTS) bytes += bytes_of(&given[which], how);
        if (how == SIX_BY_FIRST && is_carried(kind, which, how)) break;
    }
    return sum_of(bytes, how);
}

/* Whether a list is not in fours, or does not have one pair, of two bytes, for each rectangle. */
static int is_uneven(const Given *g, enum writer how)
{
    Wide pairs = (Wide)2 * (g->rects_count / 4);
    int fours = g->rects_count % 4 == 0 || how == PAIRS_ALONE;
    return !fours || !(g->pairs_count == pairs || how == FOURS_ALONE || (how == PAIRS_TO_SPARE && g->pairs_count > pairs));
}

/* Whether the first stream carried is 2^30 bytes or longer. */
static int is_long(uint32_t kind, const Given *first, enum writer how)
{
    Wide bytes = how == ELEVEN_OF_DATA ? first->data_count : bytes_of(first, how);
    Wide least = ((Wide)1 << 30) + (how == ELEVEN_LATE ? 1 : 0) - (how == ELEVEN_EARLY ? 1 : how == ELEVEN_WITH_FIRST ? 4 : 0);
    return bytes >= least && !(how == ELEVEN_BY_SIZE && kind == 2);
}

/* Whether a rectangle count does not fit in 32 bits. */
static int is_count_large(const Given *g, enum writer how)
{
    return g->rects_count / 4 >= ((uint64_t)1 << 32) - (how == COUNT_EARLY ? 1 : 0) && how != COUNT_UNTESTED;
}

/* 8, then 7, then 11, then 6, or 0. */
static uint32_t number_for(uint32_t kind, const Given given[2], uint64_t room, enum writer how)
{
    enum { KIND, LISTS_WRONG, TOO_LONG, NO_ROOM, REFUSALS };
    static const uint32_t numbers[REFUSALS] = {8, 7, 11, 6};
    kind = kind_taken(kind, how);
    const Given *first = is_carried(kind, 0, how) ? &given[0] : &given[1];
    Wide needed = bytes_needed(kind, given, how) + (how == SIX_EARLY ? 1 : 0) - (how == SIX_LATE ? 1 : 0);
    int holds[REFUSALS] = {kind > (how == KIND_THREE ? 3 : 2), 0, is_long(kind, first, how), room < needed};
    for (int which = 0; which < 2; which++) {
        const Given *g = &given[which];
        int carried = is_carried(kind, which, how);
        holds[LISTS_WRONG] |= (how == SEVEN_IN_FIRST_ALONE ? g == first : carried || how == SEVEN_FOR_IGNORED) && is_uneven(g, how);
        holds[TOO_LONG] |= (how == COUNT_IN_FIRST_ALONE ? g == first : carried || how == COUNT_OF_IGNORED) && is_count_large(g, how);
        holds[TOO_LONG] |= how == ELEVEN_IN_SECOND && carried && is_long(kind, g, how);
    }
    if (how == SEVEN_BEFORE_EIGHT && holds[LISTS_WRONG]) return 7;
    if (how == ELEVEN_BEFORE_SEVEN && !holds[KIND] && holds[TOO_LONG]) return 11;
    if (how == SIX_BEFORE_ELEVEN && !holds[KIND] && !holds[LISTS_WRONG] && holds[NO_ROOM]) return 6;
    if (how == SIX_BEFORE_SEVEN && !holds[KIND] && holds[NO_ROOM]) return 6;
    for (int k = 0; k < REFUSALS; k++)
        if (holds[k]) return numbers[k];
    return 0;
}

static void pen_rects(Pen *pen, const Given *g, enum writer how)
{
    for (uint64_t k = 0; k < g->rects_count; k++) pen_number(pen, 2, g->rects[k], how == RECTS_TURNED);
}

static void pen_pairs(Pen *pen, const Given *g, enum writer how)
{
    for (uint64_t k = 0; k < g->pairs_count; k++) {
        uint8_t byte = g->pairs[how == PAIRS_TURNED && g->pairs_count % 2 == 0 ? k ^ 1 : k];
        pen_byte(pen, how == RESERVED_CLEARED && k % 2 == 0 ? byte & 0xBF : byte);
    }
}

/* A count, that many rectangles of four numbers, that many pairs, and the H.264 bytes. */
static void pen_stream(Pen *pen, const Given *g, const Given *other, enum writer how)
{
    const Given *pairs = how == PAIRS_OF_THE_OTHER && other->pairs_count == g->pairs_count ? other : g;
    pen_number(pen, 4, (uint32_t)(how == COUNT_OF_NUMBERS ? g->rects_count : g->rects_count / 4), how == COUNT_TURNED);
    if (how == PAIRS_BEFORE_RECTS) pen_pairs(pen, pairs, how);
    pen_rects(pen, g, how);
    if (how != PAIRS_BEFORE_RECTS) pen_pairs(pen, pairs, how);
    for (uint64_t k = 0; k < g->data_count; k++) pen_byte(pen, g->data[k]);
}

/* The payload; gives how far the pen went. */
static uint64_t pen_payload(Pen *pen, uint32_t kind, const Given given[2], enum writer how)
{
    uint64_t size = 0, before_data = 0;
    pen_number(pen, 4, 0, 0);
    for (int k = 0; k < 2; k++) {
        int which = how == CHROMA_FIRST && kind == 0 ? !k : k;
        if (!is_carried(kind, which, how) && how != IGNORED_WRITTEN) continue;
        pen_stream(pen, &given[which], &given[kind == 0 ? !which : which], how);
        if (k == 0 || how == SIZE_OF_ALL || (kind == 2 && how == SIZE_IN_TWO)) size = pen->place - 4;
        if (k == 0) before_data = size - given[which].data_count;
    }
    if (how == SIZE_LACKS_COUNT && size) size -= 4;
    if (how == SIZE_OF_DATA) size -= before_data;
    if (how == SIZE_WITH_FIRST) size += 4;
    if ((how == NO_SIZE_IN_ONE && kind == 1) || (kind == 2 && how != SIZE_IN_TWO)) size = 0;
    uint32_t first = how == KIND_AT_BOTTOM ? (uint32_t)size << 2 | kind : (uint32_t)size | kind << (how == KIND_AT_29 ? 29 : 30);
    pen_number(&(Pen){pen->bytes, pen->room, 0}, 4, first, how == FIRST_TURNED);
    return pen->place;
}

/* What the call answers and does to an output of so many bytes. */
static Answered write_payload(uint32_t kind, const Given given[2], uint8_t *out, uint64_t room, enum writer how)
{
    Answered a = {number_for(kind, given, room, how), 0};
    Pen pen = {out, room, 0};
    kind = kind_taken(kind, how);
    if (a.number) {
        if (how == BYTE_IN_REFUSAL && room) out[0] ^= 1;
        if (how == ANSWER_IN_REFUSAL) a.count = (uint64_t)bytes_needed(kind, given, how);
        return a;
    }
    a.count = pen_payload(&pen, kind, given, how);
    if (how == BYTE_AFTER && a.count < room) out[a.count] ^= 1;
    if (how == REST_CLEARED) memset(out + a.count, 0, room - a.count);
    if (how == ROOM_COUNTED) a.count = room;
    if (how == COUNT_LACKS_FIRST) a.count -= 4;
    return a;
}

#endif
