/* An AVC444 payload read by request E1's words alone, for wire.c and write.c. A position moves from the front to the back, one
   number after the other, and stops at the first number that its stream does not have: no length is ever worked out from a count.

   read_payload() answers what the words say. In a refusal everything but the number is 0. A reader other than AS_ASKED has one mistake,
   and the self-test shows that the mistake is seen. */
#ifndef WIRE_READER_H
#define WIRE_READER_H

#include <stdint.h>
#include <stdio.h>
#include <stdlib.h>

enum { LONGEST = 1 << 16, MOST_RECTANGLES = LONGEST / 8 };

enum reader {
    AS_ASKED,
    SIZE_BIG_ENDIAN, SIZE_31_BITS, SIZE_WITH_HEADER, SIZE_FREE_IN_ONE, ONE_CUT_AT_SIZE, KIND_LOW, ONES_EXCHANGED, SECOND_FROM_SIZE,
    SECOND_UNTESTED, PAIRS_FIRST, RECTANGLES_ALONE, COUNT_16_BITS, COUNT_29_BITS, DATA_NOT_EMPTY, NUMBERS_BIG_ENDIAN, SIDES_EXCHANGED,
    QUANTISER_7_BITS, FLAGS_EXCHANGED, QUALITY_FIRST, TEN_BEFORE_NINE, NINE_BEFORE_EIGHT, EIGHT_BEFORE_SHORT, KIND_IN_REFUSAL,
    LENGTH_32_BITS, READERS
};

static const char *const reader_names[READERS] = {
    "as asked", "big-endian size", "31 bits of size", "size that counts its own four bytes", "size not tested in kinds 1 and 2",
    "kinds 1 and 2 cut at the size", "kind from the low bits", "kinds 1 and 2 exchanged", "second stream from size instead of 4 + size",
    "second stream not tested", "pairs before rectangles", "room for count x 8 bytes only", "16 bits of count", "29 bits of count",
    "H.264 bytes wanted", "big-endian rectangles", "right and bottom exchanged", "quantiser with 7 bits", "flags exchanged",
    "quality before quantiser", "10 before 9", "9 for the size before 8", "8 before 9 in a short payload", "kind kept in a refusal",
    "32 bits of the payload's length"};

/* A stream: where its parts are, and what they hold. */
typedef struct {
    uint64_t count, rects, pairs, data, length;
    uint16_t rectangle[MOST_RECTANGLES][4];
    struct { uint8_t value, reserved, progressive, quality; } pair[MOST_RECTANGLES];
} Part;

typedef struct {
    uint32_t number, kind;
    Part part[2]; /* luma, chroma */
} Reading;

/* Bytes to be read: from place to below end. */
typedef struct {
    const uint8_t *bytes;
    uint64_t place, end;
} Ahead;

/* Takes a little-endian number of so many bytes, if they are there. */
static int take(Ahead *ahead, unsigned bytes, uint32_t *number)
{
    if (ahead->place > ahead->end || ahead->end - ahead->place < bytes) return 0;
    *number = 0;
    for (unsigned k = 0; k < bytes; k++) *number |= (uint32_t)ahead->bytes[ahead->place++] << 8 * k;
    return 1;
}

/* There is room for what is kept of rectangle i, or the program ends. */
static void room_for(uint64_t i)
{
    if (i < MOST_RECTANGLES) return;
    fprintf(stderr, "wire: a case has more rectangles than the other reader keeps\n");
    exit(2);
}

static int take_rectangles(Ahead *ahead, Part *part, enum reader how)
{
    part->rects = ahead->place;
    for (uint64_t i = 0; i < part->count; i++)
        for (unsigned side = 0; side < 4; side++) {
            uint32_t number;
            if (!take(ahead, 2, &number)) return 0;
            room_for(i);
            if (how == NUMBERS_BIG_ENDIAN) number = (number & 255) << 8 | number >> 8;
            part->rectangle[i][how == SIDES_EXCHANGED && side > 1 ? 5 - side : side] = (uint16_t)number;
        }
    return 1;
}

static int take_pairs(Ahead *ahead, Part *part, enum reader how)
{
    part->pairs = ahead->place;
    for (uint64_t i = 0; i < part->count; i++) {
        uint32_t quantiser, quality;
        if (!take(ahead, 1, &quantiser) || !take(ahead, 1, &quality)) return how == RECTANGLES_ALONE;
        room_for(i);
        if (how == QUALITY_FIRST) {
            uint32_t first = quantiser;
            quantiser = quality;
            quality = first;
        }
        part->pair[i].value = quantiser & (how == QUANTISER_7_BITS ? 127 : 63);
        part->pair[i].reserved = quantiser >> (how == FLAGS_EXCHANGED ? 7 : 6) & 1;
        part->pair[i].progressive = quantiser >> (how == FLAGS_EXCHANGED ? 6 : 7) & 1;
        part->pair[i].quality = (uint8_t)quality;
    }
    return 1;
}

/* A count, that many rectangles, that many pairs, and the H.264 bytes to the stream's end. */
static int take_stream(Ahead *ahead, Part *part, enum reader how)
{
    uint32_t count;
    if (!take(ahead, 4, &count)) return 0;
    part->count = how == COUNT_16_BITS ? count & 0xFFFF : how == COUNT_29_BITS ? count & 0x1FFFFFFF : count;
    int there = how == PAIRS_FIRST ? take_pairs(ahead, part, how) && take_rectangles(ahead, part, how)
                                   : take_rectangles(ahead, part, how) && take_pairs(ahead, part, how);
    part->data = ahead->place;
    part->length = ahead->end - ahead->place;
    return there && (how != DATA_NOT_EMPTY || part->length > 0);
}

static void nothing(Part *part)
{
    part->count = part->rects = part->pairs = part->data = part->length = 0;
}

static void refuse(Reading *r, uint32_t number, enum reader how)
{
    r->number = number;
    if (how != KIND_IN_REFUSAL) r->kind = 0;
    nothing(&r->part[0]);
    nothing(&r->part[1]);
}

/* The streams of a kind. In kind 0 the second is what follows the first; in the others the one runs to the payload's end. */
static int take_streams(Ahead *ahead, Reading *r, uint64_t size, uint64_t length, enum reader how)
{
    uint64_t cut = 4 + size < length ? 4 + size : length;
    unsigned one = r->kind == (how == ONES_EXCHANGED ? 1 : 2);
    nothing(&r->part[0]);
    nothing(&r->part[1]);
    if (r->kind != 0) {
        ahead->end = how == ONE_CUT_AT_SIZE ? cut : length;
        return take_stream(ahead, &r->part[one], how);
    }
    ahead->end = cut;
    if (!take_stream(ahead, &r->part[0], how)) return 0;
    ahead->place = how == SECOND_FROM_SIZE ? size : cut;
    ahead->end = length;
    if (take_stream(ahead, &r->part[1], how)) return 1;
    nothing(&r->part[1]);
    return how == SECOND_UNTESTED;
}

static void read_payload(const uint8_t *bytes, uint64_t length, enum reader how, Reading *r)
{
    if (how == LENGTH_32_BITS) length = (uint32_t)length;
    Ahead ahead = {bytes, 0, length};
    uint32_t first;
    r->kind = 0;
    if (!take(&ahead, 4, &first)) {
        refuse(r, how == EIGHT_BEFORE_SHORT && length > 0 && bytes[length - 1] >= 192 ? 8 : 9, how);
        return;
    }
    uint32_t swapped = first >> 24 | (first >> 8 & 0xFF00) | (first << 8 & 0xFF0000) | first << 24;
    uint64_t size = (how == SIZE_BIG_ENDIAN ? swapped : first) & (how == SIZE_31_BITS ? 0x7FFFFFFF : 0x3FFFFFFF);
    r->kind = how == KIND_LOW ? first & 3 : first >> 30;
    r->number = 0;
    int past = size > length - (how == SIZE_WITH_HEADER ? 0 : 4) && (how != SIZE_FREE_IN_ONE || r->kind == 0);
    if (how == NINE_BEFORE_EIGHT && past)
        refuse(r, 9, how);
    else if (r->kind == 3)
        refuse(r, 8, how);
    else if (past && how != TEN_BEFORE_NINE)
        refuse(r, 9, how);
    else if (!take_streams(&ahead, r, size, length, how))
        refuse(r, 10, how);
    else if (past)
        refuse(r, 9, how);
}

#endif
