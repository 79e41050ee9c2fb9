/* refusals_wire: each number of the reader of AVC444 payloads at the edge where it begins: 9, 8, 9 and 10, in this order, and 6 of the copy. */
#ifndef STORED_REFUSALS_WIRE_H
#define STORED_REFUSALS_WIRE_H

#include "wire.h"

static void places_words(const char *name, const haythaw_stream *x)
{
    printf(", %s %zu %zu %zu %zu %zu", name, x->count, x->rects, x->pairs, x->data, x->length);
}

static void lengths_words(const haythaw_stream *x)
{
    printf(" %zu %zu %zu", x->pairs - x->rects, x->data - x->pairs, x->length);
}

/* Number, kind and where the parts are; then, asked again, the number and how many bytes each part has. */
static void read_words(const Args *a)
{
    const Result r = asked(READ, a), again = asked(READ, a);
    printf("%lu %lu", (unsigned long)r.number, (unsigned long)r.kind);
    places_words("luma", &r.luma);
    places_words("chroma", &r.chroma);
    printf(", parts %lu", (unsigned long)again.number);
    lengths_words(&again.luma);
    printf(",");
    lengths_words(&again.chroma);
}

static void four_words(const Result *r, unsigned first, unsigned second, unsigned third, unsigned fourth)
{
    printf("%lu %s %u %u %u %u", (unsigned long)r->number, r->present ? "present" : "absent", first, second, third, fourth);
}

/* The copy into the first `room` of nine numbers: all nine are written to the line. */
static void copied_words(Args *a, int which, size_t room)
{
    enum { NINE = 9 };
    lend_numbers(a, NUMBERS, NULL, NINE);
    memset(a->at[NUMBERS], NUMBER_BEFORE & 255, 2 * NINE);
    a->count[NUMBERS] = room < NINE ? room : NINE;
    const Result r = asked((enum call)(LUMA_RECTS + which), a);
    printf("%lu %zu,", (unsigned long)r.number, r.count);
    say_numbers(a->at[NUMBERS], NINE);
}

static void between_words(const Args *a, size_t from, size_t to)
{
    printf(", %zu ", to - from);
    say_between(a, PAYLOAD, from, to);
}

/* The number, and the length and checksum of the rectangles, the pairs and the H.264 bytes. */
static void parts_words(const Args *a, int which)
{
    const Result r = asked(READ, a);
    const haythaw_stream *x = stream_of(&r, which);
    printf("%lu", (unsigned long)r.number);
    between_words(a, x->rects, x->pairs);
    between_words(a, x->pairs, x->data);
    between_words(a, x->data, x->data + x->length);
}

static void call_words(Args *a, unsigned call, int which)
{
    Result r;
    switch (call) {
    case 0: read_words(a); break;
    case 1:
        r = asked((enum call)(LUMA_RECTANGLE + which), a);
        four_words(&r, r.left, r.top, r.right, r.bottom);
        break;
    case 2:
        r = asked((enum call)(LUMA_PAIR + which), a);
        four_words(&r, r.value, r.reserved, r.progressive, r.quality);
        break;
    case 3: copied_words(a, which, a->i); break;
    default: parts_words(a, which);
    }
}

/* The second field has bytes: the call; the stream, 0 for luma; the place, or how many numbers of output, where 255 is 2^64 - 1 and 254
 * is 2^63, so many rectangles or pairs as take 0 bytes in a machine word; then the payload. */
static void wire_refusal_line(char **field)
{
    Args given = {0}, a = {0};
    lend_bytes_in(&given, DATA, field[1]);
    whole(given.count[DATA] >= 3, "a case without a call");
    const uint8_t *s = given.at[DATA];
    lend_as(&a, PAYLOAD, given.count[DATA] - 3, s + 3);
    a.i = s[2] == 255 ? SIZE_MAX : s[2] == 254 ? (size_t)1 << 63 : s[2];
    printf("%s: ", field[0]);
    call_words(&a, s[0], s[1] != 0);
    const bool kept = a.count[PAYLOAD] == 0 || memcmp(a.at[PAYLOAD], s + 3, a.count[PAYLOAD]) == 0;
    printf(", %s\n", kept ? "unchanged" : "changed");
    over(READ);
}

static void refusals_wire(void)
{
    each_line(2, wire_refusal_line);
}

#endif
