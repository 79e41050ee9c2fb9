/* The AVC444 payload: every call on payloads of each kind, good ones and each refusal at its edge. What is to come out stands
 * beside each payload, by hand; a rectangle or pair is then four numbers or two bytes at the place that was worked out. */
#ifndef WIRE_H
#define WIRE_H

#include "check.h"

enum { MOST_BYTES = 47 };

/* A payload and what read is to answer. */
typedef struct {
    const char *what;
    size_t size;
    uint8_t bytes[MOST_BYTES];
    haythaw_avc444 want; /* number, kind, luma, chroma */
} Wire;

#define REFUSED(number) {number, 0, {0, 0, 0, 0, 0}, {0, 0, 0, 0, 0}}
#define NO_STREAM {0, 0, 0, 0, 0}

/* Two rectangles, two pairs and three H.264 bytes: 4 + 2 x 8 + 2 x 2 + 3 = 27 bytes. One of each and two: 16 bytes. */
#define TWO 2, 0, 0, 0, 1, 0, 2, 0, 3, 0, 4, 0, 0, 1, 255, 255, 0, 128, 128, 0, 22, 100, 255, 0, 7, 8, 9
#define ONE 1, 0, 0, 0, 5, 0, 6, 0, 7, 0, 8, 1, 0x85, 255, 11, 12

static const Wire good[] = {
    {"both streams", 47, {27, 0, 0, 0x00, TWO, ONE}, {0, 0, {2, 8, 24, 28, 3}, {1, 35, 43, 45, 2}}},
    {"both streams, the other way round", 47, {16, 0, 0, 0x00, ONE, TWO}, {0, 0, {1, 8, 16, 18, 2}, {2, 24, 40, 44, 3}}},
    {"luma alone", 31, {27, 0, 0, 0x40, TWO}, {0, 1, {2, 8, 24, 28, 3}, NO_STREAM}},
    {"chroma alone", 31, {0, 0, 0, 0x80, TWO}, {0, 2, NO_STREAM, {2, 8, 24, 28, 3}}},
    /* the size of kinds 1 and 2: anything that the payload has */
    {"luma alone, size 0", 31, {0, 0, 0, 0x40, TWO}, {0, 1, {2, 8, 24, 28, 3}, NO_STREAM}},
    {"luma alone, size 1", 31, {1, 0, 0, 0x40, TWO}, {0, 1, {2, 8, 24, 28, 3}, NO_STREAM}},
    {"luma alone, size 26", 31, {26, 0, 0, 0x40, TWO}, {0, 1, {2, 8, 24, 28, 3}, NO_STREAM}},
    {"luma alone, size 27 of 43", 47, {27, 0, 0, 0x40, TWO, ONE}, {0, 1, {2, 8, 24, 28, 19}, NO_STREAM}},
    {"chroma alone, size 4", 31, {4, 0, 0, 0x80, TWO}, {0, 2, NO_STREAM, {2, 8, 24, 28, 3}}},
    {"chroma alone, size 27", 31, {27, 0, 0, 0x80, TWO}, {0, 2, NO_STREAM, {2, 8, 24, 28, 3}}},
    {"chroma alone, size 16 of 43", 47, {16, 0, 0, 0x80, ONE, TWO}, {0, 2, NO_STREAM, {1, 8, 16, 18, 29}}},
    /* what would be a second stream with a count that is too large is H.264 bytes where there is no second stream */
    {"luma alone, bytes after it", 12, {4, 0, 0, 0x40, 0, 0, 0, 0, 255, 255, 255, 255}, {0, 1, {0, 8, 8, 8, 4}, NO_STREAM}},
    {"chroma alone, bytes after it", 12, {4, 0, 0, 0x80, 0, 0, 0, 0, 255, 255, 255, 255}, {0, 2, NO_STREAM, {0, 8, 8, 8, 4}}}};

/* Each refusal at its edge: the last that is refused beside the first that is not. */
static const Wire edges[] = {
    /* 9: below 4 bytes, whatever the bytes */
    {"no byte", 0, {0}, REFUSED(9)},
    {"1 byte", 1, {0}, REFUSED(9)},
    {"3 bytes", 3, {0, 0, 0}, REFUSED(9)},
    {"3 bytes, each as of kind 3", 3, {0xC0, 0xC0, 0xC0}, REFUSED(9)},
    /* 8: kind 3; before a size that runs past, and before a count that does */
    {"kind 3 alone", 4, {0, 0, 0, 0xC0}, REFUSED(8)},
    {"kind 3, size past", 4, {1, 0, 0, 0xC0}, REFUSED(8)},
    {"kind 3, all bits", 4, {255, 255, 255, 255}, REFUSED(8)},
    {"kind 3, count past", 8, {4, 0, 0, 0xC0, 255, 255, 255, 255}, REFUSED(8)},
    {"kind 3, else good", 31, {27, 0, 0, 0xC0, TWO}, REFUSED(8)},
    /* 9: the size runs past the payload; before a count that runs past its stream */
    {"kind 0, size 1 of 0", 4, {1, 0, 0, 0x00}, REFUSED(9)},
    {"kind 1, size 1 of 0", 4, {1, 0, 0, 0x40}, REFUSED(9)},
    {"kind 2, size 1 of 0", 4, {1, 0, 0, 0x80}, REFUSED(9)},
    {"kind 0, size 44 of 43", 47, {44, 0, 0, 0x00, TWO, ONE}, REFUSED(9)},
    {"kind 1, size 28 of 27", 31, {28, 0, 0, 0x40, TWO}, REFUSED(9)},
    {"kind 2, size 28 of 27", 31, {28, 0, 0, 0x80, TWO}, REFUSED(9)},
    {"kind 0, size 256", 31, {0, 1, 0, 0x00, TWO}, REFUSED(9)},
    {"kind 1, size 65,536", 31, {0, 0, 1, 0x40, TWO}, REFUSED(9)},
    {"kind 2, size 2^24", 31, {0, 0, 0, 0x81, TWO}, REFUSED(9)},
    {"kind 0, size 2^29", 31, {0, 0, 0, 0x20, TWO}, REFUSED(9)},
    {"kind 0, the largest size", 8, {255, 255, 255, 0x3F}, REFUSED(9)},
    {"kind 1, the largest size", 8, {255, 255, 255, 0x7F}, REFUSED(9)},
    {"kind 2, the largest size", 8, {255, 255, 255, 0xBF}, REFUSED(9)},
    {"size past and count past", 8, {5, 0, 0, 0x40, 255, 255, 255, 255}, REFUSED(9)},
    {"kind 0, size past and both counts past", 12, {9, 0, 0, 0, 255, 255, 255, 255, 255, 255, 255, 255}, REFUSED(9)},
    /* 10: a count runs past its stream */
    {"kind 0, no stream", 4, {0, 0, 0, 0x00}, REFUSED(10)},
    {"kind 1, no stream", 4, {0, 0, 0, 0x40}, REFUSED(10)},
    {"kind 2, no stream", 4, {0, 0, 0, 0x80}, REFUSED(10)},
    {"kind 1, 3 bytes of a count", 7, {3, 0, 0, 0x40}, REFUSED(10)},
    {"kind 2, 3 bytes of a count", 7, {0, 0, 0, 0x80}, REFUSED(10)},
    {"kind 1, a count", 8, {4, 0, 0, 0x40}, {0, 1, {0, 8, 8, 8, 0}, NO_STREAM}},
    {"kind 2, a count", 8, {0, 0, 0, 0x80}, {0, 2, NO_STREAM, {0, 8, 8, 8, 0}}},
    {"kind 0, size 0", 12, {0, 0, 0, 0x00}, REFUSED(10)},
    {"kind 0, size 3", 12, {3, 0, 0, 0x00}, REFUSED(10)},
    {"kind 0, size 4", 12, {4, 0, 0, 0x00}, {0, 0, {0, 8, 8, 8, 0}, {0, 12, 12, 12, 0}}},
    {"kind 0, size 5", 12, {5, 0, 0, 0x00}, REFUSED(10)},
    {"kind 0, size 5 and a byte more", 13, {5, 0, 0, 0x00}, {0, 0, {0, 8, 8, 8, 1}, {0, 13, 13, 13, 0}}},
    {"kind 0, no second stream", 8, {4, 0, 0, 0x00}, REFUSED(10)},
    {"kind 0, 3 bytes of the second count", 11, {4, 0, 0, 0x00}, REFUSED(10)},
    /* 10: a rectangle or a pair runs past its stream */
    {"kind 1, one rectangle, 8 bytes of 10", 16, {0, 0, 0, 0x40, 1}, REFUSED(10)},
    {"kind 1, one rectangle, 9 bytes of 10", 17, {0, 0, 0, 0x40, 1}, REFUSED(10)},
    {"kind 1, one rectangle, 10 bytes", 18, {0, 0, 0, 0x40, 1}, {0, 1, {1, 8, 16, 18, 0}, NO_STREAM}},
    {"kind 1, one rectangle, 11 bytes", 19, {0, 0, 0, 0x40, 1}, {0, 1, {1, 8, 16, 18, 1}, NO_STREAM}},
    {"kind 2, one rectangle, 7 bytes of 10", 15, {0, 0, 0, 0x80, 1}, REFUSED(10)},
    {"kind 2, one rectangle, 9 bytes of 10", 17, {0, 0, 0, 0x80, 1}, REFUSED(10)},
    {"kind 2, one rectangle, 10 bytes", 18, {0, 0, 0, 0x80, 1}, {0, 2, NO_STREAM, {1, 8, 16, 18, 0}}},
    {"kind 2, two rectangles, 19 bytes of 20", 27, {0, 0, 0, 0x80, 2}, REFUSED(10)},
    {"kind 2, two rectangles, 20 bytes", 28, {0, 0, 0, 0x80, 2}, {0, 2, NO_STREAM, {2, 8, 24, 28, 0}}},
    {"kind 0, the first stream's pair in the second", 40, {13, 0, 0, 0x00, 1}, REFUSED(10)},
    {"kind 0, the first stream exactly", 22, {14, 0, 0, 0x00, 1}, {0, 0, {1, 8, 16, 18, 0}, {0, 22, 22, 22, 0}}},
    {"kind 0, the first stream and a byte", 23, {15, 0, 0, 0x00, 1}, {0, 0, {1, 8, 16, 18, 1}, {0, 23, 23, 23, 0}}},
    {"kind 0, the second stream short", 21, {4, 0, 0, 0x00, 0, 0, 0, 0, 1}, REFUSED(10)},
    {"kind 0, the second stream exactly", 22, {4, 0, 0, 0x00, 0, 0, 0, 0, 1}, {0, 0, {0, 8, 8, 8, 0}, {1, 12, 20, 22, 0}}},
    {"kind 0, both streams short", 20, {8, 0, 0, 0x00, 1, 0, 0, 0, 0, 0, 0, 0, 1}, REFUSED(10)},
    /* counts whose products are small once cut to 32 bits: 10 x 429,496,730 is 2^32 + 4, 8 x 2^29 and 2 x 2^31 are 2^32 */
    {"the largest count, kind 0", 12, {4, 0, 0, 0x00, 255, 255, 255, 255}, REFUSED(10)},
    {"the largest count, kind 1", 31, {0, 0, 0, 0x40, 255, 255, 255, 255}, REFUSED(10)},
    {"the largest count, kind 2", 31, {0, 0, 0, 0x80, 255, 255, 255, 255}, REFUSED(10)},
    {"the largest count, second stream", 12, {4, 0, 0, 0x00, 0, 0, 0, 0, 255, 255, 255, 255}, REFUSED(10)},
    {"a count of 429,496,730", 12, {0, 0, 0, 0x40, 0x9A, 0x99, 0x99, 0x19}, REFUSED(10)},
    {"a count of 2^29", 31, {0, 0, 0, 0x40, 0, 0, 0, 0x20}, REFUSED(10)},
    {"a count of 2^31", 31, {0, 0, 0, 0x80, 0, 0, 0, 0x80}, REFUSED(10)},
    {"a count of 2^24, not 1", 31, {0, 0, 0, 0x80, 0, 0, 0, 1}, REFUSED(10)}};

static uint16_t number_at(const uint8_t *bytes, size_t at)
{
    return (uint16_t)(bytes[at] + 256 * bytes[at + 1]);
}

/* Rectangle and pair i of a stream, present where i is below its count. */
static void one_is(const Wire *wire, Args *a, bool chroma, size_t i)
{
    const haythaw_stream *stream = chroma ? &wire->want.chroma : &wire->want.luma;
    const bool present = i < stream->count;
    const enum call rectangle = chroma ? CHROMA_RECTANGLE : LUMA_RECTANGLE, pair = chroma ? CHROMA_PAIR : LUMA_PAIR;
    a->i = i;
    Result r = tried(rectangle, a);
    Result p = tried(pair, a);
    if (present) {
        const uint8_t *const edge = wire->bytes + stream->rects + 8 * i, *const two = wire->bytes + stream->pairs + 2 * i;
        check(r.number == 0 && r.present && r.left == number_at(edge, 0) && r.top == number_at(edge, 2) &&
                  r.right == number_at(edge, 4) && r.bottom == number_at(edge, 6),
              call_names[rectangle], wire->what);
        check(p.number == 0 && p.present && p.value == two[0] % 64 && p.reserved == (two[0] / 64 % 2 == 1) &&
                  p.progressive == (two[0] / 128 == 1) && p.quality == two[1],
              call_names[pair], wire->what);
    } else {
        check(is_refusal(&r, wire->want.number), call_names[rectangle], wire->what);
        check(is_refusal(&p, wire->want.number), call_names[pair], wire->what);
    }
}

/* A stream's rectangles into an output of so many numbers, which may be null where that is 0. */
static void copy_is(const Wire *wire, Args *a, bool chroma, size_t room, bool null)
{
    const haythaw_stream *stream = chroma ? &wire->want.chroma : &wire->want.luma;
    const enum call call = chroma ? CHROMA_RECTS : LUMA_RECTS;
    const size_t count = 4 * stream->count;
    const uint32_t number = wire->want.number != 0 ? wire->want.number : room < count ? 6 : 0;
    uint16_t *const out = a->at[NUMBERS] = null ? NULL : lend(2 * room);
    a->count[NUMBERS] = room;
    Result r = tried(call, a);
    if (number != 0) {
        check(is_refusal(&r, number), call_names[call], wire->what);
        check(lent_kept(), call_names[call], "a refusal changed a byte");
        return;
    }
    bool right = true;
    for (size_t k = 0; k < count; k++)
        right = right && out[k] == number_at(wire->bytes, stream->rects + 2 * k);
    check(r.number == 0 && r.count == count && right, call_names[call], wire->what);
    check(kept_from(out, 2 * count), call_names[call], "a byte past what is written");
}

/* All seven calls on a payload, exactly lent. In a refusal, and of a stream that is not carried, the count is 0: nothing is present,
 * and nothing is written. Of the large i, 8 x i or 2 x i is small once cut to 64 bits, or i is as large as can be. */
static void payload_is(const Wire *wire, bool null)
{
    static const size_t large[] = {SIZE_MAX / 8 + 1, SIZE_MAX / 2 + 1, SIZE_MAX / 2 + 3, SIZE_MAX - 1, SIZE_MAX};
    Args a = {0};
    if (!null)
        lend_as(&a, PAYLOAD, wire->size, wire->bytes);
    Result r = tried(READ, &a);
    if (wire->want.number != 0)
        check(is_refusal(&r, wire->want.number), "avc444_read", wire->what);
    else
        check(r.number == 0 && r.kind == wire->want.kind && same_stream(&r.luma, &wire->want.luma) &&
                  same_stream(&r.chroma, &wire->want.chroma),
              "avc444_read", wire->what);
    for (int chroma = 0; chroma < 2; chroma++) {
        const size_t count = chroma ? wire->want.chroma.count : wire->want.luma.count;
        for (size_t i = 0; i < count + 3; i++)
            one_is(wire, &a, chroma, i);
        for (size_t k = 0; k < sizeof large / sizeof *large; k++)
            one_is(wire, &a, chroma, large[k]);
        copy_is(wire, &a, chroma, 0, true);
        copy_is(wire, &a, chroma, 0, false);
        if (count > 0)
            copy_is(wire, &a, chroma, 4 * count - 1, false);
        for (size_t more = 0; more < 6; more++)
            copy_is(wire, &a, chroma, 4 * count + more, false);
    }
    check(kept_from(a.at[PAYLOAD], 0), "avc444_read", "the payload");
    over(READ);
}

static void wires_by_hand(void)
{
    for (size_t k = 0; k < sizeof good / sizeof *good; k++)
        payload_is(&good[k], false);
    for (size_t k = 0; k < sizeof edges / sizeof *edges; k++) {
        payload_is(&edges[k], false);
        if (edges[k].size == 0)
            payload_is(&edges[k], true);
    }
}

/* The numbers of the first payload, read off by eye: the second rectangle has 256, 65,535, 32,768 and 128, and its quantiser byte
 * is 255. The two lists are written into one output, chroma over luma, with the rest of luma left. */
static void parts_by_hand(void)
{
    static const uint16_t rectangles[3][4] = {{1, 2, 3, 4}, {256, 65535, 32768, 128}, {5, 6, 7, 264}};
    static const struct { uint8_t value, quality; bool reserved, progressive; } pairs[3] = {
        {22, 100, false, false}, {63, 0, true, true}, {5, 255, false, true}};
    static const uint16_t luma[9] = {1, 2, 3, 4, 256, 65535, 32768, 128, 999}, both[9] = {5, 6, 7, 264, 256, 65535, 32768, 128, 999};
    Args a = {0};
    lend_as(&a, PAYLOAD, 47, good[0].bytes);
    for (size_t k = 0; k < 3; k++) {
        a.i = k % 2;
        Result r = tried(k < 2 ? LUMA_RECTANGLE : CHROMA_RECTANGLE, &a);
        check(r.number == 0 && r.present && r.left == rectangles[k][0] && r.top == rectangles[k][1] && r.right == rectangles[k][2] &&
                  r.bottom == rectangles[k][3],
              "avc444_rectangle", "by hand");
        r = tried(k < 2 ? LUMA_PAIR : CHROMA_PAIR, &a);
        check(r.number == 0 && r.present && r.value == pairs[k].value && r.quality == pairs[k].quality &&
                  r.reserved == pairs[k].reserved && r.progressive == pairs[k].progressive,
              "avc444_pair", "by hand");
    }
    uint16_t *const out = a.at[NUMBERS] = lend(18);
    a.count[NUMBERS] = 9;
    out[8] = 999;
    Result r = tried(LUMA_RECTS, &a);
    check(r.number == 0 && r.count == 8 && memcmp(out, luma, 18) == 0, "avc444_luma_rects", "by hand");
    r = tried(CHROMA_RECTS, &a);
    check(r.number == 0 && r.count == 4 && memcmp(out, both, 18) == 0, "avc444_chroma_rects", "by hand");
    check(kept_from(a.at[PAYLOAD], 0), "avc444_luma_rects", "the payload");
    over(LUMA_RECTS);
}

/* Every quantiser byte: value, and the two flags. */
static void quantisers(void)
{
    for (size_t byte = 0; byte < 256; byte++) {
        Args a = {0};
        lend_as(&a, PAYLOAD, 31, good[2].bytes);
        ((uint8_t *)a.at[PAYLOAD])[26] = (uint8_t)byte;
        a.i = 1;
        Result r = tried(LUMA_PAIR, &a);
        check(r.number == 0 && r.present && r.value == byte % 64 && r.reserved == (byte % 128 >= 64) && r.progressive == (byte >= 128) &&
                  r.quality == 0,
              "avc444_luma_pair", "a quantiser byte");
        over(LUMA_PAIR);
    }
}

/* Every prefix. Of both streams, 4 + 27 bytes hold the size and 45 the second pair; with size 0 the one stream's parts end at 28. */
static void prefixes(void)
{
    static const struct { size_t good, nine_below, ten_below; } cases[] = {{0, 31, 45}, {2, 31, 31}, {3, 4, 28}, {4, 4, 28}};
    for (size_t k = 0; k < sizeof cases / sizeof *cases; k++)
        for (size_t size = 0; size <= good[cases[k].good].size; size++) {
            static const haythaw_avc444 nine = REFUSED(9), ten = REFUSED(10);
            Wire wire = good[cases[k].good];
            haythaw_stream *const last = wire.want.kind == 1 ? &wire.want.luma : &wire.want.chroma;
            last->length -= wire.size - size;
            wire.what = "a prefix";
            wire.size = size;
            if (size < cases[k].ten_below)
                wire.want = size < cases[k].nine_below ? nine : ten;
            payload_is(&wire, false);
        }
}

#endif
