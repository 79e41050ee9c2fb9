/* A recorded payload through the calls that read and write it. What was read is said as FreeRDP's own parser was recorded: the stream that
   stands first on the wire is stream 0, a lone chroma stream too. */
#ifndef RECORDED_PAYLOAD_H
#define RECORDED_PAYLOAD_H

#include "recorded_pictures.h"

typedef struct { uint8_t *bytes; size_t count; } Payload;

static uint32_t little_endian(const uint8_t *bytes, int count)
{
    uint32_t n = 0;
    while (count--) n = n << 8 | bytes[count];
    return n;
}

typedef haythaw_rectangle Rectangle(const uint8_t *, size_t, size_t);
typedef haythaw_pair Pair(const uint8_t *, size_t, size_t);
typedef haythaw_answer Rects(const uint8_t *, size_t, uint16_t *, size_t);

/* A stream of a payload: where its parts are, the calls that answer for them, and its rectangles as a list. */
typedef struct { haythaw_stream at; Rectangle *rectangle; Pair *pair; uint16_t *list; size_t numbers; } Stream;

static Stream stream_of(const Payload *p, haythaw_stream at, Rectangle *rectangle, Pair *pair, Rects *rects)
{
    Stream s = {at, rectangle, pair, room(4 * at.count * sizeof(uint16_t)), 4 * at.count};
    const haythaw_answer made = rects(p->bytes, p->count, s.list, s.numbers);
    must(made.number == HAYTHAW_DONE && made.count == s.numbers, "the rectangles of a stream are not answered as a list");
    return s;
}

static Stream luma_of_payload(const Payload *p, const haythaw_avc444 *read)
{
    return stream_of(p, read->luma, haythaw_avc444_luma_rectangle, haythaw_avc444_luma_pair, haythaw_avc444_luma_rects);
}

static Stream chroma_of_payload(const Payload *p, const haythaw_avc444 *read)
{
    return stream_of(p, read->chroma, haythaw_avc444_chroma_rectangle, haythaw_avc444_chroma_pair, haythaw_avc444_chroma_rects);
}

/* FNV-1a of 64 bits, from the number that the recorder started from: FNV's own, without its last digit. */
static uint64_t hash(const uint8_t *bytes, size_t count)
{
    uint64_t h = 1469598103934665603u;
    while (count--) h = (h ^ *bytes++) * 1099511628211u;
    return h;
}

/* Whether the rectangles one by one are those of the list, and none follows, nor a pair. */
static bool same_rectangles(const Payload *p, const Stream *s)
{
    bool same = !s->rectangle(p->bytes, p->count, s->at.count).present && !s->pair(p->bytes, p->count, s->at.count).present;
    for (size_t i = 0; i < s->at.count; i++) {
        const haythaw_rectangle r = s->rectangle(p->bytes, p->count, i);
        const uint16_t one[4] = {r.left, r.top, r.right, r.bottom};
        same = same && r.present && !memcmp(one, s->list + 4 * i, sizeof one);
    }
    return same;
}

/* The words of stream `k`. Between rectangles, and between pairs, is a semicolon; no recorded stream has two. */
static void say_stream(int k, const Payload *p, const Stream *s)
{
    printf(" n%d=%zu r%d=", k, s->at.count, k);
    for (size_t i = 0; i < s->numbers; i++) printf("%s%u", !i ? "" : i % 4 ? "," : ";", s->list[i]);
    printf(" q%d=", k);
    for (size_t i = 0; i < s->at.count; i++) {
        const haythaw_pair q = s->pair(p->bytes, p->count, i);
        printf("%s%u,%d,%d,%u", i ? ";" : "", q.value, q.reserved, q.progressive, q.quality);
    }
    printf(" d%d=%zu:%zu:%016llx", k, s->at.data, s->at.length, (unsigned long long)hash(p->bytes + s->at.data, s->at.length));
    printf(" same_rectangles%d=%d", k, same_rectangles(p, s));
}

static void say_no_stream(int k)
{
    printf(" n%d=0 r%d= q%d= d%d=-1:0:0000000000000000", k, k, k, k);
}

/* How the H.264 bytes of stream `k` begin: the length of their start code, or 0; and whether the library takes them for length-prefixed. */
static void say_form(int k, const Payload *p, const Stream *s)
{
    const uint8_t *data = p->bytes + s->at.data, code[4] = {0, 0, 0, 1};
    const int four = s->at.length >= 4 && !memcmp(data, code, 4), three = s->at.length >= 3 && !memcmp(data, code + 1, 3);
    printf(" start_code%d=%d length_prefixed%d=%d", k, four ? 4 : three ? 3 : 0, k, haythaw_is_avc_format(data, s->at.length));
}

/* Written from what was read: the answer's number and count, the payload's first number, in how many bytes after that it differs from the
   recorded one, and where first. */
static void say_written(const Payload *p, uint32_t kind, const Stream *luma, const Stream *chroma)
{
    const haythaw_stream *a = &luma->at, *b = &chroma->at;
    uint8_t *out = room(p->count);
    size_t differ = 0, first = 0;
    memset(out, 201, p->count);
    const haythaw_answer made = haythaw_avc444_write(
        kind, luma->list, luma->numbers, p->bytes + a->pairs, 2 * a->count, p->bytes + a->data, a->length, chroma->list, chroma->numbers,
        p->bytes + b->pairs, 2 * b->count, p->bytes + b->data, b->length, out, p->count);
    for (size_t at = 4; at < p->count; at++)
        if (out[at] != p->bytes[at] && !differ++) first = at;
    printf(" written=%u,%zu,%u,%zu,%zu", made.number, made.count, little_endian(out, 4), differ, first);
    free(out);
}

/* All words about a payload that was not refused. The first size is that of the stream which stands first, whatever the payload says. */
static void say_read(const Payload *p, uint32_t kind, const Stream *luma, const Stream *chroma)
{
    const Stream *on_wire[2] = {kind == 2 ? chroma : luma, chroma};
    printf(" cb=%zu lc=%u", on_wire[0]->at.data + on_wire[0]->at.length - 4, kind);
    for (int k = 0; k < (kind == 0 ? 2 : 1); k++) {
        say_stream(k, p, on_wire[k]);
        say_form(k, p, on_wire[k]);
    }
    if (kind != 0) say_no_stream(1);
    say_written(p, kind, luma, chroma);
}

#endif
