/* replay_wire: what an AVC444 payload carries and where, the first rectangles and pairs of both streams, and the copy of the rectangles. */
#ifndef STORED_WIRE_H
#define STORED_WIRE_H

#include "cases.h"

enum { LUMA, CHROMA };

static const haythaw_stream *stream_of(const Result *r, int which)
{
    return which == LUMA ? &r->luma : &r->chroma;
}

/* A rectangle or a pair: its number, and whether it is present. What is not present is all 0, which is not written. */
static void part_word(const Result *r, unsigned first, unsigned second, unsigned third, unsigned fourth)
{
    printf(" %lu%c", (unsigned long)r->number, r->present ? '+' : '-');
    if (r->present || first || second || third || fourth)
        printf("%u,%u,%u,%u", first, second, third, fourth);
}

/* From 0 to the one past the last, but no further than 3. */
static void part_words(Args *a, int which, size_t count)
{
    const size_t last = count < 3 ? count : 3;
    printf(";");
    for (a->i = 0; a->i <= last; a->i++) {
        const Result r = asked((enum call)(LUMA_RECTANGLE + which), a);
        part_word(&r, r.left, r.top, r.right, r.bottom);
    }
    printf(";");
    for (a->i = 0; a->i <= last; a->i++) {
        const Result r = asked((enum call)(LUMA_PAIR + which), a);
        part_word(&r, r.value, r.reserved, r.progressive, r.quality);
    }
}

/* The checksum of a part that stands in the payload between two places; a dash where there is nothing. */
static void sum_word(const Args *a, size_t from, size_t to)
{
    printf(" ");
    if (from == to)
        printf("-");
    else
        say_between(a, PAYLOAD, from, to);
}

static void stream_words(Args *a, int which, const haythaw_stream *x)
{
    printf("%zu %zu %zu %zu %zu", x->count, x->rects, x->pairs, x->data, x->length);
    part_words(a, which, x->count);
    memset(a->at[NUMBERS], NUMBER_BEFORE & 255, 2 * a->count[NUMBERS]);
    const Result r = asked((enum call)(LUMA_RECTS + which), a);
    printf("; %lu %zu", (unsigned long)r.number, r.count);
    say_numbers(a->at[NUMBERS], a->count[NUMBERS]);
    printf(";");
    sum_word(a, x->rects, x->pairs);
    sum_word(a, x->pairs, x->data);
    sum_word(a, x->data, x->data + x->length);
}

/* The copy goes to an output for two rectangles. */
static void wire_line(size_t index, const uint8_t *payload, size_t count)
{
    Args a = {0};
    lend_as(&a, PAYLOAD, count, payload);
    lend_numbers(&a, NUMBERS, NULL, 8);
    const Result r = asked(READ, &a);
    printf("%zu: %lu %lu, luma ", index, (unsigned long)r.number, (unsigned long)r.kind);
    stream_words(&a, LUMA, &r.luma);
    printf(", chroma ");
    stream_words(&a, CHROMA, &r.chroma);
    printf("\n");
    over(READ);
}

static void replay_wire(void)
{
    each_payload(wire_line);
}

#endif
