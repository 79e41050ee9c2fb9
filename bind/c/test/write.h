/* The AVC444 payload written: every kind, each stream with none, one and several rectangles, each length of the output, and parts that
 * are ignored. What is to come out stands beside the parts, by hand, or is put together again here from the words of the request. Before
 * each call every byte of the output is another one than is wanted there. */
#ifndef WRITE_H
#define WRITE_H

#include "wire.h"

enum { MOST_WRITTEN = 1 << 15 };
#define GIGA ((size_t)1 << 30) /* what the first stream has to be shorter than */

/* Whether 4 + 2 x rects + pairs + data of the streams from `first` to `last`, and `more`, are above a limit. No sum is made. */
static bool streams_above(const Args *a, int first, int last, size_t more, size_t limit)
{
    if (more > limit)
        return true;
    limit -= more;
    for (int s = first; s <= last; s += 3) {
        const size_t terms[5] = {4, a->count[s], a->count[s], a->count[s + 1], a->count[s + 2]};
        for (size_t k = 0; k < 5; k++) {
            if (terms[k] > limit)
                return true;
            limit -= terms[k];
        }
    }
    return false;
}

/* The streams that a kind carries, luma before chroma. */
static int first_of(const Args *a)
{
    return a->kind == 2 ? C_RECTS : L_RECTS;
}

static int last_of(const Args *a)
{
    return a->kind == 1 ? L_RECTS : C_RECTS;
}

/* The number of the call by the request's words. */
static uint32_t write_number(const Args *a)
{
    if (a->kind > 2)
        return 8;
    for (int s = first_of(a); s <= last_of(a); s += 3)
        if (a->count[s] % 4 != 0 || a->count[s + 1] % 2 != 0 || a->count[s + 1] / 2 != a->count[s] / 4)
            return 7;
    if (streams_above(a, first_of(a), first_of(a), 0, GIGA - 1))
        return 11;
    for (int s = first_of(a); s <= last_of(a); s += 3)
        if (a->count[s] / 4 > UINT32_MAX)
            return 11;
    return streams_above(a, first_of(a), last_of(a), 4, a->count[OUT]) ? 6 : 0;
}

static void put_number(uint8_t *to, size_t *at, size_t number, int bytes)
{
    for (; bytes > 0; bytes--, number /= 256)
        to[(*at)++] = (uint8_t)(number % 256);
}

/* The payload by the request's words, and how many bytes it has. */
static size_t payload_of(const Args *a, uint8_t *to)
{
    size_t at = 0, size = 4 + 2 * a->count[L_RECTS] + a->count[L_PAIRS] + a->count[L_DATA];
    put_number(to, &at, (a->kind == 2 ? 0 : size) + a->kind * GIGA, 4);
    for (int s = first_of(a); s <= last_of(a); s += 3) {
        put_number(to, &at, a->count[s] / 4, 4);
        for (size_t k = 0; k < a->count[s]; k++)
            put_number(to, &at, ((const uint16_t *)a->at[s])[k], 2);
        for (int part = s + 1; part <= s + 2; part++)
            for (size_t k = 0; k < a->count[part]; k++)
                to[at++] = ((const uint8_t *)a->at[part])[k];
    }
    return at;
}

/* What was written is read, and each stream has the parts that it was written from; a stream that is not carried has none. */
static void read_back(const Args *a, size_t size, const char *what)
{
    static uint16_t numbers[MOST_WRITTEN / 2];
    const uint8_t *const out = a->at[OUT];
    trying = "avc444_read";
    const haythaw_avc444 read = haythaw_avc444_read(out, size);
    check(read.number == 0 && read.kind == a->kind, "avc444_read", what);
    for (int s = L_RECTS; s <= C_RECTS; s += 3) {
        const haythaw_stream *const stream = s == L_RECTS ? &read.luma : &read.chroma;
        const bool carried = first_of(a) <= s && s <= last_of(a);
        const size_t rects = carried ? a->count[s] : 0, pairs = carried ? a->count[s + 1] : 0, data = carried ? a->count[s + 2] : 0;
        const haythaw_answer list = s == L_RECTS ? haythaw_avc444_luma_rects(out, size, numbers, rects)
                                                 : haythaw_avc444_chroma_rects(out, size, numbers, rects);
        check(stream->count == rects / 4 && stream->data - stream->pairs == pairs && stream->length == data, "avc444_read", what);
        check(list.number == 0 && list.count == rects && (rects == 0 || memcmp(numbers, a->at[s], 2 * rects) == 0), "avc444_rects", what);
        check(pairs == 0 || memcmp(out + stream->pairs, a->at[s + 1], pairs) == 0, "avc444_read", "the pairs");
        check(data == 0 || memcmp(out + stream->data, a->at[s + 2], data) == 0, "avc444_read", "the H.264 bytes");
    }
}

/* Runs the call and compares with the rule. Every lent buffer but the output keeps its bytes, and so does the output past the count. */
static void write_is(Args *a, const char *what)
{
    static uint8_t wanted[MOST_WRITTEN];
    const uint32_t number = write_number(a);
    const size_t size = number == 0 ? payload_of(a, wanted) : 0;
    uint8_t *const out = a->at[OUT];
    for (size_t k = 0; k < size; k++)
        out[k] = (uint8_t)~wanted[k];
    Result r = tried(WRITE, a);
    if (number != 0) {
        check(is_refusal(&r, number), "avc444_write", what);
        check(lent_kept(), "avc444_write", "a refusal changed a byte");
        return;
    }
    check(r.number == 0 && r.count == size && memcmp(out, wanted, size) == 0, "avc444_write", what);
    for (size_t i = 0; i < lents_used; i++)
        check(kept_from(lents[i].bytes, lents[i].bytes == out ? size : 0), "avc444_write", "a byte that is not the payload's");
    read_back(a, size, what);
}

/* What a stream is written from. */
typedef struct {
    size_t rects;
    uint16_t rect[8];
    uint8_t pair[4];
    size_t data;
    uint8_t byte[3];
} Given;

/* TWO and ONE of wire.h, and a stream of a count alone. */
#define GIVEN_TWO {8, {1, 2, 3, 4, 256, 65535, 32768, 128}, {22, 100, 255, 0}, 3, {7, 8, 9}}
#define GIVEN_ONE {4, {5, 6, 7, 264}, {0x85, 255}, 2, {11, 12}}
#define GIVEN_NONE {0, {0}, {0}, 0, {0}}
#define NONE 0, 0, 0, 0

static const struct {
    const char *what;
    uint32_t kind;
    Given luma, chroma;
    size_t size;
    uint8_t bytes[MOST_BYTES];
} written[] = {
    {"both streams", 0, GIVEN_TWO, GIVEN_ONE, 47, {27, 0, 0, 0x00, TWO, ONE}},
    {"both streams, the other way round", 0, GIVEN_ONE, GIVEN_TWO, 47, {16, 0, 0, 0x00, ONE, TWO}},
    {"luma alone, two", 1, GIVEN_TWO, GIVEN_ONE, 31, {27, 0, 0, 0x40, TWO}},
    {"luma alone, one", 1, GIVEN_ONE, GIVEN_NONE, 20, {16, 0, 0, 0x40, ONE}},
    {"luma alone, nothing", 1, GIVEN_NONE, GIVEN_TWO, 8, {4, 0, 0, 0x40, NONE}},
    {"chroma alone, two", 2, GIVEN_ONE, GIVEN_TWO, 31, {0, 0, 0, 0x80, TWO}},
    {"chroma alone, one", 2, GIVEN_NONE, GIVEN_ONE, 20, {0, 0, 0, 0x80, ONE}},
    {"chroma alone, nothing", 2, GIVEN_TWO, GIVEN_NONE, 8, {0, 0, 0, 0x80, NONE}},
    {"both streams, no luma", 0, GIVEN_NONE, GIVEN_TWO, 35, {4, 0, 0, 0x00, NONE, TWO}},
    {"both streams, no chroma", 0, GIVEN_ONE, GIVEN_NONE, 24, {16, 0, 0, 0x00, ONE, NONE}},
    {"both streams, nothing", 0, GIVEN_NONE, GIVEN_NONE, 12, {4, 0, 0, 0x00, NONE, NONE}},
    {"rectangles without H.264 bytes", 0, {4, {9, 10, 11, 12}, {1, 2}, 0, {0}}, {4, {0, 0, 0, 0}, {0, 0}, 0, {0}}, 32,
     {14, 0, 0, 0x00, 1, 0, 0, 0, 9, 0, 10, 0, 11, 0, 12, 0, 1, 2, 1, 0, 0, 0, 0, 0, 0, 0, 0, 0, 0, 0, 0, 0}},
    {"H.264 bytes without rectangles", 0, {0, {0}, {0}, 1, {200}}, {0, {0}, {0}, 3, {1, 2, 3}}, 16,
     {5, 0, 0, 0x00, NONE, 200, NONE, 1, 2, 3}}};

static void lend_stream(Args *a, int s, const Given *given)
{
    lend_as(a, (enum slice)s, 2 * given->rects, (const uint8_t *)given->rect);
    a->count[s] = given->rects;
    lend_as(a, (enum slice)(s + 1), given->rects / 2, given->pair);
    lend_as(a, (enum slice)(s + 2), given->data, given->byte);
}

/* Every length of the output from nothing to more than enough, and null; every buffer exactly lent. */
static void written_by_hand(void)
{
    for (size_t k = 0; k < sizeof written / sizeof *written; k++)
        for (size_t room = 0; room < written[k].size + 9; room++) {
            Args a = {0};
            a.kind = written[k].kind;
            lend_stream(&a, L_RECTS, &written[k].luma);
            lend_stream(&a, C_RECTS, &written[k].chroma);
            lend_as(&a, OUT, room, NULL);
            Result r = tried(WRITE, &a);
            if (room < written[k].size) {
                check(is_refusal(&r, 6) && lent_kept(), "avc444_write", written[k].what);
            } else {
                check(r.number == 0 && r.count == written[k].size && memcmp(a.at[OUT], written[k].bytes, r.count) == 0, "avc444_write",
                      written[k].what);
                check(kept_from(a.at[OUT], r.count), "avc444_write", "a byte past what is written");
            }
            write_is(&a, written[k].what);
            if (room == 0) {
                a.at[OUT] = NULL;
                write_is(&a, written[k].what);
            }
            over(WRITE);
        }
}

/* From 0 to 9 rectangles and 0 to 40 H.264 bytes in one stream, as many as make up the rest in the other; then a thousand and more. */
static void written_sizes(void)
{
    static const size_t many[][4] = {{1000, 5, 301, 70}, {0, 9000, 1, 0}, {257, 0, 0, 4097}};
    enum { FOURS = 10, BYTES = 41, MANY = sizeof many / sizeof *many };
    for (size_t k = 0; k < FOURS * BYTES + MANY; k++)
        for (uint32_t kind = 0; kind < 3; kind++) {
            const size_t *const more = k < FOURS * BYTES ? NULL : many[k - FOURS * BYTES];
            const size_t luma = more ? more[0] : k / BYTES, chroma = more ? more[2] : FOURS - 1 - k / BYTES;
            Args a = {0};
            a.kind = kind;
            lend_as(&a, L_RECTS, 8 * luma, NULL);
            lend_as(&a, L_PAIRS, 2 * luma, NULL);
            lend_as(&a, L_DATA, more ? more[1] : k % BYTES, NULL);
            lend_as(&a, C_RECTS, 8 * chroma, NULL);
            lend_as(&a, C_PAIRS, 2 * chroma, NULL);
            lend_as(&a, C_DATA, more ? more[3] : BYTES - 1 - k % BYTES, NULL);
            a.count[L_RECTS] /= 2, a.count[C_RECTS] /= 2;
            size_t size = 4;
            for (int s = first_of(&a); s <= last_of(&a); s += 3)
                size += 4 + 2 * a.count[s] + a.count[s + 1] + a.count[s + 2];
            lend_as(&a, OUT, size, NULL);
            write_is(&a, "a payload exactly lent");
            a.count[OUT]--;
            write_is(&a, "a byte short");
            over(WRITE);
        }
}

/* Every kind with lists of every length up to 8 and pairs up to 5 in both streams, and with an output one short, exact and longer than
 * the lengths would have: also where the call has another reason to refuse. */
static void written_lengths(void)
{
    static const uint32_t kinds[] = {0, 1, 2, 3, 4, 0x40000000, 0x80000000, UINT32_MAX};
    static const size_t lists[] = {0, 1, 2, 3, 4, 6, 8};
    enum { KINDS = sizeof kinds / sizeof *kinds, LISTS = sizeof lists / sizeof *lists, PAIRS = 6, ONE_OF = LISTS * PAIRS, ROOM = 128 };
    Args a = {0};
    for (int s = L_RECTS; s <= C_DATA; s++)
        lend_as(&a, (enum slice)s, 16, NULL);
    lend_as(&a, OUT, ROOM, NULL);
    a.count[L_DATA] = 5, a.count[C_DATA] = 3;
    for (size_t k = 0; k < KINDS * ONE_OF * ONE_OF; k++) {
        const size_t luma = k / KINDS / ONE_OF, chroma = k / KINDS % ONE_OF;
        a.kind = kinds[k % KINDS];
        a.count[L_RECTS] = lists[luma / PAIRS], a.count[L_PAIRS] = luma % PAIRS;
        a.count[C_RECTS] = lists[chroma / PAIRS], a.count[C_PAIRS] = chroma % PAIRS;
        size_t size = 4;
        for (int s = first_of(&a); s <= last_of(&a); s += 3)
            size += 4 + 2 * a.count[s] + a.count[s + 1] + a.count[s + 2];
        for (a.count[OUT] = size - 1; a.count[OUT] <= size + 1; a.count[OUT]++)
            write_is(&a, "a list's length");
    }
    over(WRITE);
}

/* What is only read may overlap: both streams are the same bytes, and the pairs and H.264 bytes are those of the list. */
static void written_from_one(void)
{
    Args a = {0};
    void *const bytes = lend(24);
    for (int s = L_RECTS; s <= C_DATA; s++)
        a.at[s] = bytes;
    a.count[L_RECTS] = 12, a.count[L_PAIRS] = 6, a.count[L_DATA] = 24, a.count[C_RECTS] = 4, a.count[C_PAIRS] = 2, a.count[C_DATA] = 7;
    lend_as(&a, OUT, 100, NULL);
    for (a.kind = 0; a.kind < 3; a.kind++)
        write_is(&a, "parts that overlap");
    over(WRITE);
}

#endif
