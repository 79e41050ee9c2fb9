/* What tests/map_cases.py asks the library: sequences of calls from standard input, and to standard output what each call answered and the map
   of stale colour that it left. All numbers are little-endian, as this machine has them or not.

   A sequence: width and height of the picture in 2 bytes each; how many bytes each of its planes and its map have, in 4 each; how many calls
   follow, in 1; and the bytes of the map. A call: 1 byte, which of `calls` below; the counts that y, u, v and the map are lent with, in 4 each;
   the view's width and height in 2 each, its two strides in 8 each, and the lengths of its three planes in 4 each; the length of RGBA, in or
   out, in 4; how many numbers the list has, in 2; and the numbers, in 2 each. Picture to RGBA finds its rectangle in the list. Planes, views
   and RGBA have any bytes: they reach no map.

   An answer: the number in 4 bytes, the count and `stale` in 8 each; 1 byte that is 1 where no byte changed that must not: of the planes after
   a refusal and after picture to RGBA, of y after an auxiliary view; and every byte of the map and past it.

   Status 2: the input ends within a sequence or is no such, or there is no memory. */
#include <stdbool.h>
#include <stdint.h>
#include <stdio.h>
#include <stdlib.h>
#include <string.h>

#include "haythaw.h"

enum { PLANES = 3, BUFFERS = 4, HEAD = 13, CALL = 55 };
enum { NEW, FROM_RGBA, FROM_RGBA_RUST, FROM_RGBA_LIMITED, TO_RGBA, MAIN, AUX_V1, AUX_V2, AUX_V2_32, AUX_V2_EXACT,
       MAIN_STRICT, AUX_V1_STRICT, AUX_V2_STRICT, AUX_V2_32_STRICT, AUX_V2_EXACT_STRICT, CALLS };

typedef struct { uint8_t *at; size_t count; } Lent;
typedef struct { uint16_t width, height; Lent of[BUFFERS], were[PLANES]; } Picture; /* y, u, v and the map; and the planes before a call */
typedef struct { uint16_t width, height; size_t luma_stride, chroma_stride; Lent of[PLANES]; } View;

static void must(bool holds, const char *what)
{
    if (holds) return;
    fprintf(stderr, "map: %s\n", what);
    exit(2);
}

static void take(uint8_t *into, size_t count)
{
    must(fread(into, 1, count, stdin) == count, "the input ends within a sequence");
}

static uint64_t number_of(const uint8_t *bytes, int count)
{
    uint64_t n = 0;
    while (count--) n = n << 8 | bytes[count];
    return n;
}

static void say(uint64_t n, int count)
{
    for (; count--; n >>= 8) putchar((int)(n & 255));
}

/* Exactly so many bytes, of any value. */
static Lent lent(size_t count)
{
    static uint32_t any = 1;
    Lent l = {malloc(count ? count : 1), count};
    must(l.at != NULL, "no memory");
    for (size_t k = 0; k < count; k++) l.at[k] = (uint8_t)((any = any * 1664525u + 1013904223u) >> 24);
    return l;
}

typedef uint32_t From(const uint8_t *, size_t, uint16_t, uint16_t, uint8_t *, size_t, uint8_t *, size_t, uint8_t *, size_t, uint8_t *, size_t);
typedef uint32_t Apply(uint16_t, uint16_t, uint8_t *, size_t, uint8_t *, size_t, uint8_t *, size_t, uint8_t *, size_t, const uint16_t *,
                       size_t, uint16_t, uint16_t, size_t, size_t, const uint8_t *, size_t, const uint8_t *, size_t, const uint8_t *, size_t);

#define PICTURE(p, count) (p)->of[0].at, (count)[0], (p)->of[1].at, (count)[1], (p)->of[2].at, (count)[2], (p)->of[3].at, (count)[3]
#define VIEW(v) (v)->width, (v)->height, (v)->luma_stride, (v)->chroma_stride, (v)->of[0].at, (v)->of[0].count, (v)->of[1].at, \
                (v)->of[1].count, (v)->of[2].at, (v)->of[2].count

static haythaw_pixels called(int call, Picture *p, const size_t count[BUFFERS], const View *v, Lent rgba, const uint16_t *list, size_t numbers)
{
    static From *const from[] = {[FROM_RGBA] = haythaw_from_rgba, [FROM_RGBA_RUST] = haythaw_from_rgba_rust,
                                 [FROM_RGBA_LIMITED] = haythaw_from_rgba_limited};
    static Apply *const apply[] = {[MAIN] = haythaw_apply_main_view, [AUX_V1] = haythaw_apply_auxiliary_v1,
                                   [AUX_V2] = haythaw_apply_auxiliary_v2, [AUX_V2_32] = haythaw_apply_auxiliary_v2_32,
                                   [AUX_V2_EXACT] = haythaw_apply_auxiliary_v2_exact,
                                   [MAIN_STRICT] = haythaw_apply_main_view_strict,
                                   [AUX_V1_STRICT] = haythaw_apply_auxiliary_v1_strict,
                                   [AUX_V2_STRICT] = haythaw_apply_auxiliary_v2_strict,
                                   [AUX_V2_32_STRICT] = haythaw_apply_auxiliary_v2_32_strict,
                                   [AUX_V2_EXACT_STRICT] = haythaw_apply_auxiliary_v2_exact_strict};
    haythaw_pixels answer = {0, 0, 0, 0, 0};
    if (call == TO_RGBA)
        return haythaw_to_rgba(p->width, p->height, PICTURE(p, count), list[0], list[1], list[2], list[3], rgba.at, rgba.count);
    if (call == NEW)
        answer.number = haythaw_new(p->width, p->height, PICTURE(p, count));
    else if (call < TO_RGBA)
        answer.number = from[call](rgba.at, rgba.count, p->width, p->height, PICTURE(p, count));
    else
        answer.number = apply[call](p->width, p->height, PICTURE(p, count), list, numbers, VIEW(v));
    return answer;
}

/* Whether the planes that must not change have not. */
static bool kept(int call, const Picture *p, uint32_t number)
{
    const int planes = number || call == TO_RGBA ? PLANES : call > MAIN && call != MAIN_STRICT ? 1 : 0;
    bool same = true;
    for (int k = 0; k < planes; k++) same = same && !memcmp(p->of[k].at, p->were[k].at, p->of[k].count);
    return same;
}

static void answer(Picture *p, const uint8_t *head)
{
    size_t count[BUFFERS], numbers = (size_t)number_of(head + 53, 2);
    uint16_t list[65536];
    must(head[0] < CALLS && (head[0] != TO_RGBA || numbers == 4), "there is no such call");
    for (int k = 0; k < BUFFERS; k++) {
        count[k] = (size_t)number_of(head + 1 + 4 * k, 4);
        must(count[k] <= p->of[k].count, "a buffer is lent with more than it has");
        if (k < PLANES) memcpy(p->were[k].at, p->of[k].at, p->of[k].count);
    }
    View v = {(uint16_t)number_of(head + 17, 2), (uint16_t)number_of(head + 19, 2), (size_t)number_of(head + 21, 8),
              (size_t)number_of(head + 29, 8), {{NULL, 0}, {NULL, 0}, {NULL, 0}}};
    for (int k = 0; k < PLANES; k++) v.of[k] = lent((size_t)number_of(head + 37 + 4 * k, 4));
    Lent rgba = lent((size_t)number_of(head + 49, 4));
    for (size_t k = 0; k < numbers; k++) {
        uint8_t bytes[2];
        take(bytes, 2);
        list[k] = (uint16_t)number_of(bytes, 2);
    }
    const haythaw_pixels said = called(head[0], p, count, &v, rgba, list, numbers);
    say(said.number, 4), say(said.count, 8), say(said.stale, 8), say(kept(head[0], p, said.number), 1);
    fwrite(p->of[PLANES].at, 1, p->of[PLANES].count, stdout);
    for (int k = 0; k < PLANES; k++) free(v.of[k].at);
    free(rgba.at);
}

static void sequence(const uint8_t *head)
{
    Picture p = {(uint16_t)number_of(head, 2), (uint16_t)number_of(head + 2, 2), {{NULL, 0}}, {{NULL, 0}}};
    for (int k = 0; k < PLANES; k++) p.of[k] = lent((size_t)number_of(head + 4, 4)), p.were[k] = lent(p.of[k].count);
    p.of[PLANES] = lent((size_t)number_of(head + 8, 4));
    take(p.of[PLANES].at, p.of[PLANES].count);
    for (int calls = head[12]; calls--;) {
        uint8_t call[CALL];
        take(call, CALL);
        answer(&p, call);
    }
    for (int k = 0; k < BUFFERS; k++) free(p.of[k].at);
    for (int k = 0; k < PLANES; k++) free(p.were[k].at);
}

int main(void)
{
    uint8_t head[HEAD];
    while (fread(head, 1, 1, stdin) == 1) {
        take(head + 1, HEAD - 1);
        sequence(head);
    }
    must(fflush(stdout) == 0 && !ferror(stdout), "the answers could not be written");
    return 0;
}
