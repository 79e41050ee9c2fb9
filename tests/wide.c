/* What tests/wide_cases.py asks the library: cases from standard input, and to standard output what haythaw_split_v2 or haythaw_split_v2_32
   answered. All numbers are little-endian, as this machine has them or not.

   A case: 1 byte, 16 or 32, the rule; width and height in 2 bytes each; the lengths of the planes Y, U and V and of the six outputs in 4
   bytes each; and the bytes of the three planes. An answer: the number in 4 bytes, width and height in 2 each, both strides in 8 each, 1
   byte that is 1 where the planes are as they were; and every byte of the six outputs, which were all UNWRITTEN before.

   Status 2: the input ends within a case, or there is no memory. */
#include <stdbool.h>
#include <stdint.h>
#include <stdio.h>
#include <stdlib.h>
#include <string.h>

#include "haythaw.h"

enum { PLANES = 3, OUTPUTS = 6, UNWRITTEN = 201 };

typedef struct { uint8_t *at; size_t count; } Lent;

static void must(bool holds, const char *what)
{
    if (holds) return;
    fprintf(stderr, "wide: %s\n", what);
    exit(2);
}

static void take(uint8_t *into, size_t count)
{
    must(fread(into, 1, count, stdin) == count, "the input ends within a case");
}

static uint64_t number_of(const uint8_t *bytes, int count)
{
    uint64_t n = 0;
    while (count--) n = n << 8 | bytes[count];
    return n;
}

static void say(uint64_t n, int count)
{
    for (; count--; n >>= 8) putchar((int)(n & 255));
}

/* Exactly so many bytes. */
static Lent lent(const uint8_t *length)
{
    Lent l = {NULL, (size_t)number_of(length, 4)};
    l.at = malloc(l.count ? l.count : 1);
    must(l.at != NULL, "no memory");
    return l;
}

static haythaw_views split(int rule, uint16_t width, uint16_t height, const Lent *p, const Lent *o)
{
    return (rule == 32 ? haythaw_split_v2_32 : haythaw_split_v2)(
        width, height, p[0].at, p[0].count, p[1].at, p[1].count, p[2].at, p[2].count, o[0].at, o[0].count, o[1].at, o[1].count, o[2].at,
        o[2].count, o[3].at, o[3].count, o[4].at, o[4].count, o[5].at, o[5].count);
}

static void answer(const uint8_t *head)
{
    Lent planes[PLANES], were[PLANES], outputs[OUTPUTS];
    bool same = true;
    for (int k = 0; k < PLANES; k++) {
        planes[k] = lent(head + 5 + 4 * k), were[k] = lent(head + 5 + 4 * k);
        take(planes[k].at, planes[k].count);
        memcpy(were[k].at, planes[k].at, planes[k].count);
    }
    for (int k = 0; k < OUTPUTS; k++) {
        outputs[k] = lent(head + 17 + 4 * k);
        memset(outputs[k].at, UNWRITTEN, outputs[k].count);
    }
    haythaw_views v = split(head[0], (uint16_t)number_of(head + 1, 2), (uint16_t)number_of(head + 3, 2), planes, outputs);
    for (int k = 0; k < PLANES; k++) {
        same = same && !memcmp(planes[k].at, were[k].at, planes[k].count);
        free(planes[k].at), free(were[k].at);
    }
    say(v.number, 4), say(v.width, 2), say(v.height, 2), say(v.luma_stride, 8), say(v.chroma_stride, 8), say(same, 1);
    for (int k = 0; k < OUTPUTS; k++) {
        fwrite(outputs[k].at, 1, outputs[k].count, stdout);
        free(outputs[k].at);
    }
}

int main(void)
{
    uint8_t head[41];
    while (fread(head, 1, 1, stdin) == 1) {
        take(head + 1, sizeof head - 1);
        answer(head);
    }
    must(fflush(stdout) == 0 && !ferror(stdout), "the answers could not be written");
    return 0;
}
