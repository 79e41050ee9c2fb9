/* refusals: a view made and its rows read (3 and 4, in this order), and Annex B (6), each number at the edge where it begins. */
#ifndef STORED_REFUSALS_H
#define STORED_REFUSALS_H

#include "say.h"

#define TWO_TO(n) ((size_t)1 << (n))

/* A view, the lengths of its planes, and the row that is read of each. */
typedef struct { const char *name; uint16_t width, height; size_t luma, chroma, lengths[3], row; } ViewCase;
static const ViewCase view_cases[] = {
    /* accepted: 8 x 4 has chroma 4 x 2, and so has 7 x 3 */
    {"view: exact", 8, 4, 8, 4, {32, 8, 8}, 1},
    {"view: planes longer than their rows", 8, 4, 8, 4, {33, 9, 64}, 1},
    {"view: strides wider", 8, 4, 9, 5, {36, 10, 10}, 1},
    {"view: odd sizes, halves rounded up", 7, 3, 7, 4, {21, 8, 8}, 1},
    /* narrow */
    {"view: luma stride one below the width", 8, 4, 7, 4, {32, 8, 8}, 1},
    {"view: chroma stride one below the chroma width", 8, 4, 8, 3, {32, 8, 8}, 1},
    {"view: chroma stride one below an odd width's half", 7, 4, 7, 3, {32, 8, 8}, 1},
    {"view: both strides one below", 8, 4, 7, 3, {32, 8, 8}, 1},
    {"view: luma stride one below at height 0", 65535, 0, 65534, 32768, {0, 0, 0}, 1},
    {"view: luma stride one below and y one short", 8, 4, 7, 4, {27, 8, 8}, 1},
    {"view: chroma stride one below and all planes empty", 8, 4, 8, 3, {0, 0, 0}, 1},
    /* short */
    {"view: y one short", 8, 4, 8, 4, {31, 8, 8}, 1},
    {"view: u one short", 8, 4, 8, 4, {32, 7, 8}, 1},
    {"view: v one short", 8, 4, 8, 4, {32, 8, 7}, 1},
    {"view: y one short by the wider stride", 8, 4, 9, 4, {35, 8, 8}, 1},
    {"view: u one short of an odd height's half", 8, 3, 8, 4, {24, 7, 8}, 1},
    {"view: all planes empty", 8, 4, 8, 4, {0, 0, 0}, 1},
    /* a product that is too large for the machine word; in a word these are 0, 0, 2^64 - 2^48, 2^64 - 2^49, 2 and 2^64 - 1 */
    {"view: luma stride 2^63, 2 rows", 8, 2, TWO_TO(63), 4, {64, 4, 4}, 1},
    {"view: chroma stride 2^63, 2 rows", 8, 4, 8, TWO_TO(63), {32, 64, 64}, 1},
    {"view: luma stride 2^48, 65535 rows", 0, 65535, TWO_TO(48), 0, {64, 0, 0}, 1},
    {"view: luma stride 2^49, 65535 rows", 0, 65535, TWO_TO(49), 0, {64, 0, 0}, 1},
    {"view: luma stride (2^64 + 2) / 3, 3 rows", 8, 3, SIZE_MAX / 3 + 1, 4, {64, 8, 8}, 1},
    {"view: luma stride 2^64 - 1, 1 row", 8, 1, SIZE_MAX, 4, {64, 4, 4}, 1},
    /* nothing in it */
    {"view: height 0, planes empty", 8, 0, 8, 4, {0, 0, 0}, 1},
    {"view: height 0, strides 2^64 - 1", 8, 0, SIZE_MAX, SIZE_MAX, {0, 0, 0}, 1},
    {"view: width 0, strides 0", 0, 4, 0, 0, {0, 0, 0}, 1},
    {"view: width 0, strides 3", 0, 4, 3, 3, {12, 6, 6}, 1},
    {"view: width 0, y one short by its stride", 0, 4, 3, 3, {11, 6, 6}, 1},
    {"view: width 0, height 0", 0, 0, 0, 0, {0, 0, 0}, 1},
    /* rows */
    {"row 0", 8, 4, 8, 4, {32, 8, 8}, 0},
    {"row 2, after the last chroma row", 8, 4, 8, 4, {32, 8, 8}, 2},
    {"row 3, the last luma row", 8, 4, 8, 4, {32, 8, 8}, 3},
    {"row 4, after the last", 8, 4, 8, 4, {32, 8, 8}, 4},
    {"row 2^61, whose start is 0 in a machine word", 8, 4, 8, 4, {32, 8, 8}, TWO_TO(61)},
    {"row 2^64 - 1", 8, 4, 8, 4, {32, 8, 8}, SIZE_MAX},
};

/* A line has the answer for the view, that for one row of each plane, and whether the planes are as they were. */
static void view_refusal_line(const ViewCase *c)
{
    Args a = {0};
    a.view_width = c->width, a.view_height = c->height, a.luma_stride = c->luma, a.chroma_stride = c->chroma, a.row = c->row;
    for (int p = 0; p < 3; p++)
        lend_all(&a, (enum slice)(VIEW_Y + p), c->lengths[p], UNWRITTEN);
    const Result made = asked(VIEW, &a);
    say_answer(c->name, &made);
    for (int p = 0; p < 3; p++) {
        const Result r = asked((enum call)(LUMA_ROW + p), &a);
        printf(", %c %lu %s %zu %zu", "yuv"[p], (unsigned long)r.number, r.present ? "present" : "absent", r.start, r.length);
    }
    say_read(", ", &a, VIEW_Y, VIEW_V, UNWRITTEN);
    printf("\n");
    over(VIEW);
}

/* A payload, the bytes of output lent, and what the units are behind their start codes; only as many of these as are counted are written. */
typedef struct { const char *name; size_t room, count; uint8_t payload[11], units[11]; } UnitsCase;
#define TWO_UNITS {0, 0, 0, 2, 103, 66, 0, 0, 0, 1, 104}, {0, 0, 0, 1, 103, 66, 0, 0, 0, 1, 104}
#define CUT_UNIT {0, 0, 0, 1, 103, 0, 0, 0, 2, 104}, {0, 0, 0, 1, 103}
static const UnitsCase units_cases[] = {
    {"annex b: two units, output exact", 11, 11, TWO_UNITS},
    {"annex b: two units, output one short", 10, 11, TWO_UNITS},
    {"annex b: two units, output one over", 12, 11, TWO_UNITS},
    {"annex b: two units, output empty", 0, 11, TWO_UNITS},
    {"annex b: empty payload, output empty", 0, 0, {0}, {0}},
    {"annex b: empty payload", 16, 0, {0}, {0}},
    {"annex b: 3 bytes, output empty", 0, 3, TWO_UNITS},
    {"annex b: a cut unit, output empty", 0, 5, TWO_UNITS},
    {"annex b: a length of 2^32 - 1, output empty", 0, 5, {255, 255, 255, 255, 103}, {0}},
    {"annex b: a length of 0, output exact", 4, 4, {0, 0, 0, 0}, {0, 0, 0, 1}},
    {"annex b: a length of 0, output one short", 3, 4, {0, 0, 0, 0}, {0, 0, 0, 1}},
    {"annex b: a unit and a cut one, output exact", 5, 10, CUT_UNIT},
    {"annex b: a unit and a cut one, output one short", 4, 10, CUT_UNIT},
    {"annex b: a unit and 3 bytes, output exact", 5, 8, CUT_UNIT},
    {"annex b: a unit and 3 bytes, output one short", 4, 8, CUT_UNIT},
};

/* A line has the answer, whether the output is as it was, and whether it is from the count on. */
static void units_line(const UnitsCase *c)
{
    enum { BEFORE = 170 };
    Args a = {0};
    lend_as(&a, DATA, c->count, c->payload);
    lend_all(&a, OUT, c->room, BEFORE);
    const Result r = asked(ANNEX_B, &a);
    const uint8_t *out = a.at[OUT];
    say_answer(c->name, &r);
    say_read(", ", &a, OUT, OUT, BEFORE);
    if (r.count <= c->room) {
        printf(", rest %s\n", all_are(out + r.count, c->room - r.count, BEFORE) ? "unchanged" : "changed");
        check(r.count <= sizeof c->units && memcmp(out, c->units, r.count) == 0, "avc_to_annex_b", "the units");
    }
    over(ANNEX_B);
}

static void refusals(void)
{
    for (size_t k = 0; k < sizeof view_cases / sizeof *view_cases; k++)
        view_refusal_line(&view_cases[k]);
    for (size_t k = 0; k < sizeof units_cases / sizeof *units_cases; k++)
        units_line(&units_cases[k]);
}

#endif
