/* A call for each result type and each list of parameters: a result or an argument that this machine passes in another way than the
 * library does would crash or be wrong here. oracle/calls.c runs these before anything else links the library, test.c before its other
 * checks. Answers are worked by hand. The file that includes this one has `check`. */
#ifndef RESULTS_H
#define RESULTS_H

#include <string.h>

#include "haythaw.h"

static void check(bool holds, const char *call, const char *what);

/* A view of 3 by 2 with strides 4 and 2: its second luma row stands at 4. */
static void result_of_view(void)
{
    uint8_t y[8] = {0}, u[2] = {0}, v[2] = {0};
    check(haythaw_view(3, 2, 4, 2, y, 8, u, 2, v, 2) == HAYTHAW_DONE, "view", "a number");
    check(haythaw_view(3, 2, 4, 2, y, 8, u, 2, v, 1) == HAYTHAW_VIEW_SHORT, "view", "a refusal");

    haythaw_row second = haythaw_luma_row(3, 2, 4, 2, y, 8, u, 2, v, 2, 1);
    check(second.number == HAYTHAW_DONE && second.present && second.start == 4 && second.length == 3, "luma_row", "a row");
    haythaw_row third = haythaw_luma_row(3, 2, 4, 2, y, 8, u, 2, v, 2, 2);
    check(third.number == HAYTHAW_DONE && !third.present && third.start == 0 && third.length == 0, "luma_row", "an absent row");
}

static void result_of_payload(void)
{
    const uint8_t units[6] = {0, 0, 0, 2, 0x67, 0x42}, annex_b[6] = {0, 0, 0, 1, 0x67, 0x42};
    check(haythaw_is_avc_format(units, 6), "is_avc_format", "yes");
    check(!haythaw_is_avc_format(units, 5), "is_avc_format", "no");

    uint8_t out[6] = {0};
    haythaw_answer answer = haythaw_avc_to_annex_b(units, 6, out, 5);
    check(answer.number == HAYTHAW_OUTPUT_SHORT && answer.count == 0, "avc_to_annex_b", "a refusal");
    answer = haythaw_avc_to_annex_b(units, 6, out, 6);
    check(answer.number == HAYTHAW_DONE && answer.count == 6 && memcmp(out, annex_b, 6) == 0, "avc_to_annex_b", "an answer");
}

/* A payload of kind 2, chroma alone: a rectangle at 8, its pair at 16, and one H.264 byte at 18. */
static void result_of_avc444(void)
{
    const uint8_t chroma[19] = {0, 0, 0, 0x80, 1, 0, 0, 0, 1, 2, 3, 4, 5, 6, 7, 8, 0xC9, 10, 11};
    haythaw_avc444 read = haythaw_avc444_read(chroma, 19);
    check(read.number == HAYTHAW_DONE && read.kind == 2, "avc444_read", "number and kind");
    check(read.luma.count == 0 && read.luma.rects == 0 && read.luma.pairs == 0 && read.luma.data == 0 && read.luma.length == 0,
          "avc444_read", "the stream that is not carried");
    check(read.chroma.count == 1 && read.chroma.rects == 8 && read.chroma.pairs == 16 && read.chroma.data == 18 && read.chroma.length == 1,
          "avc444_read", "the stream");
    read = haythaw_avc444_read(chroma, 17);
    check(read.number == HAYTHAW_STREAM_SHORT && read.kind == 0 && read.chroma.count == 0, "avc444_read", "a refusal");

    haythaw_rectangle first = haythaw_avc444_chroma_rectangle(chroma, 19, 0), second = haythaw_avc444_chroma_rectangle(chroma, 19, 1);
    check(first.number == HAYTHAW_DONE && first.present && first.left == 0x201 && first.top == 0x403 && first.right == 0x605 &&
              first.bottom == 0x807,
          "avc444_chroma_rectangle", "a rectangle");
    check(second.number == HAYTHAW_DONE && !second.present && second.bottom == 0, "avc444_chroma_rectangle", "an absent rectangle");
    haythaw_pair pair = haythaw_avc444_chroma_pair(chroma, 19, 0);
    check(pair.number == HAYTHAW_DONE && pair.present && pair.value == 9 && pair.reserved && pair.progressive && pair.quality == 10,
          "avc444_chroma_pair", "a pair");

    uint16_t out[5] = {7, 7, 7, 7, 7};
    haythaw_answer answer = haythaw_avc444_chroma_rects(chroma, 19, out, 3);
    check(answer.number == HAYTHAW_OUTPUT_SHORT && answer.count == 0 && out[0] == 7, "avc444_chroma_rects", "a refusal");
    answer = haythaw_avc444_chroma_rects(chroma, 19, out, 5);
    check(answer.number == HAYTHAW_DONE && answer.count == 4 && out[0] == 0x201 && out[3] == 0x807 && out[4] == 7,
          "avc444_chroma_rects", "a copy");
}

/* A payload of kind 0 is written, of six parts that all differ: luma is 4 + 8 + 2 + 3 = 17 bytes, chroma 4 + 16 + 4 + 1 = 25. */
static void result_of_write(void)
{
    const uint16_t luma_rects[4] = {1, 2, 3, 260}, chroma_rects[8] = {5, 6, 7, 8, 9, 10, 11, 65535};
    const uint8_t luma_pairs[2] = {0xD6, 100}, chroma_pairs[4] = {12, 13, 14, 15}, luma_data[3] = {16, 17, 18}, chroma_data[1] = {19};
    const uint8_t both[47] = {17, 0, 0, 0, 1, 0, 0, 0, 1, 0, 2, 0, 3, 0, 4, 1, 0xD6, 100, 16, 17, 18,
                              2, 0, 0, 0, 5, 0, 6, 0, 7, 0, 8, 0, 9, 0, 10, 0, 11, 0, 255, 255, 12, 13, 14, 15, 19, 7};
    uint8_t out[47];
    memset(out, 7, 47);
    haythaw_answer answer = haythaw_avc444_write(0, luma_rects, 4, luma_pairs, 2, luma_data, 3, chroma_rects, 8, chroma_pairs, 4,
                                                 chroma_data, 1, out, 45);
    check(answer.number == HAYTHAW_OUTPUT_SHORT && answer.count == 0 && out[0] == 7 && out[44] == 7, "avc444_write", "a refusal");
    answer = haythaw_avc444_write(0, luma_rects, 4, luma_pairs, 2, luma_data, 3, chroma_rects, 8, chroma_pairs, 4,
                                  chroma_data, 1, out, 47);
    check(answer.number == HAYTHAW_DONE && answer.count == 46 && memcmp(out, both, 47) == 0, "avc444_write", "a payload");
}

/* A picture of 2 by 1 with planes of 256 bytes. */
static void result_of_picture(void)
{
    static uint8_t y[256], u[256], v[256], map[64];
    check(haythaw_allocation_size(65535, 65535) == (size_t)3 << 32, "allocation_size", "a size");
    check(haythaw_map_size(65535, 65535) == (size_t)1 << 30, "map_size", "a size");

    memset(y, 1, 256);
    memset(map, 1, 64);
    check(haythaw_new(2, 1, y, 256, u, 256, v, 255, map, 64) == HAYTHAW_PLANE_SHORT && y[0] == 1 && u[0] == 0, "new", "a refusal");
    check(haythaw_new(2, 1, y, 256, u, 256, v, 256, map, 63) == HAYTHAW_PLANE_SHORT && y[0] == 1 && map[0] == 1, "new", "a short map");
    check(haythaw_new(2, 1, y, 256, u, 256, v, 256, map, 64) == HAYTHAW_DONE && map[0] == 0 && map[63] == 0 && y[0] == 0 && u[255] == 128 && v[0] == 128, "new", "a picture");

    /* Red and green, and in the rows below the same again: U (99 + 29 + 99 + 29 + 2)/4 = 64, V (255 + 12 + 255 + 12 + 2)/4 = 134. */
    const uint8_t rgba[8] = {255, 0, 0, 255, 0, 255, 0, 255};
    check(haythaw_from_rgba(rgba, 7, 2, 1, y, 256, u, 256, v, 256, map, 64) == HAYTHAW_RGBA_SHORT, "from_rgba", "a refusal");
    check(haythaw_from_rgba(rgba, 8, 2, 1, y, 256, u, 256, v, 256, map, 64) == HAYTHAW_DONE, "from_rgba", "a number");
    check(y[0] == 53 && y[1] == 182 && u[0] == 64 && u[1] == 29 && v[0] == 134 && v[1] == 12, "from_rgba", "a picture");
    check(y[16] == 53 && u[16] == 99 && v[16] == 255 && y[255] == 182 && u[255] == 29 && v[255] == 12, "from_rgba", "its edge");
    check(map[0] == 2 && map[63] == 2, "from_rgba", "its map");
    map[0] = 1;

    /* Or 128 in the row below: U (99 + 29 + 128 + 128 + 2)/4 = 96, V (255 + 12 + 128 + 128 + 2)/4 = 131. */
    check(haythaw_from_rgba_rust(rgba, 7, 2, 1, y, 256, u, 256, v, 256, map, 64) == HAYTHAW_RGBA_SHORT, "from_rgba_rust", "a refusal");
    check(haythaw_from_rgba_rust(rgba, 8, 2, 1, y, 256, u, 256, v, 256, map, 64) == HAYTHAW_DONE, "from_rgba_rust", "a number");
    check(y[0] == 53 && y[1] == 182 && u[0] == 96 && u[1] == 29 && v[0] == 131 && v[1] == 12, "from_rgba_rust", "a picture");
    check(y[16] == 0 && u[16] == 128 && v[16] == 128 && y[255] == 0 && u[255] == 128 && v[255] == 128, "from_rgba_rust", "its edge");

    uint8_t out[8] = {0};
    const uint8_t pixels[8] = {252, 0, 0, 255, 0, 254, 0, 255};
    haythaw_pixels shown = haythaw_to_rgba(2, 1, y, 256, u, 256, v, 256, map, 64, 0, 0, 9, 9, out, 7);
    check(shown.number == HAYTHAW_OUTPUT_SHORT && shown.count == 0, "to_rgba", "a refusal");
    check(shown.filtered_u == 0 && shown.filtered_v == 0 && shown.stale == 0, "to_rgba", "nothing counted in a refusal");
    shown = haythaw_to_rgba(2, 1, y, 256, u, 256, v, 256, map, 64, 0, 0, 9, 9, out, 8);
    check(shown.number == HAYTHAW_DONE && shown.count == 8 && memcmp(out, pixels, 8) == 0, "to_rgba", "an answer");

    /* U: 4 x 96 - (29 + 128 + 128) = 99, so 96 is kept; V: 4 x 131 - (12 + 128 + 128) = 256, so 131 becomes 255. */
    check(shown.filtered_u == 0 && shown.filtered_v == 1 && shown.stale == 0, "to_rgba", "what was filtered");

    /* Both pixels lie in the first block. */
    map[0] = 1;
    shown = haythaw_to_rgba(2, 1, y, 256, u, 256, v, 256, map, 64, 0, 0, 9, 9, out, 8);
    check(shown.number == HAYTHAW_DONE && shown.filtered_v == 1 && shown.stale == 2, "to_rgba", "what is stale");
}

/* Limited range, red and green: Y (66 x 255 + 128)/256 + 16 = 82 and (129 x 255 + 128)/256 + 16 = 144; U 90 and 54, V 240 and 34, and the
 * averages of the first block (90 + 54 + 90 + 54 + 2)/4 = 72 and (240 + 34 + 240 + 34 + 2)/4 = 137. Red and black come back as 255 1 0 and 0. */
static void result_of_limited(void)
{
    static uint8_t y[256], u[256], v[256], map[64];
    const uint8_t rgba[8] = {255, 0, 0, 255, 0, 255, 0, 255};
    check(haythaw_from_rgba_limited(rgba, 7, 2, 1, y, 256, u, 256, v, 256, map, 64) == HAYTHAW_RGBA_SHORT && y[0] == 0 && map[0] == 0,
          "from_rgba_limited", "a refusal");
    check(haythaw_from_rgba_limited(rgba, 8, 2, 1, y, 256, u, 256, v, 256, map, 64) == HAYTHAW_DONE, "from_rgba_limited", "a number");
    check(y[0] == 82 && y[1] == 144 && u[0] == 72 && u[1] == 54 && v[0] == 137 && v[1] == 34, "from_rgba_limited", "a picture");
    check(y[16] == 82 && u[16] == 90 && v[16] == 240 && y[255] == 144 && u[255] == 54 && v[255] == 34, "from_rgba_limited", "its edge");
    check(map[0] == 2 && map[63] == 2, "from_rgba_limited", "its map");

    const uint8_t view_y[4] = {82, 9, 16, 9}, view_u[2] = {90, 9}, view_v[2] = {240, 9}, dark_u[2] = {128, 9}, dark_v[2] = {128, 9};
    const uint8_t red[4] = {255, 1, 0, 255}, black[4] = {0, 0, 0, 255};
    uint8_t out[5] = {7, 7, 7, 7, 7};
    haythaw_answer answer = haythaw_view_to_rgba_limited(1, 1, 1, 1, view_y, 4, view_u, 2, view_v, 2, out, 3);
    check(answer.number == HAYTHAW_OUTPUT_SHORT && answer.count == 0 && out[0] == 7, "view_to_rgba_limited", "a refusal");
    answer = haythaw_view_to_rgba_limited(1, 1, 1, 1, view_y, 4, view_u, 2, view_v, 2, out, 5);
    check(answer.number == HAYTHAW_DONE && answer.count == 4 && memcmp(out, red, 4) == 0 && out[4] == 7, "view_to_rgba_limited", "an answer");
    answer = haythaw_view_to_rgba_limited(1, 1, 2, 2, view_y + 2, 2, dark_u, 2, dark_v, 2, out, 4);
    check(answer.number == HAYTHAW_DONE && answer.count == 4 && memcmp(out, black, 4) == 0, "view_to_rgba_limited", "black");
}

/* An apply call: the five that clip and the five that are strict have the same parameters. */
typedef uint32_t Applying(uint16_t, uint16_t, uint8_t *, size_t, uint8_t *, size_t, uint8_t *, size_t, uint8_t *, size_t, const uint16_t *,
                          size_t, uint16_t, uint16_t, size_t, size_t, const uint8_t *, size_t, const uint8_t *, size_t, const uint8_t *, size_t);

/* A view of 1 by 1 goes into a picture of 2 by 1, and to RGBA. */
static void result_of_main_view(Applying *apply, const char *name)
{
    uint8_t y[256] = {0}, u[256] = {0}, v[256] = {0}, map[64] = {0};
    const uint8_t view_y[1] = {53}, view_u[1] = {99}, view_v[1] = {255}, pixel[4] = {252, 0, 0, 255};
    const uint16_t rects[4] = {0, 0, 2, 1};
    check(apply(2, 1, y, 256, u, 256, v, 256, map, 64, rects, 3, 1, 1, 1, 1, view_y, 1, view_u, 1, view_v, 1) == HAYTHAW_LIST_UNEVEN,
          name, "a refusal");
    check(apply(2, 1, y, 256, u, 256, v, 256, map, 64, rects, 4, 1, 1, 1, 1, view_y, 1, view_u, 1, view_v, 1) == HAYTHAW_DONE, name, "a number");
    check(y[0] == 53 && y[1] == 0 && u[0] == 99 && u[1] == 0 && u[16] == 0 && v[0] == 255, name, "a picture");
    check(map[0] == 1 && map[1] == 0, name, "a map");

    uint8_t out[4] = {0};
    haythaw_answer answer = haythaw_view_to_rgba(1, 1, 1, 1, view_y, 1, view_u, 1, view_v, 1, out, 4);
    check(answer.number == HAYTHAW_DONE && answer.count == 4 && memcmp(out, pixel, 4) == 0, "view_to_rgba", "an answer");
}

/* Views in which U of an odd column, V of an odd column and so on are each a number of their own go into a picture of 2 by 2. What is left
 * of them: the three other places of its block, and no Y. */
typedef struct { uint8_t y[256], u[256], v[256], map[64]; } Two;
static const uint16_t two_by_two[4] = {0, 0, 2, 2};

static void is_left(const Two *p, const uint8_t u[3], const uint8_t v[3], const char *name)
{
    check(p->u[0] == 0 && p->u[1] == u[0] && p->u[16] == u[1] && p->u[17] == u[2] && p->u[18] == 0, name, "U");
    check(p->v[0] == 0 && p->v[1] == v[0] && p->v[16] == v[1] && p->v[17] == v[2] && p->v[18] == 0, name, "V");
    check(p->map[0] == 2 && p->map[1] == 1, name, "a map");
    check(p->y[0] == 0 && p->y[16] == 0, name, "no Y");
}

/* V1: the odd row comes from luma rows 0 and 8 of a view of 2 by 9. */
static void result_of_v1(Applying *apply, const char *name)
{
    Two p = {{0}, {0}, {0}, {1, 1}};
    uint8_t rows[18] = {11, 12};
    rows[16] = 21;
    rows[17] = 22;
    const uint8_t odd_u[5] = {13}, odd_v[5] = {23};
    check(apply(2, 2, p.y, 256, p.u, 256, p.v, 255, p.map, 64, two_by_two, 4, 2, 9, 2, 1, rows, 18, odd_u, 5, odd_v, 5) == HAYTHAW_PLANE_SHORT,
          name, "a refusal");
    check(apply(2, 2, p.y, 256, p.u, 256, p.v, 256, p.map, 64, two_by_two, 4, 2, 9, 2, 1, rows, 18, odd_u, 5, odd_v, 5) == HAYTHAW_DONE,
          name, "a number");
    const uint8_t left_u[] = {13, 11, 12}, left_v[] = {23, 21, 22};
    is_left(&p, left_u, left_v, name);
}

/* V2: in a view of 9 by 2, which counts as 16 wide, V stands 8 columns after U in luma and 4 in chroma. */
static void result_of_v2(Applying *apply, const char *name)
{
    Two p = {{0}, {0}, {0}, {1, 1}};
    const uint8_t columns[18] = {31, 0, 0, 0, 0, 0, 0, 0, 41, 32, 0, 0, 0, 0, 0, 0, 0, 42};
    const uint8_t fourths_u[5] = {33, 0, 0, 0, 43}, fourths_v[5] = {0};
    check(apply(2, 2, p.y, 256, p.u, 256, p.v, 256, p.map, 64, two_by_two, 4, 9, 2, 9, 5, columns, 18, fourths_u, 4, fourths_v, 5) ==
              HAYTHAW_VIEW_SHORT,
          name, "a refusal");
    check(apply(2, 2, p.y, 256, p.u, 256, p.v, 256, p.map, 64, two_by_two, 4, 9, 2, 9, 5, columns, 18, fourths_u, 5, fourths_v, 5) == HAYTHAW_DONE,
          name, "a number");
    const uint8_t left_u[] = {31, 33, 32}, left_v[] = {41, 43, 42};
    is_left(&p, left_u, left_v, name);
}

/* V2 by the 32 rule: a picture of 2 counts as 32 wide, so V stands 16 columns after U in luma and 8 in chroma, of a view of 17 by 2. */
static void result_of_v2_32(Applying *apply, const char *name)
{
    Two p = {{0}, {0}, {0}, {1, 1}};
    const uint8_t wide[34] = {51, 0, 0, 0, 0, 0, 0, 0, 0, 0, 0, 0, 0, 0, 0, 0, 61, 52, 0, 0, 0, 0, 0, 0, 0, 0, 0, 0, 0, 0, 0, 0, 0, 62};
    const uint8_t wide_u[9] = {53, 0, 0, 0, 0, 0, 0, 0, 63}, wide_v[9] = {0};
    check(apply(2, 2, p.y, 256, p.u, 256, p.v, 256, p.map, 64, two_by_two, 4, 17, 2, 17, 8, wide, 34, wide_u, 9, wide_v, 9) == HAYTHAW_VIEW_NARROW,
          name, "a refusal");
    check(apply(2, 2, p.y, 256, p.u, 256, p.v, 256, p.map, 64, two_by_two, 4, 17, 2, 17, 9, wide, 34, wide_u, 9, wide_v, 9) == HAYTHAW_DONE,
          name, "a number");
    const uint8_t left_u[] = {51, 53, 52}, left_v[] = {61, 63, 62};
    is_left(&p, left_u, left_v, name);
}

/* V2 by the rule Exact: a picture of 2 is 2 wide, so V stands a column after U in luma, and both stand in one place in chroma. */
static void result_of_v2_exact(Applying *apply, const char *name)
{
    Two p = {{0}, {0}, {0}, {1, 1}};
    const uint8_t own[4] = {71, 81, 72, 82}, own_u[1] = {73}, own_v[1] = {0};
    check(apply(2, 2, p.y, 256, p.u, 256, p.v, 256, p.map, 64, two_by_two, 3, 2, 2, 2, 1, own, 4, own_u, 1, own_v, 1) == HAYTHAW_LIST_UNEVEN,
          name, "a refusal");
    check(apply(2, 2, p.y, 256, p.u, 256, p.v, 256, p.map, 64, two_by_two, 4, 2, 2, 2, 1, own, 4, own_u, 1, own_v, 1) == HAYTHAW_DONE,
          name, "a number");
    const uint8_t left_u[] = {71, 73, 72}, left_v[] = {81, 73, 82};
    is_left(&p, left_u, left_v, name);
}

/* What the strict calls alone refuse, in a picture of 2 by 2: the second rectangle's right is above the width. A view of 32 by 16 has all that
 * any of them would take of the first. */
static void result_of_unsound(Applying *apply, const char *name)
{
    Two p = {{0}, {0}, {0}, {1, 1}};
    const Two before = p;
    const uint16_t rects[8] = {0, 0, 2, 2, 0, 0, 3, 2};
    const uint8_t view[512] = {9, 9, 9, 9};
    check(apply(2, 2, p.y, 256, p.u, 256, p.v, 256, p.map, 64, rects, 8, 32, 16, 32, 16, view, 512, view, 128, view, 128) == HAYTHAW_RECT_UNSOUND,
          name, "an unsound list");
    check(memcmp(&p, &before, sizeof p) == 0, name, "an unsound list changed a byte");
}

static void result_of_first_unsound(void)
{
    const uint16_t rects[12] = {0, 0, 2, 3, 1, 2, 2, 3, 0, 1, 2, 4};
    haythaw_unsound none = haythaw_first_unsound(2, 3, rects, 8), third = haythaw_first_unsound(2, 3, rects, 12);
    check(none.number == HAYTHAW_DONE && !none.present && none.fault == 0 && none.index == 0, "first_unsound", "none");
    check(third.number == HAYTHAW_DONE && third.present && third.fault == 4 && third.index == 2, "first_unsound", "the third, for its bottom");
    haythaw_unsound first = haythaw_first_unsound(1, 3, rects, 12), refused = haythaw_first_unsound(1, 3, rects, 11);
    check(first.number == HAYTHAW_DONE && first.present && first.fault == 3 && first.index == 0, "first_unsound", "the first, for its right");
    check(refused.number == HAYTHAW_LIST_UNEVEN && !refused.present && refused.fault == 0 && refused.index == 0, "first_unsound", "a refusal");
}

static void result_of_views_applied(void)
{
    result_of_main_view(haythaw_apply_main_view, "apply_main_view");
    result_of_v1(haythaw_apply_auxiliary_v1, "apply_auxiliary_v1");
    result_of_v2(haythaw_apply_auxiliary_v2, "apply_auxiliary_v2");
    result_of_v2_32(haythaw_apply_auxiliary_v2_32, "apply_auxiliary_v2_32");
    result_of_v2_exact(haythaw_apply_auxiliary_v2_exact, "apply_auxiliary_v2_exact");
    result_of_main_view(haythaw_apply_main_view_strict, "apply_main_view_strict");
    result_of_v1(haythaw_apply_auxiliary_v1_strict, "apply_auxiliary_v1_strict");
    result_of_v2(haythaw_apply_auxiliary_v2_strict, "apply_auxiliary_v2_strict");
    result_of_v2_32(haythaw_apply_auxiliary_v2_32_strict, "apply_auxiliary_v2_32_strict");
    result_of_v2_exact(haythaw_apply_auxiliary_v2_exact_strict, "apply_auxiliary_v2_exact_strict");
    result_of_unsound(haythaw_apply_main_view_strict, "apply_main_view_strict");
    result_of_unsound(haythaw_apply_auxiliary_v1_strict, "apply_auxiliary_v1_strict");
    result_of_unsound(haythaw_apply_auxiliary_v2_strict, "apply_auxiliary_v2_strict");
    result_of_unsound(haythaw_apply_auxiliary_v2_32_strict, "apply_auxiliary_v2_32_strict");
    result_of_unsound(haythaw_apply_auxiliary_v2_exact_strict, "apply_auxiliary_v2_exact_strict");
    result_of_first_unsound();
}

/* A picture of 2 by 1 is split into views of 16 by 16, and one of 65,521 by 0 into none. */
static void result_of_split(void)
{
    static uint8_t y[256], u[256], v[256], main_y[256], main_u[64], main_v[64], aux_y[256], aux_u[64], aux_v[64];
    y[255] = 1;
    u[0] = 2, u[1] = 3, u[16] = 4;
    v[0] = 5, v[1] = 6, v[16] = 7;

    haythaw_views views = haythaw_split_v1(2, 1, y, 256, u, 256, v, 256, main_y, 256, main_u, 64, main_v, 64,
                                           aux_y, 256, aux_u, 64, aux_v, 63);
    check(views.number == HAYTHAW_OUTPUT_SHORT && views.width == 0 && views.height == 0, "split_v1", "a refusal");
    check(views.luma_stride == 0 && views.chroma_stride == 0 && main_y[255] == 0, "split_v1", "no strides");

    views = haythaw_split_v1(2, 1, y, 256, u, 256, v, 256, main_y, 256, main_u, 64, main_v, 64, aux_y, 256, aux_u, 64, aux_v, 64);
    check(views.number == HAYTHAW_DONE, "split_v1", "a number");
    check(views.width == 16 && views.height == 16 && views.luma_stride == 16 && views.chroma_stride == 8, "split_v1", "sizes");
    check(main_y[255] == 1 && main_u[0] == 2 && main_v[0] == 5, "split_v1", "the main view");
    check(aux_y[0] == 4 && aux_y[128] == 7 && aux_u[0] == 3 && aux_v[0] == 6, "split_v1", "the auxiliary view");

    views = haythaw_split_v2(2, 1, y, 256, u, 256, v, 256, main_y, 256, main_u, 64, main_v, 64, aux_y, 256, aux_u, 64, aux_v, 64);
    check(views.number == HAYTHAW_DONE, "split_v2", "a number");
    check(views.width == 16 && views.height == 16 && views.luma_stride == 16 && views.chroma_stride == 8, "split_v2", "sizes");
    check(aux_y[0] == 3 && aux_y[8] == 6 && aux_u[0] == 4 && aux_u[4] == 7 && aux_v[0] == 0, "split_v2", "the auxiliary view");

    /* width 0 leaves a height, so that the two are not exchanged */
    views = haythaw_split_v2(0, 16, y, 0, u, 0, v, 0, main_y, 0, main_u, 0, main_v, 0, aux_y, 0, aux_u, 0, aux_v, 0);
    check(views.number == HAYTHAW_DONE && views.width == 0 && views.height == 16, "split_v2", "empty views");
    views = haythaw_split_v2(65521, 0, y, 0, u, 0, v, 0, main_y, 0, main_u, 0, main_v, 0, aux_y, 0, aux_u, 0, aux_v, 0);
    check(views.number == HAYTHAW_SPLIT_LARGE && views.width == 0 && views.luma_stride == 0, "split_v2", "too wide");
}

/* A picture of 2 by 1 by the 32 rule, whose views are 32 by 16: the 16 columns past its stride have Y 0, and U and V 128. */
static void result_of_split_32(void)
{
    static uint8_t y[256], u[256], v[256], main_y[512], main_u[128], main_v[128], aux_y[512], aux_u[128], aux_v[128];
    y[255] = 1;
    u[0] = 2, u[1] = 3, u[16] = 4;
    v[0] = 5, v[1] = 6, v[16] = 7;
    memset(main_y, 9, 512);

    haythaw_views views = haythaw_split_v2_32(2, 1, y, 256, u, 256, v, 256, main_y, 512, main_u, 128, main_v, 128,
                                              aux_y, 512, aux_u, 128, aux_v, 127);
    check(views.number == HAYTHAW_OUTPUT_SHORT && views.width == 0 && main_y[0] == 9, "split_v2_32", "a refusal");
    views = haythaw_split_v2_32(2, 1, y, 256, u, 256, v, 256, main_y, 512, main_u, 128, main_v, 128,
                                aux_y, 512, aux_u, 128, aux_v, 128);
    check(views.number == HAYTHAW_DONE, "split_v2_32", "a number");
    check(views.width == 32 && views.height == 16 && views.luma_stride == 32 && views.chroma_stride == 16, "split_v2_32", "sizes");
    check(main_y[495] == 1 && main_y[496] == 0 && main_y[511] == 0, "split_v2_32", "main luma");
    check(main_u[0] == 2 && main_u[8] == 128 && main_v[0] == 5 && main_v[127] == 128, "split_v2_32", "main chroma");
    check(aux_y[0] == 3 && aux_y[8] == 128 && aux_y[16] == 6 && aux_y[511] == 128, "split_v2_32", "auxiliary luma");
    check(aux_u[0] == 4 && aux_u[4] == 128 && aux_u[8] == 7 && aux_v[0] == 0 && aux_v[12] == 128, "split_v2_32", "auxiliary chroma");

    views = haythaw_split_v2_32(65505, 0, y, 0, u, 0, v, 0, main_y, 0, main_u, 0, main_v, 0, aux_y, 0, aux_u, 0, aux_v, 0);
    check(views.number == HAYTHAW_SPLIT_LARGE && views.width == 0 && views.luma_stride == 0, "split_v2_32", "too wide");
}

/* A check of two views. */
typedef haythaw_checked Checking(uint16_t, uint16_t, const uint8_t *, size_t, const uint8_t *, size_t, const uint8_t *, size_t, uint16_t, uint16_t,
                                 size_t, size_t, const uint8_t *, size_t, const uint8_t *, size_t, const uint8_t *, size_t, uint16_t, uint16_t,
                                 size_t, size_t, const uint8_t *, size_t, const uint8_t *, size_t, const uint8_t *, size_t);

/* The views of the picture of 2 by 1 that result_of_split has, so wide: main and auxiliary, with Y, U and V each, and four strides that all
 * differ. Past the stride of the picture, 16, a view by the 32 rule has Y 0, and U and V 128. */
enum { PAIR_LUMA = 34 * 16, PAIR_CHROMA = 18 * 8 };
typedef struct {
    uint16_t wide;
    size_t luma[2], chroma[2];
    uint8_t y[2][PAIR_LUMA], u[2][PAIR_CHROMA], v[2][PAIR_CHROMA];
} Pair;

static Pair pair_of(uint16_t wide)
{
    Pair p = {wide, {wide + 1u, wide + 2u}, {wide / 2 + 1u, wide / 2 + 2u}, {{0}}, {{0}}, {{0}}};
    for (size_t row = 0; row < 16 && wide == 32; row++)
        for (size_t k = 0; k < 8; k++) {
            p.y[1][row * p.luma[1] + 8 + k] = p.y[1][row * p.luma[1] + 24 + k] = 128;
            p.u[0][row / 2 * p.chroma[0] + 8 + k] = p.v[0][row / 2 * p.chroma[0] + 8 + k] = 128;
            p.u[1][row / 2 * p.chroma[1] + 4 + k % 4 + k / 4 * 8] = p.v[1][row / 2 * p.chroma[1] + 4 + k % 4 + k / 4 * 8] = 128;
        }
    p.y[0][15 * p.luma[0] + 15] = 1, p.u[0][0] = 2, p.v[0][0] = 5;
    return p;
}

static haythaw_checked checked(Checking *call, const Pair *p, uint16_t auxiliary_width, size_t auxiliary_v_count)
{
    static uint8_t y[256], u[256], v[256];
    y[255] = 1;
    u[0] = 2, u[1] = 3, u[16] = 4;
    v[0] = 5, v[1] = 6, v[16] = 7;
    return call(2, 1, y, 256, u, 256, v, 256, p->wide, 16, p->luma[0], p->chroma[0], p->y[0], 16 * p->luma[0], p->u[0], 8 * p->chroma[0], p->v[0],
                8 * p->chroma[0], auxiliary_width, 16, p->luma[1], p->chroma[1], p->y[1], 16 * p->luma[1], p->u[1], 8 * p->chroma[1], p->v[1],
                auxiliary_v_count);
}

static bool none_named(haythaw_checked c)
{
    return !c.named && c.view == 0 && c.plane == 0 && c.row == 0 && c.column == 0;
}

/* A yes; the first sample of the auxiliary view's luma, and the last of its V; sizes; and a refusal. */
static void result_of_check(Checking *call, Pair *p, const char *name)
{
    const size_t room = 8 * p->chroma[1], last = 7 * p->chroma[1] + p->wide / 2 - 1;
    haythaw_checked answer = checked(call, p, p->wide, room);
    check(answer.number == HAYTHAW_DONE && answer.same && none_named(answer), name, "yes");
    answer = checked(call, p, p->wide, room - 1);
    check(answer.number == HAYTHAW_VIEW_SHORT && !answer.same && none_named(answer), name, "a refusal");
    p->v[1][last] ^= 1;
    answer = checked(call, p, p->wide, room);
    check(answer.number == HAYTHAW_DONE && !answer.same && answer.named && answer.view == HAYTHAW_VIEW_AUXILIARY &&
              answer.plane == HAYTHAW_PLANE_V && answer.row == 7 && answer.column == p->wide / 2 - 1,
          name, "the last sample");
    p->y[1][0] ^= 1;
    answer = checked(call, p, p->wide, room);
    check(answer.named && answer.view == HAYTHAW_VIEW_AUXILIARY && answer.plane == HAYTHAW_PLANE_Y && answer.row == 0 && answer.column == 0, name,
          "the first of two");
    answer = checked(call, p, p->wide - 1u, room);
    check(answer.number == HAYTHAW_DONE && !answer.same && none_named(answer), name, "a wrong size");
}

static void result_of_checks(void)
{
    Pair v1 = pair_of(16), v2 = pair_of(16), v2_32 = pair_of(32);
    v1.y[1][0] = 4, v1.y[1][8 * v1.luma[1]] = 7, v1.u[1][0] = 3, v1.v[1][0] = 6;
    v2.y[1][0] = 3, v2.y[1][8] = 6, v2.u[1][0] = 4, v2.u[1][4] = 7;
    v2_32.y[1][0] = 3, v2_32.y[1][16] = 6, v2_32.u[1][0] = 4, v2_32.u[1][8] = 7;
    result_of_check(haythaw_check_v1, &v1, "check_v1");
    result_of_check(haythaw_check_v2, &v2, "check_v2");
    result_of_check(haythaw_check_v2_32, &v2_32, "check_v2_32");
}

static void result_of_text(void)
{
    check(haythaw_version() >= 3 * 256, "version", "a number");
    check(strcmp(haythaw_number_text(HAYTHAW_DONE), "done") == 0, "number_text", "a text");
}

static void each_result_type(void)
{
    result_of_text();
    result_of_view();
    result_of_payload();
    result_of_avc444();
    result_of_write();
    result_of_picture();
    result_of_limited();
    result_of_views_applied();
    result_of_split();
    result_of_split_32();
    result_of_checks();
}

#endif
