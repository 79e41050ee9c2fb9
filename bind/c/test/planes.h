/* haythaw_planes.h: each function leaves and answers what the plain call of the same arguments leaves and answers, byte for byte, refusals
 * too. A picture of 20x6 and a view of 32x16 are taken as they are, and then with one argument altered at a time, so that an argument
 * which went to another's place would show. test.c and `make check` run it; the file that includes it has `check`. */
#ifndef PLANES_H
#define PLANES_H

#include <string.h>

#include "haythaw_planes.h"

static void check(bool holds, const char *call, const char *what);

enum planes_call {
    P_NEW, P_FROM_RGBA, P_FROM_RGBA_RUST, P_FROM_RGBA_LIMITED, P_TO_RGBA, P_FIRST_UNSOUND, P_MAIN, P_V1, P_V2, P_V2_32, P_V2_EXACT,
    P_MAIN_STRICT, P_V1_STRICT, P_V2_STRICT, P_V2_32_STRICT, P_V2_EXACT_STRICT, P_SPLIT_V1, P_SPLIT_V2, P_SPLIT_V2_32, P_CHECK_V1,
    P_CHECK_V2, P_CHECK_V2_32, P_VIEW, P_VIEW_TO_RGBA, P_VIEW_TO_RGBA_LIMITED, P_CALLS
};

/* The numbers that can be altered, and what they are where the call is accepted; counts last. */
enum planes_word {
    W_WIDTH, W_HEIGHT, W_LEFT, W_TOP, W_RIGHT, W_BOTTOM, W_VIEW_WIDTH, W_VIEW_HEIGHT, W_LUMA_STRIDE, W_CHROMA_STRIDE, W_RECT_LEFT, W_Y, W_U,
    W_V, W_MAP, W_RGBA, W_RECTS, W_VIEW_Y, W_VIEW_U, W_VIEW_V, W_OUT, W_MAIN_Y, W_MAIN_U, W_MAIN_V, W_AUXILIARY_Y, W_AUXILIARY_U,
    W_AUXILIARY_V, W_WORDS
};
static const size_t planes_words[W_WORDS] = {20, 6, 1, 2, 18, 5, 32, 16, 34, 18, 3, 512, 512, 512, 128, 480, 8, 544, 144, 144, 2048,
                                             512, 128, 128, 512, 128, 128};

enum { PLANES_ROOM = 640 };

/* All that a call may write. */
typedef struct {
    uint8_t y[PLANES_ROOM], u[PLANES_ROOM], v[PLANES_ROOM], map[PLANES_ROOM], out[2048];
    uint8_t main_y[PLANES_ROOM], main_u[PLANES_ROOM], main_v[PLANES_ROOM];
    uint8_t auxiliary_y[PLANES_ROOM], auxiliary_u[PLANES_ROOM], auxiliary_v[PLANES_ROOM];
} PlanesLent;

/* What any of them answers. */
typedef struct {
    size_t field[5];
} PlanesAnswer;

static PlanesAnswer planes_answer(size_t a, size_t b, size_t c, size_t d, size_t e)
{
    PlanesAnswer answer;
    answer.field[0] = a;
    answer.field[1] = b;
    answer.field[2] = c;
    answer.field[3] = d;
    answer.field[4] = e;
    return answer;
}

static PlanesAnswer planes_number(uint32_t number)
{
    return planes_answer(number, 0, 0, 0, 0);
}

static PlanesAnswer planes_pixels(haythaw_pixels p)
{
    return planes_answer(p.number, p.count, p.filtered_u, p.filtered_v, p.stale);
}

static PlanesAnswer planes_views(haythaw_views w)
{
    return planes_answer(w.number, w.width, w.height, w.luma_stride, w.chroma_stride);
}

static PlanesAnswer planes_checked(haythaw_checked c)
{
    return planes_answer(c.number, (size_t)c.same * 2 + (size_t)c.named, (size_t)c.view * 3 + c.plane, c.row, c.column);
}

static PlanesAnswer planes_unsound(haythaw_unsound f)
{
    return planes_answer(f.number, f.present, f.fault, f.index, 0);
}

static PlanesAnswer planes_short(haythaw_answer a)
{
    return planes_answer(a.number, a.count, 0, 0, 0);
}

static uint8_t planes_rgba[PLANES_ROOM], planes_view[3][PLANES_ROOM];
static uint16_t planes_rects[8] = {3, 1, 17, 6, 0, 0, 4, 2};

#define PW(word) ((uint16_t)w[word])
#define PLANES_SIZE PW(W_WIDTH), PW(W_HEIGHT)
#define PLANES_THREE lent->y, w[W_Y], lent->u, w[W_U], lent->v, w[W_V]
#define PLANES_FOUR PLANES_THREE, lent->map, w[W_MAP]
#define PLANES_LIST planes_rects, w[W_RECTS]
#define PLANES_VIEW \
    PW(W_VIEW_WIDTH), PW(W_VIEW_HEIGHT), w[W_LUMA_STRIDE], w[W_CHROMA_STRIDE], planes_view[0], w[W_VIEW_Y], planes_view[1], w[W_VIEW_U], \
        planes_view[2], w[W_VIEW_V]
#define PLANES_MAIN lent->main_y, w[W_MAIN_Y], lent->main_u, w[W_MAIN_U], lent->main_v, w[W_MAIN_V]
#define PLANES_AUXILIARY lent->auxiliary_y, w[W_AUXILIARY_Y], lent->auxiliary_u, w[W_AUXILIARY_U], lent->auxiliary_v, w[W_AUXILIARY_V]
#define PLANES_MAIN_SPLIT PW(W_VIEW_WIDTH), PW(W_VIEW_HEIGHT), 32, 16, PLANES_MAIN
#define PLANES_AUXILIARY_SPLIT 32, 16, 32, 16, PLANES_AUXILIARY
#define PLANES_AREA PW(W_LEFT), PW(W_TOP), PW(W_RIGHT), PW(W_BOTTOM), lent->out, w[W_OUT]

static PlanesAnswer planes_plain(enum planes_call call, const size_t *w, PlanesLent *lent)
{
    switch (call) {
    case P_NEW: return planes_number(haythaw_new(PLANES_SIZE, PLANES_FOUR));
    case P_FROM_RGBA: return planes_number(haythaw_from_rgba(planes_rgba, w[W_RGBA], PLANES_SIZE, PLANES_FOUR));
    case P_FROM_RGBA_RUST: return planes_number(haythaw_from_rgba_rust(planes_rgba, w[W_RGBA], PLANES_SIZE, PLANES_FOUR));
    case P_FROM_RGBA_LIMITED: return planes_number(haythaw_from_rgba_limited(planes_rgba, w[W_RGBA], PLANES_SIZE, PLANES_FOUR));
    case P_TO_RGBA: return planes_pixels(haythaw_to_rgba(PLANES_SIZE, PLANES_FOUR, PLANES_AREA));
    case P_FIRST_UNSOUND: return planes_unsound(haythaw_first_unsound(PLANES_SIZE, PLANES_LIST));
    case P_MAIN: return planes_number(haythaw_apply_main_view(PLANES_SIZE, PLANES_FOUR, PLANES_LIST, PLANES_VIEW));
    case P_V1: return planes_number(haythaw_apply_auxiliary_v1(PLANES_SIZE, PLANES_FOUR, PLANES_LIST, PLANES_VIEW));
    case P_V2: return planes_number(haythaw_apply_auxiliary_v2(PLANES_SIZE, PLANES_FOUR, PLANES_LIST, PLANES_VIEW));
    case P_V2_32: return planes_number(haythaw_apply_auxiliary_v2_32(PLANES_SIZE, PLANES_FOUR, PLANES_LIST, PLANES_VIEW));
    case P_V2_EXACT: return planes_number(haythaw_apply_auxiliary_v2_exact(PLANES_SIZE, PLANES_FOUR, PLANES_LIST, PLANES_VIEW));
    case P_MAIN_STRICT: return planes_number(haythaw_apply_main_view_strict(PLANES_SIZE, PLANES_FOUR, PLANES_LIST, PLANES_VIEW));
    case P_V1_STRICT: return planes_number(haythaw_apply_auxiliary_v1_strict(PLANES_SIZE, PLANES_FOUR, PLANES_LIST, PLANES_VIEW));
    case P_V2_STRICT: return planes_number(haythaw_apply_auxiliary_v2_strict(PLANES_SIZE, PLANES_FOUR, PLANES_LIST, PLANES_VIEW));
    case P_V2_32_STRICT: return planes_number(haythaw_apply_auxiliary_v2_32_strict(PLANES_SIZE, PLANES_FOUR, PLANES_LIST, PLANES_VIEW));
    case P_V2_EXACT_STRICT: return planes_number(haythaw_apply_auxiliary_v2_exact_strict(PLANES_SIZE, PLANES_FOUR, PLANES_LIST, PLANES_VIEW));
    case P_SPLIT_V1: return planes_views(haythaw_split_v1(PLANES_SIZE, PLANES_THREE, PLANES_MAIN, PLANES_AUXILIARY));
    case P_SPLIT_V2: return planes_views(haythaw_split_v2(PLANES_SIZE, PLANES_THREE, PLANES_MAIN, PLANES_AUXILIARY));
    case P_SPLIT_V2_32: return planes_views(haythaw_split_v2_32(PLANES_SIZE, PLANES_THREE, PLANES_MAIN, PLANES_AUXILIARY));
    case P_CHECK_V1: return planes_checked(haythaw_check_v1(PLANES_SIZE, PLANES_THREE, PLANES_MAIN_SPLIT, PLANES_AUXILIARY_SPLIT));
    case P_CHECK_V2: return planes_checked(haythaw_check_v2(PLANES_SIZE, PLANES_THREE, PLANES_MAIN_SPLIT, PLANES_AUXILIARY_SPLIT));
    case P_CHECK_V2_32: return planes_checked(haythaw_check_v2_32(PLANES_SIZE, PLANES_THREE, PLANES_MAIN_SPLIT, PLANES_AUXILIARY_SPLIT));
    case P_VIEW: return planes_number(haythaw_view(PLANES_VIEW));
    case P_VIEW_TO_RGBA: return planes_short(haythaw_view_to_rgba(PLANES_VIEW, lent->out, w[W_OUT]));
    case P_VIEW_TO_RGBA_LIMITED: return planes_short(haythaw_view_to_rgba_limited(PLANES_VIEW, lent->out, w[W_OUT]));
    case P_CALLS: break;
    }
    return planes_number(UINT32_MAX);
}

static PlanesAnswer planes_structs(enum planes_call call, const size_t *w, PlanesLent *lent)
{
    const haythaw_picture picture = {PLANES_SIZE, PLANES_FOUR};
    const haythaw_rects list = {PLANES_LIST};
    const haythaw_view_planes view = {PLANES_VIEW};
    const haythaw_view_room main_view = {PLANES_MAIN}, auxiliary = {PLANES_AUXILIARY};
    const haythaw_view_planes main_split = {PLANES_MAIN_SPLIT}, auxiliary_split = {PLANES_AUXILIARY_SPLIT};
    switch (call) {
    case P_NEW: return planes_number(haythaw_picture_new(&picture));
    case P_FROM_RGBA: return planes_number(haythaw_picture_from_rgba(&picture, planes_rgba, w[W_RGBA]));
    case P_FROM_RGBA_RUST: return planes_number(haythaw_picture_from_rgba_rust(&picture, planes_rgba, w[W_RGBA]));
    case P_FROM_RGBA_LIMITED: return planes_number(haythaw_picture_from_rgba_limited(&picture, planes_rgba, w[W_RGBA]));
    case P_TO_RGBA: return planes_pixels(haythaw_picture_to_rgba(&picture, PLANES_AREA));
    case P_FIRST_UNSOUND: return planes_unsound(haythaw_picture_first_unsound(&picture, list));
    case P_MAIN: return planes_number(haythaw_picture_apply_main_view(&picture, list, &view));
    case P_V1: return planes_number(haythaw_picture_apply_auxiliary_v1(&picture, list, &view));
    case P_V2: return planes_number(haythaw_picture_apply_auxiliary_v2(&picture, list, &view));
    case P_V2_32: return planes_number(haythaw_picture_apply_auxiliary_v2_32(&picture, list, &view));
    case P_V2_EXACT: return planes_number(haythaw_picture_apply_auxiliary_v2_exact(&picture, list, &view));
    case P_MAIN_STRICT: return planes_number(haythaw_picture_apply_main_view_strict(&picture, list, &view));
    case P_V1_STRICT: return planes_number(haythaw_picture_apply_auxiliary_v1_strict(&picture, list, &view));
    case P_V2_STRICT: return planes_number(haythaw_picture_apply_auxiliary_v2_strict(&picture, list, &view));
    case P_V2_32_STRICT: return planes_number(haythaw_picture_apply_auxiliary_v2_32_strict(&picture, list, &view));
    case P_V2_EXACT_STRICT: return planes_number(haythaw_picture_apply_auxiliary_v2_exact_strict(&picture, list, &view));
    case P_SPLIT_V1: return planes_views(haythaw_picture_split_v1(&picture, &main_view, &auxiliary));
    case P_SPLIT_V2: return planes_views(haythaw_picture_split_v2(&picture, &main_view, &auxiliary));
    case P_SPLIT_V2_32: return planes_views(haythaw_picture_split_v2_32(&picture, &main_view, &auxiliary));
    case P_CHECK_V1: return planes_checked(haythaw_picture_check_v1(&picture, &main_split, &auxiliary_split));
    case P_CHECK_V2: return planes_checked(haythaw_picture_check_v2(&picture, &main_split, &auxiliary_split));
    case P_CHECK_V2_32: return planes_checked(haythaw_picture_check_v2_32(&picture, &main_split, &auxiliary_split));
    case P_VIEW: return planes_number(haythaw_view_planes_check(&view));
    case P_VIEW_TO_RGBA: return planes_short(haythaw_view_planes_to_rgba(&view, lent->out, w[W_OUT]));
    case P_VIEW_TO_RGBA_LIMITED: return planes_short(haythaw_view_planes_to_rgba_limited(&view, lent->out, w[W_OUT]));
    case P_CALLS: break;
    }
    return planes_number(UINT32_MAX);
}

/* Bytes that differ from place to place. */
static void planes_fill(uint8_t *bytes, size_t count, uint32_t seed)
{
    for (size_t k = 0; k < count; k++)
        bytes[k] = (uint8_t)(((uint32_t)k + 1) * (seed * 2 + 1) * 2654435761u >> 23);
}

/* For a check the views are the picture's split, 32x16, but for one sample of the auxiliary view's U. */
static void planes_split(enum planes_call call, PlanesLent *lent)
{
    const size_t *w = planes_words;
    if (call < P_CHECK_V1 || call > P_CHECK_V2_32)
        return;
    const enum planes_call split = (enum planes_call)(P_SPLIT_V1 + (call - P_CHECK_V1));
    check(planes_plain(split, w, lent).field[0] == HAYTHAW_DONE, "planes", "the views that are checked");
    lent->auxiliary_u[5] ^= 1;
    const PlanesAnswer named = planes_plain(call, w, lent);
    check(named.field[0] == HAYTHAW_DONE && named.field[1] == 1 && named.field[2] == 4 && named.field[3] == 0 && named.field[4] == 5, "planes",
          "the sample that is altered");
}

/* One call both ways; whether it was refused. */
static bool planes_case(enum planes_call call, const size_t *w)
{
    static PlanesLent plain, structs, before;
    planes_fill((uint8_t *)&before, sizeof before, 9);
    for (size_t k = 0; k < PLANES_ROOM; k++)
        before.map[k] %= 3;
    planes_split(call, &before);
    plain = structs = before;
    planes_rects[0] = PW(W_RECT_LEFT);
    const PlanesAnswer one = planes_plain(call, w, &plain), other = planes_structs(call, w, &structs);
    const bool refused = one.field[0] != HAYTHAW_DONE;
    check(memcmp(&one, &other, sizeof one) == 0, "planes", "the answer by structs");
    check(memcmp(&plain, &structs, sizeof plain) == 0, "planes", "the bytes by structs");
    check(!refused || memcmp(&plain, &before, sizeof plain) == 0, "planes", "a refusal changes nothing");
    return refused;
}

/* The sizes by hand: 20x6 is padded to 32x16, and 48x6 to 48x16; by the 32 rule the latter is 64 wide. */
static void planes_sizes(void)
{
    check(haythaw_plane_size(20, 6) == 512 && haythaw_plane_size(0, 6) == 0, "plane_size", "by hand");
    check(haythaw_rgba_size(20, 6) == 480 && haythaw_rgba_size(65535, 65535) == (size_t)65535 * 65535 * 4, "rgba_size", "by hand");
    check(haythaw_view_luma_size(48, 6) == 768 && haythaw_view_luma_size_32(48, 6) == 1024, "view_luma_size", "by hand");
    check(haythaw_view_luma_size_32(65535, 65535) == (size_t)65536 * 65536, "view_luma_size_32", "by hand");
    haythaw_views views;
    memset(&views, 0, sizeof views);
    views.width = 32, views.height = 16, views.luma_stride = 33, views.chroma_stride = 17;
    const haythaw_view_room room = {planes_view[0], 5, planes_view[1], 6, planes_view[2], 7};
    const haythaw_view_planes written = haythaw_view_written(views, &room);
    check(written.width == 32 && written.height == 16 && written.luma_stride == 33 && written.chroma_stride == 17, "view_written", "sizes");
    check(written.y == room.y && written.u == room.u && written.v == room.v && written.y_count == 5 && written.u_count == 6 &&
              written.v_count == 7,
          "view_written", "planes");
}

static void planes_by_structs(void)
{
    planes_sizes();
    planes_fill(planes_rgba, PLANES_ROOM, 1);
    for (uint32_t plane = 0; plane < 3; plane++)
        planes_fill(planes_view[plane], PLANES_ROOM, 2 + plane);
    for (int call = 0; call < P_CALLS; call++) {
        size_t w[W_WORDS];
        bool once = false;
        memcpy(w, planes_words, sizeof w);
        check(!planes_case((enum planes_call)call, w), "planes", "a call that is accepted");
        for (int word = 0; word < W_WORDS; word++) {
            /* One less; one more, or half of a count; none. */
            const size_t altered[3] = {planes_words[word] - 1, word < W_Y ? planes_words[word] + 1 : planes_words[word] / 2, 0};
            for (int how = 0; how < 3; how++) {
                memcpy(w, planes_words, sizeof w);
                w[word] = altered[how];
                once = planes_case((enum planes_call)call, w) || once;
            }
        }
        check(once, "planes", "a call that is refused");
    }
}

#undef PW
#endif
