/* Every call with sizes, strides, lists and rectangles from nothing to the largest, against the table of numbers. */
#ifndef SIZES_H
#define SIZES_H

#include "places.h"

/* The number of a call by the table of numbers, said again. No product is made that could pass 64 bits. */
static bool longer_than(size_t count, size_t stride, size_t rows)
{
    return rows > 0 && stride > count / rows;
}

static size_t clipped(const Args *a)
{
    const size_t right = a->right < a->width ? a->right : a->width, bottom = a->bottom < a->height ? a->bottom : a->height;
    return a->left < right && a->top < bottom ? 4 * (right - a->left) * (bottom - a->top) : 0;
}

static bool plane_short(const Args *a)
{
    const size_t plane = up_to(a->width, 16) * up_to(a->height, 16);
    return a->count[Y] < plane || a->count[U] < plane || a->count[V] < plane;
}

/* 1 covers the map in every call but split, which is not lent it. */
static bool picture_short(const Args *a)
{
    return plane_short(a) || a->count[MAP] < up_to(a->width, 16) / 2 * (up_to(a->height, 16) / 2);
}

/* 3 or 4 of a view, of this shape and with planes of these lengths. */
static uint32_t shape_number(const Shape *s, const size_t count[3])
{
    const size_t half_width = (s->width + 1u) / 2, half_height = (s->height + 1u) / 2;
    if (s->luma_stride < s->width || s->chroma_stride < half_width)
        return 3;
    return longer_than(count[0], s->luma_stride, s->height) || longer_than(count[1], s->chroma_stride, half_height) ||
                   longer_than(count[2], s->chroma_stride, half_height)
               ? 4 : 0;
}

static uint32_t view_number(const Args *a)
{
    const Shape shape = {a->view_width, a->view_height, a->luma_stride, a->chroma_stride};
    return shape_number(&shape, &a->count[VIEW_Y]);
}

/* The first fault of a rectangle: left not below right, top not below bottom, right above the width, bottom above the height; 0 of a sound one. */
static uint8_t fault_of(const Args *a, const uint16_t *rect)
{
    if (!(rect[0] < rect[2]))
        return 1;
    if (!(rect[1] < rect[3]))
        return 2;
    return rect[2] > a->width ? 3 : rect[3] > a->height ? 4 : 0;
}

/* The index of the first unsound rectangle of a list in fours, or how many rectangles it has. */
static size_t unsound_at(const Args *a)
{
    size_t index = 0;
    while (index < a->count[RECTS] / 4 && fault_of(a, (const uint16_t *)a->at[RECTS] + 4 * index) == 0)
        index++;
    return index;
}

static uint32_t list_number(enum call call, const Args *a)
{
    return a->count[RECTS] % 4 != 0 ? 7 : is_strict(call) && unsound_at(a) < a->count[RECTS] / 4 ? 12 : 0;
}

static uint32_t apply_number(enum call call, const Args *a)
{
    return picture_short(a) ? 1 : list_number(call, a) != 0 ? list_number(call, a) : view_number(a);
}

/* What a list answers that is not refused. */
static bool first_is(const Args *a, const Result *r)
{
    const size_t index = unsound_at(a);
    const bool present = index < a->count[RECTS] / 4;
    return r->number == 0 && r->present == present && r->index == (present ? index : 0) &&
           r->fault == (present ? fault_of(a, (const uint16_t *)a->at[RECTS] + 4 * index) : 0);
}

/* What a split and a check of one refuse of the picture. */
static uint32_t split_picture_number(enum call call, const Args *a)
{
    return plane_short(a) ? 1 : wide_of(call, a) > 65535 || up_to(a->height, 16) > 65535 ? 5 : 0;
}

/* The views are as wide as the stride or, by the 32 rule, as the width rounded up to 32, which is never less. */
static uint32_t split_number(enum call call, const Args *a)
{
    const size_t wide = wide_of(call, a), rows = up_to(a->height, 16);
    if (split_picture_number(call, a) != 0)
        return split_picture_number(call, a);
    for (int s = MAIN_Y; s <= AUX_V; s++)
        if (a->count[s] < (s == MAIN_Y || s == AUX_Y ? wide * rows : wide / 2 * (rows / 2)))
            return 6;
    return 0;
}

/* 1, 5, the main view's 3 and 4, the auxiliary view's 3 and 4. */
static uint32_t check_number(enum call call, const Args *a)
{
    const uint32_t of_picture = split_picture_number(call, a), of_main = shape_number(&a->shape[MAIN_VIEW], &a->count[MAIN_Y]);
    return of_picture != 0 ? of_picture : of_main != 0 ? of_main : shape_number(&a->shape[AUX_VIEW], &a->count[AUX_Y]);
}

static uint32_t the_number(enum call call, const Args *a)
{
    switch (call) {
    case NEW: return picture_short(a) ? 1 : 0;
    case FROM_RGBA: case FROM_RGBA_RUST: case FROM_RGBA_LIMITED: return a->count[RGBA] < (size_t)4 * a->width * a->height ? 2 : picture_short(a) ? 1 : 0;
    case TO_RGBA: return picture_short(a) ? 1 : a->count[OUT] < clipped(a) ? 6 : 0;
    case MAIN: case AUX_V1: case AUX_V2: case AUX_V2_32: case AUX_V2_EXACT:
    case MAIN_STRICT: case AUX_V1_STRICT: case AUX_V2_STRICT: case AUX_V2_32_STRICT: case AUX_V2_EXACT_STRICT: return apply_number(call, a);
    case FIRST_UNSOUND: return list_number(call, a);
    case SPLIT_V1: case SPLIT_V2: case SPLIT_V2_32: return split_number(call, a);
    case CHECK_V1: case CHECK_V2: case CHECK_V2_32: return check_number(call, a);
    case VIEW_TO_RGBA: case VIEW_TO_RGBA_LIMITED:
        return view_number(a) != 0 ? view_number(a) : a->count[OUT] < (size_t)4 * a->view_width * a->view_height ? 6 : 0;
    case VIEW: case LUMA_ROW: case U_ROW: case V_ROW: return view_number(a);
    default: return 0;
    }
}

static void by_table(enum call call, const Args *a, const char *what)
{
    const uint32_t number = the_number(call, a);
    Result r = tried(call, a);
    if (number != 0)
        check(is_refusal(&r, number) && lent_kept(), call_names[call], what);
    else if (call == FIRST_UNSOUND)
        check(first_is(a, &r) && lent_kept(), call_names[call], what);
    else if (is_check(call)) {
        const Result want = check_by_rule(call, a);
        check(same_checked(&r, &want) && lent_kept(), call_names[call], what);
    }
    else {
        const bool of_view = call == VIEW_TO_RGBA || call == VIEW_TO_RGBA_LIMITED;
        check(r.number == 0 && r.count == (call == TO_RGBA ? clipped(a) : of_view ? (size_t)4 * a->view_width * a->view_height : 0),
              call_names[call], what);
    }
}

/* Pictures of every size from nothing to the largest, with planes of 512 bytes and views of as many, and with none. */
static void picture_sizes(void)
{
    static const uint16_t sides[] = {0, 1, 2, 15, 16, 17, 32, 255, 65504, 65505, 65519, 65520, 65521, 65535};
    enum { SIDES = sizeof sides / sizeof *sides };
    for (int none = 0; none < 2; none++) {
        Args a = {0};
        a.view_width = 5, a.view_height = 3, a.luma_stride = 7, a.chroma_stride = 4, a.right = 65535, a.bottom = 65535;
        a.shape[MAIN_VIEW] = a.shape[AUX_VIEW] = (Shape){32, 16, 32, 16};
        for (int s = Y; s <= AUX_V && !none; s++)
            lend_as(&a, (enum slice)s, 512, NULL);
        if (!none)
            lend_as(&a, MAP, 128, NULL);
        a.count[RECTS] /= 2;
        for (size_t i = 0; i < SIDES; i++)
            for (size_t j = 0; j < SIDES; j++)
                for (int call = NEW; call <= CHECK_V2_32; call++) {
                    a.width = sides[i], a.height = sides[j];
                    by_table((enum call)call, &a, "a picture's size");
                }
        over(NEW);
    }
}

/* Views of every size with every stride; two of the strides make products that are 0 and 2 when cut to 64 bits. */
static void view_sizes(void)
{
    static const uint16_t sides[] = {0, 1, 2, 3, 5, 16, 65535};
    static const size_t strides[] = {0, 1, 3, 7, 65535, SIZE_MAX / 2 + 1, 6148914691236517206u, SIZE_MAX - 1, SIZE_MAX};
    enum { SIDES = sizeof sides / sizeof *sides, STRIDES = sizeof strides / sizeof *strides };
    static const uint16_t rects[8] = {0, 0, 65535, 65535, 3, 1, 5, 2}, sound[8] = {0, 0, 17, 3, 3, 1, 5, 2};
    static const enum call calls[] = {VIEW, LUMA_ROW, U_ROW, V_ROW, VIEW_TO_RGBA, VIEW_TO_RGBA_LIMITED, MAIN, AUX_V1, AUX_V2, AUX_V2_32,
                                      AUX_V2_EXACT, MAIN_STRICT, AUX_V1_STRICT, AUX_V2_STRICT, AUX_V2_32_STRICT, AUX_V2_EXACT_STRICT};
    Args a = {0};
    picture(&a, 17, 3, 512);
    for (int s = VIEW_Y; s <= OUT; s++)
        lend_as(&a, (enum slice)s, s == OUT ? 1024 : 64, NULL);
    a.at[RECTS] = lend(16);
    a.row = 1;
    for (size_t i = 0; i < SIDES * SIDES; i++)
        for (size_t j = 0; j < STRIDES * STRIDES; j++)
            for (size_t c = 0; c < sizeof calls / sizeof *calls; c++) {
                a.view_width = sides[i / SIDES], a.view_height = sides[i % SIDES];
                a.luma_stride = strides[j / STRIDES], a.chroma_stride = strides[j % STRIDES];
                a.count[RECTS] = (i + j) % 7 == 0 ? 5 : 8;
                memcpy(a.at[RECTS], is_strict(calls[c]) && (i + j) % 5 != 0 ? sound : rects, 16);
                by_table(calls[c], &a, "a view's size");
            }
    over(VIEW);
}

/* Lists of 0 to 9 numbers, exactly lent. */
static void list_lengths(void)
{
    for (size_t count = 0; count < 10; count++)
        for (int call = MAIN; call <= FIRST_UNSOUND; call++) {
            Args a = {0};
            picture(&a, 17, 3, 512);
            view(&a, 5, 3, 7, 4);
            a.at[RECTS] = lend(2 * count);
            a.count[RECTS] = count;
            by_table((enum call)call, &a, "a list's length");
            over((enum call)call);
        }
}

/* Rectangles that are empty, reversed, off the picture, as large as can be, on a picture and a view that are lent exactly. */
static void rectangles(void)
{
    static const uint16_t edges[] = {0, 1, 2, 4, 5, 17, 65535};
    enum { EDGES = sizeof edges / sizeof *edges };
    static const enum call calls[] = {MAIN, AUX_V1, AUX_V2, AUX_V2_32, AUX_V2_EXACT, MAIN_STRICT, AUX_V1_STRICT, AUX_V2_STRICT,
                                      AUX_V2_32_STRICT, AUX_V2_EXACT_STRICT, FIRST_UNSOUND, TO_RGBA};
    Args a = {0};
    picture(&a, 17, 3, 512);
    view(&a, 5, 3, 7, 4);
    lend_as(&a, OUT, 204, NULL);
    uint16_t *rect = a.at[RECTS] = lend(8);
    a.count[RECTS] = 4;
    for (size_t k = 0; k < EDGES * EDGES * EDGES * EDGES; k++)
        for (size_t c = 0; c < sizeof calls / sizeof *calls; c++) {
            a.left = rect[0] = edges[k % EDGES], a.top = rect[1] = edges[k / EDGES % EDGES];
            a.right = rect[2] = edges[k / EDGES / EDGES % EDGES], a.bottom = rect[3] = edges[k / EDGES / EDGES / EDGES];
            by_table(calls[c], &a, "a rectangle");
        }
    over(MAIN);
}

/* The largest sides with planes that are long enough: 65536 x 16 bytes. A fresh picture is black. */
static void longest_sides(void)
{
    static const uint16_t sides[2][2] = {{65535, 1}, {1, 65535}};
    static const uint8_t black[4] = {0, 0, 0, 255};
    for (int turned = 0; turned < 2; turned++) {
        Args a = {0};
        picture(&a, sides[turned][0], sides[turned][1], (size_t)65536 * 16);
        by_table(NEW, &a, "the longest side");
        lend_as(&a, OUT, (size_t)65535 * 4, NULL);
        a.right = 65535, a.bottom = 65535;
        by_table(TO_RGBA, &a, "the longest side");
        check(memcmp((uint8_t *)a.at[OUT] + 65534 * 4, black, 4) == 0, "to_rgba", "the last pixel of the longest side");
        a.at[RGBA] = a.at[OUT], a.count[RGBA] = a.count[OUT];
        for (int call = FROM_RGBA; call <= FROM_RGBA_LIMITED; call++)
            by_table((enum call)call, &a, "the longest side");
        by_table(SPLIT_V1, &a, "the longest side");
        by_table(SPLIT_V2, &a, "the longest side");
        by_table(SPLIT_V2_32, &a, "the longest side");
        for (int call = CHECK_V1; call <= CHECK_V2_32; call++)
            by_table((enum call)call, &a, "the longest side");
        over(NEW);
    }
}

#endif
