/* refusals_check: two views checked against the split of a picture, V1 and V2 by both rules: 1, 5, the main view's 3 and 4 and the auxiliary
 * view's, in this order, each number at the edge where it begins; sizes one off; and the first and the last sample of each plane. A line has
 * the number, yes or no, and the place that is named. */
#ifndef STORED_REFUSALS_CHECK_H
#define STORED_REFUSALS_CHECK_H

#include "refusals_split.h"

/* A picture's size and the lengths of its planes, and the views: what their width, height and strides are more than the split's and their own
 * widths, how many bytes each plane is longer than its rows, and which sample is wrong: of plane 1 to 6 (main y, u, v, auxiliary y, u, v) the
 * first or the last. 5 x 5 has planes of 16 x 16, and views of 16 x 16 or, by the 32 rule, of 32 x 16. All bytes of Y are 197, of U 198, of V
 * 199. The views of a picture that is too large are 16 x 16. */
typedef struct { int width, height, luma, chroma, longer[3]; } CheckedView;
typedef struct { const char *name; uint16_t width, height; size_t planes[3]; CheckedView views[2]; int first, last; } CheckedCase;
#define GOOD {0, 0, 0, 0, {0, 0, 0}}
#define LUMA_NARROW {0, 0, -1, 0, {0, 0, 0}}
#define CHROMA_NARROW {0, 0, 0, -1, {0, 0, 0}}
#define LUMA_SHORT {0, 0, 0, 0, {-1, 0, 0}}
#define U_SHORT {0, 0, 0, 0, {0, -1, 0}}
#define V_SHORT {0, 0, 0, 0, {0, 0, -1}}
#define NARROW_AND_SHORT {0, 0, -1, 0, {-1, 0, 0}}
#define WIDER {1, 0, 0, 0, {0, 0, 0}}
#define NARROWER {-1, 0, 0, 0, {0, 0, 0}}
#define HIGHER {0, 1, 0, 0, {0, 0, 0}}
#define LOWER {0, -1, 0, 0, {0, 0, 0}}
#define NO_PLANE {0, 0, 0}
static const CheckedCase checked_cases[] = {
    {"exact", 5, 5, SPLIT_PLANES, {GOOD, GOOD}, 0, 0},
    {"one over", 5, 5, {257, 257, 257}, {{0, 0, 0, 0, {1, 1, 1}}, {0, 0, 0, 0, {1, 1, 1}}}, 0, 0},
    {"strides", 5, 5, SPLIT_PLANES, {{0, 0, 3, 2, {0, 0, 0}}, {0, 0, 5, 4, {0, 0, 0}}}, 0, 0},
    /* planes of the picture */
    {"y short", 5, 5, {255, 256, 256}, {GOOD, GOOD}, 0, 0},
    {"u short", 5, 5, {256, 255, 256}, {GOOD, GOOD}, 0, 0},
    {"v short", 5, 5, {256, 256, 255}, {GOOD, GOOD}, 0, 0},
    /* the views */
    {"main luma narrow", 5, 5, SPLIT_PLANES, {LUMA_NARROW, GOOD}, 0, 0},
    {"main chroma narrow", 5, 5, SPLIT_PLANES, {CHROMA_NARROW, GOOD}, 0, 0},
    {"main y short", 5, 5, SPLIT_PLANES, {LUMA_SHORT, GOOD}, 0, 0},
    {"main u short", 5, 5, SPLIT_PLANES, {U_SHORT, GOOD}, 0, 0},
    {"main v short", 5, 5, SPLIT_PLANES, {V_SHORT, GOOD}, 0, 0},
    {"auxiliary luma narrow", 5, 5, SPLIT_PLANES, {GOOD, LUMA_NARROW}, 0, 0},
    {"auxiliary chroma narrow", 5, 5, SPLIT_PLANES, {GOOD, CHROMA_NARROW}, 0, 0},
    {"auxiliary y short", 5, 5, SPLIT_PLANES, {GOOD, LUMA_SHORT}, 0, 0},
    {"auxiliary u short", 5, 5, SPLIT_PLANES, {GOOD, U_SHORT}, 0, 0},
    {"auxiliary v short", 5, 5, SPLIT_PLANES, {GOOD, V_SHORT}, 0, 0},
    /* several at once */
    {"main 3 and 4", 5, 5, SPLIT_PLANES, {NARROW_AND_SHORT, GOOD}, 0, 0},
    {"auxiliary 3 and 4", 5, 5, SPLIT_PLANES, {GOOD, NARROW_AND_SHORT}, 0, 0},
    {"main 3, auxiliary 4", 5, 5, SPLIT_PLANES, {LUMA_NARROW, LUMA_SHORT}, 0, 0},
    {"main 4, auxiliary 3", 5, 5, SPLIT_PLANES, {LUMA_SHORT, LUMA_NARROW}, 0, 0},
    {"main 4, auxiliary 3 and 4", 5, 5, SPLIT_PLANES, {V_SHORT, NARROW_AND_SHORT}, 0, 0},
    {"1 and main 3", 5, 5, {255, 256, 256}, {LUMA_NARROW, GOOD}, 0, 0},
    {"1 and main 4", 5, 5, {256, 255, 256}, {LUMA_SHORT, GOOD}, 0, 0},
    {"1 and auxiliary 3", 5, 5, {256, 256, 255}, {GOOD, LUMA_NARROW}, 0, 0},
    {"1 and auxiliary 4", 5, 5, {255, 255, 255}, {GOOD, LUMA_SHORT}, 0, 0},
    {"1 and sizes", 5, 5, {255, 256, 256}, {WIDER, GOOD}, 0, 0},
    {"1 and a sample", 5, 5, {256, 256, 255}, {GOOD, GOOD}, 1, 0},
    {"3 and sizes", 5, 5, SPLIT_PLANES, {{1, 0, -1, 0, {0, 0, 0}}, GOOD}, 0, 0},
    {"4 and sizes of the other", 5, 5, SPLIT_PLANES, {WIDER, LUMA_SHORT}, 0, 0},
    {"4 and a sample", 5, 5, SPLIT_PLANES, {GOOD, V_SHORT}, 1, 0},
    /* sizes one off */
    {"main wider", 5, 5, SPLIT_PLANES, {WIDER, GOOD}, 0, 0},
    {"main narrower", 5, 5, SPLIT_PLANES, {NARROWER, GOOD}, 0, 0},
    {"main higher", 5, 5, SPLIT_PLANES, {HIGHER, GOOD}, 0, 0},
    {"main lower", 5, 5, SPLIT_PLANES, {LOWER, GOOD}, 0, 0},
    {"auxiliary wider", 5, 5, SPLIT_PLANES, {GOOD, WIDER}, 0, 0},
    {"auxiliary narrower", 5, 5, SPLIT_PLANES, {GOOD, NARROWER}, 0, 0},
    {"auxiliary higher", 5, 5, SPLIT_PLANES, {GOOD, HIGHER}, 0, 0},
    {"auxiliary lower", 5, 5, SPLIT_PLANES, {GOOD, LOWER}, 0, 0},
    {"both wider", 5, 5, SPLIT_PLANES, {WIDER, WIDER}, 0, 0},
    {"main wider, its first sample", 5, 5, SPLIT_PLANES, {WIDER, GOOD}, 1, 0},
    {"auxiliary lower, main's first sample", 5, 5, SPLIT_PLANES, {GOOD, LOWER}, 1, 0},
    /* the first and the last sample of each plane; two */
    {"main y first", 5, 5, SPLIT_PLANES, {GOOD, GOOD}, 1, 0},
    {"main y last", 5, 5, SPLIT_PLANES, {GOOD, GOOD}, 0, 1},
    {"main u first", 5, 5, SPLIT_PLANES, {GOOD, GOOD}, 2, 0},
    {"main u last", 5, 5, SPLIT_PLANES, {GOOD, GOOD}, 0, 2},
    {"main v first", 5, 5, SPLIT_PLANES, {GOOD, GOOD}, 3, 0},
    {"main v last", 5, 5, SPLIT_PLANES, {GOOD, GOOD}, 0, 3},
    {"auxiliary y first", 5, 5, SPLIT_PLANES, {GOOD, GOOD}, 4, 0},
    {"auxiliary y last", 5, 5, SPLIT_PLANES, {GOOD, GOOD}, 0, 4},
    {"auxiliary u first", 5, 5, SPLIT_PLANES, {GOOD, GOOD}, 5, 0},
    {"auxiliary u last", 5, 5, SPLIT_PLANES, {GOOD, GOOD}, 0, 5},
    {"auxiliary v first", 5, 5, SPLIT_PLANES, {GOOD, GOOD}, 6, 0},
    {"auxiliary v last", 5, 5, SPLIT_PLANES, {GOOD, GOOD}, 0, 6},
    {"main v last, auxiliary y first", 5, 5, SPLIT_PLANES, {GOOD, GOOD}, 4, 3},
    {"main u first, main y last", 5, 5, SPLIT_PLANES, {GOOD, GOOD}, 2, 1},
    {"auxiliary v first, auxiliary u last", 5, 5, SPLIT_PLANES, {GOOD, GOOD}, 6, 5},
    {"main y last, strides", 5, 5, SPLIT_PLANES, {{0, 0, 3, 2, {0, 0, 0}}, {0, 0, 5, 4, {0, 0, 0}}}, 0, 1},
    {"auxiliary v last, strides", 5, 5, SPLIT_PLANES, {{0, 0, 3, 2, {0, 0, 0}}, {0, 0, 5, 4, {0, 0, 0}}}, 0, 6},
    /* pictures without a byte */
    {"0 x 0", 0, 0, NO_PLANE, {GOOD, GOOD}, 0, 0},
    {"0 x 0, main wider", 0, 0, NO_PLANE, {WIDER, GOOD}, 0, 0},
    {"0 x 0, auxiliary higher", 0, 0, NO_PLANE, {GOOD, HIGHER}, 0, 0},
    {"0 x 5", 0, 5, NO_PLANE, {GOOD, GOOD}, 0, 0},
    {"0 x 5, main lower", 0, 5, NO_PLANE, {LOWER, GOOD}, 0, 0},
    {"5 x 0", 5, 0, NO_PLANE, {GOOD, GOOD}, 0, 0},
    {"5 x 0, auxiliary narrower", 5, 0, NO_PLANE, {GOOD, NARROWER}, 0, 0},
    {"65504 x 0", 65504, 0, NO_PLANE, {GOOD, GOOD}, 0, 0},
    {"65505 x 0", 65505, 0, NO_PLANE, {GOOD, GOOD}, 0, 0},
    {"65520 x 0", 65520, 0, NO_PLANE, {GOOD, GOOD}, 0, 0},
    {"65521 x 0", 65521, 0, NO_PLANE, {GOOD, GOOD}, 0, 0},
    {"65535 x 0", 65535, 0, NO_PLANE, {GOOD, GOOD}, 0, 0},
    {"0 x 65520", 0, 65520, NO_PLANE, {GOOD, GOOD}, 0, 0},
    {"0 x 65521", 0, 65521, NO_PLANE, {GOOD, GOOD}, 0, 0},
    {"0 x 65535", 0, 65535, NO_PLANE, {GOOD, GOOD}, 0, 0},
    {"1 and 5", 65521, 5, NO_PLANE, {GOOD, GOOD}, 0, 0},
    {"1 and 5, 3, 4, 3 and 4", 65521, 5, NO_PLANE, {NARROW_AND_SHORT, NARROW_AND_SHORT}, 0, 0},
    {"5 and main 3", 65521, 0, NO_PLANE, {LUMA_NARROW, GOOD}, 0, 0},
    {"5 and main 4", 65521, 0, NO_PLANE, {LUMA_SHORT, GOOD}, 0, 0},
    {"5 and auxiliary 3", 0, 65521, NO_PLANE, {GOOD, CHROMA_NARROW}, 0, 0},
    {"5 and auxiliary 4", 0, 65521, NO_PLANE, {GOOD, V_SHORT}, 0, 0},
};

static const struct { const char *name; enum call call; size_t unit; } checked_files[] = {
    {"v1", CHECK_V1, 16}, {"v2", CHECK_V2, 16}, {"v2 32", CHECK_V2_32, 32}};

/* The columns and rows of a part of a plane have one value. */
static void block(Args *a, enum slice s, size_t stride, size_t rows[2], size_t columns[2], uint8_t value)
{
    for (size_t row = rows[0]; row < rows[1]; row++)
        for (size_t col = columns[0]; col < columns[1]; col++)
            if (row * stride + col < a->count[s])
                ((uint8_t *)a->at[s])[row * stride + col] = value;
}

/* The split of a picture whose planes have one value each and are 16 wide, in planes so wide; past 16 columns of it stand Y 0, U and V 128.
 * V1 has the odd rows of U over those of V in its luma; V2 has U's columns and then V's, in luma and in both planes of chroma. */
static void split_of_one_value(enum call call, Args *a, size_t wide, const size_t strides[2][2])
{
    size_t all[2] = {0, 16}, half[2] = {0, 8}, lower[2] = {8, 16}, whole_row[2] = {0, wide}, half_row[2] = {0, wide / 2};
    block(a, MAIN_Y, strides[0][0], all, whole_row, 0);
    block(a, MAIN_U, strides[0][1], half, half_row, 128), block(a, MAIN_V, strides[0][1], half, half_row, 128);
    block(a, MAIN_Y, strides[0][0], all, all, SPLIT_BYTE);
    block(a, MAIN_U, strides[0][1], half, half, SPLIT_BYTE + 1), block(a, MAIN_V, strides[0][1], half, half, SPLIT_BYTE + 2);
    if (call == CHECK_V1) {
        block(a, AUX_Y, strides[1][0], half, all, SPLIT_BYTE + 1), block(a, AUX_Y, strides[1][0], lower, all, SPLIT_BYTE + 2);
        block(a, AUX_U, strides[1][1], half, half, SPLIT_BYTE + 1), block(a, AUX_V, strides[1][1], half, half, SPLIT_BYTE + 2);
        return;
    }
    size_t u_luma[2] = {0, 8}, v_luma[2] = {wide / 2, wide / 2 + 8}, u_chroma[2] = {0, 4}, v_chroma[2] = {wide / 4, wide / 4 + 4};
    block(a, AUX_Y, strides[1][0], all, whole_row, 128);
    block(a, AUX_Y, strides[1][0], all, u_luma, SPLIT_BYTE + 1), block(a, AUX_Y, strides[1][0], all, v_luma, SPLIT_BYTE + 2);
    for (int s = AUX_U; s <= AUX_V; s++) {
        block(a, (enum slice)s, strides[1][1], half, half_row, 128);
        block(a, (enum slice)s, strides[1][1], half, u_chroma, SPLIT_BYTE + 1);
        block(a, (enum slice)s, strides[1][1], half, v_chroma, SPLIT_BYTE + 2);
    }
}

/* The views of a case, lent and filled. */
static void lend_checked(enum call call, Args *a, const CheckedCase *c, size_t unit)
{
    const bool large = up_to(c->width, unit) > 65535 || up_to(c->height, 16) > 65535;
    const size_t wide = large ? 16 : up_to(c->width, unit), rows = large ? 16 : up_to(c->height, 16);
    size_t strides[2][2];
    for (int which = 0; which < BOTH; which++) {
        const CheckedView *v = &c->views[which];
        const size_t width = wide + (size_t)v->width, height = rows + (size_t)v->height;
        const int first = which == MAIN_VIEW ? MAIN_Y : AUX_Y;
        strides[which][0] = width + (size_t)v->luma, strides[which][1] = (width + 1) / 2 + (size_t)v->chroma;
        a->shape[which] = (Shape){(uint16_t)width, (uint16_t)height, strides[which][0], strides[which][1]};
        for (int p = 0; p < 3; p++)
            lend_all(a, (enum slice)(first + p), strides[which][p > 0] * (p == 0 ? height : (height + 1) / 2) + (size_t)v->longer[p], UNWRITTEN);
    }
    split_of_one_value(call, a, wide, (const size_t(*)[2])strides);
    for (int last = 0; last < 2; last++) {
        const int plane = (last ? c->last : c->first) - 1;
        if (plane < 0)
            continue;
        const size_t stride = strides[plane / 3][plane % 3 > 0], part = plane % 3 == 0 ? 1 : 2;
        ((uint8_t *)a->at[MAIN_Y + plane])[last ? (rows / part - 1) * stride + wide / part - 1 : 0] ^= 1;
    }
}

static void checked_line(size_t f, const CheckedCase *c)
{
    static const char *const views[] = {"main", "auxiliary"}, *const planes[] = {"y", "u", "v"};
    Args a = {0};
    a.width = c->width, a.height = c->height;
    for (int p = 0; p < 3; p++)
        lend_all(&a, (enum slice)(Y + p), c->planes[p], (uint8_t)(SPLIT_BYTE + p));
    lend_checked(checked_files[f].call, &a, c, checked_files[f].unit);
    const Result r = asked(checked_files[f].call, &a);
    printf("check %s: %s: %lu %s", checked_files[f].name, c->name, (unsigned long)r.number, r.same ? "yes" : "no");
    if (r.named)
        printf(", %s %s %u %u", r.view < 2 ? views[r.view] : "no view", r.plane < 3 ? planes[r.plane] : "no plane", r.at_row, r.at_column);
    printf("\n");
    over(checked_files[f].call);
}

static void refusals_check(void)
{
    for (size_t f = 0; f < sizeof checked_files / sizeof *checked_files; f++)
        for (size_t k = 0; k < sizeof checked_cases / sizeof *checked_cases; k++)
            checked_line(f, &checked_cases[k]);
}

#endif
