/* What a check of two views has to answer, said again from the rules' words: which sample of the picture each place of the split's views has,
 * and the first place at which a view has another one. No split is run for it. */
#ifndef PLACES_H
#define PLACES_H

#include "check.h"

/* How wide the views are: the stride or, by the 32 rule, the width rounded up to 32. */
static size_t wide_of(enum call call, const Args *a)
{
    return up_to(a->width, call == CHECK_V2_32 || call == SPLIT_V2_32 ? 32 : 16);
}

/* A sample of the picture; past its stride Y 0, and U and V 128. */
static uint8_t of_picture(const Args *a, enum slice plane, size_t row, size_t col)
{
    const size_t stride = up_to(a->width, 16);
    return col < stride ? ((const uint8_t *)a->at[plane])[row * stride + col] : plane == Y ? 0 : 128;
}

/* The main view: the luma plane, and the chroma of even rows and columns. */
static uint8_t of_main(const Args *a, enum slice plane, size_t row, size_t col)
{
    return plane == Y ? of_picture(a, Y, row, col) : of_picture(a, plane, 2 * row, 2 * col);
}

/* V1. Luma: of 16 rows the first eight are the odd rows of U, the others those of V. U and V: the odd columns of even rows. */
static uint8_t of_v1(const Args *a, enum slice plane, size_t row, size_t col)
{
    const size_t block = row / 16 * 16, within = row % 16;
    if (plane == Y)
        return within < 8 ? of_picture(a, U, block + 2 * within + 1, col) : of_picture(a, V, block + 2 * (within - 8) + 1, col);
    return of_picture(a, plane, 2 * row, 2 * col + 1);
}

/* V2. Luma: the odd columns of U, and from W/2 on those of V. U and V: of odd rows every fourth column, from 0 and from 2 on, of U, and from
 * W/4 on of V. */
static uint8_t of_v2(const Args *a, size_t wide, enum slice plane, size_t row, size_t col)
{
    if (plane == Y)
        return col < wide / 2 ? of_picture(a, U, row, 2 * col + 1) : of_picture(a, V, row, 2 * (col - wide / 2) + 1);
    const size_t first = plane == U ? 0 : 2;
    return col < wide / 4 ? of_picture(a, U, 2 * row + 1, 4 * col + first) : of_picture(a, V, 2 * row + 1, 4 * (col - wide / 4) + first);
}

/* What the split has at a place: of the main view (0) or of the auxiliary (1). */
static uint8_t of_split(enum call call, const Args *a, int view, int plane, size_t row, size_t col)
{
    if (view == MAIN_VIEW)
        return of_main(a, (enum slice)plane, row, col);
    return call == CHECK_V1 ? of_v1(a, (enum slice)plane, row, col) : of_v2(a, wide_of(call, a), (enum slice)plane, row, col);
}

/* How many columns and rows a plane of the split's views has. */
static size_t columns_of(enum call call, const Args *a, int plane)
{
    return wide_of(call, a) / (plane == Y ? 1 : 2);
}

static size_t rows_of(const Args *a, int plane)
{
    return up_to(a->height, 16) / (plane == Y ? 1 : 2);
}

/* Where a sample stands of a view that is checked. */
static uint8_t *sample_of(const Args *a, int view, int plane, size_t row, size_t col)
{
    const Shape *s = &a->shape[view];
    return (uint8_t *)a->at[(view == MAIN_VIEW ? MAIN_Y : AUX_Y) + plane] + row * (plane == Y ? s->luma_stride : s->chroma_stride) + col;
}

static bool sizes_are(enum call call, const Args *a)
{
    bool are = true;
    for (int view = 0; view < BOTH; view++)
        are = are && a->shape[view].width == wide_of(call, a) && a->shape[view].height == up_to(a->height, 16);
    return are;
}

/* What is answered where nothing is refused: sizes of both views, then the first wrong sample. */
static Result check_by_rule(enum call call, const Args *a)
{
    Result r = {0};
    if (!sizes_are(call, a))
        return r;
    for (int k = 0; k < 6; k++)
        for (size_t row = 0; row < rows_of(a, k % 3); row++)
            for (size_t col = 0; col < columns_of(call, a, k % 3); col++)
                if (*sample_of(a, k / 3, k % 3, row, col) != of_split(call, a, k / 3, k % 3, row, col)) {
                    r.named = true;
                    r.view = (uint8_t)(k / 3), r.plane = (uint8_t)(k % 3), r.at_row = (uint16_t)row, r.at_column = (uint16_t)col;
                    return r;
                }
    r.same = true;
    return r;
}

/* Whether two answers of a check are the same, and neither has anything in the fields of other calls. */
static bool same_checked(const Result *r, const Result *want)
{
    Result rest = *r;
    rest.same = rest.named = false;
    rest.view = rest.plane = 0;
    rest.at_row = rest.at_column = 0;
    return is_refusal(&rest, want->number) && r->same == want->same && r->named == want->named && r->view == want->view &&
           r->plane == want->plane && r->at_row == want->at_row && r->at_column == want->at_column;
}

#endif
