/* The checks of another encoder's pair of views, run over a million pairs.

   A case is a picture and a way, V1, V2 or V2 by the 32 rule, all of it made of the seed and the case's number. The library splits the picture,
   and the two views are laid out anew, with strides of their own and any bytes past the widths. The check of them has to answer yes. Then one
   sample is altered, of any plane, its first and its last most often: exactly that place has to be named. In five cases of sixteen there is
   more: two samples are altered, and the first of them in the order of the rules is to be named; or a view has one column or row too many or
   too few, or sixteen, and nothing is to be named, whatever its samples are; or something is too short or too narrow, or the picture too
   large, and the first number in the order of the rules is to be answered, and nothing else; or the picture has no pixel. What is expected
   follows from what was done alone. No lent byte may change.

       check [--seed N] [--cases N] [--seconds N] [--only CASE]
       check --self-test      wrong checks take the library's place, one that names the column after the right one, one that begins with the
                              auxiliary view, and so on: each has to be noticed; and the right one, written here too, differs nowhere

   The last line has the pairs, by each way, the samples altered in each plane, what else was answered, the differences and the seed; the
   status is 1 if there is a difference. */
#include <stdbool.h>
#include <stdint.h>
#include <stdio.h>
#include <stdlib.h>
#include <string.h>

#include "haythaw.h"
#include "run.h"

enum { V1, V2, V2_32, WAYS };
enum { Y, U, V, PLANES, MAIN = 0, AUXILIARY = 3, SIX = 6 }; /* the six planes of both views: MAIN + Y to AUXILIARY + V */
static const char *const ways[WAYS] = {"V1", "V2", "V2 by the 32 rule"};
static const char *const planes[SIX] = {"main Y", "main U", "main V", "auxiliary Y", "auxiliary U", "auxiliary V"};

typedef struct { uint8_t *at; size_t count; } Lent;
typedef struct { uint16_t width, height; size_t luma, chroma; Lent of[PLANES]; } View;

typedef struct {
    uint16_t width, height;
    int way;
    size_t stride, rows, wide;
    Lent picture[PLANES], split[SIX]; /* what the library's split wrote, rows with nothing between */
    View views[2];
} Case;

static uint64_t seed_of, number_of_case, differences;
static uint64_t pairs[WAYS], yes, empty, of_sizes, refused[6], named[SIX], firsts, lasts, of_two;

static void *room(size_t n)
{
    void *p = malloc(n ? n : 1);
    if (!p) {
        fprintf(stderr, "check: no memory for %zu bytes\n", n);
        exit(2);
    }
    return p;
}

/* Exactly so many bytes, of any value. */
static Lent lent(size_t n)
{
    Lent l = {room(n), n};
    uint8_t *at = l.at;
    for (; n >= 8; at += 8, n -= 8) {
        uint64_t z = any();
        memcpy(at, &z, 8);
    }
    for (; n; n--) *at++ = (uint8_t)any();
    return l;
}

static size_t up(size_t n, size_t unit) { return (n + unit - 1) / unit * unit; }

/* A side: small, a macroblock's edge or one beside it, seldom up to 300. */
static uint16_t side(void)
{
    switch (below(16)) {
    case 0: return (uint16_t)(1 + below(300));
    case 1: case 2: case 3: case 4: return (uint16_t)(16 * (1 + below(4)) + below(3) - 1);
    default: return (uint16_t)(1 + below(40));
    }
}

/* Bytes of a plane of the picture; how many columns and rows a plane of the split's views has, none of them of a picture without pixels. */
static size_t plane_of(const Case *c) { return c->stride * c->rows; }
static size_t columns_of(const Case *c, int plane) { return plane % 3 == Y ? c->wide : c->wide / 2; }
static size_t rows_of(const Case *c, int plane) { return plane % 3 == Y ? c->rows : c->rows / 2; }
static size_t stride_of(const View *v, int plane) { return plane % 3 == Y ? v->luma : v->chroma; }

static uint8_t *sample(const Case *c, int plane, size_t row, size_t col)
{
    const View *v = &c->views[plane / 3];
    return v->of[plane % 3].at + row * stride_of(v, plane) + col;
}

typedef haythaw_views Split(uint16_t, uint16_t, const uint8_t *, size_t, const uint8_t *, size_t, const uint8_t *, size_t, uint8_t *, size_t,
                            uint8_t *, size_t, uint8_t *, size_t, uint8_t *, size_t, uint8_t *, size_t, uint8_t *, size_t);
typedef haythaw_checked Check(uint16_t, uint16_t, const uint8_t *, size_t, const uint8_t *, size_t, const uint8_t *, size_t, uint16_t, uint16_t,
                              size_t, size_t, const uint8_t *, size_t, const uint8_t *, size_t, const uint8_t *, size_t, uint16_t, uint16_t,
                              size_t, size_t, const uint8_t *, size_t, const uint8_t *, size_t, const uint8_t *, size_t);

#define PICTURE(c) (c)->width, (c)->height, (c)->picture[Y].at, (c)->picture[Y].count, (c)->picture[U].at, (c)->picture[U].count, \
                   (c)->picture[V].at, (c)->picture[V].count
#define VIEW(v) (v).width, (v).height, (v).luma, (v).chroma, (v).of[Y].at, (v).of[Y].count, (v).of[U].at, (v).of[U].count, (v).of[V].at, \
                (v).of[V].count

static bool split(Case *c)
{
    static Split *const calls[WAYS] = {haythaw_split_v1, haythaw_split_v2, haythaw_split_v2_32};
    Lent *const o = c->split;
    for (int p = 0; p < SIX; p++) {
        o[p].count = columns_of(c, p) * rows_of(c, p);
        o[p].at = room(o[p].count);
    }
    const haythaw_views v = calls[c->way](PICTURE(c), o[0].at, o[0].count, o[1].at, o[1].count, o[2].at, o[2].count, o[3].at, o[3].count,
                                          o[4].at, o[4].count, o[5].at, o[5].count);
    return v.number == 0 && v.width == c->wide && v.height == c->rows;
}

/* The views with strides of their own: just as wide, or up to 40 more; and where a size will be altered, with room for a column and a row more. */
static void lay_out(Case *c, bool roomy)
{
    for (int which = 0; which < 2; which++) {
        View *v = &c->views[which];
        v->width = (uint16_t)c->wide, v->height = (uint16_t)c->rows;
        v->luma = c->wide + (roomy ? 1 : 0) + (below(3) ? below(40) : 0), v->chroma = c->wide / 2 + (roomy ? 1 : 0) + (below(3) ? below(40) : 0);
        for (int plane = Y; plane < PLANES; plane++) {
            const int p = 3 * which + plane;
            const size_t stride = stride_of(v, p), columns = columns_of(c, p);
            v->of[plane] = lent(stride * (rows_of(c, p) + (roomy ? 1 : 0)) + (below(4) ? 0 : below(9)));
            for (size_t row = 0; row < rows_of(c, p) && columns; row++)
                memcpy(v->of[plane].at + row * stride, c->split[p].at + row * columns, columns);
        }
    }
}

static void done(Case *c)
{
    for (int p = 0; p < SIX; p++) free(c->split[p].at), free(c->views[p / 3].of[p % 3].at);
    for (int p = 0; p < PLANES; p++) free(c->picture[p].at);
}

/* ---- Checks that are written here: the right one, and wrong ones that take the library's place in the self-test. ---- */

enum wrong {
    LIBRARY, RIGHT, COLUMN_AFTER, ROW_AFTER, ROW_AND_COLUMN, AUXILIARY_FIRST, V_BEFORE_U, CHROMA_FIRST, BY_COLUMN, LAST_NAMED, FIRST_ALWAYS,
    PADDING_TOO, STRIDE_IS_SIZE, SIZES_NAMED, SAMPLES_FIRST, MAIN_SIZE_ALONE, WIDTH_ALONE, HEIGHT_ALONE, ANY_LARGER, LAST_COLUMN_LOST,
    LAST_ROW_LOST, FIRST_SAMPLE_LOST, ONE_PLANE_LOST, LOW_BIT_LOST, AUXILIARY_LOST, PLACE_IN_A_YES, YES_IN_A_NO, YES_IN_A_REFUSAL, PLACE_IN_A_REFUSAL,
    FIVE_FIRST, VIEWS_FIRST, AUXILIARY_NUMBER_FIRST, FOUR_BEFORE_THREE, THREES_BEFORE_FOURS, NOTHING_REFUSED, A_BYTE_WRITTEN, WRONGS
};
static const char *const wrong_names[WRONGS] = {
    "", "", "the column after is named", "the row after is named", "row and column are exchanged", "the auxiliary view comes first",
    "V comes before U", "U and V come before Y", "by column and then by row", "the last wrong sample is named", "always the first sample",
    "bytes past the width are compared", "a stride is a size", "a place is named for sizes", "samples come before sizes",
    "the auxiliary view's size is lost", "a height is lost", "a width is lost", "a larger view will do", "the last column is lost",
    "the last row is lost", "the first sample is lost", "the auxiliary view's U is lost", "the lowest bit is lost", "the auxiliary view is lost",
    "a yes names a place", "a no says yes too", "a refusal says yes", "a refusal names a place", "5 before 1", "the views' numbers before 1 and 5",
    "the auxiliary view's number first", "4 before 3", "both 3 before both 4", "nothing is refused", "a byte is written"};
static enum wrong how;

static uint32_t number_of_view(const View *v, bool short_first)
{
    const size_t half_columns = (v->width + 1u) / 2, half_rows = (v->height + 1u) / 2;
    const bool narrow = v->luma < v->width || v->chroma < half_columns,
               shorter = v->of[Y].count < v->luma * v->height || v->of[U].count < v->chroma * half_rows || v->of[V].count < v->chroma * half_rows;
    return short_first && shorter ? 4 : narrow ? 3 : shorter ? 4 : 0;
}

static uint32_t number_of_check(const Case *c)
{
    const size_t plane = plane_of(c);
    const bool shorter = c->picture[Y].count < plane || c->picture[U].count < plane || c->picture[V].count < plane,
               large = c->stride > 65535 || c->rows > 65535 || c->wide > 65535;
    const uint32_t of_picture = how == FIVE_FIRST && large ? 5 : shorter ? 1 : large ? 5 : 0,
                   main = number_of_view(&c->views[0], how == FOUR_BEFORE_THREE), auxiliary = number_of_view(&c->views[1], how == FOUR_BEFORE_THREE);
    uint32_t of_views = main ? main : auxiliary;
    if (how == AUXILIARY_NUMBER_FIRST && auxiliary) of_views = auxiliary;
    if (how == THREES_BEFORE_FOURS && (main == 3 || auxiliary == 3)) of_views = 3;
    if (how == VIEWS_FIRST && of_views) return of_views;
    return of_picture ? of_picture : of_views;
}

/* Whether a view has every sample that the split has. */
static bool has_all(const Case *c, const View *v)
{
    return v->width >= c->wide && v->height >= c->rows;
}

/* Whether the sizes are taken for the split's. */
static bool size_is(const Case *c, const View *v)
{
    if (how == WIDTH_ALONE) return v->width == c->wide;
    if (how == HEIGHT_ALONE) return v->height == c->rows;
    if (how == ANY_LARGER) return has_all(c, v);
    if (how == STRIDE_IS_SIZE) return v->width == c->wide && v->height == c->rows && v->luma == c->wide && v->chroma == c->wide / 2;
    return v->width == c->wide && v->height == c->rows;
}

static bool is_wrong(const Case *c, int plane, size_t row, size_t col)
{
    const uint8_t has = *sample(c, plane, row, col), right = c->split[plane].at[row * columns_of(c, plane) + col];
    if (how == LAST_COLUMN_LOST && col == columns_of(c, plane) - 1) return false;
    if (how == LAST_ROW_LOST && row == rows_of(c, plane) - 1) return false;
    if (how == FIRST_SAMPLE_LOST && row + col == 0) return false;
    if ((how == ONE_PLANE_LOST && plane == AUXILIARY + U) || (how == AUXILIARY_LOST && plane >= AUXILIARY)) return false;
    return how == LOW_BIT_LOST ? has >> 1 != right >> 1 : has != right;
}

/* The first wrong sample of a plane, or the last; false where there is none. */
static bool find(const Case *c, int plane, size_t *row, size_t *col)
{
    const size_t rows = rows_of(c, plane), columns = columns_of(c, plane), count = rows * columns;
    const View *v = &c->views[plane / 3];
    for (size_t k = 0; k < count; k++) {
        const size_t at = how == LAST_NAMED ? count - 1 - k : k;
        *row = how == BY_COLUMN ? at % rows : at / columns, *col = how == BY_COLUMN ? at / rows : at % columns;
        if (is_wrong(c, plane, *row, *col)) return true;
        if (how == PADDING_TOO && *col == columns - 1 && stride_of(v, plane) > columns && *sample(c, plane, *row, columns) != 0) return true;
    }
    return false;
}

static haythaw_checked place(int plane, size_t row, size_t col)
{
    if (how == COLUMN_AFTER) col++;
    if (how == ROW_AFTER) row++;
    if (how == FIRST_ALWAYS) row = col = 0;
    if (how == ROW_AND_COLUMN) {
        const size_t was = row;
        row = col, col = was;
    }
    const haythaw_checked named_here = {0, how == YES_IN_A_NO, true, (uint8_t)(plane / 3), (uint8_t)(plane % 3), (uint16_t)row, (uint16_t)col};
    return named_here;
}

static haythaw_checked checked_here(const Case *c)
{
    static const int in_order[SIX] = {0, 1, 2, 3, 4, 5}, auxiliary_first[SIX] = {3, 4, 5, 0, 1, 2}, v_before_u[SIX] = {0, 2, 1, 3, 5, 4},
                     chroma_first[SIX] = {1, 2, 0, 4, 5, 3}, backwards[SIX] = {5, 4, 3, 2, 1, 0};
    const int *order = how == AUXILIARY_FIRST ? auxiliary_first : how == V_BEFORE_U ? v_before_u : how == CHROMA_FIRST ? chroma_first
                       : how == LAST_NAMED ? backwards : in_order;
    const bool sizes = size_is(c, &c->views[0]) && (how == MAIN_SIZE_ALONE || size_is(c, &c->views[1]));
    haythaw_checked answer = {how == NOTHING_REFUSED ? 0 : number_of_check(c), false, false, 0, 0, 0, 0};
    if (answer.number || number_of_check(c)) {
        answer.same = how == YES_IN_A_REFUSAL, answer.named = how == PLACE_IN_A_REFUSAL;
        return answer;
    }
    answer.named = how == SIZES_NAMED;
    const bool all_there = has_all(c, &c->views[0]) && has_all(c, &c->views[1]);
    if (!sizes && !(how == SAMPLES_FIRST && all_there)) return answer;
    if (!all_there) return answer.named = false, answer.same = true, answer;
    for (int k = 0; k < SIX; k++) {
        size_t row, col;
        if (find(c, order[k], &row, &col)) return place(order[k], row, col);
    }
    answer.named = how == PLACE_IN_A_YES, answer.same = sizes;
    return answer;
}

/* ---- The cases. ---- */

static void differs(const Case *c, const char *what, haythaw_checked got, haythaw_checked want)
{
    if (differences++ > 4 || how != LIBRARY) return;
    printf("check: --seed %llu --only %llu: %ux%u, %s, %s: number %u, same %d, named %d, %u %u %u %u; it is to be %u, %d, %d, %u %u %u %u\n",
           (unsigned long long)seed_of, (unsigned long long)number_of_case, c->width, c->height, ways[c->way], what, got.number, got.same,
           got.named, got.view, got.plane, got.row, got.column, want.number, want.same, want.named, want.view, want.plane, want.row, want.column);
}

static haythaw_checked call(Case *c)
{
    static Check *const calls[WAYS] = {haythaw_check_v1, haythaw_check_v2, haythaw_check_v2_32};
    const Lent last = c->views[1].of[V];
    if (how == A_BYTE_WRITTEN && last.count && c->views[1].chroma > c->wide / 2) ++last.at[last.count - 1]; /* past the width: no answer shows it */
    return how == LIBRARY ? calls[c->way](PICTURE(c), VIEW(c->views[0]), VIEW(c->views[1])) : checked_here(c);
}

/* Every lent byte, to be compared after the call. */
static uint8_t *copied(const Case *c, size_t *count)
{
    size_t total = 0, at = 0;
    for (int p = 0; p < PLANES + SIX; p++) total += p < PLANES ? c->picture[p].count : c->views[(p - 3) / 3].of[p % 3].count;
    uint8_t *copy = room(total);
    for (int p = 0; p < PLANES + SIX; p++) {
        const Lent l = p < PLANES ? c->picture[p] : c->views[(p - 3) / 3].of[p % 3];
        if (l.count) memcpy(copy + at, l.at, l.count);
        at += l.count;
    }
    *count = total;
    return copy;
}

/* Asks, and compares the answer; in one case of 16 every lent byte too. */
static void ask(Case *c, haythaw_checked want, const char *what)
{
    size_t count = 0, after = 0;
    uint8_t *const before = number_of_case % 16 == 0 ? copied(c, &count) : NULL;
    const haythaw_checked got = call(c);
    if (got.number != want.number || got.same != want.same || got.named != want.named || got.view != want.view || got.plane != want.plane ||
        got.row != want.row || got.column != want.column)
        differs(c, what, got, want);
    if (!before) return;
    uint8_t *const now = copied(c, &after);
    if (memcmp(before, now, count)) differs(c, "a byte was written", got, want);
    free(before), free(now);
}

static const haythaw_checked a_yes = {0, true, false, 0, 0, 0, 0}, a_no = {0, false, false, 0, 0, 0, 0};

/* A sample of a plane: its first, its last, the end of a row, or any. */
static void draw_place(const Case *c, int *plane, size_t *row, size_t *col)
{
    *plane = (int)below(SIX);
    const uint32_t rows = (uint32_t)rows_of(c, *plane), columns = (uint32_t)columns_of(c, *plane);
    switch (below(8)) {
    case 0: *row = *col = 0; break;
    case 1: *row = rows - 1, *col = columns - 1; break;
    case 2: *row = below(rows), *col = below(2) ? columns - 1 : 0; break;
    default: *row = below(rows), *col = below(columns);
    }
}

static haythaw_checked the_place(int plane, size_t row, size_t col)
{
    const haythaw_checked at = {0, false, true, (uint8_t)(plane / 3), (uint8_t)(plane % 3), (uint16_t)row, (uint16_t)col};
    return at;
}

/* One sample altered: any other byte. */
static void alter_one(Case *c)
{
    int plane;
    size_t row, col;
    draw_place(c, &plane, &row, &col);
    uint8_t *const at = sample(c, plane, row, col), was = *at;
    *at = (uint8_t)(was + 1 + (below(2) ? 0 : below(255)));
    ask(c, the_place(plane, row, col), "a sample");
    *at = was;
    named[plane]++, firsts += row + col == 0, lasts += row == rows_of(c, plane) - 1 && col == columns_of(c, plane) - 1;
}

/* Two samples altered, which may be one: the first by plane, row and column is named. In one of three both are of one plane, and of these
   every other is of one row. */
static void alter_two(Case *c)
{
    int plane[2];
    size_t row[2], col[2];
    for (int k = 0; k < 2; k++) draw_place(c, &plane[k], &row[k], &col[k]);
    if (below(3) == 0) plane[1] = plane[0], row[1] = below((uint32_t)rows_of(c, plane[0])), col[1] = below((uint32_t)columns_of(c, plane[0]));
    if (plane[1] == plane[0] && below(2)) row[1] = row[0];
    const bool second = plane[1] != plane[0] ? plane[1] < plane[0] : row[1] != row[0] ? row[1] < row[0] : col[1] < col[0];
    for (int k = 0; k < 2; k++) {
        const uint8_t right = c->split[plane[k]].at[row[k] * columns_of(c, plane[k]) + col[k]];
        *sample(c, plane[k], row[k], col[k]) = (uint8_t)(right + 1 + below(255));
    }
    ask(c, the_place(plane[second], row[second], col[second]), "two samples");
    for (int k = 0; k < 2; k++) *sample(c, plane[k], row[k], col[k]) = c->split[plane[k]].at[row[k] * columns_of(c, plane[k]) + col[k]];
    of_two++;
}

/* A side that is one too large, or one or a macroblock too small. */
static uint16_t off(uint16_t right)
{
    const uint32_t kind = below(5);
    return (uint16_t)(kind == 0 && right ? right - 16 : kind < 3 && right ? right - 1 : right + 1);
}

/* A view of a wrong size, its samples right or, every other time, one of them not. */
static void alter_size(Case *c)
{
    View *v = &c->views[below(2)];
    const uint16_t width = v->width, height = v->height;
    if (below(2)) v->width = off(width);
    else v->height = off(height);
    uint8_t *at = NULL;
    if (below(2) && plane_of(c) > 0) {
        int plane;
        size_t row, col;
        draw_place(c, &plane, &row, &col);
        at = sample(c, plane, row, col), ++*at;
    }
    ask(c, a_no, "a wrong size");
    if (at) --*at;
    v->width = width, v->height = height;
    of_sizes++;
}

/* A view that is too narrow, or whose stride has just no room, or whose plane has a byte too few. */
static bool make_narrow(View *v)
{
    if (!v->width) return false;
    if (below(2)) v->luma = v->width - 1u;
    else v->chroma = (v->width + 1u) / 2 - 1;
    return true;
}

static bool make_short(View *v)
{
    const int plane = (int)below(PLANES);
    const size_t needed = stride_of(v, plane) * (plane == Y ? v->height : (v->height + 1u) / 2);
    if (!needed) return false;
    v->of[plane].count = needed - 1;
    return true;
}

/* One fault or several: the first number in the order of the rules. Every other time a view is a row too low as well. */
static void refuse(const Case *c)
{
    Case bad = *c;
    const uint32_t faults = 1 + below(31), lower = below(2);
    bool met[5] = {false};
    if (lower) bad.views[below(2)].height--;
    if (faults & 1 && plane_of(c) > 0) bad.picture[below(PLANES)].count = plane_of(c) - 1, met[0] = true;
    for (int k = 0; k < 2; k++) {
        if (faults & 2u << 2 * k) met[1 + 2 * k] = make_narrow(&bad.views[k]);
        if (faults & 4u << 2 * k) met[2 + 2 * k] = make_short(&bad.views[k]);
    }
    static const uint32_t numbers[5] = {1, 3, 4, 3, 4};
    haythaw_checked want = lower ? a_no : a_yes;
    for (int k = 4; k >= 0; k--)
        if (met[k]) want = a_no, want.number = numbers[k];
    ask(&bad, want, "a refusal");
    refused[want.number]++;
}

/* A picture that is too large, without a byte or with planes that are too short for it; the views are good, or too narrow. */
static void too_large(Case *c)
{
    const uint16_t most = c->way == V2_32 && !below(2) ? 65504 : 65520, long_side = (uint16_t)(most + 1 + below(65535u - most));
    Case bad = *c;
    const bool wide = most == 65504 || below(2);
    bad.width = wide ? long_side : 0, bad.height = wide ? (uint16_t)below(2) : long_side;
    bad.stride = up(bad.width, 16), bad.rows = up(bad.height, 16), bad.wide = up(bad.width, c->way == V2_32 ? 32 : 16);
    if (below(2)) make_narrow(&bad.views[below(2)]);
    haythaw_checked want = a_no;
    want.number = plane_of(&bad) > bad.picture[Y].count ? 1 : 5;
    ask(&bad, want, "too large");
    refused[want.number]++;
}

/* A picture, its split, and both views; the split itself is a yes. */
static Case made(int way, uint16_t width, uint16_t height, bool roomy)
{
    Case c;
    c.way = way, c.width = width, c.height = height;
    c.stride = up(c.width, 16), c.rows = up(c.height, 16), c.wide = up(c.width, c.way == V2_32 ? 32 : 16);
    for (int p = 0; p < PLANES; p++) c.picture[p] = lent(plane_of(&c) + (below(4) ? 0 : below(9)));
    if (!split(&c)) differs(&c, "the answer of split", a_no, a_no);
    lay_out(&c, roomy);
    ask(&c, a_yes, "the split itself");
    yes++;
    return c;
}

/* A picture without columns, without rows, or without both: its views have no sample, and may have a wrong size. */
static void no_pixel(int way)
{
    const uint32_t kind = below(3), longest = way == V2_32 ? 65504 : 65520;
    const uint16_t other = (uint16_t)(below(256) ? below(100) : longest - below(20));
    Case c = made(way, kind == 0 ? other : 0, kind == 1 ? other : 0, true);
    alter_size(&c);
    empty++;
    done(&c);
}

/* Once in a while a side is as long as there is. */
static void run(uint64_t seed, uint64_t number)
{
    const int way = (int)(number % WAYS), more = (int)(number / WAYS % 16);
    seed_of = seed, number_of_case = number;
    state = seed * 0xD1342543DE82EF95u + number;
    uint16_t sides[2] = {side(), side()};
    if (number % 65536 == 4097) sides[below(2)] = (uint16_t)((way == V2_32 ? 65504 : 65520) - below(20));
    Case c = made(way, sides[0], sides[1], more == 1);
    alter_one(&c);
    if (more == 0) alter_two(&c);
    if (more == 1) alter_size(&c);
    if (more == 2) refuse(&c);
    if (more == 3) too_large(&c);
    if (more == 4) no_pixel(way);
    pairs[way]++;
    done(&c);
}

static int self_test(void)
{
    enum { CASES = 1000 };
    int missed = 0;
    for (how = RIGHT; how < WRONGS; how++) {
        differences = 0;
        for (uint64_t k = 0; k < CASES; k++) run(1, k);
        if (how == RIGHT ? differences == 0 : differences > 0) continue;
        printf("check: %s\n", how == RIGHT ? "the right check that is written here is not the one that is expected" : wrong_names[how]);
        missed++;
    }
    printf("check: %d wrong checks, %d not noticed, in %d pairs\n", WRONGS - RIGHT - 1, missed, CASES);
    return missed != 0;
}

int main(int argc, char **argv)
{
    if (argc == 2 && !strcmp(argv[1], "--self-test")) return self_test();
    const Options options = options_of("check", 1000000, argc, argv);
    const uint64_t ran = walk("check", "pairs", options, &differences, run);
    printf("check: %llu pairs (", (unsigned long long)ran);
    for (int k = 0; k < WAYS; k++) printf("%s%llu %s", k ? ", " : "", (unsigned long long)pairs[k], ways[k]);
    printf("), %llu answered yes; one altered sample:", (unsigned long long)yes);
    for (int k = 0; k < SIX; k++) printf("%s %llu %s", k ? "," : "", (unsigned long long)named[k], planes[k]);
    printf("; %llu of them the first of a plane, %llu the last; %llu times two; %llu without a pixel; %llu wrong sizes; refused %llu with 1, "
           "%llu with 3, %llu with 4, %llu with 5; %llu differences, seed %llu\n",
           (unsigned long long)firsts, (unsigned long long)lasts, (unsigned long long)of_two, (unsigned long long)empty, (unsigned long long)of_sizes,
           (unsigned long long)refused[1], (unsigned long long)refused[3], (unsigned long long)refused[4], (unsigned long long)refused[5],
           (unsigned long long)differences, (unsigned long long)options.seed);
    return differences != 0;
}
