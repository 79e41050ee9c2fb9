/* Every call of haythaw.h behind one function, over one record of arguments and one of results: so that test.c can do to each
 * argument of each call the same thing. */
#ifndef CALLS_H
#define CALLS_H

#include "../haythaw.h"

enum call {
    NEW, FROM_RGBA, FROM_RGBA_RUST, FROM_RGBA_LIMITED, TO_RGBA, MAIN, AUX_V1, AUX_V2, AUX_V2_32, AUX_V2_EXACT, MAIN_STRICT, AUX_V1_STRICT,
    AUX_V2_STRICT, AUX_V2_32_STRICT, AUX_V2_EXACT_STRICT, FIRST_UNSOUND, SPLIT_V1, SPLIT_V2, SPLIT_V2_32, CHECK_V1, CHECK_V2, CHECK_V2_32, VIEW,
    LUMA_ROW, U_ROW, V_ROW, VIEW_TO_RGBA, VIEW_TO_RGBA_LIMITED, IS_AVC, ANNEX_B, READ, LUMA_RECTANGLE, CHROMA_RECTANGLE, LUMA_PAIR,
    CHROMA_PAIR, LUMA_RECTS, CHROMA_RECTS, WRITE, CALLS
};
static const char *const call_names[CALLS] = {
    "new", "from_rgba", "from_rgba_rust", "from_rgba_limited", "to_rgba", "apply_main_view", "apply_auxiliary_v1", "apply_auxiliary_v2",
    "apply_auxiliary_v2_32", "apply_auxiliary_v2_exact", "apply_main_view_strict", "apply_auxiliary_v1_strict", "apply_auxiliary_v2_strict",
    "apply_auxiliary_v2_32_strict", "apply_auxiliary_v2_exact_strict", "first_unsound",
    "split_v1", "split_v2", "split_v2_32", "check_v1", "check_v2", "check_v2_32", "view", "luma_row", "u_row", "v_row", "view_to_rgba", "view_to_rgba_limited",
    "is_avc_format", "avc_to_annex_b", "avc444_read", "avc444_luma_rectangle", "avc444_chroma_rectangle", "avc444_luma_pair",
    "avc444_chroma_pair", "avc444_luma_rects", "avc444_chroma_rects", "avc444_write"};

/* Whether a call checks two views: what a split writes, it only reads. */
static bool is_check(enum call call)
{
    return call >= CHECK_V1 && call <= CHECK_V2_32;
}

/* MAIN_ and AUX_ are the planes of both views: a split writes them, and a check reads them. NUMBERS is the output of the two calls that write
 * numbers of 16 bits. L_ and C_ are the parts of the luma and of the chroma stream that a payload is written from. */
enum slice {
    Y, U, V, RGBA, RECTS, VIEW_Y, VIEW_U, VIEW_V, OUT, DATA, MAIN_Y, MAIN_U, MAIN_V, AUX_Y, AUX_U, AUX_V, PAYLOAD, NUMBERS,
    L_RECTS, L_PAIRS, L_DATA, C_RECTS, C_PAIRS, C_DATA, MAP, SLICES
};
static const char *const slice_names[SLICES] = {"y", "u", "v", "rgba", "rects", "view_y", "view_u", "view_v", "out", "data",
                                                "main_y", "main_u", "main_v", "aux_y", "aux_u", "aux_v", "payload", "out",
                                                "luma_rects", "luma_pairs", "luma_data", "chroma_rects", "chroma_pairs", "chroma_data",
                                                "map"};

/* The sizes and strides of a view that is checked. */
enum { MAIN_VIEW, AUX_VIEW, BOTH };
typedef struct { uint16_t width, height; size_t luma_stride, chroma_stride; } Shape;

typedef struct {
    uint16_t width, height;                 /* of the picture */
    uint16_t left, top, right, bottom;      /* to_rgba's rectangle */
    uint16_t view_width, view_height;
    size_t luma_stride, chroma_stride, row; /* of the view */
    Shape shape[BOTH];                      /* of the views that are checked */
    size_t i;                               /* which rectangle or pair of a stream */
    uint32_t kind;                          /* of the payload to be written */
    void *at[SLICES];
    size_t count[SLICES];
} Args;

/* What a call answered; a field that its result does not have is 0. */
typedef struct {
    uint32_t number;
    bool present, yes;
    uint16_t width, height;
    size_t count, filtered_u, filtered_v, stale, start, length, luma_stride, chroma_stride;
    uint32_t kind;
    haythaw_stream luma, chroma;
    uint16_t left, top, right, bottom;
    uint8_t value, quality;
    bool reserved, progressive;
    uint8_t fault;
    size_t index;
    bool same, named;
    uint8_t view, plane;
    uint16_t at_row, at_column;
} Result;

#define LENT(slice) a->at[slice], a->count[slice]
#define PLANES_ALONE a->width, a->height, LENT(Y), LENT(U), LENT(V)
#define PICTURE PLANES_ALONE, LENT(MAP)
#define A_VIEW \
    a->view_width, a->view_height, a->luma_stride, a->chroma_stride, LENT(VIEW_Y), LENT(VIEW_U), LENT(VIEW_V)
#define BOTH_STREAMS LENT(L_RECTS), LENT(L_PAIRS), LENT(L_DATA), LENT(C_RECTS), LENT(C_PAIRS), LENT(C_DATA)
#define SHAPE(which) a->shape[which].width, a->shape[which].height, a->shape[which].luma_stride, a->shape[which].chroma_stride
#define BOTH_CHECKED SHAPE(MAIN_VIEW), LENT(MAIN_Y), LENT(MAIN_U), LENT(MAIN_V), SHAPE(AUX_VIEW), LENT(AUX_Y), LENT(AUX_U), LENT(AUX_V)
#define BOTH_VIEWS LENT(MAIN_Y), LENT(MAIN_U), LENT(MAIN_V), LENT(AUX_Y), LENT(AUX_U), LENT(AUX_V)

static Result of_number(uint32_t number)
{
    Result r = {0};
    r.number = number;
    return r;
}

static Result of_answer(haythaw_answer answer)
{
    Result r = of_number(answer.number);
    r.count = answer.count;
    return r;
}

static Result of_pixels(haythaw_pixels pixels)
{
    Result r = of_number(pixels.number);
    r.count = pixels.count;
    r.filtered_u = pixels.filtered_u;
    r.filtered_v = pixels.filtered_v;
    r.stale = pixels.stale;
    return r;
}

static Result of_row(haythaw_row row)
{
    Result r = of_number(row.number);
    r.present = row.present;
    r.start = row.start;
    r.length = row.length;
    return r;
}

static Result of_views(haythaw_views views)
{
    Result r = of_number(views.number);
    r.width = views.width;
    r.height = views.height;
    r.luma_stride = views.luma_stride;
    r.chroma_stride = views.chroma_stride;
    return r;
}

static Result of_avc444(haythaw_avc444 read)
{
    Result r = of_number(read.number);
    r.kind = read.kind;
    r.luma = read.luma;
    r.chroma = read.chroma;
    return r;
}

static Result of_rectangle(haythaw_rectangle rectangle)
{
    Result r = of_number(rectangle.number);
    r.present = rectangle.present;
    r.left = rectangle.left;
    r.top = rectangle.top;
    r.right = rectangle.right;
    r.bottom = rectangle.bottom;
    return r;
}

static Result of_pair(haythaw_pair pair)
{
    Result r = of_number(pair.number);
    r.present = pair.present;
    r.value = pair.value;
    r.reserved = pair.reserved;
    r.progressive = pair.progressive;
    r.quality = pair.quality;
    return r;
}

static Result of_unsound(haythaw_unsound unsound)
{
    Result r = of_number(unsound.number);
    r.present = unsound.present;
    r.fault = unsound.fault;
    r.index = unsound.index;
    return r;
}

static Result of_checked(haythaw_checked checked)
{
    Result r = of_number(checked.number);
    r.same = checked.same;
    r.named = checked.named;
    r.view = checked.view;
    r.plane = checked.plane;
    r.at_row = checked.row;
    r.at_column = checked.column;
    return r;
}

static Result of_bool(bool yes)
{
    Result r = of_number(0);
    r.yes = yes;
    return r;
}

static Result run(enum call call, const Args *a)
{
    switch (call) {
    case NEW: return of_number(haythaw_new(PICTURE));
    case FROM_RGBA: return of_number(haythaw_from_rgba(LENT(RGBA), PICTURE));
    case FROM_RGBA_RUST: return of_number(haythaw_from_rgba_rust(LENT(RGBA), PICTURE));
    case FROM_RGBA_LIMITED: return of_number(haythaw_from_rgba_limited(LENT(RGBA), PICTURE));
    case TO_RGBA: return of_pixels(haythaw_to_rgba(PICTURE, a->left, a->top, a->right, a->bottom, LENT(OUT)));
    case MAIN: return of_number(haythaw_apply_main_view(PICTURE, LENT(RECTS), A_VIEW));
    case AUX_V1: return of_number(haythaw_apply_auxiliary_v1(PICTURE, LENT(RECTS), A_VIEW));
    case AUX_V2: return of_number(haythaw_apply_auxiliary_v2(PICTURE, LENT(RECTS), A_VIEW));
    case AUX_V2_32: return of_number(haythaw_apply_auxiliary_v2_32(PICTURE, LENT(RECTS), A_VIEW));
    case AUX_V2_EXACT: return of_number(haythaw_apply_auxiliary_v2_exact(PICTURE, LENT(RECTS), A_VIEW));
    case MAIN_STRICT: return of_number(haythaw_apply_main_view_strict(PICTURE, LENT(RECTS), A_VIEW));
    case AUX_V1_STRICT: return of_number(haythaw_apply_auxiliary_v1_strict(PICTURE, LENT(RECTS), A_VIEW));
    case AUX_V2_STRICT: return of_number(haythaw_apply_auxiliary_v2_strict(PICTURE, LENT(RECTS), A_VIEW));
    case AUX_V2_32_STRICT: return of_number(haythaw_apply_auxiliary_v2_32_strict(PICTURE, LENT(RECTS), A_VIEW));
    case AUX_V2_EXACT_STRICT: return of_number(haythaw_apply_auxiliary_v2_exact_strict(PICTURE, LENT(RECTS), A_VIEW));
    case FIRST_UNSOUND: return of_unsound(haythaw_first_unsound(a->width, a->height, LENT(RECTS)));
    case SPLIT_V1: return of_views(haythaw_split_v1(PLANES_ALONE, BOTH_VIEWS));
    case SPLIT_V2: return of_views(haythaw_split_v2(PLANES_ALONE, BOTH_VIEWS));
    case SPLIT_V2_32: return of_views(haythaw_split_v2_32(PLANES_ALONE, BOTH_VIEWS));
    case CHECK_V1: return of_checked(haythaw_check_v1(PLANES_ALONE, BOTH_CHECKED));
    case CHECK_V2: return of_checked(haythaw_check_v2(PLANES_ALONE, BOTH_CHECKED));
    case CHECK_V2_32: return of_checked(haythaw_check_v2_32(PLANES_ALONE, BOTH_CHECKED));
    case VIEW: return of_number(haythaw_view(A_VIEW));
    case LUMA_ROW: return of_row(haythaw_luma_row(A_VIEW, a->row));
    case U_ROW: return of_row(haythaw_u_row(A_VIEW, a->row));
    case V_ROW: return of_row(haythaw_v_row(A_VIEW, a->row));
    case VIEW_TO_RGBA: return of_answer(haythaw_view_to_rgba(A_VIEW, LENT(OUT)));
    case VIEW_TO_RGBA_LIMITED: return of_answer(haythaw_view_to_rgba_limited(A_VIEW, LENT(OUT)));
    case IS_AVC: return of_bool(haythaw_is_avc_format(LENT(DATA)));
    case ANNEX_B: return of_answer(haythaw_avc_to_annex_b(LENT(DATA), LENT(OUT)));
    case READ: return of_avc444(haythaw_avc444_read(LENT(PAYLOAD)));
    case LUMA_RECTANGLE: return of_rectangle(haythaw_avc444_luma_rectangle(LENT(PAYLOAD), a->i));
    case CHROMA_RECTANGLE: return of_rectangle(haythaw_avc444_chroma_rectangle(LENT(PAYLOAD), a->i));
    case LUMA_PAIR: return of_pair(haythaw_avc444_luma_pair(LENT(PAYLOAD), a->i));
    case CHROMA_PAIR: return of_pair(haythaw_avc444_chroma_pair(LENT(PAYLOAD), a->i));
    case LUMA_RECTS: return of_answer(haythaw_avc444_luma_rects(LENT(PAYLOAD), LENT(NUMBERS)));
    case CHROMA_RECTS: return of_answer(haythaw_avc444_chroma_rects(LENT(PAYLOAD), LENT(NUMBERS)));
    case WRITE: return of_answer(haythaw_avc444_write(a->kind, BOTH_STREAMS, LENT(OUT)));
    case CALLS: break;
    }
    return of_number(UINT32_MAX);
}

#endif
