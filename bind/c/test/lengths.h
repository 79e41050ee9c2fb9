/* Every call with each buffer exactly full, one short, one longer, empty and null, alone and in pairs. */
#ifndef LENGTHS_H
#define LENGTHS_H

#include "check.h"

/* What a call needs in the case below, in its order of refusals: the exact count of each slice, and its number one short and empty.
 *
 * The picture is 17x3: stride 32, rows 16, planes of 512 bytes, a map of 16 x 8, 17 x 3 x 4 = 204 bytes of RGBA, chroma of its views 16 x 8. The
 * rectangle of to_rgba is (1, 1, 17, 3): 16 x 2 x 4 = 128. The view is 5x3 with strides 7 and 4: 7 x 3, 4 x 2, RGBA 5 x 3 x 4. The
 * rectangles of the list are sound. The views that are checked are 32x16 by either rule, main with strides 33 and 17, auxiliary with 35 and 18. */
typedef struct {
    enum slice slice;
    size_t exact;
    uint32_t shorter, empty;
} Need;

#define PLANES {Y, 512, 1, 1}, {U, 512, 1, 1}, {V, 512, 1, 1}
#define THE_PICTURE PLANES, {MAP, 128, 1, 1}
#define THE_VIEW {VIEW_Y, 21, 4, 4}, {VIEW_U, 8, 4, 4}, {VIEW_V, 8, 4, 4}
#define THE_VIEWS {MAIN_Y, 512, 6, 6}, {MAIN_U, 128, 6, 6}, {MAIN_V, 128, 6, 6}, {AUX_Y, 512, 6, 6}, {AUX_U, 128, 6, 6}, {AUX_V, 128, 6, 6}

#define THE_CHECKED {MAIN_Y, 528, 4, 4}, {MAIN_U, 136, 4, 4}, {MAIN_V, 136, 4, 4}, {AUX_Y, 560, 4, 4}, {AUX_U, 144, 4, 4}, {AUX_V, 144, 4, 4}

/* The payload is kind 0, with one rectangle of luma and two of chroma, and ends in the second pair of chroma. A byte more is one of H.264. */
#define THE_PAYLOAD {PAYLOAD, 45, 10, 9}
static const uint8_t the_payload[46] = {17, 0, 0, 0, 1, 0, 0, 0, 1, 0, 2, 0, 3, 0, 4, 0, 5, 6, 7, 8, 9, 2, 0, 0, 0};

static const struct { size_t used; Need needs[9]; } needs[CALLS] = {
    [NEW] = {4, {THE_PICTURE}},
    [FROM_RGBA] = {5, {{RGBA, 204, 2, 2}, THE_PICTURE}},
    [FROM_RGBA_RUST] = {5, {{RGBA, 204, 2, 2}, THE_PICTURE}},
    [FROM_RGBA_LIMITED] = {5, {{RGBA, 204, 2, 2}, THE_PICTURE}},
    [TO_RGBA] = {5, {THE_PICTURE, {OUT, 128, 6, 6}}},
    [MAIN] = {8, {THE_PICTURE, {RECTS, 4, 7, 0}, THE_VIEW}},
    [AUX_V1] = {8, {THE_PICTURE, {RECTS, 4, 7, 0}, THE_VIEW}},
    [AUX_V2] = {8, {THE_PICTURE, {RECTS, 4, 7, 0}, THE_VIEW}},
    [AUX_V2_32] = {8, {THE_PICTURE, {RECTS, 4, 7, 0}, THE_VIEW}},
    [AUX_V2_EXACT] = {8, {THE_PICTURE, {RECTS, 4, 7, 0}, THE_VIEW}},
    [MAIN_STRICT] = {8, {THE_PICTURE, {RECTS, 4, 7, 0}, THE_VIEW}},
    [AUX_V1_STRICT] = {8, {THE_PICTURE, {RECTS, 4, 7, 0}, THE_VIEW}},
    [AUX_V2_STRICT] = {8, {THE_PICTURE, {RECTS, 4, 7, 0}, THE_VIEW}},
    [AUX_V2_32_STRICT] = {8, {THE_PICTURE, {RECTS, 4, 7, 0}, THE_VIEW}},
    [AUX_V2_EXACT_STRICT] = {8, {THE_PICTURE, {RECTS, 4, 7, 0}, THE_VIEW}},
    [FIRST_UNSOUND] = {1, {{RECTS, 4, 7, 0}}},
    [SPLIT_V1] = {9, {PLANES, THE_VIEWS}},
    [SPLIT_V2] = {9, {PLANES, THE_VIEWS}},
    [SPLIT_V2_32] = {9, {PLANES, THE_VIEWS}},
    [CHECK_V1] = {9, {PLANES, THE_CHECKED}},
    [CHECK_V2] = {9, {PLANES, THE_CHECKED}},
    [CHECK_V2_32] = {9, {PLANES, THE_CHECKED}},
    [VIEW] = {3, {THE_VIEW}},
    [LUMA_ROW] = {3, {THE_VIEW}},
    [U_ROW] = {3, {THE_VIEW}},
    [V_ROW] = {3, {THE_VIEW}},
    [VIEW_TO_RGBA] = {4, {THE_VIEW, {OUT, 60, 6, 6}}},
    [VIEW_TO_RGBA_LIMITED] = {4, {THE_VIEW, {OUT, 60, 6, 6}}},
    [ANNEX_B] = {1, {{OUT, 6, 6, 6}}},
    [READ] = {1, {THE_PAYLOAD}},
    [LUMA_RECTANGLE] = {1, {THE_PAYLOAD}},
    [CHROMA_RECTANGLE] = {1, {THE_PAYLOAD}},
    [LUMA_PAIR] = {1, {THE_PAYLOAD}},
    [CHROMA_PAIR] = {1, {THE_PAYLOAD}},
    [LUMA_RECTS] = {2, {THE_PAYLOAD, {NUMBERS, 4, 6, 6}}},
    [CHROMA_RECTS] = {2, {THE_PAYLOAD, {NUMBERS, 8, 6, 6}}}};

enum length { EXACT, SHORTER, LONGER, EMPTY, NO_POINTER, LENGTHS };

static size_t elements(const Need *need, enum length length)
{
    switch (length) {
    case SHORTER: return need->exact - 1;
    case LONGER: return need->slice == RECTS ? need->exact + 4 : need->exact + 1;
    case EMPTY: case NO_POINTER: return 0;
    default: return need->exact;
    }
}

static uint32_t number_of(const Need *need, enum length length)
{
    return length == SHORTER ? need->shorter : length == EMPTY || length == NO_POINTER ? need->empty : 0;
}

/* The case, each slice with the length that `lengths` says. */
static Args the_case(enum call call, const enum length *lengths)
{
    static const uint16_t rects[8] = {1, 1, 4, 3, 2, 0, 17, 2};
    static const uint8_t units[6] = {0, 0, 0, 2, 0x67, 0x42};
    Args a = {0};
    a.width = 17, a.height = 3, a.left = 1, a.top = 1, a.right = 17, a.bottom = 3, a.row = 1;
    a.view_width = 5, a.view_height = 3, a.luma_stride = 7, a.chroma_stride = 4;
    a.shape[MAIN_VIEW] = (Shape){32, 16, 33, 17}, a.shape[AUX_VIEW] = (Shape){32, 16, 35, 18};
    for (size_t k = 0; k < needs[call].used; k++) {
        const Need *need = &needs[call].needs[k];
        const size_t count = elements(need, lengths[k]);
        a.count[need->slice] = count;
        a.at[need->slice] = lengths[k] == NO_POINTER ? NULL : lend(count * element(need->slice));
        if (need->slice == RECTS && count > 0)
            memcpy(a.at[RECTS], rects, 2 * count);
        if (need->slice == PAYLOAD && count > 0)
            memcpy(a.at[PAYLOAD], the_payload, count);
    }
    if (call == ANNEX_B)
        lend_as(&a, DATA, 6, units);
    return a;
}

/* Runs the case and compares with the first number, in the call's order, of a slice that is not long enough. */
static void with_lengths(enum call call, const enum length *lengths)
{
    uint32_t number = 0;
    for (size_t k = 0; k < needs[call].used && number == 0; k++)
        number = number_of(&needs[call].needs[k], lengths[k]);
    Args a = the_case(call, lengths);
    Result r = tried(call, &a);
    if (number != 0) {
        check(is_refusal(&r, number), call_names[call], "a refusal's fields");
        check(lent_kept(), call_names[call], "a refusal changed a byte");
    } else {
        static const size_t counts[CALLS] = {[TO_RGBA] = 128, [VIEW_TO_RGBA] = 60, [VIEW_TO_RGBA_LIMITED] = 60, [ANNEX_B] = 6, [LUMA_RECTS] = 4,
                                             [CHROMA_RECTS] = 8};
        check(r.number == 0 && r.count == counts[call], call_names[call], "number and count");
        for (size_t k = 0; k < needs[call].used; k++) {
            const Need *need = &needs[call].needs[k];
            const bool only_read = need->slice == RECTS || need->slice == PAYLOAD || is_check(call);
            check(kept_from(a.at[need->slice], only_read ? 0 : need->exact * element(need->slice)), call_names[call],
                  "a byte past what is written");
        }
    }
    over(call);
}

/* Every slice with every length, every pair of slices with every two, all slices empty, all null. */
static void lengths_of(enum call call)
{
    enum length lengths[9] = {EXACT};
    const size_t used = needs[call].used;
    with_lengths(call, lengths);
    for (size_t i = 0; i < used; i++)
        for (int one = SHORTER; one < LENGTHS; one++) {
            lengths[i] = (enum length)one;
            with_lengths(call, lengths);
            for (size_t j = i + 1; j < used; j++) {
                for (int two = SHORTER; two < LENGTHS; two++) {
                    lengths[j] = (enum length)two;
                    with_lengths(call, lengths);
                }
                lengths[j] = EXACT;
            }
            lengths[i] = EXACT;
        }
    for (int all = EMPTY; all <= NO_POINTER; all++) {
        for (size_t i = 0; i < used; i++)
            lengths[i] = (enum length)all;
        with_lengths(call, lengths);
    }
}

#endif
