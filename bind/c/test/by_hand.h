/* Every call used well: what it answers and every byte that it leaves, worked by hand or by the rule said again. */
#ifndef BY_HAND_H
#define BY_HAND_H

#include "check.h"

static void sizes_by_hand(void)
{
    static const struct { uint16_t width, height; size_t bytes; } cases[] = {
        {0, 0, 0}, {0, 65535, 0}, {1, 1, 768}, {16, 16, 768}, {17, 16, 1536}, {1920, 1080, 6266880}, {65535, 1, 3145728}};
    for (size_t k = 0; k < sizeof cases / sizeof *cases; k++)
        check(haythaw_allocation_size(cases[k].width, cases[k].height) == cases[k].bytes, "allocation_size", "by hand");
}

static void new_by_hand(void)
{
    Args a = {0};
    picture(&a, 17, 3, 513); /* stride 32, rows 16: 512 bytes, and one that stays */
    Result r = tried(NEW, &a);
    check(is_refusal(&r, 0), "new", "the number");
    check(all_are(a.at[Y], 512, 0) && all_are(a.at[U], 512, 128) && all_are(a.at[V], 512, 128), "new", "the planes");
    check(kept_from(a.at[Y], 512) && kept_from(a.at[U], 512) && kept_from(a.at[V], 512), "new", "the byte past a plane");
    over(NEW);
}

/* Red, white and blue in a row, and a byte after them: Y U V are 53 99 255, 254 128 128, 17 255 116 by the formulas. */
static const uint8_t three_pixels[13] = {255, 0, 0, 0, 255, 255, 255, 9, 0, 0, 255, 255, 77};

static Args three_by_one(size_t extra)
{
    Args a = {0};
    picture(&a, 3, 1, 256 + extra);
    lend_as(&a, RGBA, 12 + extra, three_pixels);
    return a;
}

/* A row of 16 samples: its first three, and the same one in all places after them. */
static bool row_is(const uint8_t *row, const uint8_t first[3], uint8_t rest)
{
    return memcmp(row, first, 3) == 0 && all_are(row + 3, 13, rest);
}

/* The edge is filled: columns 3 to 15 are blue, and rows 1 to 15 are row 0 again. So the first block of each two rows is red, white, red,
 * white, with the averages U (99+128+99+128+2)/4 = 114 and V (255+128+255+128+2)/4 = 192; every other block is blue four times, and its
 * averages are blue's own, U (4*255+2)/4 = 255 and V (4*116+2)/4 = 116. Odd rows have no average. */
static void from_rgba_by_hand(void)
{
    static const uint8_t y[3] = {53, 254, 17}, u[2][3] = {{114, 128, 255}, {99, 128, 255}}, v[2][3] = {{192, 128, 116}, {255, 128, 116}};
    for (size_t extra = 0; extra < 2; extra++) {
        Args a = three_by_one(extra);
        Result r = tried(FROM_RGBA, &a);
        check(is_refusal(&r, 0), "from_rgba", "the number");
        const uint8_t *py = a.at[Y], *pu = a.at[U], *pv = a.at[V];
        for (size_t row = 0; row < 16; row++) {
            check(row_is(py + 16 * row, y, 17), "from_rgba", "a row of Y");
            check(row_is(pu + 16 * row, u[row % 2], 255), "from_rgba", "a row of U");
            check(row_is(pv + 16 * row, v[row % 2], 116), "from_rgba", "a row of V");
        }
        check(kept_from(py, 256) && kept_from(pu, 256) && kept_from(pv, 256) && kept_from(a.at[RGBA], 0), "from_rgba", "the rest");
        over(FROM_RGBA);
    }
}

/* One red pixel: it is the nearest one of every place, and each block is red four times: U (4*99+2)/4 = 99, V (4*255+2)/4 = 255. */
static void one_pixel_by_hand(void)
{
    Args a = {0};
    picture(&a, 1, 1, 256);
    lend_as(&a, RGBA, 4, three_pixels);
    Result r = tried(FROM_RGBA, &a);
    check(is_refusal(&r, 0), "from_rgba", "the number of one pixel");
    check(all_are(a.at[Y], 256, 53) && all_are(a.at[U], 256, 99) && all_are(a.at[V], 256, 255), "from_rgba", "one pixel");
    over(FROM_RGBA);
}

/* The edge is not filled: the two blocks of the three pixels have 128 in their other places, so the averages are U (99+3*128+2)/4 = 121,
 * V (255+3*128+2)/4 = 160, and U (255+3*128+2)/4 = 160, V (116+3*128+2)/4 = 125. */
static void from_rgba_rust_by_hand(void)
{
    static const uint8_t y[4] = {53, 254, 17, 0}, u[4] = {121, 128, 160, 128}, v[4] = {160, 128, 125, 128};
    for (size_t extra = 0; extra < 2; extra++) {
        Args a = three_by_one(extra);
        Result r = tried(FROM_RGBA_RUST, &a);
        check(is_refusal(&r, 0), "from_rgba_rust", "the number");
        const uint8_t *py = a.at[Y], *pu = a.at[U], *pv = a.at[V];
        check(memcmp(py, y, 4) == 0 && all_are(py + 4, 252, 0), "from_rgba_rust", "Y");
        check(memcmp(pu, u, 4) == 0 && all_are(pu + 4, 252, 128), "from_rgba_rust", "U");
        check(memcmp(pv, v, 4) == 0 && all_are(pv + 4, 252, 128), "from_rgba_rust", "V");
        check(kept_from(py, 256) && kept_from(pu, 256) && kept_from(pv, 256) && kept_from(a.at[RGBA], 0), "from_rgba_rust", "the rest");
        over(FROM_RGBA_RUST);
    }
}

/* Y 100 and V 128 in a 2x2 block; U is 100 at the even-even place. With 110 three times beside it, s = 330, t = 70: the filter
 * acts, u = -58, G = 100 + floor(2784/256) = 110, B = 100 + floor(-27550/256) = -8, so 0. U 110: G 103, B 66.
 * With 110 110 109, s = 329, t = 71: a change of 29, so U stays 100: G 105, B 48; and the place of 109 has G 103, B 64. */
static void to_rgba_by_hand(void)
{
    static const uint8_t acts[16] = {100, 110, 0, 255, 100, 103, 66, 255, 100, 103, 66, 255, 100, 103, 66, 255};
    static const uint8_t rests[16] = {100, 105, 48, 255, 100, 103, 66, 255, 100, 103, 66, 255, 100, 103, 64, 255};
    static const uint8_t column[8] = {100, 103, 66, 255, 100, 103, 64, 255};
    static const struct { uint16_t edges[4]; uint8_t diagonal; size_t count, filtered; const uint8_t *want; } cases[] = {
        {{0, 0, 2, 2}, 110, 16, 1, acts}, {{0, 0, 65535, 65535}, 109, 16, 0, rests}, {{1, 0, 9, 9}, 109, 8, 0, column},
        {{2, 0, 2, 2}, 110, 0, 0, acts}, {{2, 2, 0, 0}, 110, 0, 0, acts}, {{0, 1, 2, 1}, 110, 0, 0, acts}, {{7, 7, 9, 9}, 110, 0, 0, acts}};
    for (size_t k = 0; k < sizeof cases / sizeof *cases; k++) {
        for (size_t extra = 0; extra < 2; extra++) {
            Args a = {0};
            picture(&a, 2, 2, 256);
            memset(a.at[Y], 100, 256);
            memset(a.at[U], 110, 256);
            memset(a.at[V], 128, 256);
            ((uint8_t *)a.at[U])[0] = 100;
            ((uint8_t *)a.at[U])[17] = cases[k].diagonal;
            a.left = cases[k].edges[0], a.top = cases[k].edges[1], a.right = cases[k].edges[2], a.bottom = cases[k].edges[3];
            lend_as(&a, OUT, cases[k].count + extra, NULL);
            Result r = tried(TO_RGBA, &a);
            check(r.number == 0 && r.count == cases[k].count, "to_rgba", "number and count");
            check(r.filtered_u == cases[k].filtered && r.filtered_v == 0, "to_rgba", "what was filtered");
            check(cases[k].count == 0 || memcmp(a.at[OUT], cases[k].want, cases[k].count) == 0, "to_rgba", "the pixels");
            check(kept_from(a.at[OUT], cases[k].count) && kept_from(a.at[U], 0), "to_rgba", "the rest");
            over(TO_RGBA);
        }
    }
}

/* Writes a 2x2 block: the even-even sample, then right, below, diagonal. */
static void put_block(const Args *a, enum slice plane, size_t row, size_t col, const uint8_t samples[4])
{
    uint8_t *at = (uint8_t *)a->at[plane] + row * up_to(a->width, 16) + col;
    memcpy(at, samples, 2);
    memcpy(at + up_to(a->width, 16), samples + 2, 2);
}

static Result filtering(Args *a, const uint16_t edges[4])
{
    a->left = edges[0], a->top = edges[1], a->right = edges[2], a->bottom = edges[3];
    return tried(TO_RGBA, a);
}

/* The filter at its edges: whether it replaces the even-even sample a of a block, where t is 4 a less the sum of the others, clamped. Each
 * block in U with each in V, in rectangles of a 2x2 picture that have its first pixel and in some that do not. */
static void filter_by_hand(void)
{
    static const struct { uint8_t samples[4]; bool replaced; } blocks[] = {
        {{100, 110, 110, 109}, false}, /* t = 400 - 329 = 71: 29 away */
        {{100, 110, 110, 110}, true},  /* t = 400 - 330 = 70: 30 away */
        {{100, 90, 90, 91}, false},    /* t = 129 */
        {{100, 90, 90, 90}, true},     /* t = 130 */
        {{30, 40, 40, 40}, true},      /* t = 0 */
        {{29, 40, 40, 40}, false},     /* t = 0 (116 - 120): 29 away */
        {{225, 100, 100, 100}, true},  /* t = 255 */
        {{226, 100, 100, 100}, false}, /* t = 255: 29 away */
        {{90, 90, 90, 90}, false},     /* t = a */
        {{128, 127, 128, 129}, false}};
    static const struct { uint16_t edges[4]; bool first; } rects[] = {
        {{0, 0, 2, 2}, true}, {{0, 0, 1, 1}, true}, {{0, 0, 65535, 1}, true}, {{1, 0, 2, 2}, false}, {{0, 1, 2, 2}, false},
        {{1, 1, 2, 2}, false}, {{0, 0, 0, 2}, false}, {{2, 0, 9, 9}, false}, {{2, 2, 0, 0}, false}};
    enum { BLOCKS = sizeof blocks / sizeof *blocks, RECTANGLES = sizeof rects / sizeof *rects };
    for (size_t of_u = 0; of_u < BLOCKS; of_u++)
        for (size_t of_v = 0; of_v < BLOCKS; of_v++) {
            Args a = {0};
            picture(&a, 2, 2, 256);
            put_block(&a, U, 0, 0, blocks[of_u].samples);
            put_block(&a, V, 0, 0, blocks[of_v].samples);
            lend_as(&a, OUT, 16, NULL);
            for (size_t k = 0; k < RECTANGLES; k++) {
                Result r = filtering(&a, rects[k].edges);
                check(r.number == 0 && r.filtered_u == (rects[k].first && blocks[of_u].replaced), "to_rgba", "filtered U at the edge");
                check(r.filtered_v == (rects[k].first && blocks[of_v].replaced), "to_rgba", "filtered V at the edge");
            }
            over(TO_RGBA);
        }
}

/* A 5x3 picture: all blocks of U are replaced, and those of V at columns 0, 4, 8 and 12; in the padding too, where nothing is counted. */
static void filtered_by_hand(void)
{
    static const uint8_t acts[4] = {100, 110, 110, 110}, rests[4] = {100, 110, 110, 109};
    static const struct { uint16_t edges[4]; size_t in_u, in_v; } cases[] = {
        {{0, 0, 5, 3}, 6, 4}, {{0, 0, 65535, 65535}, 6, 4}, {{1, 0, 5, 3}, 4, 2}, {{0, 1, 5, 3}, 3, 2}, {{1, 1, 5, 3}, 2, 1},
        {{0, 0, 4, 3}, 4, 2}, {{0, 0, 5, 2}, 3, 2}, {{4, 2, 5, 3}, 1, 1}, {{2, 0, 4, 3}, 2, 0}, {{1, 1, 2, 2}, 0, 0},
        {{3, 0, 4, 3}, 0, 0}, {{0, 1, 5, 2}, 0, 0}, {{5, 0, 9, 3}, 0, 0}, {{0, 3, 5, 9}, 0, 0}, {{4, 0, 2, 3}, 0, 0}};
    Args a = {0};
    picture(&a, 5, 3, 256);
    for (size_t row = 0; row < 16; row += 2)
        for (size_t col = 0; col < 16; col += 2) {
            put_block(&a, U, row, col, acts);
            put_block(&a, V, row, col, col % 4 == 0 ? acts : rests);
        }
    lend_as(&a, OUT, 60, NULL);
    for (size_t k = 0; k < sizeof cases / sizeof *cases; k++) {
        Result r = filtering(&a, cases[k].edges);
        check(r.number == 0 && r.filtered_u == cases[k].in_u && r.filtered_v == cases[k].in_v, "to_rgba", "what a rectangle filtered");
    }

    /* a refusal counts nothing: 6, and then 1 */
    a.count[OUT] = 59;
    Result r = filtering(&a, cases[0].edges);
    check(is_refusal(&r, 6), "to_rgba", "nothing filtered in a refusal with 6");
    a.count[V] = 255;
    r = filtering(&a, cases[0].edges);
    check(is_refusal(&r, 1), "to_rgba", "nothing filtered in a refusal with 1");
    over(TO_RGBA);
}

static uint8_t sample(const Args *a, enum slice plane, size_t row, size_t col)
{
    const uint8_t *bytes = a->at[plane];
    return bytes[row * (plane == VIEW_Y ? a->luma_stride : a->chroma_stride) + col];
}

/* What one of the three calls takes, in columns from..below and rows from..below, of luma and of chroma. */
typedef struct {
    size_t count;
    uint16_t rects[8];
    size_t luma[4], chroma[4]; /* left, top, right, bottom; all 0: nothing */
} Taking;

/* The rules's rectangles on a 5x5 picture and a 16x16 view, worked by hand, and three more. */
static const Taking takings[] = {
    {4, {5, 0, 5, 4}, {0, 0, 0, 0}, {4, 0, 6, 4}},
    {4, {4, 0, 4, 4}, {0, 0, 0, 0}, {0, 0, 0, 0}},
    {4, {3, 0, 6, 2}, {3, 0, 6, 2}, {2, 0, 6, 2}},
    {4, {3, 0, 5, 2}, {3, 0, 5, 2}, {2, 0, 6, 2}},
    {4, {0, 0, 2, 6}, {0, 0, 2, 5}, {0, 0, 2, 6}},
    {0, {0}, {0, 0, 0, 0}, {0, 0, 0, 0}},
    {8, {1, 3, 2, 4, 2, 3, 3, 4}, {1, 3, 3, 4}, {0, 2, 4, 4}},
    {8, {9, 9, 12, 12, 65535, 65535, 65535, 65535}, {0, 0, 0, 0}, {0, 0, 0, 0}}};

/* Where a chroma sample comes from: a plane of the view, a row and a column of it. `second` is V. */
typedef struct { enum slice plane; size_t row, col; } Source;

static Source main_source(bool second, size_t row, size_t col)
{
    Source s = {second ? VIEW_V : VIEW_U, row / 2, col / 2};
    return s;
}

static Source v1_source(bool second, size_t row, size_t col)
{
    Source odd_row = {VIEW_Y, row - row % 16 + row % 16 / 2 + (second ? 8 : 0), col};
    return row % 2 == 1 ? odd_row : main_source(second, row, col);
}

static Source v2_source(bool second, size_t row, size_t col, size_t coded_width)
{
    Source odd_col = {VIEW_Y, row, col / 2 + (second ? coded_width / 2 : 0)};
    Source even_col = {col % 4 == 0 ? VIEW_U : VIEW_V, row / 2, col / 4 + (second ? coded_width / 4 : 0)};
    return col % 2 == 1 ? odd_col : even_col;
}

static Source source(enum call call, bool second, size_t row, size_t col, size_t coded_width)
{
    if (call == MAIN)
        return main_source(second, row, col);
    return call == AUX_V1 ? v1_source(second, row, col) : v2_source(second, row, col, coded_width);
}

/* Puts into three planes what the call has to take; every other byte is left. */
static void take(enum call call, const Args *a, size_t stride, size_t rows, const size_t luma[4], const size_t chroma[4], uint8_t *want[3])
{
    const size_t coded_width = ((size_t)a->view_width + 15) / 16 * 16;
    for (size_t row = 0; row < rows; row++)
        for (size_t col = 0; col < stride; col++) {
            if (call == MAIN && within(luma, row, col))
                want[Y][row * stride + col] = sample(a, VIEW_Y, row, col);
            if (!within(chroma, row, col) || (call != MAIN && row % 2 == 0 && col % 2 == 0))
                continue;
            Source first = source(call, false, row, col, coded_width), second = source(call, true, row, col, coded_width);
            want[U][row * stride + col] = sample(a, first.plane, first.row, first.col);
            want[V][row * stride + col] = sample(a, second.plane, second.row, second.col);
        }
}

static void applied(enum call call, Args *a, size_t plane, uint8_t *want[3])
{
    Result r = tried(call, a);
    check(is_refusal(&r, 0), call_names[call], "the number");
    for (int s = Y; s <= V; s++)
        check(memcmp(a->at[s], want[s], plane) == 0, call_names[call], slice_names[s]);
    check(kept_from(a->at[VIEW_Y], 0) && kept_from(a->at[VIEW_U], 0) && kept_from(a->at[VIEW_V], 0), call_names[call], "the view");
    over(call);
}

static void rectangles_by_hand(void)
{
    static uint8_t y[257], u[257], v[257];
    uint8_t *want[3] = {y, u, v};
    for (int call = MAIN; call <= AUX_V2; call++)
        for (size_t k = 0; k < sizeof takings / sizeof *takings; k++) {
            Args a = {0};
            picture(&a, 5, 5, 257);
            view(&a, 16, 16, 19, 11);
            a.count[RECTS] = takings[k].count;
            a.at[RECTS] = lend(2 * takings[k].count);
            memcpy(a.at[RECTS], takings[k].rects, 2 * takings[k].count);
            for (int s = Y; s <= V; s++)
                memcpy(want[s], a.at[s], 257);
            take((enum call)call, &a, 16, 16, takings[k].luma, takings[k].chroma, want);
            applied((enum call)call, &a, 257, want);
        }
}

/* A view that is smaller than it was coded, over the whole of a picture of its size. V1, 16x12: rows 9 and 11 take nothing, since
 * their V rows 12 and 13 are absent. V2, 20 wide, W is 32: of the odd columns 1 to 7, since 16 + 4 is absent; of the even columns
 * of odd rows 0 to 6, since 8 + 2 is not in the 10 of a chroma row. */
static void cropped_by_hand(void)
{
    static uint8_t y[512], u[512], v[512];
    uint8_t *want[3] = {y, u, v};
    static const uint16_t whole[4] = {0, 0, 65535, 65535};
    static const struct { enum call call; uint16_t width, height; size_t stride, taken[3][4]; } cases[] = {
        {AUX_V1, 16, 12, 16, {{0, 0, 16, 9}, {0, 10, 16, 11}, {0, 0, 0, 0}}},
        {AUX_V2, 20, 16, 32, {{0, 0, 8, 16}, {0, 0, 0, 0}, {0, 0, 0, 0}}}};
    for (size_t k = 0; k < 2; k++) {
        Args a = {0};
        const size_t plane = cases[k].stride * 16;
        picture(&a, cases[k].width, cases[k].height, plane);
        view(&a, cases[k].width, cases[k].height, cases[k].width, cases[k].width / 2u);
        lend_as(&a, RECTS, 8, NULL);
        memcpy(a.at[RECTS], whole, 8);
        a.count[RECTS] = 4;
        for (int s = Y; s <= V; s++)
            memcpy(want[s], a.at[s], plane);
        for (size_t i = 0; i < 3; i++)
            take(cases[k].call, &a, cases[k].stride, 16, cases[k].taken[i], cases[k].taken[i], want);
        applied(cases[k].call, &a, plane, want);
    }
}

/* Both views of a 17x3 picture, stride 32 and rows 16: each spot holds the sample that the auxiliary call reads there. */
static void split_by_hand(void)
{
    for (int call = SPLIT_V1; call <= SPLIT_V2; call++) {
        Args a = {0};
        picture(&a, 17, 3, 512);
        for (int s = MAIN_Y; s <= AUX_V; s++)
            lend_as(&a, (enum slice)s, (s == MAIN_Y || s == AUX_Y ? 512 : 128) + 1, NULL);
        Result r = tried((enum call)call, &a);
        check(r.number == 0 && r.count == 0 && r.width == 32 && r.height == 16 && r.luma_stride == 32 && r.chroma_stride == 16,
              call_names[call], "the views");
        check(memcmp(a.at[MAIN_Y], a.at[Y], 512) == 0, call_names[call], "main luma");

        Args views = a; /* what was written, read as the views' own planes */
        views.luma_stride = 32, views.chroma_stride = 16;
        bool right = true;
        for (size_t row = 0; row < 16; row++)
            for (size_t col = 0; col < 32; col++) {
                const bool even = row % 2 == 0 && col % 2 == 0;
                for (int s = VIEW_Y; s <= VIEW_V; s++)
                    views.at[s] = a.at[(even ? MAIN_Y : AUX_Y) + s - VIEW_Y];
                for (int second = 0; second < 2; second++) {
                    const enum call from = even ? MAIN : call == SPLIT_V1 ? AUX_V1 : AUX_V2;
                    const Source s = source(from, second, row, col, 32);
                    right = right && sample(&views, s.plane, s.row, s.col) == ((uint8_t *)a.at[second ? V : U])[row * 32 + col];
                }
            }
        check(right, call_names[call], "chroma");
        for (int s = MAIN_Y; s <= AUX_V; s++)
            check(kept_from(a.at[s], a.count[s] - 1), call_names[call], "the byte past a plane");
        check(kept_from(a.at[Y], 0) && kept_from(a.at[U], 0) && kept_from(a.at[V], 0), call_names[call], "the picture");
        over((enum call)call);
    }
}

/* 65,520 is the largest side that splits, also where the other is 0: then there is no byte, and the views still have their sizes. */
static void split_at_its_limit(void)
{
    static const struct { uint16_t width, height; uint32_t number; } cases[] = {
        {65520, 0, 0}, {65521, 0, 5}, {65535, 0, 5}, {0, 65520, 0}, {0, 65521, 5}, {0, 65535, 5}, {0, 0, 0}};
    for (size_t k = 0; k < sizeof cases / sizeof *cases; k++)
        for (int call = SPLIT_V1; call <= SPLIT_V2; call++) {
            Args a = {0};
            a.width = cases[k].width, a.height = cases[k].height;
            Result r = tried((enum call)call, &a);
            if (cases[k].number != 0)
                check(is_refusal(&r, cases[k].number), call_names[call], "above 65,520");
            else
                check(r.number == 0 && r.width == a.width && r.height == a.height && r.luma_stride == a.width && r.chroma_stride == a.width / 2u,
                      call_names[call], "at most 65,520");
        }
}

/* A view of 5x3 with strides 7 and 4, chroma 3x2; and one of width 0, whose rows are present and empty. */
static void rows_by_hand(void)
{
    static const struct { enum call call; uint16_t width; size_t row; bool present; size_t start, length; } cases[] = {
        {LUMA_ROW, 5, 0, true, 0, 5}, {LUMA_ROW, 5, 2, true, 14, 5}, {LUMA_ROW, 5, 3, false, 0, 0}, {LUMA_ROW, 5, SIZE_MAX, false, 0, 0},
        {U_ROW, 5, 0, true, 0, 3}, {U_ROW, 5, 1, true, 4, 3}, {U_ROW, 5, 2, false, 0, 0}, {U_ROW, 5, SIZE_MAX, false, 0, 0},
        {V_ROW, 5, 0, true, 0, 3}, {V_ROW, 5, 1, true, 4, 3}, {V_ROW, 5, 2, false, 0, 0}, {V_ROW, 5, SIZE_MAX / 2 + 1, false, 0, 0},
        {LUMA_ROW, 0, 2, true, 14, 0}, {U_ROW, 0, 1, true, 4, 0}, {V_ROW, 0, 2, false, 0, 0}};
    for (size_t k = 0; k < sizeof cases / sizeof *cases; k++) {
        Args a = {0};
        view(&a, cases[k].width, 3, 7, 4);
        a.row = cases[k].row;
        Result r = tried(cases[k].call, &a);
        check(r.number == 0 && r.present == cases[k].present && r.start == cases[k].start && r.length == cases[k].length,
              call_names[cases[k].call], "the row");
        r = tried(VIEW, &a);
        check(is_refusal(&r, 0) && lent_kept(), "view", "the number");
        over(VIEW);
    }
}

/* A view of 3x1 with Y 53 254 17, U 99 255, V 255 116: red; Y 254 with red's chroma (u -29, v 127: R 254 + 199 to 255, G 254 +
 * floor(-13848/256) = 199, B 254 + floor(-13775/256) = 200); blue. */
static void view_to_rgba_by_hand(void)
{
    static const uint8_t y[5] = {53, 254, 17, 1, 1}, u[2] = {99, 255}, v[2] = {255, 116};
    static const uint8_t want[12] = {252, 0, 0, 255, 255, 199, 200, 255, 0, 0, 252, 255};
    for (size_t extra = 0; extra < 2; extra++) {
        Args a = {0};
        a.view_width = 3, a.view_height = 1, a.luma_stride = 5, a.chroma_stride = 2;
        lend_as(&a, VIEW_Y, 5, y);
        lend_as(&a, VIEW_U, 2, u);
        lend_as(&a, VIEW_V, 2, v);
        lend_as(&a, OUT, 12 + extra, NULL);
        Result r = tried(VIEW_TO_RGBA, &a);
        check(r.number == 0 && r.count == 12, "view_to_rgba", "number and count");
        check(memcmp(a.at[OUT], want, 12) == 0 && kept_from(a.at[OUT], 12), "view_to_rgba", "the pixels");
        over(VIEW_TO_RGBA);
    }
}

/* Payloads: whether length-prefixed, and the Annex B of the first `count` bytes. A `long_unit` adds so many bytes of 7. */
static void payloads_by_hand(void)
{
    static const struct { size_t size; uint8_t data[16]; size_t long_unit; bool avc; size_t count; uint8_t annex_b[16]; } cases[] = {
        {0, {0}, 0, false, 0, {0}},
        {6, {0, 0, 0, 2, 0x67, 0x42}, 0, true, 6, {0, 0, 0, 1, 0x67, 0x42}},
        {11, {0, 0, 0, 2, 0x67, 0x42, 0, 0, 0, 1, 9}, 0, true, 11, {0, 0, 0, 1, 0x67, 0x42, 0, 0, 0, 1, 9}},
        {5, {0, 0, 0, 1, 9}, 0, false, 5, {0, 0, 0, 1, 9}},             /* a unit of 1 byte reads as a start code */
        {4, {0, 0, 1, 9}, 0, false, 0, {0}},
        {4, {0, 0, 0, 0}, 0, false, 4, {0, 0, 0, 1}},                   /* length 0: the start code alone */
        {9, {0, 0, 0, 0, 0, 0, 0, 1, 9}, 0, false, 9, {0, 0, 0, 1, 0, 0, 0, 1, 9}},
        {11, {0, 0, 0, 2, 0x67, 0x42, 0, 0, 0, 2, 9}, 0, false, 6, {0, 0, 0, 1, 0x67, 0x42}}, /* the second runs past the end */
        {9, {0, 0, 0, 2, 0x67, 0x42, 0, 0, 0}, 0, false, 6, {0, 0, 0, 1, 0x67, 0x42}},        /* fewer than 4 bytes are left */
        {3, {0, 0, 0}, 0, false, 0, {0}},
        {8, {255, 255, 255, 255, 1, 2, 3, 4}, 0, false, 0, {0}},
        {4, {0, 0, 1, 0}, 256, false, 260, {0, 0, 0, 1, 7, 7, 7, 7}},   /* starts 00 00 01 */
        {4, {0, 0, 2, 0}, 512, true, 516, {0, 0, 0, 1, 7, 7, 7, 7}}};
    for (size_t k = 0; k < sizeof cases / sizeof *cases; k++) {
        for (int room = -1; room < 2; room++) { /* one short, exactly full, one longer */
            const size_t size = cases[k].size + cases[k].long_unit, count = cases[k].count;
            if (count == 0 && room < 0)
                continue;
            Args a = {0};
            lend_as(&a, DATA, size, NULL);
            if (size > 0)
                memset(a.at[DATA], 7, size);
            if (size > 0)
                memcpy(a.at[DATA], cases[k].data, cases[k].size);
            lend_as(&a, OUT, count + (size_t)room, NULL);
            Result r = tried(IS_AVC, &a);
            check(r.yes == cases[k].avc && lent_kept(), "is_avc_format", "yes or no");
            r = tried(ANNEX_B, &a);
            const uint8_t *out = a.at[OUT];
            const size_t head = count < 8 ? count : 8;
            if (room < 0) {
                check(is_refusal(&r, HAYTHAW_OUTPUT_SHORT) && lent_kept(), "avc_to_annex_b", "one byte short");
            } else {
                check(r.number == 0 && r.count == count, "avc_to_annex_b", "number and count");
                check(count == 0 || memcmp(out, cases[k].annex_b, cases[k].long_unit > 0 ? head : count) == 0, "avc_to_annex_b", "its bytes");
                check(cases[k].long_unit == 0 || all_are(out + 4, cases[k].long_unit, 7), "avc_to_annex_b", "a long unit");
                check(kept_from(out, count) && kept_from(a.at[DATA], 0), "avc_to_annex_b", "the rest");
            }
            over(ANNEX_B);
        }
    }
}

#endif
