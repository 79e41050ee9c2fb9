/* The other rules of AVC444v2: W is the picture's width rounded up to 32, or, for apply alone, not rounded (the rule Exact). Rows and
 * numbers are worked by hand and written out. */
#ifndef WIDTH_H
#define WIDTH_H

#include "check.h"

/* Rows 0 and 1 of a picture of this stride have a byte of their own in each column c: Y 1 + c in both; U c in row 0 and 150 + c in row 1;
 * V 100 + c in row 0 and 200 + c in row 1. Every row r after them has one byte: Y r, U 20 + r, V 40 + r. */
static void rows_in_columns(const Args *a, size_t stride)
{
    static const uint8_t first[3][2] = {{1, 1}, {0, 150}, {100, 200}}, after[3] = {0, 20, 40};
    for (int s = Y; s <= V; s++) {
        uint8_t *at = a->at[s];
        for (size_t c = 0; c < stride; c++) {
            at[c] = (uint8_t)(first[s][0] + c);
            at[stride + c] = (uint8_t)(first[s][1] + c);
        }
        for (size_t r = 2; r < 16; r++)
            memset(at + r * stride, (int)(after[s] + r), stride);
    }
}

#define EIGHT_128 128, 128, 128, 128, 128, 128, 128, 128
#define SIXTEEN_0 0, 0, 0, 0, 0, 0, 0, 0, 0, 0, 0, 0, 0, 0, 0, 0

/* What the split of such a picture by the 32 rule writes: the rows of rows 0 and 1 in columns, and how many bytes of the rows after them are
 * the picture's and how many are past its stride. */
typedef struct {
    uint16_t width, wide;
    size_t stride, luma[2], half[2], quarter[2];
    uint8_t main_y[64], main_u[32], main_v[32], even[64], odd[64], aux_u[32], aux_v[32];
} Split32;

static const Split32 splits[] = {
    /* 48 is 64: the stride is 48, and 16 columns are past it */
    {48, 64, 48, {48, 16}, {24, 8}, {12, 4},
     {1, 2, 3, 4, 5, 6, 7, 8, 9, 10, 11, 12, 13, 14, 15, 16, 17, 18, 19, 20, 21, 22, 23, 24, 25, 26, 27, 28, 29, 30, 31, 32,
      33, 34, 35, 36, 37, 38, 39, 40, 41, 42, 43, 44, 45, 46, 47, 48, SIXTEEN_0},
     {0, 2, 4, 6, 8, 10, 12, 14, 16, 18, 20, 22, 24, 26, 28, 30, 32, 34, 36, 38, 40, 42, 44, 46, EIGHT_128},
     {100, 102, 104, 106, 108, 110, 112, 114, 116, 118, 120, 122, 124, 126, 128, 130, 132, 134, 136, 138, 140, 142, 144, 146, EIGHT_128},
     {1, 3, 5, 7, 9, 11, 13, 15, 17, 19, 21, 23, 25, 27, 29, 31, 33, 35, 37, 39, 41, 43, 45, 47, EIGHT_128,
      101, 103, 105, 107, 109, 111, 113, 115, 117, 119, 121, 123, 125, 127, 129, 131, 133, 135, 137, 139, 141, 143, 145, 147, EIGHT_128},
     {151, 153, 155, 157, 159, 161, 163, 165, 167, 169, 171, 173, 175, 177, 179, 181, 183, 185, 187, 189, 191, 193, 195, 197, EIGHT_128,
      201, 203, 205, 207, 209, 211, 213, 215, 217, 219, 221, 223, 225, 227, 229, 231, 233, 235, 237, 239, 241, 243, 245, 247, EIGHT_128},
     {150, 154, 158, 162, 166, 170, 174, 178, 182, 186, 190, 194, 128, 128, 128, 128,
      200, 204, 208, 212, 216, 220, 224, 228, 232, 236, 240, 244, 128, 128, 128, 128},
     {152, 156, 160, 164, 168, 172, 176, 180, 184, 188, 192, 196, 128, 128, 128, 128,
      202, 206, 210, 214, 218, 222, 226, 230, 234, 238, 242, 246, 128, 128, 128, 128}},
    /* 16 is 32: half of every row is past the stride */
    {16, 32, 16, {16, 16}, {8, 8}, {4, 4},
     {1, 2, 3, 4, 5, 6, 7, 8, 9, 10, 11, 12, 13, 14, 15, 16, SIXTEEN_0},
     {0, 2, 4, 6, 8, 10, 12, 14, EIGHT_128},
     {100, 102, 104, 106, 108, 110, 112, 114, EIGHT_128},
     {1, 3, 5, 7, 9, 11, 13, 15, EIGHT_128, 101, 103, 105, 107, 109, 111, 113, 115, EIGHT_128},
     {151, 153, 155, 157, 159, 161, 163, 165, EIGHT_128, 201, 203, 205, 207, 209, 211, 213, 215, EIGHT_128},
     {150, 154, 158, 162, 128, 128, 128, 128, 200, 204, 208, 212, 128, 128, 128, 128},
     {152, 156, 160, 164, 128, 128, 128, 128, 202, 206, 210, 214, 128, 128, 128, 128}}};

/* A row of the picture's bytes and of those past its stride, once, or for U and then for V. */
static bool row_has(const uint8_t *row, const size_t parts[2], const uint8_t *bytes, size_t count, uint8_t past)
{
    bool right = true;
    for (size_t k = 0; k < count; k++, row += parts[0] + parts[1])
        right = right && all_are(row, parts[0], bytes[k]) && all_are(row + parts[0], parts[1], past);
    return right;
}

static void main_is(const Split32 *want, const Args *a)
{
    const size_t wide = want->wide, half = wide / 2;
    const uint8_t *y = a->at[MAIN_Y], *u = a->at[MAIN_U], *v = a->at[MAIN_V];
    check(memcmp(y, want->main_y, wide) == 0 && memcmp(y + wide, want->main_y, wide) == 0, "split_v2_32", "main luma");
    check(memcmp(u, want->main_u, half) == 0 && memcmp(v, want->main_v, half) == 0, "split_v2_32", "main chroma");
    bool luma = true, chroma = true;
    for (size_t r = 2; r < 16; r++)
        luma = luma && row_has(y + r * wide, want->luma, (const uint8_t[]){(uint8_t)r}, 1, 0);
    for (size_t r = 1; r < 8; r++) {
        chroma = chroma && row_has(u + r * half, want->half, (const uint8_t[]){(uint8_t)(20 + 2 * r)}, 1, 128);
        chroma = chroma && row_has(v + r * half, want->half, (const uint8_t[]){(uint8_t)(40 + 2 * r)}, 1, 128);
    }
    check(luma && chroma, "split_v2_32", "the main view's other rows");
}

static void auxiliary_is(const Split32 *want, const Args *a)
{
    const size_t wide = want->wide, half = wide / 2;
    const uint8_t *y = a->at[AUX_Y], *u = a->at[AUX_U], *v = a->at[AUX_V];
    check(memcmp(y, want->even, wide) == 0 && memcmp(y + wide, want->odd, wide) == 0, "split_v2_32", "auxiliary luma");
    check(memcmp(u, want->aux_u, half) == 0 && memcmp(v, want->aux_v, half) == 0, "split_v2_32", "auxiliary chroma");
    bool luma = true, chroma = true;
    for (size_t r = 2; r < 16; r++)
        luma = luma && row_has(y + r * wide, want->half, (const uint8_t[]){(uint8_t)(20 + r), (uint8_t)(40 + r)}, 2, 128);
    for (size_t r = 1; r < 8; r++) {
        const uint8_t below[2] = {(uint8_t)(21 + 2 * r), (uint8_t)(41 + 2 * r)};
        chroma = chroma && row_has(u + r * half, want->quarter, below, 2, 128) && row_has(v + r * half, want->quarter, below, 2, 128);
    }
    check(luma && chroma, "split_v2_32", "the auxiliary view's other rows");
}

/* Outputs for views so wide, of 16 rows, and so many bytes more. */
static void lend_views(Args *a, size_t wide, size_t more)
{
    for (int s = MAIN_Y; s <= AUX_V; s++)
        lend_as(a, (enum slice)s, (s == MAIN_Y || s == AUX_Y ? wide * 16 : wide / 2 * 8) + more, NULL);
}

static bool views_are(const Result *r, uint16_t width, uint16_t height)
{
    return r->number == 0 && r->count == 0 && r->width == width && r->height == height && r->luma_stride == width &&
           r->chroma_stride == width / 2u;
}

/* Every byte of the six planes, and none after them. A picture 33 wide has the planes and the W of one that is 48 wide, and one of 1 those
 * of 16. */
static void split_32_by_hand(void)
{
    static const uint16_t narrower[] = {33, 1};
    for (size_t k = 0; k < 2; k++)
        for (size_t more = 0; more < 4; more += 3)
            for (int narrow = 0; narrow < 2; narrow++) {
                const Split32 *want = &splits[k];
                Args a = {0};
                picture(&a, narrow ? narrower[k] : want->width, 16, want->stride * 16 + more);
                rows_in_columns(&a, want->stride);
                lend_views(&a, want->wide, more);
                Result r = tried(SPLIT_V2_32, &a);
                check(views_are(&r, want->wide, 16), "split_v2_32", "the views");
                main_is(want, &a);
                auxiliary_is(want, &a);
                for (int s = MAIN_Y; s <= AUX_V; s++)
                    check(kept_from(a.at[s], a.count[s] - more), "split_v2_32", "the bytes past a plane");
                check(kept_from(a.at[Y], 0) && kept_from(a.at[U], 0) && kept_from(a.at[V], 0), "split_v2_32", "the picture");
                over(SPLIT_V2_32);
            }
}

/* Where the stride is a multiple of 32 every byte is the 16 rule's. */
static void split_32_as_16(void)
{
    static const struct { uint16_t width, wide; } cases[] = {{64, 64}, {63, 64}, {49, 64}, {32, 32}, {17, 32}};
    for (size_t k = 0; k < sizeof cases / sizeof *cases; k++) {
        Args a = {0}, b = {0};
        picture(&a, cases[k].width, 16, (size_t)cases[k].wide * 16);
        b = a;
        lend_views(&a, cases[k].wide, 0);
        lend_views(&b, cases[k].wide, 0);
        Result one = tried(SPLIT_V2_32, &a), two = tried(SPLIT_V2, &b);
        check(views_are(&one, cases[k].wide, 16) && views_are(&two, cases[k].wide, 16), "split_v2_32", "the views of both rules");
        for (int s = MAIN_Y; s <= AUX_V; s++)
            check(memcmp(a.at[s], b.at[s], a.count[s]) == 0, "split_v2_32", "a plane as by the 16 rule");
        over(SPLIT_V2_32);
    }
}

/* 6: each output a byte short, and all of them as long as the 16 rule's, 48 x 16 and 24 x 8. No byte changes. */
static void split_32_short(void)
{
    for (int s = MAIN_Y; s <= AUX_V + 1; s++) {
        Args a = {0};
        picture(&a, 48, 16, 768);
        lend_views(&a, s > AUX_V ? 48 : 64, 0);
        if (s <= AUX_V)
            lend_as(&a, (enum slice)s, s == MAIN_Y || s == AUX_Y ? 1023 : 255, NULL);
        Result r = tried(SPLIT_V2_32, &a);
        check(is_refusal(&r, 6) && lent_kept(), "split_v2_32", s > AUX_V ? "outputs for the 16 rule" : slice_names[s]);
        over(SPLIT_V2_32);
    }
}

/* 65,504 splits and 65,505 does not, with no rows too; the 16 rule goes on to 65,520. */
static void split_32_at_its_limit(void)
{
    static const struct { uint16_t width, height; uint32_t number, of_16; } cases[] = {
        {65504, 0, 0, 0}, {65505, 0, 5, 0}, {65520, 0, 5, 0}, {65521, 0, 5, 5}, {65535, 0, 5, 5},
        {0, 65520, 0, 0}, {0, 65521, 5, 5}, {0, 65535, 5, 5}, {0, 0, 0, 0}};
    for (size_t k = 0; k < sizeof cases / sizeof *cases; k++) {
        Args a = {0};
        a.width = cases[k].width, a.height = cases[k].height;
        Result r = tried(SPLIT_V2_32, &a);
        check(cases[k].number != 0 ? is_refusal(&r, 5) : views_are(&r, a.width, a.height), "split_v2_32", "about 65,504");
        check(tried(SPLIT_V2, &a).number == cases[k].of_16, "split_v2", "about 65,504");
    }
    Args a = {0}; /* 65,473 is the least width of this W, and 1 the least of 32 */
    a.width = 65473;
    Result r = tried(SPLIT_V2_32, &a);
    check(views_are(&r, 65504, 0), "split_v2_32", "the views of 65,473");
    a.width = 1;
    r = tried(SPLIT_V2_32, &a);
    check(views_are(&r, 32, 0), "split_v2_32", "the views of 1");
}

/* 1 before 5 before 6, over planes of 65,520 x 16 bytes and no output. */
static void split_32_in_order(void)
{
    enum { PLANE = 65520 * 16 };
    static const struct { uint16_t width; size_t y, u, v; uint32_t number; } cases[] = {
        {65505, PLANE - 1, PLANE, PLANE, 1}, {65505, PLANE, PLANE - 1, PLANE, 1}, {65505, PLANE, PLANE, PLANE - 1, 1},
        {65505, PLANE, PLANE, PLANE, 5}, {65504, PLANE, PLANE, PLANE, 6}, {65504, 65504 * 16, 65504 * 16, 65504 * 16, 6},
        {65504, 65504 * 16, 65504 * 16, 65504 * 16 - 1, 1}};
    Args a = {0};
    picture(&a, 0, 16, PLANE);
    for (size_t k = 0; k < sizeof cases / sizeof *cases; k++) {
        a.width = cases[k].width, a.count[Y] = cases[k].y, a.count[U] = cases[k].u, a.count[V] = cases[k].v;
        Result r = tried(SPLIT_V2_32, &a);
        check(is_refusal(&r, cases[k].number) && lent_kept(), "split_v2_32", "1 before 5 before 6");
    }
    over(SPLIT_V2_32);
}

/* The widest picture that splits, 65,504 x 1, whose W is its stride: all of main luma, and of rows 0 and 1 of the auxiliary planes the
 * first and the last column of U's part and of V's. */
static void split_32_widest(void)
{
    Args a = {0};
    picture(&a, 65504, 1, (size_t)65504 * 16);
    lend_views(&a, 65504, 0);
    Result r = tried(SPLIT_V2_32, &a);
    check(views_are(&r, 65504, 16), "split_v2_32", "the widest views");
    const uint8_t *u = a.at[U], *v = a.at[V], *aux_y = a.at[AUX_Y], *aux_u = a.at[AUX_U], *aux_v = a.at[AUX_V];
    check(memcmp(a.at[MAIN_Y], a.at[Y], a.count[Y]) == 0, "split_v2_32", "the widest main luma");
    check(aux_y[0] == u[1] && aux_y[32751] == u[65503] && aux_y[32752] == v[1] && aux_y[65503] == v[65503], "split_v2_32", "its luma");
    check(aux_u[0] == u[65504] && aux_u[16375] == u[65504 + 65500] && aux_u[16376] == v[65504] && aux_v[16375] == u[65504 + 65502] &&
              aux_v[32751] == v[65504 + 65502],
          "split_v2_32", "its chroma");
    over(SPLIT_V2_32);
}

/* The picture's bytes are all 200. Rows 0 and 1 of the view's luma have a byte of their own in each column c, c itself, and so have the first
 * rows of U, 100 + c, and of V, 150 + c. Every luma row r after them is 60 + r, and every chroma row k is 70 + k in U and 90 + k in V. */
static Args view_in_columns(uint16_t width, uint16_t view_width)
{
    static const uint16_t whole[4] = {0, 0, 65535, 65535};
    const size_t half = (view_width + 1u) / 2u;
    Args a = {0};
    picture(&a, width, 16, up_to(width, 16) * 16);
    for (int s = Y; s <= V; s++)
        memset(a.at[s], 200, a.count[s]);
    view(&a, view_width, 16, view_width, half);
    for (size_t r = 0; r < 16; r++)
        for (size_t c = 0; c < view_width; c++)
            ((uint8_t *)a.at[VIEW_Y])[r * view_width + c] = (uint8_t)(r < 2 ? c : 60 + r);
    for (size_t k = 0; k < 8; k++)
        for (size_t c = 0; c < half; c++) {
            ((uint8_t *)a.at[VIEW_U])[k * half + c] = (uint8_t)(k == 0 ? 100 + c : 70 + k);
            ((uint8_t *)a.at[VIEW_V])[k * half + c] = (uint8_t)(k == 0 ? 150 + c : 90 + k);
        }
    lend_as(&a, RECTS, 8, NULL);
    memcpy(a.at[RECTS], whole, 8);
    a.count[RECTS] = 4;
    return a;
}

/* Rows 0 and 1 of U and V after the call, and how many columns are taken of the rows after them. */
typedef struct {
    enum call call;
    uint16_t width, view_width;
    size_t stride, taken;
    uint8_t even_u[48], odd_u[48], even_v[48], odd_v[48];
} Taken;

#define SIXTEEN_200 200, 200, 200, 200, 200, 200, 200, 200, 200, 200, 200, 200, 200, 200, 200, 200
#define TWELVE_200 200, 200, 200, 200, 200, 200, 200, 200, 200, 200, 200, 200

static const Taken takens[] = {
    /* 48 is 64, and the view is 48 wide: V stands 32 columns after U in luma, so that 31 is the last odd column (15 and 47) and 33 would
     * want 48; and 16 after it in chroma, whose rows have 24, so that 30 is the last even column (7 and 23) and 32 would want 24 */
    {AUX_V2_32, 48, 48, 48, 32,
     {200, 0, 200, 1, 200, 2, 200, 3, 200, 4, 200, 5, 200, 6, 200, 7, 200, 8, 200, 9, 200, 10, 200, 11, 200, 12, 200, 13, 200, 14, 200, 15,
      SIXTEEN_200},
     {100, 0, 150, 1, 101, 2, 151, 3, 102, 4, 152, 5, 103, 6, 153, 7, 104, 8, 154, 9, 105, 10, 155, 11, 106, 12, 156, 13, 107, 14, 157, 15,
      SIXTEEN_200},
     {200, 32, 200, 33, 200, 34, 200, 35, 200, 36, 200, 37, 200, 38, 200, 39, 200, 40, 200, 41, 200, 42, 200, 43, 200, 44, 200, 45, 200, 46,
      200, 47, SIXTEEN_200},
     {116, 32, 166, 33, 117, 34, 167, 35, 118, 36, 168, 37, 119, 38, 169, 39, 120, 40, 170, 41, 121, 42, 171, 43, 122, 44, 172, 45, 123, 46,
      173, 47, SIXTEEN_200}},
    /* 20 is 32, however wide the view: here it is 40, which would be 48 by the 16 rule. Columns 0 to 19 are the picture's */
    {AUX_V2_32, 20, 40, 32, 20,
     {200, 0, 200, 1, 200, 2, 200, 3, 200, 4, 200, 5, 200, 6, 200, 7, 200, 8, 200, 9, TWELVE_200},
     {100, 0, 150, 1, 101, 2, 151, 3, 102, 4, 152, 5, 103, 6, 153, 7, 104, 8, 154, 9, TWELVE_200},
     {200, 16, 200, 17, 200, 18, 200, 19, 200, 20, 200, 21, 200, 22, 200, 23, 200, 24, 200, 25, TWELVE_200},
     {108, 16, 158, 17, 109, 18, 159, 19, 110, 20, 160, 21, 111, 22, 161, 23, 112, 24, 162, 25, TWELVE_200}},
    /* 16 is 32: of a view that is 16 wide there is no V at all, and nothing is taken */
    {AUX_V2_32, 16, 16, 16, 0, {SIXTEEN_200}, {SIXTEEN_200}, {SIXTEEN_200}, {SIXTEEN_200}},
    /* and of one that is 18 wide columns 1 and 3 (V at 16 and 17) and, since its chroma is 9 wide, 0 and 2 (V at 8) */
    {AUX_V2_32, 16, 18, 16, 4, {200, 0, 200, 1, TWELVE_200}, {100, 0, 150, 1, TWELVE_200}, {200, 16, 200, 17, TWELVE_200},
     {108, 16, 158, 17, TWELVE_200}},
    /* Exact, 20 is 20, however wide the view: V stands 10 columns after U in luma, and 5 after it in chroma */
    {AUX_V2_EXACT, 20, 32, 32, 20,
     {200, 0, 200, 1, 200, 2, 200, 3, 200, 4, 200, 5, 200, 6, 200, 7, 200, 8, 200, 9, TWELVE_200},
     {100, 0, 150, 1, 101, 2, 151, 3, 102, 4, 152, 5, 103, 6, 153, 7, 104, 8, 154, 9, TWELVE_200},
     {200, 10, 200, 11, 200, 12, 200, 13, 200, 14, 200, 15, 200, 16, 200, 17, 200, 18, 200, 19, TWELVE_200},
     {105, 10, 155, 11, 106, 12, 156, 13, 107, 14, 157, 15, 108, 16, 158, 17, 109, 18, 159, 19, TWELVE_200}},
    /* Exact, 18 is no multiple of 4: V stands 9 and 4 columns after U, so that U's even column 16 and V's column 0 are one byte, 104 */
    {AUX_V2_EXACT, 18, 32, 32, 18,
     {200, 0, 200, 1, 200, 2, 200, 3, 200, 4, 200, 5, 200, 6, 200, 7, 200, 8, 200, 200, TWELVE_200},
     {100, 0, 150, 1, 101, 2, 151, 3, 102, 4, 152, 5, 103, 6, 153, 7, 104, 8, 200, 200, TWELVE_200},
     {200, 9, 200, 10, 200, 11, 200, 12, 200, 13, 200, 14, 200, 15, 200, 16, 200, 17, 200, 200, TWELVE_200},
     {104, 9, 154, 10, 105, 11, 155, 12, 106, 13, 156, 14, 107, 15, 157, 16, 108, 17, 200, 200, TWELVE_200}},
    /* Exact, and the view is as wide as the picture, 17, which is odd: V stands 8 and 4 columns after U. Column 17, which the last block
     * has, would want column 16 of luma for V, and has it; and U's of column 17 and V's of column 1 are one byte, 8 */
    {AUX_V2_EXACT, 17, 17, 32, 18,
     {200, 0, 200, 1, 200, 2, 200, 3, 200, 4, 200, 5, 200, 6, 200, 7, 200, 8, 200, 200, TWELVE_200},
     {100, 0, 150, 1, 101, 2, 151, 3, 102, 4, 152, 5, 103, 6, 153, 7, 104, 8, 200, 200, TWELVE_200},
     {200, 8, 200, 9, 200, 10, 200, 11, 200, 12, 200, 13, 200, 14, 200, 15, 200, 16, 200, 200, TWELVE_200},
     {104, 8, 154, 9, 105, 10, 155, 11, 106, 12, 156, 13, 107, 14, 157, 15, 108, 16, 200, 200, TWELVE_200}}};

/* A row after the first two: its odd columns are 60 + r, its even ones 200 or, in an odd row, 70 + k and 90 + k in turns. */
static bool later_row(const uint8_t *row, size_t r, size_t taken, size_t stride)
{
    const uint8_t odd = (uint8_t)(60 + r), of_u = (uint8_t)(r % 2 ? 70 + r / 2 : 200), of_v = (uint8_t)(r % 2 ? 90 + r / 2 : 200);
    const uint8_t four[4] = {of_u, odd, of_v, odd};
    bool right = all_are(row + taken, stride - taken, 200);
    for (size_t c = 0; c < taken; c++)
        right = right && row[c] == four[c % 4];
    return right;
}

static void taken_is(const Taken *want, const Args *a)
{
    const char *name = call_names[want->call];
    const size_t stride = want->stride;
    const uint8_t *u = a->at[U], *v = a->at[V];
    check(memcmp(u, want->even_u, stride) == 0 && memcmp(u + stride, want->odd_u, stride) == 0, name, "U");
    check(memcmp(v, want->even_v, stride) == 0 && memcmp(v + stride, want->odd_v, stride) == 0, name, "V");
    bool right = true;
    for (size_t r = 2; r < 16; r++)
        right = right && later_row(u + r * stride, r, want->taken, stride) && later_row(v + r * stride, r, want->taken, stride);
    check(right, name, "the other rows");
}

static void taken_by_hand(void)
{
    for (size_t k = 0; k < sizeof takens / sizeof *takens; k++) {
        const enum call call = takens[k].call;
        Args a = view_in_columns(takens[k].width, takens[k].view_width);
        Result r = tried(call, &a);
        check(is_refusal(&r, 0), call_names[call], "the number");
        taken_is(&takens[k], &a);
        check(kept_from(a.at[Y], 0) && kept_from(a.at[VIEW_Y], 0) && kept_from(a.at[VIEW_U], 0) && kept_from(a.at[VIEW_V], 0),
              call_names[call], "luma and the view");
        over(call);
    }
}

/* Exact, where the width is a multiple of 16: every byte is that of the 16 rule, with a view that wide. */
static void exact_as_16(void)
{
    for (uint16_t width = 16; width <= 48; width = (uint16_t)(width + 16)) {
        Args a = view_in_columns(width, width), b = view_in_columns(width, width);
        Result one = tried(AUX_V2_EXACT, &a), two = tried(AUX_V2, &b);
        check(is_refusal(&one, 0) && is_refusal(&two, 0), "apply_auxiliary_v2_exact", "the number as by the 16 rule");
        check(memcmp(a.at[U], b.at[U], a.count[U]) == 0 && memcmp(a.at[V], b.at[V], a.count[V]) == 0 && !all_are(a.at[U], a.count[U], 200),
              "apply_auxiliary_v2_exact", "every byte as by the 16 rule");
        over(AUX_V2_EXACT);
    }
}

/* A picture 65,505 wide has a W of 65,536, which 16 bits do not hold: V is 32,768 columns after U in luma and 16,384 after it in chroma. The
 * view has one row of luma, 65,535 wide, and one of chroma, 32,768 wide; of a row of each the first column and the last are looked at. */
static void taken_32_far(void)
{
    enum { STRIDE = 65520 };
    static const uint16_t whole[4] = {0, 0, 65535, 65535};
    Args a = {0};
    picture(&a, 65505, 1, (size_t)STRIDE * 16);
    view(&a, 65535, 1, 65535, 32768);
    for (int s = Y; s <= VIEW_V; s++)
        if (a.at[s] != NULL)
            memset(a.at[s], s <= V ? 200 : 77, a.count[s]);
    lend_as(&a, RECTS, 8, NULL);
    memcpy(a.at[RECTS], whole, 8);
    a.count[RECTS] = 4;
    uint8_t *view_y = a.at[VIEW_Y], *view_u = a.at[VIEW_U];
    const uint8_t *u = a.at[U], *v = a.at[V];
    view_y[0] = 11, view_y[32768] = 12, view_y[32752] = 13, view_y[65520] = 14; /* columns 1 and 65,505 of row 0 */
    view_u[0] = 21, view_u[16384] = 22, view_u[16376] = 23, view_u[32760] = 24; /* columns 0 and 65,504 of row 1 */
    Result r = tried(AUX_V2_32, &a);
    check(is_refusal(&r, 0), "apply_auxiliary_v2_32", "the number of the widest");
    check(u[1] == 11 && v[1] == 12 && u[65505] == 13 && v[65505] == 14, "apply_auxiliary_v2_32", "odd columns of the widest");
    check(u[STRIDE] == 21 && v[STRIDE] == 22 && u[STRIDE + 65504] == 23 && v[STRIDE + 65504] == 24, "apply_auxiliary_v2_32", "even columns");
    check(u[0] == 200 && u[65504] == 200 && all_are(u + 65506, 14, 200) && u[STRIDE + 1] == 200 && kept_from(u, 2 * STRIDE),
          "apply_auxiliary_v2_32", "what is not taken of the widest");

    /* of a view up to the column where V would begin, nothing is taken */
    a.view_width = 32768, a.luma_stride = 32768, a.chroma_stride = 16384;
    r = tried(AUX_V2_32, &a);
    check(is_refusal(&r, 0) && lent_kept(), "apply_auxiliary_v2_32", "no V in the view");
    over(AUX_V2_32);
}

/* 1, 7, 3 and 4, each a byte or a number away from what is accepted, and in this order: 48 x 16 and a view of 64 x 16. */
static void taken_in_order(enum call call)
{
    static const struct { size_t y, u, v, list, luma, chroma, view_y, view_u, view_v; uint32_t number; } cases[] = {
        {768, 768, 768, 4, 64, 32, 1024, 256, 256, 0}, {767, 768, 768, 4, 64, 32, 1024, 256, 256, 1},
        {768, 767, 768, 4, 64, 32, 1024, 256, 256, 1}, {768, 768, 767, 4, 64, 32, 1024, 256, 256, 1},
        {768, 768, 768, 3, 64, 32, 1024, 256, 256, 7}, {768, 768, 768, 1, 64, 32, 1024, 256, 256, 7},
        {768, 768, 768, 4, 63, 32, 1024, 256, 256, 3}, {768, 768, 768, 4, 64, 31, 1024, 256, 256, 3},
        {768, 768, 768, 4, 64, 32, 1023, 256, 256, 4}, {768, 768, 768, 4, 64, 32, 1024, 255, 256, 4},
        {768, 768, 768, 4, 64, 32, 1024, 256, 255, 4}, {767, 768, 768, 3, 64, 32, 1024, 256, 256, 1},
        {767, 768, 768, 4, 63, 32, 1024, 256, 256, 1}, {768, 768, 768, 3, 63, 32, 1024, 256, 256, 7},
        {768, 768, 768, 3, 64, 32, 1023, 256, 256, 7}, {768, 768, 768, 4, 63, 32, 1007, 256, 256, 3},
        {767, 768, 768, 3, 63, 32, 1007, 256, 256, 1}, {768, 768, 768, 0, 64, 32, 1024, 256, 256, 0}};
    for (size_t k = 0; k < sizeof cases / sizeof *cases; k++) {
        Args a = view_in_columns(48, 64);
        const size_t counts[9] = {cases[k].y, cases[k].u, cases[k].v, 0, cases[k].list, cases[k].view_y, cases[k].view_u, cases[k].view_v};
        for (int s = Y; s <= VIEW_V; s++)
            a.count[s] = counts[s];
        a.luma_stride = cases[k].luma, a.chroma_stride = cases[k].chroma;
        Result r = tried(call, &a);
        check(is_refusal(&r, cases[k].number), call_names[call], "1, 7, 3 and 4 in order");
        check(lent_kept() == (cases[k].number != 0 || cases[k].list == 0), call_names[call], "what a refusal changes");
        over(call);
    }
}

static void width_rules(void)
{
    split_32_by_hand();
    split_32_as_16();
    split_32_short();
    split_32_at_its_limit();
    split_32_in_order();
    split_32_widest();
    taken_by_hand();
    taken_32_far();
    exact_as_16();
    taken_in_order(AUX_V2_32);
    taken_in_order(AUX_V2_EXACT);
}

#endif
