/* How far a colour can be off: the chroma that the reverse filter answers for an even-even sample lies between 30 below and 31 above the
 * sample before averaging, and where the filter is applied between 1 below and 2 above. The four cases that reach these numbers, by hand;
 * every sample with every sum of the other three; and pictures by the calls that make one from RGBA. And every colour forward, on none of
 * which the clamp acts. */
#ifndef OFF_H
#define OFF_H

#include "by_hand.h"
#include "edges.h"

/* The library has these too, and no header: a colour's samples, the average of a block, and what the filter makes of a block, each block the
 * even-even sample, then right, below, diagonal. */
typedef struct { uint8_t y, u, v; } Yuv;
typedef struct { uint8_t value; bool applied; } Undone;
Yuv haythaw_forward(uint8_t r, uint8_t g, uint8_t b);
uint8_t haythaw_average(uint8_t a, uint8_t b, uint8_t c, uint8_t d);
Undone haythaw_filter(uint8_t a, uint8_t b, uint8_t c, uint8_t d);

/* What is worked out by hand of a block, in one plane: before the averages its even-even sample and the sum of the other three; then the
 * average, how far from the sample the filter's answer is, and whether it was applied. */
typedef struct { int sample, sum, average, off; bool applied; } Worked;

/* A 2x2 block of colours, those in its lower row alike; and what is shown of its first, by the reverse formulas. */
typedef struct { uint8_t first[3], right[3], below[3]; Worked u, v; uint8_t shown[3]; } OffBlock;

/* (40 + 1 + 2)/4 = 10, and 4 x 10 - 1 = 39 is 29 away: kept. (0 + 122 + 2)/4 = 31, and 124 - 122 = 2 is 29 away: kept.
 * (1 + 120 + 2)/4 = 30, and 120 - 120 = 0 is 30 away: applied. (0 + 126 + 2)/4 = 32, and 128 - 126 = 2 is 30 away: applied.
 * Four blocks have this in U, four in V. In the other plane the colours are near each other, and the average is kept. */
static const OffBlock off_blocks[8] = {
    {{255, 255, 80}, {250, 255, 0}, {255, 255, 0},    /* of Y 241, U 10, V 138 */
     {40, 1, 10, -30, false}, {136, 415, 138, 2, false}, {255, 255, 22}},
    {{255, 255, 0}, {255, 250, 240}, {255, 255, 0},   /* of Y 236, U 31, V 137 */
     {0, 122, 31, 31, false}, {139, 408, 137, -2, false}, {250, 249, 56}},
    {{250, 255, 0}, {255, 255, 240}, {255, 255, 0},   /* of Y 235, U 0, V 136 */
     {1, 120, 30, -1, true}, {137, 406, 136, -1, false}, {247, 255, 0}},
    {{255, 255, 0}, {255, 245, 245}, {255, 255, 0},   /* of Y 236, U 2, V 138 */
     {0, 126, 32, 2, true}, {139, 411, 138, -1, false}, {251, 254, 2}},
    {{80, 255, 245}, {0, 255, 225}, {0, 255, 245},    /* of Y 216, U 146, V 10 */
     {142, 443, 146, 4, false}, {40, 1, 10, -30, false}, {30, 255, 249}},
    {{0, 255, 245}, {240, 255, 205}, {0, 255, 245},   /* of Y 199, U 139, V 31 */
     {151, 406, 139, -12, false}, {0, 122, 31, 31, false}, {46, 242, 219}},
    {{0, 255, 225}, {240, 255, 245}, {0, 255, 245},   /* of Y 198, U 142, V 0 */
     {141, 426, 142, 1, false}, {1, 120, 30, -1, true}, {0, 255, 223}},
    {{0, 255, 245}, {250, 255, 225}, {0, 255, 245},   /* of Y 199, U 142, V 2 */
     {151, 415, 142, -9, false}, {0, 126, 32, 2, true}, {0, 255, 224}}};

static uint8_t *pixel_at(const Args *a, size_t row, size_t col)
{
    return (uint8_t *)a->at[RGBA] + 4 * (row * a->width + col);
}

/* The block that a call left, through the filter. */
static Undone undone_at(const Args *a, enum slice plane, size_t row, size_t col)
{
    const size_t stride = up_to(a->width, 16);
    const uint8_t *at = (const uint8_t *)a->at[plane] + row * stride + col;
    return haythaw_filter(at[0], at[1], at[stride], at[stride + 1]);
}

/* What a call left of a block in one plane, and what the filter makes of that. */
static void off_is(enum call call, const Args *a, enum slice plane, size_t row, size_t col, const Worked *want)
{
    const size_t stride = up_to(a->width, 16);
    const uint8_t *rgb = pixel_at(a, row, col), *at = (const uint8_t *)a->at[plane] + row * stride + col;
    const Yuv pixel = haythaw_forward(rgb[0], rgb[1], rgb[2]);
    const Undone undone = undone_at(a, plane, row, col);
    const int before = plane == U ? pixel.u : pixel.v;
    check(before == want->sample, "forward", "the sample before averaging");
    check(at[1] + at[stride] + at[stride + 1] == want->sum, call_names[call], "the sum of a block's other samples");
    check(at[0] == want->average, call_names[call], "an average");
    check(undone.value - before == want->off, "filter", "how far a sample is off");
    check(undone.applied == want->applied, "filter", "whether it was applied");
}

/* What to RGBA shows of one pixel, and how many samples it filtered for it. */
static void shown_is(Args *a, size_t row, size_t col, const Worked *u, const Worked *v, const uint8_t rgb[3])
{
    const uint16_t edges[4] = {(uint16_t)col, (uint16_t)row, (uint16_t)(col + 1), (uint16_t)(row + 1)};
    const Result r = filtering(a, edges);
    check(r.number == 0 && r.count == 4 && r.filtered_u == u->applied && r.filtered_v == v->applied, "to_rgba", "what it filtered of a pixel");
    check(memcmp(a->at[OUT], rgb, 3) == 0, "to_rgba", "a pixel that is off");
}

/* The eight blocks in a picture of 8x4, those of U above those of V. Its sides are even, so that none of them has padding. */
static void off_by_hand(void)
{
    for (int call = FROM_RGBA; call <= FROM_RGBA_RUST; call++) {
        Args a = {0};
        picture(&a, 8, 4, 256);
        lend_as(&a, RGBA, 8 * 4 * 4, NULL);
        lend_as(&a, OUT, 4, NULL);
        for (size_t k = 0; k < 8; k++) {
            const size_t row = k / 4 * 2, col = k % 4 * 2;
            memcpy(pixel_at(&a, row, col), off_blocks[k].first, 3);
            memcpy(pixel_at(&a, row, col + 1), off_blocks[k].right, 3);
            memcpy(pixel_at(&a, row + 1, col), off_blocks[k].below, 3);
            memcpy(pixel_at(&a, row + 1, col + 1), off_blocks[k].below, 3);
        }
        const Result r = tried((enum call)call, &a);
        check(is_refusal(&r, 0), call_names[call], "the number of a picture that is off");
        for (size_t k = 0; k < 8; k++) {
            const size_t row = k / 4 * 2, col = k % 4 * 2;
            off_is((enum call)call, &a, U, row, col, &off_blocks[k].u);
            off_is((enum call)call, &a, V, row, col, &off_blocks[k].v);
            shown_is(&a, row, col, &off_blocks[k].u, &off_blocks[k].v, off_blocks[k].shown);
        }
        over((enum call)call);
    }
}

/* One pixel of Y 69, U 90, V 245. With the edge filled it is in its block four times, and nothing is off. As the Rust has it the other three are
 * the padding's 128: U (90 + 384 + 2)/4 = 119, and 476 - 384 = 92 is 27 away: kept; V (245 + 384 + 2)/4 = 157, and 628 - 384 = 244: applied.
 * So by the one rule R is 69 + floor(117 x 403/256) = 253, G 69 + floor((38 x 48 - 117 x 120)/256) = 21, B 69 + floor(-38 x 475/256) = -2;
 * by the other R 69 + floor(116 x 403/256) = 251, G 69 + floor((9 x 48 - 116 x 120)/256) = 16, B 69 + floor(-9 x 475/256) = 52. */
static void padding_off_by_hand(void)
{
    static const uint8_t rgba[4] = {255, 22, 0, 255};
    static const struct { Worked u, v; uint8_t shown[3]; } cases[2] = {
        {{90, 270, 90, 0, false}, {245, 735, 245, 0, false}, {253, 21, 0}},
        {{90, 384, 119, 29, false}, {245, 384, 157, -1, true}, {251, 16, 52}}};
    for (int k = 0; k < 2; k++) {
        const enum call call = k == 0 ? FROM_RGBA : FROM_RGBA_RUST;
        Args a = {0};
        picture(&a, 1, 1, 256);
        lend_as(&a, RGBA, 4, rgba);
        lend_as(&a, OUT, 4, NULL);
        const Result r = tried(call, &a);
        check(is_refusal(&r, 0), call_names[call], "the number of a pixel that is off");
        off_is(call, &a, U, 0, 0, &cases[k].u);
        off_is(call, &a, V, 0, 0, &cases[k].v);
        shown_is(&a, 0, 0, &cases[k].u, &cases[k].v, cases[k].shown);
        over(call);
    }
}

/* How far answers of the filter are off: how many averages were undone; how many were kept that are 25 or more below, and above; and the
 * farthest below and above, [0] of those that were kept and [1] of those that were undone. */
typedef struct { size_t applied, far_below, far_above; int least[2], most[2]; } Off;

static void add_sample(Off *off, Undone undone, int before)
{
    const int by = undone.value - before;
    int *least = &off->least[undone.applied], *most = &off->most[undone.applied];
    *least = by < *least ? by : *least;
    *most = by > *most ? by : *most;
    off->applied += undone.applied;
    off->far_below += !undone.applied && by <= -25;
    off->far_above += !undone.applied && by >= 25;
}

/* Every sample with every sum of three others. Each of the four numbers is reached, so that none nearer would do. */
static void off_of_every_pair(void)
{
    Off off = {0};
    trying = "filter";
    for (int sample = 0; sample < 256; sample++)
        for (int sum = 0; sum <= 3 * 255; sum++) {
            const int b = sum < 255 ? sum : 255, c = sum - b < 255 ? sum - b : 255, d = sum - b - c;
            const uint8_t average = haythaw_average((uint8_t)sample, (uint8_t)b, (uint8_t)c, (uint8_t)d);
            add_sample(&off, haythaw_filter(average, (uint8_t)b, (uint8_t)c, (uint8_t)d), sample);
        }
    check(off.least[0] == -30 && off.most[0] == 31, "filter", "how far every kept average is off");
    check(off.least[1] == -1 && off.most[1] == 2, "filter", "how far every undone average is off");
}

/* Pixels that sit at the filter's threshold: in red and blue the even-even one of each block is 73 to 159 away from the other three, above
 * them and below them in turns. So U and V are 28 to 73 away, or 21 to 59 in limited range, and their averages 21 to 55 off, or 15 to 45. */
static Args near_threshold(uint16_t width, uint16_t height)
{
    Args a = noise(width, height);
    for (size_t row = 0; row < height; row++)
        for (size_t col = 0; col < width; col++) {
            uint8_t *rgb = pixel_at(&a, row, col);
            const bool first = row % 2 == 0 && col % 2 == 0, above = (row / 2 + col / 2) % 2 == 0;
            rgb[0] = rgb[2] = (uint8_t)(first == above ? 140 + rgb[0] % 80 : 60 + rgb[0] % 8);
            rgb[1] = 128;
        }
    return a;
}

/* Adds every even-even sample of a padded plane; whether the other three of each block are as before the averages. */
static bool add_plane(enum call call, const Args *a, enum slice plane, Off *off)
{
    const size_t stride = up_to(a->width, 16), rows = up_to(a->height, 16);
    const uint8_t *at = a->at[plane];
    bool as_before = true;
    for (size_t row = 0; row < rows; row++)
        for (size_t col = 0; col < stride; col++) {
            const uint8_t before = before_average(call, a, plane, row, col);
            if (row % 2 == 0 && col % 2 == 0)
                add_sample(off, undone_at(a, plane, row, col), before);
            else
                as_before = as_before && at[row * stride + col] == before;
        }
    return as_before;
}

/* Pictures of many sizes by a call, blocks of padding and those that it enters among them; as the Rust has it, padding of 128 is a sample as
 * any other. What was found in them all is answered. */
static Off off_in_pictures(enum call call, enum slice plane, Args made(uint16_t width, uint16_t height))
{
    static const uint16_t sizes[][2] = {{1, 1}, {2, 3}, {5, 5}, {16, 16}, {17, 17}, {31, 18}, {33, 47}, {0, 5}, {5, 0}};
    Off off = {0};
    for (size_t k = 0; k < sizeof sizes / sizeof *sizes; k++) {
        Args a = made(sizes[k][0], sizes[k][1]);
        const Result r = tried(call, &a);
        check(is_refusal(&r, 0), call_names[call], "the number of a picture whose samples are off");
        check(add_plane(call, &a, plane, &off), call_names[call], "the samples that have no average");
        check(off.least[0] >= -30 && off.most[0] <= 31, call_names[call], "how far a kept average is off");
        check(off.least[1] >= -1 && off.most[1] <= 2, call_names[call], "how far an undone average is off");
        over(call);
    }
    return off;
}

/* On noise most averages are undone. At the threshold many are kept, and these are the far ones. */
static void off_by_the_rule(void)
{
    for (int call = FROM_RGBA; call <= FROM_RGBA_LIMITED; call++)
        for (int s = U; s <= V; s++) {
            Off off = off_in_pictures((enum call)call, (enum slice)s, noise);
            check(off.applied > 0, call_names[call], "undone averages on noise");
            off = off_in_pictures((enum call)call, (enum slice)s, near_threshold);
            check(off.applied > 0, call_names[call], "undone averages at the threshold");
            check(off.far_below > 0 && off.far_above > 0, call_names[call], "averages at the threshold that are kept and far off");
        }
}

/* Whether a sample is the floor of a number by 256, with no clamp: one of a number below 0, or of 65,536 and more, is not. */
static bool unclamped(int sample, int number)
{
    return 256 * sample <= number && number < 256 * sample + 256;
}

/* Every colour: the library's samples are what the formulas come to by themselves. The 32768 is the 128 that is added to U and V. */
static void forward_unclamped(void)
{
    bool y = true, u = true, v = true;
    trying = "forward";
    for (int k = 0; k < 1 << 24; k++) {
        const int r = k >> 16, g = k >> 8 & 255, b = k & 255;
        const Yuv is = haythaw_forward((uint8_t)r, (uint8_t)g, (uint8_t)b);
        y = y && unclamped(is.y, 54 * r + 183 * g + 18 * b);
        u = u && unclamped(is.u, 32768 - 29 * r - 99 * g + 128 * b);
        v = v && unclamped(is.v, 32768 + 128 * r - 116 * g - 12 * b);
    }
    check(y, "forward", "Y of every colour, with no clamp");
    check(u, "forward", "U of every colour, with no clamp");
    check(v, "forward", "V of every colour, with no clamp");
}

#endif
