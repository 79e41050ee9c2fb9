/* Limited range, BT.601 as MS-RDPEVOR's video has it: a view to RGBA and a picture from RGBA. By hand; on noise at sizes with odd sides and with
 * strides; every triple of samples and every colour, each byte beside the formulas said again; and every colour there and back. Refusals
 * are in lengths.h and sizes.h, what from RGBA makes of the edge in edges.h, with those of the calls of full range. */
#ifndef LIMITED_H
#define LIMITED_H

#include "by_hand.h"
#include "edges.h"
#include "far.h"

/* A 256th, rounded down and clamped: what is below zero is 0, however it is rounded. */
static uint8_t shade(int number)
{
    return (uint8_t)(number < 0 ? 0 : number > 65535 ? 255 : number / 256);
}

static void limited_pixel(uint8_t y, uint8_t u, uint8_t v, uint8_t rgba[4])
{
    const int c = 298 * (y - 16), d = u - 128, e = v - 128;
    rgba[0] = shade(c + 409 * e + 128);
    rgba[1] = shade(c - 100 * d - 208 * e + 128);
    rgba[2] = shade(c + 516 * d + 128);
    rgba[3] = 255;
}

/* ---- a view to RGBA ---- */

/* One pixel. Red is 19668 + 45808 + 128 = 65604, 19668 + 3800 - 23296 + 128 = 300 and 19668 - 19608 + 128 = 188, each by 256; green and blue
 * likewise. Samples past the range: Y 0 is -4640, Y 255 is 71350; all 0 has G (-4768 + 12800 + 26624 + 128)/256 = 135, and all 255 has
 * G (71222 - 12700 - 26416 + 128)/256 = 125. */
static void limited_view_by_hand(void)
{
    static const struct { uint8_t yuv[3], rgba[4]; const char *what; } cases[] = {
        {{16, 128, 128}, {0, 0, 0, 255}, "black"},          {{235, 128, 128}, {255, 255, 255, 255}, "white"},
        {{17, 128, 128}, {1, 1, 1, 255}, "17"},             {{126, 128, 128}, {128, 128, 128, 255}, "grey"},
        {{15, 128, 128}, {0, 0, 0, 255}, "15"},             {{0, 128, 128}, {0, 0, 0, 255}, "Y below 16"},
        {{234, 128, 128}, {254, 254, 254, 255}, "234"},     {{255, 128, 128}, {255, 255, 255, 255}, "Y above 235"},
        {{82, 90, 240}, {255, 1, 0, 255}, "red"},           {{144, 54, 34}, {0, 254, 0, 255}, "green"},
        {{41, 240, 110}, {0, 0, 255, 255}, "blue"},         {{210, 16, 146}, {255, 255, 0, 255}, "yellow"},
        {{0, 0, 0}, {0, 135, 0, 255}, "all 0"},             {{255, 255, 255}, {255, 125, 255, 255}, "all 255"}};
    for (size_t k = 0; k < sizeof cases / sizeof *cases; k++)
        for (size_t extra = 0; extra < 2; extra++) {
            Args a = {0};
            a.view_width = 1, a.view_height = 1, a.luma_stride = 1 + extra, a.chroma_stride = 1 + extra;
            for (int s = 0; s < 3; s++) {
                lend_as(&a, (enum slice)(VIEW_Y + s), 1 + extra, NULL);
                ((uint8_t *)a.at[VIEW_Y + s])[0] = cases[k].yuv[s];
            }
            lend_as(&a, OUT, 4 + extra, NULL);
            const Result r = tried(VIEW_TO_RGBA_LIMITED, &a);
            check(r.number == 0 && r.count == 4, "view_to_rgba_limited", "number and count of a pixel");
            check(memcmp(a.at[OUT], cases[k].rgba, 4) == 0, "view_to_rgba_limited", cases[k].what);
            check(kept_from(a.at[OUT], 4) && kept_from(a.at[VIEW_Y], 0), "view_to_rgba_limited", "the rest");
            over(VIEW_TO_RGBA_LIMITED);
        }
}

/* A view of noise with these strides, and so many bytes more in each of its planes and in the output: pixel by pixel, with the chroma of
 * row/2, column/2; what is after the pixels stays, and so does the view. */
static void limited_view_is(uint16_t width, uint16_t height, size_t luma, size_t chroma, size_t extra)
{
    Args a = {0};
    a.view_width = width, a.view_height = height, a.luma_stride = luma, a.chroma_stride = chroma;
    lend_as(&a, VIEW_Y, luma * height + extra, NULL);
    lend_as(&a, VIEW_U, chroma * ((height + 1u) / 2) + extra, NULL);
    lend_as(&a, VIEW_V, chroma * ((height + 1u) / 2) + extra, NULL);
    lend_as(&a, OUT, (size_t)4 * width * height + extra, NULL);
    const Result r = tried(VIEW_TO_RGBA_LIMITED, &a);
    check(r.number == 0 && r.count == (size_t)4 * width * height, "view_to_rgba_limited", "number and count");
    const uint8_t *out = a.at[OUT];
    bool right = true;
    for (size_t row = 0; row < height; row++)
        for (size_t col = 0; col < width; col++) {
            uint8_t want[4];
            limited_pixel(sample(&a, VIEW_Y, row, col), sample(&a, VIEW_U, row / 2, col / 2), sample(&a, VIEW_V, row / 2, col / 2), want);
            right = right && memcmp(out + 4 * (row * width + col), want, 4) == 0;
        }
    check(right, "view_to_rgba_limited", "the pixels of a view of noise");
    check(kept_from(out, r.count), "view_to_rgba_limited", "a byte past what is written");
    check(kept_from(a.at[VIEW_Y], 0) && kept_from(a.at[VIEW_U], 0) && kept_from(a.at[VIEW_V], 0), "view_to_rgba_limited", "the view");
    over(VIEW_TO_RGBA_LIMITED);
}

static void limited_views(void)
{
    static const uint16_t sizes[][2] = {{0, 0}, {0, 5}, {5, 0}, {65535, 0}, {0, 65535}, {1, 1}, {2, 1}, {1, 2}, {2, 2}, {3, 1}, {1, 3}, {3, 3}, {5, 3},
                                        {15, 17}, {16, 16}, {17, 17}, {31, 18}, {33, 47}, {63, 3}, {64, 2}, {65, 5}, {127, 3}, {129, 2}, {65535, 1},
                                        {1, 65535}};
    for (size_t k = 0; k < sizeof sizes / sizeof *sizes; k++) {
        const uint16_t width = sizes[k][0], height = sizes[k][1];
        limited_view_is(width, height, width, (width + 1u) / 2, 0);
        limited_view_is(width, height, width + 3u, (width + 1u) / 2, 1);
        limited_view_is(width, height, width, (width + 1u) / 2 + 5, 7);
    }
}

/* Every triple of samples, as views of one U and one V and every Y: in one row, which goes in large parts, and in rows of 7, which are all rest. */
static void every_triple_limited(int step)
{
    static const uint16_t sizes[2][2] = {{256, 1}, {7, 37}};
    trying = "view_to_rgba_limited";
    for (int k = 0; k < 2; k++) {
        Args a = {0};
        const size_t pixels = (size_t)sizes[k][0] * sizes[k][1];
        view(&a, sizes[k][0], sizes[k][1], sizes[k][0], (sizes[k][0] + 1u) / 2);
        lend_as(&a, OUT, 4 * pixels, NULL);
        for (size_t i = 0; i < pixels; i++)
            ((uint8_t *)a.at[VIEW_Y])[i] = (uint8_t)i;
        bool done = true, right = true;
        for (int v = 0; v < 256; v += step)
            for (int u = 0; u < 256; u++) {
                memset(a.at[VIEW_U], u, a.count[VIEW_U]);
                memset(a.at[VIEW_V], v, a.count[VIEW_V]);
                const Result r = run(VIEW_TO_RGBA_LIMITED, &a);
                done = done && r.number == 0 && r.count == 4 * pixels;
                for (size_t i = 0; i < pixels; i++) {
                    uint8_t want[4];
                    limited_pixel((uint8_t)i, (uint8_t)u, (uint8_t)v, want);
                    right = right && memcmp((const uint8_t *)a.at[OUT] + 4 * i, want, 4) == 0;
                }
            }
        check(done, "view_to_rgba_limited", "number and count of every triple");
        check(right, "view_to_rgba_limited", "every triple of samples");
        over(VIEW_TO_RGBA_LIMITED);
    }
}

/* ---- a picture from RGBA ---- */

/* Red, white and blue in a row are 82 90 240, 235 128 128 and 41 240 110. The edge is filled, so the first block of each two rows is red, white,
 * red, white, with the averages U (90+128+90+128+2)/4 = 109 and V (240+128+240+128+2)/4 = 184, and every other block is blue four times. */
static void from_rgba_limited_by_hand(void)
{
    static const uint8_t y[3] = {82, 235, 41}, u[2][3] = {{109, 128, 240}, {90, 128, 240}}, v[2][3] = {{184, 128, 110}, {240, 128, 110}};
    for (size_t extra = 0; extra < 2; extra++) {
        Args a = three_by_one(extra);
        lend_as(&a, MAP, 64 + extra, NULL);
        const Result r = tried(FROM_RGBA_LIMITED, &a);
        check(is_refusal(&r, 0), "from_rgba_limited", "the number");
        const uint8_t *py = a.at[Y], *pu = a.at[U], *pv = a.at[V];
        for (size_t row = 0; row < 16; row++) {
            check(row_is(py + 16 * row, y, 41), "from_rgba_limited", "a row of Y");
            check(row_is(pu + 16 * row, u[row % 2], 240), "from_rgba_limited", "a row of U");
            check(row_is(pv + 16 * row, v[row % 2], 110), "from_rgba_limited", "a row of V");
        }
        check(all_are(a.at[MAP], 64, 2) && kept_from(a.at[MAP], 64), "from_rgba_limited", "the map");
        check(kept_from(py, 256) && kept_from(pu, 256) && kept_from(pv, 256) && kept_from(a.at[RGBA], 0), "from_rgba_limited", "the rest");
        over(FROM_RGBA_LIMITED);
    }
}

/* ---- every colour, from RGBA and back ---- */

/* A picture of blocks of 2x2 pixels that are alike, so many across: of one red, every green with every blue, and in the blocks that are left
 * over the last ones again. An average of four that are alike is what they are. */
typedef struct { Args a; size_t across, blocks; } Colours;

static Colours colours_of(size_t across)
{
    enum { PAIRS = 65536 };
    Colours c = {{0}, across, up_to(PAIRS, across)};
    const uint16_t width = (uint16_t)(2 * across), height = (uint16_t)(2 * (c.blocks / across));
    const size_t plane = up_to(width, 16) * up_to(height, 16);
    picture(&c.a, width, height, plane);
    lend_as(&c.a, RGBA, (size_t)4 * width * height, NULL);
    lend_as(&c.a, OUT, 4 * plane, NULL);
    for (int s = MAIN_Y; s <= AUX_V; s++)
        lend_as(&c.a, (enum slice)s, s == MAIN_Y || s == AUX_Y ? plane : plane / 4, NULL);
    for (size_t block = 0; block < c.blocks; block++)
        for (size_t k = 0; k < 4; k++) {
            uint8_t *rgba = (uint8_t *)c.a.at[RGBA] + 4 * ((block / across * 2 + k / 2) * width + block % across * 2 + k % 2);
            const size_t pair = block < PAIRS ? block : PAIRS - 1;
            rgba[1] = (uint8_t)(pair / 256), rgba[2] = (uint8_t)(pair % 256);
        }
    return c;
}

static void set_red(const Colours *c, uint8_t red)
{
    for (size_t pixel = 0; pixel < 4 * c->blocks; pixel++)
        ((uint8_t *)c->a.at[RGBA])[4 * pixel] = red;
}

/* Whether a plane has, in all four places of a block, the sample of its colour; and the least and the most of them. */
static bool samples_right(const Colours *c, enum slice plane, uint8_t red, uint8_t least[3], uint8_t most[3])
{
    const size_t stride = up_to(c->a.width, 16);
    bool right = true;
    for (size_t block = 0; block < 65536; block++) {
        const uint8_t rgb[3] = {red, (uint8_t)(block / 256), (uint8_t)(block % 256)}, want = of_pixel(FROM_RGBA_LIMITED, plane, rgb);
        const uint8_t *at = (const uint8_t *)c->a.at[plane] + block / c->across * 2 * stride + block % c->across * 2;
        right = right && at[0] == want && at[1] == want && at[stride] == want && at[stride + 1] == want;
        least[plane] = at[0] < least[plane] ? at[0] : least[plane];
        most[plane] = at[0] > most[plane] ? at[0] : most[plane];
    }
    return right;
}

/* How many colours come back so far off in a channel, from 3 below to 3 above, and farther. */
typedef struct { size_t by[3][7], farther; } Back;

/* The picture is split, and its main view made RGBA: every pixel beside the one that was given; each colour has four. */
static bool came_back(Colours *c, Back *back)
{
    const Args *a = &c->a;
    const Result split = run(SPLIT_V1, a);
    Args shown = *a;
    shown.view_width = a->width, shown.view_height = a->height, shown.luma_stride = split.luma_stride, shown.chroma_stride = split.chroma_stride;
    for (int s = 0; s < 3; s++)
        shown.at[VIEW_Y + s] = a->at[MAIN_Y + s], shown.count[VIEW_Y + s] = a->count[MAIN_Y + s];
    const Result r = run(VIEW_TO_RGBA_LIMITED, &shown);
    const uint8_t *given = a->at[RGBA], *out = a->at[OUT];
    for (size_t k = 0; k < (size_t)4 * a->width * a->height; k++) {
        const int off = out[k] - given[k];
        if (k % 4 == 3)
            continue;
        if (off < -3 || off > 3)
            back->farther++;
        else
            back->by[k % 4][off + 3]++;
    }
    return split.number == 0 && r.number == 0;
}

/* Red and green are at most 2 off, and blue at most 3: 123 colours are 3 below, and 1,093 are 3 above, by the formulas alone. */
static void back_is(const Back *back)
{
    check(back->farther == 0, "there and back", "no channel is more than 3 off");
    check(back->by[0][0] == 0 && back->by[0][6] == 0 && back->by[1][0] == 0 && back->by[1][6] == 0, "there and back", "red and green are at most 2 off");
    check(back->by[2][0] == 4 * 123 && back->by[2][6] == 4 * 1093, "there and back", "how many colours are 3 off in blue");
    check(back->by[0][3] == (size_t)4 * 9638780 && back->by[1][3] == (size_t)4 * 11233443 && back->by[2][3] == (size_t)4 * 7393501, "there and back",
          "how many colours come back as they were, by channel");
}

/* Every colour: in rows of 512 pixels, which go in large parts, and in rows of 14, which are all rest. Y is from 16 to 235, U and V are from 16
 * to 240, and each end is reached. With a step the reds between are left out, and nothing is counted. */
static void every_colour_limited(int step)
{
    static const size_t across[2] = {256, 7};
    trying = "from_rgba_limited";
    for (int k = 0; k < 2; k++) {
        Colours c = colours_of(across[k]);
        uint8_t least[3] = {255, 255, 255}, most[3] = {0, 0, 0};
        bool done = true, right[3] = {true, true, true};
        Back back = {{{0}}, 0};
        for (int red = 0; red < 256; red += step) {
            set_red(&c, (uint8_t)red);
            done = run(FROM_RGBA_LIMITED, &c.a).number == 0 && done;
            for (int s = Y; s <= V; s++)
                right[s] = samples_right(&c, (enum slice)s, (uint8_t)red, least, most) && right[s];
            if (k == 0)
                done = came_back(&c, &back) && done;
        }
        check(done, "from_rgba_limited", "the number of every colour");
        for (int s = Y; s <= V; s++)
            check(right[s], "from_rgba_limited", slice_names[s]);
        check(least[Y] == 16 && least[U] == 16 && least[V] == 16, "from_rgba_limited", "the least samples");
        check(most[Y] == 235 && most[U] == 240 && most[V] == 240, "from_rgba_limited", "the most");
        if (k == 0 && step == 1)
            back_is(&back);
        over(FROM_RGBA_LIMITED);
    }
}

/* Where time is dear, one V in 51 and one red in 51, the first and the last of 256 among them. */
static void limited_of_all(bool dear)
{
    const int step = dear ? 51 : 1;
    if (dear)
        left_out("of limited range all V but five, and all reds but five, for want of time");
    every_triple_limited(step);
    every_colour_limited(step);
}

#endif
