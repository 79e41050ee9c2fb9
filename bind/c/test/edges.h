/* The calls that make a picture from RGBA, over pixels of noise, against their rules said again in a few lines: what the padding is before
 * the averages, and the averages. */
#ifndef EDGES_H
#define EDGES_H

#include "check.h"

/* A sample of a pixel. The 32768 is the 128 that is added to U and V, and leaves nothing below zero to be divided; so is 4096 the 16 of Y in
 * limited range, where all three are rounded by 128. */
static uint8_t of_pixel(enum call call, enum slice plane, const uint8_t *rgb)
{
    const int r = rgb[0], g = rgb[1], b = rgb[2];
    if (call == FROM_RGBA_LIMITED)
        return (uint8_t)((plane == Y   ? 4096 + 66 * r + 129 * g + 25 * b + 128
                          : plane == U ? 32768 - 38 * r - 74 * g + 112 * b + 128
                                       : 32768 + 112 * r - 94 * g - 18 * b + 128) / 256);
    return (uint8_t)((plane == Y   ? 54 * r + 183 * g + 18 * b
                      : plane == U ? 32768 - 29 * r - 99 * g + 128 * b
                                   : 32768 + 128 * r - 116 * g - 12 * b) / 256);
}

/* A sample before the averages. In the padding it is that of the nearest pixel or, as the Rust has it, that of a fresh picture. */
static uint8_t before_average(enum call call, const Args *a, enum slice plane, size_t row, size_t col)
{
    const bool inside = row < a->height && col < a->width;
    if (!inside && call == FROM_RGBA_RUST)
        return plane == Y ? 0 : 128;
    const size_t r = row < a->height ? row : a->height - 1u, c = col < a->width ? col : a->width - 1u;
    return of_pixel(call, plane, (const uint8_t *)a->at[RGBA] + 4 * (r * a->width + c));
}

static uint8_t after_average(enum call call, const Args *a, enum slice plane, size_t row, size_t col)
{
    if (plane == Y || row % 2 != 0 || col % 2 != 0)
        return before_average(call, a, plane, row, col);
    unsigned sum = 2;
    for (size_t k = 0; k < 4; k++)
        sum += before_average(call, a, plane, row + k / 2, col + k % 2);
    return (uint8_t)(sum / 4);
}

/* Planes with a byte more than they need, and pixels with one. */
static Args noise(uint16_t width, uint16_t height)
{
    Args a = {0};
    picture(&a, width, height, up_to(width, 16) * up_to(height, 16) + 1);
    lend_as(&a, RGBA, (size_t)4 * width * height + 1, NULL);
    return a;
}

static void by_the_rule(enum call call, uint16_t width, uint16_t height)
{
    const size_t stride = up_to(width, 16), plane = stride * up_to(height, 16);
    Args a = noise(width, height);
    Result r = tried(call, &a);
    check(is_refusal(&r, 0), call_names[call], "the number of a picture of noise");
    for (int s = Y; s <= V; s++) {
        const uint8_t *at = a.at[s];
        bool right = true;
        for (size_t k = 0; k < plane; k++)
            right = right && at[k] == after_average(call, &a, (enum slice)s, k / stride, k % stride);
        check(right, call_names[call], slice_names[s]);
        check(kept_from(at, plane), call_names[call], "the byte past a plane");
    }
    check(kept_from(a.at[RGBA], 0), call_names[call], "the pixels");
    over(call);
}

/* Sides below, at and above whole blocks of 2 and of 16; a side of 0 has no sample; and the longest, whose padding is one column or row
 * in its direction. */
static void edges_by_the_rule(void)
{
    static const uint16_t sizes[][2] = {{1, 1}, {2, 1}, {1, 2}, {2, 2}, {3, 1}, {5, 5}, {15, 15}, {15, 16}, {16, 15}, {16, 16}, {17, 16},
                                        {16, 17}, {17, 17}, {31, 18}, {32, 32}, {33, 47}, {129, 1}, {0, 0}, {0, 5}, {5, 0}, {65535, 0},
                                        {0, 65535}, {65535, 1}, {1, 65535}};
    for (size_t k = 0; k < sizeof sizes / sizeof *sizes; k++)
        for (int call = FROM_RGBA; call <= FROM_RGBA_LIMITED; call++)
            by_the_rule((enum call)call, sizes[k][0], sizes[k][1]);
}

/* Both calls on the same pixels leave the same planes exactly where both sides are multiples of 16. */
static void both_edges(void)
{
    static const struct { uint16_t width, height; bool alike; } cases[] = {
        {16, 16, true}, {32, 16, true}, {16, 48, true}, {17, 16, false}, {16, 17, false}, {15, 16, false}, {16, 14, false}, {5, 5, false}};
    for (size_t k = 0; k < sizeof cases / sizeof *cases; k++) {
        const size_t plane = up_to(cases[k].width, 16) * up_to(cases[k].height, 16);
        Args one = noise(cases[k].width, cases[k].height), two = noise(cases[k].width, cases[k].height);
        memcpy(two.at[RGBA], one.at[RGBA], one.count[RGBA]);
        bool done = tried(FROM_RGBA, &one).number == 0 && tried(FROM_RGBA_RUST, &two).number == 0, alike = true;
        for (int s = Y; s <= V; s++)
            alike = alike && memcmp(one.at[s], two.at[s], plane) == 0;
        check(done && alike == cases[k].alike, "from_rgba", "as from_rgba_rust, or not");
        over(FROM_RGBA);
    }
}

/* Where a side is 0 a picture has no byte, and none of those that are lent all the same is written. */
static void no_side_by_hand(void)
{
    static const uint16_t sizes[3][2] = {{0, 0}, {0, 5}, {5, 0}};
    for (size_t k = 0; k < 3; k++)
        for (int call = FROM_RGBA; call <= FROM_RGBA_LIMITED; call++) {
            Args a = {0};
            picture(&a, sizes[k][0], sizes[k][1], 300);
            lend_as(&a, RGBA, 30, NULL);
            Result r = tried((enum call)call, &a);
            check(is_refusal(&r, 0) && lent_kept(), call_names[call], "a side of 0");
            over((enum call)call);
        }
}

#endif
