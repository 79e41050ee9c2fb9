/* The map of stale colour, worked by hand: one byte for each 2x2 block of the padded picture, 0, 1 or 2. */
#ifndef MAP_H
#define MAP_H

#include "check.h"

static void map_sizes_by_hand(void)
{
    static const struct { uint16_t width, height; size_t bytes; } cases[] = {
        {0, 0, 0}, {0, 65535, 0}, {1, 1, 64}, {16, 16, 64}, {17, 16, 128}, {17, 17, 256}, {1920, 1080, 522240}, {65535, 1, 262144}};
    for (size_t k = 0; k < sizeof cases / sizeof *cases; k++)
        check(haythaw_map_size(cases[k].width, cases[k].height) == cases[k].bytes, "map_size", "by hand");
}

/* Whether the map, `across` blocks in a row and `down` rows, has `inside` in the blocks of a box and `outside` in all others. */
static bool map_is(const Args *a, size_t across, size_t down, const size_t box[4], uint8_t inside, uint8_t outside)
{
    const uint8_t *map = a->at[MAP];
    bool right = true;
    for (size_t k = 0; k < across * down; k++)
        right = right && map[k] == (within(box, k / across, k % across) ? inside : outside);
    return right;
}

/* A picture that is made: 0 everywhere when it is fresh, 2 everywhere when it is of RGBA, in the blocks of padding too. 1x1 has 64. */
static void made_maps_by_hand(void)
{
    static const struct { enum call call; uint8_t set; } cases[] = {{NEW, 0}, {FROM_RGBA, 2}, {FROM_RGBA_RUST, 2}, {FROM_RGBA_LIMITED, 2}};
    for (size_t k = 0; k < sizeof cases / sizeof *cases; k++)
        for (size_t extra = 0; extra < 2; extra++) {
            Args a = {0};
            picture(&a, 1, 1, 256);
            lend_as(&a, MAP, 64 + extra, NULL);
            lend_as(&a, RGBA, 4, NULL);
            Result r = tried(cases[k].call, &a);
            check(is_refusal(&r, 0) && all_are(a.at[MAP], 64, cases[k].set), call_names[cases[k].call], "the map");
            check(kept_from(a.at[MAP], 64), call_names[cases[k].call], "the byte past the map");
            over(cases[k].call);
        }
}

/* One apply call over one rectangle, on a map that is `before` in all blocks. The box is in blocks: left, top, right, bottom. */
typedef struct {
    enum call call;
    uint16_t width, height, view_width, view_height, rect[4];
    uint8_t before, inside;
    size_t box[4];
    const char *what;
} Marking;

static const Marking markings[] = {
    /* an empty rectangle whose widened area is not: chroma columns 4 and 5, rows 0 to 3; and one whose widened area is empty */
    {MAIN, 5, 5, 16, 16, {5, 0, 5, 4}, 0, 1, {2, 0, 3, 2}, "an empty rectangle that widens"},
    {MAIN, 5, 5, 16, 16, {4, 0, 4, 4}, 0, 1, {0, 0, 0, 0}, "an empty rectangle that does not"},
    /* the last block of an odd side is half off the picture */
    {MAIN, 5, 5, 5, 5, {0, 0, 65535, 65535}, 0, 1, {0, 0, 3, 3}, "an odd last block"},
    {MAIN, 5, 5, 4, 5, {0, 0, 65535, 65535}, 0, 1, {0, 0, 2, 3}, "a view without the last column"},
    {MAIN, 5, 5, 16, 16, {0, 0, 65535, 65535}, 2, 1, {0, 0, 3, 3}, "a main view over 2"},
    {MAIN, 5, 5, 16, 16, {0, 0, 65535, 65535}, 7, 1, {0, 0, 3, 3}, "a main view over a byte above 2"},
    {MAIN, 5, 5, 0, 0, {0, 0, 65535, 65535}, 2, 1, {0, 0, 0, 0}, "a view of no size"},
    /* V1, a view of 16x12: it has the block rows 0 to 5 for the main view; the V rows of the odd rows 1, 3, 5, 7 are luma rows 8 to 11 */
    {MAIN, 16, 16, 16, 12, {0, 0, 16, 16}, 0, 1, {0, 0, 8, 6}, "a main view of 16x12"},
    {AUX_V1, 16, 16, 16, 12, {0, 0, 16, 16}, 1, 2, {0, 0, 8, 4}, "V1 of 16x12"},
    {AUX_V1, 16, 32, 16, 28, {0, 0, 16, 32}, 1, 2, {0, 0, 8, 12}, "V1 of 16x28"},
    {AUX_V1, 16, 16, 16, 8, {0, 0, 16, 16}, 1, 2, {0, 0, 0, 0}, "V1 of 16x8"},
    {AUX_V1, 16, 16, 15, 16, {0, 0, 16, 16}, 1, 2, {0, 0, 7, 8}, "V1 without the last column"},
    /* V2, a view 20 wide: W is 32, V stands 16 columns after U, so 4 odd columns have both; a view of 16x5 has no odd row 5 */
    {AUX_V2, 20, 16, 20, 16, {0, 0, 20, 16}, 1, 2, {0, 0, 4, 8}, "V2 20 wide"},
    {AUX_V2, 16, 16, 16, 5, {0, 0, 16, 16}, 1, 2, {0, 0, 8, 2}, "V2 of 16x5"},
    /* the 32 rule at 48: W is 64, a view 64 wide completes all 24 block columns, one 48 wide the first 16 */
    {AUX_V2_32, 48, 16, 64, 16, {0, 0, 48, 16}, 1, 2, {0, 0, 24, 8}, "the 32 rule, 64 wide"},
    {AUX_V2_32, 48, 16, 48, 16, {0, 0, 48, 16}, 1, 2, {0, 0, 16, 8}, "the 32 rule, 48 wide"},
    /* not rounded at 18: W is 18, V stands 9 columns after U, so a view 18 wide completes 9 block columns: all of the picture */
    {AUX_V2_EXACT, 18, 16, 18, 16, {0, 0, 18, 16}, 1, 2, {0, 0, 9, 8}, "the rule Exact, 18 wide"},
    {AUX_V2_EXACT, 18, 16, 12, 16, {0, 0, 18, 16}, 1, 2, {0, 0, 3, 8}, "the rule Exact, 12 wide"},
    /* only 1 is turned, and only where the rectangle widens to */
    {AUX_V1, 16, 16, 16, 16, {0, 0, 16, 16}, 0, 0, {0, 0, 8, 8}, "V1 on a fresh map"},
    {AUX_V2, 16, 16, 16, 16, {0, 0, 16, 16}, 0, 0, {0, 0, 8, 8}, "V2 on a fresh map"},
    {AUX_V1, 16, 16, 16, 16, {0, 0, 16, 16}, 3, 3, {0, 0, 8, 8}, "V1 on a byte above 2"},
    {AUX_V2, 16, 16, 16, 16, {3, 1, 9, 4}, 1, 2, {1, 0, 5, 2}, "V2 over odd edges"},
    {MAIN, 16, 16, 16, 16, {3, 1, 9, 4}, 0, 1, {1, 0, 5, 2}, "a main view over odd edges"}};

static void markings_by_hand(void)
{
    for (size_t k = 0; k < sizeof markings / sizeof *markings; k++)
        for (size_t extra = 0; extra < 2; extra++) {
            const Marking *m = &markings[k];
            const size_t across = up_to(m->width, 16) / 2, down = up_to(m->height, 16) / 2;
            Args a = {0};
            picture(&a, m->width, m->height, 4 * across * down);
            lend_as(&a, MAP, across * down + extra, NULL);
            view(&a, m->view_width, m->view_height, m->view_width, (m->view_width + 1u) / 2);
            lend_as(&a, RECTS, 8, NULL);
            memcpy(a.at[RECTS], m->rect, 8);
            a.count[RECTS] = 4;
            memset(a.at[MAP], m->before, across * down);
            Result r = tried(m->call, &a);
            check(is_refusal(&r, 0) && map_is(&a, across, down, m->box, m->inside, m->before), call_names[m->call], m->what);
            check(kept_from(a.at[MAP], across * down), call_names[m->call], "the byte past the map");
            over(m->call);
        }
}

/* Two rectangles of one list, in one block each and with a block between them: both are marked, and both completed. */
static void two_rectangles_by_hand(void)
{
    static const uint16_t rects[8] = {1, 1, 2, 2, 4, 0, 5, 1};
    static const size_t first[4] = {0, 0, 1, 1};
    for (int auxiliary = 0; auxiliary < 2; auxiliary++) {
        Args a = {0};
        picture(&a, 16, 16, 256);
        view(&a, 16, 16, 16, 8);
        lend_as(&a, RECTS, 16, NULL);
        memcpy(a.at[RECTS], rects, 16);
        a.count[RECTS] = 8;
        memset(a.at[MAP], auxiliary, 64);
        uint8_t *map = a.at[MAP];
        Result r = tried(auxiliary ? AUX_V1 : MAIN, &a);
        check(is_refusal(&r, 0) && map[2] == auxiliary + 1, "apply", "the second rectangle's block");
        map[2] = (uint8_t)auxiliary;
        check(map_is(&a, 8, 8, first, (uint8_t)(auxiliary + 1), (uint8_t)auxiliary), "apply", "the first rectangle's block, and no other");
        over(MAIN);
    }
}

/* A picture of 5x3 has 15 pixels in blocks of 4, 4, 2, 2, 2 and 1 pixels. Its map has 8 blocks in a row; those of the padding hold no pixel. */
static void stale_by_hand(void)
{
    static const uint8_t maps[5][2][3] = {{{2, 2, 2}, {2, 2, 2}}, {{0, 0, 0}, {0, 0, 0}}, {{1, 2, 2}, {2, 2, 2}}, {{2, 2, 2}, {2, 2, 1}}, {{2, 3, 2}, {255, 2, 0}}};
    static const struct { uint16_t edges[4]; size_t stale[5]; } cases[] = {
        {{0, 0, 5, 3}, {0, 15, 4, 1, 7}}, {{0, 0, 65535, 65535}, {0, 15, 4, 1, 7}}, {{1, 1, 5, 3}, {0, 8, 1, 1, 4}}, {{1, 0, 4, 2}, {0, 6, 2, 0, 4}},
        {{3, 1, 4, 2}, {0, 1, 0, 0, 1}}, {{0, 2, 2, 3}, {0, 2, 0, 0, 2}}, {{4, 2, 5, 3}, {0, 1, 0, 1, 1}}, {{5, 0, 9, 3}, {0, 0, 0, 0, 0}},
        {{2, 2, 0, 0}, {0, 0, 0, 0, 0}}, {{0, 3, 5, 9}, {0, 0, 0, 0, 0}}};
    for (size_t m = 0; m < 5; m++)
        for (size_t k = 0; k < sizeof cases / sizeof *cases; k++) {
            Args a = {0};
            picture(&a, 5, 3, 256);
            lend_as(&a, OUT, 60, NULL);
            memset(a.at[MAP], 1, 64);
            for (size_t i = 0; i < 2; i++)
                memcpy((uint8_t *)a.at[MAP] + 8 * i, maps[m][i], 3);
            a.left = cases[k].edges[0], a.top = cases[k].edges[1], a.right = cases[k].edges[2], a.bottom = cases[k].edges[3];
            Result r = tried(TO_RGBA, &a);
            check(r.number == 0 && r.stale == cases[k].stale[m], "to_rgba", "how many pixels are stale");
            check(kept_from(a.at[MAP], 0), "to_rgba", "the map");
            a.count[MAP] = 63;
            r = tried(TO_RGBA, &a);
            check(is_refusal(&r, 1) && lent_kept(), "to_rgba", "a short map");
            over(TO_RGBA);
        }
}

/* 1 comes before 7, for a short map too; and after 2. */
static void short_maps_by_hand(void)
{
    for (int call = NEW; call <= AUX_V2_EXACT_STRICT; call++) {
        Args a = {0};
        picture(&a, 16, 16, 256);
        view(&a, 16, 16, 15, 7);
        lend_as(&a, OUT, 0, NULL);
        lend_as(&a, RECTS, 6, NULL);
        lend_as(&a, RGBA, 1023, NULL);
        a.count[RECTS] = 3, a.right = 16, a.bottom = 16;
        a.count[MAP] = 63;
        Result r = tried((enum call)call, &a);
        check(is_refusal(&r, call >= FROM_RGBA && call <= FROM_RGBA_LIMITED ? 2 : 1) && lent_kept(), call_names[call], "a short map and more");
        over((enum call)call);
    }
}

#endif
