/* The map of stale colour by the rules, place by place: what each call is to make of it, and how many pixels are stale. The stored lines do
 * not show it, since the original has none; ask.h looks at it after every call. */
#ifndef STORED_MAP_H
#define STORED_MAP_H

#include "test/check.h"

static size_t least(size_t a, size_t b)
{
    return a < b ? a : b;
}

/* Whether some rectangle takes the place; for chroma, widened (R60). */
static bool taken(const Args *a, bool chroma, size_t row, size_t col)
{
    const uint16_t *list = a->at[RECTS];
    for (size_t k = 0; k + 4 <= a->count[RECTS]; k += 4) {
        const uint16_t *r = list + k;
        const size_t narrow[4] = {r[0], r[1], r[2], r[3]};
        const size_t wide[4] = {r[0] / 2u * 2, r[1] / 2u * 2, up_to(least(r[2], a->width), 2), up_to(least(r[3], a->height), 2)};
        if (within(chroma ? wide : narrow, row, col))
            return true;
    }
    return false;
}

static bool has_luma(const Args *a, size_t row, size_t col)
{
    return row < a->view_height && col < a->view_width;
}

static bool has_chroma(const Args *a, size_t row, size_t col)
{
    return row < (a->view_height + 1u) / 2 && col < (a->view_width + 1u) / 2;
}

/* Whether the view has both U and V for a place: R63; R65 and R66; R68 and R69, with W by R67, R72 or R73. An auxiliary view is not asked for a
 * place of even row and even column. */
static bool view_has(enum call call, const Args *a, size_t row, size_t col)
{
    const size_t w = call == AUX_V2 ? up_to(a->view_width, 16) : call == AUX_V2_32 ? up_to(a->width, 32) : a->width;
    const size_t n = row - row % 16 + row % 16 / 2;
    if (call == MAIN)
        return has_luma(a, row, col);
    if (call == AUX_V1)
        return row % 2 == 1 ? has_luma(a, n, col) && has_luma(a, n + 8, col) : has_chroma(a, row / 2, col / 2);
    if (col % 2 == 1)
        return has_luma(a, row, col / 2) && has_luma(a, row, w / 2 + col / 2);
    return has_chroma(a, row / 2, col / 4) && has_chroma(a, row / 2, w / 4 + col / 4);
}

/* A block after a view was applied: 1 where the main view takes any of its places, 2 for 1 where an auxiliary view takes the three others. */
static uint8_t marked(enum call call, const Args *a, size_t row, size_t col, uint8_t before)
{
    int places = 0;
    for (size_t k = call == MAIN ? 0 : 1; k < 4; k++)
        places += taken(a, true, row + k / 2, col + k % 2) && view_has(call, a, row + k / 2, col + k % 2);
    if (call == MAIN)
        return places > 0 ? 1 : before;
    return before == 1 && places == 3 ? 2 : before;
}

/* What the byte of a block is to be after a call: the block whose first place is at this row and column. A strict call that is done does what
 * the call does that clips. */
static uint8_t state_after(enum call call, const Args *a, size_t row, size_t col, uint8_t before)
{
    switch (call) {
    case NEW: return 0;
    case FROM_RGBA: case FROM_RGBA_RUST: case FROM_RGBA_LIMITED: return 2;
    case TO_RGBA: return before;
    default: return marked(clipping(call), a, row, col, before);
    }
}

static bool takes_map(enum call call)
{
    return call <= AUX_V2_EXACT_STRICT;
}

/* What a lent buffer held before the call. */
static const uint8_t *held(const void *bytes)
{
    size_t i = 0;
    while (i < lents_used && lents[i].bytes != bytes)
        i++;
    return i < lents_used ? lents[i].seen : NULL;
}

/* Whether the map is what the call, which was done, is to make of it. */
static bool map_right(enum call call, const Args *a)
{
    const size_t across = up_to(a->width, 16) / 2, blocks = across * (up_to(a->height, 16) / 2);
    const uint8_t *map = a->at[MAP], *before = held(map);
    bool right = blocks == 0 || before != NULL;
    for (size_t k = 0; k < blocks && right; k++)
        right = map[k] == state_after(call, a, 2 * (k / across), 2 * (k % across), before[k]);
    return right;
}

/* Pixels of to_rgba's rectangle, clipped to the picture, in blocks that are not complete. */
static size_t stale_pixels(const Args *a)
{
    const size_t across = up_to(a->width, 16) / 2;
    size_t stale = 0;
    for (size_t row = a->top; row < least(a->bottom, a->height); row++)
        for (size_t col = a->left; col < least(a->right, a->width); col++)
            stale += ((const uint8_t *)a->at[MAP])[row / 2 * across + col / 2] != 2;
    return stale;
}

/* A map with all states, and with 3, which is none. */
static void lend_map(Args *a, size_t count)
{
    lend_as(a, MAP, count, NULL);
    for (size_t k = 0; k < count; k++)
        ((uint8_t *)a->at[MAP])[k] = (uint8_t)((uint32_t)(k + 1) * 2654435761u >> 30);
}

#endif
