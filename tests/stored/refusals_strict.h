/* refusals_strict: the strict forms of the main view and of the auxiliary views, V2 by each rule: 1, 7, 12, 3 and 4, in this order, each number at
 * the edge where it begins; and of the same lists the first rectangle that is unsound. A line of an apply call is as in refusals_layouts. */
#ifndef STORED_REFUSALS_STRICT_H
#define STORED_REFUSALS_STRICT_H

#include "refusals_layouts.h"

/* A picture's size and the lengths of its planes and of its map; a list of so many numbers; and what the view lacks: by how much its luma stride is
 * below its width, and how many bytes its Y is short. A picture of 5 x 5 has planes of 16 x 16. */
typedef struct {
    const char *name;
    uint16_t width, height;
    size_t planes[4], numbers;
    uint16_t list[12];
    size_t narrow, shorter;
} StrictCase;
#define NO_PLANES {0, 0, 0, 0}
#define SOUND {0, 0, 5, 5, 4, 4, 5, 5}
static const StrictCase strict_cases[] = {
    /* sound */
    {"whole", 5, 5, EXACT_PLANES, 4, {0, 0, 5, 5}, 0, 0},
    {"first pixel", 5, 5, EXACT_PLANES, 4, {0, 0, 1, 1}, 0, 0},
    {"last pixel", 5, 5, EXACT_PLANES, 4, {4, 4, 5, 5}, 0, 0},
    {"both pixels", 5, 5, EXACT_PLANES, 8, {0, 0, 1, 1, 4, 4, 5, 5}, 0, 0},
    {"list of 0", 5, 5, EXACT_PLANES, 0, {0}, 0, 0},
    /* left not below right */
    {"left at right", 5, 5, EXACT_PLANES, 4, {4, 0, 4, 4}, 0, 0},
    {"left at right at width", 5, 5, EXACT_PLANES, 4, {5, 0, 5, 4}, 0, 0},
    {"left past right", 5, 5, EXACT_PLANES, 4, {5, 0, 4, 4}, 0, 0},
    {"all 0", 5, 5, EXACT_PLANES, 4, {0, 0, 0, 0}, 0, 0},
    {"all 65535", 5, 5, EXACT_PLANES, 4, {65535, 65535, 65535, 65535}, 0, 0},
    /* top not below bottom */
    {"top at bottom", 5, 5, EXACT_PLANES, 4, {0, 3, 2, 3}, 0, 0},
    {"top at bottom at height", 5, 5, EXACT_PLANES, 4, {0, 5, 4, 5}, 0, 0},
    {"top past bottom", 5, 5, EXACT_PLANES, 4, {0, 5, 5, 4}, 0, 0},
    /* right above the width */
    {"right 6", 5, 5, EXACT_PLANES, 4, {0, 0, 6, 5}, 0, 0},
    {"right 65535", 5, 5, EXACT_PLANES, 4, {0, 0, 65535, 5}, 0, 0},
    {"off right", 5, 5, EXACT_PLANES, 4, {5, 0, 6, 5}, 0, 0},
    /* bottom above the height */
    {"bottom 6", 5, 5, EXACT_PLANES, 4, {0, 0, 5, 6}, 0, 0},
    {"bottom 65535", 5, 5, EXACT_PLANES, 4, {0, 0, 5, 65535}, 0, 0},
    {"off below", 5, 5, EXACT_PLANES, 4, {0, 5, 5, 6}, 0, 0},
    /* several faults of one rectangle */
    {"left and top", 5, 5, EXACT_PLANES, 4, {3, 4, 3, 2}, 0, 0},
    {"top and right", 5, 5, EXACT_PLANES, 4, {0, 3, 6, 3}, 0, 0},
    {"right and bottom", 5, 5, EXACT_PLANES, 4, {0, 0, 6, 6}, 0, 0},
    {"all four faults", 5, 5, EXACT_PLANES, 4, {7, 7, 6, 6}, 0, 0},
    /* one of several rectangles */
    {"first of three", 5, 5, EXACT_PLANES, 12, {0, 0, 5, 6, 0, 0, 5, 5, 4, 4, 5, 5}, 0, 0},
    {"second of three", 5, 5, EXACT_PLANES, 12, {0, 0, 5, 5, 0, 0, 6, 5, 4, 4, 5, 5}, 0, 0},
    {"last of three", 5, 5, EXACT_PLANES, 12, {0, 0, 5, 5, 4, 4, 5, 5, 2, 2, 5, 2}, 0, 0},
    {"two of three", 5, 5, EXACT_PLANES, 12, {0, 0, 5, 5, 0, 0, 5, 6, 4, 4, 4, 5}, 0, 0},
    /* lists that are not in fours, their rectangles sound or not */
    {"list of 7", 5, 5, EXACT_PLANES, 7, SOUND, 0, 0},
    {"list of 5", 5, 5, EXACT_PLANES, 5, SOUND, 0, 0},
    {"list of 3", 5, 5, EXACT_PLANES, 3, SOUND, 0, 0},
    {"7 and 12", 5, 5, EXACT_PLANES, 5, {0, 0, 6, 5, 0}, 0, 0},
    {"7 and 12 at its end", 5, 5, EXACT_PLANES, 7, {0, 0, 5, 5, 9, 9, 9}, 0, 0},
    /* planes and the map, alone and before all others */
    {"y short", 5, 5, {255, 256, 256, 64}, 4, SOUND, 0, 0},
    {"u short", 5, 5, {256, 255, 256, 64}, 4, SOUND, 0, 0},
    {"v short", 5, 5, {256, 256, 255, 64}, 4, SOUND, 0, 0},
    {"map short", 5, 5, SHORT_MAP, 4, SOUND, 0, 0},
    {"1 and 7", 5, 5, SHORT_PLANES, 3, SOUND, 0, 0},
    {"1 and 12", 5, 5, SHORT_PLANES, 4, {0, 0, 6, 5}, 0, 0},
    {"1 of the map and 12", 5, 5, SHORT_MAP, 4, {0, 0, 5, 6}, 0, 0},
    {"1 and 3", 5, 5, SHORT_PLANES, 4, SOUND, 1, 0},
    {"1 and 4", 5, 5, SHORT_PLANES, 4, SOUND, 0, 1},
    /* the view, after the list */
    {"narrow", 5, 5, EXACT_PLANES, 4, SOUND, 1, 0},
    {"short", 5, 5, EXACT_PLANES, 4, SOUND, 0, 1},
    {"3 and 4", 5, 5, EXACT_PLANES, 4, SOUND, 1, 1},
    {"7 and 3", 5, 5, EXACT_PLANES, 3, SOUND, 1, 0},
    {"7 and 4", 5, 5, EXACT_PLANES, 3, SOUND, 0, 1},
    {"12 and 3", 5, 5, EXACT_PLANES, 4, {5, 0, 5, 5}, 1, 0},
    {"12 and 4", 5, 5, EXACT_PLANES, 4, {0, 5, 5, 5}, 0, 1},
    {"12 of the second and 3", 5, 5, EXACT_PLANES, 8, {0, 0, 5, 5, 0, 0, 6, 5}, 1, 0},
    {"12 of the second and 4", 5, 5, EXACT_PLANES, 8, {0, 0, 5, 5, 0, 0, 5, 6}, 0, 1},
    {"12, 3 and 4", 5, 5, EXACT_PLANES, 4, {0, 0, 6, 5}, 1, 1},
    {"list of 0, narrow", 5, 5, EXACT_PLANES, 0, {0}, 1, 0},
    {"all five", 5, 5, SHORT_PLANES, 5, {0, 0, 6, 5, 0}, 1, 1},
    {"all five, 1 of the map", 5, 5, SHORT_MAP, 5, {0, 0, 6, 5, 0}, 1, 1},
    {"all but 1", 5, 5, EXACT_PLANES, 5, {0, 0, 6, 5, 0}, 1, 1},
    /* no pixels: no rectangle is sound */
    {"0 x 0, list of 0", 0, 0, NO_PLANES, 0, {0}, 0, 0},
    {"0 x 0, all 0", 0, 0, NO_PLANES, 4, {0, 0, 0, 0}, 0, 0},
    {"0 x 0, a pixel", 0, 0, NO_PLANES, 4, {0, 0, 1, 1}, 0, 0},
    {"0 x 5, list of 0", 0, 5, NO_PLANES, 0, {0}, 0, 0},
    {"0 x 5, to its edges", 0, 5, NO_PLANES, 4, {0, 0, 0, 5}, 0, 0},
    {"0 x 5, a column", 0, 5, NO_PLANES, 4, {0, 0, 1, 5}, 0, 0},
    {"5 x 0, list of 0", 5, 0, NO_PLANES, 0, {0}, 0, 0},
    {"5 x 0, to its edges", 5, 0, NO_PLANES, 4, {0, 0, 5, 0}, 0, 0},
    {"5 x 0, a row", 5, 0, NO_PLANES, 4, {0, 0, 5, 1}, 0, 0},
};

/* A view of 16 x 16, or of 32 x 16 for the 32 rule. */
static const struct { const char *name; enum call call; uint16_t view_width; } strict_files[] = {
    {"main strict", MAIN_STRICT, 16},
    {"auxiliary v1 strict", AUX_V1_STRICT, 16},
    {"auxiliary v2 strict", AUX_V2_STRICT, 16},
    {"auxiliary v2 exact strict", AUX_V2_EXACT_STRICT, 16},
    {"auxiliary v2 32 strict", AUX_V2_32_STRICT, 32},
};

/* The case with its view put together, in a file of its call. */
static void strict_line(size_t f, const StrictCase *c)
{
    const size_t wide = strict_files[f].view_width, luma = wide - c->narrow;
    AppliedCase applied = {c->name, c->width, c->height, {0}, c->numbers, {0}, luma, wide / 2, {16 * luma - c->shorter, 8 * wide / 2, 8 * wide / 2}};
    const AppliedFile file = {strict_files[f].name, strict_files[f].call, strict_files[f].view_width, NULL, 0};
    memcpy(applied.planes, c->planes, sizeof applied.planes);
    memcpy(applied.list, c->list, sizeof c->list);
    applied_line(&file, &applied);
}

static void first_line(const StrictCase *c)
{
    Args a = {0};
    a.width = c->width, a.height = c->height;
    lend_numbers(&a, RECTS, c->list, c->numbers);
    const Result r = asked(FIRST_UNSOUND, &a);
    printf("first unsound: %s: %lu %s %u %zu\n", c->name, (unsigned long)r.number, r.present ? "present" : "absent", r.fault, r.index);
    over(FIRST_UNSOUND);
}

static void refusals_strict(void)
{
    enum { CASES = sizeof strict_cases / sizeof *strict_cases };
    for (size_t f = 0; f < sizeof strict_files / sizeof *strict_files; f++)
        for (size_t k = 0; k < CASES; k++)
            strict_line(f, &strict_cases[k]);
    for (size_t k = 0; k < CASES; k++)
        first_line(&strict_cases[k]);
}

#endif
