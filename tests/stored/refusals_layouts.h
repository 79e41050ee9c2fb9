/* refusals_layouts: the main view and the auxiliary views applied, V2 by each rule: 1, 7, 3 and 4, in this order, each number at the edge
 * where it begins. A line has the answer, and what the lent bytes are afterwards: unchanged, or a checksum of what was written. */
#ifndef STORED_REFUSALS_LAYOUTS_H
#define STORED_REFUSALS_LAYOUTS_H

#include "cases.h"

/* A picture's size and the lengths of its planes and of its map; a list of so many numbers; the strides of a view of 16 x 16 and the lengths
 * of its planes. A picture of 5 x 5 has planes of 16 x 16, and is 5 wide by the rule Exact, so that all its columns are taken of such a view
 * too. All bytes of the planes are 201 before, and all of the view 199. */
enum { VIEW_SIDE = 16, VIEW_BYTE = 199, APPLIED_PLANE = 256 };
typedef struct {
    const char *name;
    uint16_t width, height;
    size_t planes[4], numbers;
    uint16_t list[12];
    size_t luma, chroma, view[3];
} AppliedCase;
#define EXACT_PLANES {256, 256, 256, 64}
#define SHORT_PLANES {255, 255, 255, 64}
#define SHORT_MAP {256, 256, 256, 63}
#define LIST_OF(n) n, {0, 0, 5, 5, 0, 0, 5, 5}
#define EXACT_VIEW 16, 8, {256, 64, 64}
static const AppliedCase applied_cases[] = {
    /* lists */
    {"list of 4", 5, 5, EXACT_PLANES, LIST_OF(4), EXACT_VIEW},
    {"list of 8", 5, 5, EXACT_PLANES, LIST_OF(8), EXACT_VIEW},
    {"list of 0", 5, 5, EXACT_PLANES, LIST_OF(0), EXACT_VIEW},
    {"list of 3", 5, 5, EXACT_PLANES, LIST_OF(3), EXACT_VIEW},
    {"list of 5", 5, 5, EXACT_PLANES, LIST_OF(5), EXACT_VIEW},
    /* planes */
    {"one over", 5, 5, {257, 257, 257, 65}, LIST_OF(4), 16, 8, {257, 65, 65}},
    {"y short", 5, 5, {255, 256, 256, 64}, LIST_OF(4), EXACT_VIEW},
    {"u short", 5, 5, {256, 255, 256, 64}, LIST_OF(4), EXACT_VIEW},
    {"v short", 5, 5, {256, 256, 255, 64}, LIST_OF(4), EXACT_VIEW},
    {"map short", 5, 5, SHORT_MAP, LIST_OF(4), EXACT_VIEW},
    /* views */
    {"wide", 5, 5, EXACT_PLANES, LIST_OF(4), 17, 9, {272, 72, 72}},
    {"luma 15", 5, 5, EXACT_PLANES, LIST_OF(4), 15, 8, {256, 64, 64}},
    {"chroma 7", 5, 5, EXACT_PLANES, LIST_OF(4), 16, 7, {256, 64, 64}},
    {"view y short", 5, 5, EXACT_PLANES, LIST_OF(4), 16, 8, {255, 64, 64}},
    {"view u short", 5, 5, EXACT_PLANES, LIST_OF(4), 16, 8, {256, 63, 64}},
    {"view v short", 5, 5, EXACT_PLANES, LIST_OF(4), 16, 8, {256, 64, 63}},
    {"wide, y short", 5, 5, EXACT_PLANES, LIST_OF(4), 17, 9, {271, 72, 72}},
    {"wide, v short", 5, 5, EXACT_PLANES, LIST_OF(4), 17, 9, {272, 72, 71}},
    {"luma 2^63", 5, 5, EXACT_PLANES, LIST_OF(4), (size_t)1 << 63, 8, {274, 64, 64}},
    /* several at once */
    {"1 and 7", 5, 5, SHORT_PLANES, LIST_OF(3), EXACT_VIEW},
    {"1 and 3", 5, 5, SHORT_PLANES, LIST_OF(4), 15, 8, {256, 64, 64}},
    {"1 and 4", 5, 5, SHORT_PLANES, LIST_OF(4), 16, 8, {255, 64, 64}},
    {"7 and 3", 5, 5, EXACT_PLANES, LIST_OF(3), 15, 8, {256, 64, 64}},
    {"7 and 4", 5, 5, EXACT_PLANES, LIST_OF(3), 16, 8, {255, 64, 64}},
    {"3 and 4", 5, 5, EXACT_PLANES, LIST_OF(4), 15, 8, {239, 64, 64}},
    {"all four", 5, 5, SHORT_PLANES, LIST_OF(3), 15, 8, {239, 64, 64}},
    {"7, and 1 of the map", 5, 5, SHORT_MAP, LIST_OF(3), EXACT_VIEW},
    {"all four, 1 of the map", 5, 5, SHORT_MAP, LIST_OF(3), 15, 8, {239, 64, 64}},
    /* no pixels: the planes are empty */
    {"0 x 0", 0, 0, {0, 0, 0, 0}, LIST_OF(4), EXACT_VIEW},
    {"0 x 5", 0, 5, {0, 0, 0, 0}, LIST_OF(4), EXACT_VIEW},
    {"5 x 0", 5, 0, {0, 0, 0, 0}, LIST_OF(4), EXACT_VIEW},
    {"0 x 0, list of 3", 0, 0, {0, 0, 0, 0}, LIST_OF(3), EXACT_VIEW},
    /* rectangles */
    {"no column", 5, 5, EXACT_PLANES, 4, {4, 0, 4, 4}, EXACT_VIEW},
    {"reversed", 5, 5, EXACT_PLANES, 4, {4, 4, 0, 0}, EXACT_VIEW},
    {"off", 5, 5, EXACT_PLANES, 4, {6, 6, 9, 9}, EXACT_VIEW},
    {"odd, empty", 5, 5, EXACT_PLANES, 4, {5, 0, 5, 4}, EXACT_VIEW},
};

/* The same cases with a view of 32 x 16, for the 32 rule: a picture of 5 x 5 counts as 32 wide there. */
#define EXACT_32 32, 16, {512, 128, 128}
static const AppliedCase applied_32_cases[] = {
    /* lists */
    {"list of 4", 5, 5, EXACT_PLANES, LIST_OF(4), EXACT_32},
    {"list of 8", 5, 5, EXACT_PLANES, LIST_OF(8), EXACT_32},
    {"list of 0", 5, 5, EXACT_PLANES, LIST_OF(0), EXACT_32},
    {"list of 3", 5, 5, EXACT_PLANES, LIST_OF(3), EXACT_32},
    {"list of 5", 5, 5, EXACT_PLANES, LIST_OF(5), EXACT_32},
    /* planes */
    {"one over", 5, 5, {257, 257, 257, 65}, LIST_OF(4), 32, 16, {513, 129, 129}},
    {"y short", 5, 5, {255, 256, 256, 64}, LIST_OF(4), EXACT_32},
    {"u short", 5, 5, {256, 255, 256, 64}, LIST_OF(4), EXACT_32},
    {"v short", 5, 5, {256, 256, 255, 64}, LIST_OF(4), EXACT_32},
    {"map short", 5, 5, SHORT_MAP, LIST_OF(4), EXACT_32},
    /* views */
    {"wide", 5, 5, EXACT_PLANES, LIST_OF(4), 33, 17, {528, 136, 136}},
    {"luma 31", 5, 5, EXACT_PLANES, LIST_OF(4), 31, 16, {512, 128, 128}},
    {"chroma 15", 5, 5, EXACT_PLANES, LIST_OF(4), 32, 15, {512, 128, 128}},
    {"view y short", 5, 5, EXACT_PLANES, LIST_OF(4), 32, 16, {511, 128, 128}},
    {"view u short", 5, 5, EXACT_PLANES, LIST_OF(4), 32, 16, {512, 127, 128}},
    {"view v short", 5, 5, EXACT_PLANES, LIST_OF(4), 32, 16, {512, 128, 127}},
    {"wide, y short", 5, 5, EXACT_PLANES, LIST_OF(4), 33, 17, {527, 136, 136}},
    {"wide, v short", 5, 5, EXACT_PLANES, LIST_OF(4), 33, 17, {528, 136, 135}},
    {"luma 2^63", 5, 5, EXACT_PLANES, LIST_OF(4), (size_t)1 << 63, 16, {530, 128, 128}},
    /* several at once */
    {"1 and 7", 5, 5, SHORT_PLANES, LIST_OF(3), EXACT_32},
    {"1 and 3", 5, 5, SHORT_PLANES, LIST_OF(4), 31, 16, {512, 128, 128}},
    {"1 and 4", 5, 5, SHORT_PLANES, LIST_OF(4), 32, 16, {511, 128, 128}},
    {"7 and 3", 5, 5, EXACT_PLANES, LIST_OF(3), 31, 16, {512, 128, 128}},
    {"7 and 4", 5, 5, EXACT_PLANES, LIST_OF(3), 32, 16, {511, 128, 128}},
    {"3 and 4", 5, 5, EXACT_PLANES, LIST_OF(4), 31, 16, {495, 128, 128}},
    {"all four", 5, 5, SHORT_PLANES, LIST_OF(3), 31, 16, {495, 128, 128}},
    {"7, and 1 of the map", 5, 5, SHORT_MAP, LIST_OF(3), EXACT_32},
    {"all four, 1 of the map", 5, 5, SHORT_MAP, LIST_OF(3), 31, 16, {495, 128, 128}},
    /* no pixels: the planes are empty */
    {"0 x 0", 0, 0, {0, 0, 0, 0}, LIST_OF(4), EXACT_32},
    {"0 x 5", 0, 5, {0, 0, 0, 0}, LIST_OF(4), EXACT_32},
    {"5 x 0", 5, 0, {0, 0, 0, 0}, LIST_OF(4), EXACT_32},
    {"0 x 0, list of 3", 0, 0, {0, 0, 0, 0}, LIST_OF(3), EXACT_32},
    {"65535 x 0", 65535, 0, {0, 0, 0, 0}, LIST_OF(4), EXACT_32},
    /* rectangles */
    {"no column", 5, 5, EXACT_PLANES, 4, {4, 0, 4, 4}, EXACT_32},
    {"reversed", 5, 5, EXACT_PLANES, 4, {4, 4, 0, 0}, EXACT_32},
    {"off", 5, 5, EXACT_PLANES, 4, {6, 6, 9, 9}, EXACT_32},
    {"odd, empty", 5, 5, EXACT_PLANES, 4, {5, 0, 5, 4}, EXACT_32},
};

/* And with one of 16 x 16, which the 32 rule finds no V in. */
static const AppliedCase no_v_cases[] = {
    {"list of 4", 5, 5, EXACT_PLANES, LIST_OF(4), EXACT_VIEW},
    {"list of 3", 5, 5, EXACT_PLANES, LIST_OF(3), EXACT_VIEW},
};

/* A call, how wide the view is, and the cases. */
typedef struct { const char *name; enum call call; uint16_t view_width; const AppliedCase *cases; size_t count; } AppliedFile;
#define CASES_OF(cases) cases, sizeof cases / sizeof *cases
static const AppliedFile applied_files[] = {
    {"main", MAIN, VIEW_SIDE, CASES_OF(applied_cases)},
    {"auxiliary v1", AUX_V1, VIEW_SIDE, CASES_OF(applied_cases)},
    {"auxiliary v2", AUX_V2, VIEW_SIDE, CASES_OF(applied_cases)},
    {"auxiliary v2 exact", AUX_V2_EXACT, VIEW_SIDE, CASES_OF(applied_cases)},
    {"auxiliary v2 32", AUX_V2_32, 2 * VIEW_SIDE, CASES_OF(applied_32_cases)},
    {"auxiliary v2 32, 16 wide", AUX_V2_32, VIEW_SIDE, CASES_OF(no_v_cases)},
};

static void applied_line(const AppliedFile *file, const AppliedCase *c)
{
    Args a = {0};
    a.width = c->width, a.height = c->height;
    a.view_width = file->view_width, a.view_height = VIEW_SIDE, a.luma_stride = c->luma, a.chroma_stride = c->chroma;
    for (int p = 0; p < 3; p++) {
        lend_all(&a, (enum slice)(Y + p), c->planes[p], UNWRITTEN);
        lend_all(&a, (enum slice)(VIEW_Y + p), c->view[p], VIEW_BYTE);
    }
    lend_map(&a, c->planes[3]);
    lend_numbers(&a, RECTS, c->list, c->numbers);
    const Result r = asked(file->call, &a);
    printf("%s: ", file->name);
    say_answer(c->name, &r);
    say_planes(&a, UNWRITTEN, APPLIED_PLANE);
    say_read(", view ", &a, VIEW_Y, VIEW_V, VIEW_BYTE);
    printf("\n");
    over(file->call);
}

static void refusals_layouts(void)
{
    for (size_t f = 0; f < sizeof applied_files / sizeof *applied_files; f++)
        for (size_t k = 0; k < applied_files[f].count; k++)
            applied_line(&applied_files[f], &applied_files[f].cases[k]);
}

#endif
