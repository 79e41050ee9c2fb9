/* Times the library's calls beside the same calls of an earlier library, in one program and on the same buffers, and first holds what both leave
   there to be the same. A row for each call, as bench.py takes it; the least of RUNS runs of each side, in turns. */
#include <stdio.h>
#include <stdlib.h>
#include <string.h>
#include <time.h>

#include "side.h"

enum { RUNS = 101, WIDTH = 1920, HEIGHT = 1080, ROWS = 1088, PLANE = WIDTH * ROWS, MOST = 4 * 500 };

enum { NEW, FROM_RGBA, TO_RGBA, MAIN, V1, V2, SPLIT_V1, SPLIT_V2, VIEW_TO_RGBA };

struct list {
    const char *words;
    size_t count;
    uint16_t rects[MOST];
};

struct row {
    int call;
    const char *name;
    int list, calls; /* so many calls in a run */
    uint8_t map;     /* what the map is full of before them */
};

enum { WHOLE, ODD, SMALL, ONE, ONE_ODD, SIDES };

/* The sides of squares that are applied 64 at a time, and how many calls of them are a run. */
static const struct {
    uint16_t side;
    int calls;
    const char *words;
} sides[] = {
    {1, 100, "64 rectangles of 1x1 at any edges"},    {2, 100, "64 rectangles of 2x2 at any edges"},
    {4, 100, "64 rectangles of 4x4 at any edges"},    {8, 100, "64 rectangles of 8x8 at any edges"},
    {12, 60, "64 rectangles of 12x12 at any edges"},  {18, 40, "64 rectangles of 18x18 at any edges"},
    {24, 40, "64 rectangles of 24x24 at any edges"},  {32, 30, "64 rectangles of 32x32 at any edges"},
    {64, 10, "64 rectangles of 64x64 at any edges"},  {128, 6, "64 rectangles of 128x128 at any edges"},
    {256, 2, "64 rectangles of 256x256 at any edges"},
};

enum { SQUARES = sizeof sides / sizeof *sides, LISTS = SIDES + SQUARES };

static struct list lists[LISTS] = {
    [WHOLE] = {"the whole frame", 4, {0, 0, WIDTH, HEIGHT}},
    [ODD] = {"500 rectangles of about 64x16 with odd edges", 4 * 500, {0}},
    [SMALL] = {"100 rectangles of 16x16", 4 * 100, {0}},
    [ONE] = {"a rectangle of 16x16", 4, {960, 544, 976, 560}},
    [ONE_ODD] = {"a rectangle of 16x16 at odd edges", 4, {961, 545, 977, 561}},
};

/* The rows of one list each. A row of picture to RGBA has the map full of one number: what it costs to count depends on it. */
static const struct row rows[] = {
    {NEW, "new", WHOLE, 4, 2},           {FROM_RGBA, "from_rgba", WHOLE, 1, 2},     {TO_RGBA, "to_rgba", WHOLE, 1, 2},
    {TO_RGBA, "to_rgba", ONE, 200, 2},   {TO_RGBA, "to_rgba", ONE_ODD, 200, 2},     {TO_RGBA, "to_rgba", ONE, 200, 1},
    {TO_RGBA, "to_rgba", ONE_ODD, 200, 1}, {VIEW_TO_RGBA, "view_to_rgba", WHOLE, 1, 2}, {SPLIT_V1, "split_v1", WHOLE, 1, 2},
    {SPLIT_V2, "split_v2", WHOLE, 1, 2},
};

/* The calls that take each of the lists but the single ones. */
static const struct {
    int call;
    const char *name;
} applies[] = {{MAIN, "apply_main_view"}, {V1, "apply_auxiliary_v1"}, {V2, "apply_auxiliary_v2"}};

/* Squares of some side whose edges are odd and even by turns, all over the picture. */
static void make_squares(struct list *list, uint16_t side)
{
    for (uint32_t i = 0; i < list->count / 4; i++) {
        const uint16_t left = (uint16_t)(i * 67 % (WIDTH - side)), top = (uint16_t)(i * 31 % (HEIGHT - side));
        memcpy(list->rects + 4 * i, (const uint16_t[]){left, top, left + side, top + side}, 8);
    }
}

/* The first two are the lists of the bench beside the original (runs/src/suites/apply/bench.rs). */
static void make_lists(void)
{
    for (uint16_t i = 0; i < 500; i++) {
        const uint16_t left = (i * 67 % 1850) | 1, top = (i * 31 % 1060) | 1;
        memcpy(lists[ODD].rects + 4 * i, (const uint16_t[]){left, top, left + 62 + i % 4, top + 14 + i / 4 % 4}, 8);
    }
    for (uint16_t i = 0; i < 100; i++) {
        const uint16_t left = i * 7 % 120 * 16, top = i * 13 % 67 * 16;
        memcpy(lists[SMALL].rects + 4 * i, (const uint16_t[]){left, top, left + 16, top + 16}, 8);
    }
    for (int i = 0; i < SQUARES; i++) {
        lists[SIDES + i].words = sides[i].words;
        lists[SIDES + i].count = 4 * 64;
        make_squares(&lists[SIDES + i], sides[i].side);
    }
}

static uint8_t *filled(size_t n)
{
    uint8_t *at = malloc(n);
    if (!at) exit(2);
    for (size_t i = 0; i < n; i++) at[i] = (uint8_t)(i * 2654435761u >> 13);
    return at;
}

static void make_frame(struct frame *frame)
{
    frame->width = WIDTH, frame->height = HEIGHT, frame->plane = PLANE;
    for (int i = 0; i < 3; i++) {
        frame->picture[i] = filled(PLANE);
        frame->main_view[i] = filled(PLANE);
        frame->aux_view[i] = filled(PLANE);
    }
    frame->map = filled(PLANE / 4);
    memset(frame->map, 1, PLANE / 4);
    frame->rgba = filled(4 * PLANE);
}

/* Whether two frames hold the same, their maps apart, which an earlier library may not have. */
static int same(const struct frame *a, const struct frame *b)
{
    int unlike = memcmp(a->rgba, b->rgba, 4 * PLANE);
    for (int i = 0; i < 3; i++)
        unlike |= memcmp(a->picture[i], b->picture[i], PLANE) | memcmp(a->main_view[i], b->main_view[i], PLANE)
            | memcmp(a->aux_view[i], b->aux_view[i], PLANE);
    return !unlike;
}

/* Each side has a frame of its own here, as both began. */
static void held(const struct row *row, struct frame *ours, struct frame *theirs)
{
    const struct list *list = &lists[row->list];
    const uint32_t a = after.calls[row->call](ours, list->rects, list->count);
    const uint32_t b = before.calls[row->call](theirs, list->rects, list->count);
    if (a || b || !same(ours, theirs)) {
        fprintf(stderr, "before.c: %s, %s: the two libraries do not leave the same (%u, %u)\n", row->name, list->words, a, b);
        exit(1);
    }
}

static double timed(const struct side *side, const struct row *row, struct frame *frame)
{
    const struct list *list = &lists[row->list];
    struct timespec a, b;
    clock_gettime(CLOCK_MONOTONIC, &a);
    for (int i = 0; i < row->calls; i++) side->calls[row->call](frame, list->rects, list->count);
    clock_gettime(CLOCK_MONOTONIC, &b);
    return ((double)(b.tv_sec - a.tv_sec) * 1e9 + (double)(b.tv_nsec - a.tv_nsec)) / row->calls;
}

static void compare(const struct row *row, struct frame *frame)
{
    const char *stale = row->call == TO_RGBA && row->map != 2 ? ", no block complete" : "";
    double ours = 1e18, theirs = 1e18;
    memset(frame->map, row->map, PLANE / 4);
    for (int run = 0; run < RUNS; run++) {
        const double a = timed(&after, row, frame), b = timed(&before, row, frame);
        if (a < ours) ours = a;
        if (b < theirs) theirs = b;
    }
    printf("before\t%s\t%ux%u, %s%s\t%.3f\t%.3f\t\n", row->name, WIDTH, HEIGHT, lists[row->list].words, stale, ours, theirs);
}

/* One row, if its call is asked for: first held, then timed. */
struct run {
    struct frame frame, ours, theirs;
    const char *only;
};

static void one(struct run *run, struct row row)
{
    if (run->only && strcmp(run->only, row.name)) return;
    held(&row, &run->ours, &run->theirs);
    compare(&row, &run->frame);
}

int main(int argc, char **argv)
{
    struct run run = {.only = argc > 1 ? argv[1] : NULL};
    make_lists();
    make_frame(&run.frame), make_frame(&run.ours), make_frame(&run.theirs);
    for (size_t i = 0; i < sizeof rows / sizeof *rows; i++) one(&run, rows[i]);
    for (size_t i = 0; i < sizeof applies / sizeof *applies; i++) {
        one(&run, (struct row){applies[i].call, applies[i].name, WHOLE, 4, 1});
        one(&run, (struct row){applies[i].call, applies[i].name, ODD, 8, 1});
        one(&run, (struct row){applies[i].call, applies[i].name, SMALL, 40, 1});
        for (int k = 0; k < SQUARES; k++) one(&run, (struct row){applies[i].call, applies[i].name, SIDES + k, sides[k].calls, 1});
    }
    return 0;
}
