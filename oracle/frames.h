/* Whole frames, and our calls over them, for the programs that time another library beside ours. A row is printed for each call: whose library,
   the call, the input, our nanoseconds and theirs, with tabs between (bench.py makes tables of them). The least of RUNS runs of each side,
   in turns. */
#include <stdint.h>
#include <stdio.h>
#include <stdlib.h>
#include <string.h>
#include <time.h>

#define HAYTHAW_MUST_USE /* a call that is timed: its answer is not looked at */
#include "haythaw.h"

enum { RUNS = 21 };

/* A frame: a picture's planes and its map, a main and an auxiliary view, and RGBA. */
static uint32_t width, height, stride, rows;
static size_t plane;
static uint8_t *picture[3], *map, *main_view[3], *aux_view[3], *rgba;
static const char *look;

#define LENT(p) p[0], plane, p[1], plane, p[2], plane
#define PICTURE LENT(picture), map, plane / 4
#define SIZE (uint16_t)width, (uint16_t)height
#define VIEW(p) SIZE, stride, stride / 2, LENT(p)
#define ALL {0, 0, (uint16_t)width, (uint16_t)height}

static uint8_t *filled(size_t n)
{
    uint8_t *at = malloc(n);
    if (!at) exit(2);
    for (size_t i = 0; i < n; i++) at[i] = (uint8_t)(i * 2654435761u >> 13);
    return at;
}

/* A smooth picture: to red along a row, to green down a column, to blue along the diagonal. The planes and the views are made of it. */
static void smoothed(void)
{
    for (size_t row = 0; row < height; row++)
        for (size_t column = 0; column < width; column++) {
            uint8_t *pixel = rgba + 4 * (row * width + column);
            pixel[0] = (uint8_t)(column * 255 / width);
            pixel[1] = (uint8_t)(row * 255 / height);
            pixel[2] = (uint8_t)((row + column) * 255 / (height + width));
            pixel[3] = 255;
        }
    haythaw_from_rgba(rgba, plane * 4, SIZE, PICTURE);
    haythaw_split_v1(SIZE, LENT(picture), LENT(main_view), LENT(aux_view));
}

static void frame(uint32_t w, uint32_t h, int smooth)
{
    width = w, height = h, stride = (w + 15) / 16 * 16, rows = (h + 15) / 16 * 16;
    plane = (size_t)stride * rows;
    look = smooth ? "smooth" : "noise";
    for (int i = 0; i < 3; i++) {
        picture[i] = filled(plane);
        main_view[i] = filled(plane);
        aux_view[i] = filled(plane);
    }
    map = filled(plane / 4);
    rgba = filled(plane * 4);
    if (smooth) smoothed();
}

static void dropped(void)
{
    for (int i = 0; i < 3; i++) free(picture[i]), free(main_view[i]), free(aux_view[i]);
    free(map), free(rgba);
}

static void our_main(void)
{
    const uint16_t all[4] = ALL;
    haythaw_apply_main_view(SIZE, PICTURE, all, 4, VIEW(main_view));
}

static void our_v1(void)
{
    const uint16_t all[4] = ALL;
    haythaw_apply_auxiliary_v1(SIZE, PICTURE, all, 4, VIEW(aux_view));
}

static void our_v2(void)
{
    const uint16_t all[4] = ALL;
    haythaw_apply_auxiliary_v2(SIZE, PICTURE, all, 4, VIEW(aux_view));
}

static void our_split(void) { haythaw_split_v1(SIZE, LENT(picture), LENT(main_view), LENT(aux_view)); }
static void our_from_rgba(void) { haythaw_from_rgba(rgba, plane * 4, SIZE, PICTURE); }
static void our_to_rgba(void) { haythaw_to_rgba(SIZE, PICTURE, 0, 0, SIZE, rgba, plane * 4); }
static void our_view_to_rgba(void) { haythaw_view_to_rgba(VIEW(main_view), rgba, plane * 4); }

/* Every program has some of them. */
struct call {
    const char *name;
    void (*ours)(void), (*theirs)(void);
    int looks; /* whether it is timed on a smooth picture too */
};

static double timed(void (*call)(void))
{
    struct timespec a, b;
    clock_gettime(CLOCK_MONOTONIC, &a);
    call();
    clock_gettime(CLOCK_MONOTONIC, &b);
    return (double)(b.tv_sec - a.tv_sec) * 1e9 + (double)(b.tv_nsec - a.tv_nsec);
}

static void compared(const char *whose, const struct call *call)
{
    double ours = 1e18, theirs = 1e18;
    for (int i = 0; i < RUNS; i++) {
        double a = timed(call->ours), b = timed(call->theirs);
        if (a < ours) ours = a;
        if (b < theirs) theirs = b;
    }
    printf("%s\t%s\t%ux%u, %s\t%.3f\t%.3f\t\n", whose, call->name, width, height, call->looks ? look : "the whole frame", ours, theirs);
}

static void all_compared(const char *whose, const struct call *calls, size_t count)
{
    static const uint32_t sizes[3][2] = {{640, 480}, {1920, 1080}, {3840, 2160}};
    for (int i = 0; i < 6; i++) {
        frame(sizes[i % 3][0], sizes[i % 3][1], i / 3);
        for (size_t j = 0; j < count; j++)
            if (i < 3 || calls[j].looks) compared(whose, &calls[j]);
        dropped();
    }
}
