/* What recorded.c and recorded_habits.c keep and lend: pictures, the views that come in, and the call that applies one. */
#ifndef RECORDED_PICTURES_H
#define RECORDED_PICTURES_H

#include <stdbool.h>
#include <stdint.h>
#include <stdio.h>
#include <stdlib.h>
#include <string.h>

#include "haythaw.h"

enum { PLANES = 3 };

typedef struct { uint16_t width, height; } Size;
typedef struct { uint8_t *plane[PLANES], *map; } Picture; /* y, u and v, stride x rows each, and a quarter of that, the map of stale colour */
typedef struct { uint8_t *plane[PLANES]; } View;    /* as wide and high as it was coded, nothing between the rows */

static Size shown, coded;      /* the surface, and the views */
static size_t stride, samples; /* of a picture's plane: bytes a row, and in all */

static size_t luma_of(Size s) { return (size_t)s.width * s.height; }
static size_t chroma_of(Size s) { return luma_of(s) / 4; }

/* The arguments of a call. */
#define PICTURE(p) shown.width, shown.height, (p)->plane[0], samples, (p)->plane[1], samples, (p)->plane[2], samples, (p)->map, samples / 4
#define VIEW(v) coded.width, coded.height, coded.width, coded.width / 2u, (v)->plane[0], luma_of(coded), (v)->plane[1], chroma_of(coded), \
                (v)->plane[2], chroma_of(coded)

/* A call that applies a view. */
typedef uint32_t Apply(uint16_t, uint16_t, uint8_t *, size_t, uint8_t *, size_t, uint8_t *, size_t, uint8_t *, size_t, const uint16_t *,
                       size_t, uint16_t, uint16_t, size_t, size_t, const uint8_t *, size_t, const uint8_t *, size_t, const uint8_t *, size_t);

static void must(bool holds, const char *what)
{
    if (holds) return;
    fprintf(stderr, "%s\n", what);
    exit(2);
}

static void *room(size_t count)
{
    void *made = malloc(count ? count : 1);
    must(made != NULL, "no memory");
    return made;
}

static Picture fresh(void)
{
    Picture made;
    for (int k = 0; k < PLANES; k++) made.plane[k] = room(samples);
    made.map = room(samples / 4);
    must(haythaw_new(PICTURE(&made)) == HAYTHAW_DONE, "haythaw_new refuses");
    return made;
}

static void copy(Picture *to, const Picture *from)
{
    for (int k = 0; k < PLANES; k++) memcpy(to->plane[k], from->plane[k], samples);
    memcpy(to->map, from->map, samples / 4);
}

static void apply(Apply *call, Picture *p, const uint16_t *list, size_t numbers, const View *v)
{
    must(call(PICTURE(p), list, numbers, VIEW(v)) == HAYTHAW_DONE, "a view is refused");
}

#endif
