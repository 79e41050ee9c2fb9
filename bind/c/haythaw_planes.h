/* The calls of haythaw.h that take many buffers, over three structs: so that nobody has to count to twenty arguments. C99 and C++.
 *
 *   haythaw_picture       a 4:4:4 picture: its size, its three planes and its map
 *   haythaw_view_planes   a 4:2:0 view that is read: its size, its strides and its three planes
 *   haythaw_view_room     room for a view that a split writes
 *   haythaw_rects         a list of rectangles
 *
 * Every function here is one call of the library with the same arguments, in the same order, and answers what it answers; what is proved
 * of that call holds for it, and what a caller owes there is owed here. The structs own nothing, and nothing here allocates. The functions
 * of the first section, which say how many bytes a buffer needs, are arithmetic of this header and are not proved. */
#ifndef HAYTHAW_PLANES_H
#define HAYTHAW_PLANES_H

#include "haythaw.h"

/* Width x height pixels. A plane has `count` bytes, at least haythaw_plane_size; the map at least haythaw_map_size. */
typedef struct haythaw_picture {
    uint16_t width;
    uint16_t height;
    uint8_t *y;
    size_t y_count;
    uint8_t *u;
    size_t u_count;
    uint8_t *v;
    size_t v_count;
    uint8_t *map;
    size_t map_count;
} haythaw_picture;

/* A decoder's planes, as it left them: row r of y from r x luma_stride on, of u and v from r x chroma_stride on. */
typedef struct haythaw_view_planes {
    uint16_t width;
    uint16_t height;
    size_t luma_stride;
    size_t chroma_stride;
    const uint8_t *y;
    size_t y_count;
    const uint8_t *u;
    size_t u_count;
    const uint8_t *v;
    size_t v_count;
} haythaw_view_planes;

/* Where a split writes a view: y has at least haythaw_view_luma_size bytes, u and v each a quarter of it. */
typedef struct haythaw_view_room {
    uint8_t *y;
    size_t y_count;
    uint8_t *u;
    size_t u_count;
    uint8_t *v;
    size_t v_count;
} haythaw_view_room;

/* `count` numbers, four for each rectangle: left, top, right, bottom. */
typedef struct haythaw_rects {
    const uint16_t *numbers;
    size_t count;
} haythaw_rects;

/* ---- How many bytes a buffer needs ---- */

/* One plane of a picture: a third of haythaw_allocation_size. Its map: haythaw_map_size. */
static inline size_t haythaw_plane_size(uint16_t width, uint16_t height)
{
    return haythaw_allocation_size(width, height) / 3;
}

/* Pixels as RGBA. */
static inline size_t haythaw_rgba_size(uint16_t width, uint16_t height)
{
    return (size_t)width * height * 4;
}

/* The luma plane of a view that haythaw_picture_split_v1 or _v2 writes; each chroma plane needs a quarter of it. */
static inline size_t haythaw_view_luma_size(uint16_t width, uint16_t height)
{
    return haythaw_plane_size(width, height);
}

/* The same of haythaw_picture_split_v2_32: the width is rounded up to 32. */
static inline size_t haythaw_view_luma_size_32(uint16_t width, uint16_t height)
{
    return ((size_t)width + 31) / 32 * 32 * (((size_t)height + 15) / 16 * 16);
}

/* ---- A picture ---- */

#define HAYTHAW_PICTURE_OF(p) (p)->y, (p)->y_count, (p)->u, (p)->u_count, (p)->v, (p)->v_count, (p)->map, (p)->map_count
#define HAYTHAW_VIEW_OF(w) \
    (w)->width, (w)->height, (w)->luma_stride, (w)->chroma_stride, (w)->y, (w)->y_count, (w)->u, (w)->u_count, (w)->v, (w)->v_count
#define HAYTHAW_ROOM_OF(w) (w)->y, (w)->y_count, (w)->u, (w)->u_count, (w)->v, (w)->v_count

/* haythaw_new. */
HAYTHAW_MUST_USE
static inline uint32_t haythaw_picture_new(const haythaw_picture *picture)
{
    return haythaw_new(picture->width, picture->height, HAYTHAW_PICTURE_OF(picture));
}

/* haythaw_from_rgba. */
HAYTHAW_MUST_USE
static inline uint32_t haythaw_picture_from_rgba(const haythaw_picture *picture, const uint8_t *rgba, size_t rgba_count)
{
    return haythaw_from_rgba(rgba, rgba_count, picture->width, picture->height, HAYTHAW_PICTURE_OF(picture));
}

/* haythaw_from_rgba_rust. */
HAYTHAW_MUST_USE
static inline uint32_t haythaw_picture_from_rgba_rust(const haythaw_picture *picture, const uint8_t *rgba, size_t rgba_count)
{
    return haythaw_from_rgba_rust(rgba, rgba_count, picture->width, picture->height, HAYTHAW_PICTURE_OF(picture));
}

/* haythaw_from_rgba_limited. */
HAYTHAW_MUST_USE
static inline uint32_t haythaw_picture_from_rgba_limited(const haythaw_picture *picture, const uint8_t *rgba, size_t rgba_count)
{
    return haythaw_from_rgba_limited(rgba, rgba_count, picture->width, picture->height, HAYTHAW_PICTURE_OF(picture));
}

/* haythaw_to_rgba. */
HAYTHAW_MUST_USE
static inline haythaw_pixels haythaw_picture_to_rgba(const haythaw_picture *picture, uint16_t left, uint16_t top, uint16_t right,
                                                     uint16_t bottom, uint8_t *out, size_t out_count)
{
    return haythaw_to_rgba(picture->width, picture->height, HAYTHAW_PICTURE_OF(picture), left, top, right, bottom, out, out_count);
}

/* haythaw_first_unsound. */
HAYTHAW_MUST_USE
static inline haythaw_unsound haythaw_picture_first_unsound(const haythaw_picture *picture, haythaw_rects rects)
{
    return haythaw_first_unsound(picture->width, picture->height, rects.numbers, rects.count);
}

/* ---- Views into a picture: haythaw_picture_X is haythaw_X ---- */

#define HAYTHAW_PICTURE_APPLY(call) \
    HAYTHAW_MUST_USE \
    static inline uint32_t haythaw_picture_##call(const haythaw_picture *picture, haythaw_rects rects, const haythaw_view_planes *view) \
    { \
        return haythaw_##call(picture->width, picture->height, HAYTHAW_PICTURE_OF(picture), rects.numbers, rects.count, \
                              HAYTHAW_VIEW_OF(view)); \
    }

HAYTHAW_PICTURE_APPLY(apply_main_view)
HAYTHAW_PICTURE_APPLY(apply_auxiliary_v1)
HAYTHAW_PICTURE_APPLY(apply_auxiliary_v2)
HAYTHAW_PICTURE_APPLY(apply_auxiliary_v2_32)
HAYTHAW_PICTURE_APPLY(apply_auxiliary_v2_exact)
HAYTHAW_PICTURE_APPLY(apply_main_view_strict)
HAYTHAW_PICTURE_APPLY(apply_auxiliary_v1_strict)
HAYTHAW_PICTURE_APPLY(apply_auxiliary_v2_strict)
HAYTHAW_PICTURE_APPLY(apply_auxiliary_v2_32_strict)
HAYTHAW_PICTURE_APPLY(apply_auxiliary_v2_exact_strict)

/* ---- A picture into its two views: haythaw_picture_X is haythaw_X ---- */

#define HAYTHAW_PICTURE_SPLIT(call) \
    HAYTHAW_MUST_USE \
    static inline haythaw_views haythaw_picture_##call(const haythaw_picture *picture, const haythaw_view_room *main_view, \
                                                       const haythaw_view_room *auxiliary_view) \
    { \
        return haythaw_##call(picture->width, picture->height, HAYTHAW_ROOM_OF(picture), HAYTHAW_ROOM_OF(main_view), \
                              HAYTHAW_ROOM_OF(auxiliary_view)); \
    }

HAYTHAW_PICTURE_SPLIT(split_v1)
HAYTHAW_PICTURE_SPLIT(split_v2)
HAYTHAW_PICTURE_SPLIT(split_v2_32)

/* The view that a split wrote into such room, to be read: its answer has the sizes. */
static inline haythaw_view_planes haythaw_view_written(haythaw_views views, const haythaw_view_room *room)
{
    haythaw_view_planes view;
    view.width = views.width;
    view.height = views.height;
    view.luma_stride = views.luma_stride;
    view.chroma_stride = views.chroma_stride;
    view.y = room->y;
    view.y_count = room->y_count;
    view.u = room->u;
    view.u_count = room->u_count;
    view.v = room->v;
    view.v_count = room->v_count;
    return view;
}

/* ---- Whether two views are the split of a picture: haythaw_picture_X is haythaw_X. The map is not looked at ---- */

#define HAYTHAW_PICTURE_CHECK(call) \
    HAYTHAW_MUST_USE \
    static inline haythaw_checked haythaw_picture_##call(const haythaw_picture *picture, const haythaw_view_planes *main_view, \
                                                         const haythaw_view_planes *auxiliary_view) \
    { \
        return haythaw_##call(picture->width, picture->height, HAYTHAW_ROOM_OF(picture), HAYTHAW_VIEW_OF(main_view), \
                              HAYTHAW_VIEW_OF(auxiliary_view)); \
    }

HAYTHAW_PICTURE_CHECK(check_v1)
HAYTHAW_PICTURE_CHECK(check_v2)
HAYTHAW_PICTURE_CHECK(check_v2_32)

/* ---- A view by itself ---- */

/* haythaw_view. */
HAYTHAW_MUST_USE
static inline uint32_t haythaw_view_planes_check(const haythaw_view_planes *view)
{
    return haythaw_view(HAYTHAW_VIEW_OF(view));
}

/* haythaw_view_to_rgba. */
HAYTHAW_MUST_USE
static inline haythaw_answer haythaw_view_planes_to_rgba(const haythaw_view_planes *view, uint8_t *out, size_t out_count)
{
    return haythaw_view_to_rgba(HAYTHAW_VIEW_OF(view), out, out_count);
}

/* haythaw_view_to_rgba_limited. */
HAYTHAW_MUST_USE
static inline haythaw_answer haythaw_view_planes_to_rgba_limited(const haythaw_view_planes *view, uint8_t *out, size_t out_count)
{
    return haythaw_view_to_rgba_limited(HAYTHAW_VIEW_OF(view), out, out_count);
}

#undef HAYTHAW_PICTURE_OF
#undef HAYTHAW_VIEW_OF
#undef HAYTHAW_ROOM_OF
#undef HAYTHAW_PICTURE_APPLY
#undef HAYTHAW_PICTURE_SPLIT
#undef HAYTHAW_PICTURE_CHECK

#endif
