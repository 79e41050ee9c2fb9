/* See side.h. SIDE is the side's name. A header without a version is of a library whose pictures have no map (docs/landings/E4.md). */
#include "side.h"

#include "haythaw.h"

#define LENT(p) p[0], frame->plane, p[1], frame->plane, p[2], frame->plane
#define SIZE frame->width, frame->height
#define VIEW(p) SIZE, frame->width, frame->width / 2u, LENT(p)
#ifdef HAYTHAW_VERSION_MAJOR
#define PICTURE LENT(frame->picture), frame->map, frame->plane / 4
#else
#define PICTURE LENT(frame->picture)
#endif

#define CALL(name, ...)                                                              \
    static uint32_t name(struct frame *frame, const uint16_t *rects, size_t count)   \
    {                                                                                \
        (void)rects, (void)count;                                                    \
        return __VA_ARGS__;                                                          \
    }

CALL(fresh, haythaw_new(SIZE, PICTURE))
CALL(from_rgba, haythaw_from_rgba(frame->rgba, frame->plane * 4, SIZE, PICTURE))
CALL(to_rgba, haythaw_to_rgba(SIZE, PICTURE, rects[0], rects[1], rects[2], rects[3], frame->rgba, frame->plane * 4).number)
CALL(main_view, haythaw_apply_main_view(SIZE, PICTURE, rects, count, VIEW(frame->main_view)))
CALL(v1, haythaw_apply_auxiliary_v1(SIZE, PICTURE, rects, count, VIEW(frame->aux_view)))
CALL(v2, haythaw_apply_auxiliary_v2(SIZE, PICTURE, rects, count, VIEW(frame->aux_view)))
CALL(split_v1, haythaw_split_v1(SIZE, LENT(frame->picture), LENT(frame->main_view), LENT(frame->aux_view)).number)
CALL(split_v2, haythaw_split_v2(SIZE, LENT(frame->picture), LENT(frame->main_view), LENT(frame->aux_view)).number)
CALL(view_to_rgba, haythaw_view_to_rgba(VIEW(frame->main_view), frame->rgba, frame->plane * 4).number)

const struct side SIDE = {{fresh, from_rgba, to_rgba, main_view, v1, v2, split_v1, split_v2, view_to_rgba}};
