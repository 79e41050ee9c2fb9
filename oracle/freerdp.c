/* FreeRDP's primitives timed beside ours, over whole frames, for the calls that it has (freerdp2 of Debian). Times alone: its answers differ
   from ours, as from the Rust original's, where docs/DIFFERENCES.md says, and its from RGBA fills no edge. */
#include <freerdp/codec/color.h>
#include <freerdp/primitives.h>

#include "frames.h"

static const primitives_t *their;

static void their_combine(avc444_frame_type type, BYTE **view)
{
    const UINT32 from[3] = {stride, stride / 2, stride / 2}, to[3] = {stride, stride, stride};
    const RECTANGLE_16 all = ALL;
    their->YUV420CombineToYUV444(type, (const BYTE **)view, from, width, height, picture, to, &all);
}

static void their_main(void) { their_combine(AVC444_LUMA, main_view); }
static void their_v1(void) { their_combine(AVC444_CHROMAv1, aux_view); }
static void their_v2(void) { their_combine(AVC444_CHROMAv2, aux_view); }

static void their_split(void)
{
    const UINT32 from[3] = {stride, stride, stride}, to[3] = {stride, stride / 2, stride / 2};
    const prim_size_t all = {width, height};
    their->YUV444SplitToYUV420((const BYTE **)picture, from, main_view, to, aux_view, to, &all);
}

static void their_from_rgba(void)
{
    UINT32 to[3] = {stride, stride, stride};
    const prim_size_t all = {width, height};
    their->RGBToYUV444_8u_P3AC4R(rgba, PIXEL_FORMAT_RGBX32, width * 4, picture, to, &all);
}

static void their_to_rgba(void)
{
    const UINT32 from[3] = {stride, stride, stride};
    const prim_size_t all = {width, height};
    their->YUV444ToRGB_8u_P3AC4R((const BYTE **)picture, from, rgba, width * 4, PIXEL_FORMAT_RGBX32, &all);
}

static void their_view_to_rgba(void)
{
    const UINT32 from[3] = {stride, stride / 2, stride / 2};
    const prim_size_t all = {width, height};
    their->YUV420ToRGB_8u_P3AC4R((const BYTE **)main_view, from, rgba, width * 4, PIXEL_FORMAT_RGBX32, &all);
}

int main(void)
{
    static const struct call calls[] = {
        {"apply_main_view", our_main, their_main, 0},
        {"apply_auxiliary_v1", our_v1, their_v1, 0},
        {"apply_auxiliary_v2", our_v2, their_v2, 0},
        {"split_v1", our_split, their_split, 0},
        {"from_rgba", our_from_rgba, their_from_rgba, 1},
        {"to_rgba", our_to_rgba, their_to_rgba, 1},
        {"view_to_rgba", our_view_to_rgba, their_view_to_rgba, 1},
    };
    their = primitives_get();
    all_compared("FreeRDP", calls, sizeof calls / sizeof *calls);
    return 0;
}
