/* libyuv's conversions timed beside ours, over whole frames (libyuv-dev of Debian). Times alone: its colours are BT.601 of limited range, which
   only our calls _limited have too, its pixels are blue, green, red, alpha, and it has neither the filter nor the average, and fills no edge.
   limited_peers.c compares the colours. */
#include <libyuv.h>

#include "frames.h"

#define STRIDE (int)stride
#define BOTH (int)width, (int)height

static void our_from_rgba_limited(void) { haythaw_from_rgba_limited(rgba, plane * 4, SIZE, PICTURE); }
static void our_view_to_rgba_limited(void) { haythaw_view_to_rgba_limited(VIEW(main_view), rgba, plane * 4); }

static void their_from_rgba(void)
{
    ARGBToI444(rgba, (int)width * 4, picture[0], STRIDE, picture[1], STRIDE, picture[2], STRIDE, BOTH);
}

static void their_to_rgba(void)
{
    I444ToARGB(picture[0], STRIDE, picture[1], STRIDE, picture[2], STRIDE, rgba, (int)width * 4, BOTH);
}

static void their_view_to_rgba(void)
{
    I420ToARGB(main_view[0], STRIDE, main_view[1], STRIDE / 2, main_view[2], STRIDE / 2, rgba, (int)width * 4, BOTH);
}

int main(void)
{
    static const struct call calls[] = {
        {"from_rgba", our_from_rgba, their_from_rgba, 1},
        {"to_rgba", our_to_rgba, their_to_rgba, 1},
        {"view_to_rgba", our_view_to_rgba, their_view_to_rgba, 1},
        {"from_rgba_limited", our_from_rgba_limited, their_from_rgba, 1},
        {"view_to_rgba_limited", our_view_to_rgba_limited, their_view_to_rgba, 1},
    };
    (void)our_main, (void)our_v1, (void)our_v2, (void)our_split;
    all_compared("libyuv", calls, sizeof calls / sizeof *calls);
    return 0;
}
