/* Maps as V2 by both width rules, for docs/width_views.py. The input is as in docs/maps.h. For the server that rounds to 16 and the one that
 * rounds to 32, in this order, there are eight lines of output: how wide the views are that haythaw_split_v2 and haythaw_split_v2_32 make, and
 * their planes, main before auxiliary; the pixels that are shown with the main view alone; and with both views by the 16 rule and by the 32 rule:
 * first of the views as they are, then of views that were cropped to the map's width, then of views that were padded with 32 columns of 0. A crop
 * changes the width alone: the rows stay where they are. */
#include "maps.h"
#include <string.h>

enum { PADDING = 32 };

static int print_view(const view *one, haythaw_views views)
{
    const size_t plane = (size_t)views.width * views.height;
    print(one->y, plane, 1), print(one->u, plane / 4, 1), print(one->v, plane / 4, 1);
    return views.number == HAYTHAW_DONE;
}

static int main_view(haythaw_views views, uint16_t width, uint16_t height)
{
    const uint16_t whole[4] = {0, 0, width, height};
    return haythaw_new(width, height, PICTURE(shown)) == HAYTHAW_DONE
        && haythaw_apply_main_view(width, height, PICTURE(shown), whole, 4, SIZES(views), VIEW(luma)) == HAYTHAW_DONE;
}

static int both_views(int rule, haythaw_views views, uint16_t width, uint16_t height)
{
    const uint16_t whole[4] = {0, 0, width, height};
    if (!main_view(views, width, height))
        return 0;
    const uint32_t number = rule == 16
        ? haythaw_apply_auxiliary_v2(width, height, PICTURE(shown), whole, 4, SIZES(views), VIEW(chroma))
        : haythaw_apply_auxiliary_v2_32(width, height, PICTURE(shown), whole, 4, SIZES(views), VIEW(chroma));
    return number == HAYTHAW_DONE && show(width, height);
}

/* Puts so many columns of 0 behind each row. */
static void pad_plane(uint8_t *plane, size_t stride, size_t rows, size_t more)
{
    for (size_t row = rows; row-- > 0;) {
        memmove(plane + row * (stride + more), plane + row * stride, stride);
        memset(plane + row * (stride + more) + stride, 0, more);
    }
}

static haythaw_views padded(haythaw_views views)
{
    view *const both[2] = {&luma, &chroma};
    for (int k = 0; k < 2; k++) {
        pad_plane(both[k]->y, views.luma_stride, views.height, PADDING);
        pad_plane(both[k]->u, views.chroma_stride, views.height / 2, PADDING / 2);
        pad_plane(both[k]->v, views.chroma_stride, views.height / 2, PADDING / 2);
    }
    views.width += PADDING, views.luma_stride += PADDING, views.chroma_stride += PADDING / 2;
    return views;
}

static int by_both(haythaw_views views, uint16_t width, uint16_t height)
{
    return both_views(16, views, width, height) && both_views(32, views, width, height);
}

static int by_server(int rule, uint16_t width, uint16_t height)
{
    if (haythaw_from_rgba(rgba, sizeof rgba, width, height, PICTURE(sent)) != HAYTHAW_DONE)
        return 0;
    const haythaw_views views = rule == 16
        ? haythaw_split_v2(width, height, PLANES(sent), VIEW(luma), VIEW(chroma))
        : haythaw_split_v2_32(width, height, PLANES(sent), VIEW(luma), VIEW(chroma));
    haythaw_views cropped = views;
    cropped.width = width;
    return printf("%u ", views.width) > 0 && print_view(&luma, views) && print_view(&chroma, views) && printf("\n") == 1
        && main_view(views, width, height) && show(width, height)
        && by_both(views, width, height) && by_both(cropped, width, height) && by_both(padded(views), width, height);
}

static int both_servers(uint16_t width, uint16_t height)
{
    return by_server(16, width, height) && by_server(32, width, height);
}

int main(void)
{
    return each_map(both_servers);
}
