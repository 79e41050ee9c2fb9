/* Maps through the library by both edge rules, for docs/maps.py. The input is as in docs/maps.h. For each of haythaw_from_rgba_rust and
 * haythaw_from_rgba, in this order, there are four lines of output: the picture's planes Y, U and V; the pixels that are shown once its main
 * view alone was applied to a fresh picture; the pixels once its auxiliary view (V1) came too; and of these, for each pixel of even row and
 * even column, whether U and whether V was filtered. */
#include "maps.h"

typedef uint32_t from_rgba(const uint8_t *, size_t, uint16_t, uint16_t, uint8_t *, size_t, uint8_t *, size_t, uint8_t *, size_t, uint8_t *, size_t);
typedef uint32_t apply(uint16_t, uint16_t, uint8_t *, size_t, uint8_t *, size_t, uint8_t *, size_t, uint8_t *, size_t, const uint16_t *, size_t,
                       uint16_t, uint16_t, size_t, size_t, const uint8_t *, size_t, const uint8_t *, size_t, const uint8_t *, size_t);

static int update(apply *applied, const view *from, haythaw_views views, uint16_t width, uint16_t height)
{
    const uint16_t whole[4] = {0, 0, width, height};
    return applied(width, height, PICTURE(shown), whole, 4, SIZES(views), VIEW((*from))) == HAYTHAW_DONE && show(width, height);
}

static int filtered(uint16_t width, uint16_t height)
{
    for (unsigned row = 0; row < height; row += 2)
        for (unsigned column = 0; column < width; column += 2) {
            const haythaw_pixels one = haythaw_to_rgba(width, height, PICTURE(shown), (uint16_t)column, (uint16_t)row, (uint16_t)(column + 1),
                                                       (uint16_t)(row + 1), out, sizeof out);
            if (one.number != HAYTHAW_DONE || printf("%zu %zu ", one.filtered_u, one.filtered_v) < 0)
                return 0;
        }
    return printf("\n") == 1;
}

static int way(from_rgba *made, uint16_t width, uint16_t height)
{
    if (made(rgba, sizeof rgba, width, height, PICTURE(sent)) != HAYTHAW_DONE || haythaw_new(width, height, PICTURE(shown)) != HAYTHAW_DONE)
        return 0;
    const haythaw_views views = haythaw_split_v1(width, height, PLANES(sent), VIEW(luma), VIEW(chroma));
    const size_t plane = (size_t)views.width * views.height;
    print(sent.y, plane, 1), print(sent.u, plane, 1), print(sent.v, plane, 1);
    return views.number == HAYTHAW_DONE && printf("\n") == 1 && update(haythaw_apply_main_view, &luma, views, width, height)
        && update(haythaw_apply_auxiliary_v1, &chroma, views, width, height) && filtered(width, height);
}

static int both_ways(uint16_t width, uint16_t height)
{
    return way(haythaw_from_rgba_rust, width, height) && way(haythaw_from_rgba, width, height);
}

int main(void)
{
    return each_map(both_ways);
}
