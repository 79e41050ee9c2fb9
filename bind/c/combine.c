/* A viewer, whole: an AVC444v2 payload is cut into its two streams, each is decoded, the main view and then the auxiliary view are put
 * into the picture over the rectangles that came with them, and the picture is shown as RGBA. The H.264 decoder is a stand-in. */
#include <stdio.h>

#include "haythaw_planes.h"

enum { WIDTH = 6, HEIGHT = 2, PLANE = 16 * 16, CHROMA = PLANE / 4, VIEW = PLANE + 2 * CHROMA, MOST_RECTS = 8 };

static int refused(const char *call, uint32_t number)
{
    if (number != HAYTHAW_DONE)
        fprintf(stderr, "%s: %u, %s\n", call, (unsigned)number, haythaw_number_text(number));
    return number != HAYTHAW_DONE;
}

/* ---- STAND-IN ---- Here stands a real H.264 decoder. This one takes the H.264 bytes for the planes y, u and v of a view of 16x16, one
 * after the other. A real one tells the size and the strides: hand a view over as wide as it was coded (the 16 rule, haythaw.h). */
static int decode(const uint8_t *h264, size_t count, haythaw_view_planes *view)
{
    if (count != VIEW)
        return 0;
    view->width = 16;
    view->height = 16;
    view->luma_stride = 16;
    view->chroma_stride = 8;
    view->y = h264;
    view->u = h264 + PLANE;
    view->v = h264 + PLANE + CHROMA;
    view->y_count = PLANE;
    view->u_count = view->v_count = CHROMA;
    return 1;
}

/* ---- What a server does, so that there is a payload ---- Red, and one magenta pixel in an odd column. */
static size_t sent(uint8_t *payload, size_t payload_count)
{
    static uint8_t y[PLANE], u[PLANE], v[PLANE], map[CHROMA], rgba[WIDTH * HEIGHT * 4], streams[2][VIEW];
    const haythaw_picture picture = {WIDTH, HEIGHT, y, PLANE, u, PLANE, v, PLANE, map, CHROMA};
    const haythaw_view_room main_view = {streams[0], PLANE, streams[0] + PLANE, CHROMA, streams[0] + PLANE + CHROMA, CHROMA};
    const haythaw_view_room auxiliary = {streams[1], PLANE, streams[1] + PLANE, CHROMA, streams[1] + PLANE + CHROMA, CHROMA};
    const uint16_t whole[4] = {0, 0, WIDTH, HEIGHT};
    const uint8_t pair[2] = {22, 100};
    for (size_t pixel = 0; pixel < WIDTH * HEIGHT; pixel++) {
        rgba[4 * pixel] = 255;
        rgba[4 * pixel + 2] = pixel == 3 ? 255 : 0;
    }
    if (refused("from_rgba", haythaw_picture_from_rgba(&picture, rgba, sizeof rgba)) ||
        refused("split_v2", haythaw_picture_split_v2(&picture, &main_view, &auxiliary).number))
        return 0;
    const haythaw_answer written =
        haythaw_avc444_write(0, whole, 4, pair, 2, streams[0], VIEW, whole, 4, pair, 2, streams[1], VIEW, payload, payload_count);
    return refused("avc444_write", written.number) ? 0 : written.count;
}

int main(void)
{
    static uint8_t payload[1024], y[PLANE], u[PLANE], v[PLANE], map[CHROMA], rgba[WIDTH * HEIGHT * 4];
    static uint16_t numbers[2][4 * MOST_RECTS];
    const size_t payload_count = sent(payload, sizeof payload);

    /* The viewer: a picture of the surface's size, which it keeps from payload to payload. */
    const haythaw_picture picture = {WIDTH, HEIGHT, y, PLANE, u, PLANE, v, PLANE, map, CHROMA};
    if (refused("new", haythaw_picture_new(&picture)))
        return 1;

    /* The payload: where the streams' H.264 bytes are in it, and their rectangles as lists. */
    const haythaw_avc444 read = haythaw_avc444_read(payload, payload_count);
    const haythaw_answer luma = haythaw_avc444_luma_rects(payload, payload_count, numbers[0], 4 * MOST_RECTS);
    const haythaw_answer chroma = haythaw_avc444_chroma_rects(payload, payload_count, numbers[1], 4 * MOST_RECTS);
    if (refused("avc444_read", read.number) || refused("luma_rects", luma.number) || refused("chroma_rects", chroma.number))
        return 1;
    printf("kind %u: %zu and %zu H.264 bytes, %zu and %zu rectangles\n", (unsigned)read.kind, read.luma.length, read.chroma.length,
           read.luma.count, read.chroma.count);

    /* Kind 0 carries both streams, 1 luma alone, 2 chroma alone. The strict calls refuse a list that is not sound; those without _strict
     * clip it. The layout is the codec's: _v2 for AVC444v2, _v1 for AVC444. */
    haythaw_view_planes view;
    const haythaw_rects luma_rects = {numbers[0], luma.count}, chroma_rects = {numbers[1], chroma.count};
    if (read.kind != 2 && (!decode(payload + read.luma.data, read.luma.length, &view) ||
                           refused("apply_main_view", haythaw_picture_apply_main_view_strict(&picture, luma_rects, &view))))
        return 1;
    if (read.kind != 1 && (!decode(payload + read.chroma.data, read.chroma.length, &view) ||
                           refused("apply_auxiliary_v2", haythaw_picture_apply_auxiliary_v2_strict(&picture, chroma_rects, &view))))
        return 1;

    const haythaw_pixels shown = haythaw_picture_to_rgba(&picture, 0, 0, WIDTH, HEIGHT, rgba, sizeof rgba);
    if (refused("to_rgba", shown.number))
        return 1;
    printf("%zu bytes, %zu pixels stale\n", shown.count, shown.stale);
    for (size_t pixel = 0; pixel < WIDTH * HEIGHT; pixel++)
        printf("%02x%02x%02x%c", rgba[4 * pixel], rgba[4 * pixel + 1], rgba[4 * pixel + 2], pixel % WIDTH == WIDTH - 1 ? '\n' : ' ');
    return 0;
}
