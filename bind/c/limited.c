/* A frame of a lecture clip, as a decoder of MS-RDPEVOR's video leaves it: BT.601 in limited range. It is shown as RGBA, beside what the call of
 * full range makes of it; and the pixels become a picture again, which is split for sending. */
#include <stdio.h>

#include "haythaw_planes.h"

enum { WIDTH = 6, HEIGHT = 2, PLANE = 16 * 16, CHROMA = PLANE / 4 };

static int refused(const char *call, uint32_t number)
{
    if (number != HAYTHAW_DONE)
        fprintf(stderr, "%s: %u, %s\n", call, (unsigned)number, haythaw_number_text(number));
    return number != HAYTHAW_DONE;
}

/* The first row of pixels, in hexadecimal. */
static void say_pixels(const char *what, const uint8_t *rgba)
{
    printf("%-13s", what);
    for (const uint8_t *pixel = rgba; pixel < rgba + 4 * WIDTH; pixel += 4)
        printf(" %02x%02x%02x", pixel[0], pixel[1], pixel[2]);
    printf("\n");
}

/* The first row of a view: its luma, and the chroma that each two columns share. */
static void say_view(const char *what, const haythaw_view_planes *view)
{
    printf("%-13s Y", what);
    for (size_t column = 0; column < WIDTH; column++)
        printf(" %u", view->y[column]);
    for (int plane = 0; plane < 2; plane++) {
        printf(", %s", plane == 0 ? "U" : "V");
        for (size_t column = 0; column < WIDTH / 2; column++)
            printf(" %u", (plane == 0 ? view->u : view->v)[column]);
    }
    printf("\n");
}

int main(void)
{
    /* Two rows alike: black and white, two pixels of red, and two of blue. */
    static const uint8_t clip_y[WIDTH * HEIGHT] = {16, 235, 82, 82, 41, 41, 16, 235, 82, 82, 41, 41};
    static const uint8_t clip_u[3] = {128, 90, 240}, clip_v[3] = {128, 240, 110};
    const haythaw_view_planes clip = {WIDTH, HEIGHT, WIDTH, WIDTH / 2, clip_y, sizeof clip_y, clip_u, sizeof clip_u, clip_v, sizeof clip_v};

    uint8_t shown[4 * WIDTH * HEIGHT], washed[4 * WIDTH * HEIGHT];
    if (refused("view_to_rgba_limited", haythaw_view_planes_to_rgba_limited(&clip, shown, sizeof shown).number) ||
        refused("view_to_rgba", haythaw_view_planes_to_rgba(&clip, washed, sizeof washed).number))
        return 1;
    say_view("the clip", &clip);
    say_pixels("limited range", shown);
    say_pixels("full range", washed);

    /* A picture of the pixels, in limited range too, and its two views. */
    static uint8_t y[PLANE], u[PLANE], v[PLANE], map[CHROMA], main_planes[PLANE + 2 * CHROMA], auxiliary_planes[PLANE + 2 * CHROMA];
    const haythaw_picture picture = {WIDTH, HEIGHT, y, PLANE, u, PLANE, v, PLANE, map, CHROMA};
    const haythaw_view_room room = {main_planes, PLANE, main_planes + PLANE, CHROMA, main_planes + PLANE + CHROMA, CHROMA};
    const haythaw_view_room auxiliary = {auxiliary_planes, PLANE, auxiliary_planes + PLANE, CHROMA, auxiliary_planes + PLANE + CHROMA, CHROMA};
    if (refused("from_rgba_limited", haythaw_picture_from_rgba_limited(&picture, shown, sizeof shown)))
        return 1;
    const haythaw_views views = haythaw_picture_split_v1(&picture, &room, &auxiliary);
    if (refused("split_v1", views.number))
        return 1;
    const haythaw_view_planes main_view = haythaw_view_written(views, &room);
    say_view("its main view", &main_view);
    printf("%-13s Y %u, U %u, V %u; its map %u\n", "its padding", y[WIDTH], u[WIDTH], v[WIDTH], map[0]);
    return 0;
}
