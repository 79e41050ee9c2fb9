/* What the programs share that send maps through the library: docs/maps.c and docs/width_rule.c. A line of input has a map: its width and height,
 * then red, green and blue of each pixel, row by row. */
#include <haythaw.h>
#include <stdio.h>

enum { WIDE = 2048, HIGH = 512, PLANE = WIDE * HIGH, HALF = PLANE / 4 };
typedef struct { uint8_t y[PLANE], u[PLANE], v[PLANE], stale[HALF]; } picture;
typedef struct { uint8_t y[PLANE], u[HALF], v[HALF]; } view;
static uint8_t rgba[PLANE * 4], out[PLANE * 4];
static picture sent, shown;
static view luma, chroma;

/* The parameters of a call: the planes of a picture, the same and its map of stale colour, the planes of a view, and what a view is like. */
#define PLANES(p) p.y, PLANE, p.u, PLANE, p.v, PLANE
#define PICTURE(p) PLANES(p), p.stale, HALF
#define VIEW(w) w.y, PLANE, w.u, HALF, w.v, HALF
#define SIZES(views) views.width, views.height, views.luma_stride, views.chroma_stride

static void print(const uint8_t *bytes, size_t count, size_t step) /* the first three of every `step` bytes, or all if it is 1 */
{
    for (size_t k = 0; k < count; k++)
        if (k % step < 3)
            printf("%u ", bytes[k]);
}

/* A line of output: the pixels that are shown. */
static int show(uint16_t width, uint16_t height)
{
    const haythaw_pixels back = haythaw_to_rgba(width, height, PICTURE(shown), 0, 0, width, height, out, sizeof out);
    print(out, back.count, 4);
    return back.number == HAYTHAW_DONE && back.count == (size_t)width * height * 4 && printf("\n") == 1;
}

/* Each map of the input in `rgba`, and what `way` does with it; the program's status. */
static int each_map(int (*way)(uint16_t, uint16_t))
{
    unsigned width, height, value;
    for (;;) {
        const int read = scanf("%u %u", &width, &height);
        if (read != 2 || width > WIDE || height > HIGH)
            return read != EOF || !feof(stdin);
        for (size_t k = 0; k < (size_t)width * height * 3; k++) {
            if (scanf("%u", &value) != 1 || value > 255)
                return 1;
            rgba[k / 3 * 4 + k % 3] = (uint8_t)value;
        }
        if (!way((uint16_t)width, (uint16_t)height))
            return 1;
    }
}
