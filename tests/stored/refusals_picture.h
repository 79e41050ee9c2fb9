/* refusals_picture: a fresh picture (1), a picture from RGBA by each call (2, 1), a picture to RGBA (1, 6) and a view to RGBA (3, 4, 6),
 * each number at the edge where it begins; in limited range the cases of from RGBA and of a view once more. A line has the answer, and what the
 * lent bytes are afterwards: unchanged, or a checksum of what was written. */
#ifndef STORED_REFUSALS_PICTURE_H
#define STORED_REFUSALS_PICTURE_H

#include "say.h"

enum { PIXEL_BYTE = 200, GREY = 128, FIVE_PLANE = 256 };

/* The call, a picture's size, and the lengths of its planes and of its map; for the call from RGBA, of its pixels. 5 x 5 has planes of 16 x 16
 * and a map of 8 x 8. */
typedef struct { const char *name; enum call call; uint16_t width, height; size_t rgba, lengths[4]; } PlanesCase;
static const PlanesCase planes_cases[] = {
    {"new: exact", NEW, 5, 5, 0, {256, 256, 256, 64}},
    {"new: one over", NEW, 5, 5, 0, {257, 257, 257, 65}},
    {"new: y short", NEW, 5, 5, 0, {255, 256, 256, 64}},
    {"new: u short", NEW, 5, 5, 0, {256, 255, 256, 64}},
    {"new: v short", NEW, 5, 5, 0, {256, 256, 255, 64}},
    {"new: map short", NEW, 5, 5, 0, {256, 256, 256, 63}},
    {"new: map empty", NEW, 5, 5, 0, {256, 256, 256, 0}},
    {"new: empty", NEW, 5, 5, 0, {0, 0, 0, 0}},
    {"new: 0 x 0", NEW, 0, 0, 0, {0, 0, 0, 0}},
    {"new: 0 x 5", NEW, 0, 5, 0, {0, 0, 0, 0}},
    {"new: 5 x 0", NEW, 5, 0, 0, {0, 0, 0, 0}},
    {"new: 0 x 5, over", NEW, 0, 5, 0, {257, 257, 257, 65}},
    {"new: 16 x 16", NEW, 16, 16, 0, {256, 256, 256, 64}},
    {"new: 17 x 16", NEW, 17, 16, 0, {257, 257, 257, 65}},
    {"new: 16 x 17", NEW, 16, 17, 0, {257, 257, 257, 65}},
    {"new: largest", NEW, 65535, 65535, 0, {257, 257, 257, 65}},
    /* 5 x 5 has 100 bytes of pixels, all of them 200: Y is 199, U and V are 128. In the padding Y is 199 too, or 0 as the Rust has it. */
    {"from: exact", FROM_RGBA, 5, 5, 100, {256, 256, 256, 64}},
    {"from: one over", FROM_RGBA, 5, 5, 101, {257, 257, 257, 65}},
    {"from: rgba short", FROM_RGBA, 5, 5, 99, {256, 256, 256, 64}},
    {"from: y short", FROM_RGBA, 5, 5, 100, {255, 256, 256, 64}},
    {"from: u short", FROM_RGBA, 5, 5, 100, {256, 255, 256, 64}},
    {"from: v short", FROM_RGBA, 5, 5, 100, {256, 256, 255, 64}},
    {"from: map short", FROM_RGBA, 5, 5, 100, {256, 256, 256, 63}},
    {"from: rgba, y short", FROM_RGBA, 5, 5, 99, {255, 256, 256, 64}},
    {"from: rgba, u short", FROM_RGBA, 5, 5, 99, {256, 255, 256, 64}},
    {"from: rgba, v short", FROM_RGBA, 5, 5, 99, {256, 256, 255, 64}},
    {"from: rgba, map short", FROM_RGBA, 5, 5, 99, {256, 256, 256, 63}},
    {"from: empty", FROM_RGBA, 5, 5, 0, {0, 0, 0, 0}},
    {"from: 0 x 0", FROM_RGBA, 0, 0, 0, {0, 0, 0, 0}},
    {"from: 0 x 5", FROM_RGBA, 0, 5, 0, {0, 0, 0, 0}},
    {"from: 5 x 0", FROM_RGBA, 5, 0, 0, {0, 0, 0, 0}},
    {"from: largest", FROM_RGBA, 65535, 65535, 101, {257, 257, 257, 65}},
    {"from rust: exact", FROM_RGBA_RUST, 5, 5, 100, {256, 256, 256, 64}},
    {"from rust: one over", FROM_RGBA_RUST, 5, 5, 101, {257, 257, 257, 65}},
    {"from rust: rgba short", FROM_RGBA_RUST, 5, 5, 99, {256, 256, 256, 64}},
    {"from rust: y short", FROM_RGBA_RUST, 5, 5, 100, {255, 256, 256, 64}},
    {"from rust: u short", FROM_RGBA_RUST, 5, 5, 100, {256, 255, 256, 64}},
    {"from rust: v short", FROM_RGBA_RUST, 5, 5, 100, {256, 256, 255, 64}},
    {"from rust: map short", FROM_RGBA_RUST, 5, 5, 100, {256, 256, 256, 63}},
    {"from rust: rgba, y short", FROM_RGBA_RUST, 5, 5, 99, {255, 256, 256, 64}},
    {"from rust: rgba, u short", FROM_RGBA_RUST, 5, 5, 99, {256, 255, 256, 64}},
    {"from rust: rgba, v short", FROM_RGBA_RUST, 5, 5, 99, {256, 256, 255, 64}},
    {"from rust: rgba, map short", FROM_RGBA_RUST, 5, 5, 99, {256, 256, 256, 63}},
    {"from rust: empty", FROM_RGBA_RUST, 5, 5, 0, {0, 0, 0, 0}},
    {"from rust: 0 x 0", FROM_RGBA_RUST, 0, 0, 0, {0, 0, 0, 0}},
    {"from rust: 0 x 5", FROM_RGBA_RUST, 0, 5, 0, {0, 0, 0, 0}},
    {"from rust: 5 x 0", FROM_RGBA_RUST, 5, 0, 0, {0, 0, 0, 0}},
    {"from rust: largest", FROM_RGBA_RUST, 65535, 65535, 101, {257, 257, 257, 65}},
};

static void planes_line(const PlanesCase *c, enum call call)
{
    Args a = {0};
    a.width = c->width, a.height = c->height;
    for (int p = 0; p < 3; p++)
        lend_all(&a, (enum slice)(Y + p), c->lengths[p], UNWRITTEN);
    lend_map(&a, c->lengths[3]);
    lend_all(&a, RGBA, c->rgba, PIXEL_BYTE);
    const Result r = asked(call, &a);
    say_answer(c->name, &r);
    say_planes(&a, UNWRITTEN, FIVE_PLANE);
    if (call != NEW)
        say_read(", rgba ", &a, RGBA, RGBA, PIXEL_BYTE);
    printf("\n");
    over(call);
}

/* A picture's size, the lengths of its planes and of its map, a rectangle, and the bytes of output lent. All bytes of the planes are 128, and
 * so are red, green and blue: each block is its own average, so that the filter replaces nothing. */
typedef struct { const char *name; uint16_t width, height; size_t lengths[4]; uint16_t rect[4]; size_t room; } PixelsCase;
#define WHOLE_FIVE {0, 0, 5, 5}
#define FIVE_PLANES {256, 256, 256, 64}
static const PixelsCase pixels_cases[] = {
    /* the whole of a 5 x 5 picture: 100 bytes */
    {"to: exact", 5, 5, FIVE_PLANES, WHOLE_FIVE, 100},
    {"to: one over", 5, 5, FIVE_PLANES, WHOLE_FIVE, 101},
    {"to: out short", 5, 5, FIVE_PLANES, WHOLE_FIVE, 99},
    {"to: out empty", 5, 5, FIVE_PLANES, WHOLE_FIVE, 0},
    {"to: y short", 5, 5, {255, 256, 256, 64}, WHOLE_FIVE, 100},
    {"to: u short", 5, 5, {256, 255, 256, 64}, WHOLE_FIVE, 100},
    {"to: v short", 5, 5, {256, 256, 255, 64}, WHOLE_FIVE, 100},
    {"to: map short", 5, 5, {256, 256, 256, 63}, WHOLE_FIVE, 100},
    {"to: y, out short", 5, 5, {255, 256, 256, 64}, WHOLE_FIVE, 99},
    {"to: u, out short", 5, 5, {256, 255, 256, 64}, WHOLE_FIVE, 99},
    {"to: v, out short", 5, 5, {256, 256, 255, 64}, WHOLE_FIVE, 99},
    {"to: map, out short", 5, 5, {256, 256, 256, 63}, WHOLE_FIVE, 99},
    {"to: all empty", 5, 5, {0, 0, 0, 0}, WHOLE_FIVE, 0},
    /* no pixels */
    {"to: 0 x 0", 0, 0, {0, 0, 0, 0}, WHOLE_FIVE, 0},
    {"to: 0 x 5", 0, 5, {0, 0, 0, 0}, WHOLE_FIVE, 0},
    {"to: 5 x 0", 5, 0, {0, 0, 0, 0}, WHOLE_FIVE, 0},
    /* rectangles with nothing in them */
    {"to: no column", 5, 5, FIVE_PLANES, {2, 1, 2, 4}, 0},
    {"to: no row", 5, 5, FIVE_PLANES, {1, 2, 4, 2}, 0},
    {"to: right to left", 5, 5, FIVE_PLANES, {4, 1, 2, 4}, 0},
    {"to: upside down", 5, 5, FIVE_PLANES, {1, 4, 4, 2}, 0},
    {"to: off right", 5, 5, FIVE_PLANES, {5, 0, 9, 5}, 0},
    {"to: off below", 5, 5, FIVE_PLANES, {0, 5, 5, 9}, 0},
    {"to: far off", 5, 5, FIVE_PLANES, {65535, 65535, 65535, 65535}, 0},
    {"to: no row, y short", 5, 5, {255, 256, 256, 64}, {1, 2, 4, 2}, 0},
    {"to: no row, map short", 5, 5, {256, 256, 256, 63}, {1, 2, 4, 2}, 0},
    /* parts */
    {"to: corner", 5, 5, FIVE_PLANES, {4, 4, 9, 9}, 4},
    {"to: corner, short", 5, 5, FIVE_PLANES, {4, 4, 9, 9}, 3},
    {"to: inner", 5, 5, FIVE_PLANES, {1, 1, 4, 3}, 24},
    {"to: inner, short", 5, 5, FIVE_PLANES, {1, 1, 4, 3}, 23},
    {"to: past both", 5, 5, FIVE_PLANES, {0, 0, 65535, 65535}, 100},
};

/* The answer of a conversion, its output, and whether the planes that it read are as they were. */
static void converted_line(const char *name, enum call call, const Args *a, enum slice first)
{
    const Result r = asked(call, a);
    say_answer(name, &r);
    say_written(", out ", a, OUT, UNWRITTEN, r.count);
    say_read(", planes ", a, first, (enum slice)(first + 2), GREY);
    if (call == TO_RGBA)
        printf(", filtered %zu %zu", r.filtered_u, r.filtered_v);
    printf("\n");
    over(call);
}

static void pixels_line(const PixelsCase *c)
{
    Args a = {0};
    a.width = c->width, a.height = c->height;
    a.left = c->rect[0], a.top = c->rect[1], a.right = c->rect[2], a.bottom = c->rect[3];
    for (int p = 0; p < 3; p++)
        lend_all(&a, (enum slice)(Y + p), c->lengths[p], GREY);
    lend_map(&a, c->lengths[3]);
    lend_all(&a, OUT, c->room, UNWRITTEN);
    converted_line(c->name, TO_RGBA, &a, Y);
}

/* A view, the lengths of its planes, and the bytes of output lent. The chroma of 5 x 5 is 3 x 3. */
typedef struct { const char *name; uint16_t width, height; size_t luma, chroma, lengths[3], room; } ViewPixelsCase;
static const ViewPixelsCase view_pixels_cases[] = {
    {"view: exact", 5, 5, 5, 3, {25, 9, 9}, 100},
    {"view: one over", 5, 5, 5, 3, {26, 10, 10}, 101},
    {"view: wide", 5, 5, 6, 4, {30, 12, 12}, 100},
    {"view: out short", 5, 5, 5, 3, {25, 9, 9}, 99},
    {"view: out empty", 5, 5, 5, 3, {25, 9, 9}, 0},
    {"view: luma 4", 5, 5, 4, 3, {25, 9, 9}, 100},
    {"view: chroma 2", 5, 5, 5, 2, {25, 9, 9}, 100},
    {"view: y short", 5, 5, 5, 3, {24, 9, 9}, 100},
    {"view: u short", 5, 5, 5, 3, {25, 8, 9}, 100},
    {"view: v short", 5, 5, 5, 3, {25, 9, 8}, 100},
    {"view: wide, y short", 5, 5, 6, 4, {29, 12, 12}, 100},
    {"view: luma 2^63", 5, 5, (size_t)1 << 63, 3, {32, 9, 9}, 100},
    /* several at once */
    {"view: luma 4, y short", 5, 5, 4, 3, {19, 9, 9}, 100},
    {"view: chroma 2, u short", 5, 5, 5, 2, {25, 5, 9}, 100},
    {"view: chroma 2, v short", 5, 5, 5, 2, {25, 9, 5}, 100},
    {"view: luma 4, out short", 5, 5, 4, 3, {25, 9, 9}, 99},
    {"view: chroma 2, out short", 5, 5, 5, 2, {25, 9, 9}, 99},
    {"view: y, out short", 5, 5, 5, 3, {24, 9, 9}, 99},
    {"view: u, out short", 5, 5, 5, 3, {25, 8, 9}, 99},
    {"view: v, out short", 5, 5, 5, 3, {25, 9, 8}, 99},
    {"view: luma 4, y, out short", 5, 5, 4, 3, {19, 9, 9}, 99},
    /* no pixels: planes and output are empty */
    {"view: 0 x 0", 0, 0, 0, 0, {0, 0, 0}, 0},
    {"view: 0 x 5", 0, 5, 0, 0, {0, 0, 0}, 0},
    {"view: 5 x 0", 5, 0, 5, 3, {0, 0, 0}, 0},
    {"view: 5 x 0, luma 4", 5, 0, 4, 3, {0, 0, 0}, 0},
};

static void view_pixels_line(const ViewPixelsCase *c, enum call call)
{
    Args a = {0};
    a.view_width = c->width, a.view_height = c->height, a.luma_stride = c->luma, a.chroma_stride = c->chroma;
    for (int p = 0; p < 3; p++)
        lend_all(&a, (enum slice)(VIEW_Y + p), c->lengths[p], GREY);
    lend_all(&a, OUT, c->room, UNWRITTEN);
    converted_line(c->name, call, &a, VIEW_Y);
}

/* In limited range: of pixels that are all 200 Y is (220 x 200 + 128)/256 + 16 = 188, and of samples that are all 128 a pixel is
 * (298 x 112 + 128)/256 = 130. */
static void limited_lines(void)
{
    for (size_t k = 0; k < sizeof planes_cases / sizeof *planes_cases; k++)
        if (planes_cases[k].call == FROM_RGBA) {
            printf("limited ");
            planes_line(&planes_cases[k], FROM_RGBA_LIMITED);
        }
    for (size_t k = 0; k < sizeof view_pixels_cases / sizeof *view_pixels_cases; k++) {
        printf("limited ");
        view_pixels_line(&view_pixels_cases[k], VIEW_TO_RGBA_LIMITED);
    }
}

static void refusals_picture(void)
{
    for (size_t k = 0; k < sizeof planes_cases / sizeof *planes_cases; k++)
        planes_line(&planes_cases[k], planes_cases[k].call);
    for (size_t k = 0; k < sizeof pixels_cases / sizeof *pixels_cases; k++)
        pixels_line(&pixels_cases[k]);
    for (size_t k = 0; k < sizeof view_pixels_cases / sizeof *view_pixels_cases; k++)
        view_pixels_line(&view_pixels_cases[k], VIEW_TO_RGBA);
    limited_lines();
}

#endif
