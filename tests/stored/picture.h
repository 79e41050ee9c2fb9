/* replay_picture: a picture from RGBA as the Rust has it and with the edge filled, both conversions to RGBA, and main views applied. */
#ifndef STORED_PICTURE_H
#define STORED_PICTURE_H

#include "cases.h"

enum { PIXELS_ROOM = 8192 };

/* Bytes from a seed x: for each byte x becomes (75 x + 74) % 65537, and the byte is x % 256. */
static void paint(const Args *a, enum slice s, size_t seed)
{
    for (size_t k = 0; k < a->count[s]; k++) {
        seed = (75 * seed + 74) % 65537;
        ((uint8_t *)a->at[s])[k] = (uint8_t)(seed % 256);
    }
}

static void paint_view(Args *a, size_t seed)
{
    view(a, a->view_width, a->view_height, a->luma_stride, a->chroma_stride);
    paint(a, VIEW_Y, seed);
    paint(a, VIEW_U, seed + 83);
    paint(a, VIEW_V, seed + 167);
}

/* The picture that a case begins with: of painted pixels, or a fresh one. */
static uint32_t painted(enum call call, Args *a, size_t seed)
{
    picture(a, a->width, a->height, plane_of(a->width, a->height));
    lend_as(a, RGBA, (size_t)4 * a->width * a->height, NULL);
    paint(a, RGBA, seed);
    return asked(call, a).number;
}

static uint32_t fresh(Args *a)
{
    picture(a, a->width, a->height, plane_of(a->width, a->height));
    const uint32_t number = asked(NEW, a).number;
    check(number != 0 || (all_still(a, Y, 0) && all_still(a, U, 128) && all_still(a, V, 128)), "new", "the bytes of a fresh picture");
    return number;
}

/* The planes that a call left, or the pixels that it wrote. */
static void planes_words(const Args *a, uint32_t number)
{
    if (number != 0) {
        printf(" refused\n");
        return;
    }
    printf(":");
    say_three(a, Y, a->count[Y], a->count[U]);
    printf("\n");
}

static void pixels_words(const Args *a, enum call call)
{
    const Result r = asked(call, a);
    if (r.number != 0) {
        printf(" refused\n");
        return;
    }
    printf(": %zu ", r.count);
    say_first(a, OUT, r.count);
    if (call == TO_RGBA)
        printf(", filtered %zu %zu", r.filtered_u, r.filtered_v);
    printf("\n");
}

/* The calls: 0 is from RGBA as the Rust has it, 1 picture to RGBA, 2 view to RGBA, 3 the main view onto a fresh picture, 4 onto one from
 * RGBA, 5 from RGBA with the edge filled. What 1 and 4 begin with was recorded from the Rust, so it is made as the Rust makes it. */
static void picture_line(size_t index, const uint8_t *s)
{
    static const char *const names[6] = {"from_rgba_rust", "to_rgba", "view_to_rgba", "apply_main_view", "apply_main_view", "from_rgba"};
    Stored c = stored_at(s);
    Args *a = &c.a;
    whole(c.which < 6, "a case of no call");
    printf("%zu: %s %u x %u", index, names[c.which], c.which == 2 ? a->view_width : a->width, c.which == 2 ? a->view_height : a->height);
    const enum call made = c.which == 5 ? FROM_RGBA : FROM_RGBA_RUST;
    const uint32_t begun = c.which == 2 ? 0 : c.which == 3 ? fresh(a) : painted(made, a, c.source);
    if (c.which == 0 || c.which == 5 || begun != 0) {
        planes_words(a, begun);
    } else if (c.which <= 2) {
        a->left = c.rects[0], a->top = c.rects[1], a->right = c.rects[2], a->bottom = c.rects[3];
        if (c.which == 2)
            paint_view(a, c.view_source);
        else
            lend_map(a, a->count[MAP]);
        lend_as(a, OUT, PIXELS_ROOM, NULL);
        pixels_words(a, c.which == 1 ? TO_RGBA : VIEW_TO_RGBA);
    } else {
        paint_view(a, c.view_source);
        lend_numbers(a, RECTS, c.rects, (size_t)4 * c.count);
        planes_words(a, asked(MAIN, a).number);
    }
    over(MAIN);
}

static void replay_picture(void)
{
    each_of(0, PICTURE_CASE, picture_line);
}

#endif
