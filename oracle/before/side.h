/* The calls of one library over a frame. A library and the one from before it are two sides of one program: side.c is compiled once for each, with
   that library's own header, and hides all its names but the side's own. */
#include <stddef.h>
#include <stdint.h>

/* A picture's planes and its map, a main and an auxiliary view, and RGBA; every stride is the width. */
struct frame {
    uint16_t width, height;
    size_t plane;
    uint8_t *picture[3], *map, *main_view[3], *aux_view[3], *rgba;
};

/* A call over a frame and a list of `count` numbers, four for each rectangle; a call that takes one rectangle takes the first. It answers the
   call's number. */
typedef uint32_t call(struct frame *frame, const uint16_t *rects, size_t count);

enum { CALLS = 9 };

struct side {
    call *calls[CALLS];
};

extern const struct side before, after;
