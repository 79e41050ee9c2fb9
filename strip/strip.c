/* The lab's time strip through the library, over bind/c/haythaw.h.
 *
 * The strip has a tick for each boundary file: grey where the file is there, magenta where it is missing, one pixel wide. A
 * viewer shows an earlier strip on which every tick is grey. Then one file is missing: the new strip is sent as two views, V1 or
 * V2, with an update rectangle whose left edge is that tick's column, an odd one, and is drawn over the earlier strip: the main view
 * first, and then the auxiliary view. Beside a strip stands its map of stale colour, a cell for each 2x2 block.
 *
 * Two more pictures have stale colour: after the next update three patches have had their main view alone; and a viewer that has just
 * begun has the left of the strip, the main view of its middle, and nothing of its right. A last one shows what a viewer draws that
 * rounds the odd left edge up where it takes chroma. */
#include <stdio.h>
#include <stdlib.h>
#include <string.h>

#include "../bind/c/haythaw.h"
#include "font.h"
#include "png.h"

enum {
    WIDTH = 201, HEIGHT = 20,              /* odd, and 13 macroblocks wide */
    STRIDE = 208, ROWS = 32, PLANE = STRIDE * ROWS, MAP = PLANE / 4,
    HOURS = 49, FIRST = 3, APART = 4,      /* the tick of hour h stands in column 3 + 4h */
    MISSING = 30, TICK = FIRST + APART * MISSING,
    TOP = 4, MINOR = 8, BOTTOM = 16,       /* rows of a tick of every sixth hour, and of the others */
    PAPER = 224, PRESENT = 72,             /* greys of the strip and of a tick; the tick's has the luma of magenta, 71 */
    RGBA = WIDTH * HEIGHT * 4, PATCHES = 3,
    TIMES = 4, MARGIN = 12, LABEL = 30,    /* the pictures: magnification, and the room around a strip */
    CELL = 2 * TIMES, GAP = 6,             /* a block of the map is as large as its pixels; the map stands below its strip */
    ACROSS = (WIDTH + 1) / 2, DOWN = (HEIGHT + 1) / 2, LEGEND = 40
};

typedef struct { uint8_t y[PLANE], u[PLANE], v[PLANE], map[MAP]; } Picture;
typedef struct { uint8_t y[PLANE], u[PLANE / 4], v[PLANE / 4]; } View;
typedef struct { const char *name, *file; bool mapped; uint8_t rgba[RGBA], map[MAP]; haythaw_pixels pixels; } Shown;
enum { BEFORE, MAIN_ALONE, AFTER_V1, AFTER_V2, NEXT, BEGUN, ROUNDED_UP, SHOWN };

/* The updates: the tick's, whose left edge is odd; the patches of the next one, each with edges that are odd, and the hours that are missing
 * then; and what a viewer that has just begun has had, of both views and of the main view alone. */
static const uint16_t update[4] = {TICK, 0, WIDTH, HEIGHT};
static const uint16_t patches[4 * PATCHES] = {39, 3, 52, 17, 87, 7, 96, 16, 155, 3, 181, 19};
static const uint64_t missing_next = (uint64_t)1 << MISSING | (uint64_t)1 << 10 | (uint64_t)1 << 22 | (uint64_t)1 << 40 | (uint64_t)1 << 43;
static const uint16_t begun_with[4] = {0, 0, 110, HEIGHT}, begun_main[4] = {110, 0, 161, HEIGHT};

#define PLANES(p) (p)->y, PLANE, (p)->u, PLANE, (p)->v, PLANE
#define PICTURE(p) PLANES(p), (p)->map, MAP
#define VIEW_PLANES(w) (w)->y, PLANE, (w)->u, PLANE / 4, (w)->v, PLANE / 4

static void must(uint32_t number, const char *call)
{
    if (number != HAYTHAW_DONE) {
        fprintf(stderr, "strip: %s answered %u\n", call, (unsigned)number);
        exit(1);
    }
}

/* ---- The strip ---- */

/* The strip with these hours missing, a bit each. */
static void draw(uint8_t *rgba, uint64_t missing)
{
    for (int k = 0; k < WIDTH * HEIGHT; k++)
        memcpy(rgba + 4 * k, (const uint8_t[4]){PAPER, PAPER, PAPER, 255}, 4);
    for (int hour = 0; hour < HOURS; hour++)
        for (int row = hour % 6 == 0 ? TOP : MINOR; row < BOTTOM; row++) {
            uint8_t *pixel = rgba + 4 * (row * WIDTH + FIRST + APART * hour);
            memset(pixel, PRESENT, 3);
            if (missing >> hour & 1)
                memcpy(pixel, (const uint8_t[3]){255, 0, 255}, 3);
        }
}

static Picture from_rgba(const uint8_t *rgba)
{
    Picture p;
    must(haythaw_from_rgba(rgba, RGBA, WIDTH, HEIGHT, PICTURE(&p)), "from_rgba");
    return p;
}

static haythaw_pixels to_rgba(const Picture *p, uint8_t *rgba)
{
    const haythaw_pixels pixels = haythaw_to_rgba(WIDTH, HEIGHT, PICTURE(p), 0, 0, WIDTH, HEIGHT, rgba, RGBA);
    must(pixels.number, "to_rgba");
    return pixels;
}

static void show(Shown *s, const Picture *p)
{
    s->pixels = to_rgba(p, s->rgba);
    memcpy(s->map, p->map, MAP);
}

/* ---- Through the views ---- */

enum layout { V1, V2 };
typedef struct { enum layout layout; haythaw_views like; View main, aux; } Sent;

static Sent sent(const Picture *p, enum layout layout)
{
    Sent s;
    s.layout = layout;
    s.like = layout == V1 ? haythaw_split_v1(WIDTH, HEIGHT, PLANES(p), VIEW_PLANES(&s.main), VIEW_PLANES(&s.aux))
                          : haythaw_split_v2(WIDTH, HEIGHT, PLANES(p), VIEW_PLANES(&s.main), VIEW_PLANES(&s.aux));
    must(s.like.number, "split");
    return s;
}

static void receive_main(Picture *p, const Sent *s, const uint16_t *rects, size_t numbers)
{
    const haythaw_views w = s->like;
    must(haythaw_apply_main_view(WIDTH, HEIGHT, PICTURE(p), rects, numbers, w.width, w.height, w.luma_stride, w.chroma_stride,
                                 VIEW_PLANES(&s->main)), "apply_main_view");
}

static void receive_auxiliary(Picture *p, const Sent *s, const uint16_t rect[4])
{
    const haythaw_views w = s->like;
    must((s->layout == V1 ? haythaw_apply_auxiliary_v1 : haythaw_apply_auxiliary_v2)(
             WIDTH, HEIGHT, PICTURE(p), rect, 4, w.width, w.height, w.luma_stride, w.chroma_stride, VIEW_PLANES(&s->aux)),
         "apply_auxiliary");
}

/* Main, then auxiliary, over the rectangle. */
static void receive(Picture *p, const Sent *s, const uint16_t rect[4])
{
    receive_main(p, s, rect, 4);
    receive_auxiliary(p, s, rect);
}

/* What a viewer draws that rounds an odd left edge up where it takes chroma. The library does not do this, whatever it is asked, so
 * it is put together from two right updates of the same earlier picture: Y of the one over the true rectangle, U and V of the one
 * over the rectangle with its left edge rounded up. The first column of 2x2 blocks keeps its old chroma. */
static Picture rounded_up(const Picture *earlier, const Sent *s, const uint16_t rect[4])
{
    const uint16_t up[4] = {(uint16_t)(rect[0] + rect[0] % 2), rect[1], rect[2], rect[3]};
    Picture wrong = *earlier, luma = *earlier;
    receive(&luma, s, rect);
    receive(&wrong, s, up);
    memcpy(wrong.y, luma.y, PLANE);
    return wrong;
}

/* ---- Pictures of it ---- */

typedef struct { uint8_t *rgb; size_t width, height; } Canvas;

static Canvas blank(size_t width, size_t height)
{
    Canvas c = {malloc(width * height * 3), width, height};
    if (c.rgb == NULL)
        exit(2);
    memset(c.rgb, 255, width * height * 3);
    return c;
}

/* 0, 1 and 2 of the map. */
static const uint8_t stage_colours[3][3] = {{70, 70, 82}, {240, 140, 20}, {150, 205, 195}};
static const char *const stage_words[3] = {"0 never", "1 main since the last auxiliary", "2 complete"};

static void fill(Canvas *c, size_t left, size_t top, size_t size, const uint8_t *colour)
{
    for (size_t row = top; row < top + size; row++)
        for (size_t col = left; col < left + size; col++)
            memcpy(c->rgb + 3 * (row * c->width + col), colour, 3);
}

static void magnified(Canvas *c, size_t left, size_t top, const uint8_t *rgba)
{
    for (size_t k = 0; k < WIDTH * HEIGHT; k++)
        fill(c, left + k % WIDTH * TIMES, top + k / WIDTH * TIMES, TIMES, rgba + 4 * k);
}

/* The picture's blocks, each with a line of paper right of it and below. */
static void mapped(Canvas *c, size_t left, size_t top, const uint8_t *map)
{
    for (size_t k = 0; k < ACROSS * DOWN; k++) {
        const uint8_t stage = map[k / ACROSS * (STRIDE / 2) + k % ACROSS];
        fill(c, left + k % ACROSS * CELL, top + k / ACROSS * CELL, CELL - 1, stage_colours[stage < 2 ? stage : 2]);
    }
}

static size_t labelled(Canvas *c, size_t left, size_t top, const char *text)
{
    static const uint8_t ink[3] = {0, 0, 0};
    for (; *text != 0; text++, left += 12) {
        const uint8_t *rows = glyph(*text);
        for (size_t k = 0; rows != NULL && k < 35; k++)
            if (rows[k / 5] >> (4 - k % 5) & 1)
                fill(c, left + k % 5 * 2, top + k / 5 * 2, 2, ink);
    }
    return left;
}

/* A mark above the tick's column, pointing down. */
static void pointed(Canvas *c, size_t left, size_t top)
{
    static const uint8_t ink[3] = {0, 0, 0};
    for (size_t row = 0; row < 5; row++)
        for (size_t col = row; col < 9 - row; col++)
            fill(c, left + 2 * col - 8, top + 2 * row, 2, ink);
}

static const uint8_t *tick_of(const Shown *s)
{
    return s->rgba + 4 * (MINOR * WIDTH + TICK);
}

static const char *word(const uint8_t *pixel)
{
    const int r = pixel[0], g = pixel[1], b = pixel[2];
    if (abs(r - g) <= 8 && abs(g - b) <= 8 && abs(r - b) <= 8)
        return "grey";
    if (r >= 200 && b >= 200 && g <= 60)
        return "magenta";
    return r >= g + 60 && b >= g + 60 ? "half magenta" : "another colour";
}

static void write_picture(const char *folder, const char *file, Canvas *c)
{
    char path[1024];
    if (snprintf(path, sizeof path, "%s/%s", folder, file) >= (int)sizeof path || !write_png(path, c->rgb, c->width, c->height)) {
        fprintf(stderr, "strip: cannot write %s/%s\n", folder, file);
        exit(1);
    }
    printf("  %s\n", path);
    free(c->rgb);
}

/* How much room a strip takes, with its label and its map. */
static size_t room_of(const Shown *s)
{
    return LABEL + HEIGHT * TIMES + (s->mapped ? GAP + DOWN * CELL : 0);
}

/* A strip with its label, the tick's mark, how many of its pixels are stale, and its map. */
static void placed(Canvas *c, size_t top, const Shown *s)
{
    char stale[32];
    size_t at = labelled(c, MARGIN, top + 12, s->name);
    at = labelled(c, at, top + 12, ": ");
    labelled(c, at, top + 12, word(tick_of(s)));
    pointed(c, MARGIN + TICK * TIMES + TIMES / 2 - 1, top + LABEL - 12);
    magnified(c, MARGIN, top + LABEL, s->rgba);
    if (!s->mapped)
        return;
    const int letters = snprintf(stale, sizeof stale, "%zu pixels stale", s->pixels.stale);
    labelled(c, MARGIN + WIDTH * TIMES - 12 * (size_t)letters, top + 12, stale);
    mapped(c, MARGIN, top + LABEL + HEIGHT * TIMES + GAP, s->map);
}

static void explained(Canvas *c, size_t top)
{
    size_t at = MARGIN;
    for (int stage = 0; stage < 3; stage++) {
        fill(c, at, top, 14, stage_colours[stage]);
        at = labelled(c, at + 22, top, stage_words[stage]) + 36;
    }
}

static void write_pictures(const char *folder, const Shown *shown)
{
    size_t height = LEGEND, top = 0;
    for (size_t k = 0; k < SHOWN; k++)
        height += room_of(&shown[k]);
    Canvas all = blank(WIDTH * TIMES + 2 * MARGIN, height);
    for (size_t k = 0; k < SHOWN; top += room_of(&shown[k]), k++) {
        Canvas one = blank(WIDTH * TIMES, HEIGHT * TIMES);
        placed(&all, top, &shown[k]);
        magnified(&one, 0, 0, shown[k].rgba);
        write_picture(folder, shown[k].file, &one);
    }
    explained(&all, top + 14);
    write_picture(folder, "strip.png", &all);
}

/* ---- What came out ---- */

/* The tick's colour is the same in all its rows: it stands in an odd column, where nothing is averaged or filtered. */
static bool one_colour(const Shown *s)
{
    for (int row = TOP; row < BOTTOM; row++)
        if (memcmp(s->rgba + 4 * (row * WIDTH + TICK), tick_of(s), 4) != 0)
            return false;
    return true;
}

static bool say(const char *what, bool holds)
{
    printf("  %-88s %s\n", what, holds ? "yes" : "NO");
    return holds;
}

/* How often the filter replaced an average, which it may in every 2x2 block once for U and once for V. */
static void filtered_told(const Shown *shown)
{
    printf("\nOf the strip's %d blocks the reverse filter replaced\n", ACROSS * DOWN);
    for (size_t k = 0; k < SHOWN; k++)
        printf("  %-30s U in %2zu, V in %2zu\n", shown[k].name, shown[k].pixels.filtered_u, shown[k].pixels.filtered_v);
}

/* The pixels in blocks that a list touches. Its rectangles lie apart. */
static size_t touched(const uint16_t *rects, size_t numbers)
{
    size_t pixels = 0;
    for (const uint16_t *r = rects; r < rects + numbers; r += 4) {
        const int right = (r[2] + 1) / 2 * 2, bottom = (r[3] + 1) / 2 * 2;
        pixels += (size_t)((right < WIDTH ? right : WIDTH) - r[0] / 2 * 2) * (size_t)((bottom < HEIGHT ? bottom : HEIGHT) - r[1] / 2 * 2);
    }
    return pixels;
}

/* What the map says: how many pixels are stale, beside how many have to be. */
static bool stale_told(const Shown *shown)
{
    const size_t left = touched(begun_with, 4);
    const size_t to_be[SHOWN] = {[MAIN_ALONE] = touched(update, 4), [NEXT] = touched(patches, 4 * PATCHES), [BEGUN] = WIDTH * HEIGHT - left};
    bool right = true;
    printf("\nOf its %d pixels the map calls stale\n", WIDTH * HEIGHT);
    for (size_t k = 0; k < SHOWN; k++) {
        printf("  %-30s %4zu\n", shown[k].name, shown[k].pixels.stale);
        right = shown[k].pixels.stale == to_be[k] && right;
    }
    return right;
}

static bool told(const Shown *shown, const uint8_t *direct)
{
    const Shown *before = &shown[BEFORE], *v1 = &shown[AFTER_V1], *v2 = &shown[AFTER_V2], *wrong = &shown[ROUNDED_UP];
    const uint8_t *neighbour = v1->rgba + 4 * (MINOR * WIDTH + TICK - 1), *paper = v1->rgba;
    printf("\nThe tick of hour %d in column %d: drawn %d %d %d at first, and 255 0 255 since its file is missing. It is shown\n",
           MISSING, TICK, PRESENT, PRESENT, PRESENT);
    bool right = true;
    for (size_t k = 0; k < SHOWN; k++) {
        const uint8_t *p = tick_of(&shown[k]);
        printf("  %-30s %3d %3d %3d   %s\n", shown[k].name, p[0], p[1], p[2], word(p));
        right = one_colour(&shown[k]) && right;
    }
    filtered_told(shown);
    const bool stale = stale_told(shown);
    printf("\n");
    right = say("after V1 every byte is as from_rgba, then to_rgba, of the new strip make it", memcmp(v1->rgba, direct, RGBA) == 0) && right;
    right = say("after V2 every byte is as from_rgba, then to_rgba, of the new strip make it", memcmp(v2->rgba, direct, RGBA) == 0) && right;
    right = say("with the left edge rounded up every byte is as before: the missing file cannot be seen",
                memcmp(wrong->rgba, before->rgba, RGBA) == 0) && right;
    right = say("stale are the pixels of the blocks that no auxiliary view has completed, and no others", stale) && right;
    printf("\nThis is how AVC444 shows that strip: 255 comes back as %d, and left of the tick, in even rows, the paper is %d %d %d\n"
           "for %d %d %d, since the average of a 2x2 block is rounded before it is reversed.\n",
           tick_of(v1)[0], neighbour[0], neighbour[1], neighbour[2], paper[0], paper[1], paper[2]);
    return right;
}

/* The update in each layout: after its main view, and after its auxiliary view. Gives the picture that is shown last. */
static Picture both_layouts(Shown *shown, const Picture *earlier, const Picture *new_strip)
{
    Picture p = *earlier;
    for (int layout = V1; layout <= V2; layout++) {
        const Sent views = sent(new_strip, (enum layout)layout);
        p = *earlier;
        receive_main(&p, &views, update, 4);
        show(&shown[MAIN_ALONE], &p);
        receive_auxiliary(&p, &views, update);
        show(&shown[AFTER_V1 + layout], &p);
    }
    return p;
}

/* The next update brings three patches, whose auxiliary view has not come. */
static void next_update(Shown *s, const Picture *now)
{
    static uint8_t strip[RGBA];
    Picture p = *now;
    draw(strip, missing_next);
    const Picture next = from_rgba(strip);
    const Sent views = sent(&next, V2);
    receive_main(&p, &views, patches, 4 * PATCHES);
    show(s, &p);
}

/* A fresh picture with the left of the strip, and the main view of its middle. */
static void just_begun(Shown *s, const Sent *views)
{
    Picture p;
    must(haythaw_new(WIDTH, HEIGHT, PICTURE(&p)), "new");
    receive(&p, views, begun_with);
    receive_main(&p, views, begun_main, 4);
    show(s, &p);
}

int main(int words, char **word_at)
{
    static Shown shown[SHOWN] = {{"before", "before.png", false, {0}, {0}, {0}},
                                 {"main view alone", "main-alone.png", true, {0}, {0}, {0}},
                                 {"after V1", "v1.png", true, {0}, {0}, {0}},
                                 {"after V2", "v2.png", false, {0}, {0}, {0}},
                                 {"next update, main view alone", "next-update.png", true, {0}, {0}, {0}},
                                 {"viewer just begun", "just-begun.png", true, {0}, {0}, {0}},
                                 {"left edge rounded up", "rounded-up.png", false, {0}, {0}, {0}}};
    static uint8_t strip[RGBA], direct[RGBA];
    const char *folder = words > 1 ? word_at[1] : ".";

    draw(strip, 0);
    const Picture earlier = from_rgba(strip);
    show(&shown[BEFORE], &earlier);

    draw(strip, (uint64_t)1 << MISSING);
    const Picture new_strip = from_rgba(strip);
    to_rgba(&new_strip, direct);

    const Picture now = both_layouts(shown, &earlier, &new_strip);
    const Sent views = sent(&new_strip, V2); /* what the lab's server sends */
    next_update(&shown[NEXT], &now);
    just_begun(&shown[BEGUN], &views);
    const Picture wrong = rounded_up(&earlier, &views, update);
    show(&shown[ROUNDED_UP], &wrong);

    printf("Pictures, %d times as large, and all in one:\n", TIMES);
    write_pictures(folder, shown);
    return told(shown, direct) ? 0 : 1;
}
