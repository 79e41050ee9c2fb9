/* Another encoder's two views are held against the split of the picture, before H.264 touches them, and the first wrong sample is printed. Here
 * they are our own split of a red picture; then one sample is altered, as that encoder might. */
#include <stdio.h>

#include "haythaw.h"

enum { WIDTH = 20, HEIGHT = 2, STRIDE = 32, ROWS = 16, LUMA = STRIDE * ROWS, CHROMA = LUMA / 4 };
typedef struct { uint8_t y[LUMA], u[CHROMA], v[CHROMA]; } View;
static uint8_t y[LUMA], u[LUMA], v[LUMA], map[LUMA / 4];

/* Rows of a view may be longer than it is wide: the four numbers are its width and height, and its two strides. */
static haythaw_checked check(const View *main_view, const View *auxiliary)
{
    return haythaw_check_v2(WIDTH, HEIGHT, y, LUMA, u, LUMA, v, LUMA,
                            STRIDE, ROWS, STRIDE, STRIDE / 2, main_view->y, LUMA, main_view->u, CHROMA, main_view->v, CHROMA,
                            STRIDE, ROWS, STRIDE, STRIDE / 2, auxiliary->y, LUMA, auxiliary->u, CHROMA, auxiliary->v, CHROMA);
}

static haythaw_views split(View *main_view, View *auxiliary)
{
    return haythaw_split_v2(WIDTH, HEIGHT, y, LUMA, u, LUMA, v, LUMA, main_view->y, LUMA, main_view->u, CHROMA, main_view->v, CHROMA,
                            auxiliary->y, LUMA, auxiliary->u, CHROMA, auxiliary->v, CHROMA);
}

/* The sample of two views that a check names. */
static unsigned sample(const View views[2], haythaw_checked at)
{
    const View *view = &views[at.view];
    const uint8_t *plane = at.plane == HAYTHAW_PLANE_Y ? view->y : at.plane == HAYTHAW_PLANE_U ? view->u : view->v;
    return plane[at.row * (at.plane == HAYTHAW_PLANE_Y ? STRIDE : STRIDE / 2) + at.column];
}

/* What a check answered, as a sentence; the split is made again only for a wrong sample. */
static void say(haythaw_checked answer, const View theirs[2])
{
    static const char *const views[] = {"main", "auxiliary"}, *const planes[] = {"Y", "U", "V"};
    static View right[2];
    if (answer.number != HAYTHAW_DONE)
        printf("refused with %u\n", answer.number);
    else if (answer.same)
        printf("the views are the split of the picture\n");
    else if (!answer.named)
        printf("a view has another size than the split's\n");
    else if (split(&right[0], &right[1]).number == HAYTHAW_DONE)
        printf("%s view, %s, row %u, column %u: %u, the split has %u\n", views[answer.view], planes[answer.plane], answer.row, answer.column,
               sample(theirs, answer), sample(right, answer));
}

int main(void)
{
    static uint8_t rgba[4 * WIDTH * HEIGHT];
    static View theirs[2]; /* main and auxiliary */
    for (size_t k = 0; k < sizeof rgba; k++)
        rgba[k] = k % 4 == 0 || k % 4 == 3 ? 255 : 0;
    if (haythaw_from_rgba(rgba, sizeof rgba, WIDTH, HEIGHT, y, LUMA, u, LUMA, v, LUMA, map, sizeof map) != HAYTHAW_DONE ||
        split(&theirs[0], &theirs[1]).number != HAYTHAW_DONE)
        return 1;
    say(check(&theirs[0], &theirs[1]), theirs);
    theirs[1].u[3 * STRIDE / 2 + 5]++;
    say(check(&theirs[0], &theirs[1]), theirs);
    return 0;
}
