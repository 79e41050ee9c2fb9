/* Paints pictures on the root window of a display, for tests/real_session.sh: `painter PICTURES`. The first at once, and the next one for each line of
 * standard input; it says `painted N` when a picture is there. A picture comes up whole, by one request: a server that looks at the screen sees the
 * one before or the one after, and nothing between.
 *
 * A picture has a ground of gradients. From one to the next a box with letters comes up on it, and a line one pixel wide. The upper left and the lower
 * right corner have small cells (28 x 22 pixels, no multiple of 16, so that what is in them falls on any column and row): lines one pixel wide in
 * saturated colours, letters, gradients; some of the cells change. Two bands look alike in both views. */
#include "../../strip/font.h"
#include <X11/Xlib.h>
#include <X11/Xutil.h>
#include <stdio.h>
#include <stdlib.h>

enum { CELL_WIDTH = 28, CELL_HEIGHT = 22, KINDS = 6 };
enum { BLACK = 0x000000, WHITE = 0xffffff };

static const uint32_t COLOURS[] = {0xff0000, 0x0000ff, 0x00a000, 0xff00ff, 0xff8000, 0x00c0c0, 0x800080, 0xc0c000, 0x0080ff, 0xa00000, 0x00ff00, 0x404040};
enum { COLOUR_COUNT = sizeof COLOURS / sizeof *COLOURS };

static uint32_t colour(unsigned i) { return COLOURS[i % COLOUR_COUNT]; }

/* From a to b, at `part` of `whole`, each channel by itself. */
static uint32_t between(uint32_t a, uint32_t b, unsigned part, unsigned whole)
{
    uint32_t mixed = 0;
    for (int shift = 0; shift <= 16; shift += 8) {
        const unsigned from = a >> shift & 255, to = b >> shift & 255;
        mixed |= (from * (whole - part) + to * part) / whole << shift;
    }
    return mixed;
}

/* Whether there is ink at a place of a cell that is full of letters, each 5 x 7 dots with a column and two rows between; and the letter's number. */
static int letter_at(unsigned x, unsigned y, unsigned turn, unsigned *letter)
{
    *letter = x / 6 + y / 9 * 5 + turn;
    const uint8_t *rows = glyph((char)('A' + *letter * 7 % 26));
    return rows && x % 6 < 5 && y % 9 < 7 && rows[y % 9] >> (4 - x % 6) & 1;
}

/* The pixel at a place of a cell of a kind; `turn` says how often the cell has changed. */
static uint32_t pixel(unsigned kind, unsigned x, unsigned y, unsigned turn)
{
    unsigned letter;
    switch (kind) {
    case 0: return x % 4 == 1 ? colour(x / 4 + turn) : WHITE; /* columns */
    case 1: return y % 3 == 1 ? colour(y / 3 + turn) : WHITE; /* rows */
    case 2: return letter_at(x, y, turn, &letter) ? colour(letter) : WHITE;
    case 3: return between(between(WHITE, colour(turn), x, CELL_WIDTH), BLACK, y, 2 * CELL_HEIGHT);
    case 4: return (x + y + turn) % 5 == 0 ? colour((x + y) / 5 + turn) : BLACK; /* slanting lines */
    default: return letter_at(x, y, turn, &letter) ? WHITE : colour(turn);
    }
}

/* The pixel of the cell at a place of a corner. How often a cell has changed when picture n is painted is different from cell to cell. */
static uint32_t corner(unsigned x, unsigned y, unsigned n)
{
    const unsigned column = x / CELL_WIDTH, row = y / CELL_HEIGHT;
    unsigned turn = 5 * column + 3 * row;
    for (unsigned i = 1; i <= n; i++) turn += (2 * column + 3 * row + i) % 7 == 0;
    return pixel((column + 2 * row) % KINDS, x % CELL_WIDTH, y % CELL_HEIGHT, turn);
}

/* Box i of picture n; it has a line of letters, all of them the box's own. */
static int box(unsigned x, unsigned y, unsigned width, unsigned height, unsigned i, uint32_t *is)
{
    const unsigned left = width * (i * 5 % 12) / 16, top = height * (i * 7 % 12) / 16;
    if (x < left || y < top || x >= left + width / 3 || y >= top + height / 4) return 0;
    const uint8_t *rows = glyph((char)('A' + i % 26));
    const unsigned column = x - left, row = y - top;
    const int ink = row >= 3 && row < 10 && column % 6 < 5 && rows && rows[row - 3] >> (4 - column % 6) & 1;
    *is = ink ? colour(i + 5) : colour(i);
    return 1;
}

/* Letters, as a sample that is neither dark nor bright: any three of these are a colour that there is. */
static int shade(unsigned x, unsigned y)
{
    unsigned letter;
    return letter_at(x, y, y / 9, &letter) ? 156 : 100;
}

static uint32_t of_samples(int y, int u, int v)
{
    const int red = y + 403 * (v - 128) / 256, green = y - (48 * (u - 128) + 120 * (v - 128)) / 256, blue = y + 475 * (u - 128) / 256;
    return (uint32_t)(red << 16 | green << 8 | blue);
}

/* Bands for x264, which predicts a view from the one before only where they are alike, and the views of a picture seldom are. Luma has letters, and
 * U and V are such that the luma of the auxiliary view has the same letters at the same place: in the first band by V2, in the second by V1. They
 * are whole rows of macroblocks, since V1 lays its rows out within these. */
static int band(unsigned x, unsigned y, unsigned width, unsigned height, uint32_t *is)
{
    const unsigned top = height / 32, high = (height + 96) / 192, row = y / 16, stripe = y - y % 16 + y % 16 / 2;
    if (row < top || row >= top + 2 * high) return 0;
    *is = row < top + high ? of_samples(shade(x, y), shade(x / 2, y), shade(width / 2 + x / 2, y))
                           : of_samples(shade(x, y), shade(x, stripe), shade(x, stripe + 8));
    return 1;
}

static uint32_t place(unsigned x, unsigned y, unsigned width, unsigned height, unsigned n)
{
    const unsigned wide = width / 3, high = height / 3; /* what the corners have, if they are not full before that */
    uint32_t is;
    if (x < wide && y < high && x < 4 * CELL_WIDTH && y < 3 * CELL_HEIGHT) return corner(x, y, n);
    if (x >= width - wide && y >= height - high && width - x <= 4 * CELL_WIDTH && height - y <= 3 * CELL_HEIGHT)
        return corner(width - 1 - x, height - 1 - y, n);
    if (band(x, y, width, height, &is)) return is;
    for (unsigned i = n; i > 0; i--) {
        if (x == width * (i * 7 % 16) / 16) return colour(i + 3);
        if (box(x, y, width, height, i, &is)) return is;
    }
    return between(between(0x0000ff, 0xff0000, x, width), 0x00ff80, y, height);
}

static void fill(XImage *image, unsigned n)
{
    const unsigned width = (unsigned)image->width, height = (unsigned)image->height;
    for (unsigned y = 0; y < height; y++)
        for (unsigned x = 0; x < width; x++) XPutPixel(image, (int)x, (int)y, place(x, y, width, height, n));
}

static int stop(const char *what)
{
    fprintf(stderr, "painter: %s\n", what);
    return 2;
}

int main(int argc, char **argv)
{
    const unsigned pictures = argc == 2 ? (unsigned)strtoul(argv[1], NULL, 10) : 0;
    Display *display = XOpenDisplay(NULL);
    if (!pictures) return stop("usage: painter PICTURES");
    if (!display) return stop("no display");
    const int screen = DefaultScreen(display);
    const unsigned width = (unsigned)DisplayWidth(display, screen), height = (unsigned)DisplayHeight(display, screen);
    const Window root = RootWindow(display, screen);
    const GC gc = DefaultGC(display, screen);
    const Pixmap behind = XCreatePixmap(display, root, width, height, (unsigned)DefaultDepth(display, screen));
    XImage *image = XGetImage(display, root, 0, 0, width, height, AllPlanes, ZPixmap);
    if (!image || image->bits_per_pixel != 32) return stop("a screen of 24 bits is needed");
    for (unsigned n = 0; n < pictures; n++) {
        if (n && getchar() == EOF) return stop("no more lines");
        fill(image, n);
        XPutImage(display, behind, gc, image, 0, 0, 0, 0, width, height);
        XCopyArea(display, behind, root, gc, 0, 0, width, height, 0, 0);
        XSync(display, False);
        printf("painted %u\n", n + 1);
        fflush(stdout);
    }
    while (getchar() != EOF) {} /* what is painted stays until the display is done with */
    return 0;
}
