/* Limited range beside what others make of it, on every triple of samples and every colour: FFmpeg's swscale, libyuv, and BT.601 in real
   numbers, rounded to the nearest. For each, a channel a row: how many of the 2^24 differ from the library's, by how much at most, the mean
   of what they differ by over all, and the smallest triple that differs, with both answers; to RGBA also how many of those whose samples are
   in range, Y from 16 to 235 and U and V from 16 to 240, differ, and by how much at most. Run by limited_peers.sh.

   Only the matrix is compared. To RGBA, a frame has one U and one V, so that no chroma can be interpolated. From RGBA, planes are 4:4:4, and every
   colour is converted in two arrangements, in which it has other neighbours: how many come out differently is printed, and has to be 0. */
#include <inttypes.h>
#include <math.h>
#include <stdbool.h>
#include <stdint.h>
#include <stdio.h>
#include <stdlib.h>
#include <string.h>

#include <libavutil/pixfmt.h>
#include <libswscale/swscale.h>
#include <libyuv.h>

#include "haythaw.h"

enum { SIDE = 256, FRAME = SIDE * SIDE, TRIPLES = 1 << 24 };

/* Every answer, three bytes a triple: of Y, U, V in order of U, then V, then Y; of a colour in order of red, green, blue. */
static uint8_t *ours, *theirs, *again;

static void must(bool holds, const char *what)
{
    if (!holds) {
        fprintf(stderr, "limited_peers: %s\n", what);
        exit(1);
    }
}

static uint8_t *room(size_t bytes)
{
    uint8_t *at = calloc(bytes, 1);
    must(at != NULL, "no memory");
    return at;
}

/* ---- what is compared ---- */

/* Frames of 16x16 with every Y, one U and one V; RGBA comes back. */
typedef struct { uint8_t y[256], u[256], v[256], rgba[1024]; } Small;
typedef void To(Small *frame);

/* A frame of 256x256 pixels becomes three planes of as many samples. */
typedef void From(const uint8_t *rgba, uint8_t *y, uint8_t *u, uint8_t *v);

static void our_to(Small *f)
{
    must(haythaw_view_to_rgba_limited(16, 16, 16, 8, f->y, 256, f->u, 64, f->v, 64, f->rgba, 1024).number == HAYTHAW_DONE, "a refusal");
}

/* A picture in blocks of 2x2 that are alike, whose averages are what they are. */
static void our_from(const uint8_t *rgba, uint8_t *y, uint8_t *u, uint8_t *v)
{
    static uint8_t large[16 * FRAME], planes[3][4 * FRAME], map[FRAME];
    uint8_t *const out[3] = {y, u, v};
    for (size_t k = 0; k < 4 * FRAME; k++)
        memcpy(large + 4 * k, rgba + 4 * (k / 512 / 2 * SIDE + k % 512 / 2), 4);
    must(haythaw_from_rgba_limited(large, sizeof large, 512, 512, planes[0], 4 * FRAME, planes[1], 4 * FRAME, planes[2], 4 * FRAME, map,
                                   FRAME) == HAYTHAW_DONE, "a refusal");
    for (int plane = 0; plane < 3; plane++)
        for (size_t k = 0; k < FRAME; k++)
            out[plane][k] = planes[plane][k / SIDE * 2 * 512 + k % SIDE * 2];
}

static void swap_red(uint8_t *pixels, size_t count)
{
    for (uint8_t *at = pixels; at < pixels + 4 * count; at += 4) {
        const uint8_t red = at[0];
        at[0] = at[2], at[2] = red;
    }
}

static void libyuv_to(Small *f)
{
    I444ToARGB(f->y, 16, f->u, 16, f->v, 16, f->rgba, 64, 16, 16);
    swap_red(f->rgba, 256);
}

static void libyuv_from(const uint8_t *rgba, uint8_t *y, uint8_t *u, uint8_t *v)
{
    static uint8_t bgra[4 * FRAME];
    memcpy(bgra, rgba, sizeof bgra);
    swap_red(bgra, FRAME);
    ARGBToI444(bgra, 4 * SIDE, y, SIDE, u, SIDE, v, SIDE, SIDE, SIDE);
}

/* BT.601 of limited range on both sides of which RGB is of full range. */
static struct SwsContext *context(int side, enum AVPixelFormat from, enum AVPixelFormat to, int flags)
{
    struct SwsContext *c = sws_getContext(side, side, from, side, side, to, flags, NULL, NULL, NULL);
    must(c != NULL, "swscale has no such conversion");
    const int *const table = sws_getCoefficients(SWS_CS_ITU601);
    const bool rgb = from == AV_PIX_FMT_RGBA;
    must(sws_setColorspaceDetails(c, table, rgb, table, !rgb, 0, 1 << 16, 1 << 16) >= 0, "swscale takes no BT.601");
    return c;
}

enum { ACCURATE = SWS_BICUBIC | SWS_ACCURATE_RND | SWS_FULL_CHR_H_INT | SWS_BITEXACT };

static void scaled_to(struct SwsContext *c, Small *f, int chroma)
{
    const uint8_t *const in[4] = {f->y, f->u, f->v, NULL};
    const int in_strides[4] = {16, chroma, chroma, 0}, out_strides[4] = {64, 0, 0, 0};
    uint8_t *const out[4] = {f->rgba, NULL, NULL, NULL};
    must(sws_scale(c, in, in_strides, 0, 16, out, out_strides) == 16, "swscale");
}

/* By default 4:2:0 goes by a converter of its own, which accurate rounding turns off; then planes are 4:4:4. */
static void swscale_to(Small *f)
{
    static struct SwsContext *c;
    if (c == NULL)
        c = context(16, AV_PIX_FMT_YUV420P, AV_PIX_FMT_RGBA, SWS_BICUBIC);
    scaled_to(c, f, 8);
}

static void accurate_to(Small *f)
{
    static struct SwsContext *c;
    if (c == NULL)
        c = context(16, AV_PIX_FMT_YUV444P, AV_PIX_FMT_RGBA, ACCURATE);
    scaled_to(c, f, 16);
}

static void scaled_from(struct SwsContext *c, const uint8_t *rgba, uint8_t *y, uint8_t *u, uint8_t *v)
{
    const uint8_t *const in[4] = {rgba, NULL, NULL, NULL};
    const int in_strides[4] = {4 * SIDE, 0, 0, 0}, out_strides[4] = {SIDE, SIDE, SIDE, 0};
    uint8_t *const out[4] = {y, u, v, NULL};
    must(sws_scale(c, in, in_strides, 0, SIDE, out, out_strides) == SIDE, "swscale");
}

static void swscale_from(const uint8_t *rgba, uint8_t *y, uint8_t *u, uint8_t *v)
{
    static struct SwsContext *c;
    if (c == NULL)
        c = context(SIDE, AV_PIX_FMT_RGBA, AV_PIX_FMT_YUV444P, SWS_BICUBIC);
    scaled_from(c, rgba, y, u, v);
}

static void accurate_from(const uint8_t *rgba, uint8_t *y, uint8_t *u, uint8_t *v)
{
    static struct SwsContext *c;
    if (c == NULL)
        c = context(SIDE, AV_PIX_FMT_RGBA, AV_PIX_FMT_YUV444P, ACCURATE);
    scaled_from(c, rgba, y, u, v);
}

/* BT.601: Kr 0.299 and Kb 0.114. */
static const double of_red = 0.299, of_blue = 0.114, of_green = 1 - 0.299 - 0.114;

static uint8_t nearest(double number)
{
    const double rounded = floor(number + 0.5);
    return (uint8_t)(rounded < 0 ? 0 : rounded > 255 ? 255 : rounded);
}

static void real_to(Small *f)
{
    const double d = (f->u[0] - 128) * 255.0 / 224, e = (f->v[0] - 128) * 255.0 / 224;
    for (int k = 0; k < 256; k++) {
        const double y = (f->y[k] - 16) * 255.0 / 219;
        f->rgba[4 * k] = nearest(y + 2 * (1 - of_red) * e);
        f->rgba[4 * k + 1] = nearest(y - 2 * (1 - of_blue) * of_blue / of_green * d - 2 * (1 - of_red) * of_red / of_green * e);
        f->rgba[4 * k + 2] = nearest(y + 2 * (1 - of_blue) * d);
    }
}

static void real_from(const uint8_t *rgba, uint8_t *y, uint8_t *u, uint8_t *v)
{
    for (int k = 0; k < FRAME; k++) {
        const double r = rgba[4 * k] / 255.0, g = rgba[4 * k + 1] / 255.0, b = rgba[4 * k + 2] / 255.0;
        const double luma = of_red * r + of_green * g + of_blue * b;
        y[k] = nearest(219 * luma + 16);
        u[k] = nearest(224 * (b - luma) / (2 * (1 - of_blue)) + 128);
        v[k] = nearest(224 * (r - luma) / (2 * (1 - of_red)) + 128);
    }
}

/* ---- every triple, every colour ---- */

static void all_to(To *to, uint8_t *answers)
{
    static Small f;
    for (int k = 0; k < 256; k++)
        f.y[k] = (uint8_t)k;
    for (int u = 0; u < 256; u++)
        for (int v = 0; v < 256; v++) {
            memset(f.u, u, sizeof f.u);
            memset(f.v, v, sizeof f.v);
            to(&f);
            for (int k = 0; k < 256; k++, answers += 3)
                memcpy(answers, f.rgba + 4 * k, 3);
        }
}

/* Rows of one green and every blue; or, turned, of one blue and every green. */
static void all_from(From *from, bool turned, uint8_t *answers)
{
    static uint8_t rgba[4 * FRAME], planes[3][FRAME];
    for (int red = 0; red < 256; red++) {
        for (int k = 0; k < FRAME; k++) {
            rgba[4 * k] = (uint8_t)red, rgba[4 * k + 3] = 255;
            rgba[4 * k + 1] = (uint8_t)(turned ? k % SIDE : k / SIDE), rgba[4 * k + 2] = (uint8_t)(turned ? k / SIDE : k % SIDE);
        }
        from(rgba, planes[0], planes[1], planes[2]);
        for (int k = 0; k < FRAME; k++) {
            const int at = turned ? k % SIDE * SIDE + k / SIDE : k;
            for (int plane = 0; plane < 3; plane++)
                answers[3 * ((size_t)red * FRAME + (size_t)at) + (size_t)plane] = planes[plane][k];
        }
    }
}

/* ---- what differs ---- */

typedef struct { uint64_t differ, sum, in_range; int most, most_in_range; uint8_t example[3], both[2]; } Row;

/* The samples or channels of a triple by its place. */
static void triple_at(bool to, size_t k, uint8_t triple[3])
{
    const uint8_t first = (uint8_t)(k >> 16), second = (uint8_t)(k >> 8), third = (uint8_t)k;
    triple[0] = to ? third : first, triple[1] = to ? first : second, triple[2] = to ? second : third;
}

static bool smaller(const uint8_t a[3], const uint8_t b[3])
{
    const int by = a[0] + a[1] + a[2] - b[0] - b[1] - b[2];
    return by != 0 ? by < 0 : memcmp(a, b, 3) < 0;
}

static bool ranged(const uint8_t yuv[3])
{
    return yuv[0] >= 16 && yuv[0] <= 235 && yuv[1] >= 16 && yuv[1] <= 240 && yuv[2] >= 16 && yuv[2] <= 240;
}

static Row row_of(bool to, int channel)
{
    Row row = {0, 0, 0, 0, 0, {255, 255, 255}, {0, 0}};
    for (size_t k = 0; k < TRIPLES; k++) {
        const int one = ours[3 * k + (size_t)channel], other = theirs[3 * k + (size_t)channel], by = abs(one - other);
        uint8_t triple[3];
        if (by == 0)
            continue;
        triple_at(to, k, triple);
        row.differ++, row.sum += (uint64_t)by;
        row.most = by > row.most ? by : row.most;
        if (to && ranged(triple)) {
            row.in_range++;
            row.most_in_range = by > row.most_in_range ? by : row.most_in_range;
        }
        if (row.differ == 1 || smaller(triple, row.example)) {
            memcpy(row.example, triple, 3);
            row.both[0] = (uint8_t)one, row.both[1] = (uint8_t)other;
        }
    }
    return row;
}

static void say_rows(bool to, const char *name)
{
    for (int channel = 0; channel < 3; channel++) {
        const Row r = row_of(to, channel);
        printf("| %s | %c | %" PRIu64 " | %d | ", name, (to ? "RGB" : "YUV")[channel], r.differ, r.most);
        if (to)
            printf("%" PRIu64 " | %d | ", r.in_range, r.most_in_range);
        printf("%.4f | ", (double)r.sum / TRIPLES);
        if (r.differ > 0)
            printf("%u, %u, %u: %u, and %u", r.example[0], r.example[1], r.example[2], r.both[0], r.both[1]);
        printf(" |\n");
    }
    fflush(stdout);
}

static const struct { const char *name; To *to; From *from; int mask; } peers[] = {
    {"swscale, default flags", swscale_to, swscale_from, 0},
    {"swscale, accurate", accurate_to, accurate_from, 0},
    {"libyuv", libyuv_to, libyuv_from, 0},
    {"libyuv, plain C", libyuv_to, libyuv_from, 1},
    {"real numbers, to the nearest", real_to, real_from, 0}};
enum { PEERS = sizeof peers / sizeof *peers };

int main(void)
{
    uint64_t neighbours = 0;
    ours = room((size_t)3 * TRIPLES), theirs = room((size_t)3 * TRIPLES), again = room((size_t)3 * TRIPLES);
    printf("libswscale %u.%u.%u, libyuv %d\n\n", swscale_version() >> 16, swscale_version() >> 8 & 255, swscale_version() & 255, LIBYUV_VERSION);
    printf("| a view to RGBA, beside | channel | differ, of 2^24 | by at most | in range, of 11137500 | by at most | mean |"
           " smallest Y, U, V: ours, and theirs |\n|---|---|---|---|---|---|---|---|\n");
    all_to(our_to, ours);
    for (int k = 0; k < PEERS; k++) {
        MaskCpuFlags(peers[k].mask);
        all_to(peers[k].to, theirs);
        say_rows(true, peers[k].name);
    }
    printf("\n| from RGBA, beside | sample | differ, of 2^24 | by at most | mean | smallest R, G, B: ours, and theirs |\n|---|---|---|---|---|---|\n");
    all_from(our_from, false, ours);
    for (int k = 0; k < PEERS; k++) {
        MaskCpuFlags(peers[k].mask);
        all_from(peers[k].from, false, theirs);
        all_from(peers[k].from, true, again);
        for (size_t i = 0; i < (size_t)3 * TRIPLES; i++)
            neighbours += theirs[i] != again[i];
        say_rows(false, peers[k].name);
    }
    printf("\n%" PRIu64 " samples depend on a colour's neighbours\n", neighbours);
    return neighbours != 0;
}
