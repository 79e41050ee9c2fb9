/* A real stream: both views of a split picture through x264 without loss, the AVC444 payload, and ffmpeg.

   For each size and layout a picture is made of RGBA and split. x264 encodes both views, the library writes the streams into payloads
   (both in one of kind 0; and apart, in one of kind 1 and one of kind 2) and reads them, ffmpeg decodes the H.264 bytes that the reader
   found, and the views go over the rectangles that the reader found onto an earlier picture. That one is the sent picture's complement,
   sample by sample, so that a sample which is not taken cannot pass for one that is. Three ways:

     padded       each view as the split made it, sides rounded up to 16: every sample has to be the picture's
     cropped      each view cut to the picture's size, odd sides rounded up to even, as 4:2:0 has it; x264 fills it up again and sets the
                  stream's crop, so the decoded view is smaller: every sample has to be what the rules takes from a view of that size
     crop unused  each view as the split made it, with the same crop set, and a decoder that is told to leave it: as padded

   Compared are the streams' headers, the parts that come back out of the payloads, the decoded views with those that were encoded, and
   every sample of the three planes, padding included, and every byte of the map of stale colour with the rules' words, said again below.

       real_stream FOLDER               every size; FOLDER is for the files that x264 and ffmpeg read and write
       real_stream FOLDER --self-test   each of the faults below has to be noticed, by the comparisons that it is for

   The last line sums up; the status is 1 if anything differs, 2 if nothing could be compared. */
#include <stdint.h>
#include <stdio.h>
#include <stdlib.h>
#include <string.h>

#include "haythaw.h"
#include "real_codec.h"

enum { CELLS = 6 }; /* rectangles of a list, at most */

static const uint16_t SIZES[][2] = {{1, 1},    {5, 3},     {20, 12},   {33, 17},   {62, 46},
                                    {101, 67}, {250, 130}, {800, 600}, {1366, 768}, {1920, 1080}};

typedef enum { PADDED, CROPPED, UNUSED, WAYS } Way;
static const char *const WAY[WAYS] = {"padded", "cropped", "crop unused"};

/* A picture, its three planes and its map of stale colour. */
typedef struct { uint16_t width, height; size_t stride, rows; uint8_t *at[3], *map; } Picture;

/* What a stream of a payload carries. */
typedef struct { uint16_t rects[4 * CELLS]; size_t numbers; uint8_t pairs[2 * CELLS]; size_t pair_bytes; Bytes data; } Stream;

/* What was compared and what of it was wrong. Of the samples that the lists cover, `lost` are those that the rules does not take from
   views of this size, and `changed` those that are not the picture's in the end, both on one road. width and height: the decoded view's. */
typedef struct { uint64_t compared, wrong; } Count;
typedef struct { Count headers, parts, views, samples, maps; uint64_t lost, changed; uint16_t width, height; } Tally;
static const Tally NOTHING;

/* The faults of the self-test, and which comparisons have to notice. */
enum { HEADERS = 1, PARTS = 2, VIEWS = 4, SAMPLES = 8, MAPS = 16, CROPPED_MAPS = 32 }; /* the last: maps, where the views are cropped */
typedef enum {
    NONE, MAIN_Y, MAIN_U, MAIN_V, AUX_Y, AUX_U, AUX_V, LOSSY, ENCODER_RANGE, DECODER_RANGE, CROP, PAIR, RECT, LAYOUT, PADDING, MAP, FAULTS
} Fault;
static const struct { const char *what; int notice; } FAULT[FAULTS] = {
    {"no fault", 0},
    {"a luma sample of the decoded main view altered", VIEWS | SAMPLES},
    {"a U sample of the decoded main view altered", VIEWS | SAMPLES},
    {"a V sample of the decoded main view altered", VIEWS | SAMPLES},
    {"a luma sample of the decoded auxiliary view altered", VIEWS | SAMPLES},
    {"a U sample of the decoded auxiliary view altered", VIEWS | SAMPLES},
    {"a V sample of the decoded auxiliary view altered", VIEWS | SAMPLES},
    {"x264 with loss (--qp 30)", HEADERS | VIEWS | SAMPLES},
    {"x264 changes the range (--range pc)", VIEWS | SAMPLES},
    {"ffmpeg changes the range (a stream of full range, -pix_fmt yuv420p)", VIEWS | SAMPLES},
    {"16 more columns cropped", HEADERS | VIEWS | SAMPLES | MAPS},
    {"a byte of a pair altered in the payload", PARTS},
    {"a rectangle altered in the payload", PARTS | SAMPLES | MAPS},
    {"the auxiliary view taken as the other layout's", SAMPLES | CROPPED_MAPS},
    {"a sample of the combined picture's padding altered", SAMPLES},
    {"a byte of the map altered, in the padding", MAPS},
};
static Fault fault;

static uint64_t payloads;

static size_t up16(size_t n) { return (n + 15) / 16 * 16; }
static size_t up2(size_t n) { return (n + 1) / 2 * 2; }

static void seen(Count *count, uint64_t compared, uint64_t wrong)
{
    count->compared += compared;
    count->wrong += wrong;
}

/* ---- What x264 and ffmpeg are asked for ---- */

/* Without loss, and with a crop of right columns and bottom rows if there is one. Nothing is said of range or colour. */
static Bytes encoded_view(View v, unsigned right, unsigned bottom)
{
    char options[128];
    int n = snprintf(options, sizeof options, "--qp %d", fault == LOSSY ? 30 : 0);
    if (right || bottom) n += snprintf(options + n, sizeof options - (size_t)n, " --crop-rect 0,0,%u,%u", right, bottom);
    if (fault == ENCODER_RANGE || fault == DECODER_RANGE)
        snprintf(options + n, sizeof options - (size_t)n, "%s --range pc", fault == DECODER_RANGE ? " --input-range pc" : "");
    return encoded(v, options);
}

/* As it is in the stream: no picture format is asked for, so that nothing is converted. */
static View decoded_view(Bytes h264, int leave_crop)
{
    return decoded(h264, leave_crop ? "-apply_cropping 0" : "", fault == DECODER_RANGE ? "-pix_fmt yuv420p" : "");
}

/* Annex B form, High 4:4:4 Predictive with the transform bypass, 4:2:0, whole macroblocks, and a crop that leaves width x height. */
static void headers_compared(Tally *t, Bytes h264, unsigned width, unsigned height)
{
    const Header h = header_of(h264);
    const unsigned is[9] = {h.profile, h.chroma_format, h.bypass, h.width, h.height, h.left, h.right, h.top, h.bottom};
    const unsigned to_be[9] = {244, 1, 1, (unsigned)up16(width), (unsigned)up16(height), 0, (unsigned)up16(width) - width,
                               0,   (unsigned)up16(height) - height};
    for (int i = 0; i < 9; i++) seen(&t->headers, 1, is[i] != to_be[i]);
    seen(&t->headers, 1, haythaw_is_avc_format(h264.at, h264.count));
}

/* ---- The picture and its views ---- */

static uint32_t noise(uint32_t x, uint32_t y, uint32_t k)
{
    uint32_t z = x * 0x9E3779B1u ^ y * 0x85EBCA77u ^ k * 0xC2B2AE3Du;
    z = (z ^ z >> 15) * 0x2C1B3C6Du;
    z = (z ^ z >> 12) * 0x297A2D39u;
    return z ^ z >> 15;
}

/* Squares of 16 pixels in turn: noise, one-pixel columns and one-pixel squares of saturated colours, gradients. The last column and row are
   saturated too: what lies at the picture's edge is what a crop may lose. */
static void pixel(uint16_t width, uint16_t height, uint32_t x, uint32_t y, uint8_t *rgba)
{
    static const uint8_t SATURATED[6][3] = {{255, 0, 0}, {0, 255, 0}, {0, 0, 255}, {0, 255, 255}, {255, 0, 255}, {255, 255, 0}};
    const uint32_t kind = (x / 16 + 2 * (y / 16)) % 4;
    if (x + 1 == width || y + 1 == height) memcpy(rgba, SATURATED[(x + y) % 6], 3);
    else if (kind == 1) memcpy(rgba, SATURATED[x % 6], 3);
    else if (kind == 2) memcpy(rgba, SATURATED[(x + 2 * y + noise(x / 4, y / 4, 3)) % 6], 3);
    else if (kind == 3) rgba[0] = (uint8_t)(255 * x / width), rgba[1] = (uint8_t)(255 * y / height), rgba[2] = (uint8_t)(255 - rgba[0]);
    else rgba[0] = (uint8_t)noise(x, y, 0), rgba[1] = (uint8_t)noise(x, y, 1), rgba[2] = (uint8_t)noise(x, y, 2);
    rgba[3] = 255;
}

static Picture blank(uint16_t width, uint16_t height)
{
    Picture p = {width, height, up16(width), up16(height), {NULL, NULL, NULL}, NULL};
    for (int i = 0; i < 3; i++) p.at[i] = room(p.stride * p.rows);
    p.map = room(p.stride * p.rows / 4);
    return p;
}

static void done(Picture p)
{
    for (int i = 0; i < 3; i++) free(p.at[i]);
    free(p.map);
}

static size_t plane(Picture p) { return p.stride * p.rows; }

#define PLANES(p) (p).width, (p).height, (p).at[0], plane(p), (p).at[1], plane(p), (p).at[2], plane(p)
#define PICTURE(p) PLANES(p), (p).map, plane(p) / 4
#define LENT(v) \
    (v).at, luma_samples(v), (v).at + luma_samples(v), chroma_samples(v), (v).at + luma_samples(v) + chroma_samples(v), chroma_samples(v)

static Picture made(uint16_t width, uint16_t height)
{
    const size_t count = (size_t)width * height * 4;
    uint8_t *rgba = room(count);
    for (uint32_t y = 0; y < height; y++)
        for (uint32_t x = 0; x < width; x++) pixel(width, height, x, y, rgba + 4 * ((size_t)y * width + x));
    Picture p = blank(width, height);
    if (haythaw_from_rgba(rgba, count, PICTURE(p))) stop("from_rgba refuses");
    free(rgba);
    return p;
}

static void split(Picture p, int layout, View *main, View *aux)
{
    const View empty = {(uint16_t)p.stride, (uint16_t)p.rows, NULL};
    *main = *aux = empty;
    main->at = room(samples(empty));
    aux->at = room(samples(empty));
    const haythaw_views v = (layout == 1 ? haythaw_split_v1 : haythaw_split_v2)(PLANES(p), LENT(*main), LENT(*aux));
    if (v.number || v.width != p.stride || v.height != p.rows || v.luma_stride != p.stride || v.chroma_stride != p.stride / 2)
        stop("split refuses, or makes views of another size");
}

/* The first columns and rows of a view; both numbers are even. */
static View cut(View from, uint16_t width, uint16_t height)
{
    View to = {width, height, NULL};
    uint8_t *at = to.at = room(samples(to));
    const uint8_t *row = from.at;
    for (int i = 0; i < 3; i++) {
        const size_t half = i ? 2 : 1;
        for (size_t r = 0; r < from.height / half; r++, row += from.width / half)
            if (r < height / half) memcpy(at, row, width / half), at += width / half;
    }
    return to;
}

/* ---- Payloads ---- */

/* Rectangles that cover the picture, columns x rows of them, with edges where they fall, odd ones too; and pairs of any bytes. */
static Stream stream(Picture p, unsigned columns, unsigned rows, Bytes h264)
{
    Stream s = {{0}, 4 * (size_t)columns * rows, {0}, 2 * (size_t)columns * rows, h264};
    for (unsigned i = 0; i < columns * rows; i++) {
        const unsigned c = i % columns, r = i / columns;
        s.rects[4 * i] = (uint16_t)(p.width * c / columns);
        s.rects[4 * i + 1] = (uint16_t)(p.height * r / rows);
        s.rects[4 * i + 2] = (uint16_t)(p.width * (c + 1) / columns);
        s.rects[4 * i + 3] = (uint16_t)(p.height * (r + 1) / rows);
        s.pairs[2 * i] = (uint8_t)noise(i, columns, rows);
        s.pairs[2 * i + 1] = (uint8_t)noise(i, columns, rows + 1);
    }
    return s;
}

static size_t bytes_of(const Stream *s) { return s ? 4 + 2 * s->numbers + s->pair_bytes + s->data.count : 0; }

/* A payload of the streams that there are. */
static Bytes written(const Stream *luma, const Stream *chroma)
{
    static const Stream none;
    const uint32_t kind = !chroma ? 1 : !luma ? 2 : 0;
    Bytes payload = {NULL, 4 + bytes_of(luma) + bytes_of(chroma)};
    payload.at = room(payload.count);
    const Stream *l = luma ? luma : &none, *c = chroma ? chroma : &none;
    const haythaw_answer answer =
        haythaw_avc444_write(kind, l->rects, l->numbers, l->pairs, l->pair_bytes, l->data.at, l->data.count, c->rects, c->numbers, c->pairs,
                             c->pair_bytes, c->data.at, c->data.count, payload.at, payload.count);
    if (answer.number || answer.count != payload.count) stop("the writer refuses, or its count is wrong");
    payloads++;
    return payload;
}

/* The parts of a stream that was read, and where they differ from what was sent. The H.264 bytes are the payload's own. */
static Stream taken_out(Tally *t, Bytes payload, haythaw_stream at, const Stream *sent, haythaw_answer copied, const uint16_t *rects)
{
    Stream s = {{0}, copied.count, {0}, 2 * at.count, {payload.at + at.data, at.length}};
    if (copied.number || at.count > CELLS || copied.count != 4 * at.count) stop("the reader answers rectangles that do not fit its count");
    memcpy(s.rects, rects, copied.count * sizeof *rects);
    memcpy(s.pairs, payload.at + at.pairs, s.pair_bytes);
    seen(&t->parts, 1, s.numbers != sent->numbers || s.data.count != sent->data.count);
    for (size_t i = 0; i < s.numbers && i < sent->numbers; i++) {
        const uint8_t *number = payload.at + at.rects + 2 * i;
        seen(&t->parts, 1, s.rects[i] != sent->rects[i]);
        seen(&t->parts, 2, (uint64_t)(number[0] != sent->rects[i] % 256) + (number[1] != sent->rects[i] / 256));
    }
    for (size_t i = 0; i < s.pair_bytes && i < sent->pair_bytes; i++) seen(&t->parts, 1, s.pairs[i] != sent->pairs[i]);
    for (size_t i = 0; i < s.data.count && i < sent->data.count; i++) seen(&t->parts, 1, s.data.at[i] != sent->data.at[i]);
    return s;
}

/* Reads a payload; what it carries goes to luma and chroma, and is compared with what was sent. */
static void read_back(Tally *t, Bytes payload, const Stream *luma_sent, const Stream *chroma_sent, Stream *luma, Stream *chroma)
{
    uint16_t rects[4 * CELLS];
    if (fault == PAIR || fault == RECT) { /* the last of the first stream's pairs; the right edge of its last rectangle */
        const haythaw_avc444 whole = haythaw_avc444_read(payload.at, payload.count);
        const haythaw_stream first = whole.kind == 2 ? whole.chroma : whole.luma;
        payload.at[fault == PAIR ? first.data - 1 : first.pairs - 4] ^= 1;
    }
    const haythaw_avc444 read = haythaw_avc444_read(payload.at, payload.count);
    if (read.number) stop("the reader refuses");
    seen(&t->parts, 1, read.kind != (!chroma_sent ? 1u : !luma_sent ? 2u : 0u));
    if (luma_sent) {
        const haythaw_answer copied = haythaw_avc444_luma_rects(payload.at, payload.count, rects, 4 * CELLS);
        *luma = taken_out(t, payload, read.luma, luma_sent, copied, rects);
    }
    if (chroma_sent) {
        const haythaw_answer copied = haythaw_avc444_chroma_rects(payload.at, payload.count, rects, 4 * CELLS);
        *chroma = taken_out(t, payload, read.chroma, chroma_sent, copied, rects);
    }
}

/* ---- What has to be ---- */

/* Whether the rules takes the chroma sample at (row, col) from an auxiliary view of vw x vh. */
static int from_auxiliary(int layout, size_t vw, size_t vh, size_t row, size_t col)
{
    const size_t chroma_width = (vw + 1) / 2, chroma_height = (vh + 1) / 2, w = up16(vw);
    if (layout == 1) { /* an odd row from luma rows n and n + 8; odd columns of an even row from U and V */
        const size_t n = row - row % 16 + row % 16 / 2;
        if (row % 2) return n < vh && n + 8 < vh && col < vw;
        return col % 2 && row / 2 < chroma_height && col / 2 < chroma_width;
    }
    /* odd columns from both halves of a luma row; even columns of odd rows from both halves of a U or V row */
    if (col % 2) return row < vh && col / 2 < vw && w / 2 + col / 2 < vw;
    return row % 2 && row / 2 < chroma_height && col / 4 < chroma_width && w / 4 + col / 4 < chroma_width;
}

/* Every sample of the planes after both views of vw x vh over lists that cover the picture: luma and the even-even chroma are the
   picture's, the other chroma too where the auxiliary view has it, else its block's even-even one, which the main view left; what lies
   outside is as before. The picture's samples in the widened area that are not taken are the lost ones. With `all` none may be. */
static void samples_compared(Tally *t, int layout, Picture sent, Picture earlier, Picture now, size_t vw, size_t vh, int all)
{
    t->lost = t->changed = 0;
    for (int i = 0; i < 3; i++)
        for (size_t row = 0; row < sent.rows; row++)
            for (size_t col = 0; col < sent.stride; col++) {
                const size_t at = row * sent.stride + col, even = row / 2 * 2 * sent.stride + col / 2 * 2;
                const int inside = i ? row < up2(sent.height) && col < up2(sent.width) : row < sent.height && col < sent.width;
                const int main = inside && row < vh && col < vw;
                const int own = main && (i == 0 || at == even || from_auxiliary(layout, vw, vh, row, col));
                const uint8_t to_be = own || (all && inside) ? sent.at[i][at] : main ? sent.at[i][even] : earlier.at[i][at];
                seen(&t->samples, 1, now.at[i][at] != to_be);
                t->lost += inside && !own;
                t->changed += inside && now.at[i][at] != sent.at[i][at];
            }
}

/* Every byte of the map, which was 0, after the same: 1 where the main view has any place of a block that the lists cover, and 2 where the
   auxiliary view has the three others as well. With `all` it is 2 in every such block. */
static void maps_compared(Tally *t, int layout, Picture now, size_t vw, size_t vh, int all)
{
    for (size_t k = 0; k < plane(now) / 4; k++) {
        const size_t row = k / (now.stride / 2) * 2, col = k % (now.stride / 2) * 2;
        const int inside = row < up2(now.height) && col < up2(now.width), main = inside && row < vh && col < vw;
        const int others = from_auxiliary(layout, vw, vh, row, col + 1) && from_auxiliary(layout, vw, vh, row + 1, col)
                           && from_auxiliary(layout, vw, vh, row + 1, col + 1);
        seen(&t->maps, 1, now.map[k] != (all && inside ? 2 : main + (main && others)));
    }
}

static void views_compared(Tally *t, View sent, View got)
{
    t->width = got.width, t->height = got.height;
    if (got.width != sent.width || got.height != sent.height) {
        seen(&t->views, samples(sent), samples(sent));
        return;
    }
    for (size_t i = 0; i < samples(sent); i++) seen(&t->views, 1, got.at[i] != sent.at[i]);
}

/* ---- A case: a picture, a layout, a way ---- */

typedef uint32_t Apply(uint16_t, uint16_t, uint8_t *, size_t, uint8_t *, size_t, uint8_t *, size_t, uint8_t *, size_t, const uint16_t *,
                       size_t, uint16_t, uint16_t, size_t, size_t, const uint8_t *, size_t, const uint8_t *, size_t, const uint8_t *, size_t);

/* The stream's H.264 bytes decoded, compared with the view that was encoded, and applied to the picture. */
static void shown(Tally *t, Apply *apply, Picture onto, const Stream *s, View sent, int leave_crop, Fault first)
{
    View v = decoded_view(s->data, leave_crop);
    if (fault >= first && fault < first + 3) v.at[fault == first ? 0 : luma_samples(v) + (fault > first + 1 ? chroma_samples(v) : 0)] ^= 1;
    views_compared(t, sent, v);
    if (apply(PICTURE(onto), s->rects, s->numbers, v.width, v.height, v.width, (size_t)(v.width + 1) / 2, LENT(v))) stop("apply refuses");
    free(v.at);
}

/* One road: the streams in one payload, or in two. */
static void road(Tally *t, Picture sent, int layout, Way way, const View view[2], const Stream *luma, const Stream *chroma, int apart)
{
    Apply *auxiliary = (layout == 1) == (fault != LAYOUT) ? haythaw_apply_auxiliary_v1 : haythaw_apply_auxiliary_v2;
    Picture earlier = blank(sent.width, sent.height), now = blank(sent.width, sent.height);
    Stream got[2];
    Bytes payload[2] = {written(luma, apart ? NULL : chroma), {NULL, 0}};
    read_back(t, payload[0], luma, apart ? NULL : chroma, &got[0], &got[1]);
    if (apart) {
        payload[1] = written(NULL, chroma);
        read_back(t, payload[1], NULL, chroma, &got[0], &got[1]);
    }
    for (int i = 0; i < 3; i++)
        for (size_t at = 0; at < plane(sent); at++) earlier.at[i][at] = now.at[i][at] = (uint8_t)~sent.at[i][at];
    memset(now.map, 0, plane(now) / 4);
    shown(t, haythaw_apply_main_view, now, &got[0], view[0], way == UNUSED, MAIN_Y);
    shown(t, auxiliary, now, &got[1], view[1], way == UNUSED, AUX_Y);
    if (fault == PADDING) now.at[2][plane(now) - 1] ^= 1;
    if (fault == MAP) now.map[plane(now) / 4 - 1] ^= 1;
    samples_compared(t, layout, sent, earlier, now, view[0].width, view[0].height, way != CROPPED);
    maps_compared(t, layout, now, view[0].width, view[0].height, way != CROPPED);
    done(earlier), done(now);
    free(payload[0].at), free(payload[1].at);
}

static Tally through(uint16_t width, uint16_t height, int layout, Way way, size_t h264[2])
{
    Tally t = NOTHING;
    Picture sent = made(width, height);
    View whole[2], view[2];
    Bytes bytes[2];
    split(sent, layout, &whole[0], &whole[1]);
    const uint16_t even[2] = {(uint16_t)up2(width), (uint16_t)up2(height)}; /* what a crop leaves */
    for (int i = 0; i < 2; i++) {
        view[i] = way == CROPPED ? cut(whole[i], even[0], even[1]) : whole[i];
        const unsigned right = way == UNUSED ? whole[i].width - even[0] : 0, bottom = way == UNUSED ? whole[i].height - even[1] : 0;
        bytes[i] = encoded_view(view[i], right + (fault == CROP ? 16 : 0), bottom);
        headers_compared(&t, bytes[i], view[i].width - right, view[i].height - bottom);
        h264[i] = bytes[i].count;
    }
    Stream luma = stream(sent, 3, 2, bytes[0]), chroma = stream(sent, 2, 3, bytes[1]);
    road(&t, sent, layout, way, view, &luma, &chroma, 0);
    luma = stream(sent, 1, 1, bytes[0]), chroma = stream(sent, 1, 5, bytes[1]);
    road(&t, sent, layout, way, view, &luma, &chroma, 1);
    for (int i = 0; i < 2; i++) {
        if (way == CROPPED) free(view[i].at);
        free(whole[i].at), free(bytes[i].at);
    }
    done(sent);
    return t;
}

static int noticed(const Tally *t)
{
    return (t->headers.wrong ? HEADERS : 0) | (t->parts.wrong ? PARTS : 0) | (t->views.wrong ? VIEWS : 0)
           | (t->samples.wrong ? SAMPLES : 0) | (t->maps.wrong ? MAPS : 0);
}

static int to_notice(int f, int way)
{
    const int notice = FAULT[f].notice;
    return notice & CROPPED_MAPS ? (notice ^ CROPPED_MAPS) | (way == CROPPED ? MAPS : 0) : notice;
}

/* Each fault is noticed by the comparisons that it is for, and by no other; without a fault none notices anything. */
static int self_test(void)
{
    size_t h264[2];
    for (int f = NONE; f < FAULTS; f++)
        for (int layout = 1; layout <= 2; layout++)
            for (int way = PADDED; way <= CROPPED; way++) {
                fault = (Fault)f;
                const Tally t = through(33, 17, layout, (Way)way, h264);
                if (noticed(&t) == to_notice(f, way)) continue;
                printf("real stream: V%d, %s: %s: %llu headers, %llu parts, %llu view samples, %llu picture samples, %llu bytes of maps wrong\n",
                       layout, WAY[way], FAULT[f].what, (unsigned long long)t.headers.wrong, (unsigned long long)t.parts.wrong,
                       (unsigned long long)t.views.wrong, (unsigned long long)t.samples.wrong, (unsigned long long)t.maps.wrong);
                return 1;
            }
    printf("real stream: %d faults are noticed in both layouts, padded and cropped, each by the comparisons that it is for\n", FAULTS - 1);
    return 0;
}

static void add(Count *to, Count from) { seen(to, from.compared, from.wrong); }

int main(int argc, char **argv)
{
    const int testing = argc == 3 && !strcmp(argv[2], "--self-test");
    if (argc < 2 || argc > 3 || (argc == 3 && !testing)) stop("usage: real_stream FOLDER [--self-test]");
    folder = argv[1];
    if (testing) return self_test();

    const int sizes = sizeof SIZES / sizeof *SIZES;
    Tally sum = NOTHING;
    uint64_t lost[2] = {0, 0}, changed[2] = {0, 0}, covered = 0;
    printf("%-9s %-6s %-11s %-9s %19s  %15s  %15s\n", "", "", "", "", "H.264 bytes", "view samples", "picture samples");
    printf("%-9s %-6s %-11s %-9s %9s %9s  %8s %6s  %8s %6s  %5s %7s\n", "picture", "layout", "way", "decoded", "main", "auxiliary",
           "compared", "differ", "compared", "differ", "lost", "changed");
    for (int i = 0; i < sizes; i++) {
        const uint16_t width = SIZES[i][0], height = SIZES[i][1];
        covered += (uint64_t)width * height + 2 * up2(width) * up2(height);
        for (int layout = 1; layout <= 2; layout++)
            for (int way = PADDED; way < WAYS; way++) {
                size_t h264[2];
                const Tally t = through(width, height, layout, (Way)way, h264);
                char picture[16], view[16];
                snprintf(picture, sizeof picture, "%ux%u", width, height);
                snprintf(view, sizeof view, "%ux%u", t.width, t.height);
                printf("%-9s V%d     %-11s %-9s %9zu %9zu  %8llu %6llu  %8llu %6llu  %5llu %7llu\n", picture, layout, WAY[way], view,
                       h264[0], h264[1], (unsigned long long)t.views.compared, (unsigned long long)t.views.wrong,
                       (unsigned long long)t.samples.compared, (unsigned long long)t.samples.wrong, (unsigned long long)t.lost,
                       (unsigned long long)t.changed);
                fflush(stdout);
                add(&sum.headers, t.headers), add(&sum.parts, t.parts), add(&sum.views, t.views), add(&sum.samples, t.samples);
                add(&sum.maps, t.maps);
                if (way == CROPPED) lost[layout - 1] += t.lost, changed[layout - 1] += t.changed;
            }
    }
    const uint64_t around = sum.headers.wrong + sum.parts.wrong, inside = sum.views.wrong + sum.samples.wrong;
    printf("real stream: %llu payloads: %llu fields of headers, %llu bytes and numbers of parts compared, %llu differ\n",
           (unsigned long long)payloads, (unsigned long long)sum.headers.compared, (unsigned long long)sum.parts.compared,
           (unsigned long long)around);
    printf("real stream: %llu bytes of maps compared, %llu differ\n", (unsigned long long)sum.maps.compared, (unsigned long long)sum.maps.wrong);
    printf("real stream: %d sizes: %llu view samples, %llu picture samples compared, %llu differ; of %llu samples a crop loses %llu in V1 "
           "(%llu changed), %llu in V2 (%llu changed)\n",
           sizes, (unsigned long long)sum.views.compared, (unsigned long long)sum.samples.compared, (unsigned long long)inside,
           (unsigned long long)covered, (unsigned long long)lost[0], (unsigned long long)changed[0], (unsigned long long)lost[1],
           (unsigned long long)changed[1]);
    return around + inside + sum.maps.wrong != 0;
}
