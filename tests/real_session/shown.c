/* A recorded session through the library: `shown RULE NAME.rdpgfx CODED_WIDTH CODED_HEIGHT VIEW_WIDTH VIEW_HEIGHT`, with the decoded views on standard
 * input as NAME.views has them. The payloads are read, the views that they carry are applied over the rectangles that they carry, and after each payload
 * the whole picture goes to standard output, R, G, B.
 *
 * RULE is v1; or, for V2, 16, 32 or exact: how W comes of the width. VIEW_WIDTH and VIEW_HEIGHT are what the library is told of a view: the coded
 * size, or less of it, as by a decoder that crops. */
#include <haythaw.h>
#include <stdio.h>
#include <stdlib.h>
#include <string.h>

enum { CREATE_SURFACE = 9, WIRE_TO_SURFACE = 1, AVC444 = 14, AVC444V2 = 15, PAYLOAD = 25 };

typedef uint32_t Apply(uint16_t, uint16_t, uint8_t *, size_t, uint8_t *, size_t, uint8_t *, size_t, uint8_t *, size_t, const uint16_t *, size_t, uint16_t,
                       uint16_t, size_t, size_t, const uint8_t *, size_t, const uint8_t *, size_t, const uint8_t *, size_t);
typedef haythaw_answer Rects(const uint8_t *, size_t, uint16_t *, size_t);

static struct { uint16_t width, height; size_t plane, blocks; uint8_t *y, *u, *v, *map; } picture;
static struct { uint16_t width, height; size_t luma_stride, chroma_stride, luma, chroma; uint8_t *at; } view;
static Apply *auxiliary;

#define PICTURE \
    picture.width, picture.height, picture.y, picture.plane, picture.u, picture.plane, picture.v, picture.plane, picture.map, picture.blocks

static void stop(const char *what)
{
    fprintf(stderr, "shown: %s\n", what);
    exit(2);
}

static void *room(size_t count)
{
    void *at = malloc(count ? count : 1);
    if (!at) stop("no memory");
    return at;
}

static void create(uint16_t width, uint16_t height)
{
    picture.width = width, picture.height = height, picture.plane = haythaw_allocation_size(width, height) / 3;
    picture.y = room(3 * picture.plane), picture.u = picture.y + picture.plane, picture.v = picture.u + picture.plane;
    picture.blocks = haythaw_map_size(width, height), picture.map = room(picture.blocks);
    if (haythaw_new(PICTURE)) stop("a new picture is refused");
}

/* The next view of standard input, over the rectangles of its stream. */
static void apply(Apply *call, Rects *rects_of, const uint8_t *payload, size_t payload_count, size_t rects)
{
    uint16_t *list = room(4 * rects * sizeof *list);
    const haythaw_answer copied = rects_of(payload, payload_count, list, 4 * rects);
    const uint8_t *u = view.at + view.luma, *v = u + view.chroma;
    if (copied.number) stop("the rectangles are refused");
    if (fread(view.at, 1, view.luma + 2 * view.chroma, stdin) != view.luma + 2 * view.chroma) stop("there are fewer views than streams");
    if (call(PICTURE, list, copied.count, view.width, view.height, view.luma_stride, view.chroma_stride, view.at, view.luma, u, view.chroma, v, view.chroma))
        stop("a view is refused");
    free(list);
}

static void show(void)
{
    const size_t pixels = (size_t)picture.width * picture.height;
    uint8_t *rgba = room(4 * pixels), *rgb = rgba; /* squeezed in place */
    if (haythaw_to_rgba(PICTURE, 0, 0, picture.width, picture.height, rgba, 4 * pixels).number) stop("RGBA is refused");
    for (size_t i = 0; i < pixels; i++) memmove(rgb + 3 * i, rgba + 4 * i, 3);
    if (fwrite(rgb, 3, pixels, stdout) != pixels) stop("standard output cannot be written");
    free(rgba);
}

static void payload(const uint8_t *at, size_t count)
{
    const haythaw_avc444 read = haythaw_avc444_read(at, count);
    if (read.number) stop("a payload is refused");
    if (read.kind != 2) apply(haythaw_apply_main_view, haythaw_avc444_luma_rects, at, count, read.luma.count);
    if (read.kind != 1) apply(auxiliary, haythaw_avc444_chroma_rects, at, count, read.chroma.count);
    show();
}

static size_t number(const uint8_t *at, int bytes)
{
    size_t value = 0;
    while (bytes--) value = value << 8 | at[bytes];
    return value;
}

static void pdus(const uint8_t *at, size_t count)
{
    for (size_t length; count; at += length, count -= length) {
        if (count < 8 || (length = number(at + 4, 4)) < 8 || length > count) stop("a PDU's length");
        const size_t command = number(at, 2), codec = length > PAYLOAD ? number(at + 10, 2) : 0;
        if (command == CREATE_SURFACE) create((uint16_t)number(at + 10, 2), (uint16_t)number(at + 12, 2));
        if (command == WIRE_TO_SURFACE && (codec == AVC444 || codec == AVC444V2)) payload(at + PAYLOAD, length - PAYLOAD);
    }
}

static Apply *by_rule(const char *rule)
{
    if (!strcmp(rule, "v1")) return haythaw_apply_auxiliary_v1;
    if (!strcmp(rule, "16")) return haythaw_apply_auxiliary_v2;
    if (!strcmp(rule, "32")) return haythaw_apply_auxiliary_v2_32;
    if (!strcmp(rule, "exact")) return haythaw_apply_auxiliary_v2_exact;
    stop("RULE is v1, 16, 32 or exact");
    return NULL;
}

int main(int argc, char **argv)
{
    if (argc != 7) stop("usage: shown RULE NAME.rdpgfx CODED_WIDTH CODED_HEIGHT VIEW_WIDTH VIEW_HEIGHT");
    const size_t width = strtoul(argv[3], NULL, 10), height = strtoul(argv[4], NULL, 10);
    auxiliary = by_rule(argv[1]);
    view.width = (uint16_t)strtoul(argv[5], NULL, 10), view.height = (uint16_t)strtoul(argv[6], NULL, 10);
    view.luma_stride = width, view.chroma_stride = width / 2, view.luma = width * height, view.chroma = view.luma / 4;
    view.at = room(view.luma + 2 * view.chroma);
    FILE *file = fopen(argv[2], "rb");
    if (!file || fseek(file, 0, SEEK_END)) stop(argv[2]);
    const long count = ftell(file);
    uint8_t *bytes = room(count > 0 ? (size_t)count : 0);
    rewind(file);
    if (count < 0 || fread(bytes, 1, (size_t)count, file) != (size_t)count) stop(argv[2]);
    pdus(bytes, (size_t)count);
    if (getchar() != EOF) stop("there are more views than streams");
    return 0;
}
