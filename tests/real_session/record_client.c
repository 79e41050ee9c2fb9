/* Preloaded into xfreerdp: what it receives, what it takes out of it, and what it makes of it.
 *
 *   .rdpgfx        the RDPGFX PDUs after ZGFX, one after another
 *   .freerdp.txt   a line for each payload that was parsed, each call of the decoder, each frame of libavcodec, each call of the combiner, and the
 *                  4:4:4 planes after the call
 *   .views         each decoded view to its coded size, Y, U, V
 *   .planes        FreeRDP's 4:4:4 planes after each payload, cut to the surface's size, Y, U, V
 *   .client        the surface that it shows after each payload, R, G, B
 *
 * The client handles one PDU after another on one thread, so nothing here is locked. */
#include "record.h"
#include <freerdp/codec/h264.h>
#include <freerdp/codec/zgfx.h>
#include <freerdp/gdi/gfx.h>
#include <freerdp/primitives.h>
#include <libavcodec/avcodec.h>

static struct { UINT32 width, height; } surface; /* as the server made it; FreeRDP's own is rounded up to 16 */
static int decoding;                             /* within avc444_decompress: frames of other decoders are not noted */

static FILE *text(void)
{
    static FILE *file;
    if (!file) file = made("freerdp.txt");
    return file;
}

/* ---- The PDUs ---- */

enum { HEADER = 8, CREATE_SURFACE = 9, RESET_GRAPHICS = 14 };

static UINT32 number(const BYTE *at, int bytes)
{
    UINT32 value = 0;
    while (bytes--) value = value << 8 | at[bytes];
    return value;
}

/* Behind its monitors, of 20 bytes each, RESETGRAPHICS has padding, in which the server leaves what was in its memory: zeros are noted. */
static void put_pdu(FILE *file, const BYTE *pdu, UINT32 length)
{
    const UINT32 command = number(pdu, 2);
    UINT32 kept = length;
    if (command == CREATE_SURFACE && length >= 14) surface.width = number(pdu + 10, 2), surface.height = number(pdu + 12, 2);
    if (command == RESET_GRAPHICS && length >= 20) kept = HEADER + 12 + 20 * number(pdu + 16, 4);
    if (kept > length) kept = length;
    put(file, pdu, kept);
    while (kept++ < length) put(file, "", 1);
}

int zgfx_decompress(ZGFX_CONTEXT *zgfx, const BYTE *from, UINT32 from_count, BYTE **to, UINT32 *to_count, UINT32 flags)
{
    static FILE *file;
    const int status = THEIRS(zgfx_decompress)(zgfx, from, from_count, to, to_count, flags);
    if (!file) file = made("rdpgfx");
    for (UINT32 at = 0, length; status >= 0 && at + HEADER <= *to_count; at += length) {
        length = number(*to + at + 4, 4);
        if (length < HEADER || length > *to_count - at) stop("a PDU's length");
        put_pdu(file, *to + at, length);
    }
    put_down(file);
    return status;
}

/* ---- What the client's parser took out of a payload ---- */

/* FNV-1a with 1469598103934665603 to start from, as the stored recordings have it. */
static unsigned long long hash(const BYTE *at, UINT32 count)
{
    unsigned long long value = 1469598103934665603ULL;
    while (count--) value = (value ^ *at++) * 1099511628211ULL;
    return value;
}

static void say_rects(const RECTANGLE_16 *rects, UINT32 count)
{
    for (UINT32 i = 0; i < count; i++)
        fprintf(text(), "%s%u,%u,%u,%u", i ? ";" : "", rects[i].left, rects[i].top, rects[i].right, rects[i].bottom);
}

static void say_pairs(const RDPGFX_H264_QUANT_QUALITY *pairs, UINT32 count)
{
    for (UINT32 i = 0; i < count; i++)
        fprintf(text(), "%s%u,%u,%u,%u", i ? ";" : "", pairs[i].qp, pairs[i].r, pairs[i].p, pairs[i].qualityVal);
}

static void say_stream(int i, const RDPGFX_AVC420_BITMAP_STREAM *stream, const BYTE *payload)
{
    const UINT32 count = stream->meta.numRegionRects;
    fprintf(text(), " n%d=%u r%d=", i, count, i);
    say_rects(stream->meta.regionRects, count);
    fprintf(text(), " q%d=", i);
    say_pairs(stream->meta.quantQualityVals, count);
    fprintf(text(), " d%d=%td:%u:%016llx", i, stream->data ? stream->data - payload : -1, stream->length,
            stream->data ? hash(stream->data, stream->length) : 0);
}

static pcRdpgfxSurfaceCommand surface_command;

static UINT parsed(RdpgfxClientContext *context, const RDPGFX_SURFACE_COMMAND *command)
{
    if (command->codecId == RDPGFX_CODECID_AVC444 || command->codecId == RDPGFX_CODECID_AVC444v2) {
        const RDPGFX_AVC444_BITMAP_STREAM *both = command->extra;
        fprintf(text(), "parsed surface=%u codec=%u dest=%u,%u,%u,%u length=%u cb=%u lc=%u", command->surfaceId, command->codecId, command->left,
                command->top, command->right, command->bottom, command->length, both->cbAvc420EncodedBitstream1, both->LC);
        say_stream(0, &both->bitstream[0], command->data);
        say_stream(1, &both->bitstream[1], command->data);
        fprintf(text(), "\n");
    }
    return surface_command(context, command);
}

/* Here the client learns what to call for a payload that was parsed. */
BOOL gdi_graphics_pipeline_init(rdpGdi *gdi, RdpgfxClientContext *gfx)
{
    const BOOL done = THEIRS(gdi_graphics_pipeline_init)(gdi, gfx);
    surface_command = gfx->SurfaceCommand;
    gfx->SurfaceCommand = parsed;
    return done;
}

/* ---- Decoder and combiner ---- */

static void put_rows(FILE *file, const uint8_t *at, size_t stride, size_t width, size_t rows)
{
    for (size_t row = 0; row < rows; row++) put(file, at + row * stride, width);
}

static void put_planes(const H264_CONTEXT *h264, INT32 status)
{
    static FILE *file;
    const UINT32 *stride = h264->iYUV444Stride;
    if (!file) file = made("planes");
    for (int i = 0; i < 3; i++) put_rows(file, h264->pYUV444Data[i], stride[i], surface.width, surface.height);
    put_down(file);
    fprintf(text(), "planes status=%d stride=%u,%u,%u rows=%u\n", status, stride[0], stride[1], stride[2], h264->iYUV444Size[0] / stride[0]);
    put_down(text());
}

static void put_client(const BYTE *at, UINT32 step)
{
    static FILE *file;
    if (!file) file = made("client");
    put_rgb(file, at, step, surface.width, surface.height);
    put_down(file);
}

INT32 avc444_decompress(H264_CONTEXT *h264, BYTE op, RECTANGLE_16 *rects, UINT32 rects_count, const BYTE *data, UINT32 data_count,
                        RECTANGLE_16 *aux_rects, UINT32 aux_rects_count, const BYTE *aux_data, UINT32 aux_data_count, BYTE *to, DWORD format,
                        UINT32 step, UINT32 width, UINT32 height, UINT32 codec)
{
    fprintf(text(), "decompress op=%u codec=%u w=%u h=%u fmt=%u step=%u luma=%u:%016llx chroma=%u:%016llx nl=%u nc=%u lr=", op, codec, width, height,
            format, step, data_count, hash(data, data_count), aux_data_count, hash(aux_data, aux_data_count), rects_count, aux_rects_count);
    say_rects(rects, rects_count);
    fprintf(text(), " cr=");
    say_rects(aux_rects, aux_rects_count);
    fprintf(text(), "\n");
    decoding = 1;
    const INT32 status = THEIRS(avc444_decompress)(h264, op, rects, rects_count, data, data_count, aux_rects, aux_rects_count, aux_data,
                                                   aux_data_count, to, format, step, width, height, codec);
    decoding = 0;
    put_client(to, step);
    put_planes(h264, status);
    return status;
}

/* libavcodec cuts the frame to the stream's crop, and its rows still have what was cut off. */
static void put_view(const AVCodecContext *codec, const AVFrame *frame)
{
    static FILE *file;
    const int width = codec->coded_width, height = codec->coded_height, *stride = frame->linesize;
    if (!file) file = made("views");
    if (stride[0] < width || stride[1] < width / 2 || stride[2] < width / 2 || width % 16 || height % 16) stop("a frame's coded size");
    for (int i = 0; i < 3; i++) put_rows(file, frame->data[i], stride[i], i ? width / 2 : width, i ? height / 2 : height);
    put_down(file);
    fprintf(text(),
            "frame w=%d h=%d coded=%dx%d format=%d range=%d type=%c pts_order=%d profile=%d stride=%d,%d,%d crop=%zu,%zu,%zu,%zu kept=%dx%d\n",
            frame->width, frame->height, width, height, frame->format, frame->color_range, "?IPBSipb"[frame->pict_type & 7], codec->has_b_frames,
            codec->profile, stride[0], stride[1], stride[2], frame->crop_left, frame->crop_top, frame->crop_right, frame->crop_bottom, width, height);
}

int avcodec_receive_frame(AVCodecContext *codec, AVFrame *frame)
{
    const int status = THEIRS(avcodec_receive_frame)(codec, frame);
    if (status == 0 && decoding) put_view(codec, frame);
    return status;
}

static __YUV420CombineToYUV444_t combine;

static pstatus_t combined(avc444_frame_type type, const BYTE *const from[3], const UINT32 from_step[3], UINT32 width, UINT32 height, BYTE *to[3],
                          const UINT32 to_step[3], const RECTANGLE_16 *rect)
{
    const pstatus_t status = combine(type, from, from_step, width, height, to, to_step, rect);
    fprintf(text(), "combine type=%d w=%u h=%u sstride=%u,%u,%u dstride=%u,%u,%u status=%d roi=%u,%u,%u,%u\n", (int)type, width, height, from_step[0],
            from_step[1], from_step[2], to_step[0], to_step[1], to_step[2], status, rect->left, rect->top, rect->right, rect->bottom);
    return status;
}

/* FreeRDP finds its combiner in a table; ours goes into the table that it has. */
primitives_t *primitives_get(void)
{
    primitives_t *table = THEIRS(primitives_get)();
    if (table->YUV420CombineToYUV444 != combined) {
        combine = table->YUV420CombineToYUV444;
        table->YUV420CombineToYUV444 = combined;
    }
    return table;
}
