/* How many of a session's views come out of libavcodec as they were recorded, with one decoder for both views and with one for each:
 * `decoders NAME.rdpgfx CODED_WIDTH CODED_HEIGHT`, with NAME.views on standard input. A line for one decoder and a line for two: of the main views, then
 * of the auxiliary views, how many are as recorded, how many differ, how many do not come out. */
#include <haythaw.h>
#include <libavcodec/avcodec.h>
#include <stdio.h>
#include <stdlib.h>
#include <string.h>

enum { WIRE_TO_SURFACE = 1, PAYLOAD = 25 };
enum { SAME, OTHER, NONE, ENDS };

typedef struct { uint8_t *at; size_t count; } Bytes;

static Bytes session, views;
static AVFrame *frame;

static void stop(const char *what)
{
    fprintf(stderr, "decoders: %s\n", what);
    exit(2);
}

static Bytes loaded(FILE *file)
{
    Bytes bytes = {NULL, 0};
    size_t room = 0;
    if (!file) stop("a file cannot be read");
    do {
        room = 2 * room + 65536;
        bytes.at = realloc(bytes.at, room);
        if (!bytes.at) stop("no memory");
        bytes.count += fread(bytes.at + bytes.count, 1, room - bytes.count, file);
    } while (bytes.count == room);
    return bytes;
}

static AVCodecContext *decoder(void)
{
    const AVCodec *codec = avcodec_find_decoder(AV_CODEC_ID_H264);
    AVCodecContext *context = codec ? avcodec_alloc_context3(codec) : NULL;
    if (!context) stop("no decoder for H.264");
    context->flags |= AV_CODEC_FLAG_LOW_DELAY; /* each packet is a whole picture, which is to come out at once */
    context->thread_count = 1;
    if (avcodec_open2(context, codec, NULL)) stop("the decoder does not open");
    return context;
}

/* A frame beside a recorded view, to its coded size. */
static int same(const AVCodecContext *context, const uint8_t *view)
{
    for (int i = 0; i < 3; i++) {
        const size_t width = (size_t)context->coded_width >> !!i, rows = (size_t)context->coded_height >> !!i;
        for (size_t row = 0; row < rows; row++, view += width)
            if (memcmp(frame->data[i] + row * (size_t)frame->linesize[i], view, width)) return 0;
    }
    return 1;
}

static int end_of(AVCodecContext *context, const uint8_t *h264, size_t count, const uint8_t *view)
{
    AVPacket *packet = av_packet_alloc();
    if (!packet || av_new_packet(packet, (int)count)) stop("no memory");
    memcpy(packet->data, h264, count);
    const int out = !avcodec_send_packet(context, packet) && !avcodec_receive_frame(context, frame);
    av_packet_free(&packet);
    return !out ? NONE : same(context, view) ? SAME : OTHER;
}

static size_t number(const uint8_t *at) { return at[0] | at[1] << 8 | at[2] << 16 | (size_t)at[3] << 24; }

/* The whole session, each view by its decoder. `view_count` is the bytes of a view. */
static void decoded(AVCodecContext *of_main, AVCodecContext *of_auxiliary, size_t view_count)
{
    unsigned ends[2][ENDS] = {{0}};
    const uint8_t *view = views.at;
    for (size_t at = 0; at < session.count; at += number(session.at + at + 4)) {
        const uint8_t *pdu = session.at + at, *payload = pdu + PAYLOAD;
        if (pdu[0] != WIRE_TO_SURFACE) continue;
        const haythaw_avc444 read = haythaw_avc444_read(payload, number(pdu + 4) - PAYLOAD);
        const haythaw_stream streams[2] = {read.luma, read.chroma};
        if (read.number) stop("a payload is refused");
        for (int i = read.kind == 2; i < (read.kind == 1 ? 1 : 2); i++, view += view_count) {
            if (views.at + views.count - view < (ptrdiff_t)view_count) stop("there are fewer views than streams");
            ends[i][end_of(i ? of_auxiliary : of_main, payload + streams[i].data, streams[i].length, view)]++;
        }
    }
    for (int i = 0; i < 2; i++) printf("%u %u %u%c", ends[i][SAME], ends[i][OTHER], ends[i][NONE], i ? '\n' : ' ');
}

int main(int argc, char **argv)
{
    if (argc != 4) stop("usage: decoders NAME.rdpgfx CODED_WIDTH CODED_HEIGHT");
    const size_t view_count = strtoul(argv[2], NULL, 10) * strtoul(argv[3], NULL, 10) * 3 / 2;
    session = loaded(fopen(argv[1], "rb")), views = loaded(stdin);
    frame = av_frame_alloc();
    av_log_set_level(AV_LOG_QUIET); /* the numbers say what failed */
    AVCodecContext *both = decoder();
    decoded(both, both, view_count);
    decoded(decoder(), decoder(), view_count);
    return 0;
}
