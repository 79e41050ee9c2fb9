/* x264 and ffmpeg as functions, by files in a folder: a view becomes H.264 bytes, H.264 bytes become a view; and such bytes' header. */
#ifndef REAL_CODEC_H
#define REAL_CODEC_H

#include <stdarg.h>
#include <stdint.h>
#include <stdio.h>
#include <stdlib.h>
#include <string.h>

/* A view's planes lie one after another without gaps, as x264 reads and ffmpeg writes them. */
typedef struct { uint16_t width, height; uint8_t *at; } View;
typedef struct { uint8_t *at; size_t count; } Bytes;

static const char *folder;

static void stop(const char *what)
{
    fprintf(stderr, "real_stream: %s\n", what);
    exit(2);
}

static void *room(size_t n)
{
    void *p = malloc(n ? n : 1);
    if (!p) stop("no memory");
    return p;
}

/* ---- Files and the two programs ---- */

static FILE *opened(const char *name, const char *mode)
{
    char path[4096];
    snprintf(path, sizeof path, "%s/%s", folder, name);
    FILE *file = fopen(path, mode);
    if (!file) stop(name);
    return file;
}

static void save(const char *name, Bytes bytes)
{
    FILE *file = opened(name, "wb");
    if (fwrite(bytes.at, 1, bytes.count, file) != bytes.count || fclose(file)) stop(name);
}

static Bytes loaded(const char *name)
{
    FILE *file = opened(name, "rb");
    if (fseek(file, 0, SEEK_END)) stop(name);
    const long length = ftell(file);
    if (length < 0 || fseek(file, 0, SEEK_SET)) stop(name);
    Bytes bytes = {room((size_t)length), (size_t)length};
    if (fread(bytes.at, 1, bytes.count, file) != bytes.count) stop(name);
    fclose(file);
    return bytes;
}

/* Runs a command in the folder. `made` is removed before, so that no earlier file is taken for what it makes; all that it says goes to the
   file `said`. */
static void command(const char *made, const char *format, ...)
{
    char words[512], line[8192], path[4096];
    va_list list;
    va_start(list, format);
    vsnprintf(words, sizeof words, format, list);
    va_end(list);
    snprintf(path, sizeof path, "%s/%s", folder, made);
    remove(path);
    snprintf(line, sizeof line, "cd '%s' && { %s; } >said 2>&1", folder, words);
    if (system(line)) {
        Bytes said = loaded("said");
        fwrite(said.at, 1, said.count, stderr);
        stop(words);
    }
}

static size_t luma_samples(View v) { return (size_t)v.width * v.height; }
static size_t chroma_samples(View v) { return (size_t)((v.width + 1) / 2) * (size_t)((v.height + 1) / 2); }
static size_t samples(View v) { return luma_samples(v) + 2 * chroma_samples(v); }

/* The view as H.264 bytes in Annex B form, one picture, with these options of x264. */
static Bytes encoded(View v, const char *options)
{
    const Bytes raw = {v.at, samples(v)};
    save("view.yuv", raw);
    command("view.264", "x264 --quiet --no-progress --threads 1 %s --demuxer raw --input-csp i420 --input-res %ux%u -o view.264 view.yuv",
            options, v.width, v.height);
    return loaded("view.264");
}

/* The number behind a letter in the line that YUV4MPEG2 files begin with, as in `YUV4MPEG2 W250 H130 F25:1`. */
static uint16_t field(const char *line, char letter)
{
    const char *at = line;
    while ((at = strchr(at, ' ')) != NULL)
        if (*++at == letter) {
            const unsigned long n = strtoul(at + 1, NULL, 10);
            return n <= 65535 ? (uint16_t)n : 0;
        }
    return 0;
}

/* The one picture of H.264 bytes, in the size that ffmpeg says, with these options for its decoder and for its output. */
static View decoded(Bytes h264, const char *decoder, const char *output)
{
    save("part.264", h264);
    command("part.y4m", "ffmpeg -v error -nostdin -y %s -f h264 -i part.264 %s -f yuv4mpegpipe part.y4m", decoder, output);
    FILE *file = opened("part.y4m", "rb");
    char line[256], frame[256];
    if (!fgets(line, sizeof line, file) || strncmp(line, "YUV4MPEG2 ", 10) || !strstr(line, " C420"))
        stop("ffmpeg's frame is not 4:2:0");
    if (!fgets(frame, sizeof frame, file) || strncmp(frame, "FRAME", 5)) stop("ffmpeg wrote no frame");
    View v = {field(line, 'W'), field(line, 'H'), NULL};
    v.at = room(samples(v));
    if (!samples(v) || fread(v.at, 1, samples(v), file) != samples(v) || fgetc(file) != EOF) stop("ffmpeg wrote not exactly one frame");
    fclose(file);
    return v;
}

/* ---- The header of an H.264 stream (its sequence parameter set, H.264 7.3.2.1.1), as far as the crop ---- */

typedef struct { const uint8_t *at; size_t bits, used; } Bits;

static unsigned bit(Bits *b)
{
    if (b->used >= b->bits) stop("an H.264 header ends early");
    const unsigned is = b->at[b->used / 8] >> (7 - b->used % 8) & 1;
    b->used++;
    return is;
}

static unsigned fixed(Bits *b, int n)
{
    unsigned value = 0;
    while (n--) value = value << 1 | bit(b);
    return value;
}

/* An Exp-Golomb number: so many zeros, a one, and as many bits. */
static unsigned golomb(Bits *b)
{
    int zeros = 0;
    while (!bit(b))
        if (++zeros > 31) stop("an H.264 header has a number of more than 32 bits");
    return (1u << zeros) - 1 + fixed(b, zeros);
}

typedef struct { unsigned profile, chroma_format, bypass, width, height, left, right, top, bottom; } Header;

static Header header_of(Bytes h264)
{
    uint8_t unit[64];
    size_t n = 0, i = 0;
    while (i + 4 <= h264.count && !(h264.at[i] == 0 && h264.at[i + 1] == 0 && h264.at[i + 2] == 1 && (h264.at[i + 3] & 31) == 7)) i++;
    /* 00 00 03 stands for 00 00 */
    for (i += 4; i < h264.count && n < sizeof unit; i++)
        if (!(h264.at[i] == 3 && n >= 2 && h264.at[i - 1] == 0 && h264.at[i - 2] == 0)) unit[n++] = h264.at[i];
    Bits b = {unit, 8 * n, 0};
    Header h = {0};
    h.profile = fixed(&b, 8);
    fixed(&b, 16); /* constraints and level */
    golomb(&b);
    h.chroma_format = 1;
    if (h.profile == 100 || h.profile == 244) {
        h.chroma_format = golomb(&b);
        if (golomb(&b) || golomb(&b)) stop("an H.264 stream has not 8 bits a sample");
        h.bypass = bit(&b); /* qpprime_y_zero_transform_bypass_flag */
        if (bit(&b)) stop("an H.264 stream has scaling lists");
    }
    golomb(&b);
    const unsigned order = golomb(&b);
    if (order == 1) stop("an H.264 stream has order type 1");
    if (order == 0) golomb(&b);
    golomb(&b);
    bit(&b);
    h.width = 16 * (golomb(&b) + 1);
    h.height = 16 * (golomb(&b) + 1);
    if (!bit(&b)) stop("an H.264 stream has fields");
    bit(&b);
    if (bit(&b)) h.left = 2 * golomb(&b), h.right = 2 * golomb(&b), h.top = 2 * golomb(&b), h.bottom = 2 * golomb(&b);
    return h;
}

#endif
