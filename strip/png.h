/* Writes a picture of RGB bytes as PNG, with nothing but C. A row is stored as its difference to the row above where both are
 * equal, else to the pixel on its left; magnified pixels then are long runs of 0, and the only matches that the deflate stream has are
 * runs of one byte, in the fixed code of RFC 1951. */
#ifndef PNG_H
#define PNG_H

#include <stdbool.h>
#include <stdint.h>
#include <stdio.h>
#include <stdlib.h>
#include <string.h>

typedef struct {
    uint8_t *bytes;
    size_t count, room;
    uint32_t held; /* bits that are no whole byte yet, the first lowest */
    unsigned held_count;
} Stream;

static void put_byte(Stream *s, uint8_t byte)
{
    if (s->count == s->room) {
        s->room = 2 * s->room + 4096;
        s->bytes = realloc(s->bytes, s->room);
        if (s->bytes == NULL)
            exit(2);
    }
    s->bytes[s->count++] = byte;
}

static void put_number(Stream *s, uint32_t number)
{
    for (int shift = 24; shift >= 0; shift -= 8)
        put_byte(s, (uint8_t)(number >> shift));
}

static void put_bits(Stream *s, uint32_t bits, unsigned count)
{
    s->held |= bits << s->held_count;
    for (s->held_count += count; s->held_count >= 8; s->held_count -= 8, s->held >>= 8)
        put_byte(s, (uint8_t)s->held);
}

/* A code word stands in the stream from its highest bit on. */
static void put_code(Stream *s, uint32_t code, unsigned count)
{
    while (count-- > 0)
        put_bits(s, code >> count & 1, 1);
}

static void put_literal(Stream *s, uint8_t byte)
{
    if (byte < 144)
        put_code(s, 0x30u + byte, 8);
    else
        put_code(s, 0x190u + byte - 144, 9);
}

/* The byte before again, 258 times, or 3 to 10 times: lengths that need no further bits. */
static size_t put_run(Stream *s, size_t left)
{
    const size_t length = left >= 258 ? 258 : left < 10 ? left : 10;
    if (length == 258)
        put_code(s, 0xC0 + 285 - 280, 8);
    else
        put_code(s, (uint32_t)(257 + length - 3 - 256), 7);
    put_code(s, 0, 5); /* from one byte before */
    return length;
}

static void put_zlib(Stream *s, const uint8_t *data, size_t count)
{
    uint32_t low = 1, high = 0;
    put_byte(s, 0x78);
    put_byte(s, 0x01);
    put_bits(s, 1, 1); /* the last block */
    put_bits(s, 1, 2); /* in the fixed code */
    for (size_t at = 0, run; at < count; at += run) {
        for (run = 0; at > 0 && at + run < count && data[at + run] == data[at - 1];)
            run++;
        if (run >= 3) {
            run = put_run(s, run);
        } else {
            put_literal(s, data[at]);
            run = 1;
        }
    }
    put_code(s, 0, 7); /* the end */
    put_bits(s, 0, (8 - s->held_count) % 8);
    for (size_t at = 0; at < count; at++) {
        low = (low + data[at]) % 65521;
        high = (high + low) % 65521;
    }
    put_number(s, high << 16 | low);
}

static void put_chunk(Stream *s, const char *name, const uint8_t *data, size_t count)
{
    put_number(s, (uint32_t)count);
    const size_t from = s->count;
    for (int k = 0; k < 4; k++)
        put_byte(s, (uint8_t)name[k]);
    for (size_t k = 0; k < count; k++)
        put_byte(s, data[k]);
    uint32_t crc = 0xFFFFFFFF;
    for (size_t k = from; k < s->count; k++) {
        crc ^= s->bytes[k];
        for (int bit = 0; bit < 8; bit++)
            crc = crc & 1 ? crc >> 1 ^ 0xEDB88320 : crc >> 1;
    }
    put_number(s, ~crc);
}

/* The rows, each behind the number of its filter: 2 is the difference to the row above, 1 to the pixel on the left. */
static void put_rows(Stream *s, const uint8_t *rgb, size_t width, size_t height)
{
    for (size_t row = 0; row < height; row++) {
        const uint8_t *line = rgb + row * width * 3, *above = row > 0 ? line - width * 3 : NULL;
        const bool same = above != NULL && memcmp(line, above, width * 3) == 0;
        put_byte(s, same ? 2 : 1);
        for (size_t k = 0; k < width * 3; k++)
            put_byte(s, same ? 0 : (uint8_t)(line[k] - (k >= 3 ? line[k - 3] : 0)));
    }
}

static bool write_png(const char *path, const uint8_t *rgb, size_t width, size_t height)
{
    static const uint8_t mark[8] = {0x89, 'P', 'N', 'G', 13, 10, 26, 10}, kind[5] = {8, 2, 0, 0, 0}; /* 8 bits, RGB */
    Stream file = {0}, head = {0}, rows = {0}, packed = {0};
    for (int k = 0; k < 8; k++)
        put_byte(&file, mark[k]);
    put_number(&head, (uint32_t)width);
    put_number(&head, (uint32_t)height);
    for (int k = 0; k < 5; k++)
        put_byte(&head, kind[k]);
    put_rows(&rows, rgb, width, height);
    put_zlib(&packed, rows.bytes, rows.count);
    put_chunk(&file, "IHDR", head.bytes, head.count);
    put_chunk(&file, "IDAT", packed.bytes, packed.count);
    put_chunk(&file, "IEND", NULL, 0);

    FILE *out = fopen(path, "wb");
    bool written = out != NULL && fwrite(file.bytes, 1, file.count, out) == file.count;
    if (out != NULL)
        written = fclose(out) == 0 && written;
    free(file.bytes), free(head.bytes), free(rows.bytes), free(packed.bytes);
    return written;
}

#endif
