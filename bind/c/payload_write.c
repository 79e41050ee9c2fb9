/* The AVC444 payload of payload.c is written from its parts, and read: what a sender does, and what the other side finds. */
#include <stdio.h>

#include "haythaw.h"

int main(void)
{
    const uint16_t rects[] = {0, 0, 64, 32};                             /* left, top, right, bottom */
    const uint8_t pairs[] = {22, 100};                                   /* quantiser and quality */
    const uint8_t luma[] = {0x67, 0x42, 0x1F}, chroma[] = {0x68, 0xCE};  /* H.264 bytes; chroma has no rectangle */
    uint8_t payload[64];

    haythaw_answer written = haythaw_avc444_write(0, rects, 4, pairs, 2, luma, sizeof luma, NULL, 0, NULL, 0, chroma, sizeof chroma,
                                                  payload, sizeof payload);
    if (written.number != HAYTHAW_DONE)
        return 1;
    haythaw_avc444 read = haythaw_avc444_read(payload, written.count);
    if (read.number != HAYTHAW_DONE)
        return 1;
    printf("%zu bytes of kind %u; luma %zu bytes at %zu, chroma %zu bytes at %zu\n", written.count, read.kind, read.luma.length,
           read.luma.data, read.chroma.length, read.chroma.data);
    return 0;
}
