/* An AVC444 payload is cut into its streams: where the H.264 bytes are, and the rectangles as the calls that apply a view take them. */
#include <stdio.h>

#include "haythaw.h"

int main(void)
{
    const uint8_t payload[] = {
        17, 0, 0, 0,                                                      /* 17 bytes of luma, kind 0 */
        1, 0, 0, 0, 0, 0, 0, 0, 64, 0, 32, 0, 22, 100, 0x67, 0x42, 0x1F,  /* luma: a rectangle, its pair, 3 bytes */
        0, 0, 0, 0, 0x68, 0xCE                                            /* chroma: no rectangle, 2 bytes */
    };
    uint16_t rects[4];

    haythaw_avc444 read = haythaw_avc444_read(payload, sizeof payload);
    if (read.number != HAYTHAW_DONE)
        return 1;
    haythaw_answer list = haythaw_avc444_luma_rects(payload, sizeof payload, rects, 4);
    if (list.number != HAYTHAW_DONE)
        return 1;
    printf("kind %u; luma %zu bytes at %zu, chroma %zu bytes at %zu; %zu numbers: %u %u %u %u\n", read.kind, read.luma.length, read.luma.data,
           read.chroma.length, read.chroma.data, list.count, rects[0], rects[1], rects[2], rects[3]);
    return 0;
}
