/* replay_write: an AVC444 payload written, and every byte of the output after the call. */
#ifndef STORED_WRITE_H
#define STORED_WRITE_H

#include "cases.h"

/* Fields: the name; the kind; the rectangles, pairs and H.264 bytes of luma, then of chroma; the output's length, and its bytes before. */
static void write_line(char **field)
{
    Args a = {0};
    a.kind = (uint32_t)number_in(field[1], 10);
    for (int stream = 0; stream < 2; stream++) {
        lend_numbers_in(&a, stream == 0 ? L_RECTS : C_RECTS, field[2 + 3 * stream]);
        lend_bytes_in(&a, stream == 0 ? L_PAIRS : C_PAIRS, field[3 + 3 * stream]);
        lend_bytes_in(&a, stream == 0 ? L_DATA : C_DATA, field[4 + 3 * stream]);
    }
    lend_all(&a, OUT, number_in(field[8], 10), (uint8_t)number_in(field[9], 16));
    const Result r = asked(WRITE, &a);
    say_answer(field[0], &r);
    printf(",");
    say_hex(" ", a.at[OUT], a.count[OUT]);
    printf("\n");
    over(WRITE);
}

static void replay_write(void)
{
    each_line(10, write_line);
}

#endif
