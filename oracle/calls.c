/* Calls the library before anything else links it: the four functions that no header has, and every result type and list of parameters
   of bind/c/haythaw.h. A line for each wrong answer, and then status 1. */
#include <stdio.h>

#include "../bind/c/test/results.h"

typedef struct { uint8_t y, u, v; } Yuv;
typedef struct { uint8_t bytes[4]; } Pixel;
typedef struct { uint8_t value; bool applied; } Undone;

/* The runs beside the Rust original call these, and bind/c/test/off.h. */
Yuv haythaw_forward(uint8_t r, uint8_t g, uint8_t b);
Pixel haythaw_reverse(uint8_t y, uint8_t u, uint8_t v);
uint8_t haythaw_average(uint8_t a, uint8_t b, uint8_t c, uint8_t d);
Undone haythaw_filter(uint8_t a, uint8_t b, uint8_t c, uint8_t d);

static int wrong;

static void check(bool holds, const char *call, const char *what)
{
    if (!holds) {
        fprintf(stderr, "calls.c: a wrong answer: %s, %s\n", call, what);
        wrong = 1;
    }
}

/* The filter moves 100 to 4 * 100 - (110 + 110 + 110) = 70; to 71, less than 30 away, it would not move it. */
static void result_of_bytes(void)
{
    Yuv red = haythaw_forward(255, 0, 0);
    check(red.y == 53 && red.u == 99 && red.v == 255, "forward", "3 bytes");

    Pixel back = haythaw_reverse(53, 99, 255);
    check(back.bytes[0] == 252 && back.bytes[1] == 0 && back.bytes[2] == 0 && back.bytes[3] == 255, "reverse", "4 bytes");

    check(haythaw_average(255, 255, 255, 252) == 254, "average", "a byte");
    Undone acts = haythaw_filter(100, 110, 110, 110), rests = haythaw_filter(100, 110, 110, 109);
    check(acts.value == 70 && acts.applied, "filter", "a byte and yes");
    check(rests.value == 100 && !rests.applied, "filter", "a byte and no");
}

int main(void)
{
    result_of_bytes();
    each_result_type();
    return wrong;
}
