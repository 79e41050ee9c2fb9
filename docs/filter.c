/* Pictures of 2x2 pixels there and back, for docs/filter.py. A line of input has a picture: red, green and blue of each pixel, row by row.
 * A line of output has how many samples of U and of V the filter replaced, and what came back in the same order. */
#include <haythaw.h>
#include <stdio.h>

int main(void)
{
    static uint8_t y[256], u[256], v[256], map[64];
    uint8_t rgba[16] = {0};
    for (;;) {
        for (int k = 0; k < 12; k++) {
            unsigned value;
            if (scanf("%u", &value) != 1 || value > 255)
                return k != 0 || !feof(stdin);
            rgba[k / 3 * 4 + k % 3] = (uint8_t)value;
        }
        if (haythaw_from_rgba(rgba, 16, 2, 2, y, 256, u, 256, v, 256, map, 64) != HAYTHAW_DONE)
            return 1;
        const haythaw_pixels back = haythaw_to_rgba(2, 2, y, 256, u, 256, v, 256, map, 64, 0, 0, 2, 2, rgba, 16);
        if (back.number != HAYTHAW_DONE)
            return 1;
        printf("%zu %zu", back.filtered_u, back.filtered_v);
        for (int k = 0; k < 12; k++)
            printf(" %u", rgba[k / 3 * 4 + k % 3]);
        printf("\n");
    }
}
