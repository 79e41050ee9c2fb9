/* Ten lines of use: a 2x1 picture of red and green pixels, its two views as AVC444v2, and red back. */
#include "haythaw.h"
#include <stdio.h>

int main(void)
{
    const uint8_t rgba[8] = {255, 0, 0, 255, 0, 255, 0, 255};
    static uint8_t y[256], u[256], v[256]; /* a third of haythaw_allocation_size(2, 1) each */
    static uint8_t map[64];                /* haythaw_map_size(2, 1): which blocks have all their colour */
    static uint8_t main_y[256], main_u[64], main_v[64], auxiliary_y[256], auxiliary_u[64], auxiliary_v[64];
    uint8_t red[4];

    if (haythaw_from_rgba(rgba, 8, 2, 1, y, 256, u, 256, v, 256, map, 64) != HAYTHAW_DONE)
        return 1;
    haythaw_views views = haythaw_split_v2(2, 1, y, 256, u, 256, v, 256, main_y, 256, main_u, 64, main_v, 64,
                                           auxiliary_y, 256, auxiliary_u, 64, auxiliary_v, 64);
    haythaw_pixels shown = haythaw_to_rgba(2, 1, y, 256, u, 256, v, 256, map, 64, 0, 0, 1, 1, red, sizeof red);
    printf("views of %u x %u; %zu bytes, %zu pixels stale: %u %u %u\n", views.width, views.height, shown.count, shown.stale,
           red[0], red[1], red[2]);
    return shown.number != HAYTHAW_DONE;
}
