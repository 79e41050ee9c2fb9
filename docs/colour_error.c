/* How far off a bar can be read, for docs/colour_error.py. A line of input has two numbers, how far below and above a sample of U and of V may be
 * off, and then red, green and blue of a bar's 256 steps. Each step is asked of the library: its Y, U and V (from RGBA), and what is shown beside
 * this Y of every U and V within the two numbers of its own (view to RGBA, which filters nothing). A line of output has, for each step, the
 * lowest and the highest step that is read of what is shown, each after how far its U and its V are off. Read is the step whose colour is nearest:
 * of the least sum of squared differences, and of several such the lowest. */
#include <haythaw.h>
#include <stdio.h>

enum { STEPS = 256, MOST = 64, WIDE = 2 * MOST, PLANE = WIDE * WIDE };
typedef struct { int u, v, step; } found;
static uint8_t bar[STEPS][4], luma[PLANE], u[PLANE / 4], v[PLANE / 4], out[PLANE * 4];

static int nearest(const uint8_t *colour)
{
    int best = 0;
    long least = -1;
    for (int step = 0; step < STEPS; step++) {
        long sum = 0;
        for (int k = 0; k < 3; k++)
            sum += (colour[k] - bar[step][k]) * (colour[k] - bar[step][k]);
        if (least < 0 || sum < least)
            best = step, least = sum;
    }
    return best;
}

static int extremes(int step, int below, int above)
{
    static uint8_t own[3][256], map[64];
    if (haythaw_from_rgba(bar[step], 4, 1, 1, own[0], 256, own[1], 256, own[2], 256, map, 64) != HAYTHAW_DONE)
        return 0;
    const int count = below + above + 1;
    const uint16_t side = (uint16_t)(2 * count);
    for (int k = 0; k < side * side; k++)
        luma[k] = own[0][0];
    for (int k = 0; k < count * count; k++) { /* what is no byte leaves the sample as it is */
        const int one = own[1][0] + k / count - below, other = own[2][0] + k % count - below;
        u[k] = (uint8_t)(one >= 0 && one < 256 ? one : own[1][0]), v[k] = (uint8_t)(other >= 0 && other < 256 ? other : own[2][0]);
    }
    const haythaw_answer shown = haythaw_view_to_rgba(side, side, side, (size_t)count, luma, PLANE, u, PLANE / 4, v, PLANE / 4, out, sizeof out);
    found lowest = {0, 0, STEPS}, highest = {0, 0, -1};
    for (int k = 0; k < count * count; k++) {
        const found here = {u[k] - own[1][0], v[k] - own[2][0], nearest(out + 4 * (2 * (k / count) * side + 2 * (k % count)))};
        lowest = here.step < lowest.step ? here : lowest;
        highest = here.step > highest.step ? here : highest;
    }
    return shown.number == HAYTHAW_DONE && printf("%d %d %d %d %d %d ", lowest.u, lowest.v, lowest.step, highest.u, highest.v, highest.step) > 0;
}

int main(void)
{
    int below, above;
    for (;;) {
        const int read = scanf("%d %d", &below, &above);
        if (read != 2 || below < 0 || above < 0 || below + above >= MOST)
            return read != EOF || !feof(stdin);
        for (int k = 0; k < STEPS * 3; k++) {
            unsigned value;
            if (scanf("%u", &value) != 1 || value > 255)
                return 1;
            bar[k / 3][k % 3] = (uint8_t)value;
        }
        for (int step = 0; step < STEPS; step++)
            if (!extremes(step, below, above))
                return 1;
        printf("\n");
    }
}
