/* replay_view: whether a view is accepted, and seven rows of each plane. */
#ifndef STORED_VIEW_H
#define STORED_VIEW_H

#include "cases.h"

/* A row by its place, and a checksum of the bytes there. */
static void row_word(const Args *a, int plane)
{
    const Result r = asked((enum call)(LUMA_ROW + plane), a);
    if (r.number != 0) {
        printf(" refused");
    } else if (!r.present) {
        printf(" absent");
    } else {
        printf(" %zu+%zu:", r.start, r.length);
        say_between(a, (enum slice)(VIEW_Y + plane), r.start, r.start + r.length);
    }
}

/* Rows 0, 1, the middle, the last, the two after it, and the largest number; before row 0 is the largest number too. */
static void rows_line(Args *a, int plane)
{
    const size_t height = plane == 0 ? a->view_height : (a->view_height + (size_t)1) / 2;
    const size_t rows[7] = {0, 1, height / 2, height - 1, height, height + 1, SIZE_MAX};
    printf("%c", "yuv"[plane]);
    for (int k = 0; k < 7; k++) {
        a->row = rows[k];
        row_word(a, plane);
    }
    printf("\n");
}

static void view_lines(size_t index, const uint8_t *s)
{
    static const size_t seeds[3] = {0, 83, 167};
    Args a = {0};
    a.view_width = two(s), a.view_height = two(s + 2), a.luma_stride = eight(s + 12), a.chroma_stride = eight(s + 20);
    for (int p = 0; p < 3; p++) {
        lend_as(&a, (enum slice)(VIEW_Y + p), two(s + 4 + 2 * p), NULL);
        for (size_t k = 0; k < a.count[VIEW_Y + p]; k++)
            ((uint8_t *)a.at[VIEW_Y + p])[k] = (uint8_t)((31 * k + two(s + 10) + seeds[p]) % 251);
    }
    printf("%zu: %u x %u", index, a.view_width, a.view_height);
    if (asked(VIEW, &a).number != 0) {
        printf(" refused\n");
    } else {
        printf(" accepted\n");
        for (int p = 0; p < 3; p++)
            rows_line(&a, p);
    }
    over(VIEW);
}

static void replay_view(void)
{
    each_of(0, 28, view_lines);
}

#endif
