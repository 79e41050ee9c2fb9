/* What FreeRDP 2.11.7 does otherwise when it combines an auxiliary view, on x86-64, as changes to what our call left. So its planes are ours
   after these, and what it combines next starts from them. They hold for one rectangle, the whole picture, and for an even width; no other is
   recorded. `limit` is the width rounded down to 32: up to there it works in steps of 32 columns.

     row_below      at an odd height the last row of blocks has a row below the picture: V1 leaves all of it as it was, V2 its odd columns;
     even_column    V1, even rows, below the limit: the sample of an odd column goes to the even column left of it, and the odd one stays
                    as it was;
     filtered       what the reverse filter answers for an even row and an even column is written into the plane;
     no_threshold   also where that is less than 30 away;
     every_other    but below the limit only where column / 16 is even.

   Each is counted by the samples that come out otherwise by it: every_other by those that it keeps from being filtered. recorded_habits.c
   holds them to FreeRDP itself. */
#ifndef RECORDED_HABITS_H
#define RECORDED_HABITS_H

#include "recorded_pictures.h"

enum { ROW_BELOW, EVEN_COLUMN, FILTERED, NO_THRESHOLD, EVERY_OTHER, HABITS };
static const char *const habit_names[HABITS] = {"row_below", "even_column", "filtered", "no_threshold", "every_other"};

static unsigned left_out;    /* bits: habits that the self-test leaves out */
static size_t acted[HABITS]; /* at how many samples */

static bool has(int habit) { return !(left_out >> habit & 1); }

static void put(uint8_t *sample, uint8_t value, int habit)
{
    acted[habit] += *sample != value;
    *sample = value;
}

static size_t limit(void) { return (size_t)shown.width / 32 * 32; }
static size_t blocks_of(uint16_t side) { return (side + 1u) / 2; }

static void leave_row_below(uint8_t *plane, const uint8_t *before, int version)
{
    if (shown.height % 2 == 0 || !has(ROW_BELOW)) return;
    const size_t row = shown.height * stride;
    for (size_t column = 0; column < shown.width; column++)
        if (version == 1 || column % 2) put(plane + row + column, before[row + column], ROW_BELOW);
}

static void into_even_column(uint8_t *row, const uint8_t *before)
{
    if (!has(EVEN_COLUMN)) return;
    for (size_t column = 0; column < limit(); column += 2) {
        put(row + column, row[column + 1], EVEN_COLUMN);
        put(row + column + 1, before[column + 1], EVEN_COLUMN);
    }
}

static void filter_sample(uint8_t *even, size_t column)
{
    const int a = even[column], t = 4 * a - even[column + 1] - even[column + stride] - even[column + stride + 1];
    const int answer = t < 0 ? 0 : t > 255 ? 255 : t;
    const bool kept = has(EVERY_OTHER) && column < limit() && column / 16 % 2, near = abs(answer - a) < 30;
    if (kept)
        acted[EVERY_OTHER] += answer != a;
    else if (has(NO_THRESHOLD) || !near) {
        acted[NO_THRESHOLD] += near && answer != a;
        put(even + column, (uint8_t)answer, FILTERED);
    }
}

/* After an auxiliary view was applied: the planes before, and as our call left them. */
static void take_habits(Picture *p, const Picture *before, int version)
{
    for (int k = 1; k < PLANES; k++) {
        leave_row_below(p->plane[k], before->plane[k], version);
        for (size_t row = 0; row < 2 * blocks_of(shown.height); row += 2) {
            uint8_t *even = p->plane[k] + row * stride;
            if (version == 1) into_even_column(even, before->plane[k] + row * stride);
            for (size_t column = 0; has(FILTERED) && column < 2 * blocks_of(shown.width); column += 2) filter_sample(even, column);
        }
    }
}

#endif
