/* The habits of recorded_habits.h beside FreeRDP itself: random views, main and auxiliary in any order, combined by its own call and by ours
   with the habits, onto planes that are kept. Every even width to 200 and widths of sessions, heights of 1 to 52: among them are odd heights,
   tails of more than 16 columns behind the limit and auxiliary views that follow no main view, which the stored recordings lack. Then each
   habit is left out in turn, which has to be noticed. The map of stale colour, which FreeRDP has not, is 1 over the whole picture after a main
   view, and 2 after an auxiliary view that follows one.
   By hand, outside the gate: for x86-64 with Debian's freerdp2-dev, 2.11.7.

     oracle/library.sh && cc -std=c99 -O2 -Wall -Wextra -Werror -Ibind/c tests/recorded_habits.c oracle/build/libhaythaw.a \
         $(pkg-config --cflags --libs freerdp2 winpr2) -o oracle/build/recorded_habits && oracle/build/recorded_habits

   Last line `recorded_habits: ...`; status 1 if a sample differs, or a habit that is left out is not noticed. */
#include <freerdp/codec/color.h>
#include <freerdp/primitives.h>

#include "recorded_habits.h"

enum { COMBINES = 5, MORE = 48 }; /* for each size; columns of FreeRDP's planes behind ours */

static Picture ours, before, theirs;
static View view;
static uint8_t stage; /* what the map has in every block of the picture */
static uint64_t state, compared, differ, stale_wrong, acted_in_all[HABITS];

static uint32_t any(void) /* splitmix64 */
{
    uint64_t z = (state += 0x9E3779B97F4A7C15u);
    z = (z ^ z >> 30) * 0xBF58476D1CE4E5B9u;
    z = (z ^ z >> 27) * 0x94D049BB133111EBu;
    return (uint32_t)((z ^ z >> 31) >> 16);
}

static void fill(uint8_t *bytes, size_t count)
{
    for (size_t k = 0; k < count; k++) bytes[k] = (uint8_t)any();
}

static void combine(const primitives_t *by, int type, int version)
{
    const UINT32 wide = (UINT32)stride, from[3] = {wide, wide / 2, wide / 2}, to[3] = {wide + MORE, wide + MORE, wide + MORE};
    const RECTANGLE_16 all = {0, 0, shown.width, shown.height};
    const uint16_t list[4] = {0, 0, shown.width, shown.height};
    const BYTE *planes[3] = {view.plane[0], view.plane[1], view.plane[2]};
    must(!by->YUV420CombineToYUV444((avc444_frame_type)type, planes, from, coded.width, coded.height, theirs.plane, to, &all),
         "FreeRDP does not combine");
    copy(&before, &ours);
    apply(!type ? haythaw_apply_main_view : version == 1 ? haythaw_apply_auxiliary_v1 : haythaw_apply_auxiliary_v2, &ours, list, 4, &view);
    if (type) take_habits(&ours, &before, version);
    stage = !type ? 1 : stage ? 2 : 0;
}

static void compare(void)
{
    for (size_t k = 0; k < samples / 4; k++)
        stale_wrong += ours.map[k] != (k / (stride / 2) < blocks_of(shown.height) && k % (stride / 2) < blocks_of(shown.width) ? stage : 0);
    for (int k = 0; k < PLANES; k++)
        for (size_t row = 0; row < shown.height; row++)
            for (size_t column = 0; column < shown.width; column++, compared++)
                differ += ours.plane[k][row * stride + column] != theirs.plane[k][row * (stride + MORE) + column];
}

static void begin(uint16_t width, uint16_t height)
{
    shown = (Size){width, height}, coded = (Size){(uint16_t)((width + 15) / 16 * 16), (uint16_t)((height + 15) / 16 * 16)};
    stride = coded.width, samples = luma_of(coded), stage = 0;
    ours = fresh(), before = fresh();
    for (int k = 0; k < PLANES; k++) {
        theirs.plane[k] = room((stride + MORE) * coded.height), view.plane[k] = room(luma_of(coded));
        fill(ours.plane[k], samples);
        for (size_t row = 0; row < coded.height; row++)
            memcpy(theirs.plane[k] + row * (stride + MORE), ours.plane[k] + row * stride, stride);
    }
}

static void one_size(const primitives_t *by, uint16_t width, uint16_t height)
{
    const int version = 1 + (int)(any() % 2);
    begin(width, height);
    for (int step = 0; step < COMBINES; step++) {
        for (int k = 0; k < PLANES; k++) fill(view.plane[k], k ? chroma_of(coded) : luma_of(coded));
        combine(by, any() % 2 ? version : 0, version);
        compare();
    }
    for (int k = 0; k < PLANES; k++) free(ours.plane[k]), free(before.plane[k]), free(theirs.plane[k]), free(view.plane[k]);
    free(ours.map), free(before.map);
}

static void every_size(const primitives_t *by)
{
    static const uint16_t sessions[] = {334, 336, 378, 800};
    state = compared = differ = stale_wrong = 0;
    memset(acted, 0, sizeof acted);
    for (uint16_t width = 2; width <= 200; width += 2)
        for (uint16_t height = 1; height <= 52; height += 1 + width % 3) one_size(by, width, height);
    for (size_t k = 0; k < sizeof sessions / sizeof *sessions; k++)
        for (uint16_t height = 1; height <= 52; height += 10) one_size(by, sessions[k], height);
}

int main(void)
{
    const primitives_t *by = primitives_get();
    int wrong = 0;
    every_size(by);
    const uint64_t all = compared;
    if (differ) wrong++, printf("recorded_habits: %llu samples differ\n", (unsigned long long)differ);
    if (stale_wrong) wrong++, printf("recorded_habits: %llu blocks of the maps are wrong\n", (unsigned long long)stale_wrong);
    for (int k = 0; k < HABITS; k++) acted_in_all[k] = acted[k];
    for (int k = 0; k < HABITS; k++) {
        left_out = 1u << k;
        every_size(by);
        if (!differ) wrong++, printf("recorded_habits: not noticed: without the habit %s\n", habit_names[k]);
    }
    printf("recorded_habits: %llu samples compared, habits", (unsigned long long)all);
    for (int k = 0; k < HABITS; k++) printf(" %s %llu,", habit_names[k], (unsigned long long)acted_in_all[k]);
    printf(" %d left out in turn, %d wrong\n", HABITS, wrong);
    return wrong != 0;
}
