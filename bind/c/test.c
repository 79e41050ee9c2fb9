/* The C boundary: every call of haythaw.h, used well and badly. tests/c.sh compiles and runs it.
 *
 * What an answer has to be is worked out here, by hand or by a few lines that say the rule again; nothing was taken from what the
 * library answered. Each buffer is exactly as long as the call is told, next to memory that traps (test/lend.h). A line says what was
 * left out, where something was. The last line is `c: N checks, 0 wrong`, and the status is 1 where one is wrong. */
#define _DEFAULT_SOURCE
#include "test/by_hand.h"
#include "test/checked.h"
#include "test/edges.h"
#include "test/far.h"
#include "test/lengths.h"
#include "test/limited.h"
#include "test/map.h"
#include "test/off.h"
#include "test/planes.h"
#include "test/results.h"
#include "test/sizes.h"
#include "test/strict.h"
#include "test/text.h"
#include "test/width.h"
#include "test/wire.h"
#include "test/write.h"

/* The two layouts, and V2 once more by the 32 rule, whose views are wider: 37 is 64. Then by the strict calls: the list is sound. */
static const struct { enum call split, main, auxiliary; size_t wide; const char *name; } layouts[] = {
    {SPLIT_V1, MAIN, AUX_V1, 48, "V1 there and back"}, {SPLIT_V2, MAIN, AUX_V2, 48, "V2 there and back"},
    {SPLIT_V2_32, MAIN, AUX_V2_32, 64, "V2 by the 32 rule there and back"},
    {SPLIT_V1, MAIN_STRICT, AUX_V1_STRICT, 48, "V1 there and back, strict"},
    {SPLIT_V2, MAIN_STRICT, AUX_V2_STRICT, 48, "V2 there and back, strict"},
    {SPLIT_V2_32, MAIN_STRICT, AUX_V2_32_STRICT, 64, "V2 by the 32 rule there and back, strict"}};

/* A picture of noise is split each way and applied, main then auxiliary, over a rectangle with an odd left edge to a copy of an
 * earlier picture: its luma inside the rectangle, its chroma in the widened one, and nothing else; of the map, the widened one is complete. */
static void each_layout(void)
{
    enum { WIDTH = 37, HEIGHT = 19, STRIDE = 48, ROWS = 32, PLANE = STRIDE * ROWS };
    static const uint16_t rect[4] = {5, 3, 30, 18};
    static const size_t luma[4] = {5, 3, 30, 18}, chroma[4] = {4, 2, 30, 18};
    for (size_t layout = 0; layout < sizeof layouts / sizeof *layouts; layout++) {
        const size_t large = layouts[layout].wide * ROWS;
        Args from = {0}, to = {0};
        picture(&from, WIDTH, HEIGHT, PLANE);
        for (int s = MAIN_Y; s <= AUX_V; s++)
            lend_as(&from, (enum slice)s, s == MAIN_Y || s == AUX_Y ? large : large / 4, NULL);
        Result r = tried(layouts[layout].split, &from);
        check(r.number == 0 && r.width == layouts[layout].wide, call_names[layouts[layout].split], "the number and the width");
        picture(&to, WIDTH, HEIGHT, PLANE);
        memset(to.at[MAP], 0, PLANE / 4);
        to.view_width = r.width, to.view_height = r.height, to.luma_stride = r.luma_stride, to.chroma_stride = r.chroma_stride;
        to.at[RECTS] = lend(8);
        to.count[RECTS] = 4;
        memcpy(to.at[RECTS], rect, 8);
        lent_seen();
        for (int auxiliary = 0; auxiliary < 2; auxiliary++) {
            for (int s = 0; s < 3; s++) {
                to.at[VIEW_Y + s] = from.at[(auxiliary ? AUX_Y : MAIN_Y) + s];
                to.count[VIEW_Y + s] = from.count[(auxiliary ? AUX_Y : MAIN_Y) + s];
            }
            trying = "apply";
            r = run(auxiliary ? layouts[layout].auxiliary : layouts[layout].main, &to);
            check(is_refusal(&r, 0), "apply", "the number");
        }
        bool right[3] = {true, true, true};
        for (int s = Y; s <= V; s++) {
            const uint8_t *now = to.at[s], *source = from.at[s], *before = NULL;
            for (size_t i = 0; i < lents_used; i++)
                if (lents[i].bytes == now)
                    before = lents[i].seen;
            for (size_t k = 0; k < PLANE; k++)
                right[s] = right[s] && now[k] == (within(s == Y ? luma : chroma, k / STRIDE, k % STRIDE) ? source : before)[k];
            check(right[s], layouts[layout].name, slice_names[s]);
        }
        const uint8_t *map = to.at[MAP];
        bool complete = true;
        for (size_t k = 0; k < PLANE / 4; k++)
            complete = complete && map[k] == (within(chroma, k / (STRIDE / 2) * 2, k % (STRIDE / 2) * 2) ? 2 : 0);
        check(complete, layouts[layout].name, "the map");
        over(MAIN);
    }
}

/* With an argument, buffers on the heap alone: what valgrind watches. */
int main(int words, char **word)
{
    (void)word;
    trap();
    each_result_type();
    texts();
    planes_by_structs();
    far_addresses();
    refused_far();
    off_of_every_pair();
    forward_unclamped();
    limited_of_all(words > 1);
    if (words > 1)
        left_out("a stream of 2^30 - 1 bytes written, for want of time");
    else
        written_far();
    for (int way = words > 1 ? ON_HEAP : AT_END; way < PLACES; way++) {
        place = (enum place)way;
        sizes_by_hand();
        new_by_hand();
        from_rgba_by_hand();
        one_pixel_by_hand();
        from_rgba_rust_by_hand();
        edges_by_the_rule();
        both_edges();
        no_side_by_hand();
        off_by_hand();
        padding_off_by_hand();
        off_by_the_rule();
        to_rgba_by_hand();
        filter_by_hand();
        filtered_by_hand();
        rectangles_by_hand();
        map_sizes_by_hand();
        made_maps_by_hand();
        markings_by_hand();
        two_rectangles_by_hand();
        stale_by_hand();
        short_maps_by_hand();
        cropped_by_hand();
        split_by_hand();
        split_at_its_limit();
        rows_by_hand();
        view_to_rgba_by_hand();
        limited_view_by_hand();
        limited_views();
        from_rgba_limited_by_hand();
        payloads_by_hand();
        wires_by_hand();
        parts_by_hand();
        quantisers();
        prefixes();
        written_by_hand();
        written_sizes();
        written_lengths();
        written_from_one();
        ignored_by_hand();
        for (int call = NEW; call < CALLS; call++)
            if (needs[call].used > 0)
                lengths_of((enum call)call);
        picture_sizes();
        view_sizes();
        list_lengths();
        rectangles();
        longest_sides();
        width_rules();
        strict_lists();
        checked_pairs();
        each_layout();
    }
    printf("c: %lu checks, %lu wrong\n", checks, wrong);
    return wrong != 0;
}
