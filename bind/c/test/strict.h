/* The strict apply calls and haythaw_first_unsound: what is sound and what is not by hand, at every edge; a list is refused whole and no byte
 * changes; the order of the numbers; and beside the calls that clip, over lists of many kinds. */
#ifndef STRICT_H
#define STRICT_H

#include "sizes.h"

static void lend_list(Args *a, const uint16_t *numbers, size_t count)
{
    lend_as(a, RECTS, 2 * count, (const uint8_t *)numbers);
    a->count[RECTS] = count;
}

/* A picture of any bytes, exactly lent, with 0, 1 and 2 in its map. */
static Args mapped(uint16_t width, uint16_t height)
{
    const size_t plane = up_to(width, 16) * up_to(height, 16);
    Args a = {0};
    picture(&a, width, height, plane);
    for (size_t k = 0; k < plane / 4; k++)
        ((uint8_t *)a.at[MAP])[k] = (uint8_t)(k % 3);
    return a;
}

/* The number of a call, and whether it changes a byte of what it is lent: a refusal never does. */
static void strict_is(enum call call, const Args *a, uint32_t number, bool writes, const char *what)
{
    const Result r = tried(call, a);
    check(is_refusal(&r, number), call_names[call], what);
    check(lent_kept() == !writes, call_names[call], number == 0 ? "what an accepted list changes" : "a refused list changed a byte");
}

/* A rectangle in a picture of 5x5, and its first fault. */
typedef struct { uint16_t rect[4]; uint8_t fault; } Faulty;
static const Faulty faulties[] = {
    {{0, 0, 5, 5}, 0}, {{4, 4, 5, 5}, 0}, {{0, 0, 1, 1}, 0}, {{4, 0, 5, 1}, 0}, {{0, 4, 1, 5}, 0}, {{1, 2, 3, 5}, 0}, {{2, 1, 5, 3}, 0},
    /* 1: left at right, and behind it; also with what comes after: 2, 3, 4 */
    {{5, 0, 5, 4}, 1}, {{4, 0, 4, 4}, 1}, {{0, 0, 0, 5}, 1}, {{5, 0, 4, 4}, 1}, {{1, 0, 0, 5}, 1}, {{5, 0, 0, 5}, 1},
    {{3, 4, 3, 2}, 1}, {{0, 0, 0, 0}, 1}, {{5, 5, 5, 5}, 1}, {{6, 0, 6, 5}, 1}, {{7, 0, 6, 5}, 1}, {{4, 0, 4, 6}, 1}, {{9, 9, 8, 8}, 1},
    {{65535, 65535, 65535, 65535}, 1}, {{65535, 0, 0, 5}, 1}, {{65535, 65535, 0, 0}, 1}, {{65535, 0, 65534, 5}, 1},
    /* 2: top at bottom, and below it; also with 3 and 4 */
    {{0, 3, 2, 3}, 2}, {{0, 5, 5, 5}, 2}, {{0, 0, 5, 0}, 2}, {{0, 4, 5, 3}, 2}, {{0, 5, 5, 4}, 2}, {{0, 1, 5, 0}, 2},
    {{0, 6, 5, 6}, 2}, {{0, 5, 6, 5}, 2}, {{0, 9, 9, 8}, 2}, {{0, 65535, 5, 65535}, 2}, {{0, 65535, 65535, 0}, 2},
    /* 3: right one above the width, and far above it; also with 4 */
    {{0, 0, 6, 5}, 3}, {{4, 0, 6, 5}, 3}, {{5, 0, 6, 5}, 3}, {{6, 0, 7, 5}, 3}, {{0, 0, 65535, 5}, 3}, {{65534, 0, 65535, 5}, 3},
    {{0, 0, 6, 6}, 3}, {{5, 5, 6, 6}, 3}, {{0, 0, 65535, 65535}, 3}, {{65534, 65534, 65535, 65535}, 3},
    /* 4: bottom one above the height, and far above it */
    {{0, 0, 5, 6}, 4}, {{0, 4, 5, 6}, 4}, {{0, 5, 5, 6}, 4}, {{0, 6, 5, 7}, 4}, {{0, 0, 5, 65535}, 4}, {{0, 65534, 5, 65535}, 4}};
enum { FAULTIES = sizeof faulties / sizeof *faulties };

static void first_by_hand(const Args *a, bool present, uint8_t fault, size_t index, const char *what)
{
    const Result r = tried(FIRST_UNSOUND, a);
    check(r.number == 0 && r.present == present && r.fault == fault && r.index == index && lent_kept(), "first_unsound", what);
}

/* Each alone, in all five calls, with a view that has everything. */
static void sound_by_hand(void)
{
    for (size_t k = 0; k < FAULTIES; k++)
        for (int call = MAIN_STRICT; call <= AUX_V2_EXACT_STRICT; call++) {
            const uint8_t fault = faulties[k].fault;
            Args a = mapped(5, 5);
            view(&a, 32, 16, 32, 16);
            lend_list(&a, faulties[k].rect, 4);
            strict_is((enum call)call, &a, fault == 0 ? 0 : 12, fault == 0, "a rectangle by hand");
            first_by_hand(&a, fault != 0, fault, 0, "a rectangle by hand");
            over((enum call)call);
        }
}

/* So many rectangles, all sound but the one at a place: the whole list is refused. With `again` the last one is unsound too, and not named. */
static void one_of_many(enum call call, size_t rects, size_t place, const Faulty *faulty, bool again)
{
    static const uint16_t sound[4] = {1, 0, 5, 3};
    Args a = mapped(5, 5);
    view(&a, 32, 16, 32, 16);
    lend_list(&a, NULL, 4 * rects);
    for (size_t k = 0; k < rects; k++)
        memcpy((uint16_t *)a.at[RECTS] + 4 * k, k == place ? faulty->rect : again && k == rects - 1 ? faulties[FAULTIES - 1].rect : sound, 8);
    strict_is(call, &a, faulty->fault == 0 ? 0 : 12, faulty->fault == 0, "one of many");
    if (faulty->fault == 0)
        first_by_hand(&a, false, 0, 0, "none of many");
    else
        first_by_hand(&a, true, faulty->fault, place, "one of many");
    over(call);
}

static void whole_lists_by_hand(void)
{
    static const size_t places[] = {0, 1, 2, 249, 498, 499};
    for (int call = MAIN_STRICT; call <= AUX_V2_EXACT_STRICT; call++)
        for (size_t k = 0; k < FAULTIES; k++) {
            for (size_t place = 0; place < 3; place++)
                one_of_many((enum call)call, 3, place, &faulties[k], false);
            if (faulties[k].fault != 0)
                one_of_many((enum call)call, 3, k % 2, &faulties[k], true);
            one_of_many((enum call)call, 500, places[k % 6], &faulties[k], faulties[k].fault != 0 && k % 6 < 4);
        }
}

/* Lists of 0 to 8 numbers of two unsound rectangles: one that is not in fours is not looked at, and none at all is sound, also null. */
static void list_ends_by_hand(void)
{
    static const uint16_t unsound[8] = {3, 3, 3, 3, 9, 9, 9, 9};
    static const struct { size_t count; uint32_t number; } cases[] = {{0, 0}, {1, 7}, {2, 7}, {3, 7}, {4, 12}, {5, 7}, {6, 7}, {7, 7}, {8, 12}};
    for (size_t k = 0; k < sizeof cases / sizeof *cases; k++)
        for (int call = MAIN_STRICT; call <= FIRST_UNSOUND; call++) {
            Args a = mapped(5, 5);
            view(&a, 32, 16, 32, 16);
            lend_list(&a, unsound, cases[k].count);
            if (call == FIRST_UNSOUND && cases[k].number == 12)
                first_by_hand(&a, true, 1, 0, "a list's end");
            else
                strict_is((enum call)call, &a, cases[k].number, false, "a list's end");
            if (cases[k].count == 0) {
                a.at[RECTS] = NULL;
                strict_is((enum call)call, &a, 0, false, "no list");
            }
            over((enum call)call);
        }
}

/* A picture without columns or without rows: an empty list is sound, and no rectangle is. */
static void no_side_strict(void)
{
    static const struct { uint16_t width, height, rect[4]; uint8_t fault; } cases[] = {
        {0, 0, {0, 0, 0, 0}, 1}, {0, 0, {0, 0, 1, 1}, 3}, {0, 0, {0, 0, 0, 1}, 1}, {0, 0, {0, 0, 1, 0}, 2}, {0, 0, {65535, 65535, 65535, 65535}, 1},
        {0, 5, {0, 0, 0, 5}, 1}, {0, 5, {0, 0, 1, 5}, 3}, {0, 5, {0, 5, 1, 5}, 2}, {5, 0, {0, 0, 5, 0}, 2}, {5, 0, {0, 0, 5, 1}, 4},
        {5, 0, {0, 0, 6, 1}, 3}, {65535, 0, {0, 0, 65535, 0}, 2}, {65535, 0, {0, 0, 65535, 1}, 4}, {0, 65535, {0, 0, 1, 65535}, 3}};
    for (size_t k = 0; k < sizeof cases / sizeof *cases; k++)
        for (int call = MAIN_STRICT; call <= AUX_V2_EXACT_STRICT; call++) {
            Args a = mapped(cases[k].width, cases[k].height);
            view(&a, 32, 16, 32, 16);
            strict_is((enum call)call, &a, 0, false, "a picture of no size and no list");
            lend_list(&a, cases[k].rect, 4);
            strict_is((enum call)call, &a, 12, false, "a picture of no size");
            first_by_hand(&a, true, cases[k].fault, 0, "a picture of no size");
            over((enum call)call);
        }
}

/* What is sound is the picture's: views of other sizes change nothing of it, and a rectangle that only the view has is unsound. */
static void other_views_by_hand(void)
{
    static const uint16_t sizes[][2] = {{0, 0}, {0, 16}, {16, 0}, {1, 1}, {4, 4}, {5, 5}, {6, 6}, {16, 16}, {64, 33}};
    static const uint16_t sound[4] = {0, 0, 5, 5}, wider[4] = {0, 0, 6, 5}, higher[4] = {0, 0, 5, 6};
    for (size_t k = 0; k < sizeof sizes / sizeof *sizes; k++)
        for (int call = MAIN_STRICT; call <= AUX_V2_EXACT_STRICT; call++) {
            const uint16_t *const lists[3] = {sound, wider, higher};
            for (int list = 0; list < 3; list++) {
                Args a = mapped(5, 5);
                view(&a, sizes[k][0], sizes[k][1], sizes[k][0], (sizes[k][0] + 1u) / 2);
                lend_list(&a, lists[list], 4);
                const Result r = tried((enum call)call, &a);
                check(is_refusal(&r, list == 0 ? 0 : 12), call_names[call], "a view of another size");
                check(list == 0 || lent_kept(), call_names[call], "a refused list changed a byte");
                over((enum call)call);
            }
        }
}

/* The largest edges: 65,535 is the width or the height itself, so that no right and no bottom is above it. */
static void widest_strict(void)
{
    static const uint16_t rects[][4] = {{0, 0, 65535, 1}, {65534, 0, 65535, 1}, {65535, 0, 65535, 1}, {0, 0, 65535, 2}, {0, 1, 65535, 1}};
    static const uint8_t faults[2][5] = {{0, 0, 1, 4, 2}, {0, 0, 2, 3, 1}};
    for (int turned = 0; turned < 2; turned++)
        for (size_t k = 0; k < 5; k++) {
            const uint8_t fault = faults[turned][k];
            const uint16_t *r = rects[k], across[4] = {r[1], r[0], r[3], r[2]};
            Args a = turned ? mapped(1, 65535) : mapped(65535, 1);
            view(&a, turned ? 2 : 65535, turned ? 65535 : 2, turned ? 2 : 65535, turned ? 1 : 32768);
            lend_list(&a, turned ? across : r, 4);
            strict_is(MAIN_STRICT, &a, fault == 0 ? 0 : 12, fault == 0, "the largest edges");
            first_by_hand(&a, fault != 0, fault, 0, "the largest edges");
            over(MAIN_STRICT);
        }
    static const uint16_t whole[4] = {0, 0, 65535, 65535};
    Args a = {0};
    a.width = a.height = 65535;
    lend_list(&a, whole, 4);
    first_by_hand(&a, false, 0, 0, "the largest picture");
    a.width = 65534;
    first_by_hand(&a, true, 3, 0, "one less wide");
    a.width = 65535, a.height = 65534;
    first_by_hand(&a, true, 4, 0, "one less high");
    over(FIRST_UNSOUND);
}

/* 1, 7, 12, 3 and 4 in this order, each a byte, a number or an edge away from what is accepted, alone and with each later one: 48 x 16 and a
 * view of 64 x 16. Which buffer is a byte short, the list, and the view's strides and the lengths of its planes. */
typedef struct { int shorter; size_t numbers; uint16_t rects[8]; size_t luma, chroma, view[3]; uint32_t number; } Ordered;
#define NONE_SHORT SLICES
#define SOUND_TWO {0, 0, 48, 16, 47, 15, 48, 16}
#define LEFT_FAULT {0, 0, 48, 16, 48, 15, 48, 16}
#define TOP_FAULT {0, 0, 48, 16, 47, 16, 48, 16}
#define RIGHT_FAULT {0, 0, 49, 16, 47, 15, 48, 16}
#define BOTTOM_FAULT {0, 0, 48, 16, 47, 15, 48, 17}
#define GOOD_VIEW 64, 32, {1024, 256, 256}
#define NARROW_VIEW 63, 32, {1024, 256, 256}
#define SHORT_VIEW 64, 32, {1023, 256, 256}
#define BAD_VIEW 63, 31, {1007, 247, 247}
static const Ordered ordered[] = {
    {NONE_SHORT, 8, SOUND_TWO, GOOD_VIEW, 0}, {NONE_SHORT, 4, SOUND_TWO, GOOD_VIEW, 0}, {NONE_SHORT, 0, SOUND_TWO, GOOD_VIEW, 0},
    /* each alone */
    {Y, 8, SOUND_TWO, GOOD_VIEW, 1}, {U, 8, SOUND_TWO, GOOD_VIEW, 1}, {V, 8, SOUND_TWO, GOOD_VIEW, 1}, {MAP, 8, SOUND_TWO, GOOD_VIEW, 1},
    {NONE_SHORT, 7, SOUND_TWO, GOOD_VIEW, 7}, {NONE_SHORT, 5, SOUND_TWO, GOOD_VIEW, 7},
    {NONE_SHORT, 8, LEFT_FAULT, GOOD_VIEW, 12}, {NONE_SHORT, 8, TOP_FAULT, GOOD_VIEW, 12}, {NONE_SHORT, 8, RIGHT_FAULT, GOOD_VIEW, 12},
    {NONE_SHORT, 8, BOTTOM_FAULT, GOOD_VIEW, 12},
    {NONE_SHORT, 8, SOUND_TWO, NARROW_VIEW, 3}, {NONE_SHORT, 8, SOUND_TWO, 64, 31, {1024, 256, 256}, 3},
    {NONE_SHORT, 8, SOUND_TWO, SHORT_VIEW, 4}, {NONE_SHORT, 8, SOUND_TWO, 64, 32, {1024, 255, 256}, 4},
    {NONE_SHORT, 8, SOUND_TWO, 64, 32, {1024, 256, 255}, 4},
    /* 1 before 7, 12, 3 and 4 */
    {Y, 7, SOUND_TWO, GOOD_VIEW, 1}, {MAP, 7, SOUND_TWO, GOOD_VIEW, 1},
    {Y, 8, LEFT_FAULT, GOOD_VIEW, 1}, {U, 8, TOP_FAULT, GOOD_VIEW, 1}, {V, 8, RIGHT_FAULT, GOOD_VIEW, 1}, {MAP, 8, BOTTOM_FAULT, GOOD_VIEW, 1},
    {MAP, 8, LEFT_FAULT, GOOD_VIEW, 1}, {Y, 8, SOUND_TWO, NARROW_VIEW, 1}, {MAP, 8, SOUND_TWO, NARROW_VIEW, 1},
    {V, 8, SOUND_TWO, SHORT_VIEW, 1}, {MAP, 8, SOUND_TWO, SHORT_VIEW, 1},
    /* 7 before 12: the first rectangle is unsound, or the one that the list ends in; before 3 and 4 */
    {NONE_SHORT, 7, RIGHT_FAULT, GOOD_VIEW, 7}, {NONE_SHORT, 5, RIGHT_FAULT, GOOD_VIEW, 7}, {NONE_SHORT, 7, LEFT_FAULT, GOOD_VIEW, 7},
    {NONE_SHORT, 3, RIGHT_FAULT, GOOD_VIEW, 7}, {NONE_SHORT, 7, SOUND_TWO, NARROW_VIEW, 7}, {NONE_SHORT, 7, SOUND_TWO, SHORT_VIEW, 7},
    {NONE_SHORT, 7, RIGHT_FAULT, BAD_VIEW, 7},
    /* 12 before 3 and 4, by each fault; a list that ends before the unsound rectangle is sound */
    {NONE_SHORT, 8, LEFT_FAULT, NARROW_VIEW, 12}, {NONE_SHORT, 8, TOP_FAULT, NARROW_VIEW, 12}, {NONE_SHORT, 8, RIGHT_FAULT, NARROW_VIEW, 12},
    {NONE_SHORT, 8, BOTTOM_FAULT, NARROW_VIEW, 12}, {NONE_SHORT, 8, LEFT_FAULT, SHORT_VIEW, 12}, {NONE_SHORT, 8, TOP_FAULT, SHORT_VIEW, 12},
    {NONE_SHORT, 8, RIGHT_FAULT, SHORT_VIEW, 12}, {NONE_SHORT, 8, BOTTOM_FAULT, SHORT_VIEW, 12}, {NONE_SHORT, 8, BOTTOM_FAULT, BAD_VIEW, 12},
    {NONE_SHORT, 4, RIGHT_FAULT, NARROW_VIEW, 12}, {NONE_SHORT, 4, LEFT_FAULT, NARROW_VIEW, 3}, {NONE_SHORT, 4, BOTTOM_FAULT, SHORT_VIEW, 4},
    {NONE_SHORT, 4, BOTTOM_FAULT, GOOD_VIEW, 0}, {NONE_SHORT, 0, RIGHT_FAULT, NARROW_VIEW, 3},
    /* 3 before 4; and all at once */
    {NONE_SHORT, 8, SOUND_TWO, BAD_VIEW, 3}, {NONE_SHORT, 8, SOUND_TWO, 63, 32, {1007, 256, 256}, 3},
    {Y, 7, RIGHT_FAULT, BAD_VIEW, 1}, {MAP, 7, RIGHT_FAULT, BAD_VIEW, 1}, {U, 8, RIGHT_FAULT, BAD_VIEW, 1}};

static void strict_in_order(void)
{
    for (size_t k = 0; k < sizeof ordered / sizeof *ordered; k++)
        for (int call = MAIN_STRICT; call <= AUX_V2_EXACT_STRICT; call++) {
            const Ordered *o = &ordered[k];
            Args a = mapped(48, 16);
            view(&a, 64, 16, 64, 32);
            lend_list(&a, o->rects, o->numbers);
            if (o->shorter != NONE_SHORT)
                a.count[o->shorter]--;
            a.luma_stride = o->luma, a.chroma_stride = o->chroma;
            for (int p = 0; p < 3; p++)
                a.count[VIEW_Y + p] = o->view[p];
            strict_is((enum call)call, &a, o->number, o->number == 0 && o->numbers > 0, "1, 7, 12, 3 and 4 in order");
            check(the_number((enum call)call, &a) == o->number, "the rule", "1, 7, 12, 3 and 4 in order");
            over((enum call)call);
        }
}

/* Numbers that look random, and are the same in every run. */
static uint32_t drawn_state;

static uint32_t drawn(uint32_t below)
{
    drawn_state = drawn_state * 1664525u + 1013904223u;
    return (uint32_t)((uint64_t)(drawn_state >> 8) * below >> 24);
}

/* A rectangle that is sound where the picture has one. */
static void draw_sound(uint16_t rect[4], uint16_t width, uint16_t height)
{
    rect[0] = (uint16_t)drawn(width), rect[1] = (uint16_t)drawn(height);
    rect[2] = (uint16_t)(rect[0] + 1u + drawn(width - rect[0])), rect[3] = (uint16_t)(rect[1] + 1u + drawn(height - rect[1]));
}

/* The planes and the map of two pictures of one size. */
static bool alike(const Args *a, const Args *b)
{
    bool same = true;
    for (int s = Y; s <= V; s++)
        same = same && memcmp(a->at[s], b->at[s], a->count[s]) == 0;
    return same && memcmp(a->at[MAP], b->at[MAP], a->count[MAP]) == 0;
}

/* A sound list, and a view of about the picture's size: the strict call answers and leaves what the one that clips does. */
static void strict_as_clipping(void)
{
    unsigned long changed = 0;
    drawn_state = 1;
    for (int turn = 0; turn < 60; turn++)
        for (int call = MAIN_STRICT; call <= AUX_V2_EXACT_STRICT; call++) {
            const uint16_t width = (uint16_t)(1 + drawn(50)), height = (uint16_t)(1 + drawn(40));
            const uint16_t across = (uint16_t)drawn(80), down = (uint16_t)drawn(60);
            Args one = mapped(width, height), two = {0};
            view(&one, across, down, across + drawn(3), (across + 1u) / 2 + drawn(3));
            if (drawn(10) == 0)
                one.count[VIEW_U + drawn(2)] /= 2;
            lend_list(&one, NULL, 4 * drawn(6));
            for (size_t k = 0; k < one.count[RECTS]; k += 4)
                draw_sound((uint16_t *)one.at[RECTS] + k, width, height);
            two = one;
            for (int s = Y; s <= V; s++)
                lend_as(&two, (enum slice)s, one.count[s], one.at[s]);
            lend_as(&two, MAP, one.count[MAP], one.at[MAP]);
            const Result strict = tried((enum call)call, &one), clips = run(clipping((enum call)call), &two);
            check(is_refusal(&strict, clips.number), call_names[call], "the number of the call that clips");
            check(alike(&one, &two), call_names[call], "every byte of the call that clips");
            changed += !lent_kept();
            over((enum call)call);
        }
    check(changed > 150, "the strict calls", "most of the lists change something");
}

/* An edge: in the picture, at its end, one above it, or anywhere. */
static uint16_t drawn_edge(uint16_t side)
{
    static const uint32_t above[] = {0, 0, 1};
    return (uint16_t)(drawn(20) == 0 ? drawn(65536) : drawn(4) == 0 ? side + above[drawn(3)] : drawn(side + 1u));
}

/* Lists of up to six rectangles of any kind, mostly in order, against the rule said again; every fault and every index is met. */
static void first_by_the_rule(void)
{
    unsigned long faults[5] = {0}, indices[6] = {0};
    drawn_state = 2;
    for (int turn = 0; turn < 3000; turn++) {
        Args a = {0};
        a.width = (uint16_t)drawn(30), a.height = (uint16_t)drawn(30);
        lend_list(&a, NULL, 4 * drawn(7));
        uint16_t *list = a.at[RECTS];
        for (size_t k = 0; k < a.count[RECTS]; k += 4) {
            for (size_t edge = 0; edge < 4; edge++)
                list[k + edge] = drawn_edge(edge % 2 == 0 ? a.width : a.height);
            if (drawn(8) != 0 && a.width > 0 && a.height > 0)
                draw_sound(list + k, a.width, a.height);
        }
        const Result r = tried(FIRST_UNSOUND, &a);
        check(first_is(&a, &r) && lent_kept(), "first_unsound", "by the rule");
        if (r.fault < 5 && r.index < 6)
            faults[r.fault]++, indices[r.index] += r.present;
        over(FIRST_UNSOUND);
    }
    for (int k = 0; k < 6; k++)
        check(indices[k] > 10 && (k == 5 || faults[k] > 10), "first_unsound", "every fault and every index is met");
}

/* Lists of which each rectangle is unsound once in a while, in all five calls: 12 exactly where the rule says so. */
static void strict_by_the_rule(void)
{
    unsigned long refused = 0, accepted = 0;
    drawn_state = 3;
    for (int turn = 0; turn < 100; turn++)
        for (int call = MAIN_STRICT; call <= AUX_V2_EXACT_STRICT; call++) {
            const uint16_t width = (uint16_t)(1 + drawn(40)), height = (uint16_t)(1 + drawn(40));
            Args a = mapped(width, height);
            view(&a, (uint16_t)up_to(width, 32), (uint16_t)up_to(height, 16), up_to(width, 32), up_to(width, 32) / 2);
            lend_list(&a, NULL, 4 * (1 + drawn(5)));
            uint16_t *list = a.at[RECTS];
            for (size_t k = 0; k < a.count[RECTS]; k += 4) {
                draw_sound(list + k, width, height);
                if (drawn(6) == 0)
                    list[k + drawn(4)] = (uint16_t)drawn(50);
            }
            const bool unsound = unsound_at(&a) < a.count[RECTS] / 4;
            ++*(unsound ? &refused : &accepted);
            strict_is((enum call)call, &a, unsound ? 12 : 0, !unsound, "by the rule");
            over((enum call)call);
        }
    check(refused > 100 && accepted > 100, "the strict calls", "lists of both kinds");
}

static void strict_lists(void)
{
    sound_by_hand();
    whole_lists_by_hand();
    list_ends_by_hand();
    no_side_strict();
    other_views_by_hand();
    widest_strict();
    strict_in_order();
    strict_as_clipping();
    first_by_the_rule();
    strict_by_the_rule();
}

#endif
