/* replay_layouts: auxiliary views of both layouts applied, and pictures split into both. */
#ifndef STORED_LAYOUTS_H
#define STORED_LAYOUTS_H

#include "cases.h"

/* The input begins with so many random bytes. A plane is half as many of them, from a place on: U's is 83, V's 167 after Y's. */
enum { RANDOM = 8192, RANDOM_PLANE = 4096 };

static void lend_planes(Args *a, enum slice first, size_t place)
{
    static const size_t after[3] = {0, 83, 167};
    whole(place + after[2] + RANDOM_PLANE <= RANDOM, "a plane's place is past the random bytes");
    for (int p = 0; p < 3; p++)
        lend_as(a, (enum slice)(first + p), RANDOM_PLANE, input + place + after[p]);
}

static void applied_words(Stored *c)
{
    lend_planes(&c->a, VIEW_Y, c->view_source);
    lend_map(&c->a, RANDOM_PLANE / 4);
    lend_numbers(&c->a, RECTS, c->rects, (size_t)4 * c->count);
    if (asked(c->which == 0 ? AUX_V1 : AUX_V2, &c->a).number != 0) {
        printf(" refused\n");
        return;
    }
    printf(":");
    say_three(&c->a, Y, RANDOM_PLANE, RANDOM_PLANE);
    printf("\n");
}

static void split_words(Stored *c)
{
    for (int s = MAIN_Y; s <= AUX_V; s++)
        lend_all(&c->a, (enum slice)s, RANDOM_PLANE, UNWRITTEN);
    const Result r = asked(c->which == 2 ? SPLIT_V1 : SPLIT_V2, &c->a);
    if (r.number != 0) {
        printf(" refused\n");
        return;
    }
    printf(": %u x %u, main", r.width, r.height);
    say_three(&c->a, MAIN_Y, RANDOM_PLANE, RANDOM_PLANE);
    printf(", auxiliary");
    say_three(&c->a, AUX_Y, RANDOM_PLANE, RANDOM_PLANE);
    printf("\n");
}

/* The calls: 0 is the auxiliary view of layout V1 onto a picture, 1 that of V2; 2 is a split into V1, 3 into V2. */
static void layouts_line(size_t index, const uint8_t *s)
{
    static const char *const names[4] = {"apply_auxiliary_v1", "apply_auxiliary_v2", "split_v1", "split_v2"};
    Stored c = stored_at(s);
    whole(c.which < 4, "a case of no call");
    printf("%zu: %s %u x %u", index, names[c.which], c.a.width, c.a.height);
    lend_planes(&c.a, Y, c.source);
    if (c.which < 2)
        applied_words(&c);
    else
        split_words(&c);
    over(SPLIT_V1);
}

static void replay_layouts(void)
{
    whole(input_count >= RANDOM, "the input ends within the random bytes");
    each_of(RANDOM, PICTURE_CASE, layouts_line);
}

#endif
