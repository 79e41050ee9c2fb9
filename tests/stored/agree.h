/* agree_run: demand 3, run on small pictures. A picture goes by V1 onto one earlier picture and by V2 onto another, over one list; then each
 * luma sample of the pixels and each chroma sample of the padded planes is compared with what the demand says: the picture's inside a
 * rectangle, widened for chroma, and the earlier picture's own elsewhere. A case is run three times (sample).
 *
 * A line says how many bytes were compared, inside and elsewhere, and how many differ. Those of the map are compared too, and counted only
 * where they differ. The steps are the header's calls, one after the other; where one refuses, the line says its number and how many bytes of
 * all the lent buffers that step changed. */
#ifndef STORED_AGREE_H
#define STORED_AGREE_H

#include "cases.h"

/* The bytes of every buffer: more than a plane of 48 by 32 needs. Of the second earlier picture's V, `second_v` are lent. */
enum { ROOM = 1600, RUNS = 3 };
typedef struct { const char *name; uint16_t width, height; size_t second_v, numbers; uint16_t list[16]; } AgreeCase;
#define WHOLE_LIST 4, {0, 0, 65535, 65535}
static const AgreeCase agree_cases[] = {
    {"0x0, whole", 0, 0, ROOM, WHOLE_LIST},
    {"1x1, whole", 1, 1, ROOM, WHOLE_LIST},
    {"16x16, whole", 16, 16, ROOM, WHOLE_LIST},
    {"33x18, whole", 33, 18, ROOM, WHOLE_LIST},
    {"48x16, whole", 48, 16, ROOM, WHOLE_LIST},
    {"16x16, no rectangle", 16, 16, ROOM, 0, {0}},
    {"16x16, a column", 16, 16, ROOM, 4, {7, 0, 8, 16}},
    {"17x3, odd edges", 17, 3, ROOM, 4, {15, 1, 17, 2}},
    {"33x18, odd edges", 33, 18, ROOM, 4, {3, 5, 20, 16}},
    {"5x5, empty at an odd edge", 5, 5, ROOM, 4, {5, 0, 5, 4}},
    {"5x5, empty at an even edge", 5, 5, ROOM, 4, {4, 0, 4, 4}},
    {"33x18, reversed and off", 33, 18, ROOM, 12, {20, 10, 5, 3, 40, 2, 60, 9, 0, 18, 33, 30}},
    {"33x18, several, one twice", 33, 18, ROOM, 16, {1, 1, 4, 4, 20, 3, 65535, 17, 1, 1, 4, 4, 3, 2, 22, 6}},
    {"16x16, a list of 5", 16, 16, ROOM, 5, {0, 0, 4, 4, 9}},
    {"16x16, the second picture short", 16, 16, 255, WHOLE_LIST},
    {"48x48, planes short", 48, 48, ROOM, WHOLE_LIST},
    {"65521x0, too large", 65521, 0, ROOM, WHOLE_LIST},
};

/* Whose plane it is. */
enum whose { PICTURE_ITSELF, FIRST_EARLIER, SECOND_EARLIER, A_VIEWS };

/* What a buffer holds at a place before the calls: below 64 two digits of the place and the plane, in a run each, so that two samples, of
 * one plane or of two, of one picture or of two, differ in one of the three runs. */
static uint8_t sample(enum whose whose, int plane, int run, size_t place)
{
    const size_t digit = run == 0 ? place % 64 : run == 1 ? place / 64 % 64 : (size_t)plane;
    return (uint8_t)(64u * whose + digit);
}

static void lend_samples(Args *a, enum slice first, enum whose whose, int run, size_t third)
{
    for (int p = 0; p < 3; p++) {
        lend_as(a, (enum slice)(first + p), p == 2 ? third : ROOM, NULL);
        for (size_t k = 0; k < a->count[first + p]; k++)
            ((uint8_t *)a->at[first + p])[k] = sample(whose, p, run, k);
    }
}

/* What was compared of luma and of chroma, how many bytes differ, the number of a refusal, and how many bytes it changed. */
typedef struct { unsigned long inside[2], elsewhere[2], differ, number, changed; } Found;

/* A plane of an earlier picture after the calls; of luma, the picture's pixels alone. */
static void compare_plane(Found *f, const Args *a, enum whose whose, int plane, int run)
{
    const size_t stride = up_to(a->width, 16), bytes = least(plane_of(a->width, a->height), a->count[plane]);
    const bool chroma = plane != Y;
    for (size_t k = 0; k < bytes; k++) {
        const size_t row = k / stride, col = k % stride;
        if (!chroma && (row >= a->height || col >= a->width))
            continue;
        const bool inside = taken(a, chroma, row, col);
        ++*(inside ? &f->inside[chroma] : &f->elsewhere[chroma]);
        f->differ += ((const uint8_t *)a->at[plane])[k] != sample(inside ? PICTURE_ITSELF : whose, plane, run, k);
    }
}

/* The map of an earlier picture after the calls: 2 in every block of a widened rectangle, and elsewhere as lend_map had it. */
static void compare_map(Found *f, const Args *a)
{
    const size_t across = up_to(a->width, 16) / 2, blocks = across * (up_to(a->height, 16) / 2);
    Args before = {0};
    lend_map(&before, a->count[MAP]);
    for (size_t k = 0; k < blocks; k++) {
        const bool inside = taken(a, true, 2 * (k / across), 2 * (k % across));
        f->differ += ((const uint8_t *)a->at[MAP])[k] != (inside ? 2 : ((const uint8_t *)before.at[MAP])[k]);
    }
}

/* Bytes of all lent buffers that the last call changed. */
static unsigned long changed_bytes(void)
{
    unsigned long changed = 0;
    for (size_t i = 0; i < lents_used; i++)
        for (size_t k = 0; k < lents[i].size; k++)
            changed += lents[i].bytes[k] != lents[i].seen[k];
    return changed;
}

/* The picture is split, and its main and then its auxiliary view go into the earlier one. Gives the number of the first call that refuses. */
static uint32_t through(int layout, const Args *from, Args *to)
{
    const Result views = asked((enum call)(SPLIT_V1 + layout), from);
    uint32_t number = views.number;
    to->view_width = views.width, to->view_height = views.height;
    to->luma_stride = views.luma_stride, to->chroma_stride = views.chroma_stride;
    for (int auxiliary = 0; auxiliary < 2 && number == 0; auxiliary++) {
        for (int p = 0; p < 3; p++) {
            to->at[VIEW_Y + p] = from->at[(auxiliary ? AUX_Y : MAIN_Y) + p];
            to->count[VIEW_Y + p] = from->count[(auxiliary ? AUX_Y : MAIN_Y) + p];
        }
        number = asked(!auxiliary ? MAIN : (enum call)(AUX_V1 + layout), to).number;
    }
    return number;
}

static void agree_run_once(Found *f, const AgreeCase *c, int run)
{
    Args from = {0}, to[2] = {{0}, {0}};
    from.width = to[0].width = to[1].width = c->width, from.height = to[0].height = to[1].height = c->height;
    lend_samples(&from, Y, PICTURE_ITSELF, run, ROOM);
    lend_samples(&from, MAIN_Y, A_VIEWS, run, ROOM);
    lend_samples(&from, AUX_Y, A_VIEWS, run, ROOM);
    for (int which = 0; which < 2; which++) {
        lend_samples(&to[which], Y, which == 0 ? FIRST_EARLIER : SECOND_EARLIER, run, which == 0 ? ROOM : c->second_v);
        lend_numbers(&to[which], RECTS, c->list, c->numbers);
        lend_map(&to[which], ROOM / 4);
    }
    uint32_t number = through(0, &from, &to[0]);
    if (number == 0)
        number = through(1, &from, &to[1]);
    for (int which = 0; which < 2 && number == 0; which++)
        for (int p = Y; p <= V; p++)
            compare_plane(f, &to[which], which == 0 ? FIRST_EARLIER : SECOND_EARLIER, p, run);
    for (int which = 0; which < 2 && number == 0; which++)
        compare_map(f, &to[which]);
    if (number != 0)
        f->number = number, f->changed += changed_bytes();
    over(MAIN);
}

static void compared_words(const char *name, const Found *f)
{
    printf("%s: luma %lu inside, %lu elsewhere; chroma %lu inside, %lu elsewhere; %lu differ", name, f->inside[0], f->elsewhere[0],
           f->inside[1], f->elsewhere[1], f->differ);
}

static void agree_line(Found *sum, const AgreeCase *c)
{
    Found f = {{0}, {0}, 0, 0, 0};
    for (int run = 0; run < RUNS; run++)
        agree_run_once(&f, c, run);
    if (f.number != 0) {
        printf("%s: refused with %lu, %lu bytes changed\n", c->name, f.number, f.changed);
    } else {
        compared_words(c->name, &f);
        printf("\n");
    }
    for (int chroma = 0; chroma < 2; chroma++)
        sum->inside[chroma] += f.inside[chroma], sum->elsewhere[chroma] += f.elsewhere[chroma];
    sum->differ += f.differ, sum->changed += f.changed;
}

static void agree_run(void)
{
    Found sum = {{0}, {0}, 0, 0, 0};
    for (size_t k = 0; k < sizeof agree_cases / sizeof *agree_cases; k++)
        agree_line(&sum, &agree_cases[k]);
    compared_words("in all", &sum);
    printf("; %lu bytes changed by refusals\n", sum.changed);
}

#endif
