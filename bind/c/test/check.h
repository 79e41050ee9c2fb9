/* What the parts of the test share, and tests/stored: counting, the trap, and buffers for a picture and a view. */
#ifndef CHECK_H
#define CHECK_H

#include <signal.h>

#include "calls.h"
#include "lend.h"

enum { MOST_SAID = 40 }; /* after so many that are wrong, the rest is counted alone */
static unsigned long checks, wrong;
static const char *trying = "nothing yet";

static void check(bool holds, const char *call, const char *what)
{
    checks++;
    if (!holds && wrong++ < MOST_SAID)
        printf("wrong: %s, %s, buffers %s\n", call, what, place_names[place]);
}

/* Something touched memory that it was not lent. Status 3, which no answer gives, however wrong. */
static void trapped(int which)
{
    static const char said[] = "c: a trap in the call ";
    (void)which;
    const bool told = write(1, said, sizeof said - 1) > 0 && write(1, trying, strlen(trying)) > 0 && write(1, "\n", 1) > 0;
    _exit(told ? 3 : 4);
}

static void trap(void)
{
    static const int traps[] = {SIGSEGV, SIGBUS, SIGILL, SIGFPE};
    for (size_t k = 0; k < sizeof traps / sizeof *traps; k++)
        signal(traps[k], trapped);
}

static bool is_strict(enum call call)
{
    return call >= MAIN_STRICT && call <= AUX_V2_EXACT_STRICT;
}

/* The call that clips, of a strict one; any other call itself. */
static enum call clipping(enum call call)
{
    return is_strict(call) ? (enum call)(call - MAIN_STRICT + MAIN) : call;
}

static Result tried(enum call call, const Args *a)
{
    trying = call_names[call];
    lent_seen();
    return run(call, a);
}

/* The buffers of one case go back, and no byte around them has changed. */
static void over(enum call call)
{
    check(lent_back(), call_names[call], "a byte around a buffer has changed");
}

static bool same_stream(const haythaw_stream *a, const haythaw_stream *b)
{
    return a->count == b->count && a->rects == b->rects && a->pairs == b->pairs && a->data == b->data && a->length == b->length;
}

/* The number, and in every other field of any result 0. */
static bool is_refusal(const Result *r, uint32_t number)
{
    static const haythaw_stream none;
    return r->number == number && !r->present && !r->yes && r->count == 0 && r->filtered_u == 0 && r->filtered_v == 0 && r->stale == 0 && r->start == 0 &&
           r->length == 0 && r->width == 0 && r->height == 0 && r->luma_stride == 0 && r->chroma_stride == 0 && r->kind == 0 &&
           same_stream(&r->luma, &none) && same_stream(&r->chroma, &none) && r->left == 0 && r->top == 0 && r->right == 0 &&
           r->bottom == 0 && r->value == 0 && r->quality == 0 && !r->reserved && !r->progressive && r->fault == 0 && r->index == 0 && !r->same &&
           !r->named && r->view == 0 && r->plane == 0 && r->at_row == 0 && r->at_column == 0;
}

static bool all_are(const uint8_t *bytes, size_t count, uint8_t value)
{
    for (size_t k = 0; k < count; k++)
        if (bytes[k] != value)
            return false;
    return true;
}

static size_t up_to(size_t n, size_t unit)
{
    return (n + unit - 1) / unit * unit;
}

/* Bytes of an element. */
static size_t element(enum slice slice)
{
    return slice == RECTS || slice == NUMBERS || slice == L_RECTS || slice == C_RECTS ? 2 : 1;
}

/* A picture whose planes have so many bytes, and whose map a quarter of them. */
static void picture(Args *a, uint16_t width, uint16_t height, size_t plane)
{
    a->width = width;
    a->height = height;
    for (int s = Y; s <= V; s++) {
        a->at[s] = lend(plane);
        a->count[s] = plane;
    }
    a->at[MAP] = lend(plane / 4);
    a->count[MAP] = plane / 4;
}

static void lend_as(Args *a, enum slice slice, size_t count, const uint8_t *bytes)
{
    a->at[slice] = lend(count);
    a->count[slice] = count;
    if (bytes != NULL && count > 0)
        memcpy(a->at[slice], bytes, count);
}

/* A view whose every sample differs from its neighbours and from what a picture held. */
static void view(Args *a, uint16_t width, uint16_t height, size_t luma_stride, size_t chroma_stride)
{
    const size_t half = ((size_t)height + 1) / 2;
    a->view_width = width;
    a->view_height = height;
    a->luma_stride = luma_stride;
    a->chroma_stride = chroma_stride;
    lend_as(a, VIEW_Y, luma_stride * height, NULL);
    lend_as(a, VIEW_U, chroma_stride * half, NULL);
    lend_as(a, VIEW_V, chroma_stride * half, NULL);
}

static bool within(const size_t area[4], size_t row, size_t col)
{
    return area[0] <= col && col < area[2] && area[1] <= row && row < area[3];
}

#endif
