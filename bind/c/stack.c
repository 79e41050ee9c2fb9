/* How much stack each call uses: it runs on a stack of its own that is painted before, and the lowest byte that has changed
 * says how far down it went. Counted from the frame of the function that makes the call, so its arguments on the stack, a result
 * that is returned in memory and the return address are in the number. Each call is run once before, so that the dynamic linker
 * has bound memcpy and memset, and then with two paints, in case the call writes one of them. Run by hand:
 *
 *   cc -std=c99 -O1 -Wall -Wextra -Wpedantic bind/c/stack.c oracle/build/libhaythaw.a -o stack && ./stack */
#define _DEFAULT_SOURCE
#include <stdio.h>
#include <stdlib.h>
#include <string.h>
#include <ucontext.h>

#define HAYTHAW_MUST_USE /* how a call went is not looked at here */
#include "test/calls.h"

enum { STACK = 1 << 18 };
static uint8_t stack[STACK];
static uint8_t *deepest, *from;
static ucontext_t back, there;
static const Args *lent;
static enum call chosen;

/* Each in a function of its own, so that no frame has room for the others. */
#define ALONE(name, call) \
    static __attribute__((noinline)) void name(const Args *a) \
    { \
        from = __builtin_frame_address(0); \
        call; \
    }
ALONE(do_new, haythaw_new(PICTURE))
ALONE(do_from_rgba, haythaw_from_rgba(LENT(RGBA), PICTURE))
ALONE(do_from_rgba_rust, haythaw_from_rgba_rust(LENT(RGBA), PICTURE))
ALONE(do_from_rgba_limited, haythaw_from_rgba_limited(LENT(RGBA), PICTURE))
ALONE(do_to_rgba, haythaw_to_rgba(PICTURE, a->left, a->top, a->right, a->bottom, LENT(OUT)))
ALONE(do_main, haythaw_apply_main_view(PICTURE, LENT(RECTS), A_VIEW))
ALONE(do_aux_v1, haythaw_apply_auxiliary_v1(PICTURE, LENT(RECTS), A_VIEW))
ALONE(do_aux_v2, haythaw_apply_auxiliary_v2(PICTURE, LENT(RECTS), A_VIEW))
ALONE(do_aux_v2_32, haythaw_apply_auxiliary_v2_32(PICTURE, LENT(RECTS), A_VIEW))
ALONE(do_aux_v2_exact, haythaw_apply_auxiliary_v2_exact(PICTURE, LENT(RECTS), A_VIEW))
ALONE(do_main_strict, haythaw_apply_main_view_strict(PICTURE, LENT(RECTS), A_VIEW))
ALONE(do_aux_v1_strict, haythaw_apply_auxiliary_v1_strict(PICTURE, LENT(RECTS), A_VIEW))
ALONE(do_aux_v2_strict, haythaw_apply_auxiliary_v2_strict(PICTURE, LENT(RECTS), A_VIEW))
ALONE(do_aux_v2_32_strict, haythaw_apply_auxiliary_v2_32_strict(PICTURE, LENT(RECTS), A_VIEW))
ALONE(do_aux_v2_exact_strict, haythaw_apply_auxiliary_v2_exact_strict(PICTURE, LENT(RECTS), A_VIEW))
ALONE(do_first_unsound, haythaw_first_unsound(a->width, a->height, LENT(RECTS)))
ALONE(do_split_v1, haythaw_split_v1(PLANES_ALONE, BOTH_VIEWS))
ALONE(do_split_v2, haythaw_split_v2(PLANES_ALONE, BOTH_VIEWS))
ALONE(do_split_v2_32, haythaw_split_v2_32(PLANES_ALONE, BOTH_VIEWS))
ALONE(do_check_v1, haythaw_check_v1(PLANES_ALONE, BOTH_CHECKED))
ALONE(do_check_v2, haythaw_check_v2(PLANES_ALONE, BOTH_CHECKED))
ALONE(do_check_v2_32, haythaw_check_v2_32(PLANES_ALONE, BOTH_CHECKED))
ALONE(do_view, haythaw_view(A_VIEW))
ALONE(do_luma_row, haythaw_luma_row(A_VIEW, a->row))
ALONE(do_u_row, haythaw_u_row(A_VIEW, a->row))
ALONE(do_v_row, haythaw_v_row(A_VIEW, a->row))
ALONE(do_view_to_rgba, haythaw_view_to_rgba(A_VIEW, LENT(OUT)))
ALONE(do_view_to_rgba_limited, haythaw_view_to_rgba_limited(A_VIEW, LENT(OUT)))
ALONE(do_is_avc, haythaw_is_avc_format(LENT(DATA)))
ALONE(do_annex_b, haythaw_avc_to_annex_b(LENT(DATA), LENT(OUT)))
ALONE(do_read, haythaw_avc444_read(LENT(PAYLOAD)))
ALONE(do_luma_rectangle, haythaw_avc444_luma_rectangle(LENT(PAYLOAD), a->i))
ALONE(do_chroma_rectangle, haythaw_avc444_chroma_rectangle(LENT(PAYLOAD), a->i))
ALONE(do_luma_pair, haythaw_avc444_luma_pair(LENT(PAYLOAD), a->i))
ALONE(do_chroma_pair, haythaw_avc444_chroma_pair(LENT(PAYLOAD), a->i))
ALONE(do_luma_rects, haythaw_avc444_luma_rects(LENT(PAYLOAD), LENT(NUMBERS)))
ALONE(do_chroma_rects, haythaw_avc444_chroma_rects(LENT(PAYLOAD), LENT(NUMBERS)))
ALONE(do_write, haythaw_avc444_write(a->kind, BOTH_STREAMS, LENT(OUT)))
ALONE(do_allocation_size, haythaw_allocation_size(a->width, a->height))
ALONE(do_map_size, haythaw_map_size(a->width, a->height))

static void (*const alone[CALLS + 2])(const Args *) = {
    do_new, do_from_rgba, do_from_rgba_rust, do_from_rgba_limited, do_to_rgba, do_main, do_aux_v1, do_aux_v2, do_aux_v2_32, do_aux_v2_exact,
    do_main_strict, do_aux_v1_strict, do_aux_v2_strict, do_aux_v2_32_strict, do_aux_v2_exact_strict, do_first_unsound, do_split_v1, do_split_v2,
    do_split_v2_32, do_check_v1, do_check_v2, do_check_v2_32, do_view, do_luma_row, do_u_row, do_v_row, do_view_to_rgba, do_view_to_rgba_limited,
    do_is_avc, do_annex_b, do_read, do_luma_rectangle, do_chroma_rectangle, do_luma_pair, do_chroma_pair, do_luma_rects, do_chroma_rects, do_write,
    do_allocation_size, do_map_size};

static void on_its_own_stack(void)
{
    alone[chosen](lent);
}

static size_t depth(enum call call, const Args *a, uint8_t paint)
{
    chosen = call;
    lent = a;
    memset(stack, paint, STACK);
    getcontext(&there);
    there.uc_stack.ss_sp = stack;
    there.uc_stack.ss_size = STACK;
    there.uc_link = &back;
    makecontext(&there, on_its_own_stack, 0);
    swapcontext(&back, &there);
    for (deepest = stack; deepest < from && *deepest == paint;)
        deepest++;
    return (size_t)(from - deepest);
}

static void put_u32(uint8_t *bytes, uint32_t number)
{
    for (int k = 0; k < 4; k++)
        bytes[k] = (uint8_t)(number >> 8 * k);
}

/* Planes and views are as wide as the 32 rule has them, and the list is sound, so that every call finds all that it takes. An AVC444 payload goes with a picture: two streams, each with as many rectangles as the picture has columns, all zero. So does what
 * one is written from, with as many H.264 bytes as a plane has. */
static Args of_size(uint16_t width, uint16_t height)
{
    const uint16_t rects[8] = {1, 1, width, height, 0, 0, 2, 2};
    static uint8_t units[6] = {0, 0, 0, 2, 0x67, 0x42};
    Args a = {0};
    const size_t wide = (width + 31u) / 32 * 32, rows = (height + 15u) / 16 * 16, plane = wide * rows;
    a.width = width, a.height = height, a.right = width, a.bottom = height;
    a.view_width = (uint16_t)wide, a.view_height = (uint16_t)rows, a.luma_stride = wide, a.chroma_stride = wide / 2;
    for (int s = Y; s < SLICES; s++) {
        a.count[s] = s == RGBA || s == OUT ? 4 * plane : plane;
        a.at[s] = calloc(a.count[s], 1);
        if (a.at[s] == NULL)
            exit(2);
    }
    memcpy(a.at[RECTS], rects, sizeof rects);
    a.count[RECTS] = 8;
    a.at[DATA] = units, a.count[DATA] = sizeof units;
    const uint32_t stream = 4 + 10u * width;
    uint8_t *const payload = a.at[PAYLOAD];
    put_u32(payload, stream);
    put_u32(payload + 4, width);
    put_u32(payload + 4 + stream, width);
    a.count[PAYLOAD] = 4 + 2 * stream;
    a.count[NUMBERS] /= 2;
    a.count[L_RECTS] = a.count[C_RECTS] = 4u * width;
    a.count[L_PAIRS] = a.count[C_PAIRS] = 2u * width;
    a.i = width - 1u;
    return a;
}

/* What a call uses, by two paints. */
static size_t used(enum call call, const Args *a)
{
    const size_t one = depth(call, a, 0xA5), two = depth(call, a, 0x3C);
    return one > two ? one : two;
}

/* A check of the views that its own split has left, so that it goes to the end; and of these with their very last sample altered, which it
 * has to find. */
static size_t used_by_check(enum call call, Args a)
{
    const Result views = run((enum call)(call - CHECK_V1 + SPLIT_V1), &a);
    for (int which = 0; which < BOTH; which++)
        a.shape[which] = (Shape){views.width, views.height, views.luma_stride, views.chroma_stride};
    uint8_t *const last = (uint8_t *)a.at[AUX_V] + views.chroma_stride * (views.height / 2u) - 1;
    if (!run(call, &a).same)
        exit(1);
    const size_t yes = used(call, &a);
    ++*last;
    if (!run(call, &a).named)
        exit(1);
    const size_t no = used(call, &a);
    return yes > no ? yes : no;
}

int main(void)
{
    const Args tiny = of_size(2, 2), large = of_size(1920, 1080);
    printf("%-32s %10s %10s\n", "call, bytes", "2x2", "1920x1080");
    for (int call = 0; call <= CALLS + 1; call++) {
        const Args *const sizes[2] = {&tiny, &large};
        size_t most[2];
        for (int k = 0; k < 2; k++) {
            if (call < CALLS && run((enum call)call, sizes[k]).number != 0)
                return 1;
            most[k] = is_check((enum call)call) ? used_by_check((enum call)call, *sizes[k]) : used((enum call)call, sizes[k]);
        }
        printf("%-32s %10zu %10zu\n", call < CALLS ? call_names[call] : call == CALLS ? "allocation_size" : "map_size", most[0], most[1]);
    }
    return 0;
}
