/* The checks of another encoder's pair of views: by hand at every edge, every place of small views, the order of the numbers and of the places,
 * and beside the rules said again (places.h) over random pictures, views, sizes and strides. */
#ifndef CHECKED_H
#define CHECKED_H

#include "sizes.h"
#include "strict.h"

static const char *const view_names[BOTH] = {"of the main view", "of the auxiliary view"};

/* A picture of any bytes, exactly lent, with no map. */
static Args picture_alone(uint16_t width, uint16_t height)
{
    const size_t plane = up_to(width, 16) * up_to(height, 16);
    Args a = {0};
    a.width = width, a.height = height;
    for (int s = Y; s <= V; s++)
        lend_as(&a, (enum slice)s, plane, NULL);
    return a;
}

/* Planes for a view of these sizes and strides, exactly lent and of any bytes. */
static void lend_shape(Args *a, int view, uint16_t width, uint16_t height, size_t luma, size_t chroma)
{
    const int first = view == MAIN_VIEW ? MAIN_Y : AUX_Y;
    a->shape[view] = (Shape){width, height, luma, chroma};
    lend_as(a, (enum slice)first, luma * height, NULL);
    for (int plane = 1; plane < 3; plane++)
        lend_as(a, (enum slice)(first + plane), chroma * ((height + 1u) / 2), NULL);
}

/* Every sample that a view has in common with the split's, as the split has it. */
static void fill_shape(enum call call, const Args *a, int view)
{
    const Shape *s = &a->shape[view];
    for (int plane = Y; plane <= V; plane++) {
        const size_t columns = plane == Y ? s->width : (s->width + 1u) / 2, rows = plane == Y ? s->height : (s->height + 1u) / 2;
        for (size_t row = 0; row < rows && row < rows_of(a, plane); row++)
            for (size_t col = 0; col < columns && col < columns_of(call, a, plane); col++)
                *sample_of(a, view, plane, row, col) = of_split(call, a, view, plane, row, col);
    }
}

/* A picture and its two views, with rows so many bytes longer than they are wide: luma and chroma of main, then of auxiliary. */
static Args pair(enum call call, uint16_t width, uint16_t height, const size_t more[4])
{
    Args a = picture_alone(width, height);
    const size_t wide = wide_of(call, &a);
    for (int view = 0; view < BOTH; view++) {
        lend_shape(&a, view, (uint16_t)wide, (uint16_t)up_to(height, 16), wide + more[2 * view], wide / 2 + more[2 * view + 1]);
        fill_shape(call, &a, view);
    }
    return a;
}

/* Two views as the library splits the picture, whatever was there before. */
static void lend_split(enum call call, Args *a)
{
    const size_t luma = wide_of(call, a) * rows_of(a, Y);
    for (int s = MAIN_Y; s <= AUX_V; s++)
        lend_as(a, (enum slice)s, s == MAIN_Y || s == AUX_Y ? luma : luma / 4, NULL);
    const Result r = run((enum call)(call - CHECK_V1 + SPLIT_V1), a);
    a->shape[MAIN_VIEW] = a->shape[AUX_VIEW] = (Shape){r.width, r.height, r.luma_stride, r.chroma_stride};
}

static const size_t tight[4] = {0, 0, 0, 0}, loose[4] = {1, 2, 3, 5};

/* A yes (same), or nothing named and no yes: sizes, or a refusal. */
static void answers(enum call call, const Args *a, uint32_t number, bool same, const char *what)
{
    Result want = {0};
    want.number = number, want.same = same;
    const Result r = tried(call, a);
    check(same_checked(&r, &want), call_names[call], what);
    check(lent_kept(), call_names[call], "a check changed a byte");
}

static void names(enum call call, const Args *a, int view, int plane, size_t row, size_t col, const char *what)
{
    Result want = {0};
    want.named = true;
    want.view = (uint8_t)view, want.plane = (uint8_t)plane, want.at_row = (uint16_t)row, want.at_column = (uint16_t)col;
    const Result r = tried(call, a);
    check(same_checked(&r, &want), call_names[call], what);
    check(lent_kept(), call_names[call], "a check changed a byte");
}

/* Lets every lent buffer be read and not written, or written again. On the heap it cannot be said. */
static void lent_for_reading(bool only)
{
    const size_t page = (size_t)sysconf(_SC_PAGESIZE);
    for (size_t i = 0; i < lents_used; i++)
        if (lents[i].map != NULL && lents[i].pages > 0)
            must(mprotect(lents[i].map + page, lents[i].pages, only ? PROT_READ : PROT_READ | PROT_WRITE) == 0);
}

/* Pictures without pixels, of odd sides, at and about whole blocks, with rows of the views just as long as they are wide and longer. Nothing
 * may be written: it is lent where it cannot be. */
static void yes_by_hand(void)
{
    static const uint16_t sizes[][2] = {{0, 0}, {0, 5}, {5, 0}, {0, 65520}, {65504, 0}, {1, 1}, {2, 2}, {5, 5}, {15, 17}, {16, 16}, {17, 16},
                                        {16, 17}, {31, 33}, {32, 32}, {33, 1}, {48, 16}, {49, 3}, {63, 18}, {64, 16}, {65, 2}, {129, 7}};
    for (size_t k = 0; k < sizeof sizes / sizeof *sizes; k++)
        for (int call = CHECK_V1; call <= CHECK_V2_32; call++)
            for (int longer = 0; longer < 2; longer++) {
                Args a = pair((enum call)call, sizes[k][0], sizes[k][1], longer ? loose : tight);
                answers((enum call)call, &a, 0, true, "a split");
                lent_for_reading(true);
                answers((enum call)call, &a, 0, true, "a split that cannot be written");
                lent_for_reading(false);
                over((enum call)call);
            }
    for (int call = CHECK_V1; call <= CHECK_V2_32; call++) {
        const Args none = {0};
        answers((enum call)call, &none, 0, true, "0 x 0, all null");
    }
}

/* Bytes between the width and the stride, and after the last row of a longer plane, may be anything. */
static void padding_by_hand(void)
{
    static const size_t more[][4] = {{1, 1, 1, 1}, {16, 8, 16, 8}, {0, 9, 64, 0}, {100, 0, 0, 100}};
    for (size_t k = 0; k < sizeof more / sizeof *more; k++)
        for (int call = CHECK_V1; call <= CHECK_V2_32; call++) {
            Args a = pair((enum call)call, 33, 17, more[k]);
            for (int s = MAIN_Y; s <= AUX_V; s++)
                lend_as(&a, (enum slice)s, a.count[s] + k, NULL);
            for (int every = 0; every < 3; every++) {
                if (every > 0)
                    for (int s = MAIN_Y; s <= AUX_V; s++)
                        memset(a.at[s], every == 1 ? 0 : 255, a.count[s]);
                fill_shape((enum call)call, &a, MAIN_VIEW);
                fill_shape((enum call)call, &a, AUX_VIEW);
                answers((enum call)call, &a, 0, true, "other bytes past the width");
            }
            over((enum call)call);
        }
}

/* One sample altered, each in its turn: by the lowest bit, the highest, and to 0 or 255. */
static void one_wrong(enum call call, const Args *a, int view, int plane, size_t row, size_t col)
{
    uint8_t *const at = sample_of(a, view, plane, row, col), was = *at;
    const uint8_t others[4] = {was ^ 1, was ^ 128, was == 0 ? 255 : 0, (uint8_t)(was + 1)};
    *at = others[(row + col) % 4];
    names(call, a, view, plane, row, col, view_names[view]);
    *at = was;
}

/* The first and the last sample of each of the six planes, and the ends of its first and last row. */
static void corners_by_hand(void)
{
    static const uint16_t sizes[][2] = {{1, 1}, {5, 5}, {16, 16}, {17, 33}, {48, 16}, {65, 15}, {200, 2}};
    for (size_t k = 0; k < sizeof sizes / sizeof *sizes; k++)
        for (int call = CHECK_V1; call <= CHECK_V2_32; call++)
            for (int longer = 0; longer < 2; longer++) {
                Args a = pair((enum call)call, sizes[k][0], sizes[k][1], longer ? loose : tight);
                for (int p = 0; p < 6; p++) {
                    const size_t last_row = rows_of(&a, p % 3) - 1, last_col = columns_of((enum call)call, &a, p % 3) - 1;
                    one_wrong((enum call)call, &a, p / 3, p % 3, 0, 0);
                    one_wrong((enum call)call, &a, p / 3, p % 3, 0, last_col);
                    one_wrong((enum call)call, &a, p / 3, p % 3, last_row, 0);
                    one_wrong((enum call)call, &a, p / 3, p % 3, last_row, last_col);
                }
                over((enum call)call);
            }
}

/* Every sample of the views of 33x17, which are 48 or 64 by 32. */
static void every_place(void)
{
    for (int call = CHECK_V1; call <= CHECK_V2_32; call++) {
        Args a = pair((enum call)call, 33, 17, loose);
        for (int p = 0; p < 6; p++)
            for (size_t row = 0; row < rows_of(&a, p % 3); row++)
                for (size_t col = 0; col < columns_of((enum call)call, &a, p % 3); col++)
                    one_wrong((enum call)call, &a, p / 3, p % 3, row, col);
        answers((enum call)call, &a, 0, true, "every sample as it was");
        over((enum call)call);
    }
}

/* Every column of long rows, in the first row and in the last: 257 is 272 wide or 288, and 289 is 304 or 320. Rows of V2 have quarters of 68 and
 * 76, so that parts of 64, of 8 and of 4 are met, and columns past the stride. */
static void every_column(void)
{
    static const uint16_t widths[] = {257, 289};
    for (size_t k = 0; k < 2; k++)
        for (int call = CHECK_V1; call <= CHECK_V2_32; call++) {
            Args a = pair((enum call)call, widths[k], 1, loose);
            for (int p = 0; p < 6; p++)
                for (size_t col = 0; col < columns_of((enum call)call, &a, p % 3); col++)
                    one_wrong((enum call)call, &a, p / 3, p % 3, k == 0 ? 0 : rows_of(&a, p % 3) - 1, col);
            over((enum call)call);
        }
}

/* The views of a side that is as long as can be, as the library splits them: the last row or column is 65,519, by the 32 rule the last column
 * 65,503. */
static void longest_checked(void)
{
    for (int call = CHECK_V1; call <= CHECK_V2_32; call++)
        for (int turned = 0; turned < 2; turned++) {
            const uint16_t longest = call == CHECK_V2_32 && !turned ? 65504 : 65520;
            Args a = turned ? picture_alone(1, longest) : picture_alone(longest, 1);
            lend_split((enum call)call, &a);
            answers((enum call)call, &a, 0, true, "the longest side");
            for (int p = 0; p < 6; p++) {
                const size_t rows = rows_of(&a, p % 3), columns = columns_of((enum call)call, &a, p % 3);
                check((turned ? rows : columns) == (size_t)longest / (p % 3 == Y ? 1 : 2), "the rule", "the longest side");
                one_wrong((enum call)call, &a, p / 3, p % 3, rows - 1, columns - 1);
            }
            over((enum call)call);
        }
}

/* Two wrong samples, of each two planes: the later plane's first and the earlier plane's last. The earlier plane's is named. */
static void two_planes_wrong(void)
{
    for (int call = CHECK_V1; call <= CHECK_V2_32; call++)
        for (int one = 0; one < 6; one++)
            for (int two = one + 1; two < 6; two++) {
                Args a = pair((enum call)call, 20, 33, loose);
                const size_t row = rows_of(&a, one % 3) - 1, col = columns_of((enum call)call, &a, one % 3) - 1;
                ++*sample_of(&a, two / 3, two % 3, 0, 0);
                ++*sample_of(&a, one / 3, one % 3, row, col);
                names((enum call)call, &a, one / 3, one % 3, row, col, "the first of two planes");
                over((enum call)call);
            }
}

/* Two wrong samples of one plane: by row, and in a row by column. Of a long row they lie 1, 64 and 100 columns apart. */
static void two_places_wrong(void)
{
    static const struct { size_t rows[2], columns[2]; } cases[] = {
        {{0, 1}, {5, 2}}, {{0, 1}, {2, 5}}, {{1, 1}, {2, 5}}, {{3, 3}, {0, 1}}, {{2, 7}, {0, 0}}, {{6, 7}, {7, 0}},
        {{4, 4}, {10, 74}}, {{4, 4}, {63, 64}}, {{0, 0}, {2, 102}}, {{5, 6}, {100, 3}}};
    for (size_t k = 0; k < sizeof cases / sizeof *cases; k++)
        for (int call = CHECK_V1; call <= CHECK_V2_32; call++)
            for (int p = 0; p < 6; p++) {
                Args a = pair((enum call)call, 240, 5, loose);
                for (int which = 0; which < 2; which++)
                    ++*sample_of(&a, p / 3, p % 3, cases[k].rows[which], cases[k].columns[which]);
                names((enum call)call, &a, p / 3, p % 3, cases[k].rows[0], cases[k].columns[0], "the first of two places");
                over((enum call)call);
            }
}

/* Everything wrong, and then everything of the auxiliary view: the very first sample is named. */
static void all_wrong(void)
{
    for (int call = CHECK_V1; call <= CHECK_V2_32; call++) {
        Args a = pair((enum call)call, 31, 31, loose);
        for (int s = MAIN_Y; s <= AUX_V; s++)
            for (size_t k = 0; k < a.count[s]; k++)
                ((uint8_t *)a.at[s])[k] ^= 255;
        names((enum call)call, &a, MAIN_VIEW, Y, 0, 0, "all wrong");
        for (int p = 0; p < 3; p++)
            for (size_t row = 0; row < rows_of(&a, p); row++)
                for (size_t col = 0; col < columns_of((enum call)call, &a, p); col++)
                    *sample_of(&a, MAIN_VIEW, p, row, col) ^= 255;
        names((enum call)call, &a, AUX_VIEW, Y, 0, 0, "all of the auxiliary view wrong");
        over((enum call)call);
    }
}

/* The auxiliary view of V1 where V2's is asked for, and the other way; by the 16 rule and by the 32 rule, where the picture is 32 wide, no
 * difference. The first wrong sample is by the rule. */
static void other_layout(void)
{
    for (int call = CHECK_V1; call <= CHECK_V2_32; call++)
        for (int other = CHECK_V1; other <= CHECK_V2_32; other++) {
            Args a = pair((enum call)other, 32, 16, tight);
            const Result want = check_by_rule((enum call)call, &a), r = tried((enum call)call, &a);
            check(want.same == ((call == CHECK_V1) == (other == CHECK_V1)), "the rule", "another layout");
            check(same_checked(&r, &want) && (want.same || (r.named && r.view == AUX_VIEW)), call_names[call], "another layout");
            over((enum call)call);
        }
}

/* One view so many columns and rows off, the samples that it has right, or the first of every plane wrong. */
static void wrong_sizes(enum call call, const uint16_t of[2], int view, int width, int height, const char *what)
{
    for (int wrong = 0; wrong < 2; wrong++) {
        Args a = pair(call, of[0], of[1], loose);
        const Shape right = a.shape[view];
        lend_shape(&a, view, (uint16_t)(right.width + width), (uint16_t)(right.height + height), right.luma_stride + 16, right.chroma_stride + 8);
        fill_shape(call, &a, view);
        if (wrong)
            for (int s = MAIN_Y; s <= AUX_V; s++)
                if (a.count[s] > 0)
                    ++*(uint8_t *)a.at[s];
        answers(call, &a, 0, false, what);
        over(call);
    }
}

/* Each view alone one off and 16 off, each way: nothing is named. */
static void sizes_off_by_hand(void)
{
    static const uint16_t sizes[][2] = {{33, 17}, {48, 16}, {16, 32}, {1, 1}};
    static const int off[] = {-16, -1, 1, 16};
    for (int call = CHECK_V1; call <= CHECK_V2_32; call++)
        for (int view = 0; view < BOTH; view++) {
            for (size_t k = 0; k < sizeof sizes / sizeof *sizes; k++)
                for (size_t by = 0; by < sizeof off / sizeof *off; by++) {
                    wrong_sizes((enum call)call, sizes[k], view, off[by], 0, "a wrong width");
                    wrong_sizes((enum call)call, sizes[k], view, 0, off[by], "a wrong height");
                    wrong_sizes((enum call)call, sizes[k], view, off[by], -off[by], "a wrong width and height");
                }
            static const uint16_t none[2] = {0, 0}, flat[2] = {0, 16}, narrow[2] = {16, 0};
            wrong_sizes((enum call)call, none, view, 1, 0, "a width of 0x0");
            wrong_sizes((enum call)call, none, view, 0, 1, "a height of 0x0");
            wrong_sizes((enum call)call, flat, view, 1, 0, "a width of 0x16");
            wrong_sizes((enum call)call, flat, view, 0, -1, "a height of 0x16");
            wrong_sizes((enum call)call, narrow, view, -1, 0, "a width of 16x0");
            wrong_sizes((enum call)call, narrow, view, 0, 1, "a height of 16x0");
        }
}

/* Both views of another size: as wide as the picture's stride where W is more, as wide as W where the stride is asked for, as large as the
 * picture where that is not whole blocks, and with width and height exchanged. */
static void both_sizes_off(void)
{
    static const struct { enum call call; uint16_t width, height, view_width, view_height; bool same; } cases[] = {
        {CHECK_V1, 48, 16, 48, 16, true}, {CHECK_V2, 48, 16, 48, 16, true}, {CHECK_V2_32, 48, 16, 48, 16, false},
        {CHECK_V1, 48, 16, 64, 16, false}, {CHECK_V2, 48, 16, 64, 16, false}, {CHECK_V2_32, 48, 16, 64, 16, true},
        {CHECK_V1, 16, 16, 32, 16, false}, {CHECK_V2, 16, 16, 32, 16, false}, {CHECK_V2_32, 16, 16, 32, 16, true},
        {CHECK_V2_32, 16, 16, 16, 16, false}, {CHECK_V2_32, 64, 16, 64, 16, true}, {CHECK_V2_32, 64, 16, 96, 16, false},
        {CHECK_V1, 33, 17, 33, 17, false}, {CHECK_V2, 33, 17, 33, 17, false}, {CHECK_V2_32, 33, 17, 33, 17, false},
        {CHECK_V1, 33, 17, 48, 32, true}, {CHECK_V2, 33, 17, 48, 32, true}, {CHECK_V2_32, 33, 17, 64, 32, true},
        {CHECK_V1, 48, 32, 32, 48, false}, {CHECK_V2, 48, 32, 32, 48, false}, {CHECK_V2_32, 64, 32, 32, 64, false},
        {CHECK_V1, 5, 5, 0, 0, false}, {CHECK_V2, 5, 5, 0, 0, false}, {CHECK_V2_32, 5, 5, 0, 0, false},
        {CHECK_V1, 0, 0, 16, 16, false}, {CHECK_V2, 0, 0, 16, 16, false}, {CHECK_V2_32, 0, 0, 32, 16, false}};
    for (size_t k = 0; k < sizeof cases / sizeof *cases; k++) {
        Args a = picture_alone(cases[k].width, cases[k].height);
        for (int view = 0; view < BOTH; view++) {
            lend_shape(&a, view, cases[k].view_width, cases[k].view_height, cases[k].view_width, (cases[k].view_width + 1u) / 2);
            fill_shape(cases[k].call, &a, view);
        }
        answers(cases[k].call, &a, 0, cases[k].same, "both views of a size");
        over(cases[k].call);
    }
}

/* 65,520 is the longest side that is checked, and by the 32 rule 65,504 the widest, also where the other is 0: there is no byte, and the views
 * have their sizes. */
static void checked_at_its_limit(void)
{
    static const struct { uint16_t width, height, wide_16, wide_32, rows; uint32_t of_16, of_32; } cases[] = {
        {65504, 0, 65504, 65504, 0, 0, 0}, {65505, 0, 65520, 65520, 0, 0, 5}, {65519, 0, 65520, 65520, 0, 0, 5}, {65520, 0, 65520, 65520, 0, 0, 5},
        {65521, 0, 65520, 65520, 0, 5, 5}, {65535, 0, 65535, 65535, 0, 5, 5}, {65473, 0, 65488, 65504, 0, 0, 0}, {0, 65519, 0, 0, 65520, 0, 0},
        {0, 65520, 0, 0, 65520, 0, 0}, {0, 65521, 0, 0, 65520, 5, 5}, {0, 65535, 0, 0, 65535, 5, 5}, {0, 0, 0, 0, 0, 0, 0}};
    for (size_t k = 0; k < sizeof cases / sizeof *cases; k++)
        for (int call = CHECK_V1; call <= CHECK_V2_32; call++) {
            const uint16_t wide = call == CHECK_V2_32 ? cases[k].wide_32 : cases[k].wide_16;
            const uint32_t number = call == CHECK_V2_32 ? cases[k].of_32 : cases[k].of_16;
            Args a = {0};
            a.width = cases[k].width, a.height = cases[k].height;
            a.shape[MAIN_VIEW] = a.shape[AUX_VIEW] = (Shape){wide, cases[k].rows, wide, (wide + 1u) / 2};
            answers((enum call)call, &a, number, number == 0, "about the longest side");
            a.shape[AUX_VIEW] = (Shape){16, 0, 16, 8};
            answers((enum call)call, &a, number, false, "another size than the longest side's");
        }
}

/* 1, 5, the main view's 3 and 4, the auxiliary view's 3 and 4: each alone and with each other, of every plane and stride by which it can be met.
 * The picture is 33 x 7; or, to be refused with 5, 65,521 x 0, and with 1 before it 65,521 x 1. */
enum { TOO_SHORT = 1, TOO_LARGE = 2, MAIN_NARROW = 4, MAIN_SHORT = 8, AUX_NARROW = 16, AUX_SHORT = 32, FAULT_SETS = 64 };

static uint32_t number_of_faults(int faults)
{
    if (faults & TOO_SHORT)
        return 1;
    if (faults & TOO_LARGE)
        return 5;
    if (faults & (MAIN_NARROW | MAIN_SHORT))
        return faults & MAIN_NARROW ? 3 : 4;
    return faults & AUX_NARROW ? 3 : faults & AUX_SHORT ? 4 : 0;
}

static void make_view_faulty(Args *a, int view, bool narrow, bool shorter, int turn)
{
    const int first = view == MAIN_VIEW ? MAIN_Y : AUX_Y;
    if (narrow && turn % 2 == 0)
        a->shape[view].luma_stride = a->shape[view].width - 1u;
    if (narrow && turn % 2 == 1)
        a->shape[view].chroma_stride = (a->shape[view].width + 1u) / 2 - 1;
    const size_t height = a->shape[view].height, luma = a->shape[view].luma_stride * height, chroma = a->shape[view].chroma_stride * ((height + 1) / 2);
    for (int plane = 0; plane < 3; plane++)
        a->count[first + plane] = (plane == 0 ? luma : chroma) - (shorter && turn % 3 == plane);
}

static void checked_in_order(void)
{
    Args lent = picture_alone(33, 7);
    for (int view = 0; view < BOTH; view++)
        lend_shape(&lent, view, view == MAIN_VIEW ? 33 : 21, view == MAIN_VIEW ? 7 : 16, 40, 20);
    for (int call = CHECK_V1; call <= CHECK_V2_32; call++)
        for (int faults = 0; faults < FAULT_SETS; faults++)
            for (int turn = 0; turn < 6; turn++) {
                Args a = lent;
                if (faults & TOO_LARGE)
                    a.width = turn % 2 == 0 ? 65535 : 65521, a.height = faults & TOO_SHORT ? 1 : 0;
                if (faults & TOO_SHORT)
                    a.count[turn % 3]--;
                make_view_faulty(&a, MAIN_VIEW, faults & MAIN_NARROW, faults & MAIN_SHORT, turn);
                make_view_faulty(&a, AUX_VIEW, faults & AUX_NARROW, faults & AUX_SHORT, turn);
                answers((enum call)call, &a, number_of_faults(faults), false, "1, 5, 3, 4, 3 and 4 in order");
                check(the_number((enum call)call, &a) == number_of_faults(faults), "the rule", "1, 5, 3, 4, 3 and 4 in order");
            }
    over(CHECK_V1);
}

/* 1 and 5 each a byte or a pixel away, over one buffer for all three planes, of 65,536 x 16 bytes. */
static void large_in_order(void)
{
    enum { PLANE = 65536 * 16 };
    static const struct { uint16_t width; size_t planes[3]; uint32_t of_16, of_32; } cases[] = {
        {65521, {PLANE, PLANE, PLANE}, 5, 5}, {65521, {PLANE - 1, PLANE, PLANE}, 1, 1}, {65535, {PLANE, PLANE - 1, PLANE}, 1, 1},
        {65535, {PLANE, PLANE, PLANE - 1}, 1, 1}, {65520, {65520 * 16, PLANE, PLANE}, 0, 5}, {65520, {65520 * 16 - 1, PLANE, PLANE}, 1, 1},
        {65505, {65520 * 16, 65520 * 16, 65520 * 16}, 0, 5}, {65505, {PLANE, 65520 * 16 - 1, PLANE}, 1, 1},
        {65504, {65504 * 16, PLANE, 65504 * 16}, 0, 0}, {65504, {PLANE, PLANE, 65504 * 16 - 1}, 1, 1}};
    Args a = {0};
    a.height = 1;
    lend_as(&a, Y, PLANE, NULL);
    a.at[U] = a.at[V] = a.at[Y];
    for (size_t k = 0; k < sizeof cases / sizeof *cases; k++)
        for (int call = CHECK_V1; call <= CHECK_V2_32; call++) {
            a.width = cases[k].width;
            memcpy(&a.count[Y], cases[k].planes, sizeof cases[k].planes);
            answers((enum call)call, &a, call == CHECK_V2_32 ? cases[k].of_32 : cases[k].of_16, false, "1 before 5");
        }
    over(CHECK_V1);
}

/* Views of every size with every stride, one of the two, beside one that is right: the number, and no yes. */
static void checked_shapes(void)
{
    static const uint16_t sides[] = {0, 1, 3, 15, 16, 17, 32, 65535};
    static const size_t strides[] = {0, 8, 16, 32, 65535, SIZE_MAX / 2 + 1, 6148914691236517206u, SIZE_MAX};
    enum { SIDES = sizeof sides / sizeof *sides, STRIDES = sizeof strides / sizeof *strides };
    for (int call = CHECK_V1; call <= CHECK_V2_32; call++)
        for (int view = 0; view < BOTH; view++) {
            Args a = pair((enum call)call, 16, 3, tight);
            for (size_t i = 0; i < SIDES * SIDES; i++)
                for (size_t j = 0; j < STRIDES * STRIDES; j++) {
                    a.shape[view] = (Shape){sides[i / SIDES], sides[i % SIDES], strides[j / STRIDES], strides[j % STRIDES]};
                    by_table((enum call)call, &a, "a view's size");
                }
            over((enum call)call);
        }
}

/* Buffers that are only read may be one: main luma is the picture's own Y, and where every sample is alike both views are one view. */
static void one_buffer_by_hand(void)
{
    for (int call = CHECK_V1; call <= CHECK_V2; call++) {
        Args a = pair((enum call)call, 48, 31, tight);
        a.at[MAIN_Y] = a.at[Y];
        answers((enum call)call, &a, 0, true, "main luma is the picture's");
        for (int s = Y; s <= V; s++)
            memset(a.at[s], 77, a.count[s]);
        for (int plane = 0; plane < 3; plane++)
            a.at[MAIN_Y + plane] = a.at[AUX_Y + plane] = a.at[Y];
        answers((enum call)call, &a, 0, true, "one buffer for all");
        over((enum call)call);
    }
}

/* A sample of any of the six planes. */
static int draw_place(enum call call, const Args *a, size_t *row, size_t *col)
{
    const int p = (int)drawn(6);
    *row = drawn((uint32_t)rows_of(a, p % 3)), *col = drawn((uint32_t)columns_of(call, a, p % 3));
    return p;
}

/* What the library's own split leaves is a yes; then a sample of it is altered. */
static void as_it_was_split(void)
{
    drawn_state = 4;
    for (int turn = 0; turn < 40; turn++)
        for (int call = CHECK_V1; call <= CHECK_V2_32; call++) {
            Args a = picture_alone((uint16_t)(1 + drawn(70)), (uint16_t)(1 + drawn(70)));
            lend_split((enum call)call, &a);
            answers((enum call)call, &a, 0, true, "the library's own split");
            size_t row, col;
            const int p = draw_place((enum call)call, &a, &row, &col);
            one_wrong((enum call)call, &a, p / 3, p % 3, row, col);
            over((enum call)call);
        }
}

/* A view that is one column or row larger or smaller, or lacks a byte or a column of its stride, once in a while. */
static void draw_shape(enum call call, Args *a, int view)
{
    const size_t wide = wide_of(call, a), rows = rows_of(a, Y);
    size_t width = wide, height = rows;
    if (drawn(12) == 0)
        width = drawn(2) == 0 && width > 0 ? width - 1 : width + 1;
    if (drawn(12) == 0)
        height = drawn(2) == 0 && height > 0 ? height - 1 : height + 1;
    lend_shape(a, view, (uint16_t)width, (uint16_t)height, width + drawn(20), (width + 1) / 2 + drawn(20));
    fill_shape(call, a, view);
    if (drawn(30) == 0)
        a->shape[view].luma_stride = width + 1 - drawn(3);
    if (drawn(30) == 0 && a->count[MAIN_U] > 0 && a->count[AUX_V] > 0)
        a->count[view == MAIN_VIEW ? MAIN_U : AUX_V]--;
}

/* Random pictures of 0 to 70 a side, random strides, and up to three altered samples: every answer is the rule's, and each kind is met. */
static void checked_by_the_rule(void)
{
    unsigned long yes = 0, of_sizes = 0, refused = 0, places[6] = {0};
    drawn_state = 5;
    for (int turn = 0; turn < 400; turn++)
        for (int call = CHECK_V1; call <= CHECK_V2_32; call++) {
            Args a = picture_alone((uint16_t)drawn(71), (uint16_t)drawn(71));
            draw_shape((enum call)call, &a, MAIN_VIEW);
            draw_shape((enum call)call, &a, AUX_VIEW);
            for (uint32_t altered = drawn(4); altered > 0 && a.count[Y] > 0 && sizes_are((enum call)call, &a); altered--) {
                size_t row, col;
                const int p = draw_place((enum call)call, &a, &row, &col);
                *sample_of(&a, p / 3, p % 3, row, col) ^= (uint8_t)(1 + drawn(255));
            }
            if (drawn(40) == 0 && a.count[Y] > 0)
                a.count[drawn(3)]--;
            const uint32_t number = the_number((enum call)call, &a);
            Result want = {0};
            if (number == 0)
                want = check_by_rule((enum call)call, &a);
            want.number = number;
            const Result r = tried((enum call)call, &a);
            check(same_checked(&r, &want) && lent_kept(), call_names[call], "by the rule");
            ++*(number != 0 ? &refused : want.same ? &yes : want.named ? &places[3 * want.view + want.plane] : &of_sizes);
            over((enum call)call);
        }
    check(yes > 100 && of_sizes > 100 && refused > 50, "the checks", "yes, sizes and refusals are met");
    for (int p = 0; p < 6; p++)
        check(places[p] > 20, "the checks", "every plane is named");
}

static void checked_pairs(void)
{
    yes_by_hand();
    padding_by_hand();
    corners_by_hand();
    every_place();
    every_column();
    longest_checked();
    two_planes_wrong();
    two_places_wrong();
    all_wrong();
    other_layout();
    sizes_off_by_hand();
    both_sizes_off();
    checked_at_its_limit();
    checked_in_order();
    large_in_order();
    checked_shapes();
    one_buffer_by_hand();
    as_it_was_split();
    checked_by_the_rule();
}

#endif
