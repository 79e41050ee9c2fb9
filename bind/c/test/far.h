/* The AVC444 payload written from lengths that no machine has the memory for. Every refusal is made from the counts alone, so its
 * buffers are addresses that nothing may touch; and a stream of 2^30 - 1 bytes, the longest that may come first, is written into memory
 * of which most is one window, again and again. Where such addresses are not to be had, a line says what was left out. */
#ifndef FAR_H
#define FAR_H

#include "write.h"

#define FIRST_TOO_MANY ((size_t)1 << 32) /* rectangles: a count that does not fit in 32 bits */
#define MOST_IN (((size_t)1 << 35) + 64)
#define MOST_OUT ((size_t)1 << 36)

static void left_out(const char *what)
{
    printf("c: left out: %s\n", what);
}

/* Addresses that nothing may touch, null where there are none. */
static void *untouchable(size_t bytes)
{
    void *const map = mmap(NULL, bytes, PROT_NONE, MAP_PRIVATE | MAP_ANONYMOUS | MAP_NORESERVE, -1, 0);
    return map == MAP_FAILED ? NULL : map;
}

/* A call by its counts (list, pairs and H.264 bytes of luma and of chroma, then the output) and its number. */
typedef struct {
    uint32_t kind, number;
    size_t luma[3], chroma[3], room;
} Far;

/* 4 + 10 x 107,374,181 + 9 is 2^30 - 1, and 4 + 10 x 107,374,182 is 2^30. */
#define MANY ((size_t)107374181)
#define LIST(n) 4 * (n), 2 * (n)

/* Each refusal alone and with every later one, at its edge. No length is more than a buffer can have. */
static const Far far_calls[] = {
    /* 8: a kind above 2, also one whose low or top two bits are a kind; before all else */
    {3, 8, {0, 0, 0}, {0, 0, 0}, 64},
    {4, 8, {0, 0, 0}, {0, 0, 0}, 64},
    {0x40000000, 8, {0, 0, 0}, {0, 0, 0}, 64},
    {0x80000000, 8, {0, 0, 0}, {0, 0, 0}, 64},
    {0xC0000001, 8, {0, 0, 0}, {0, 0, 0}, 64},
    {UINT32_MAX, 8, {0, 0, 0}, {0, 0, 0}, 64},
    {3, 8, {1, 0, GIGA}, {1, 0, GIGA}, 0},
    {UINT32_MAX, 8, {LIST(FIRST_TOO_MANY), 0}, {LIST(FIRST_TOO_MANY), 0}, 0},
    /* 7: a list not in fours, or not a pair for each rectangle; of either stream that is carried; before 11 and 6 */
    {0, 7, {1, 0, 0}, {0, 0, 0}, 64},
    {0, 7, {3, 0, 0}, {0, 0, 0}, 0},
    {0, 7, {5, 2, 0}, {0, 0, 0}, 64},
    {0, 7, {4, 0, 0}, {0, 0, 0}, 64},
    {0, 7, {4, 1, 0}, {0, 0, 0}, 64},
    {0, 7, {4, 3, 0}, {0, 0, 0}, 64},
    {0, 7, {4, 4, 0}, {0, 0, 0}, 64},
    {0, 7, {0, 2, 0}, {0, 0, 0}, 64},
    {0, 7, {0, 0, 0}, {1, 0, 0}, 64},
    {0, 7, {0, 0, 0}, {4, 0, 0}, 64},
    {0, 7, {0, 0, 0}, {0, 1, 0}, 64},
    {0, 7, {4, 4, 0}, {8, 2, 0}, 64}, /* as many pairs as rectangles in all */
    {0, 7, {0, 0, GIGA}, {1, 0, 0}, 0},
    {0, 7, {LIST(FIRST_TOO_MANY), 0}, {4, 1, 0}, 0},
    {1, 7, {2, 0, 0}, {0, 0, 0}, 0},
    {1, 7, {8, 2, GIGA}, {0, 0, 0}, 64},
    {2, 7, {0, 0, 0}, {2, 0, 0}, 0},
    {2, 7, {0, 0, 0}, {8, 2, GIGA}, 64},
    {0, 7, {0, 0, 0}, {4 * FIRST_TOO_MANY, 0, 0}, 64}, /* 2^32 rectangles are 0 in 32 bits, and 2^32 + 1 are one */
    {0, 7, {0, 0, 0}, {4 * FIRST_TOO_MANY - 4, 2, 0}, 64},
    {0, 7, {0, 0, 0}, {4 * FIRST_TOO_MANY + 4, 2, 0}, 64},
    {2, 7, {0, 0, 0}, {4 * FIRST_TOO_MANY + 4, 2, 0}, 64},
    /* 11: the first stream is 2^30 bytes; of H.264 bytes, of rectangles, of all parts; also where the output has the room */
    {0, 6, {0, 0, GIGA - 5}, {0, 0, 0}, 64},
    {0, 11, {0, 0, GIGA - 4}, {0, 0, 0}, 64},
    {0, 11, {0, 0, GIGA - 4}, {0, 0, 0}, MOST_OUT},
    {0, 6, {4, 2, GIGA - 15}, {0, 0, 0}, 64},
    {0, 11, {4, 2, GIGA - 14}, {0, 0, 0}, 64},
    {0, 6, {LIST(MANY), 9}, {0, 0, 0}, 64},
    {0, 11, {LIST(MANY), 10}, {0, 0, 0}, 64},
    {0, 11, {LIST(MANY + 1), 0}, {0, 0, 0}, MOST_OUT},
    {1, 6, {0, 0, GIGA - 5}, {0, 0, 0}, 0},
    {1, 11, {0, 0, GIGA - 4}, {0, 0, 0}, 0},
    {1, 6, {LIST(MANY), 9}, {0, 0, 0}, 64},
    {1, 11, {LIST(MANY), 10}, {0, 0, 0}, MOST_OUT},
    {1, 11, {0, 0, MOST_IN}, {0, 0, 0}, MOST_OUT},
    {2, 6, {0, 0, 0}, {0, 0, GIGA - 5}, 0},
    {2, 11, {0, 0, 0}, {0, 0, GIGA - 4}, 0},
    {2, 6, {0, 0, 0}, {LIST(MANY), 9}, 64},
    {2, 11, {0, 0, 0}, {LIST(MANY), 10}, MOST_OUT},
    {2, 11, {0, 0, 0}, {LIST(MANY + 1), 0}, 64},
    /* streams that are short once cut to 32 bits */
    {0, 11, {0, 0, 4 * GIGA}, {0, 0, 0}, MOST_OUT},
    {1, 11, {4, 2, 4 * GIGA + 1}, {0, 0, 0}, 64},
    {2, 11, {0, 0, 0}, {0, 0, 4 * GIGA - 4}, MOST_OUT},
    /* the second stream of kind 0 may be as long */
    {0, 6, {0, 0, 0}, {0, 0, GIGA - 4}, 64},
    {0, 6, {0, 0, 0}, {0, 0, GIGA - 4}, GIGA + 7},
    {0, 6, {0, 0, GIGA - 5}, {0, 0, GIGA - 4}, 2 * GIGA + 2},
    {0, 11, {0, 0, GIGA - 4}, {0, 0, GIGA - 4}, 2 * GIGA + 2},
    {0, 6, {0, 0, 0}, {LIST(MANY + 1), 0}, GIGA + 7},
    {0, 6, {0, 0, 0}, {0, 0, MOST_IN}, 64},
    {0, 6, {0, 0, 0}, {0, 0, MOST_IN}, MOST_IN + 11},
    /* 11: a count of 2^32; in the first stream it is too long too, and so is one below it */
    {0, 6, {0, 0, 0}, {LIST(FIRST_TOO_MANY - 1), 0}, 64},
    {0, 11, {0, 0, 0}, {LIST(FIRST_TOO_MANY), 0}, 64},
    {0, 11, {0, 0, 0}, {LIST(FIRST_TOO_MANY), 0}, MOST_OUT},
    {0, 6, {4, 2, 5}, {LIST(FIRST_TOO_MANY - 1), 9}, 0},
    {0, 11, {4, 2, 5}, {LIST(FIRST_TOO_MANY), 9}, 0},
    {0, 11, {LIST(FIRST_TOO_MANY - 1), 0}, {0, 0, 0}, MOST_OUT},
    {0, 11, {LIST(FIRST_TOO_MANY), 0}, {LIST(FIRST_TOO_MANY), 0}, MOST_OUT},
    {1, 11, {LIST(FIRST_TOO_MANY), 0}, {0, 0, 0}, 64},
    {2, 11, {0, 0, 0}, {LIST(FIRST_TOO_MANY - 1), 0}, MOST_OUT},
    {2, 11, {0, 0, 0}, {LIST(FIRST_TOO_MANY), 0}, 64},
    /* 6: a byte short; 12 + 10 x (2^32 - 1) is 2 in 32 bits */
    {0, 6, {0, 0, 0}, {0, 0, 0}, 11},
    {1, 6, {0, 0, 0}, {1, 1, 1}, 7},
    {2, 6, {1, 1, 1}, {0, 0, 0}, 7},
    {0, 6, {4, 2, 3}, {8, 4, 1}, 45},
    {1, 6, {0, 0, GIGA - 5}, {0, 0, 0}, GIGA + 2},
    {2, 6, {0, 0, 0}, {LIST(MANY), 9}, GIGA + 2},
    {0, 6, {0, 0, 0}, {LIST(FIRST_TOO_MANY - 1), 0}, 2},
    {0, 6, {0, 0, 0}, {LIST(FIRST_TOO_MANY - 1), 0}, 12 + 10 * (FIRST_TOO_MANY - 1) - 1}};

/* Counts that no buffer can have, which break what a caller owes; yet the number is found before a byte is touched. Each sum is small
 * or nothing once cut to 64 bits, or just below that. */
#define HALF (SIZE_MAX / 2 + 1)
static const Far beyond[] = {
    {3, 8, {SIZE_MAX, SIZE_MAX, SIZE_MAX}, {SIZE_MAX, SIZE_MAX, SIZE_MAX}, 64},
    {0, 7, {SIZE_MAX, SIZE_MAX, SIZE_MAX}, {SIZE_MAX, SIZE_MAX, SIZE_MAX}, 64},
    {1, 7, {SIZE_MAX, 0, 0}, {0, 0, 0}, 64},
    {1, 7, {4, SIZE_MAX, 0}, {0, 0, 0}, 64},
    {1, 7, {4, HALF + 2, 0}, {0, 0, 0}, 64},
    {2, 7, {0, 0, 0}, {0, HALF, 0}, 64},
    {2, 7, {0, 0, 0}, {HALF, 0, 0}, 64},
    {0, 11, {0, 0, SIZE_MAX}, {0, 0, 0}, 64},
    {1, 11, {0, 0, SIZE_MAX}, {0, 0, 0}, 64},
    {1, 11, {0, 0, SIZE_MAX - 3}, {0, 0, 0}, 64},
    {1, 11, {0, 0, SIZE_MAX - 4}, {0, 0, 0}, SIZE_MAX},
    {1, 11, {0, 0, SIZE_MAX - 7}, {0, 0, 0}, 64},
    {2, 11, {0, 0, 0}, {0, 0, SIZE_MAX}, 64},
    {2, 11, {0, 0, 0}, {4, 2, SIZE_MAX - 13}, 64},
    {2, 11, {0, 0, 0}, {LIST(HALF / 4), 0}, 64},
    {1, 11, {LIST(HALF / 4), SIZE_MAX - HALF / 2 + 1}, {0, 0, 0}, 64},
    {0, 11, {0, 0, 0}, {LIST(HALF / 4), SIZE_MAX - HALF / 2 + 1}, 64},
    {0, 11, {0, 0, 0}, {LIST(SIZE_MAX / 4), 0}, 64},
    {0, 11, {0, 0, SIZE_MAX - 3}, {0, 0, SIZE_MAX - 3}, 64},
    {0, 6, {0, 0, 0}, {0, 0, SIZE_MAX}, 64},
    {0, 6, {0, 0, 0}, {0, 0, SIZE_MAX}, SIZE_MAX},
    {0, 6, {0, 0, 0}, {0, 0, SIZE_MAX - 3}, 64},
    {0, 6, {0, 0, 0}, {0, 0, SIZE_MAX - 11}, 0},
    {0, 6, {0, 0, 0}, {0, 0, SIZE_MAX - 11}, SIZE_MAX},
    {0, 6, {0, 0, 0}, {0, 0, SIZE_MAX - 12}, SIZE_MAX - 1},
    {0, 6, {4, 2, 5}, {4, 2, SIZE_MAX - 36}, 64},
    {0, 6, {0, 0, GIGA - 5}, {0, 0, SIZE_MAX - GIGA}, 64},
    {0, 6, {0, 0, 0}, {LIST(FIRST_TOO_MANY - 1), SIZE_MAX - 10 * (FIRST_TOO_MANY - 1)}, 64}};

static void *untouched_in, *untouched_out;
static size_t untouched_in_size, untouched_out_size;

static Args far_args(const Far *far)
{
    Args a = {0};
    a.kind = far->kind;
    for (int part = 0; part < 3; part++) {
        a.at[L_RECTS + part] = a.at[C_RECTS + part] = untouched_in;
        a.count[L_RECTS + part] = far->luma[part], a.count[C_RECTS + part] = far->chroma[part];
    }
    a.at[OUT] = untouched_out;
    a.count[OUT] = far->room;
    return a;
}

static bool fits(const Args *a)
{
    for (int s = L_RECTS; s <= C_DATA; s++)
        if (a->count[s] > untouched_in_size / (s == L_RECTS || s == C_RECTS ? 2 : 1))
            return false;
    return a->count[OUT] <= untouched_out_size;
}

static void far_is(const Far *far, const char *what)
{
    const Args a = far_args(far);
    const Result r = tried(WRITE, &a);
    check(is_refusal(&r, far->number), "avc444_write", what);
    check(write_number(&a) == far->number, "the rule", what);
}

/* None of these calls reads or writes a byte. */
static void refused_far(void)
{
    size_t without = 0;
    for (size_t k = 0; k < sizeof far_calls / sizeof *far_calls; k++) {
        const Args a = far_args(&far_calls[k]);
        if (fits(&a))
            far_is(&far_calls[k], "a refusal by the counts alone");
        else
            without++;
    }
    for (size_t k = 0; k < sizeof beyond / sizeof *beyond; k++)
        far_is(&beyond[k], "counts beyond all buffers");
    if (without > 0)
        printf("c: left out: %zu refusals, for want of addresses\n", without);
}

/* Kinds 1 and 2 with anything in place of the stream that is not carried: nothing at all, lists that are not in fours, pairs for other
 * rectangles, more than may be written, counts that no buffer can have. Its bytes are addresses that nothing may touch, or null. */
static void ignored_by_hand(void)
{
    static const size_t others[][3] = {{0, 0, 0}, {1, 0, 0}, {3, 1, 1}, {4, 0, 9}, {0, 2, 0}, {4, 2, 50}, {0, 0, GIGA - 4},
                                       {LIST(MANY), 10}, {LIST(FIRST_TOO_MANY), 0}, {0, 0, SIZE_MAX}, {SIZE_MAX, SIZE_MAX, SIZE_MAX}};
    static const Given given[] = {GIVEN_NONE, GIVEN_ONE, GIVEN_TWO};
    for (size_t k = 0; k < sizeof given / sizeof *given; k++)
        for (size_t other = 0; other < sizeof others / sizeof *others; other++)
            for (int chroma = 0; chroma < 2; chroma++)
                for (int null = 0; null < 2; null++) {
                    const int ignored = chroma ? L_RECTS : C_RECTS;
                    const size_t size = 8 + 5 * given[k].rects / 2 + given[k].data;
                    Args a = {0};
                    a.kind = chroma ? 2 : 1;
                    lend_stream(&a, chroma ? C_RECTS : L_RECTS, &given[k]);
                    for (int part = 0; part < 3; part++) {
                        a.at[ignored + part] = null ? NULL : untouched_in;
                        a.count[ignored + part] = others[other][part];
                    }
                    lend_as(&a, OUT, size, NULL);
                    write_is(&a, "a stream that is not carried");
                    a.count[OUT]--;
                    write_is(&a, "a stream that is not carried, a byte short");
                    over(WRITE);
                }
}

enum { WINDOW = 1 << 21 };

/* The window, WINDOW bytes of a file, at every place of an address range. */
static bool window_at_each(uint8_t *map, size_t bytes, FILE *file)
{
    if (file == NULL || ftruncate(fileno(file), WINDOW) != 0)
        return false;
    for (size_t at = 0; at < bytes; at += WINDOW)
        if (mmap(map + at, WINDOW, PROT_READ | PROT_WRITE, MAP_SHARED | MAP_FIXED, fileno(file), 0) == MAP_FAILED)
            return false;
    return true;
}

/* Memory of 2^31 bytes and a page. Its first page, the one at 2^30 and the last are its own; all the rest is the window again and again,
 * so that a call can write it all where there is no such memory. Null where that cannot be had. */
static uint8_t *windows(size_t page)
{
    uint8_t *const map = untouchable(2 * GIGA + page);
    if (map == NULL)
        return NULL;
    FILE *const file = tmpfile();
    bool made = window_at_each(map, 2 * GIGA, file);
    if (file != NULL)
        fclose(file);
    for (size_t own = 0; own <= 2 * GIGA; own += GIGA)
        made = made && mmap(map + own, page, PROT_READ | PROT_WRITE, MAP_PRIVATE | MAP_ANONYMOUS | MAP_FIXED, -1, 0) != MAP_FAILED;
    return made ? map : NULL;
}

/* 2^30 bytes, all 0 but for those in the first page and in the last. */
static uint8_t *mostly_zero(size_t page)
{
    uint8_t *const map = mmap(NULL, GIGA, PROT_READ | PROT_WRITE, MAP_PRIVATE | MAP_ANONYMOUS | MAP_NORESERVE, -1, 0);
    if (map == MAP_FAILED)
        return NULL;
    for (size_t k = 0; k < page; k++) {
        map[k] = (uint8_t)(k * 2654435761u >> 23);
        map[GIGA - 1 - k] = (uint8_t)(k * 2654435761u >> 22);
    }
    return map;
}

/* The longest first stream that there can be, 2^30 - 1 bytes, alone and before a chroma stream that is longer: all 30 bits of the size
 * are 1. Of what is written, the own pages and the window as it is in the end are looked at. */
static void written_far(void)
{
    static const uint16_t rect[4] = {1, 2, 3, 260};
    static const uint8_t pair[2] = {22, 100};
    static const uint8_t luma_head[2][8] = {{255, 255, 255, 0x3F}, {255, 255, 255, 0x7F}};
    static const uint8_t chroma_head[14] = {1, 0, 0, 0, 1, 0, 2, 0, 3, 0, 4, 1, 22, 100};
    const size_t page = (size_t)sysconf(_SC_PAGESIZE);
    uint8_t *const out = windows(page), *const data = mostly_zero(page);
    if (out == NULL || data == NULL) {
        left_out("a stream of 2^30 - 1 bytes written, for want of addresses");
        return;
    }
    for (uint32_t kind = 0; kind < 2; kind++) {
        const size_t size = kind == 0 ? 2 * GIGA + 17 : GIGA + 3, data_end = kind == 0 ? GIGA : GIGA - 5;
        for (size_t own = 0; own <= 2 * GIGA; own += GIGA)
            memset(out + own, AROUND, page);
        memset(out + page, AROUND, WINDOW);
        trying = "avc444_write";
        const haythaw_answer answer =
            haythaw_avc444_write(kind, NULL, 0, NULL, 0, data, GIGA - 5, rect, 4, pair, 2, data, GIGA, out, size + 9);
        check(answer.number == 0 && answer.count == size, "avc444_write", "a stream of 2^30 - 1 bytes");
        check(memcmp(out, luma_head[kind], 8) == 0 && memcmp(out + 8, data, page - 8) == 0, "avc444_write", "its first page");
        check(memcmp(out + GIGA, data + GIGA - 8, 3) == 0, "avc444_write", "its end");
        check(memcmp(out + size - WINDOW, data + data_end - WINDOW, WINDOW) == 0, "avc444_write", "the end of the payload");
        check(all_are(out + size, 9, AROUND), "avc444_write", "a byte past what is written");
        if (kind == 0)
            check(memcmp(out + GIGA + 3, chroma_head, 14) == 0, "avc444_write", "the stream after it");
        static const haythaw_stream luma = {0, 8, 8, 8, GIGA - 5}, chroma = {1, GIGA + 7, GIGA + 15, GIGA + 17, GIGA}, none;
        const haythaw_avc444 read = haythaw_avc444_read(out, size);
        check(read.number == 0 && read.kind == kind && same_stream(&read.luma, &luma) &&
                  same_stream(&read.chroma, kind == 0 ? &chroma : &none),
              "avc444_read", "a stream of 2^30 - 1 bytes");
    }
    munmap(out, 2 * GIGA + page);
    munmap(data, GIGA);
}

/* Addresses for the calls above, or half of them, and so on, where there are not so many. */
static void *as_many(size_t *bytes)
{
    void *map;
    while ((map = untouchable(*bytes)) == NULL && *bytes > 4096)
        *bytes /= 2;
    must(map != NULL);
    return map;
}

static void far_addresses(void)
{
    untouched_in_size = MOST_IN, untouched_out_size = MOST_OUT;
    untouched_in = as_many(&untouched_in_size);
    untouched_out = as_many(&untouched_out_size);
}

#endif
