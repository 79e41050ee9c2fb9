/* refusals_split: a picture split, into V2 by both rules: 1, 5 and 6, in this order, each number at the edge where it begins. A line has the
 * answer, the sizes and strides of the views, and what the lent bytes are afterwards: unchanged, or a checksum of what was written. */
#ifndef STORED_REFUSALS_SPLIT_H
#define STORED_REFUSALS_SPLIT_H

#include "say.h"

/* A picture's size, the lengths of its planes, and those of the outputs: main y, u, v, auxiliary y, u, v. 5 x 5 has planes of 16 x 16, and
 * views of 16 x 16 with chroma of 8 x 8. All bytes of Y are 197, of U 198, of V 199, and all of the outputs 201 before. */
enum { SPLIT_BYTE = 197, SPLIT_LUMA = 256 };
typedef struct { const char *name; uint16_t width, height; size_t planes[3], outputs[6]; } SplitCase;
#define SPLIT_PLANES {256, 256, 256}
#define SPLIT_OUTPUTS {256, 64, 64, 256, 64, 64}
#define NO_BYTE {0, 0, 0}, {0, 0, 0, 0, 0, 0}
static const SplitCase split_cases[] = {
    {"exact", 5, 5, SPLIT_PLANES, SPLIT_OUTPUTS},
    {"one over", 5, 5, {257, 257, 257}, {257, 65, 65, 257, 65, 65}},
    {"y short", 5, 5, {255, 256, 256}, SPLIT_OUTPUTS},
    {"u short", 5, 5, {256, 255, 256}, SPLIT_OUTPUTS},
    {"v short", 5, 5, {256, 256, 255}, SPLIT_OUTPUTS},
    {"main y short", 5, 5, SPLIT_PLANES, {255, 64, 64, 256, 64, 64}},
    {"main u short", 5, 5, SPLIT_PLANES, {256, 63, 64, 256, 64, 64}},
    {"main v short", 5, 5, SPLIT_PLANES, {256, 64, 63, 256, 64, 64}},
    {"auxiliary y short", 5, 5, SPLIT_PLANES, {256, 64, 64, 255, 64, 64}},
    {"auxiliary u short", 5, 5, SPLIT_PLANES, {256, 64, 64, 256, 63, 64}},
    {"auxiliary v short", 5, 5, SPLIT_PLANES, {256, 64, 64, 256, 64, 63}},
    {"outputs empty", 5, 5, SPLIT_PLANES, {0, 0, 0, 0, 0, 0}},
    /* sizes, with every buffer empty */
    {"0 x 0", 0, 0, NO_BYTE},
    {"0 x 5", 0, 5, NO_BYTE},
    {"5 x 0", 5, 0, NO_BYTE},
    {"65520 x 0", 65520, 0, NO_BYTE},
    {"65521 x 0", 65521, 0, NO_BYTE},
    {"65535 x 0", 65535, 0, NO_BYTE},
    {"0 x 65520", 0, 65520, NO_BYTE},
    {"0 x 65521", 0, 65521, NO_BYTE},
    {"0 x 65535", 0, 65535, NO_BYTE},
    /* several at once */
    {"1 and 5", 65521, 5, NO_BYTE},
    {"1 and 6", 5, 5, {255, 256, 256}, {256, 64, 64, 256, 64, 63}},
};

/* By the 32 rule, 5 x 5 has views of 32 x 16 with chroma of 16 x 8. */
#define SPLIT_32_OUTPUTS {512, 128, 128, 512, 128, 128}
static const SplitCase split_32_cases[] = {
    {"exact", 5, 5, SPLIT_PLANES, SPLIT_32_OUTPUTS},
    {"one over", 5, 5, {257, 257, 257}, {513, 129, 129, 513, 129, 129}},
    {"y short", 5, 5, {255, 256, 256}, SPLIT_32_OUTPUTS},
    {"u short", 5, 5, {256, 255, 256}, SPLIT_32_OUTPUTS},
    {"v short", 5, 5, {256, 256, 255}, SPLIT_32_OUTPUTS},
    {"main y short", 5, 5, SPLIT_PLANES, {511, 128, 128, 512, 128, 128}},
    {"main u short", 5, 5, SPLIT_PLANES, {512, 127, 128, 512, 128, 128}},
    {"main v short", 5, 5, SPLIT_PLANES, {512, 128, 127, 512, 128, 128}},
    {"auxiliary y short", 5, 5, SPLIT_PLANES, {512, 128, 128, 511, 128, 128}},
    {"auxiliary u short", 5, 5, SPLIT_PLANES, {512, 128, 128, 512, 127, 128}},
    {"auxiliary v short", 5, 5, SPLIT_PLANES, {512, 128, 128, 512, 128, 127}},
    {"outputs of the 16 rule", 5, 5, SPLIT_PLANES, SPLIT_OUTPUTS},
    {"outputs empty", 5, 5, SPLIT_PLANES, {0, 0, 0, 0, 0, 0}},
    /* sizes, with every buffer empty */
    {"0 x 0", 0, 0, NO_BYTE},
    {"0 x 5", 0, 5, NO_BYTE},
    {"5 x 0", 5, 0, NO_BYTE},
    {"32 x 0", 32, 0, NO_BYTE},
    {"33 x 0", 33, 0, NO_BYTE},
    {"65472 x 0", 65472, 0, NO_BYTE},
    {"65473 x 0", 65473, 0, NO_BYTE},
    {"65504 x 0", 65504, 0, NO_BYTE},
    {"65505 x 0", 65505, 0, NO_BYTE},
    {"65520 x 0", 65520, 0, NO_BYTE},
    {"65521 x 0", 65521, 0, NO_BYTE},
    {"65535 x 0", 65535, 0, NO_BYTE},
    {"0 x 65520", 0, 65520, NO_BYTE},
    {"0 x 65521", 0, 65521, NO_BYTE},
    {"0 x 65535", 0, 65535, NO_BYTE},
    /* several at once */
    {"1 and 5", 65505, 5, NO_BYTE},
    {"1 and 6", 5, 5, {255, 256, 256}, {512, 128, 128, 512, 128, 127}},
};

/* A split, its cases, the luma of its views, and the least width that it refuses at height 1 with the bytes of that picture's planes. */
typedef struct { enum call call; const char *name; const SplitCase *cases; size_t count, luma; uint16_t large; size_t planes; } SplitFile;
static const SplitFile split_files[] = {
    {SPLIT_V1, "v1", split_cases, sizeof split_cases / sizeof *split_cases, SPLIT_LUMA, 65521, (size_t)65536 * 16},
    {SPLIT_V2, "v2", split_cases, sizeof split_cases / sizeof *split_cases, SPLIT_LUMA, 65521, (size_t)65536 * 16},
    {SPLIT_V2_32, "v2 32", split_32_cases, sizeof split_32_cases / sizeof *split_32_cases, 2 * SPLIT_LUMA, 65505, (size_t)65520 * 16},
};

static void outputs_words(const char *name, const Args *a, enum slice first, size_t luma)
{
    printf(", %s", name);
    say_written(" y ", a, first, UNWRITTEN, luma);
    say_written(" u ", a, (enum slice)(first + 1), UNWRITTEN, luma / 4);
    say_written(" v ", a, (enum slice)(first + 2), UNWRITTEN, luma / 4);
}

/* The call, once the picture is lent, and what it says and leaves in the outputs. */
static void split_line(const SplitFile *file, const char *name, Args *a, const size_t *outputs)
{
    for (int s = 0; s < 6; s++)
        lend_all(a, (enum slice)(MAIN_Y + s), outputs[s], UNWRITTEN);
    const Result r = asked(file->call, a);
    printf("split %s: %s: %lu %u x %u %zu %zu", file->name, name, (unsigned long)r.number, r.width, r.height, r.luma_stride,
           r.chroma_stride);
    outputs_words("main", a, MAIN_Y, file->luma);
    outputs_words("auxiliary", a, AUX_Y, file->luma);
}

static void small_line(const SplitFile *file, const SplitCase *c)
{
    Args a = {0};
    a.width = c->width, a.height = c->height;
    for (int p = 0; p < 3; p++)
        lend_all(&a, (enum slice)(Y + p), c->planes[p], (uint8_t)(SPLIT_BYTE + p));
    split_line(file, c->name, &a, c->outputs);
    say_read(", y ", &a, Y, Y, SPLIT_BYTE);
    say_read(", u ", &a, U, U, SPLIT_BYTE + 1);
    say_read(", v ", &a, V, V, SPLIT_BYTE + 2);
    printf("\n");
    over(file->call);
}

/* A picture of the least width that is refused, whose planes lie in one buffer, with outputs for 16 x 16. */
static void large_line(const SplitFile *file)
{
    static const size_t outputs[6] = SPLIT_OUTPUTS;
    Args a = {0};
    a.width = file->large, a.height = 1;
    lend_all(&a, Y, file->planes, SPLIT_BYTE);
    a.at[U] = a.at[V] = a.at[Y], a.count[U] = a.count[V] = a.count[Y];
    split_line(file, "5 and 6", &a, outputs);
    say_read(", planes ", &a, Y, Y, SPLIT_BYTE);
    printf("\n");
    over(file->call);
}

static void refusals_split(void)
{
    for (size_t f = 0; f < sizeof split_files / sizeof *split_files; f++) {
        for (size_t k = 0; k < split_files[f].count; k++)
            small_line(&split_files[f], &split_files[f].cases[k]);
        large_line(&split_files[f]);
    }
}

#endif
