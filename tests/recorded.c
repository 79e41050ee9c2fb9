/* What tests/recorded.py asks the library: a recorded session from standard input, and to standard output a line for each payload, of words
   NAME=VALUE. All numbers of the input are little-endian.

   A session: 1 byte, the version of its auxiliary view (1 or 2); 1 byte, the habits of FreeRDP that are left out (recorded_habits.h); width
   and height of the surface and of the views, 2 bytes each. A payload: its length in 4 bytes, and its bytes; 1 byte, how many views follow,
   and Y, U and V of each; Y, U and V of FreeRDP's planes, as large as the surface; 1 byte, 1 where red, green and blue of the server's screen
   follow.

   A line has `number`, 0 or why the payload was refused, and what was read (recorded_payload.h). Then of the views, applied over the
   rectangles that were read, onto pictures that are kept from payload to payload:

     apart, differ   in how many samples FreeRDP's planes are not ours, and not ours after its habits; plane, row, column, ours and theirs
                     say where the latter begins;
     HABIT           at how many samples a habit acted;
     error_RULE      with a screen, the differences of red, green and blue from it, added up, by each rule for the width of V2;
     stale_RULE      with a screen, how many pixels lie in blocks that the map does not call complete, as picture to RGBA answers;
     map_RULE        how many blocks of the picture the map has at 0, at 1, at 2 and at anything else, and how many of the padding not at 0;
     else_RULE       in how many samples the planes of that rule are not those of the first.

   Where the habits that are left out have the bit after the last one, a byte of the first rule's map is changed after each payload.

   Status 2, and a line why: the input ends within a session, or a call does not answer as it has to. */
#include "recorded_habits.h"
#include "recorded_payload.h"

enum { RULES = 3 };
typedef struct { const char *name; Apply *auxiliary; Picture kept; } Rule;

static Rule of_v1[] = {{"v1", haythaw_apply_auxiliary_v1, {{NULL}, NULL}}};
static Rule of_v2[RULES] = {{"exact", haythaw_apply_auxiliary_v2_exact, {{NULL}, NULL}},
                            {"to16", haythaw_apply_auxiliary_v2, {{NULL}, NULL}},
                            {"to32", haythaw_apply_auxiliary_v2_32, {{NULL}, NULL}}};

static int version, count;     /* of the auxiliary view, and of its rules */
static Rule *rules, *combiner; /* the rules, and the one by which FreeRDP combines: of V2 that is the 16 rule */
static Picture theirs, before; /* ours after FreeRDP's habits, and what that was before an auxiliary view */
static View view;
static uint8_t *planes, *screen, *rgba;

static void take(uint8_t *into, size_t bytes)
{
    must(fread(into, 1, bytes, stdin) == bytes, "the input ends within a session");
}

static uint32_t number(int bytes)
{
    uint8_t b[4];
    take(b, (size_t)bytes);
    return little_endian(b, bytes);
}

static Size size(void)
{
    Size s;
    s.width = (uint16_t)number(2), s.height = (uint16_t)number(2);
    return s;
}

static void begin(void)
{
    version = (int)number(1), left_out = number(1), shown = size(), coded = size();
    must((version == 1 || version == 2) && coded.width % 2 == 0 && coded.height % 2 == 0, "the session's first bytes are not such");
    rules = version == 1 ? of_v1 : of_v2, count = version == 1 ? 1 : RULES, combiner = version == 1 ? of_v1 : of_v2 + 1;
    samples = haythaw_allocation_size(shown.width, shown.height) / PLANES, stride = (shown.width + 15u) / 16 * 16;
    for (int k = 0; k < count; k++) rules[k].kept = fresh();
    theirs = fresh(), before = fresh();
    for (int k = 0; k < PLANES; k++) view.plane[k] = room(k ? chroma_of(coded) : luma_of(coded));
    planes = room(3 * luma_of(shown)), screen = room(3 * luma_of(shown)), rgba = room(4 * luma_of(shown));
}

static void apply_main(const Stream *s)
{
    for (int k = 0; k < count; k++) apply(haythaw_apply_main_view, &rules[k].kept, s->list, s->numbers, &view);
    apply(haythaw_apply_main_view, &theirs, s->list, s->numbers, &view);
}

static void apply_auxiliary(const Stream *s)
{
    for (int k = 0; k < count; k++) apply(rules[k].auxiliary, &rules[k].kept, s->list, s->numbers, &view);
    copy(&before, &theirs);
    apply(combiner->auxiliary, &theirs, s->list, s->numbers, &view);
    take_habits(&theirs, &before, version);
}

/* The views in the order of the wire; they are applied if each stream that was read has one. */
static void combine(uint32_t kind, const Stream *luma, const Stream *chroma)
{
    const uint32_t views = number(1);
    memset(acted, 0, sizeof acted);
    for (uint32_t k = 0; k < views; k++) {
        for (int p = 0; p < PLANES; p++) take(view.plane[p], p ? chroma_of(coded) : luma_of(coded));
        if (views != (kind == 0 ? 2 : 1)) continue;
        if (k == 0 && kind != 2) apply_main(luma);
        else apply_auxiliary(chroma);
    }
}

/* In how many of the picture's samples FreeRDP's planes are not ours, and first where. */
typedef struct { size_t count; int plane; size_t row, column; unsigned ours, theirs; } Apart;

static Apart apart(const Picture *p)
{
    const uint8_t *row_of_theirs = planes;
    Apart a = {0, 0, 0, 0, 0, 0};
    for (int k = 0; k < PLANES; k++)
        for (size_t row = 0; row < shown.height; row++, row_of_theirs += shown.width) {
            const uint8_t *ours = p->plane[k] + row * stride;
            if (!memcmp(ours, row_of_theirs, shown.width)) continue;
            for (size_t column = 0; column < shown.width; column++)
                if (ours[column] != row_of_theirs[column] && !a.count++)
                    a = (Apart){1, k, row, column, ours[column], row_of_theirs[column]};
        }
    return a;
}

static void say_planes(void)
{
    take(planes, 3 * luma_of(shown));
    const Apart a = apart(&theirs);
    printf(" apart=%zu differ=%zu plane=%c row=%zu column=%zu ours=%u theirs=%u", apart(&combiner->kept).count, a.count,
           "YUV"[a.plane], a.row, a.column, a.ours, a.theirs);
    for (int k = 0; k < HABITS; k++) printf(" %s=%zu", habit_names[k], acted[k]);
}

/* The differences of red, green and blue from the screen, added up over the pixels; and the pixels that are stale. */
static void say_error(const Rule *r)
{
    const size_t pixels = luma_of(shown);
    const haythaw_pixels made = haythaw_to_rgba(PICTURE(&r->kept), 0, 0, shown.width, shown.height, rgba, pixels * 4);
    uint64_t sum = 0;
    must(made.number == HAYTHAW_DONE && made.count == pixels * 4, "haythaw_to_rgba does not answer the whole picture");
    for (size_t k = 0; k < pixels; k++)
        for (int c = 0; c < 3; c++) sum += (uint64_t)abs(rgba[4 * k + c] - screen[3 * k + c]);
    printf(" error_%s=%llu stale_%s=%zu", r->name, (unsigned long long)sum, r->name, made.stale);
}

static void say_map(const Rule *r)
{
    const size_t across = stride / 2;
    size_t at[4] = {0, 0, 0, 0}, padding = 0;
    for (size_t k = 0; k < samples / 4; k++) {
        const uint8_t byte = r->kept.map[k];
        if (k / across < blocks_of(shown.height) && k % across < blocks_of(shown.width)) at[byte < 3 ? byte : 3]++;
        else padding += byte != 0;
    }
    printf(" map_%s=%zu,%zu,%zu,%zu,%zu", r->name, at[0], at[1], at[2], at[3], padding);
}

static size_t not_as_first(const Rule *r)
{
    size_t differ = 0;
    for (int k = 0; k < PLANES; k++)
        for (size_t row = 0; row < shown.height; row++)
            for (size_t at = row * stride; at < row * stride + shown.width; at++)
                differ += r->kept.plane[k][at] != rules[0].kept.plane[k][at];
    return differ;
}

static void say_rules(void)
{
    const bool follows = number(1);
    if (follows) take(screen, 3 * luma_of(shown));
    for (int k = 0; k < count; k++) {
        if (follows) say_error(&rules[k]);
        say_map(&rules[k]);
        if (k) printf(" else_%s=%zu", rules[k].name, not_as_first(&rules[k]));
    }
}

static void say_payload(const Payload *p)
{
    const haythaw_avc444 read = haythaw_avc444_read(p->bytes, p->count);
    Stream luma = {0}, chroma = {0};
    printf("number=%u", read.number);
    if (read.number == HAYTHAW_DONE) {
        luma = luma_of_payload(p, &read), chroma = chroma_of_payload(p, &read);
        say_read(p, read.kind, &luma, &chroma);
    }
    combine(read.kind, &luma, &chroma);
    if (!has(HABITS)) rules[0].kept.map[0] ^= 1;
    say_planes();
    say_rules();
    putchar('\n');
    free(luma.list), free(chroma.list);
}

int main(void)
{
    begin();
    for (int next; (next = getchar()) != EOF;) {
        must(ungetc(next, stdin) == next, "a byte cannot be put back");
        Payload p = {NULL, number(4)};
        p.bytes = room(p.count);
        take(p.bytes, p.count);
        say_payload(&p);
        free(p.bytes);
    }
    must(fflush(stdout) == 0 && !ferror(stdout), "the answers could not be written");
    return 0;
}
