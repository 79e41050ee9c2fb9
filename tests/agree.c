/* The two layouts agree (demand 3), run at full speed over the library.

   A case is a picture, a list of rectangles and two earlier pictures of its size, all of them made of the seed and the case's number. The
   picture is split as V1, and main, then auxiliary view go onto the first earlier picture over the list; the same as V2 onto the second,
   and as V2 by the 32 rule onto one more. Then every byte of every lent buffer is compared with what the statement says, worked out here
   from the rules' words alone: the views are the picture's samples and, past its stride, Y 0 and U and V 128; luma and chroma are the
   picture's where some rectangle takes them, and as before elsewhere. The map of stale colour begins as any bytes: every block in a widened
   rectangle is 1 after the main view and 2 after the auxiliary one, and every other as before. A width above 65,504 is refused with 5 by
   the 32 rule, and changes nothing. The strict calls have to leave the same where every rectangle of the list is sound, and elsewhere both
   are refused with 12, and no byte changes.

       agree [--seed N] [--cases N] [--seconds N] [--only CASE]
       agree --self-test      alters a byte of V and one of the map after the calls, in each layout and rule, and leaves the auxiliary view
                              out, of the calls that clip and of the strict ones, and clips where a list is to be refused: it has to be
                              noticed; and lays the views out by the 16 rule where they are read by the 32 rule: that has to be
                              noticed exactly where the two W differ

   The last line has the cases, by the 32 rule those whose W is the stride, those where it is 16 more and those that are too wide for it,
   those whose list is sound, the bytes compared, how many of them of maps, the differences and the seed; the status is 1 if there is a
   difference. */
#include <stdint.h>
#include <stdio.h>
#include <stdlib.h>
#include <string.h>

#include "haythaw.h"
#include "run.h"

enum { GUARD = 24, RECTS = 12 };
static const size_t PLANE = (size_t)16 << 20; /* a plane stays under this */

/* The walks: the two layouts, and V2 by the 32 rule. */
enum { V1 = 1, V2, V2_32, WALKS = V2_32 };
static const char *const names[] = {"", "V1", "V2", "V2 by the 32 rule"};

/* A plane of a picture or of a view, with GUARD bytes more that no call may change. */
typedef struct { uint8_t *at; size_t plane, lent; } Lent;
typedef struct { Lent y, u, v; } Three;

typedef struct {
    uint16_t width, height;
    size_t stride, rows;
    uint16_t rects[4 * RECTS];
    size_t count; /* numbers in the list */
} Case;

static uint64_t compared, of_maps, differences;
static uint64_t narrow, wide, refused; /* by the 32 rule: cases whose W is the stride, where it is 16 more, and too wide for it */
static uint64_t sound_lists;           /* cases that the strict calls accept */
enum { A_SAMPLE, A_BLOCK, NO_AUXILIARY, FAULTS };
enum { CLIPPING, STRICT, FORMS };
static int altered; /* the walk in which the self-test alters a byte of V or of the map or leaves the auxiliary view out, or 0 */
static int fault;   /* which of these */
static int form;    /* in which form of the calls */
static int clipped; /* whether the self-test has the calls that clip take the place of the strict ones */
static int crossed; /* whether the self-test splits by the 16 rule what is read by the 32 rule: the views are not looked at then */

static void *room(size_t n)
{
    void *p = malloc(n ? n : 1);
    if (!p) {
        fprintf(stderr, "agree: no memory for %zu bytes\n", n);
        exit(2);
    }
    return p;
}

static void fill(uint8_t *at, size_t n)
{
    for (; n >= 8; at += 8, n -= 8) {
        uint64_t z = any();
        memcpy(at, &z, 8);
    }
    for (; n; n--) *at++ = (uint8_t)any();
}

static Lent lent(size_t plane)
{
    Lent l = {room(plane + GUARD), plane, plane + GUARD};
    fill(l.at, l.lent);
    return l;
}

static Lent copy_of(Lent from)
{
    Lent l = {room(from.lent), from.plane, from.lent};
    memcpy(l.at, from.at, from.lent);
    return l;
}

static Three three(size_t luma, size_t chroma)
{
    Three t = {lent(luma), lent(chroma), lent(chroma)};
    return t;
}

static Three copies_of(Three from)
{
    Three t = {copy_of(from.y), copy_of(from.u), copy_of(from.v)};
    return t;
}

static void done(Three t)
{
    free(t.y.at), free(t.u.at), free(t.v.at);
}

static size_t up16(size_t n) { return (n + 15) / 16 * 16; }
static size_t up32(size_t n) { return (n + 31) / 32 * 32; }
static size_t up2(size_t n) { return (n + 1) / 2 * 2; }
static size_t least(size_t a, size_t b) { return a < b ? a : b; }

/* A side: small, a prime, a macroblock's edge or one beside it, or anything up to `most`. */
static uint16_t side(uint32_t most)
{
    static const uint16_t primes[] = {2, 3, 5, 7, 11, 13, 17, 19, 23, 31, 37, 61, 67, 97, 127, 251, 509, 1021, 4093, 16381, 65519};
    uint32_t n;
    switch (below(4)) {
    case 0: n = below(50); break;
    case 1: n = primes[below(sizeof primes / sizeof *primes)]; break;
    case 2: n = 16 * below(most / 16 + 1) + below(3); n = n ? n - 1 : 0; break;
    default: n = below(most + 1);
    }
    return (uint16_t)(n < most ? n : most);
}

/* A rectangle's edge: near an edge of the picture, inside, or anywhere. */
static uint16_t edge(uint16_t size)
{
    switch (below(8)) {
    case 0: return 0;
    case 1: return size;
    case 2: return (uint16_t)least((size_t)size + 1 + below(20), 65535);
    case 3: return 65535;
    case 4: return (uint16_t)any();
    default: return (uint16_t)below((uint32_t)size + 1);
    }
}

/* Every rectangle of the list has left below right, top below bottom, right not above the width and bottom not above the height. */
static int sound(const Case *c)
{
    for (const uint16_t *r = c->rects; r < c->rects + c->count; r += 4)
        if (r[0] >= r[2] || r[1] >= r[3] || r[2] > c->width || r[3] > c->height) return 0;
    return 1;
}

/* Two edges become those of a sound rectangle: within a side, which is not 0, in order, and not the same. */
static void order(uint16_t *from, uint16_t *to, uint16_t size)
{
    uint16_t a = (uint16_t)(*from % (size + 1u)), b = (uint16_t)(*to % (size + 1u));
    *from = a < b ? a : b, *to = a < b ? b : a;
    if (a == b && a < size) ++*to;
    if (a == b && a == size) --*from;
}

/* One case in four has a sound list: no rectangle where the picture has no pixel. */
static void make_sound(Case *c)
{
    if (!c->width || !c->height) c->count = 0;
    for (uint16_t *r = c->rects; r < c->rects + c->count; r += 4) order(r, r + 2, c->width), order(r + 1, r + 3, c->height);
}

/* One case in 512 has a side of up to 65,520, and of these one in eight a width at the end of the 32 rule, 65,489 to 65,520; the others are
   at most 160 each. */
static Case made(uint64_t seed, uint64_t number)
{
    Case c;
    state = seed * 0xD1342543DE82EF95u + number;
    if (number % 512 == 511) {
        c.width = side(65520);
        c.height = side((uint32_t)least(65520, (PLANE - 1) / (up16(c.width) + 16)));
        if (number % 1024 == 1023) { /* the long side is the height */
            uint16_t w = c.width;
            c.width = c.height;
            c.height = w;
        }
        if (number % 4096 == 511) {
            c.width = (uint16_t)(65489 + below(32));
            c.height = side(64);
        }
    } else {
        c.width = side(160);
        c.height = side(160);
    }
    c.stride = up16(c.width);
    c.rows = up16(c.height);
    c.count = 4 * below(RECTS + 1);
    for (size_t i = 0; i < c.count; i++) c.rects[i] = edge(i % 2 ? c.height : c.width);
    if (number % 4 == 2) make_sound(&c);
    return c;
}

static void differs(const Case *c, uint64_t seed, uint64_t number, int walk, const char *what, size_t at)
{
    if (differences++ > 4 || altered || clipped || crossed) return;
    printf("agree: --seed %llu --only %llu: %ux%u, %zu rectangles, %s: %s differs at byte %zu\n", (unsigned long long)seed,
           (unsigned long long)number, c->width, c->height, c->count / 4, names[walk], what, at);
}

/* How wide the views are. */
static size_t width_of(const Case *c, int walk)
{
    return walk == V2_32 ? up32(c->width) : c->stride;
}

/* Which luma some rectangle takes: rows from top to below bottom and the picture's height, columns from left to below right and the
   widened right. Which chroma: whole blocks. */
static void mark(const Case *c, uint8_t *luma, uint8_t *chroma)
{
    memset(luma, 0, c->stride * c->rows);
    memset(chroma, 0, c->stride * c->rows);
    for (const uint16_t *r = c->rects; r < c->rects + c->count; r += 4) {
        size_t left = r[0] / 2 * 2, top = r[1] / 2 * 2;
        size_t right = up2(least(r[2], c->width)), bottom = up2(least(r[3], c->height));
        for (size_t row = top; row < bottom; row++)
            if (left < right) memset(chroma + row * c->stride + left, 1, right - left);
        size_t taken = least(r[2], right);
        for (size_t row = r[1]; row < least(r[3], c->height); row++)
            if (r[0] < taken) memset(luma + row * c->stride + r[0], 1, taken - r[0]);
    }
}

/* The plane is the picture's where it is marked, and as before elsewhere; what is lent after it is as before. Answers the first byte that
   is not so, or lent. */
static size_t wrong_plane(Lent now, Lent before, Lent picture, const uint8_t *marked)
{
    int same = 1;
    for (size_t i = 0; i < now.plane; i++) same &= now.at[i] == (marked[i] ? picture.at[i] : before.at[i]);
    compared += now.lent;
    if (same && !memcmp(now.at + now.plane, before.at + before.plane, GUARD)) return now.lent;
    for (size_t i = 0; i < now.plane; i++)
        if (now.at[i] != (marked[i] ? picture.at[i] : before.at[i])) return i;
    return now.plane;
}

/* A sample of the picture, or what is past its stride. */
static uint8_t seen(const Case *c, Lent plane, size_t r, size_t x, uint8_t past)
{
    return x < c->stride ? plane.at[r * c->stride + x] : past;
}

/* The sample of the picture that each spot of the auxiliary view holds; `w` is how wide the view is. */
static uint8_t aux_luma(const Case *c, int walk, size_t w, Three p, size_t r, size_t x)
{
    if (walk == V1) {
        size_t in = r % 16, block = r - in;
        return in < 8 ? p.u.at[(block + 2 * in + 1) * c->stride + x] : p.v.at[(block + 2 * (in - 8) + 1) * c->stride + x];
    }
    return x < w / 2 ? seen(c, p.u, r, 2 * x + 1, 128) : seen(c, p.v, r, 2 * (x - w / 2) + 1, 128);
}

static uint8_t aux_chroma(const Case *c, int walk, size_t w, Three p, int second, size_t r, size_t x)
{
    if (walk == V1) return (second ? p.v : p.u).at[2 * r * c->stride + 2 * x + 1];
    size_t from = second ? 2 : 0;
    return x < w / 4 ? seen(c, p.u, 2 * r + 1, 4 * x + from, 128) : seen(c, p.v, 2 * r + 1, 4 * (x - w / 4) + from, 128);
}

static size_t wrong_views(const Case *c, int walk, size_t w, Three p, Three main, Three aux)
{
    size_t wrong = 0, half = w / 2;
    for (size_t r = 0; r < c->rows; r++)
        for (size_t x = 0; x < w; x++)
            wrong += (main.y.at[r * w + x] != seen(c, p.y, r, x, 0)) + (aux.y.at[r * w + x] != aux_luma(c, walk, w, p, r, x));
    for (size_t r = 0; r < c->rows / 2; r++)
        for (size_t x = 0; x < half; x++)
            wrong += (main.u.at[r * half + x] != seen(c, p.u, 2 * r, 2 * x, 128)) + (main.v.at[r * half + x] != seen(c, p.v, 2 * r, 2 * x, 128))
                     + (aux.u.at[r * half + x] != aux_chroma(c, walk, w, p, 0, r, x))
                     + (aux.v.at[r * half + x] != aux_chroma(c, walk, w, p, 1, r, x));
    compared += 3 * w * c->rows;
    return wrong;
}

/* A map before the calls: 0, 1 and 2 mostly, and bytes that no call writes. */
static Lent any_map(size_t blocks)
{
    Lent map = lent(blocks);
    for (size_t i = 0; i < blocks; i++) map.at[i] = map.at[i] < 224 ? map.at[i] % 3 : map.at[i];
    return map;
}

/* The map is `set` in every block whose chroma is marked, and as before elsewhere and after it. Answers the first byte that is not so, or
   lent. A block's four places are marked together. */
static size_t wrong_map(const Case *c, Lent now, Lent before, const uint8_t *marked, uint8_t set)
{
    const size_t across = c->stride / 2;
    compared += now.lent, of_maps += now.lent;
    for (size_t i = 0; i < now.plane; i++)
        if (now.at[i] != (marked[i / across * 2 * c->stride + i % across * 2] ? set : before.at[i])) return i;
    return memcmp(now.at + now.plane, before.at + before.plane, GUARD) ? now.plane : now.lent;
}

static size_t wrong_guards(Three now, Three before)
{
    compared += 3 * GUARD;
    return (size_t)(!!memcmp(now.y.at + now.y.plane, before.y.at + before.y.plane, GUARD)
                    + !!memcmp(now.u.at + now.u.plane, before.u.at + before.u.plane, GUARD)
                    + !!memcmp(now.v.at + now.v.plane, before.v.at + before.v.plane, GUARD));
}

typedef haythaw_views Split(uint16_t, uint16_t, const uint8_t *, size_t, const uint8_t *, size_t, const uint8_t *, size_t, uint8_t *, size_t,
                            uint8_t *, size_t, uint8_t *, size_t, uint8_t *, size_t, uint8_t *, size_t, uint8_t *, size_t);

static haythaw_views split(const Case *c, int walk, Three p, Three main, Three aux)
{
    static Split *const calls[] = {NULL, haythaw_split_v1, haythaw_split_v2, haythaw_split_v2_32};
    return calls[walk == V2_32 && crossed ? V2 : walk](
        c->width, c->height, p.y.at, p.y.lent, p.u.at, p.u.lent, p.v.at, p.v.lent, main.y.at, main.y.lent, main.u.at, main.u.lent,
        main.v.at, main.v.lent, aux.y.at, aux.y.lent, aux.u.at, aux.u.lent, aux.v.at, aux.v.lent);
}

typedef uint32_t Apply(uint16_t, uint16_t, uint8_t *, size_t, uint8_t *, size_t, uint8_t *, size_t, uint8_t *, size_t, const uint16_t *,
                       size_t, uint16_t, uint16_t, size_t, size_t, const uint8_t *, size_t, const uint8_t *, size_t, const uint8_t *, size_t);

static uint32_t apply(Apply *call, const Case *c, Three onto, Lent map, haythaw_views v, Three view)
{
    return call(c->width, c->height, onto.y.at, onto.y.lent, onto.u.at, onto.u.lent, onto.v.at, onto.v.lent, map.at, map.lent, c->rects,
                c->count, v.width, v.height, v.luma_stride, v.chroma_stride, view.y.at, view.y.lent, view.u.at, view.u.lent, view.v.at,
                view.v.lent);
}

/* What split answered, and the bytes of both views. */
static haythaw_views split_of(const Case *c, uint64_t seed, uint64_t number, int walk, Three picture, Three main, Three aux)
{
    const size_t w = width_of(c, walk);
    Three main_was = copies_of(main), aux_was = copies_of(aux);
    haythaw_views v = split(c, walk, picture, main, aux);
    if (!crossed && (v.number || v.width != w || v.height != c->rows || v.luma_stride != w || v.chroma_stride != w / 2))
        differs(c, seed, number, walk, "the answer of split", 0);
    if (!crossed && wrong_views(c, walk, w, picture, main, aux)) differs(c, seed, number, walk, "a view", 0);
    if (wrong_guards(main, main_was) + wrong_guards(aux, aux_was)) differs(c, seed, number, walk, "what lies after a view", 0);
    done(main_was), done(aux_was);
    return v;
}

/* The calls, of each form. */
static Apply *const main_views[FORMS] = {haythaw_apply_main_view, haythaw_apply_main_view_strict};
static Apply *const auxiliary_views[FORMS][WALKS + 1] = {
    {NULL, haythaw_apply_auxiliary_v1, haythaw_apply_auxiliary_v2, haythaw_apply_auxiliary_v2_32},
    {NULL, haythaw_apply_auxiliary_v1_strict, haythaw_apply_auxiliary_v2_strict, haythaw_apply_auxiliary_v2_32_strict}};

/* Both views of a picture onto an earlier one, by the calls of a form. */
static void onto_earlier(const Case *c, uint64_t seed, uint64_t number, int walk, int of, haythaw_views v, Three views[2], Three earlier,
                         Lent map_was, Three picture, const uint8_t *luma, const uint8_t *chroma)
{
    const size_t plane = c->stride * c->rows;
    const int alter = altered == walk && form == of ? fault : FAULTS;
    Three onto = copies_of(earlier);
    Lent map = copy_of(map_was);

    if (apply(main_views[of], c, onto, map, v, views[0])) differs(c, seed, number, walk, "the number of the main view", 0);
    size_t first = wrong_map(c, map, map_was, chroma, 1);
    if (alter == NO_AUXILIARY) v.width = v.height = 0;
    if (apply(auxiliary_views[of][walk], c, onto, map, v, views[1])) differs(c, seed, number, walk, "the number of the auxiliary view", 0);
    if (alter == A_SAMPLE && plane) onto.v.at[plane - 1] ^= 1;
    if (alter == A_BLOCK && plane) map.at[plane / 4 - 1] ^= 1;
    size_t second = wrong_map(c, map, map_was, chroma, 2);
    size_t y = wrong_plane(onto.y, earlier.y, picture.y, luma);
    size_t u = wrong_plane(onto.u, earlier.u, picture.u, chroma);
    size_t w = wrong_plane(onto.v, earlier.v, picture.v, chroma);
    if (y < onto.y.lent) differs(c, seed, number, walk, "Y", y);
    if (u < onto.u.lent) differs(c, seed, number, walk, "U", u);
    if (w < onto.v.lent) differs(c, seed, number, walk, "V", w);
    if (first < map.lent) differs(c, seed, number, walk, "the map after the main view", first);
    if (second < map.lent) differs(c, seed, number, walk, "the map after both views", second);
    done(onto), free(map.at);
}

static int same_three(Three a, Three b)
{
    return !memcmp(a.y.at, b.y.at, b.y.lent) && !memcmp(a.u.at, b.u.at, b.u.lent) && !memcmp(a.v.at, b.v.at, b.v.lent);
}

/* A list that is not sound: 12 from both strict calls, and no byte changes. */
static void unsound(const Case *c, uint64_t seed, uint64_t number, int walk, haythaw_views v, Three views[2], Three earlier, Lent map_was)
{
    const int of = clipped == walk ? CLIPPING : STRICT;
    Three onto = copies_of(earlier);
    Lent map = copy_of(map_was);
    uint32_t first = apply(main_views[of], c, onto, map, v, views[0]), second = apply(auxiliary_views[of][walk], c, onto, map, v, views[1]);
    if (first != 12 || second != 12) differs(c, seed, number, walk, "the number of an unsound list", 0);
    if (!same_three(onto, earlier) || memcmp(map.at, map_was.at, map.lent)) differs(c, seed, number, walk, "what an unsound list leaves", 0);
    compared += onto.y.lent + onto.u.lent + onto.v.lent + map.lent, of_maps += map.lent;
    done(onto), free(map.at);
}

/* The picture through one layout, by one rule, onto an earlier picture. */
static void through(const Case *c, uint64_t seed, uint64_t number, int walk, Three picture, const uint8_t *luma, const uint8_t *chroma)
{
    size_t plane = c->stride * c->rows, large = width_of(c, walk) * c->rows;
    Three earlier = three(plane, plane), views[2] = {three(large, large / 4), three(large, large / 4)};
    Lent map_was = any_map(plane / 4);
    haythaw_views v = split_of(c, seed, number, walk, picture, views[0], views[1]);
    onto_earlier(c, seed, number, walk, CLIPPING, v, views, earlier, map_was, picture, luma, chroma);
    if (sound(c))
        onto_earlier(c, seed, number, walk, STRICT, v, views, earlier, map_was, picture, luma, chroma);
    else
        unsound(c, seed, number, walk, v, views, earlier, map_was);
    done(earlier), done(views[0]), done(views[1]);
    free(map_was.at);
}

/* A W above 65,535: 5, and no byte of views that would be long enough changes. */
static void too_wide(const Case *c, uint64_t seed, uint64_t number, Three picture)
{
    size_t large = width_of(c, V2_32) * c->rows;
    Three main = three(large, large / 4), aux = three(large, large / 4), main_was = copies_of(main), aux_was = copies_of(aux);
    haythaw_views v = split(c, V2_32, picture, main, aux);
    if (v.number != 5 || v.width || v.height || v.luma_stride || v.chroma_stride) differs(c, seed, number, V2_32, "the refusal of split", 0);
    if (!same_three(main, main_was) || !same_three(aux, aux_was)) differs(c, seed, number, V2_32, "a view that was refused", 0);
    compared += 3 * large + 6 * GUARD;
    done(main), done(aux), done(main_was), done(aux_was);
}

/* The walk by the 32 rule, counted by what W is. */
static void by_32(const Case *c, uint64_t seed, uint64_t number, Three picture, const uint8_t *luma, const uint8_t *chroma)
{
    if (c->width > 65504) {
        refused++;
        too_wide(c, seed, number, picture);
        return;
    }
    ++*(width_of(c, V2_32) == c->stride ? &narrow : &wide);
    through(c, seed, number, V2_32, picture, luma, chroma);
}

static void run(uint64_t seed, uint64_t number)
{
    Case c = made(seed, number);
    size_t plane = c.stride * c.rows;
    uint8_t *luma = room(plane), *chroma = room(plane);
    mark(&c, luma, chroma);
    sound_lists += (uint64_t)sound(&c);
    Three picture = three(plane, plane), was = copies_of(picture);
    through(&c, seed, number, V1, picture, luma, chroma);
    through(&c, seed, number, V2, picture, luma, chroma);
    by_32(&c, seed, number, picture, luma, chroma);
    if (!same_three(picture, was)) differs(&c, seed, number, 0, "the picture itself", 0);
    done(picture), done(was);
    free(luma), free(chroma);
}

/* Whether the list takes any chroma. */
static int takes(const Case *c)
{
    size_t plane = c->stride * c->rows;
    uint8_t *luma = room(plane), *chroma = room(plane);
    mark(c, luma, chroma);
    int any_taken = plane && memchr(chroma, 1, plane);
    free(luma), free(chroma);
    return any_taken;
}

/* The first case that takes some chroma, whose list is sound or is not. */
static uint64_t first_that_takes(int with_sound_list)
{
    uint64_t number = 0;
    for (Case c = made(1, number); !takes(&c) || sound(&c) != with_sound_list; c = made(1, number)) number++;
    return number;
}

/* In the first case that takes some chroma by a sound list, so that both forms are walked. A byte altered in one walk is one difference; an
   auxiliary view that is left out is one in U, in V and in the map. */
static int alter_each(void)
{
    static const struct { const char *what; uint64_t differences; } faults[FAULTS] = {
        {"an altered byte of V", 1}, {"an altered byte of the map", 1}, {"an auxiliary view left out", 3}};
    const uint64_t number = first_that_takes(1);
    for (altered = 1; altered <= WALKS; altered++)
        for (int k = 0; k < FORMS * FAULTS; k++) {
            form = k / FAULTS, fault = k % FAULTS;
            differences = 0;
            run(1, number);
            if (differences == faults[fault].differences) continue;
            printf("agree: %s in %s%s was not noticed\n", faults[fault].what, names[altered], form == STRICT ? ", strict," : "");
            return 1;
        }
    altered = 0;
    return 0;
}

/* In the first case that takes some chroma by a list that is not sound: the number and what is left differ, in one walk. */
static int clip_each(void)
{
    const uint64_t number = first_that_takes(0);
    for (clipped = 1; clipped <= WALKS; clipped++) {
        differences = 0;
        run(1, number);
        if (differences == 2) continue;
        printf("agree: an unsound list that was clipped in %s was not noticed\n", names[clipped]);
        return 1;
    }
    clipped = 0;
    return 0;
}

/* Cases that take some chroma, their views laid out by the 16 rule and read by the 32 rule: the picture that arrives is another one in every
   case where the two W differ, and the right one where they do not. Counts both. */
static int cross(uint64_t *apart, uint64_t *alike)
{
    crossed = 1;
    for (uint64_t number = 0; number < 400; number++) {
        Case c = made(1, number);
        int same_w = up32(c.width) == c.stride;
        if (!takes(&c)) continue;
        differences = 0;
        run(1, number);
        if ((differences == 0) != same_w) {
            printf("agree: views of the 16 rule read by the 32 rule: --only %llu: %ux%u is %s\n", (unsigned long long)number, c.width, c.height,
                   differences ? "wrong" : "not noticed");
            return 1;
        }
        ++*(same_w ? alike : apart);
    }
    crossed = 0;
    return 0;
}

static int self_test(void)
{
    uint64_t apart = 0, alike = 0;
    if (alter_each() || clip_each() || cross(&apart, &alike)) return 1;
    printf("agree: an altered byte, of V or of the map, and an auxiliary view left out, by the calls that clip and by the strict ones, and an "
           "unsound list that is clipped are noticed in each layout and by the 32 rule; views of the 16 rule that are read by the 32 rule are "
           "noticed in %llu cases, and are right in %llu, whose W is the stride\n",
           (unsigned long long)apart, (unsigned long long)alike);
    return 0;
}

int main(int argc, char **argv)
{
    if (argc == 2 && !strcmp(argv[1], "--self-test")) return self_test();
    const Options options = options_of("agree", 40000, argc, argv);
    const uint64_t ran = walk("agree", "cases", options, &differences, run);
    printf("agree: %llu cases through both layouts, and by the 32 rule: %llu with W the stride, %llu with 16 more, %llu too wide for it; "
           "%llu with a sound list, by the strict calls too; %llu bytes compared, %llu of them of maps, %llu differences, seed %llu\n",
           (unsigned long long)ran, (unsigned long long)narrow, (unsigned long long)wide, (unsigned long long)refused,
           (unsigned long long)sound_lists, (unsigned long long)compared, (unsigned long long)of_maps, (unsigned long long)differences,
           (unsigned long long)options.seed);
    return differences != 0;
}
