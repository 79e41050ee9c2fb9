/* A call of the library for a stored line, and what the header says of every call, looked at each time: what is refused or absent
 * answers nothing else and changes no byte, and what is done changes no byte but those that it may write, and makes of the map what the rules say.
 *
 * The self-test alters one answer here, on its way from the library to the line: a field of it, or a byte of a lent buffer. */
#ifndef ASK_H
#define ASK_H

#include "map.h"

/* How wide the views of a split are: as the stride or, by the 32 rule, as the width rounded up to 32. */
static size_t views_width(enum call call, const Args *a)
{
    return up_to(a->width, call == SPLIT_V2_32 ? 32 : 16);
}

static bool splits(enum call call)
{
    return call == SPLIT_V1 || call == SPLIT_V2 || call == SPLIT_V2_32;
}

/* Which bytes of a slice the call may write: its first so many. The rows of a picture are padded to 16. */
static size_t may_write(enum call call, const Args *a, const Result *r, enum slice s)
{
    const size_t plane = up_to(a->width, 16) * up_to(a->height, 16), luma = views_width(call, a) * up_to(a->height, 16);
    if (r->number != 0)
        return 0;
    switch (clipping(call)) {
    case NEW: case FROM_RGBA: case FROM_RGBA_RUST: case FROM_RGBA_LIMITED: case MAIN: return s <= V ? plane : s == MAP ? plane / 4 : 0;
    case AUX_V1: case AUX_V2: case AUX_V2_32: case AUX_V2_EXACT: return s == U || s == V ? plane : s == MAP ? plane / 4 : 0;
    case SPLIT_V1: case SPLIT_V2: case SPLIT_V2_32: return s == MAIN_Y || s == AUX_Y ? luma : s > MAIN_Y && s <= AUX_V ? luma / 4 : 0;
    case TO_RGBA: case VIEW_TO_RGBA: case VIEW_TO_RGBA_LIMITED: case ANNEX_B: case WRITE: return s == OUT ? r->count : 0;
    case LUMA_RECTS: case CHROMA_RECTS: return s == NUMBERS ? 2 * r->count : 0;
    default: return 0;
    }
}

static bool has_present(enum call call)
{
    return (call >= LUMA_ROW && call <= V_ROW) || (call >= LUMA_RECTANGLE && call <= CHROMA_PAIR) || call == FIRST_UNSOUND;
}

/* The answer of a split, from its picture's size. */
static bool is_split(enum call call, const Result *r, const Args *a)
{
    return r->width == views_width(call, a) && r->height == up_to(a->height, 16) && r->luma_stride == r->width &&
           r->chroma_stride == r->width / 2u;
}

/* The answer of a check: a yes names nothing, and where nothing is named there is no place. */
static bool is_checked(const Result *r)
{
    return r->named ? !r->same : r->view == 0 && r->plane == 0 && r->at_row == 0 && r->at_column == 0;
}

/* ---- what the self-test alters ---- */

typedef struct { const char *name; size_t at; } Field;
#define FIELD(name) {#name, offsetof(Result, name)}
#define STREAM(name) FIELD(name.count), FIELD(name.rects), FIELD(name.pairs), FIELD(name.data), FIELD(name.length)
enum { MOST_FIELDS = 12, ALLOCATION_SIZE = CALLS };

/* The fields that a result of its own type has; the rest of a Result is 0. */
static const Field *fields_of(int call)
{
    static const Field number[MOST_FIELDS + 1] = {FIELD(number)}, yes[MOST_FIELDS + 1] = {FIELD(yes)}, size[MOST_FIELDS + 1] = {FIELD(count)},
        answer[MOST_FIELDS + 1] = {FIELD(number), FIELD(count)},
        pixels[MOST_FIELDS + 1] = {FIELD(number), FIELD(count), FIELD(filtered_u), FIELD(filtered_v), FIELD(stale)},
        row[MOST_FIELDS + 1] = {FIELD(number), FIELD(present), FIELD(start), FIELD(length)},
        views[MOST_FIELDS + 1] = {FIELD(number), FIELD(width), FIELD(height), FIELD(luma_stride), FIELD(chroma_stride)},
        avc444[MOST_FIELDS + 1] = {FIELD(number), FIELD(kind), STREAM(luma), STREAM(chroma)},
        rectangle[MOST_FIELDS + 1] = {FIELD(number), FIELD(present), FIELD(left), FIELD(top), FIELD(right), FIELD(bottom)},
        pair[MOST_FIELDS + 1] = {FIELD(number), FIELD(present), FIELD(value), FIELD(reserved), FIELD(progressive), FIELD(quality)},
        unsound[MOST_FIELDS + 1] = {FIELD(number), FIELD(present), FIELD(fault), FIELD(index)},
        checked[MOST_FIELDS + 1] = {FIELD(number), FIELD(same), FIELD(named), FIELD(view), FIELD(plane), FIELD(at_row), FIELD(at_column)};
    switch (call) {
    case ALLOCATION_SIZE: return size;
    case IS_AVC: return yes;
    case TO_RGBA: return pixels;
    case VIEW_TO_RGBA: case VIEW_TO_RGBA_LIMITED: case ANNEX_B: case LUMA_RECTS: case CHROMA_RECTS: case WRITE: return answer;
    case LUMA_ROW: case U_ROW: case V_ROW: return row;
    case SPLIT_V1: case SPLIT_V2: case SPLIT_V2_32: return views;
    case READ: return avc444;
    case LUMA_RECTANGLE: case CHROMA_RECTANGLE: return rectangle;
    case LUMA_PAIR: case CHROMA_PAIR: return pair;
    case FIRST_UNSOUND: return unsound;
    case CHECK_V1: case CHECK_V2: case CHECK_V2_32: return checked;
    default: return number;
    }
}

/* What can be altered in an answer of a call: a field; the first byte of a slice, where it is written; the last byte of a slice, where
 * that is not to be written. `met` counts the answers that have it, and the one with the number `altered_at` is altered. */
enum { FIRST_BYTE = MOST_FIELDS, LAST_BYTE = FIRST_BYTE + SLICES, ALTERABLE = LAST_BYTE + SLICES };
static unsigned long met[CALLS + 1][ALTERABLE], altered_at;
static int altered_call = -1, altered_what;

static bool chosen(int call, int what)
{
    return met[call][what]++ == altered_at && call == altered_call && what == altered_what;
}

static void alter_fields(int call, Result *r)
{
    const Field *fields = fields_of(call);
    for (int k = 0; k < MOST_FIELDS && fields[k].name != NULL; k++)
        if (chosen(call, k))
            ((uint8_t *)r)[fields[k].at] ^= 1;
}

static void alter_bytes(enum call call, const Args *a, const Result *r)
{
    for (int s = 0; s < SLICES; s++) {
        const size_t bytes = a->count[s] * element((enum slice)s), written = may_write(call, a, r, (enum slice)s);
        if (written > 0 && chosen(call, FIRST_BYTE + s))
            ((uint8_t *)a->at[s])[0] ^= 1;
        if (written < bytes && chosen(call, LAST_BYTE + s))
            ((uint8_t *)a->at[s])[bytes - 1] ^= 1;
    }
}

/* All that can be altered in the lines that were printed: the two numbers that choose it, and what they mean. */
static void list_alterable(FILE *to)
{
    for (int call = 0; call <= CALLS; call++)
        for (int what = 0; what < ALTERABLE; what++) {
            if (met[call][what] <= altered_at)
                continue;
            fprintf(to, "%d %d %s: ", call, what, call == ALLOCATION_SIZE ? "allocation_size" : call_names[call]);
            if (what < FIRST_BYTE)
                fprintf(to, "%s\n", fields_of(call)[what].name);
            else
                fprintf(to, "%s byte of %s\n", what < LAST_BYTE ? "first" : "last", slice_names[(what - FIRST_BYTE) % SLICES]);
        }
}

/* ---- the calls ---- */

static Result asked(enum call call, const Args *a)
{
    Result r = tried(call, a);
    alter_bytes(call, a, &r);
    alter_fields(call, &r);
    if (r.number != 0 || (has_present(call) && !r.present))
        check(is_refusal(&r, r.number), call_names[call], "more than a number is answered");
    else if (splits(call))
        check(is_split(call, &r, a), call_names[call], "the views' sizes and strides");
    else if (is_check(call))
        check(is_checked(&r), call_names[call], "what is named");
    if (r.number != 0)
        check(lent_kept(), call_names[call], "a refusal changed a byte");
    else
        for (int s = 0; s < SLICES; s++)
            check(kept_from(a->at[s], may_write(call, a, &r, (enum slice)s)), call_names[call], "a byte changed that may not be written");
    if (r.number == 0 && takes_map(call))
        check(map_right(call, a), call_names[call], "the map");
    if (r.number == 0 && call == TO_RGBA)
        check(r.stale == stale_pixels(a), call_names[call], "how many pixels are stale");
    return r;
}

/* Bytes of a plane of a picture. */
static size_t plane_of(uint16_t width, uint16_t height)
{
    Result r = of_number(0);
    r.count = haythaw_allocation_size(width, height);
    alter_fields(ALLOCATION_SIZE, &r);
    check(r.count % 3 == 0, "allocation_size", "it is not of three planes");
    return r.count / 3;
}

#endif
