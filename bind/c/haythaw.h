/* Haythaw: two 4:2:0 views become one 4:4:4 picture and back (AVC444 and AVC444v2 of MS-RDPEGFX), proved.
 *
 * What a caller owes, and no call can check:
 *
 *   - A length is true: the buffer has at least as many elements as the count beside its pointer says.
 *     Counts are in elements: bytes or, where the pointer is to uint16_t, numbers of 16 bits.
 *   - A buffer that is written overlaps no other buffer of the same call. Buffers that are only read may overlap.
 *
 * A pointer with count 0 may be null. Nothing else is owed. Every call is proved total: for any sizes, strides, lists, lengths
 * and bytes it ends, answers as said below, and touches nothing outside the lent buffers. It checks what it is handed by itself,
 * and refuses by number. A refusal changes no byte of any buffer. The library allocates nothing, keeps nothing between calls
 * and starts no thread, so calls on different buffers may run at the same time.
 *
 * Words
 *
 *   picture   width x height pixels in three planes y, u, v of `stride` x `rows` bytes each, where stride is the width and rows
 *             the height, both rounded up to 16. A call works these out itself. Bytes of a lent plane past stride x rows
 *             reach no answer and never change. It has a map.
 *   map       of stale colour: one byte for each 2x2 block of the padded picture, row by row, stride/2 in a row and rows/2 rows.
 *             0: the block never had a main view. 1: it had one, and no auxiliary view has completed it since. 2: complete, its
 *             colour is whole. A call finds the map as the call before left it, for the same picture. A byte above 2 is not
 *             refused; it counts as not complete, and an auxiliary view leaves it. Bytes past the map reach no answer and never change.
 *   view      a 4:2:0 picture: view_width x view_height luma samples, row r from r x luma_stride on, and in view_u and
 *             view_v half of both, rounded up, row r from r x chroma_stride on. Bytes between the width and the stride, and after
 *             the last row, reach no answer.
 *   list      `rects`: rectangles, four numbers each: left, top, right, bottom. Right and bottom are the first column and row
 *             outside. They may be empty, reversed, off the picture, repeated and in any order.
 *   sound     a rectangle that lies in the picture and is not empty: left is below right, top below bottom, right at most the width
 *             and bottom at most the height. A list is sound if all its rectangles are; so an empty list is. Only the calls _strict
 *             ask for it.
 *   widened   a rectangle with left and top rounded down to even, and right (at most the width) and bottom (at most the
 *             height) rounded up to even: the 2x2 blocks that it touches. An empty rectangle may widen to something:
 *             (5, 0, 5, 4) takes chroma columns 4 and 5.
 *   W         the width by which the auxiliary view of AVC444v2 is laid out. The calls _v2 round to 16 (the 16 rule), the calls
 *             _v2_32 round the picture's width up to 32 (the 32 rule), and haythaw_apply_auxiliary_v2_exact does not round it (the
 *             rule Exact, FreeRDP's server): a width of 66 is 80 by the first, 96 by the second and 66 by the third. No stream
 *             says which; it is the server's own. Chroma that was laid out by one W and is read by another is wrong. By the 16
 *             rule W follows from the view's width, so hand over a view as wide as it was coded, neither cropped nor padded.
 *   RGBA      four bytes a pixel, row after row with nothing between.
 *   limited   of a colour: BT.601 in limited range, as MS-RDPEVOR's video has it. Y is 16 for black and 235 for white, U and V lie between
 *             16 and 240. The two calls _limited take and make such samples; all others those of MS-RDPEGFX, BT.709 in full range. No
 *             sample says which it is: of the one range, shown by the other's call, colours are wrong.
 *   payload   (AVC444) what the wire carries, RFX_AVC444_BITMAP_STREAM of MS-RDPEGFX 2.2.4.5; V2 has the same frame. First a
 *             number of 32 bits: its low 30 bits are the size, its top two bits the kind (0 luma and chroma, 1 luma alone,
 *             2 chroma alone). Then the streams that the kind says. All numbers in it are little-endian.
 *   stream    of such a payload: a count of 32 bits, that many rectangles of four numbers of 16 bits (left, top, right, bottom),
 *             that many pairs of a quantiser byte and a quality byte, and then its H.264 bytes, to the stream's end.
 *
 * Link with libhaythaw: as `pkg-config --cflags --libs haythaw` says where it is installed; in the repository with
 * oracle/build/libhaythaw.a, which oracle/library.sh makes for this machine. It is for machines whose size_t has 64 bits.
 */
#ifndef HAYTHAW_H
#define HAYTHAW_H

#include <stddef.h>
#include <stdint.h>
#ifndef __cplusplus
#include <stdbool.h>
#endif

/* The version of this header and of the library that goes with it. 0.1 is what had no version: its pictures had no map. 0.2: a picture's
 * map follows v in haythaw_new, haythaw_from_rgba, haythaw_from_rgba_rust, haythaw_to_rgba and the five apply calls, haythaw_pixels
 * ends in `stale`, and there is haythaw_map_size. A program that was built for one of them does not work with the other. 0.3: there are
 * the five strict apply calls, haythaw_first_unsound and number 12. 0.4: there are haythaw_check_v1, _v2 and _v2_32, and haythaw_checked.
 * 0.5: there are haythaw_view_to_rgba_limited and haythaw_from_rgba_limited. All else is as in 0.2, and a program that was built for 0.2,
 * 0.3 or 0.4 works with 0.5. */
#define HAYTHAW_VERSION_MAJOR 0
#define HAYTHAW_VERSION_MINOR 5
#define HAYTHAW_VERSION_PATCH 0

/* Before each call that answers a number: a compiler that can, warns where the answer is not looked at. A program may define it away. */
#ifndef HAYTHAW_MUST_USE
#ifdef __GNUC__
#define HAYTHAW_MUST_USE __attribute__((warn_unused_result))
#else
#define HAYTHAW_MUST_USE
#endif
#endif

#ifdef __cplusplus
extern "C" {
#endif

typedef char haythaw_size_t_has_64_bits[sizeof(size_t) == 8 ? 1 : -1];

/* The numbers that a call may answer. Where several would be true, a call answers the first in the order beside its name. */
enum haythaw_number {
    HAYTHAW_DONE = 0,          /* done */
    HAYTHAW_PLANE_SHORT = 1,   /* a lent picture plane is shorter than stride x rows, or a map than stride/2 x rows/2 */
    HAYTHAW_RGBA_SHORT = 2,    /* RGBA input is shorter than width x height x 4 */
    HAYTHAW_VIEW_NARROW = 3,   /* a view's luma stride is below its width, or its chroma stride below its chroma width */
    HAYTHAW_VIEW_SHORT = 4,    /* a view's plane is shorter than its stride x its plane height, however large that product */
    HAYTHAW_SPLIT_LARGE = 5,   /* split, and a check of one: stride or rows is above 65,535, or W by the 32 rule */
    HAYTHAW_OUTPUT_SHORT = 6,  /* an output buffer is shorter than what would be written */
    HAYTHAW_LIST_UNEVEN = 7,   /* a list's length is not a multiple of 4, or its pairs are not two bytes for each rectangle */
    HAYTHAW_KIND_UNKNOWN = 8,  /* an AVC444 payload is of kind 3, or is to be written with a kind above 2 */
    HAYTHAW_PAYLOAD_SHORT = 9, /* an AVC444 payload is below 4 bytes, or its size runs past it */
    HAYTHAW_STREAM_SHORT = 10, /* the count, a rectangle or a pair of a stream runs past that stream */
    HAYTHAW_STREAM_LONG = 11,  /* a payload's first stream would be 2^30 bytes or longer, or a count would not fit in 32 bits */
    HAYTHAW_RECT_UNSOUND = 12  /* a rectangle of a strict call's list is not sound */
};

/* A number and how many elements were written: bytes or, where the output is of uint16_t, numbers of 16 bits. In a refusal the
 * count is 0. */
typedef struct haythaw_answer {
    uint32_t number;
    size_t count;
} haythaw_answer;

/* What picture to RGBA answers: a number, how many bytes were written, how many samples of U and of V the reverse filter replaced on
 * their way to those bytes, and how many of the pixels lie in blocks that the map does not call complete. A sample whose average was
 * kept is not counted. In a refusal all four counts are 0. */
typedef struct haythaw_pixels {
    uint32_t number;
    size_t count;
    size_t filtered_u;
    size_t filtered_v;
    size_t stale;
} haythaw_pixels;

/* The first rectangle of a list that is not sound: its index, counted from 0, and its first fault of these four: 1 left is not below
 * right, 2 top is not below bottom, 3 right is above the width, 4 bottom is above the height. A list without one is no refusal: number
 * 0, not present, fault and index 0. In a refusal present is false, fault and index are 0. It stands for a count that is always 0. */
typedef struct haythaw_unsound {
    uint32_t number;
    bool present;
    uint8_t fault;
    size_t index;
} haythaw_unsound;

/* Where a row of a view is, in the caller's own plane: `length` bytes from `start` on. A row that the view does not have is no
 * refusal: number 0, not present, start and length 0. A present row of a view of width 0 has length 0. In a refusal present is
 * false, start and length are 0. It stands for a count that is always 0. */
typedef struct haythaw_row {
    uint32_t number;
    bool present;
    size_t start;
    size_t length;
} haythaw_row;

/* What both views of a picture are like: width is the picture's stride and height its rows, luma_stride the stride and
 * chroma_stride half of it; by the 32 rule W stands for the stride. In a refusal all four are 0. It stands for a count that is
 * always 0. */
typedef struct haythaw_views {
    uint32_t number;
    uint16_t width;
    uint16_t height;
    size_t luma_stride;
    size_t chroma_stride;
} haythaw_views;

/* Whether two views are the split of a picture. If they are, same is true, and nothing is named. If a sample is wrong, named is true, and
 * the first wrong one is named: its view, its plane, and its row and column in that plane, counted from 0; in U and V, which have half of
 * the view's columns and rows, those of the plane and not of the picture. If a size is wrong, same and named are both false. Where nothing
 * is named, so too in a refusal, view, plane, row and column are 0; in a refusal same is false. It stands for a count that is always 0. */
typedef struct haythaw_checked {
    uint32_t number;
    bool same;
    bool named;
    uint8_t view;
    uint8_t plane;
    uint16_t row;
    uint16_t column;
} haythaw_checked;

/* What view and plane are in haythaw_checked. */
enum haythaw_checked_view { HAYTHAW_VIEW_MAIN = 0, HAYTHAW_VIEW_AUXILIARY = 1 };
enum haythaw_checked_plane { HAYTHAW_PLANE_Y = 0, HAYTHAW_PLANE_U = 1, HAYTHAW_PLANE_V = 2 };

/* Where the parts of a stream are, in the caller's own payload: `count` rectangles of 8 bytes from `rects` on, as many pairs of
 * 2 bytes from `pairs` on, and `length` H.264 bytes from `data` on. The three starts count from the payload's first byte. Each
 * part begins where the one before it ends, and all lie in the payload. */
typedef struct haythaw_stream {
    size_t count;
    size_t rects;
    size_t pairs;
    size_t data;
    size_t length;
} haythaw_stream;

/* What a payload carries. A stream that is not carried, and everything but the number in a refusal, is 0. It stands for a count
 * that is always 0. */
typedef struct haythaw_avc444 {
    uint32_t number;
    uint32_t kind;
    haythaw_stream luma;
    haythaw_stream chroma;
} haythaw_avc444;

/* A rectangle of a stream. One that the stream does not have is no refusal: number 0, not present, and all four are 0. In a
 * refusal present is false and all four are 0. It stands for a count that is always 0. */
typedef struct haythaw_rectangle {
    uint32_t number;
    bool present;
    uint16_t left;
    uint16_t top;
    uint16_t right;
    uint16_t bottom;
} haythaw_rectangle;

/* A pair of a stream. Of the quantiser byte, `value` is the low six bits, `reserved` bit 6 and `progressive` bit 7; `quality` is
 * the other byte. A pair that the stream does not have is no refusal: number 0, not present, the rest 0 and false. In a refusal
 * present is false and the rest 0 and false too. It stands for a count that is always 0. */
typedef struct haythaw_pair {
    uint32_t number;
    bool present;
    uint8_t value;
    bool reserved;
    bool progressive;
    uint8_t quality;
} haythaw_pair;

/* ---- The library itself ----
 *
 * These two are C (haythaw_text.c), not proved code: an object of their own beside the proved one. Since 0.4. */

/* The version of the library that was linked, major x 65,536 + minor x 256 + patch. HAYTHAW_VERSION_* are those of the header that was
 * included. Never refuses. */
uint32_t haythaw_version(void);

/* A sentence in English for a number of the table, for a log, and one for any other number. It ends in 0, is never null, stays as it is
 * and is not to be freed. */
const char *haythaw_number_text(uint32_t number);

/* A uint32_t result below is a number of the table and stands for a count that is always 0. */

/* ---- A 4:4:4 picture ---- */

/* Bytes of a picture's three planes together, 3 x stride x rows. Never refuses. */
size_t haythaw_allocation_size(uint16_t width, uint16_t height);

/* Bytes of a picture's map, stride/2 x rows/2. Never refuses. */
size_t haythaw_map_size(uint16_t width, uint16_t height);

/* A fresh picture: Y 0, U and V 128, padding too, and a map of 0.
 * Answers 0 or 1. Writes the first stride x rows bytes of y, u and v and the first stride/2 x rows/2 of map; bytes after them stay. */
HAYTHAW_MUST_USE
uint32_t haythaw_new(uint16_t width, uint16_t height, uint8_t *y, size_t y_count, uint8_t *u, size_t u_count,
                     uint8_t *v, size_t v_count, uint8_t *map, size_t map_count);

/* The picture of width x height RGBA pixels: each converted, then the edge filled, then U and V of every 2x2 block's even-even
 * place replaced by the block's average. The edge is filled in y, u and v: the last picture column goes into the padding right of
 * it, then the last picture row, full by then, into the rows below. So each sample of the padding is the nearest one of the
 * picture before the averages, and those at the edge have no other colour in them. Where a side is 0 the planes have no bytes, and
 * none is written. Alpha, and input after width x height x 4 bytes, is ignored. Its colour is whole: the map becomes 2.
 * Answers 0, 2 or 1, in this order of refusals. Writes the first stride x rows bytes of y, u and v and the first stride/2 x rows/2 of
 * map; bytes after them stay. */
HAYTHAW_MUST_USE
uint32_t haythaw_from_rgba(const uint8_t *rgba, size_t rgba_count, uint16_t width, uint16_t height,
                           uint8_t *y, size_t y_count, uint8_t *u, size_t u_count, uint8_t *v, size_t v_count,
                           uint8_t *map, size_t map_count);

/* The same as the Rust original has it: the edge is not filled, and padding as in a fresh picture (Y 0, U and V 128) enters the
 * last averages: those of the last column where the width is odd, and of the last row where the height is. Both calls agree where
 * both sides are multiples of 16.
 * Answers 0, 2 or 1, in this order of refusals. Writes what haythaw_from_rgba writes. */
HAYTHAW_MUST_USE
uint32_t haythaw_from_rgba_rust(const uint8_t *rgba, size_t rgba_count, uint16_t width, uint16_t height,
                                uint8_t *y, size_t y_count, uint8_t *u, size_t u_count, uint8_t *v, size_t v_count,
                                uint8_t *map, size_t map_count);

/* The same in limited range: of a pixel
 *     Y = (66 R + 129 G + 25 B + 128)/256 + 16
 *     U = (-38 R - 74 G + 112 B + 128)/256 + 128
 *     V = (112 R - 94 G - 18 B + 128)/256 + 128
 * each quotient rounded down, also below zero, and then all as in haythaw_from_rgba: the edge filled, U and V averaged, the map 2. So Y lies
 * between 16 and 235, U and V between 16 and 240. The picture is to be split and sent; a viewer shows its main view by
 * haythaw_view_to_rgba_limited. haythaw_to_rgba takes every picture for one of full range.
 * Answers 0, 2 or 1, in this order of refusals. Writes what haythaw_from_rgba writes. */
HAYTHAW_MUST_USE
uint32_t haythaw_from_rgba_limited(const uint8_t *rgba, size_t rgba_count, uint16_t width, uint16_t height,
                                   uint8_t *y, size_t y_count, uint8_t *u, size_t u_count, uint8_t *v, size_t v_count,
                                   uint8_t *map, size_t map_count);

/* The rectangle's pixels as RGBA, alpha 255. The rectangle is clipped to the picture; an empty one writes nothing, with number 0
 * and all counts 0. At pixels of even row and even column of the picture U and V go through the reverse filter on their way, which
 * keeps a block's average or replaces it; the planes keep their averages. filtered_u and filtered_v say at how many pixels of the
 * clipped rectangle it replaced U, and at how many V: at most one in each 2x2 block. stale says how many of its pixels lie in blocks
 * whose byte of the map is not 2, and whose colour may be half old; the map is only read, and changes no pixel.
 * Answers 0, 1 or 6, in this order of refusals; the count is 4 x the clipped pixels. Writes the first count bytes of out; bytes
 * after them stay. */
HAYTHAW_MUST_USE
haythaw_pixels haythaw_to_rgba(uint16_t width, uint16_t height, const uint8_t *y, size_t y_count,
                               const uint8_t *u, size_t u_count, const uint8_t *v, size_t v_count,
                               const uint8_t *map, size_t map_count, uint16_t left, uint16_t top, uint16_t right, uint16_t bottom,
                               uint8_t *out, size_t out_count);

/* ---- Views into a picture and its map, within a list of rectangles ----
 *
 * All five answer 0, 1, 7, 3 or 4, in this order of refusals, and take what a view has: a sample that it lacks leaves the
 * picture's as it was, and U and V of a place are taken together or not at all. The order of the list has no effect. An empty
 * list changes nothing.
 *
 * The map: a main view sets 1 where it takes any chroma of a block, also over 2. An auxiliary view turns 1 into 2 where it takes all
 * three of the block's other places, in this one call; it leaves a 0, which has had no main view, and everything else. So after the
 * main view and the auxiliary view of one picture, over one list, every block of a widened rectangle is 2. */

/* The main view: Y within the rectangles, in rows of the picture and columns below the widened right edge; U and V within the
 * widened rectangles, each chroma sample at the places of its block that are below view_height and view_width. Every other
 * byte of y, u and v stays. */
HAYTHAW_MUST_USE
uint32_t haythaw_apply_main_view(uint16_t width, uint16_t height, uint8_t *y, size_t y_count, uint8_t *u, size_t u_count,
                                 uint8_t *v, size_t v_count, uint8_t *map, size_t map_count,
                                 const uint16_t *rects, size_t rects_count, uint16_t view_width, uint16_t view_height,
                                 size_t luma_stride, size_t chroma_stride, const uint8_t *view_y, size_t view_y_count,
                                 const uint8_t *view_u, size_t view_u_count, const uint8_t *view_v, size_t view_v_count);

/* The auxiliary view of AVC444 (V1): within the widened rectangles, U and V at the three places of each block that the main
 * view has no sample of its own for. y is lent and never written; every other byte of u and v stays. */
HAYTHAW_MUST_USE
uint32_t haythaw_apply_auxiliary_v1(uint16_t width, uint16_t height, uint8_t *y, size_t y_count, uint8_t *u, size_t u_count,
                                    uint8_t *v, size_t v_count, uint8_t *map, size_t map_count,
                                    const uint16_t *rects, size_t rects_count, uint16_t view_width, uint16_t view_height,
                                    size_t luma_stride, size_t chroma_stride, const uint8_t *view_y, size_t view_y_count,
                                    const uint8_t *view_u, size_t view_u_count, const uint8_t *view_v, size_t view_v_count);

/* The auxiliary view of AVC444v2 (V2): the same places, kept elsewhere in the view: V stands W/2 columns after U in its luma, and
 * W/4 columns after U in its chroma. W is view_width rounded up to 16 (the 16 rule). y is lent and never written; every other
 * byte of u and v stays. */
HAYTHAW_MUST_USE
uint32_t haythaw_apply_auxiliary_v2(uint16_t width, uint16_t height, uint8_t *y, size_t y_count, uint8_t *u, size_t u_count,
                                    uint8_t *v, size_t v_count, uint8_t *map, size_t map_count,
                                    const uint16_t *rects, size_t rects_count, uint16_t view_width, uint16_t view_height,
                                    size_t luma_stride, size_t chroma_stride, const uint8_t *view_y, size_t view_y_count,
                                    const uint8_t *view_u, size_t view_u_count, const uint8_t *view_v, size_t view_v_count);

/* The same by the 32 rule, for servers that round the width of their surface up to 32: W is the picture's width rounded up to 32,
 * and view_width says only which samples the view has. W may be 65,536 here. At a width of 48, W is 64: of a view that is 64 wide
 * all is taken, and of one that is 48 wide the odd columns 1 to 31 and, in odd rows, the even columns 0 to 30. */
HAYTHAW_MUST_USE
uint32_t haythaw_apply_auxiliary_v2_32(uint16_t width, uint16_t height, uint8_t *y, size_t y_count, uint8_t *u, size_t u_count,
                                       uint8_t *v, size_t v_count, uint8_t *map, size_t map_count,
                                       const uint16_t *rects, size_t rects_count, uint16_t view_width, uint16_t view_height,
                                       size_t luma_stride, size_t chroma_stride, const uint8_t *view_y, size_t view_y_count,
                                       const uint8_t *view_u, size_t view_u_count, const uint8_t *view_v, size_t view_v_count);

/* The same by the rule Exact, for servers that do not round, as FreeRDP's: W is the picture's width, and view_width says only which
 * samples the view has. Halves and quarters of W are rounded down: at a width of 66, V stands 33 columns after U in luma and 16
 * after it in chroma. Where the width is no multiple of 4, two samples share a place of the view, whichever of them the server
 * wrote there; so there is no split by this rule. Where the width is a multiple of 16 it is what the 16 rule is of a view that wide. */
HAYTHAW_MUST_USE
uint32_t haythaw_apply_auxiliary_v2_exact(uint16_t width, uint16_t height, uint8_t *y, size_t y_count,
                                          uint8_t *u, size_t u_count, uint8_t *v, size_t v_count, uint8_t *map, size_t map_count,
                                          const uint16_t *rects, size_t rects_count, uint16_t view_width, uint16_t view_height,
                                          size_t luma_stride, size_t chroma_stride, const uint8_t *view_y, size_t view_y_count,
                                          const uint8_t *view_u, size_t view_u_count,
                                          const uint8_t *view_v, size_t view_v_count);

/* ---- The same, of a list that has to be sound ----
 *
 * The five calls above clip: of a rectangle that is empty, reversed or off the picture they take what its widened area has of the
 * picture, often nothing, and nobody hears of it. They are for old servers, which send such rectangles and have to be shown all the
 * same. The five calls _strict refuse such a list, with 12. They are for a server that you want to catch: a rectangle that is off the
 * picture is its fault, and clipping hides it.
 *
 * A list of which any rectangle is unsound is refused whole: its sound ones are not served either, and no byte of y, u, v or map
 * changes. An empty list is sound, and changes nothing. A rectangle whose right is the width and whose bottom is the height is sound.
 * What is sound depends on the picture's width and height, never on the view. An accepted call leaves exactly what the call
 * without _strict leaves, in planes and map.
 *
 * All five answer 0, 1, 7, 12, 3 or 4, in this order of refusals. */

/* haythaw_apply_main_view, strict. */
HAYTHAW_MUST_USE
uint32_t haythaw_apply_main_view_strict(uint16_t width, uint16_t height, uint8_t *y, size_t y_count,
                                        uint8_t *u, size_t u_count, uint8_t *v, size_t v_count, uint8_t *map, size_t map_count,
                                        const uint16_t *rects, size_t rects_count, uint16_t view_width, uint16_t view_height,
                                        size_t luma_stride, size_t chroma_stride, const uint8_t *view_y, size_t view_y_count,
                                        const uint8_t *view_u, size_t view_u_count, const uint8_t *view_v, size_t view_v_count);

/* haythaw_apply_auxiliary_v1, strict. */
HAYTHAW_MUST_USE
uint32_t haythaw_apply_auxiliary_v1_strict(uint16_t width, uint16_t height, uint8_t *y, size_t y_count,
                                           uint8_t *u, size_t u_count, uint8_t *v, size_t v_count, uint8_t *map, size_t map_count,
                                           const uint16_t *rects, size_t rects_count, uint16_t view_width, uint16_t view_height,
                                           size_t luma_stride, size_t chroma_stride, const uint8_t *view_y, size_t view_y_count,
                                           const uint8_t *view_u, size_t view_u_count,
                                           const uint8_t *view_v, size_t view_v_count);

/* haythaw_apply_auxiliary_v2, by the 16 rule, strict. */
HAYTHAW_MUST_USE
uint32_t haythaw_apply_auxiliary_v2_strict(uint16_t width, uint16_t height, uint8_t *y, size_t y_count,
                                           uint8_t *u, size_t u_count, uint8_t *v, size_t v_count, uint8_t *map, size_t map_count,
                                           const uint16_t *rects, size_t rects_count, uint16_t view_width, uint16_t view_height,
                                           size_t luma_stride, size_t chroma_stride, const uint8_t *view_y, size_t view_y_count,
                                           const uint8_t *view_u, size_t view_u_count,
                                           const uint8_t *view_v, size_t view_v_count);

/* haythaw_apply_auxiliary_v2_32, by the 32 rule, strict. */
HAYTHAW_MUST_USE
uint32_t haythaw_apply_auxiliary_v2_32_strict(uint16_t width, uint16_t height, uint8_t *y, size_t y_count,
                                              uint8_t *u, size_t u_count, uint8_t *v, size_t v_count,
                                              uint8_t *map, size_t map_count, const uint16_t *rects, size_t rects_count,
                                              uint16_t view_width, uint16_t view_height, size_t luma_stride, size_t chroma_stride,
                                              const uint8_t *view_y, size_t view_y_count, const uint8_t *view_u,
                                              size_t view_u_count, const uint8_t *view_v, size_t view_v_count);

/* haythaw_apply_auxiliary_v2_exact, by the rule Exact, strict. */
HAYTHAW_MUST_USE
uint32_t haythaw_apply_auxiliary_v2_exact_strict(uint16_t width, uint16_t height, uint8_t *y, size_t y_count,
                                                 uint8_t *u, size_t u_count, uint8_t *v, size_t v_count,
                                                 uint8_t *map, size_t map_count, const uint16_t *rects, size_t rects_count,
                                                 uint16_t view_width, uint16_t view_height, size_t luma_stride,
                                                 size_t chroma_stride, const uint8_t *view_y, size_t view_y_count,
                                                 const uint8_t *view_u, size_t view_u_count,
                                                 const uint8_t *view_v, size_t view_v_count);

/* Which rectangle it was, for a log: the first of a list that is not sound in a picture of this size. It looks at the list alone, so it
 * may be asked after a 12, and beside the calls that clip.
 * Answers 0 or 7. Writes nothing. */
HAYTHAW_MUST_USE
haythaw_unsound haythaw_first_unsound(uint16_t width, uint16_t height, const uint16_t *rects, size_t rects_count);

/* ---- A picture into its two views ----
 *
 * All three answer 0, 1, 5 or 6, in this order of refusals: a width or height above 65,520 is refused with 5, also where the other
 * is 0. Main: the luma plane, and the even-even chroma. Auxiliary: the chroma of the other three places of each block. They
 * write the first stride x rows bytes of main_y and auxiliary_y and the first stride/2 x rows/2 bytes of main_u, main_v,
 * auxiliary_u and auxiliary_v, every one; bytes after them stay. The picture is only read. By the 32 rule W stands in place of
 * the stride. */

/* The auxiliary view in the layout of AVC444 (V1). */
HAYTHAW_MUST_USE
haythaw_views haythaw_split_v1(uint16_t width, uint16_t height, const uint8_t *y, size_t y_count,
                               const uint8_t *u, size_t u_count, const uint8_t *v, size_t v_count,
                               uint8_t *main_y, size_t main_y_count, uint8_t *main_u, size_t main_u_count,
                               uint8_t *main_v, size_t main_v_count, uint8_t *auxiliary_y, size_t auxiliary_y_count,
                               uint8_t *auxiliary_u, size_t auxiliary_u_count, uint8_t *auxiliary_v,
                               size_t auxiliary_v_count);

/* The auxiliary view in the layout of AVC444v2 (V2), by the 16 rule: both views are as wide as the stride. */
HAYTHAW_MUST_USE
haythaw_views haythaw_split_v2(uint16_t width, uint16_t height, const uint8_t *y, size_t y_count,
                               const uint8_t *u, size_t u_count, const uint8_t *v, size_t v_count,
                               uint8_t *main_y, size_t main_y_count, uint8_t *main_u, size_t main_u_count,
                               uint8_t *main_v, size_t main_v_count, uint8_t *auxiliary_y, size_t auxiliary_y_count,
                               uint8_t *auxiliary_u, size_t auxiliary_u_count, uint8_t *auxiliary_v,
                               size_t auxiliary_v_count);

/* The same by the 32 rule, for clients that round the width of their surface up to 32: both views are W wide, the picture's width
 * rounded up to 32, as if its planes were W wide and had Y 0, and U and V 128, past the stride. So a width of 48 has views of 64,
 * and a row of auxiliary luma is U's 24 odd columns, eight 128, V's 24 and eight 128. Where the stride is a multiple of 32, both
 * rules write the same bytes.
 * Answers 0, 1, 5 or 6, in this order of refusals; 5 also where W is above 65,535, so that a width of 65,504 splits and 65,505 does
 * not, at height 0 too. Writes the first W x rows bytes of main_y and auxiliary_y and the first W/2 x rows/2 bytes of main_u,
 * main_v, auxiliary_u and auxiliary_v, every one; bytes after them stay. The answer has W for width and luma_stride. */
HAYTHAW_MUST_USE
haythaw_views haythaw_split_v2_32(uint16_t width, uint16_t height, const uint8_t *y, size_t y_count,
                                  const uint8_t *u, size_t u_count, const uint8_t *v, size_t v_count,
                                  uint8_t *main_y, size_t main_y_count, uint8_t *main_u, size_t main_u_count,
                                  uint8_t *main_v, size_t main_v_count, uint8_t *auxiliary_y, size_t auxiliary_y_count,
                                  uint8_t *auxiliary_u, size_t auxiliary_u_count, uint8_t *auxiliary_v,
                                  size_t auxiliary_v_count);

/* ---- Whether two views are a picture's split ----
 *
 * For an encoder's own splitter: its two views are held against the split of the picture that it was given, before H.264 touches them. A
 * yes holds exactly where both views have the width and the height of the split's (stride by rows or, by the 32 rule, W by rows: what
 * haythaw_split_* answers) and every sample of both is the split's, those of the picture's padding too. A view's strides are no sizes:
 * they may be any that its planes have room for, and bytes between the width and the stride, and after the last row, are not looked at.
 *
 * The sizes of both views are looked at before any sample: where one is wrong, the answer is no, and nothing is named. Else the first wrong
 * sample is named: the main view before the auxiliary, Y before U before V, then by row, and then by column. A caller can print
 *
 *     auxiliary view, U, row 3, column 17
 *
 * and beside it both values there: the view's from its own plane, and the right one from what haythaw_split_* writes (bind/c/check.c).
 *
 * All three answer 0, 1, 5, 3 or 4, in this order of refusals, where 3 and 4 are the main view's and, if it has neither, the auxiliary
 * view's: so the main view's 4 comes before the auxiliary view's 3. The picture has no map here. They write nothing. */

/* Against what haythaw_split_v1 writes: the auxiliary view is in the layout of AVC444 (V1). A width or height above 65,520 is refused
 * with 5, also where the other is 0. */
HAYTHAW_MUST_USE
haythaw_checked haythaw_check_v1(uint16_t width, uint16_t height, const uint8_t *y, size_t y_count,
                                 const uint8_t *u, size_t u_count, const uint8_t *v, size_t v_count,
                                 uint16_t main_width, uint16_t main_height, size_t main_luma_stride, size_t main_chroma_stride,
                                 const uint8_t *main_y, size_t main_y_count, const uint8_t *main_u, size_t main_u_count,
                                 const uint8_t *main_v, size_t main_v_count,
                                 uint16_t auxiliary_width, uint16_t auxiliary_height, size_t auxiliary_luma_stride,
                                 size_t auxiliary_chroma_stride, const uint8_t *auxiliary_y, size_t auxiliary_y_count,
                                 const uint8_t *auxiliary_u, size_t auxiliary_u_count,
                                 const uint8_t *auxiliary_v, size_t auxiliary_v_count);

/* Against what haythaw_split_v2 writes: the auxiliary view is in the layout of AVC444v2 (V2), by the 16 rule. Likewise 5 above 65,520. */
HAYTHAW_MUST_USE
haythaw_checked haythaw_check_v2(uint16_t width, uint16_t height, const uint8_t *y, size_t y_count,
                                 const uint8_t *u, size_t u_count, const uint8_t *v, size_t v_count,
                                 uint16_t main_width, uint16_t main_height, size_t main_luma_stride, size_t main_chroma_stride,
                                 const uint8_t *main_y, size_t main_y_count, const uint8_t *main_u, size_t main_u_count,
                                 const uint8_t *main_v, size_t main_v_count,
                                 uint16_t auxiliary_width, uint16_t auxiliary_height, size_t auxiliary_luma_stride,
                                 size_t auxiliary_chroma_stride, const uint8_t *auxiliary_y, size_t auxiliary_y_count,
                                 const uint8_t *auxiliary_u, size_t auxiliary_u_count,
                                 const uint8_t *auxiliary_v, size_t auxiliary_v_count);

/* Against what haythaw_split_v2_32 writes, by the 32 rule: both views have to be W wide, the picture's width rounded up to 32, with Y 0,
 * and U and V 128, past the stride. At a width of 48 a view that is 48 wide, as the stride is, has the wrong size. A width above 65,504 is
 * refused with 5, and a height above 65,520. */
HAYTHAW_MUST_USE
haythaw_checked haythaw_check_v2_32(uint16_t width, uint16_t height, const uint8_t *y, size_t y_count,
                                    const uint8_t *u, size_t u_count, const uint8_t *v, size_t v_count,
                                    uint16_t main_width, uint16_t main_height, size_t main_luma_stride, size_t main_chroma_stride,
                                    const uint8_t *main_y, size_t main_y_count, const uint8_t *main_u, size_t main_u_count,
                                    const uint8_t *main_v, size_t main_v_count,
                                    uint16_t auxiliary_width, uint16_t auxiliary_height, size_t auxiliary_luma_stride,
                                    size_t auxiliary_chroma_stride, const uint8_t *auxiliary_y, size_t auxiliary_y_count,
                                    const uint8_t *auxiliary_u, size_t auxiliary_u_count,
                                    const uint8_t *auxiliary_v, size_t auxiliary_v_count);

/* ---- A 4:2:0 view by itself ----
 *
 * All of these refuse with 3 or 4, in this order, and only read the view. */

/* Whether these sizes and planes are a view. Answers 0, 3 or 4. Writes nothing. */
HAYTHAW_MUST_USE
uint32_t haythaw_view(uint16_t view_width, uint16_t view_height, size_t luma_stride, size_t chroma_stride,
                      const uint8_t *view_y, size_t view_y_count, const uint8_t *view_u, size_t view_u_count,
                      const uint8_t *view_v, size_t view_v_count);

/* Where a row is: of luma in view_y, of U in view_u, of V in view_v. Luma has view_height rows of view_width bytes; U and V have
 * half of both, rounded up. Answers 0, 3 or 4; any row number may be asked for. Writes nothing. */
HAYTHAW_MUST_USE
haythaw_row haythaw_luma_row(uint16_t view_width, uint16_t view_height, size_t luma_stride, size_t chroma_stride,
                             const uint8_t *view_y, size_t view_y_count, const uint8_t *view_u, size_t view_u_count,
                             const uint8_t *view_v, size_t view_v_count, size_t row);
HAYTHAW_MUST_USE
haythaw_row haythaw_u_row(uint16_t view_width, uint16_t view_height, size_t luma_stride, size_t chroma_stride,
                          const uint8_t *view_y, size_t view_y_count, const uint8_t *view_u, size_t view_u_count,
                          const uint8_t *view_v, size_t view_v_count, size_t row);
HAYTHAW_MUST_USE
haythaw_row haythaw_v_row(uint16_t view_width, uint16_t view_height, size_t luma_stride, size_t chroma_stride,
                          const uint8_t *view_y, size_t view_y_count, const uint8_t *view_u, size_t view_u_count,
                          const uint8_t *view_v, size_t view_v_count, size_t row);

/* The view as RGBA, alpha 255, with the chroma of row/2, column/2 and no filter.
 * Answers 0, 3, 4 or 6, in this order of refusals; the count is 4 x view_width x view_height. Writes the first count bytes of
 * out; bytes after them stay. */
HAYTHAW_MUST_USE
haythaw_answer haythaw_view_to_rgba(uint16_t view_width, uint16_t view_height, size_t luma_stride, size_t chroma_stride,
                                    const uint8_t *view_y, size_t view_y_count, const uint8_t *view_u, size_t view_u_count,
                                    const uint8_t *view_v, size_t view_v_count, uint8_t *out, size_t out_count);

/* The same of a view in limited range: with c = 298(Y - 16), u = U - 128 and v = V - 128
 *     R = (c + 409 v + 128)/256
 *     G = (c - 100 u - 208 v + 128)/256
 *     B = (c + 516 u + 128)/256
 * each rounded down, also below zero, and clamped to 0 to 255. So Y 16 with U and V 128 is black, and Y 235 white; samples outside of the
 * range are taken as the formulas have them. Pixels that haythaw_from_rgba_limited took are at most 3 off in each of R, G and B, where
 * the four of a block are alike.
 * Answers 0, 3, 4 or 6, in this order of refusals; the count is 4 x view_width x view_height. Writes the first count bytes of
 * out; bytes after them stay. */
HAYTHAW_MUST_USE
haythaw_answer haythaw_view_to_rgba_limited(uint16_t view_width, uint16_t view_height, size_t luma_stride, size_t chroma_stride,
                                            const uint8_t *view_y, size_t view_y_count, const uint8_t *view_u, size_t view_u_count,
                                            const uint8_t *view_v, size_t view_v_count, uint8_t *out, size_t out_count);

/* ---- The AVC444 payload, read ----
 *
 * In kind 0 the luma stream is the `size` bytes after the first number, and the chroma stream is what follows it. In kinds 1 and 2
 * the one stream runs to the payload's end, and the size is not used beyond the test that it does not run past the payload. The
 * standard wants in it the first stream's bytes for kinds 0 and 1, the count, rectangles and pairs included, and 0 for kind 2.
 *
 * All seven refuse in this order: 9 when the payload is below 4 bytes, 8 when the kind is 3, 9 when the size, in any kind, runs
 * past the payload, 10 when the count, a rectangle or a pair of a stream that is carried runs past that stream. So kind 0 with a
 * size below 4 is always refused. They only read the payload, and of its rectangles and pairs those alone that they answer: a
 * count by itself costs no time, however large. */

/* Which streams a payload carries, and where their parts are in it.
 * Answers 0, 9, 8 or 10, in the order above. Writes nothing. */
HAYTHAW_MUST_USE
haythaw_avc444 haythaw_avc444_read(const uint8_t *payload, size_t payload_count);

/* Rectangle i of the luma stream and of the chroma stream, counted from 0: present where i is below the stream's count.
 * Answer 0, 9, 8 or 10, in the order above; any i may be asked for. Write nothing. */
HAYTHAW_MUST_USE
haythaw_rectangle haythaw_avc444_luma_rectangle(const uint8_t *payload, size_t payload_count, size_t i);
HAYTHAW_MUST_USE
haythaw_rectangle haythaw_avc444_chroma_rectangle(const uint8_t *payload, size_t payload_count, size_t i);

/* Pair i of the luma stream and of the chroma stream, likewise. */
HAYTHAW_MUST_USE
haythaw_pair haythaw_avc444_luma_pair(const uint8_t *payload, size_t payload_count, size_t i);
HAYTHAW_MUST_USE
haythaw_pair haythaw_avc444_chroma_pair(const uint8_t *payload, size_t payload_count, size_t i);

/* All rectangles of the luma stream and of the chroma stream as a list, which the calls that apply a view take.
 * Answer 0, the refusals above in their order, then 6; the count is the numbers written, 4 x the stream's count, so 0 for a stream
 * that is not carried. Write the first count numbers of out; numbers after them stay. */
HAYTHAW_MUST_USE
haythaw_answer haythaw_avc444_luma_rects(const uint8_t *payload, size_t payload_count, uint16_t *out, size_t out_count);
HAYTHAW_MUST_USE
haythaw_answer haythaw_avc444_chroma_rects(const uint8_t *payload, size_t payload_count, uint16_t *out, size_t out_count);

/* ---- The AVC444 payload, written ---- */

/* The payload of a kind: 0 luma and chroma, 1 luma alone, 2 chroma alone. A stream that the kind carries is put together from a
 * list, a quantiser byte and a quality byte for each rectangle of the list, and H.264 bytes. The parts of a stream that is not
 * carried are ignored, whatever they are. The payload has 4 bytes, and for each stream that is carried 4 + 2 x rects_count +
 * pairs_count + data_count; the size in it is the one that the standard wants. The calls above read it, and answer the same parts.
 * Refuses in this order: 8 when the kind is above 2; 7 when a list that is carried is not in fours, or its pairs_count is not 2 for
 * each rectangle; 11 when the first stream that is carried, its count, rectangles and pairs included, is 2^30 bytes or longer, or a
 * list that is carried has 2^32 rectangles or more; then 6. The second stream of kind 0 may have more than 2^30 bytes.
 * Answers 0, 8, 7, 11 or 6; the count is the payload's bytes. Writes the first count bytes of out; bytes after them stay. */
HAYTHAW_MUST_USE
haythaw_answer haythaw_avc444_write(uint32_t kind, const uint16_t *luma_rects, size_t luma_rects_count,
                                    const uint8_t *luma_pairs, size_t luma_pairs_count,
                                    const uint8_t *luma_data, size_t luma_data_count,
                                    const uint16_t *chroma_rects, size_t chroma_rects_count,
                                    const uint8_t *chroma_pairs, size_t chroma_pairs_count,
                                    const uint8_t *chroma_data, size_t chroma_data_count, uint8_t *out, size_t out_count);

/* ---- The form of an H.264 payload ---- */

/* Whether a payload is length-prefixed: not empty, not starting 00 00 01 or 00 00 00 01, and wholly made of units, each a
 * big-endian length of 32 bits above 0 and that many bytes. Never refuses. Writes nothing. */
bool haythaw_is_avc_format(const uint8_t *data, size_t data_count);

/* The units of a length-prefixed payload, each behind 00 00 00 01 in place of its length. It stops at a unit that runs past the
 * end, or at fewer than 4 bytes, and writes what came before. The output is never longer than the input.
 * Answers 0 or 6; the count is the bytes written. Writes the first count bytes of out; bytes after them stay. */
HAYTHAW_MUST_USE
haythaw_answer haythaw_avc_to_annex_b(const uint8_t *data, size_t data_count, uint8_t *out, size_t out_count);

#ifdef __cplusplus
}
#endif

#endif
