/* The writer of the AVC444 payload in the library beside another one, written from request E7's words alone (wire_writer.h).

   A case is a kind and two streams (wire_given.h), each part in memory that ends where a page begins that nothing may touch, or begins
   where one ends. The library writes them into outputs that are exact, one byte short, shorter, longer, empty and null, each beside such a
   page too. The number, the count, and every byte of every output and around it are compared with what the other writer makes of the same
   bytes; the parts have to be as they were.

   What was written is read, by the library and by a reader written from request E1's words (wire_reader.h): both have to give back the
   same parts, and the library the same list. The other way, a payload that the library reads is taken apart with its own calls and written
   back: to the same bytes where its size is the standard's, else to the same after the first number.

       write [--seed N] [--cases N] [--seconds N] [--only CASE]
       write --self-test     each wrong writer, each altered field or byte and a touch of each page beside a buffer has to be noticed

   The last line has the cases of each family, the answers compared, the differences and the seed. The status is 1 if there is a
   difference, and the smallest case that shows one is printed. */
#define _DEFAULT_SOURCE
#include <signal.h>
#include <stdbool.h>
#include <stdint.h>
#include <stdio.h>
#include <stdlib.h>
#include <string.h>
#include <unistd.h>

#define PROGRAM "write"
#define CASES_ARE "cases"
#include "haythaw.h"
#include "pages.h"
#include "run.h"
#include "wire_reader.h"
#include "wire_payloads.h"
#include "wire_writer.h"
#include "wire_given.h"
#include "tally.h"

enum { AROUND = 8, ROOM = 2 * LONGEST, FAR_ROOMS = 9 };
enum part { RECTS, PAIRS, DATA, PART_COUNT };

enum call { WRITE, FIRST, LAST, AFTER, BESIDE, READ, COPY, COPIED, BACK, GIVEN, TAKEN, ALTERABLE };
static const Alterable alterable[ALTERABLE] = {
    AN_ANSWER("an answer of write"),
    {"the first byte written", 1, {0}},
    {"the last byte written", 1, {0}},
    {"a byte after those written", 1, {0}},
    {"a byte beside the output", 1, {0}},
    AN_ANSWER_OF_READ,
    AN_ANSWER("a copy's answer"),
    {"a number copied", 1, {0}},
    {"a byte written back", 1, {0}},
    {"a byte of a part", 6, {0, 1, 2, 3, 4, 5}},
    {"a byte of the payload", 1, {0}}};

/* The parts of a stream as the library is lent them. */
typedef struct {
    const uint16_t *rects;
    const uint8_t *pairs, *data;
} Lent;

static Case given, smallest;
static Payload payload;
static Reading reading;
static Lent lent[2];
static uint8_t *parts[2][PART_COUNT], *source, *output, *copied; /* ROOM bytes each, between pages that nothing may touch */
static uint8_t *nowhere;                                        /* NOWHERE bytes that nothing may touch */
static const size_t NOWHERE = (size_t)1 << 37;                  /* a list of 2^32 rectangles has a quarter of it */
static const uint8_t *at;                                       /* where the payload lies */
static uint8_t wanted[AROUND + ROOM];                           /* an output, and what is beside it, as the other writer leaves it */
static uint64_t made[SOURCES], answered[12], read_again, back[3], back_but_size, unread;
static enum writer how;

static int say_case(char *to, size_t room)
{
    return snprintf(to, room, "%s", source_names[given.source]);
}

/* Whether a stream is carried, luma (0) or chroma (1). */
static bool carried(int which)
{
    return given.kind <= 2 && is_carried(given.kind, which, AS_WORDED);
}

/* Cases take turns in where things lie. Four lists in a row, which differ in their kind, lie alike. */
static int turn(void)
{
    return (int)(number / 4 % 8);
}

/* Where so many bytes lie in a room: before a page that nothing may touch, in one turn of eight after one. */
static uint8_t *place(uint8_t *in, size_t bytes)
{
    return turn() == 7 ? in : in + ROOM - bytes;
}

/* Puts bytes there, in one turn two bytes before, so that a list is aligned as a list has to be and no better. No bytes are null, every
   other time. */
static const void *lend(uint8_t *in, const void *from, size_t bytes)
{
    uint8_t *to = place(in, bytes) - (turn() == 6 ? 2 : 0);
    memcpy(to, from, bytes);
    return bytes == 0 && below(2) ? NULL : to;
}

/* Random bytes for each stream; of those that are not carried, every other one is where nothing may touch it. */
static void fill_streams(void)
{
    for (int which = 0; which < 2; which++) {
        Given *g = &given.given[which];
        if (!carried(which) && below(2)) {
            given.there[which] = false;
            make_untouchable(g);
            continue;
        }
        fill((uint8_t *)given.rects[which], 2 * g->rects_count);
        fill(given.pairs[which], g->pairs_count);
        fill(given.data[which], g->data_count);
    }
}

/* Lends what no call may touch. */
static void lend_nowhere(Lent *l)
{
    l->rects = (const uint16_t *)(const void *)(below(8) ? nowhere + 2 * below(1 << 20) : NULL);
    l->pairs = below(8) ? nowhere + below(1 << 20) : NULL;
    l->data = below(8) ? nowhere + below(1 << 20) : NULL;
}

static void lend_streams(void)
{
    for (int which = 0; which < 2; which++) {
        const Given *g = &given.given[which];
        Lent *l = &lent[which];
        if (!given.there[which]) {
            lend_nowhere(l);
            continue;
        }
        l->rects = lend(parts[which][RECTS], g->rects, 2 * g->rects_count);
        l->pairs = lend(parts[which][PAIRS], g->pairs, g->pairs_count);
        l->data = lend(parts[which][DATA], g->data, g->data_count);
    }
}

static haythaw_answer write_given(uint8_t *out, size_t bytes)
{
    const Given *l = &given.given[0], *c = &given.given[1];
    compared++;
    haythaw_answer got = haythaw_avc444_write(
        given.kind, lent[0].rects, l->rects_count, lent[0].pairs, l->pairs_count, lent[0].data, l->data_count, lent[1].rects,
        c->rects_count, lent[1].pairs, c->pairs_count, lent[1].data, c->data_count, out, bytes);
    alter(&alterable[WRITE], &got);
    return got;
}

/* Writes into an output of so many bytes, which are random before the call; gives the output where it was written, else null. */
static uint8_t *try_output(size_t bytes, bool null)
{
    uint8_t *out = place(output, bytes), *from = turn() == 7 ? out : out - AROUND;
    fill(from, AROUND + bytes);
    memcpy(wanted, from, AROUND + bytes);
    Answered a = write_payload(given.kind, given.given, wanted + (out - from), bytes, how);
    haythaw_answer got = write_given(null ? NULL : out, bytes);
    if (!got.number && got.count <= bytes) {
        alter(&alterable[FIRST], out);
        alter(&alterable[LAST], &out[got.count - 1]);
        if (got.count < bytes) alter(&alterable[AFTER], &out[got.count]);
    }
    alter(&alterable[BESIDE], out == from ? out + bytes : out - 1);
    same(got.number == a.number && got.count == a.count, "answer", "the ", bytes);
    same(!memcmp(from, wanted, AROUND + bytes), "output", "the ", bytes);
    answered[a.number]++;
    return got.number ? NULL : out;
}

typedef haythaw_answer Rects(const uint8_t *, size_t, uint16_t *, size_t);
static Rects *const rects_calls[2] = {haythaw_avc444_luma_rects, haythaw_avc444_chroma_rects};
static const char *const whose[2] = {"luma's ", "chroma's "};

/* The list of a stream as the library copies it. */
static const uint16_t *copy(const uint8_t *bytes, size_t length, int which, size_t numbers)
{
    uint16_t *list = (uint16_t *)(void *)(copied + ROOM) - numbers;
    haythaw_answer got = rects_calls[which](bytes, length, list, numbers);
    compared++;
    alter(&alterable[COPY], &got);
    if (numbers) alter(&alterable[COPIED], &list[numbers - 1]);
    same(got.number == 0 && got.count == numbers, "copy's answer", whose[which], numbers);
    return list;
}

/* Reads with both readers, which have to agree; gives the number. */
static uint32_t read_both(const uint8_t *bytes, size_t length)
{
    haythaw_avc444 got = haythaw_avc444_read(bytes, length);
    compared++;
    alter(&alterable[READ], &got);
    read_payload(bytes, length, AS_ASKED, &reading);
    same(got.number == reading.number && got.kind == reading.kind, "answer of read", "the ", got.number);
    same(same_places(got.luma, &reading.part[0]), "stream read", whose[0], got.luma.count);
    same(same_places(got.chroma, &reading.part[1]), "stream read", whose[1], got.chroma.count);
    return reading.number;
}

/* Whether the parts that were read of a stream are those that were given. */
static bool same_parts(const uint8_t *bytes, const Part *p, const Given *g)
{
    bool is = p->count == g->rects_count / 4 && p->length == g->data_count;
    for (uint64_t i = 0; is && i < p->count; i++) {
        for (int side = 0; side < 4; side++) {
            uint16_t n = g->rects[4 * i + side];
            const uint8_t *little = &bytes[p->rects + 8 * i + 2 * side];
            is &= p->rectangle[i][side] == n && little[0] == (n & 255) && little[1] == n >> 8;
        }
        is &= (p->pair[i].value | p->pair[i].reserved << 6 | p->pair[i].progressive << 7) == g->pairs[2 * i];
        is &= p->pair[i].quality == g->pairs[2 * i + 1];
    }
    return is && !memcmp(bytes + p->pairs, g->pairs, g->pairs_count) && !memcmp(bytes + p->data, g->data, g->data_count);
}

/* What was written is read: the same parts come back, and nothing of a stream that is not carried. */
static void read_written(const uint8_t *bytes, size_t length)
{
    static const Given none;
    read_again++;
    same(read_both(bytes, length) == 0 && reading.kind == given.kind, "kind read", "the ", reading.kind);
    for (int which = 0; which < 2; which++) {
        const Given *g = carried(which) ? &given.given[which] : &none;
        same(g == &none ? !reading.part[which].count && !reading.part[which].length : same_parts(bytes, &reading.part[which], g),
             "parts read", whose[which], reading.part[which].count);
        const uint16_t *list = copy(bytes, length, which, g->rects_count);
        same(!g->rects_count || !memcmp(list, g->rects, 2 * g->rects_count), "list", whose[which], g->rects_count);
    }
}

/* A payload that was written back is the one that was taken apart. */
static void same_payload(uint8_t *out, size_t bytes)
{
    uint32_t first = payload.bytes[0] | payload.bytes[1] << 8 | payload.bytes[2] << 16 | (uint32_t)payload.bytes[3] << 24;
    uint32_t kind = first >> 30, size = first & 0x3FFFFFFF;
    bool standard = kind == 0 || size == (kind == 1 ? payload.length - 4 : 0); /* in kind 0 the first stream is as long as the size says */
    if (out) alter(&alterable[BACK], &out[bytes - 1]);
    bool is = out && bytes == payload.length && !memcmp(out + 4, payload.bytes + 4, bytes - 4);
    is = is && (!standard || !memcmp(out, payload.bytes, 4));
    same(is, "payload written back", "the ", bytes);
    if (is) (*(standard ? &back[kind] : &back_but_size))++;
}

/* Every kind of output; what the exact one has is read, and compared with the payload that the case began with. */
static void try_outputs(void)
{
    Wide needed = bytes_needed(given.kind, given.given, AS_WORDED);
    const size_t exact = given.kind > 2 ? 8 + below(200) : (size_t)needed; /* the parts of other kinds may have any lengths */
    uint8_t *out = try_output(exact, false);
    if (out) read_written(out, exact);
    if (given.source >= PAYLOADS) same_payload(out, exact);
    try_output(exact - 1, false);
    try_output(exact + 1 + below(64), false);
    try_output(below((uint32_t)exact), false);
    try_output(0, false);
    try_output(0, true);
}

/* Outputs of many lengths, which nothing may touch; where the call would write, it is not made. */
static void try_far(void)
{
    Wide needed = bytes_needed(given.kind, given.given, AS_WORDED), most = UINT64_MAX;
    const uint64_t rooms[FAR_ROOMS] = {0, 3, 4, E30, E30 + 4, E32 + 200, UINT64_MAX, (uint64_t)(needed - 1 < most ? needed - 1 : most),
                                       (uint64_t)(needed < most ? needed : most)};
    for (int k = 0; k < FAR_ROOMS; k++) {
        uint32_t right = number_for(given.kind, given.given, rooms[k], AS_WORDED);
        if (!right) continue;
        haythaw_answer got = write_given(rooms[k] ? nowhere + NOWHERE / 2 : NULL, rooms[k]);
        same(got.number == number_for(given.kind, given.given, rooms[k], how) && got.count == 0, "answer", "the ", rooms[k]);
        answered[right]++;
    }
}

/* Takes the payload apart with the library's calls: what it is lent for a stream are the payload's own bytes, and the list as the library
   copies it; the other writer gets what the other reader says. Whether there is something to be written back. */
static bool take_apart(void)
{
    at = lend(source, payload.bytes, payload.length);
    if (read_both(at, payload.length)) {
        unread++;
        return false;
    }
    given.kind = reading.kind;
    for (int which = 0; which < 2; which++) {
        const Part *p = &reading.part[which];
        Given *g = &given.given[which];
        given.there[which] = carried(which);
        if (!given.there[which]) {
            make_untouchable(g);
            lend_nowhere(&lent[which]);
            continue;
        }
        set_lengths(g, 4 * p->count, 2 * p->count, p->length);
        memcpy(given.rects[which], p->rectangle, 8 * p->count);
        memcpy(given.pairs[which], payload.bytes + p->pairs, 2 * p->count);
        memcpy(given.data[which], payload.bytes + p->data, p->length);
        lent[which].rects = lend(parts[which][RECTS], copy(at, payload.length, which, g->rects_count), 2 * g->rects_count);
        lent[which].pairs = at + p->pairs;
        lent[which].data = at + p->data;
    }
    return true;
}

/* Whether every part is as it was. */
static bool kept(void)
{
    bool is = true;
    for (int which = 0; which < 2; which++) {
        const Given *g = &given.given[which];
        if (!given.there[which]) continue;
        if (altered == &alterable[GIVEN]) {
            uint8_t *const first[PART_COUNT] = {(uint8_t *)given.rects[which], given.pairs[which], given.data[which]};
            if (altered_field / PART_COUNT == which) *first[altered_field % PART_COUNT] ^= 1;
        }
        is &= !g->rects_count || !memcmp(lent[which].rects, g->rects, 2 * g->rects_count);
        is &= !g->pairs_count || !memcmp(lent[which].pairs, g->pairs, g->pairs_count);
        is &= !g->data_count || !memcmp(lent[which].data, g->data, g->data_count);
    }
    return is;
}

static Wide size_of(const Case *c)
{
    Wide size = 0;
    for (int which = 0; which < 2; which++)
        if (is_carried(c->kind, which, AS_WORDED)) size += bytes_of(&c->given[which], AS_WORDED);
    return size;
}

static void run(uint64_t seeded, uint64_t which)
{
    uint64_t before = differences;
    seed = seeded;
    number = which;
    make_case(&given, &payload, seed, number);
    made[given.source]++;
    if (given.source == FAR) {
        lend_streams();
        try_far();
    } else if (given.source < PAYLOADS) {
        fill_streams();
        lend_streams();
        try_outputs();
        same(kept(), "parts themselves", "the ", 0);
    } else {
        if (take_apart()) {
            try_outputs();
            same(kept(), "parts themselves", "the ", 0);
        }
        if (payload.length) alter(&alterable[TAKEN], payload.bytes);
        same(!at || !memcmp(at, payload.bytes, payload.length), "payload itself", "the ", 0);
    }
    if (differences == before || (differing++ && size_of(&given) >= size_of(&smallest))) return;
    smallest = given;
    smallest_number = number;
}

static int self_test(void)
{
    int missed = 0, writers = 0, fields;
    quiet = true;
    for (int k = AS_WORDED + 1; k < WRITERS; k++, writers++) {
        how = (enum writer)k;
        if (!noticed(CASES)) missed++, printf("write: a wrong writer was not noticed: %s\n", writer_names[k]);
    }
    how = AS_WORDED;
    fields = alter_each(alterable, ALTERABLE, CASES, &missed);
    uint8_t *const rooms[] = {parts[0][RECTS], parts[0][PAIRS], parts[0][DATA], parts[1][RECTS], parts[1][PAIRS], parts[1][DATA],
                              source, output, copied};
    bool open = !traps(nowhere) || !traps(nowhere + NOWHERE - 1);
    for (size_t k = 0; k < sizeof rooms / sizeof *rooms; k++) open |= !traps(rooms[k] - 1) || !traps(rooms[k] + ROOM) || traps(rooms[k]);
    if (open) missed++, printf("write: a byte beside a buffer may be touched\n");
    if (!missed)
        printf("write: %d wrong writers, %d altered answers or bytes and a touch of each page beside a buffer are noticed\n",
               writers, fields);
    return missed != 0;
}

static void show_smallest(void)
{
    printf("write: %llu cases differ; the smallest, --seed %llu --only %llu, is of kind %u\n", (unsigned long long)differing,
           (unsigned long long)seed, (unsigned long long)smallest_number, smallest.kind);
    for (int which = 0; which < 2; which++) {
        const Given *g = &smallest.given[which];
        printf("write: %s%llu numbers, %llu bytes of pairs, %llu H.264 bytes%s", whose[which], (unsigned long long)g->rects_count,
               (unsigned long long)g->pairs_count, (unsigned long long)g->data_count, smallest.there[which] ? ":" : ", untouchable");
        for (size_t k = 0; smallest.there[which] && k < g->rects_count; k++) printf(" %u", smallest.rects[which][k]);
        for (size_t k = 0; smallest.there[which] && k < g->pairs_count; k++) printf("%s%02x", k ? " " : "; ", smallest.pairs[which][k]);
        for (size_t k = 0; smallest.there[which] && k < g->data_count; k++) printf("%s%02x", k ? " " : "; ", smallest.data[which][k]);
        printf("\n");
    }
}

static int summary(void)
{
    if (differing) show_smallest();
    printf("write: %llu written, %llu of them read; refused with 6 %llu, with 7 %llu, with 8 %llu, with 11 %llu\n",
           (unsigned long long)answered[0], (unsigned long long)read_again, (unsigned long long)answered[6],
           (unsigned long long)answered[7], (unsigned long long)answered[8], (unsigned long long)answered[11]);
    printf("write: %llu payloads of kind 0, %llu of kind 1 and %llu of kind 2 written back to the same bytes, "
           "%llu to the same but for a size that was not the standard's; %llu were not read\n",
           (unsigned long long)back[0], (unsigned long long)back[1], (unsigned long long)back[2], (unsigned long long)back_but_size,
           (unsigned long long)unread);
    return last_line(source_names, made, SOURCES);
}

int main(int argc, char **argv)
{
    for (int k = 0; k < 2 * PART_COUNT; k++)
        if (!(parts[k / PART_COUNT][k % PART_COUNT] = room(ROOM))) return 2;
    source = room(ROOM);
    output = room(ROOM);
    copied = room(ROOM);
    nowhere = untouchable(NOWHERE);
    if (!source || !output || !copied || !nowhere) return 2;
    signal(SIGSEGV, trapped);
    signal(SIGBUS, trapped);
    if (argc == 2 && !strcmp(argv[1], "--self-test")) return self_test();
    const Options options = options_of(PROGRAM, 5000000, argc, argv);
    walk(PROGRAM, CASES_ARE, options, &differences, run);
    return summary();
}
