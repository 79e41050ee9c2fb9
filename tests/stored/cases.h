/* The stored input: read whole, then taken apart. What is not as README.md says ends the run, with status 2. */
#ifndef CASES_H
#define CASES_H

#include "say.h"

enum { MOST_INPUT = 262144 };
static uint8_t input[MOST_INPUT + 1];
static size_t input_count;

static void whole(bool holds, const char *what)
{
    if (!holds) {
        fprintf(stderr, "stored: %s\n", what);
        exit(2);
    }
}

static void read_input(void)
{
    input_count = fread(input, 1, sizeof input, stdin);
    whole(input_count <= MOST_INPUT, "the input has more than 262,144 bytes");
    input[input_count] = 0;
}

/* Little-endian numbers of two and of eight bytes. */
static uint16_t two(const uint8_t *s)
{
    return (uint16_t)(s[0] | s[1] << 8);
}

static size_t eight(const uint8_t *s)
{
    return two(s) | (size_t)two(s + 2) << 16 | (size_t)two(s + 4) << 32 | (size_t)two(s + 6) << 48;
}

/* ---- cases of so many bytes, one after the other ---- */

static void each_of(size_t from, size_t bytes, void (*line)(size_t index, const uint8_t *s))
{
    size_t at = from;
    for (size_t index = 0; at + bytes <= input_count; index++, at += bytes)
        line(index, input + at);
    whole(at == input_count, "the input ends within a case");
}

/* A case on a picture: 22 numbers of two bytes. The sizes go to where a call takes them from. */
enum { PICTURE_CASE = 44 };
typedef struct { unsigned which, source, view_source, count; uint16_t rects[12]; Args a; } Stored;

static Stored stored_at(const uint8_t *s)
{
    Stored c = {two(s), two(s + 6), two(s + 16), two(s + 18), {0}, {0}};
    c.a.width = two(s + 2), c.a.height = two(s + 4);
    c.a.view_width = two(s + 8), c.a.view_height = two(s + 10), c.a.luma_stride = two(s + 12), c.a.chroma_stride = two(s + 14);
    whole(c.count <= 3, "a case of more than three rectangles");
    for (int k = 0; k < 12; k++)
        c.rects[k] = two(s + 20 + 2 * k);
    return c;
}

static void lend_numbers(Args *a, enum slice s, const uint16_t *numbers, size_t count)
{
    lend_as(a, s, 2 * count, (const uint8_t *)numbers);
    a->count[s] = count;
}

/* ---- payloads, each behind its length in two bytes ---- */

static void each_payload(void (*line)(size_t index, const uint8_t *payload, size_t count))
{
    size_t at = 0;
    for (size_t index = 0; at < input_count; index++) {
        whole(at + 2 <= input_count && at + 2 + two(input + at) <= input_count, "the input ends within a case");
        line(index, input + at + 2, two(input + at));
        at += 2 + (size_t)two(input + at);
    }
}

/* ---- lines of text, in fields with a tab between them ---- */

static void each_line(size_t fields, void (*line)(char **field))
{
    char *at = (char *)input, *field[10];
    while (*at != 0) {
        char *end = strchr(at, '\n');
        whole(end != NULL, "the input ends within a line");
        *end = 0;
        for (size_t k = 0; k < fields; k++) {
            field[k] = at;
            at = k + 1 < fields ? strchr(at, '\t') : end;
            whole(at != NULL, "a line has too few fields");
            *at++ = 0;
        }
        line(field);
    }
}

static unsigned long number_in(const char *text, int base)
{
    char *end;
    const unsigned long n = strtoul(text, &end, base);
    whole(end != text && (*end == 0 || *end == ' '), "a number is none");
    return n;
}

/* Bytes, or numbers of 16 bits, in so many hexadecimal digits each, with a space between them: how many, and lent. */
static size_t written_in(const char *text, size_t digits)
{
    whole(*text == 0 || (strlen(text) + 1) % (digits + 1) == 0, "a list has a number of another length");
    return (strlen(text) + 1) / (digits + 1);
}

static void lend_bytes_in(Args *a, enum slice s, const char *text)
{
    lend_as(a, s, written_in(text, 2), NULL);
    for (size_t k = 0; k < a->count[s]; k++)
        ((uint8_t *)a->at[s])[k] = (uint8_t)number_in(text + 3 * k, 16);
}

static void lend_numbers_in(Args *a, enum slice s, const char *text)
{
    lend_numbers(a, s, NULL, written_in(text, 4));
    for (size_t k = 0; k < a->count[s]; k++)
        ((uint16_t *)a->at[s])[k] = (uint16_t)number_in(text + 5 * k, 16);
}

#endif
