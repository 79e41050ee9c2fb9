/* What the two recorders share. A recorder is preloaded into one of FreeRDP's programs: it defines functions of FreeRDP's libraries again, notes what
 * they are called with and what they answer, and calls theirs. What it notes goes into files named after $HAYTHAW_RECORD. */
#ifndef RECORD_H
#define RECORD_H

#include <dlfcn.h>
#include <stdint.h>
#include <stdio.h>
#include <stdlib.h>

static void stop(const char *what)
{
    fprintf(stderr, "recorder: %s\n", what);
    exit(3);
}

/* FreeRDP's own function of this name. */
#define THEIRS(name) ((__typeof__(&name))theirs(#name))

static void *theirs(const char *name)
{
    void *function = dlsym(RTLD_NEXT, name);
    if (!function) stop(name);
    return function;
}

static FILE *made(const char *ending)
{
    char path[4096];
    const char *name = getenv("HAYTHAW_RECORD");
    if (!name || snprintf(path, sizeof path, "%s.%s", name, ending) >= (int)sizeof path) stop("HAYTHAW_RECORD");
    FILE *file = fopen(path, "wb");
    if (!file) stop(path);
    return file;
}

static void put(FILE *file, const void *bytes, size_t count)
{
    if (fwrite(bytes, 1, count, file) != count) stop("a file cannot be written");
}

/* The program may be ended at any time: what is noted has to be in the file by then. */
static void put_down(FILE *file)
{
    if (fflush(file)) stop("a file cannot be written");
}

/* Pixels of four bytes B, G, R and X as R, G, B. */
static void put_rgb(FILE *file, const uint8_t *at, size_t stride, size_t width, size_t rows)
{
    for (size_t row = 0; row < rows; row++)
        for (size_t column = 0; column < width; column++) {
            const uint8_t *pixel = at + row * stride + 4 * column;
            const uint8_t rgb[3] = {pixel[2], pixel[1], pixel[0]};
            put(file, rgb, sizeof rgb);
        }
}

#endif
