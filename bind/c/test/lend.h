/* Buffers for test.c and tests/stored that a call cannot leave unseen. Each is lent in three ways, one run of the whole test for each:
 *
 *   AT_END     it ends where a page begins that nothing may touch: one byte after it traps
 *   AT_START   it begins where such a page ends: one byte before it traps
 *   ON_HEAP    it is malloc's, as long as it is said to be and not a byte longer: for valgrind and the address sanitizer
 *
 * In the first two, the bytes of its own pages on the other side are looked at after the call. lend() starts a buffer with bytes
 * that differ from place to place, and lent_kept() says whether it still has the bytes that it had at lent_seen(). */
#ifndef LEND_H
#define LEND_H

#include <stdbool.h>
#include <stddef.h>
#include <stdint.h>
#include <stdio.h>
#include <stdlib.h>
#include <string.h>
#include <sys/mman.h>
#include <unistd.h>

enum place { AT_END, AT_START, ON_HEAP, PLACES };
static const char *const place_names[PLACES] = {"at the end of a page", "at the start of a page", "on the heap"};
static enum place place;

enum { MOST_LENT = 32, AROUND = 0xA5 };

typedef struct {
    uint8_t *bytes, *seen;
    size_t size;
    uint8_t *map; /* guard, pages, guard; null on the heap */
    size_t pages;
} Lent;

static Lent lents[MOST_LENT];
static size_t lents_used;

static void must(bool holds)
{
    if (!holds) {
        perror("c: no memory for a buffer");
        exit(2);
    }
}

/* A buffer of so many bytes, in the way of this run; one of 0 bytes has an address that may not be read. */
static void *lend(size_t size)
{
    Lent *lent = &lents[lents_used++];
    const size_t page = (size_t)sysconf(_SC_PAGESIZE);
    must(lents_used <= MOST_LENT);
    lent->size = size;
    lent->seen = malloc(size + 1);
    must(lent->seen != NULL);
    if (place == ON_HEAP) {
        lent->map = NULL;
        lent->bytes = malloc(size);
        must(lent->bytes != NULL || size == 0);
    } else {
        lent->pages = (size + page - 1) / page * page;
        lent->map = mmap(NULL, lent->pages + 2 * page, PROT_NONE, MAP_PRIVATE | MAP_ANONYMOUS, -1, 0);
        must(lent->map != MAP_FAILED);
        if (lent->pages > 0) {
            must(mprotect(lent->map + page, lent->pages, PROT_READ | PROT_WRITE) == 0);
            memset(lent->map + page, AROUND, lent->pages);
        }
        lent->bytes = lent->map + page + (place == AT_END ? lent->pages - size : 0);
    }
    for (size_t k = 0; k < size; k++)
        lent->bytes[k] = (uint8_t)((k + 1) * (lents_used + 1) * 2654435761u >> 23);
    return lent->bytes;
}

/* Remembers what every lent buffer holds. */
static void lent_seen(void)
{
    for (size_t i = 0; i < lents_used; i++)
        if (lents[i].size > 0)
            memcpy(lents[i].seen, lents[i].bytes, lents[i].size);
}

/* Whether a buffer holds, from a byte on, what it held at lent_seen(). An address that was not lent (null) has no byte. */
static bool kept_from(const void *bytes, size_t from)
{
    for (size_t i = 0; i < lents_used; i++)
        if (lents[i].bytes == bytes && from < lents[i].size)
            return memcmp(lents[i].bytes + from, lents[i].seen + from, lents[i].size - from) == 0;
    return true;
}

static bool lent_kept(void)
{
    bool kept = true;
    for (size_t i = 0; i < lents_used; i++)
        kept = kept_from(lents[i].bytes, 0) && kept;
    return kept;
}

/* Takes every buffer back; false where the bytes around one have changed. */
static bool lent_back(void)
{
    const size_t page = (size_t)sysconf(_SC_PAGESIZE);
    bool whole = true;
    for (size_t i = 0; i < lents_used; i++) {
        Lent *lent = &lents[i];
        free(lent->seen);
        if (lent->map == NULL) {
            free(lent->bytes);
            continue;
        }
        const uint8_t *around = place == AT_END ? lent->map + page : lent->bytes + lent->size;
        for (size_t k = 0; k < lent->pages - lent->size; k++)
            whole = whole && around[k] == AROUND;
        munmap(lent->map, lent->pages + 2 * page);
    }
    lents_used = 0;
    return whole;
}

#endif
