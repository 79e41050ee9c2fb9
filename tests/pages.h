/* What wire.c and write.c share: memory between pages that nothing may touch, and whether a touch ends a process. */
#ifndef PAGES_H
#define PAGES_H

#include <signal.h>
#include <stdbool.h>
#include <stdint.h>
#include <stdio.h>
#include <sys/mman.h>
#include <sys/wait.h>
#include <unistd.h>

/* Memory of so many bytes that nothing may touch; null where there is none. */
static uint8_t *untouchable(size_t bytes)
{
    uint8_t *map = mmap(NULL, bytes, PROT_NONE, MAP_PRIVATE | MAP_ANONYMOUS | MAP_NORESERVE, -1, 0);
    if (map != MAP_FAILED) return map;
    perror("no memory for a buffer");
    return NULL;
}

/* Memory of so many bytes, all 0, between two such pages; only what is written takes place. Null where there is none. */
static uint8_t *room(size_t bytes)
{
    size_t page = (size_t)sysconf(_SC_PAGESIZE);
    uint8_t *map = untouchable(bytes + 2 * page);
    if (!map) return NULL;
    if (mprotect(map + page, bytes, PROT_READ | PROT_WRITE)) {
        perror("no memory for a buffer");
        return NULL;
    }
    madvise(map + page, bytes, MADV_NOHUGEPAGE);
    return map + page;
}

/* Whether a touch of a byte ends a process. */
static bool traps(volatile uint8_t *byte)
{
    int status = 0;
    pid_t child = fork();
    if (child == 0) {
        signal(SIGSEGV, SIG_DFL);
        signal(SIGBUS, SIG_DFL);
        _exit(*byte == *byte ? 0 : 1);
    }
    return child > 0 && waitpid(child, &status, 0) == child && WIFSIGNALED(status);
}

#endif
