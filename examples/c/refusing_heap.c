/*
 * The memory of the library for tests: that of heap.c, but where the environment has REFUSED_GROWTH=N the Nth growth is
 * refused. At its end the program writes how many growths there were, as `growths N` on standard error.
 */
#include "needleoat.h"
#include <stddef.h>
#include <stdio.h>
#include <stdlib.h>

static uint8_t some_byte;
static _Atomic unsigned long growths; /* two threads may call at once */

static void report(void) { fprintf(stderr, "growths %lu\n", (unsigned long)growths); }

/* Counts a growth, and says whether it is the one to be refused. */
static bool is_refused(void) {
    unsigned long growth = ++growths;
    if (growth == 1) atexit(report);
    const char *refused = getenv("REFUSED_GROWTH");
    return refused && growth == strtoul(refused, NULL, 10);
}

static struct needleoat_block block(void *at) {
    return (struct needleoat_block){at != NULL, at ? at : &some_byte};
}

/* Whether malloc can give such a block. On a 32-bit processor it can not where the size is more than a size_t holds. */
static bool fits(uint64_t size, uint64_t align) { return (size_t)size == size && align <= _Alignof(max_align_t); }

struct needleoat_block rattle_alloc(uint64_t size, uint64_t align) {
    return block(is_refused() || !fits(size, align) ? NULL : malloc(size ? (size_t)size : 1));
}

struct needleoat_block rattle_realloc(uint8_t *old, uint64_t kept, uint64_t size, uint64_t align) {
    (void)kept;
    return block(is_refused() || !fits(size, align) ? NULL : realloc(old, size ? (size_t)size : 1));
}

void rattle_dealloc(uint8_t *old) { free(old); }
