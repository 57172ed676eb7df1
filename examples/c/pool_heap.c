/*
 * The memory of the library over an array, in place of heap.c: the first run of free units that is long enough. It has
 * no lock, so one thread alone may call the library. -DPOOL_BYTES=N gives it another size.
 */
#include "needleoat.h"
#include <string.h>

#ifndef POOL_BYTES
#define POOL_BYTES 65536
#endif
enum { UNIT = 16, UNITS = POOL_BYTES / UNIT };

static _Alignas(UNIT) uint8_t pool[UNITS][UNIT];
static uint16_t lengths[UNITS]; /* of a block that begins here, in units */
static bool is_used[UNITS];

static uint64_t units(uint64_t size) { return size ? size / UNIT + (size % UNIT != 0) : 1; }

static size_t place_of(const uint8_t *block) { return (size_t)(block - pool[0]) / UNIT; }

struct needleoat_block rattle_alloc(uint64_t size, uint64_t align) {
    uint64_t need = units(size), free_units = 0;
    (void)align; /* at most 16 */
    for (size_t i = 0; i < UNITS; i++) {
        free_units = is_used[i] ? 0 : free_units + 1;
        if (free_units == need) {
            size_t first = i + 1 - (size_t)need;
            memset(is_used + first, true, (size_t)need);
            lengths[first] = (uint16_t)need;
            return (struct needleoat_block){true, pool[first]};
        }
    }
    return (struct needleoat_block){false, pool[0]};
}

void rattle_dealloc(uint8_t *block) { memset(is_used + place_of(block), false, lengths[place_of(block)]); }

struct needleoat_block rattle_realloc(uint8_t *block, uint64_t kept, uint64_t size, uint64_t align) {
    if (units(size) <= lengths[place_of(block)]) return (struct needleoat_block){true, block};
    struct needleoat_block next = rattle_alloc(size, align);
    if (next.is_there) {
        memcpy(next.at, block, (size_t)kept);
        rattle_dealloc(block);
    }
    return next;
}
