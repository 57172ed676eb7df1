/*
 * The memory of the library over malloc. Two threads may call at once. It prints nothing: where malloc gives no block,
 * the call of the library that wanted it says so (NEEDLEOAT_NO_MEMORY).
 */
#include "needleoat.h"
#include <stddef.h>
#include <stdlib.h>

static uint8_t some_byte;

static struct needleoat_block block(void *at) {
    return (struct needleoat_block){at != NULL, at ? at : &some_byte};
}

/* Whether malloc can give such a block. On a 32-bit processor it can not where the size is more than a size_t holds. */
static bool fits(uint64_t size, uint64_t align) { return (size_t)size == size && align <= _Alignof(max_align_t); }

struct needleoat_block rattle_alloc(uint64_t size, uint64_t align) {
    return block(fits(size, align) ? malloc(size ? (size_t)size : 1) : NULL);
}

struct needleoat_block rattle_realloc(uint8_t *old, uint64_t kept, uint64_t size, uint64_t align) {
    (void)kept;
    return block(fits(size, align) ? realloc(old, size ? (size_t)size : 1) : NULL);
}

void rattle_dealloc(uint8_t *old) { free(old); }
