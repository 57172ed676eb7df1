/*
 * Asks for blocks of 16 bytes more than 4 GiB. On a 32-bit processor that is a size which no size_t holds: an allocator
 * that took the lower half of it would give 16 bytes, for the library to write 4 GiB to.
 */
#include "needleoat.h"
#include <stdio.h>

int main(void) {
    const uint64_t too_large = ((uint64_t)1 << 32) + 16;
    struct needleoat_block block = rattle_alloc(too_large, 8);
    printf("too large a block: %s\n", block.is_there ? "given" : "refused");
    block = rattle_alloc(16, 8);
    if (!block.is_there) return 1;
    struct needleoat_block larger = rattle_realloc(block.at, 16, too_large, 8);
    printf("too large a growth: %s\n", larger.is_there ? "given" : "refused");
    rattle_dealloc(larger.is_there ? larger.at : block.at);
    return 0;
}
