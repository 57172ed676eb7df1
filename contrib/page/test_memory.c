/*
 * Tests of memory.c outside a browser, for a compiler's sanitizers. Pages come off one stretch of addresses, of which
 * what was not asked for may not be touched. The last line is 'N passed, M failed'.
 */
#include <stdint.h>
#include <stdio.h>
#include <string.h>
#include <sys/mman.h>
#include <sys/wait.h>
#include <unistd.h>

#define PAGE 65536u
#define MOST_PAGES 1024u
#define NO_PAGES UINT64_MAX
#define BLOCKS 64
#define STEPS 4000

struct block {
    uint8_t is_there;
    uint8_t *at;
};

struct block rattle_alloc(uint64_t bytes, uint64_t align);
struct block rattle_realloc(uint8_t *at, uint64_t kept, uint64_t bytes, uint64_t align);
void rattle_dealloc(uint8_t *at);
typedef unsigned __int128 u128;
u128 __ashlti3(u128 x, int n);
u128 __lshrti3(u128 x, int n);
u128 __multi3(u128 x, u128 y);
uint64_t grow_memory(uint64_t pages);

static uint8_t *memory;
static uint64_t used_pages, growths, refused_growth;
static int passed, failed;
static uint64_t state = 1;

/* Pages more, but for the growth that is refused; a page is left out now and then, as where others grow memory too. */
uint64_t grow_memory(uint64_t pages) {
    growths++;
    if (growths % 5 == 0) used_pages++;
    if (growths == refused_growth || used_pages + pages > MOST_PAGES) return NO_PAGES;
    uint64_t first = used_pages;
    used_pages += pages;
    mprotect(memory + first * PAGE, pages * PAGE, PROT_READ | PROT_WRITE);
    return (uint64_t)(uintptr_t)memory / PAGE + first;
}

static void row(const char *name, int well) {
    printf("%s %s\n", well ? "ok     " : "FAILED ", name);
    if (well) passed++;
    else failed++;
}

static uint64_t some_number(void) {
    state ^= state << 13;
    state ^= state >> 7;
    state ^= state << 17;
    return state;
}

/* A block that is taken, and the byte that it is filled with. */
struct kept {
    uint8_t *at;
    uint64_t bytes;
    uint8_t sign;
};

static int is_filled(const struct kept *kept, uint64_t bytes) {
    for (uint64_t place = 0; place < bytes; place++)
        if (kept->at[place] != kept->sign) return 0;
    return 1;
}

static int fill(struct kept *kept, struct block block, uint64_t bytes) {
    if ((uintptr_t)block.at % 16) return 0;
    *kept = (struct kept){block.at, bytes, (uint8_t)(some_number() | 1)};
    memset(block.at, kept->sign, bytes);
    return 1;
}

/* Takes, changes and gives back a block. Returns 0 where a block is wrong, and counts what was refused. */
static int step(struct kept *kept, int *refused) {
    uint64_t bytes = some_number() % (some_number() % 16 ? 300 : 100000);
    if (!kept->at) {
        struct block block = rattle_alloc(bytes, 8);
        if (!block.is_there) return ++*refused;
        return fill(kept, block, bytes);
    }
    if (!is_filled(kept, kept->bytes)) return 0;
    if (some_number() % 2) {
        rattle_dealloc(kept->at);
        kept->at = NULL;
        return 1;
    }
    uint64_t least = bytes < kept->bytes ? bytes : kept->bytes;
    struct block block = rattle_realloc(kept->at, least, bytes, 8);
    if (!block.is_there) {
        ++*refused;
        return is_filled(kept, kept->bytes);
    }
    struct kept moved = {block.at, least, kept->sign};
    return is_filled(&moved, least) && fill(kept, block, bytes);
}

/* Many steps over many blocks, and then each of them is as it was left, and is given back. */
static int run(int *refused) {
    static struct kept blocks[BLOCKS];
    int well = 1;
    for (int count = 0; count < STEPS && well; count++) well = step(&blocks[some_number() % BLOCKS], refused) != 0;
    for (int place = 0; place < BLOCKS && well; place++) {
        if (!blocks[place].at) continue;
        well = is_filled(&blocks[place], blocks[place].bytes);
        rattle_dealloc(blocks[place].at);
    }
    return well;
}

/* Such a run in a process of its own, with fresh memory. Returns whether the growth was refused; 0 ends the tests. */
static int try_growth(uint64_t refuse) {
    fflush(stdout);
    pid_t child = fork();
    if (child == 0) {
        int refused = 0;
        refused_growth = refuse;
        int well = run(&refused);
        int has_come = growths >= refuse;
        if (has_come != (refused > 0)) well = 0;
        _exit(!well ? 2 : has_come);
    }
    int status = 0;
    waitpid(child, &status, 0);
    int has_come = WIFEXITED(status) && WEXITSTATUS(status) == 1;
    char name[80];
    snprintf(name, sizeof name, "growth %llu refused: the blocks stay as they are", (unsigned long long)refuse);
    row(has_come ? name : "no growth refused", WIFEXITED(status) && WEXITSTATUS(status) < 2);
    return has_come;
}

static void numbers_of_128_bits(void) {
    int well = 1;
    for (int count = 0; count < STEPS; count++) {
        u128 x = (u128)some_number() << 64 | some_number(), y = (u128)some_number() << 64 | some_number();
        int n = count % 128;
        well &= __ashlti3(x, n) == x << n && __lshrti3(x, n) == x >> n && __multi3(x, y) == x * y;
    }
    row("shifts and products of 128 bits", well);
}

int main(void) {
    uint8_t *all = mmap(NULL, (MOST_PAGES + 1) * (size_t)PAGE, PROT_NONE, MAP_PRIVATE | MAP_ANONYMOUS, -1, 0);
    if (all == MAP_FAILED) return 2;
    memory = all + (PAGE - (uintptr_t)all % PAGE) % PAGE;
    row("a block of more than any size is refused", !rattle_alloc(UINT64_MAX - 8, 8).is_there);
    row("an alignment past 16 is refused", !rattle_alloc(8, 32).is_there);
    row("nothing was asked for then", growths == 0);
    uint64_t count = 0;
    while (try_growth(count + 1)) count++;
    row("several growths were refused", count > 3);
    numbers_of_128_bits();
    printf("%d passed, %d failed\n", passed, failed);
    return failed != 0;
}
