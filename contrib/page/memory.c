/*
 * The memory of the engines in a web page, in place of malloc: blocks of a power of two bytes, those given back in a
 * list for each size, and new ones off the pages that the module asks the browser for. One call runs at a time.
 */
typedef unsigned char uint8_t;
typedef unsigned long long uint64_t;

enum { HEAD = 16, LEAST = 5, SIZES = 40, PAGE = 65536 };

/* As the library for C has it: whether there is a block, and the block. */
struct block {
    uint8_t is_there;
    uint8_t *at;
};

/* In front of each block: which size it has; and while it is free, the next one of that size. */
struct head {
    uint64_t size;
    struct head *next;
};

static struct head *given_back[SIZES];
static uint8_t *next, *end;
static uint8_t some_byte;

/* So many pages more: the number of the first of them, or NO_PAGES. */
#define NO_PAGES (~(uint64_t)0)
#ifdef __wasm__
static uint64_t grow_memory(uint64_t pages) {
    return __builtin_wasm_memory_grow(0, pages);
}
#else
uint64_t grow_memory(uint64_t pages); /* a test's */
#endif

struct block rattle_alloc(uint64_t bytes, uint64_t align);
struct block rattle_realloc(uint8_t *at, uint64_t kept, uint64_t bytes, uint64_t align);
void rattle_dealloc(uint8_t *at);

/* The least size, as a power of two, that holds so many bytes and the head; SIZES where none does. */
static int size_of(uint64_t bytes) {
    int size = LEAST;
    while (size < SIZES && ((uint64_t)1 << size) - HEAD < bytes) size++;
    return size;
}

/* Takes so many bytes off the pages, and asks for more where they are too few. */
static uint8_t *taken(uint64_t bytes) {
    if ((uint64_t)(end - next) < bytes) {
        uint64_t pages = (bytes + PAGE - 1) / PAGE;
        uint64_t before = grow_memory(pages);
        if (before == NO_PAGES) return 0;
        uint8_t *fresh = (uint8_t *)(before * PAGE);
        if (fresh != end) next = fresh;
        end = fresh + pages * PAGE;
    }
    uint8_t *at = next;
    next += bytes;
    return at;
}

struct block rattle_alloc(uint64_t bytes, uint64_t align) {
    struct block none = {0, &some_byte};
    int size = size_of(bytes);
    if (size == SIZES || align > HEAD) return none;
    struct head *head = given_back[size];
    if (head) {
        given_back[size] = head->next;
    } else {
        head = (struct head *)taken((uint64_t)1 << size);
        if (!head) return none;
        head->size = (uint64_t)size;
    }
    return (struct block){1, (uint8_t *)head + HEAD};
}

void rattle_dealloc(uint8_t *at) {
    struct head *head = (struct head *)(at - HEAD);
    head->next = given_back[head->size];
    given_back[head->size] = head;
}

/* The first `kept` bytes stay. Where there is no room, the old block stays as it is. */
struct block rattle_realloc(uint8_t *at, uint64_t kept, uint64_t bytes, uint64_t align) {
    struct head *head = (struct head *)(at - HEAD);
    if (bytes <= ((uint64_t)1 << head->size) - HEAD) return (struct block){1, at};
    struct block larger = rattle_alloc(bytes, align);
    if (larger.is_there) {
        __builtin_memcpy(larger.at, at, kept);
        rattle_dealloc(at);
    }
    return larger;
}

/*
 * What the compiler calls by name for numbers of 128 bits. No shift and no product of 128 bits stands in them, since
 * the compiler would make it a call of the same function.
 */
typedef unsigned __int128 u128;
typedef union {
    u128 whole;
    struct {
        uint64_t low, high;
    };
} halves;

u128 __ashlti3(u128 x, int n);
u128 __lshrti3(u128 x, int n);
u128 __multi3(u128 x, u128 y);

u128 __ashlti3(u128 x, int n) {
    halves a = {x}, b;
    b.low = n & 64 ? 0 : a.low << n;
    b.high = n & 64 ? a.low << (n & 63) : a.high << n | a.low >> 1 >> (63 - n);
    return b.whole;
}

u128 __lshrti3(u128 x, int n) {
    halves a = {x}, b;
    b.high = n & 64 ? 0 : a.high >> n;
    b.low = n & 64 ? a.high >> (n & 63) : a.low >> n | a.high << 1 << (63 - n);
    return b.whole;
}

u128 __multi3(u128 x, u128 y) {
    halves a = {x}, b = {y}, c;
    uint64_t a0 = (unsigned)a.low, a1 = a.low >> 32, b0 = (unsigned)b.low, b1 = b.low >> 32;
    uint64_t first = a0 * b0, second = a1 * b0 + (first >> 32), third = a0 * b1 + (unsigned)second;
    c.low = third << 32 | (unsigned)first;
    c.high = a1 * b1 + (second >> 32) + (third >> 32) + a.low * b.high + a.high * b.low;
    return c.whole;
}
