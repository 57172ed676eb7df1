/*
 * Makes one call of the endpoint many times, for `contrib/instructions` to count: `calls KIND`, where KIND is `command`
 * (a GetTID is received), `answer` (its answer is handed in), `copy` (a GetTID is received that was answered) or `first`
 * (the first packet of a message of several). Its allocator takes a few instructions a block, so that it is the library
 * that is counted. Where there is no valgrind, -DCOUNTS has the program count by itself what each call takes, with the
 * counter of semihosted.c; the environment has the KIND there.
 */
#include "needleoat.h"
#include <inttypes.h>
#include <stdio.h>
#include <stdlib.h>
#include <string.h>

enum { CALLS = 1000, SMALL = 128, SMALLS = 64, LARGE = 1 << 16 };

/* Small blocks, a list of the free ones, and room for large blocks, which stay taken. */
static _Alignas(16) uint8_t small[SMALLS][SMALL], large[LARGE];
static uint8_t *free_blocks[SMALLS];
static size_t free_count, taken;

static struct needleoat_block block(uint8_t *at) { return (struct needleoat_block){true, at}; }

struct needleoat_block rattle_alloc(uint64_t size, uint64_t align) {
    (void)align; /* at most 16 */
    if (size <= SMALL && free_count > 0) return block(free_blocks[--free_count]);
    uint8_t *at = large + taken;
    if (size > sizeof large - taken) return (struct needleoat_block){false, large};
    taken += ((size_t)size + 15) / 16 * 16;
    return block(at);
}

struct needleoat_block rattle_realloc(uint8_t *old, uint64_t kept, uint64_t size, uint64_t align) {
    struct needleoat_block next = rattle_alloc(size, align);
    if (next.is_there) memcpy(next.at, old, (size_t)kept);
    return next;
}

void rattle_dealloc(uint8_t *old) {
    if (old < large || old >= large + sizeof large) free_blocks[free_count++] = old;
}

static struct needleoat_endpoint endpoint = NEEDLEOAT_ENDPOINT_NONE;
static uint8_t packets[NEEDLEOAT_PACKETS][NEEDLEOAT_PACKET_BYTES];
static uint8_t get_tid[] = {1, 9, 8, 0xc8, 1, 0x80, NEEDLEOAT_BASE, NEEDLEOAT_GET_TID};

#ifdef COUNTS
uint64_t instructions(void);
#else
static uint64_t instructions(void) { return 0; }
#endif
static uint64_t spent_receiving, spent_answering;

static struct needleoat_step receive(uint64_t now_ms, const uint8_t *packet, size_t length) {
    struct needleoat_command command;
    uint64_t before = instructions();
    struct needleoat_step step = needleoat_endpoint_receive(&endpoint, now_ms, packet, length, &command, packets);
    spent_receiving += instructions() - before;
    return step;
}

/* A GetTID that is no copy, and its answer. */
static bool serve(uint64_t count) {
    static const struct needleoat_answer answer = {
        .pldm_type = NEEDLEOAT_BASE, .command = NEEDLEOAT_GET_TID, .tid = 5};
    get_tid[5] = 0x80 | (count & 31);
    struct needleoat_step step = receive(count * 2000, get_tid, sizeof get_tid);
    if (step.kind != NEEDLEOAT_STEP_PERFORM) return false;
    uint64_t before = instructions();
    step = needleoat_endpoint_answer(&endpoint, &step.handle, &answer, packets);
    spent_answering += instructions() - before;
    return step.kind == NEEDLEOAT_STEP_ANSWERED;
}

int main(int count, char **words) {
    static const uint8_t first[] = {1, 9, 8, 0x88, 1, 0x80};
    static const struct needleoat_endpoint_settings settings = {
        .own = 9, .first_start = true, .keep_ms = 1000, .sources = 1, .open_messages = 1, .pending_commands = 1};
    const char *kind = count > 1 ? words[1] : getenv("KIND");
    if (!kind) return 2;
    for (size_t i = 0; i < SMALLS; i++) free_blocks[free_count++] = small[i];
    bool well = needleoat_endpoint_new(&settings, 0, &endpoint) == 0;
    if (!strcmp(kind, "copy")) well = serve(0);
    spent_receiving = 0;
    for (uint64_t i = 0; well && i < CALLS; i++) {
        if (!strcmp(kind, "copy")) well = receive(1, get_tid, sizeof get_tid).kind == NEEDLEOAT_STEP_ANSWERED;
        else if (!strcmp(kind, "first")) well = receive(1, first, sizeof first).kind == NEEDLEOAT_STEP_PARTIAL;
        else well = serve(i);
    }
    uint64_t spent = strcmp(kind, "answer") ? spent_receiving : spent_answering;
    if (spent > 0) printf("%" PRIu64 "\n", spent / CALLS);
    return !well;
}
