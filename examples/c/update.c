/*
 * Firmware update (DSP0267) over a link that loses every eleventh packet and repeats every seventh: a device with a
 * flash of two slots, and its agent (update_ends.h). The device boots from the active slot, and an update is written to
 * the other one. An image ends with the CRC-32 of the bytes before. The first update runs to its end, and its image is
 * read back. The second one is cancelled while the device fetches the image, and leaves the active slot as it was.
 */
#include "needleoat.h"
#include "update_ends.h"
#include <inttypes.h>
#include <stdio.h>
#include <string.h>

enum { QUEUE = 64, SLOT_BYTES = 8192, IMAGE_BYTES = 6001 }; /* no multiple of the length of a piece */

static uint64_t now_ms;

uint64_t moment(void) { return now_ms; }

/* ---- The link ---- */

static struct {
    uint8_t bytes[NEEDLEOAT_PACKET_BYTES];
    uint32_t length;
} queue[QUEUE];
static uint32_t first, count, sent;

static void put(const uint8_t *bytes, uint32_t length) {
    if (count == QUEUE) return; /* lost as well */
    memcpy(queue[(first + count) % QUEUE].bytes, bytes, length);
    queue[(first + count++) % QUEUE].length = length;
}

/* Every eleventh packet is lost, and every seventh comes twice. */
void send_packet(const uint8_t *bytes, uint32_t length) {
    sent++;
    if (sent % 11 == 0) return;
    put(bytes, length);
    if (sent % 7 == 0) put(bytes, length);
}

/* ---- The flash ---- */

static struct {
    uint8_t slots[2][SLOT_BYTES];
    uint32_t sizes[2];
    int active;      /* the slot that the device boots from: the other one is written */
    bool is_applied; /* whether that other one has what was applied */
} flash;

uint32_t flash_room(void) { return SLOT_BYTES; }

/* The active slot is never written. */
bool flash_do(const struct needleoat_flash_step *step, const uint8_t *piece, uint32_t length) {
    int other = 1 - flash.active;
    switch (step->action) {
    case NEEDLEOAT_FLASH_BEGIN:
        memset(flash.slots[other], 0xff, SLOT_BYTES);
        flash.sizes[other] = step->size;
        return step->size <= SLOT_BYTES;
    case NEEDLEOAT_FLASH_STORE: memcpy(flash.slots[other] + step->offset, piece, length); return true;
    case NEEDLEOAT_FLASH_VERIFY: return is_image(flash.slots[other], flash.sizes[other]);
    case NEEDLEOAT_FLASH_APPLY: return flash.is_applied = true;
    case NEEDLEOAT_FLASH_ACTIVATE:
        if (flash.is_applied) flash.active = other;
        flash.is_applied = false;
        return true;
    default: flash.is_applied = false; return true; /* ABANDON, ABANDON_UPDATE: there is one component */
    }
}

bool flash_read(uint32_t offset, uint32_t length, uint8_t *out) {
    uint32_t size = flash.sizes[flash.active];
    if (offset > size || length > size - offset) return false;
    memcpy(out, flash.slots[flash.active] + offset, length);
    return true;
}

/* ---- Both ends ---- */

static const char *const stages[] = {"none",       "idle",      "learning",     "ready",
                                     "beginning",  "fetching",  "storing",      "fetched",
                                     "failed",     "verifying", "verified",     "not verified",
                                     "applying",   "applied",   "not applied",  "activating"};

/* Prints a stage that has come. Pieces are fetched and stored in turn: that is printed once. */
static void print_stage(void) {
    static uint8_t last = NEEDLEOAT_UPDATE_IDLE;
    struct needleoat_stage at = device_stage();
    if (at.stage == NEEDLEOAT_UPDATE_STORING) at.stage = NEEDLEOAT_UPDATE_FETCHING;
    if (at.stage != last) printf("  %s, %" PRIu32 " bytes stored\n", stages[at.stage], at.stored);
    last = at.stage;
}

static void come(const uint8_t *bytes, uint32_t length) {
    if (bytes[1] == UPDATE_DEVICE) device_come(bytes, length);
    else agent_come(bytes, length);
    print_stage();
}

/* Each millisecond both have their turn, and all packets on the link arrive. */
static void run(void) {
    for (uint64_t end = now_ms + 1000000; now_ms < end; now_ms++) {
        if (agent_is_over() && device_stage().stage == NEEDLEOAT_UPDATE_IDLE) return;
        agent_turn();
        device_turn();
        print_stage();
        while (count > 0) {
            uint8_t bytes[NEEDLEOAT_PACKET_BYTES];
            uint32_t length = queue[first].length;
            memcpy(bytes, queue[first].bytes, length);
            first = (first + 1) % QUEUE;
            count--;
            come(bytes, length);
        }
    }
}

static void make_image(uint8_t image[IMAGE_BYTES], uint8_t version) {
    for (uint32_t i = 0; i < IMAGE_BYTES - 4; i++) image[i] = (uint8_t)(i * 7 + (i >> 8) + version);
    put_u32(image + IMAGE_BYTES - 4, needleoat_crc32(image, IMAGE_BYTES - 4));
}

static void report(const uint8_t image[IMAGE_BYTES]) {
    bool same = flash.sizes[flash.active] == IMAGE_BYTES && memcmp(flash.slots[flash.active], image, IMAGE_BYTES) == 0;
    printf("slot %d is active: %s\n", flash.active, same ? "the first update, byte for byte" : "another image");
}

int main(void) {
    static uint8_t second[IMAGE_BYTES], third[IMAGE_BYTES];
    make_image(flash.slots[0], 1);
    make_image(second, 2);
    make_image(third, 3);
    flash.sizes[0] = IMAGE_BYTES;
    printf("device %u", device_begin());
    printf(" agent %u\n", agent_begin());
    report(second);
    printf("the first update\n");
    agent_start(second, IMAGE_BYTES, IMAGE_BYTES);
    run();
    report(second);
    agent_read_back(IMAGE_BYTES);
    run();
    printf("read back: %s\n", agent_has_read(second, IMAGE_BYTES) ? "the same" : "another one");
    printf("the second update is cancelled\n");
    agent_start(third, IMAGE_BYTES, 2048);
    run();
    report(second);
    device_end();
    agent_end();
    return 0;
}
