/*
 * The firmware of a device that takes a firmware update (DSP0267), on a Cortex-M without an operating system: the
 * endpoint 9 on a serial line (DSP0253), with two slots for images of up to 128 KiB. The slots stand in the board's
 * outer RAM, which no other data uses: on a board with a flash these calls erase and write it. Slot 0 is empty first.
 */
#include "board.h"
#include "needleoat.h"
#include "serial_frames.h"
#include "update_ends.h"
#include <string.h>

enum { SLOT_BYTES = 128 * 1024 };
static uint8_t (*const slots)[SLOT_BYTES] = (uint8_t (*)[SLOT_BYTES])0x21000000;
static uint32_t sizes[2];
static uint32_t active; /* the slot that the device boots from: the other one is written */
static bool is_applied; /* whether that other one has what was applied */

uint32_t flash_room(void) { return SLOT_BYTES; }

bool flash_do(const struct needleoat_flash_step *step, const uint8_t *piece, uint32_t length) {
    uint32_t other = 1 - active;
    switch (step->action) {
    case NEEDLEOAT_FLASH_BEGIN:
        memset(slots[other], 0xff, SLOT_BYTES);
        sizes[other] = step->size;
        return step->size <= SLOT_BYTES;
    case NEEDLEOAT_FLASH_STORE: memcpy(slots[other] + step->offset, piece, length); return true;
    case NEEDLEOAT_FLASH_VERIFY: return is_image(slots[other], sizes[other]);
    case NEEDLEOAT_FLASH_APPLY: return is_applied = true;
    case NEEDLEOAT_FLASH_ACTIVATE: /* a device would restart now, from that slot */
        if (is_applied) active = other;
        is_applied = false;
        return true;
    default: is_applied = false; return true; /* ABANDON, ABANDON_UPDATE: there is one component */
    }
}

bool flash_read(uint32_t offset, uint32_t length, uint8_t *out) {
    if (offset > sizes[active] || length > sizes[active] - offset) return false;
    memcpy(out, slots[active] + offset, length);
    return true;
}

/* The moment: the counter of 32 bits, extended. It is called at least once in 49 days. */
uint64_t moment(void) {
    static uint64_t now_ms;
    return now_ms += (uint32_t)(ticks() - (uint32_t)now_ms);
}

void send_packet(const uint8_t *packet, uint32_t length) {
    uint8_t frame[SERIAL_FRAME_BYTES];
    serial_send(frame, serial_frame_write(packet, length, frame));
}

int main(void) {
    static struct serial_reader reader;
    board_start();
    if (device_begin() != 0) return 1;
    for (;;) {
        uint8_t byte;
        while (serial_take(&byte))
            if (serial_reader_take(&reader, byte)) device_come(reader.packet, (uint32_t)reader.length);
        device_turn();
        wait_for_interrupt();
    }
}
