/*
 * The firmware of a fan, on a Cortex-M without an operating system: the endpoint 9 on a serial line (DSP0253), with the
 * fan behind numeric effecter 1. Its speed is 0 to 100 percent, and 10 at first. Answers are kept for one requester,
 * and for four instance IDs of it: that is enough where it has few requests open at a time.
 */
#include "board.h"
#include "needleoat.h"
#include "serial_frames.h"

enum { OWN = 9, MEMORY_TRIES = 3 };
enum { ERROR_INVALID_DATA = 2, ERROR_UNSUPPORTED_COMMAND = 5, INVALID_EFFECTER_ID = 0x80 };
enum { FULL_SPEED = 100, ENABLED_NO_UPDATE_PENDING = 1 };

/* ---- The fan, as in fan.c ---- */

static int64_t speed = 10;

static struct needleoat_answer perform(const struct needleoat_command *command) {
    struct needleoat_answer answer = {.pldm_type = command->pldm_type, .command = command->command};
    bool sets = command->command == NEEDLEOAT_SET_NUMERIC_EFFECTER_VALUE;
    bool gets = command->command == NEEDLEOAT_GET_NUMERIC_EFFECTER_VALUE;
    if (command->pldm_type != NEEDLEOAT_PLATFORM || (!sets && !gets)) answer.code = ERROR_UNSUPPORTED_COMMAND;
    else if (command->effecter != 1) answer.code = INVALID_EFFECTER_ID;
    else if (gets) {
        answer.size = NEEDLEOAT_UINT8;
        answer.operational = ENABLED_NO_UPDATE_PENDING;
        answer.value = answer.pending_value = speed;
    } else if (command->size != NEEDLEOAT_UINT8 || command->value > FULL_SPEED) answer.code = ERROR_INVALID_DATA;
    else speed = command->value;
    return answer;
}

/* ---- The endpoint ---- */

/* Whether it ever ran before the firmware does not know, so it begins busy for the keeping time. */
static const struct needleoat_endpoint_settings settings = {.own = OWN,
                                                            .first_start = false,
                                                            .keep_ms = 1000,
                                                            .sources = 1,
                                                            .open_messages = 1,
                                                            .pending_commands = 1,
                                                            .window = 4,
                                                            .busy = NEEDLEOAT_BUSY_SETS,
                                                            .answers_control = true,
                                                            .uuid = {0x4e, 0x65, 0x65, 0x64, 0x6c, 0x65, 0x8f, 0x61,
                                                                     0x80, 0x74, 0, 0, 0, 0, 0, OWN},
                                                            .base_version = {0xf1, 0xf3, 0xf1, 0x00},
                                                            .control_version = {0xf1, 0xf3, 0xf1, 0x00},
                                                            .pldm_version = {0xf1, 0xf0, 0xf0, 0x00}};
static struct needleoat_endpoint endpoint = NEEDLEOAT_ENDPOINT_NONE;
static uint8_t packets[NEEDLEOAT_PACKETS][NEEDLEOAT_PACKET_BYTES];

/* The moment: the counter of 32 bits, extended. It is called at least once in 49 days. */
static uint64_t moment(void) {
    static uint64_t now_ms;
    return now_ms += (uint32_t)(ticks() - (uint32_t)now_ms);
}

static void send_packet(const uint8_t *packet, size_t length) {
    uint8_t frame[SERIAL_FRAME_BYTES];
    serial_send(frame, serial_frame_write(packet, length, frame));
}

/* Serves a packet. One that is refused counts as lost: its sender sends it again. */
static void serve(const uint8_t *packet, size_t length) {
    struct needleoat_command command;
    struct needleoat_step step;
    int tries = MEMORY_TRIES;
    do step = needleoat_endpoint_receive(&endpoint, moment(), packet, length, &command, packets);
    while (step.kind == NEEDLEOAT_STEP_REFUSED && step.reason == NEEDLEOAT_NO_MEMORY && --tries > 0);
    if (step.kind == NEEDLEOAT_STEP_PERFORM) {
        struct needleoat_answer answer = perform(&command);
        step = needleoat_endpoint_answer(&endpoint, &step.handle, &answer, packets);
    }
    for (uint32_t i = 0; i < step.count; i++) send_packet(packets[i], step.lengths[i]);
}

int main(void) {
    static struct serial_reader reader;
    board_start();
    while (needleoat_endpoint_new(&settings, moment(), &endpoint) == NEEDLEOAT_NO_MEMORY) continue;
    for (;;) {
        uint8_t byte;
        while (serial_take(&byte))
            if (serial_reader_take(&reader, byte)) serve(reader.packet, reader.length);
        wait_for_interrupt();
    }
}
