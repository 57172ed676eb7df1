/*
 * A fan behind numeric effecter 1 of the endpoint 9: its speed is 0 to 100 percent, and 10 at first. A BMC finds it by
 * its platform data records: where the terminus is, and what the effecter sets. The input is lines of a moment and a
 * packet in hexadecimal, after a line `%%` (examples/copies.txt); the output is each packet of each answer, also to the
 * control messages of a bus owner. A packet that was refused for want of memory is received again, at most three times.
 * One that is refused still, or at a bound, counts as lost: its sender sends it again.
 */
#include "needleoat.h"
#include <inttypes.h>
#include <stdio.h>
#include <string.h>

enum { OWN = 9, MEMORY_TRIES = 3 };
enum { FULL_SPEED = 100, ENABLED_NO_UPDATE_PENDING = 1 };

static int64_t speed = 10;

static const struct needleoat_terminus_locator locator = {
    .record_handle = 1, .terminus_handle = 1, .is_valid = 1, .tid = 1, .eid = OWN};
static const struct needleoat_numeric_effecter fan = {
    .record_handle = 2,
    .terminus_handle = 1,
    .effecter_id = 1,
    .entity = {.entity_type = 29, .instance = 1},
    .units = {.base_unit = 65},
    .conversion = {.resolution = 0x3f800000, .is_linear = 1, .size = NEEDLEOAT_UINT8},
    .max_settable = FULL_SPEED,
};
static uint8_t records[128];
static uint32_t records_length;

static void write_records(void) {
    records_length = needleoat_terminus_locator_record_write(&locator, records, sizeof records);
    records_length += needleoat_numeric_effecter_record_write(&fan, records + records_length,
                                                              sizeof records - records_length);
}

/* Performs a command, and returns the answer. */
static struct needleoat_answer perform(const struct needleoat_command *command) {
    static const uint8_t never[13]; /* when the records were last changed */
    struct needleoat_answer answer = {.pldm_type = command->pldm_type, .command = command->command};
    if (needleoat_records_answer(records, records_length, never, never, command, &answer) == 0) return answer;
    bool sets = command->command == NEEDLEOAT_SET_NUMERIC_EFFECTER_VALUE;
    bool gets = command->command == NEEDLEOAT_GET_NUMERIC_EFFECTER_VALUE;
    if (command->pldm_type != NEEDLEOAT_PLATFORM || (!sets && !gets))
        answer.code = NEEDLEOAT_CODE_UNSUPPORTED_PLDM_CMD;
    else if (command->effecter != 1) answer.code = NEEDLEOAT_CODE_INVALID_EFFECTER_ID;
    else if (gets) {
        answer.size = NEEDLEOAT_UINT8;
        answer.operational = ENABLED_NO_UPDATE_PENDING;
        answer.value = answer.pending_value = speed;
    } else if (command->size != NEEDLEOAT_UINT8 || command->value > FULL_SPEED)
        answer.code = NEEDLEOAT_CODE_INVALID_DATA;
    else speed = command->value;
    return answer;
}

/* A bus owner is given the versions 1.3.1 of the base specification and of the control protocol, and 1.0.0. */
static const struct needleoat_endpoint_settings settings = {
    .own = OWN,
    .first_start = true,
    .keep_ms = 1000,
    .sources = 2,
    .open_messages = 1,
    .pending_commands = 1,
    .answers_control = true,
    .uuid = {0x4e, 0x65, 0x65, 0x64, 0x6c, 0x65, 0x8f, 0x61, 0x80, 0x74, 0, 0, 0, 0, 0, OWN},
    .base_version = {0xf1, 0xf3, 0xf1, 0x00},
    .control_version = {0xf1, 0xf3, 0xf1, 0x00},
    .pldm_version = {0xf1, 0xf0, 0xf0, 0x00},
};
static struct needleoat_endpoint endpoint = NEEDLEOAT_ENDPOINT_NONE;
static uint8_t packets[NEEDLEOAT_PACKETS][NEEDLEOAT_PACKET_BYTES];

/* Receives a packet, and writes the packets that answer it. Returns whether the moment and the answer were good. */
static bool serve(uint64_t now_ms, const uint8_t *packet, size_t length) {
    struct needleoat_command command;
    struct needleoat_step step;
    int tries = MEMORY_TRIES;
    do step = needleoat_endpoint_receive(&endpoint, now_ms, packet, length, &command, packets);
    while (step.kind == NEEDLEOAT_STEP_REFUSED && step.reason == NEEDLEOAT_NO_MEMORY && --tries > 0);
    if (step.kind == NEEDLEOAT_STEP_REFUSED) return step.reason != NEEDLEOAT_BAD_MOMENT; /* the packet is lost */
    if (step.kind == NEEDLEOAT_STEP_PERFORM) {
        struct needleoat_answer answer = perform(&command);
        step = needleoat_endpoint_answer(&endpoint, &step.handle, &answer, packets);
    }
    for (uint32_t i = 0; i < step.count; i++) {
        for (uint32_t j = 0; j < step.lengths[i]; j++) printf("%02x", packets[i][j]);
        printf("\n");
    }
    return step.kind != NEEDLEOAT_STEP_REFUSED;
}

/* Reads the bytes that are written in hexadecimal up to the end of a line, and returns how many there are. */
static size_t read_bytes(const char *text, uint8_t *bytes, size_t most) {
    size_t count = 0;
    while (count < most && sscanf(text + 2 * count, "%2" SCNx8, &bytes[count]) == 1) count++;
    return count;
}

int main(void) {
    char line[512];
    uint8_t packet[128], refusal, well = 1;
    int tries = MEMORY_TRIES;
    write_records();
    do refusal = needleoat_endpoint_new(&settings, 0, &endpoint);
    while (refusal == NEEDLEOAT_NO_MEMORY && --tries > 0);
    while (fgets(line, sizeof line, stdin) && strcmp(line, "%%\n") != 0) continue;
    while (refusal == 0 && well && fgets(line, sizeof line, stdin)) {
        uint64_t now_ms;
        int place;
        if (sscanf(line, "%" SCNu64 " %n", &now_ms, &place) != 1) continue; /* a comment */
        well = serve(now_ms, packet, read_bytes(line + place, packet, sizeof packet));
    }
    needleoat_endpoint_free(&endpoint);
    return refusal != 0 || !well;
}
