/* Both ends of one exchange, with the codecs alone: no memory is taken and nothing is kept. */
#include "needleoat.h"
#include <inttypes.h>
#include <stdio.h>
#include <string.h>

enum { DEVICE = 9, REQUESTER = 8 };

static void print_bytes(const char *name, const uint8_t *bytes, size_t length) {
    printf("%s ", name);
    for (size_t i = 0; i < length; i++) printf("%02x", bytes[i]);
    printf("\n");
}

/* The device: one fan, effecter 1, whose speed is a uint8. */
static int64_t speed = 10;

static void perform(const struct needleoat_command *command, struct needleoat_answer *answer) {
    if (command->pldm_type != NEEDLEOAT_PLATFORM || command->effecter != 1) {
        answer->code = NEEDLEOAT_CODE_INVALID_EFFECTER_ID;
    } else if (command->command == NEEDLEOAT_SET_NUMERIC_EFFECTER_VALUE) {
        if (command->size == NEEDLEOAT_UINT8) speed = command->value;
        else answer->code = NEEDLEOAT_CODE_INVALID_DATA;
    } else if (command->command == NEEDLEOAT_GET_NUMERIC_EFFECTER_VALUE) {
        answer->size = NEEDLEOAT_UINT8;
        answer->operational = 1;
        answer->value = answer->pending_value = speed;
    } else {
        answer->code = NEEDLEOAT_CODE_UNSUPPORTED_PLDM_CMD;
    }
}

/* Answers a packet with a packet in `out`. Returns its length, or 0 where the packet is dropped. */
static uint32_t device(const uint8_t *bytes, size_t length, uint8_t out[NEEDLEOAT_PACKET_BYTES]) {
    struct needleoat_packet packet = needleoat_packet_read(DEVICE, bytes, length);
    if (packet.reason != 0 || !packet.start || !packet.end || !packet.owner) return 0;
    const uint8_t *request = bytes + 4;
    struct needleoat_message header = needleoat_request_read(request, packet.payload_length);
    if (header.reason != 0) return 0;
    struct needleoat_answer answer = {0};
    answer.instance_id = header.instance_id;
    answer.pldm_type = header.pldm_type;
    answer.command = header.command;
    struct needleoat_command command;
    struct needleoat_command_reading reading = needleoat_command_read(request, packet.payload_length, &command);
    if (reading.code != 0) answer.code = reading.code;
    else perform(&command, &answer);
    uint8_t response[NEEDLEOAT_MESSAGE_BYTES];
    uint32_t count = needleoat_answer_write(&answer, response);
    return needleoat_packet_write(packet.source, DEVICE, false, packet.tag, response, count, 0, out);
}

/* Asks the device, and prints both packets and what came of it. */
static void ask(const struct needleoat_command *command) {
    uint8_t request[NEEDLEOAT_REQUEST_BYTES], there[NEEDLEOAT_PACKET_BYTES], back[NEEDLEOAT_PACKET_BYTES];
    uint32_t count = needleoat_command_write(command, request);
    uint8_t tag = command->instance_id % 8;
    uint32_t length = needleoat_packet_write(DEVICE, REQUESTER, true, tag, request, count, 0, there);
    print_bytes("request", there, length);
    length = device(there, length, back);
    print_bytes("answer", back, length);
    struct needleoat_packet packet = needleoat_packet_read(REQUESTER, back, length);
    struct needleoat_answer answer;
    uint8_t fault = needleoat_answer_read(request, count, back + 4, packet.payload_length, &answer);
    if (packet.reason != 0 || fault != 0) printf("no answer: %u %u\n", packet.reason, fault);
    else if (answer.code != 0) printf("refused with %02x\n", answer.code);
    else if (answer.command == NEEDLEOAT_GET_NUMERIC_EFFECTER_VALUE) printf("value %" PRId64 "\n", answer.value);
    else printf("done\n");
}

int main(void) {
    struct needleoat_command set = {0};
    set.instance_id = 1;
    set.pldm_type = NEEDLEOAT_PLATFORM;
    set.command = NEEDLEOAT_SET_NUMERIC_EFFECTER_VALUE;
    set.effecter = 1;
    set.size = NEEDLEOAT_UINT8;
    set.value = 40;
    ask(&set);

    struct needleoat_command get = {0};
    get.instance_id = 2;
    get.pldm_type = NEEDLEOAT_PLATFORM;
    get.command = NEEDLEOAT_GET_NUMERIC_EFFECTER_VALUE;
    get.effecter = 1;
    ask(&get);
    get.instance_id = 3;
    get.effecter = 2;
    ask(&get);

    /* A record of 300 bytes, and the checksum that its last part carries. */
    uint8_t record[300] = {1, 0, 0, 0, 1, 1, 0, 0, 0x22, 1};
    printf("checksum %02x\n", needleoat_crc8(record, sizeof record));
    return 0;
}
