/* What both ends of a firmware update have: a terminus, which hands on requests of firmware update. */
#include "update_ends.h"

enum { KEEP_MS = 500, TIMEOUT_MS = 50, TRIES = 8, MEMORY_TRIES = 3 };

static uint8_t packets[NEEDLEOAT_PACKETS][NEEDLEOAT_PACKET_BYTES];

uint8_t terminus_begin(struct needleoat_terminus *terminus, uint8_t own, uint8_t peer_eid) {
    const struct needleoat_endpoint_settings settings = {
        .own = own,
        .first_start = true,
        .keep_ms = KEEP_MS,
        .sources = 1,
        .open_messages = 1,
        .pending_commands = 1,
        .window = 4,
        .pldm_types = UINT64_C(1) << NEEDLEOAT_FIRMWARE_UPDATE | UINT64_C(1) << UPDATE_READ_TYPE};
    const struct needleoat_peer_settings peer = {
        .device = peer_eid, .tries = TRIES, .keep_ms = KEEP_MS, .timeout_ms = TIMEOUT_MS};
    uint8_t refusal;
    int tries = MEMORY_TRIES;
    do refusal = needleoat_terminus_new(&settings, &peer, moment(), moment(), terminus);
    while (refusal == NEEDLEOAT_NO_MEMORY && --tries > 0);
    return refusal;
}

/* Sends all packets of a request. */
static void send_request(struct needleoat_terminus *terminus, uint64_t number) {
    uint8_t packet[NEEDLEOAT_PACKET_BYTES];
    uint32_t length;
    for (uint32_t i = 0; (length = needleoat_terminus_packet(terminus, number, i, packet)) > 0; i++)
        send_packet(packet, length);
}

uint32_t terminus_tick(struct needleoat_terminus *terminus, struct needleoat_due *due) {
    if (needleoat_terminus_tick(terminus, moment(), due) != 0) return 0;
    for (uint32_t i = 0; i < due->again_count; i++) send_request(terminus, due->again[i]);
    return due->given_up_count;
}

bool terminus_ask(struct needleoat_terminus *terminus, uint8_t pldm_type, uint8_t command, const uint8_t *data,
                  uint32_t length, uint64_t *number) {
    struct needleoat_opening opening =
        needleoat_terminus_open_request(terminus, moment(), pldm_type, command, data, length);
    if (opening.refusal != 0) return false; /* too soon: later once more */
    *number = opening.number;
    send_request(terminus, opening.number);
    return true;
}

static void send_step(const struct needleoat_step *step) {
    for (uint32_t i = 0; i < step->count; i++) send_packet(packets[i], step->lengths[i]);
}

void terminus_respond(struct needleoat_terminus *terminus, const struct needleoat_command_handle *handle, uint8_t code,
                      const uint8_t *data, uint32_t length) {
    struct needleoat_step step = needleoat_terminus_answer_bytes(terminus, handle, code, data, length, packets);
    send_step(&step);
}

struct needleoat_coming terminus_come(struct needleoat_terminus *terminus, const uint8_t *packet, uint32_t length) {
    struct needleoat_command command;
    struct needleoat_coming coming =
        needleoat_terminus_receive(terminus, moment(), packet, length, &command, packets);
    if (coming.half == NEEDLEOAT_HALF_ANSWERING) send_step(&coming.step);
    return coming;
}

uint32_t u32_at(const uint8_t *bytes) {
    return bytes[0] | (uint32_t)bytes[1] << 8 | (uint32_t)bytes[2] << 16 | (uint32_t)bytes[3] << 24;
}

void put_u32(uint8_t *bytes, uint32_t number) {
    for (int i = 0; i < 4; i++) bytes[i] = (uint8_t)(number >> 8 * i);
}

bool is_image(const uint8_t *bytes, uint32_t size) {
    return size > 4 && u32_at(bytes + size - 4) == needleoat_crc32(bytes, size - 4);
}
