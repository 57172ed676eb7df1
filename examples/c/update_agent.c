/* The agent of a firmware update of one component, over a terminus: it asks the device, and gives it the image. */
#include "update_ends.h"
#include <string.h>

/* Commands of firmware update (DSP0267, "PLDM for firmware update commands"), and the one that reads back. */
enum {
    REQUEST_UPDATE = 0x10, PASS_COMPONENT_TABLE = 0x13, UPDATE_COMPONENT = 0x14, REQUEST_FIRMWARE_DATA = 0x15,
    APPLY_COMPLETE = 0x18, ACTIVATE_FIRMWARE = 0x1a, CANCEL_UPDATE = 0x1d, READ_BACK = 0xff
};
enum { DATA = 32, RETRY_MS = 100, READ_BYTES = 1 << 17 };

static struct needleoat_terminus agent = NEEDLEOAT_TERMINUS_NONE;
static struct {
    const uint8_t *image;
    uint32_t size, cancel_from;
    uint8_t next; /* what it asks next, 0 for nothing: the device has the next move */
    bool is_open; /* whether a request for it is open */
    bool is_over;
    uint64_t number, rest;
} update;

uint8_t agent_begin(void) { return terminus_begin(&agent, UPDATE_AGENT, UPDATE_DEVICE); }
void agent_end(void) { needleoat_terminus_free(&agent); }
bool agent_is_over(void) { return update.is_over; }

void agent_start(const uint8_t *image, uint32_t size, uint32_t cancel_from) {
    update.image = image;
    update.size = size;
    update.cancel_from = cancel_from;
    update.next = REQUEST_UPDATE;
    update.is_over = false;
}

/* ---- What came back ---- */

static uint8_t read_bytes[READ_BYTES];
static uint32_t read_length, read_most;

void agent_read_back(uint32_t size) {
    read_length = 0;
    read_most = size < READ_BYTES ? size : READ_BYTES;
    update.next = READ_BACK;
    update.is_over = false;
}

bool agent_has_read(const uint8_t *image, uint32_t size) {
    return read_length == size && memcmp(read_bytes, image, size) == 0;
}

static uint32_t left_to_read(void) {
    uint32_t left = read_most - read_length;
    return left < UPDATE_PIECE_BYTES ? left : UPDATE_PIECE_BYTES;
}

/* ---- What it asks ---- */

static const uint8_t VERSION[] = {1, 2, 'v', '2'}; /* ASCII, two bytes */

static uint32_t with_version(uint8_t *data, uint32_t length) {
    memcpy(data + length, VERSION, sizeof VERSION);
    return length + (uint32_t)sizeof VERSION;
}

/* The data of a command; its length. */
static uint32_t write_data(uint8_t command, uint8_t data[DATA]) {
    memset(data, 0, DATA);
    switch (command) {
    case REQUEST_UPDATE: /* the most bytes of a piece, one component, one request at once, no package data */
        put_u32(data, UPDATE_PIECE_BYTES);
        data[4] = data[6] = 1;
        return with_version(data, 9);
    case PASS_COMPONENT_TABLE: /* the only part; firmware, component 1, index 0, no stamp */
        data[0] = 5;
        data[1] = 10;
        data[3] = 1;
        return with_version(data, 10);
    case UPDATE_COMPONENT: /* the component, no stamp, the size, no options */
        data[0] = 10;
        data[2] = 1;
        put_u32(data + 9, update.size);
        return with_version(data, 17);
    case READ_BACK:
        put_u32(data, read_length);
        put_u32(data + 4, left_to_read());
        return 8;
    default: return command == ACTIVATE_FIRMWARE ? 1 : 0;
    }
}

void agent_turn(void) {
    struct needleoat_due due;
    uint8_t data[DATA];
    uint32_t given_up = terminus_tick(&agent, &due);
    for (uint32_t i = 0; i < given_up; i++) update.is_open &= due.given_up[i] != update.number;
    if (update.next == 0 || update.is_open || moment() < update.rest) return;
    uint8_t pldm_type = update.next == READ_BACK ? UPDATE_READ_TYPE : NEEDLEOAT_FIRMWARE_UPDATE;
    uint32_t length = write_data(update.next, data);
    update.is_open = terminus_ask(&agent, pldm_type, update.next, data, length, &update.number);
}

/* What is asked after a command was accepted. */
static uint8_t after(uint8_t command) {
    switch (command) {
    case REQUEST_UPDATE: return PASS_COMPONENT_TABLE;
    case PASS_COMPONENT_TABLE: return UPDATE_COMPONENT;
    case READ_BACK: return read_length < read_most ? READ_BACK : 0;
    default: return 0;
    }
}

static void answered(uint64_t number) {
    uint8_t response[NEEDLEOAT_MESSAGE_BYTES];
    struct needleoat_status status = needleoat_terminus_status(&agent, number, response);
    if (!update.is_open || number != update.number) return;
    update.is_open = false;
    if (response[4] != NEEDLEOAT_CODE_SUCCESS) { /* not yet: asked again */
        update.rest = moment() + RETRY_MS;
        return;
    }
    if (update.next == READ_BACK && status.length - 5 == left_to_read()) {
        memcpy(read_bytes + read_length, response + 5, status.length - 5);
        read_length += status.length - 5;
    }
    uint8_t asked = update.next;
    update.next = after(asked);
    update.is_over = update.next == 0 && asked != UPDATE_COMPONENT;
}

/* ---- What it answers ---- */

/* The bytes of the image that a RequestFirmwareData asks for, with zeros past its end. */
static uint32_t piece_of(const uint8_t *asked, uint8_t out[UPDATE_PIECE_BYTES]) {
    uint32_t offset = u32_at(asked), length = u32_at(asked + 4);
    if (length > UPDATE_PIECE_BYTES || offset > update.size) return 0;
    for (uint32_t i = 0; i < length; i++) out[i] = offset + i < update.size ? update.image[offset + i] : 0;
    if (offset >= update.cancel_from && update.next == 0) update.next = CANCEL_UPDATE;
    return length;
}

static void respond(const struct needleoat_command_handle *handle) {
    struct needleoat_request request;
    uint8_t data[UPDATE_PIECE_BYTES];
    uint32_t length = 0;
    if (!needleoat_terminus_request(&agent, handle, &request)) return;
    if (request.command == REQUEST_FIRMWARE_DATA && request.length == 8) length = piece_of(request.data, data);
    if (request.command == APPLY_COMPLETE && request.data[0] == 0) update.next = ACTIVATE_FIRMWARE;
    terminus_respond(&agent, handle, NEEDLEOAT_CODE_SUCCESS, data, length);
}

void agent_come(const uint8_t *packet, uint32_t length) {
    struct needleoat_coming coming = terminus_come(&agent, packet, length);
    if (coming.half == NEEDLEOAT_HALF_ASKING) {
        if (coming.receiving.kind == NEEDLEOAT_RECEIVING_ANSWERED) answered(coming.receiving.number);
    } else if (coming.step.kind == NEEDLEOAT_STEP_RESPOND) respond(&coming.step.handle);
}
