/* The device of a firmware update: a terminus, the machine, and steps of the flash, each of which takes 3 ms. */
#include "update_ends.h"
#include <string.h>

enum { FLASH_MS = 3, STEPS = 4, MEMORY_TRIES = 3 };

static struct needleoat_terminus device = NEEDLEOAT_TERMINUS_NONE;
static struct needleoat_firmware machine = NEEDLEOAT_FIRMWARE_NONE;
static struct {
    struct needleoat_flash_step steps[STEPS]; /* what is to be done, in its order */
    uint32_t count, length;
    uint8_t piece[NEEDLEOAT_RESPONSE_DATA]; /* what NEEDLEOAT_FLASH_STORE stores: its length */
    uint64_t since;                         /* when the first step began */
} plan;

uint8_t device_begin(void) {
    uint8_t refusal = terminus_begin(&device, UPDATE_DEVICE, UPDATE_AGENT);
    int tries = MEMORY_TRIES;
    if (refusal != 0) return refusal;
    do refusal = needleoat_firmware_new(0, &machine);
    while (refusal == NEEDLEOAT_NO_MEMORY && --tries > 0);
    return refusal;
}

struct needleoat_stage device_stage(void) { return needleoat_firmware_stage(&machine); }

void device_end(void) {
    needleoat_firmware_free(&machine);
    needleoat_terminus_free(&device);
}

/* At most two steps wait: a piece or a command, and then the end of the update. */
static void add_step(struct needleoat_flash_step step) {
    if (step.action == NEEDLEOAT_FLASH_NONE || plan.count == STEPS) return;
    if (plan.count == 0) plan.since = moment();
    plan.steps[plan.count++] = step;
}

static void work(void) {
    if (plan.count == 0 || moment() - plan.since < FLASH_MS) return;
    struct needleoat_flash_step step = plan.steps[0];
    memmove(plan.steps, plan.steps + 1, --plan.count * sizeof step);
    plan.since = moment();
    needleoat_firmware_done(&machine, step.number, flash_do(&step, plan.piece, plan.length));
}

/* The active image is read back: an offset, a length. */
static void read_back(const struct needleoat_command_handle *handle, const struct needleoat_request *request) {
    uint8_t bytes[UPDATE_PIECE_BYTES];
    bool well = request->length == 8 && u32_at(request->data + 4) <= sizeof bytes;
    uint32_t length = well ? u32_at(request->data + 4) : 0;
    well = well && flash_read(u32_at(request->data), length, bytes);
    terminus_respond(&device, handle, well ? NEEDLEOAT_CODE_SUCCESS : NEEDLEOAT_CODE_INVALID_DATA, bytes,
                     well ? length : 0);
}

/* A request of the agent. Of a command that the firmware itself has to answer this device has no answer. */
static void respond(const struct needleoat_command_handle *handle) {
    struct needleoat_request request;
    struct needleoat_firmware_answer answer = {.code = NEEDLEOAT_CODE_UNSUPPORTED_PLDM_CMD};
    if (!needleoat_terminus_request(&device, handle, &request)) return;
    if (request.pldm_type == UPDATE_READ_TYPE) {
        read_back(handle, &request);
        return;
    }
    add_step(needleoat_firmware_receive(&machine, handle->source, moment(), request.command, request.data,
                                        request.length, flash_room(), &answer));
    terminus_respond(&device, handle, answer.code, answer.data, answer.length);
}

/* The agent's answer to a request of the device. */
static void answered(uint64_t number) {
    uint8_t response[NEEDLEOAT_MESSAGE_BYTES];
    struct needleoat_status status = needleoat_terminus_status(&device, number, response);
    uint32_t length = status.length - 5; /* the data comes after the header and the completion code */
    struct needleoat_flash_step step =
        needleoat_firmware_answered(&machine, number, moment(), response[4], response + 5, length);
    if (step.action == NEEDLEOAT_FLASH_STORE) memcpy(plan.piece, response + 5, plan.length = length);
    add_step(step);
}

void device_turn(void) {
    struct needleoat_due due;
    struct needleoat_request wish;
    uint64_t number;
    uint32_t given_up = terminus_tick(&device, &due);
    for (uint32_t i = 0; i < given_up; i++) add_step(needleoat_firmware_gave_up(&machine, due.given_up[i]));
    add_step(needleoat_firmware_tick(&machine, moment()));
    work();
    uint64_t now_ms = moment();
    if (!needleoat_firmware_wish(&machine, now_ms, &wish)) return;
    if (terminus_ask(&device, wish.pldm_type, wish.command, wish.data, wish.length, &number))
        needleoat_firmware_opened(&machine, number, now_ms);
}

void device_come(const uint8_t *packet, uint32_t length) {
    struct needleoat_coming coming = terminus_come(&device, packet, length);
    if (coming.half == NEEDLEOAT_HALF_ASKING) {
        if (coming.receiving.kind == NEEDLEOAT_RECEIVING_ANSWERED) answered(coming.receiving.number);
    } else if (coming.step.kind == NEEDLEOAT_STEP_RESPOND) respond(&coming.step.handle);
}
