/*
 * Passes other values through each field of the structs of firmware update: what its machine refuses, an image that is
 * not good, one that is not stored, one that is not applied, and one that is activated. The bytes beside it in
 * firmware.expected are those of the tables of DSP0267, written by hand.
 */
#include "needleoat.h"
#include <inttypes.h>
#include <stdio.h>
#include <string.h>

static void print_bytes(const uint8_t *bytes, size_t length) {
    for (size_t i = 0; i < length; i++) printf("%02x", bytes[i]);
}

/* The bytes of a text in hex. */
static size_t from_hex(const char *hex, uint8_t *bytes) {
    size_t count = strlen(hex) / 2;
    for (size_t i = 0; i < count; i++) {
        unsigned byte;
        if (sscanf(hex + 2 * i, "%2x", &byte) != 1) return 0;
        bytes[i] = (uint8_t)byte;
    }
    return count;
}

static struct needleoat_firmware machine = NEEDLEOAT_FIRMWARE_NONE;
static const uint64_t BEFORE = 0x0102030405060707; /* the number before that of the first step */

static void print_flash(struct needleoat_flash_step step) {
    if (step.action == NEEDLEOAT_FLASH_NONE) printf("refusal %u\n", step.refusal);
    else
        printf("step %u number %016" PRIx64 " size %" PRIu32 " offset %" PRIu32 "\n", step.action, step.number,
               step.size, step.offset);
}

/* A command of the agent at an endpoint, where an image may have so many bytes. */
static void update_command(uint8_t source, uint64_t now_ms, uint8_t command, const char *hex, uint32_t room) {
    uint8_t data[32];
    struct needleoat_firmware_answer answer = {.code = 0x77};
    struct needleoat_flash_step step = needleoat_firmware_receive(&machine, source, now_ms, command, data,
                                                                  from_hex(hex, data), room, &answer);
    printf("update command %02x: code %02x data ", command, answer.code);
    print_bytes(answer.data, answer.length);
    printf(" ");
    print_flash(step);
}

/* The component that a command names. */
static void print_component(uint8_t command, const char *hex) {
    uint8_t data[32];
    struct needleoat_component named = {0x77, 0x77, 0x77};
    bool is_named = needleoat_firmware_component(command, data, from_hex(hex, data), &named);
    printf("component of %02x: %d %04x %04x %02x\n", command, is_named, named.classification, named.identifier,
           named.index);
}

static void print_stage(void) {
    struct needleoat_stage at = needleoat_firmware_stage(&machine);
    printf("stage %u stored %" PRIu32 "\n", at.stage, at.stored);
}

/* What it asks, which is opened as this request. */
static void ask_agent(uint64_t number, uint64_t now_ms) {
    struct needleoat_request request = {.pldm_type = 0x77, .command = 0x77};
    bool asks = needleoat_firmware_wish(&machine, now_ms, &request);
    printf("wish %d type %u command %02x data ", asks, request.pldm_type, request.command);
    print_bytes(request.data, request.length);
    printf(" opened %u\n", needleoat_firmware_opened(&machine, number, now_ms));
}

/* A request is answered, well, with so many bytes. */
static void answer_agent(uint64_t number, uint64_t now_ms, uint32_t length) {
    static const uint8_t data[64];
    printf("answered %u: ", (unsigned)number);
    print_flash(needleoat_firmware_answered(&machine, number, now_ms, NEEDLEOAT_CODE_SUCCESS, data, length));
}

static void give_up(uint64_t number) {
    printf("given up %u: ", (unsigned)number);
    print_flash(needleoat_firmware_gave_up(&machine, number));
}

/* The step so many after the first one is done. */
static void step_done(uint64_t step, bool well) {
    needleoat_firmware_done(&machine, BEFORE + 1 + step, well);
    print_stage();
}

static void update_tick(uint64_t now_ms) {
    printf("tick %" PRIu64 ": ", now_ms);
    print_flash(needleoat_firmware_tick(&machine, now_ms));
}

#define REQUEST_UPDATE 0x10, "40000000" "0100" "01" "0000" "0102" "7632"
#define PASS_COMPONENT_TABLE 0x13, "05" "0a00" "0100" "00" "00000000" "0102" "7632"
#define UPDATE_COMPONENT(size) 0x14, "0a00" "0100" "00" "00000000" size "00000000" "0102" "7632"

/* What it refuses. */
static void refusals(void) {
    update_command(8, 5, REQUEST_UPDATE, 100);
    print_stage();
    printf("machine %u", needleoat_firmware_new(BEFORE, &machine));
    printf(" again %u\n", needleoat_firmware_new(BEFORE, &machine));
    update_command(8, 5, 0x1b, "", 100);
    update_command(8, 5, 0x01, "", 100);
    update_command(7, 5, 0x1b, "", 100);
    update_command(8, 5, 0x77, "", 100);
    update_command(8, 5, 0x10, "40", 100);
    update_command(8, 5, 0x1d, "", 100);
    update_command(8, 5, REQUEST_UPDATE, 100);
    update_command(8, 5, PASS_COMPONENT_TABLE, 100);
    update_command(9, 5, UPDATE_COMPONENT("64000000"), 100);
    update_command(8, 5, UPDATE_COMPONENT("64000000"), 0);
    update_command(8, 5, UPDATE_COMPONENT("64000000"), 99);
}

/* An image of 100 bytes that is not good. */
static void bad_image(void) {
    update_command(8, 5, UPDATE_COMPONENT("64000000"), 100);
    print_stage();
    ask_agent(6, 10);
    step_done(0, true);
    ask_agent(7, 10);
    ask_agent(8, 10);
    answer_agent(8, 11, 64);
    answer_agent(7, 11, 64);
    print_stage();
    step_done(1, true);
    ask_agent(8, 12);
    give_up(7);
    give_up(8);
    ask_agent(9, 12);
    answer_agent(9, 13, 36);
    step_done(2, true);
    ask_agent(10, 14);
    answer_agent(10, 15, 0);
    print_stage();
    step_done(3, false);
    ask_agent(11, 16);
    answer_agent(11, 17, 0);
    print_stage();
}

/* An image of 1 byte up to the step of applying it. */
static void apply_one(uint64_t first_step, uint64_t first_request) {
    update_command(8, 20, UPDATE_COMPONENT("01000000"), 1);
    step_done(first_step, true);
    ask_agent(first_request, 21);
    answer_agent(first_request, 22, 1);
    step_done(first_step + 1, true);
    ask_agent(first_request + 1, 23);
    answer_agent(first_request + 1, 24, 0);
    step_done(first_step + 2, true);
    ask_agent(first_request + 2, 25);
    answer_agent(first_request + 2, 26, 0);
    print_stage();
}

int main(void) {
    print_component(0x13, "05" "0a01" "0203" "04" "00000000" "0102" "7632");
    print_component(0x14, "0b05" "0607" "08" "00000000" "64000000" "00000000" "0102" "7632");
    print_component(0x14, "0b05" "0607" "08");
    print_component(REQUEST_UPDATE);
    refusals();
    bad_image();
    update_command(8, 18, UPDATE_COMPONENT("64000000"), 100);
    step_done(5, false);
    ask_agent(12, 18);
    answer_agent(12, 19, 0);
    apply_one(7, 13);
    step_done(10, false);
    ask_agent(16, 27);
    answer_agent(16, 28, 0);
    update_command(8, 29, 0x1a, "01", 0);
    apply_one(11, 17);
    step_done(14, true);
    ask_agent(20, 27);
    answer_agent(20, 28, 0);
    update_command(8, 29, 0x1a, "01", 0);
    print_stage();
    step_done(15, true);
    update_command(8, 30, REQUEST_UPDATE, 0);
    update_tick(90029);
    update_tick(90030);
    needleoat_firmware_free(&machine);
    print_stage();
    update_tick(90031);
    return 0;
}
