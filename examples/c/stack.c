/*
 * Prints how many bytes of stack each call took, and ends with status 1 where one took more than its limit. Each call
 * runs on a stack of its own, which is filled with one byte before and looked through after. So this is what these calls
 * took, over inputs that go a long way, and no bound.
 */
#define _XOPEN_SOURCE 700
#include "needleoat.h"
#include <stdio.h>
#include <string.h>
#if !defined(__arm__) && !defined(__riscv)
#include <ucontext.h>
#endif

/* The limit of each call. */
enum { FILL = 0xa5, LIMIT = 4096 };

static _Alignas(16) uint8_t stack[1 << 16];

#if defined(__arm__)
static void call_on_stack(void (*function)(void)) {
    __asm__ volatile("mov r4, sp\n mov sp, %1\n blx %0\n mov sp, r4" ::"r"(function), "r"(stack + sizeof stack)
                     : "r0", "r1", "r2", "r3", "r4", "r12", "lr", "memory", "cc");
}
#elif defined(__riscv)
static void call_on_stack(void (*function)(void)) {
    __asm__ volatile("mv s2, sp\n mv sp, %1\n jalr %0\n mv sp, s2" ::"r"(function), "r"(stack + sizeof stack)
                     : "ra", "t0", "t1", "t2", "t3", "t4", "t5", "t6", "a0", "a1", "a2", "a3", "a4", "a5", "a6", "a7",
                       "s2", "memory");
}
#else
static void call_on_stack(void (*function)(void)) {
    static ucontext_t back, call;
    getcontext(&call);
    call.uc_stack.ss_sp = stack;
    call.uc_stack.ss_size = sizeof stack;
    call.uc_link = &back;
    makecontext(&call, function, 0);
    swapcontext(&back, &call);
}
#endif

static size_t taken_by(void (*function)(void)) {
    memset(stack, FILL, sizeof stack);
    call_on_stack(function);
    size_t i = 0;
    while (i < sizeof stack && stack[i] == FILL) i++;
    return sizeof stack - i;
}

/* GetPDR, and an answer with the longest part. */
static struct needleoat_command command;
static struct needleoat_answer answer;
static uint8_t request[NEEDLEOAT_REQUEST_BYTES], response[NEEDLEOAT_MESSAGE_BYTES], packet[NEEDLEOAT_PACKET_BYTES];
static uint32_t request_length, response_length, packet_length;

static void none(void) {}
static void command_write(void) { request_length = needleoat_command_write(&command, request); }
static void command_read(void) { needleoat_command_read(request, request_length, &command); }
static void answer_write(void) { response_length = needleoat_answer_write(&answer, response); }
static void answer_read(void) { needleoat_answer_read(request, request_length, response, response_length, &answer); }
static void answer_check(void) { needleoat_answer_check(request, request_length, response, response_length); }
static void packet_write(void) {
    packet_length = needleoat_packet_write(8, 9, false, 0, response, response_length, 0, packet);
}
static void packet_read(void) { needleoat_packet_read(8, packet, packet_length); }
static void request_read(void) { needleoat_request_read(request, request_length); }
static void response_read(void) { needleoat_response_read(response, response_length); }
static void checksum(void) { needleoat_crc8(response, response_length); }
static void version_checksum(void) { needleoat_crc32(response, 4); }
static void base_answer(void) {
    static const struct needleoat_type_version types[] = {{NEEDLEOAT_PLATFORM, {0x00, 0xf2, 0xf1, 0xf1}}};
    static const struct needleoat_type_command has[] = {{NEEDLEOAT_PLATFORM, NEEDLEOAT_GET_PDR}};
    static const struct needleoat_command ask = {.command = NEEDLEOAT_GET_PLDM_COMMANDS, .asked_type = 2};
    static struct needleoat_answer commands;
    needleoat_base_answer(1, types, 1, has, 1, &ask, &commands);
}

/* The longest frames. */
enum { LONGEST_PACKET = 254 };
static uint8_t i2c_frame[NEEDLEOAT_I2C_FRAME_BYTES], i3c_frame[NEEDLEOAT_I3C_FRAME_BYTES];
static void i2c_write(void) { needleoat_i2c_write(0x10, 0x1d, response, LONGEST_PACKET, i2c_frame); }
static void i2c_read(void) { needleoat_i2c_read(0x1d, i2c_frame, sizeof i2c_frame); }
static void i3c_write(void) { needleoat_i3c_write(0x30, true, response, LONGEST_PACKET, i3c_frame); }
static void i3c_read(void) { needleoat_i3c_read(0x30, true, i3c_frame, sizeof i3c_frame); }

/* The longest record, which is asked for whole, a numeric sensor and a name. */
static struct needleoat_state_effecter states = {.record_handle = 1, .count = NEEDLEOAT_STATES};
static struct needleoat_numeric_sensor sensor = {.record_handle = 1};
static struct needleoat_entity_name name = {.record_handle = 1, .length = NEEDLEOAT_NAME_UNITS};
static const struct needleoat_command ask_record = {.pldm_type = NEEDLEOAT_PLATFORM,
                                                    .command = NEEDLEOAT_GET_PDR,
                                                    .transfer_operation_flag = 1,
                                                    .request_count = NEEDLEOAT_RECORD_BYTES};
static struct needleoat_answer record_answer;
static uint8_t record[NEEDLEOAT_RECORD_BYTES], other[NEEDLEOAT_RECORD_BYTES];
static uint32_t record_length;

static void states_write(void) {
    for (size_t i = 0; i < NEEDLEOAT_STATES; i++) states.sets[i].size = sizeof states.sets[i].states;
    record_length = needleoat_state_effecter_record_write(&states, record, sizeof record);
}
static void sensor_write(void) { needleoat_numeric_sensor_record_write(&sensor, other, sizeof other); }
static void name_write(void) {
    for (size_t i = 0; i < NEEDLEOAT_NAME_UNITS; i++) name.text[i] = 'n';
    needleoat_entity_name_record_write(&name, other, sizeof other);
}
static void records_answer(void) {
    static const uint8_t never[13];
    needleoat_records_answer(record, record_length, never, never, &ask_record, &record_answer);
}

/* An endpoint that is asked for that part: its answer has five packets. */
static struct needleoat_endpoint endpoint = NEEDLEOAT_ENDPOINT_NONE;
static struct needleoat_command pending;
static struct needleoat_command_handle handle;
static uint8_t packets[NEEDLEOAT_PACKETS][NEEDLEOAT_PACKET_BYTES];

static void endpoint_new(void) {
    static const struct needleoat_endpoint_settings settings = {
        .own = 9, .first_start = false, .keep_ms = 1000, .sources = 1, .open_messages = 1, .pending_commands = 1,
        .pldm_types = 1 << 4, .answers_control = true};
    needleoat_endpoint_new(&settings, 0, &endpoint);
}
static void endpoint_receive(uint64_t now_ms, const uint8_t *message, size_t length) {
    packet_length = needleoat_packet_write(9, 8, true, 0, message, length, 0, packet);
    handle = needleoat_endpoint_receive(&endpoint, now_ms, packet, packet_length, &pending, packets).handle;
}
static void receive_busy(void) { endpoint_receive(999, request, request_length); }
static void receive_request(void) { endpoint_receive(1000, request, request_length); }
static void endpoint_answer(void) { needleoat_endpoint_answer(&endpoint, &handle, &answer, packets); }
static void receive_copy(void) { endpoint_receive(1001, request, request_length); }
/* The request once more, with another instance ID and in two packets. */
static void receive_two(void) {
    enum { HEAD = 4, FIRST = 10 };
    static uint8_t other[NEEDLEOAT_REQUEST_BYTES], bytes[NEEDLEOAT_PACKET_BYTES] = {1, 9, 8};
    memcpy(other, request, request_length);
    other[1]++;
    bytes[3] = 0x88;
    memcpy(bytes + HEAD, other, FIRST);
    needleoat_endpoint_receive(&endpoint, 1001, bytes, HEAD + FIRST, &pending, packets);
    bytes[3] = 0x58;
    memcpy(bytes + HEAD, other + FIRST, request_length - FIRST);
    size_t length = HEAD + request_length - FIRST;
    handle = needleoat_endpoint_receive(&endpoint, 1001, bytes, length, &pending, packets).handle;
}
/* A request that is handed on as bytes, and its longest response. */
static void receive_other(void) {
    static const uint8_t table_metadata[] = {1, 0x9f, 4, 1};
    endpoint_receive(1001, table_metadata, sizeof table_metadata);
}
static void endpoint_request(void) {
    static struct needleoat_request bytes;
    needleoat_endpoint_request(&endpoint, &handle, &bytes);
}
static void endpoint_answer_bytes(void) {
    static const uint8_t data[NEEDLEOAT_RESPONSE_DATA];
    needleoat_endpoint_answer_bytes(&endpoint, &handle, 0, data, sizeof data, packets);
}
/* A bus owner asks it for versions. */
static void receive_control(void) {
    static const uint8_t versions[] = {0x00, 0x80, 0x04, 0xff};
    endpoint_receive(1001, versions, sizeof versions);
}
static void endpoint_eid(void) { needleoat_endpoint_eid(&endpoint); }
static void receive_start(void) { endpoint_receive(1002, response, response_length); }
static void endpoint_restart(void) { needleoat_endpoint_restart(&endpoint, 1003); }
static void endpoint_free(void) { needleoat_endpoint_free(&endpoint); }

/* A requester that asks for that part: its answer has five packets. */
static struct needleoat_requester requester = NEEDLEOAT_REQUESTER_NONE;
static struct needleoat_due due;

static void requester_new(void) {
    static const struct needleoat_requester_settings settings = {
        .own = 8, .device = 9, .tries = 3, .keep_ms = 1000, .timeout_ms = 200};
    needleoat_requester_new(&settings, &requester);
}
static void requester_open(void) { needleoat_requester_open(&requester, 0, request, request_length); }
static void requester_packet(void) { needleoat_requester_packet(&requester, 0, packet); }
static uint64_t deadline;
static void requester_next_deadline(void) { needleoat_requester_next_deadline(&requester, &deadline); }
static void requester_tick(void) { needleoat_requester_tick(&requester, 200, &due); }
static void receive_packet(uint32_t index) {
    packet_length = needleoat_packet_write(8, 9, false, 0, response, response_length, index, packet);
    needleoat_requester_receive(&requester, 300, packet, packet_length);
}
static void receive_first(void) { receive_packet(0); }
static void receive_middle(void) {
    for (uint32_t index = 1; index < 4; index++) receive_packet(index);
}
static void receive_last(void) { receive_packet(4); }
static void requester_status(void) { needleoat_requester_status(&requester, 0, response); }
static void requester_free(void) { needleoat_requester_free(&requester); }

/* The machine of firmware update: an image of 300 bytes, and its first piece. The version has the most bytes. */
enum { FIRMWARE_DATA = 11 + 255 };
static struct needleoat_firmware machine = NEEDLEOAT_FIRMWARE_NONE;
static struct needleoat_firmware_answer update_answer;
static struct needleoat_request wish;
static uint64_t flash_number;

static void update_command(uint8_t number, const uint8_t *data, size_t length) {
    flash_number = needleoat_firmware_receive(&machine, 8, 0, number, data, length, 300, &update_answer).number;
}
static void firmware_new(void) { needleoat_firmware_new(0, &machine); }
static void request_update(void) {
    static const uint8_t data[FIRMWARE_DATA] = {0, 1, 0, 0, 1, 0, 1, 0, 0, 1, 255};
    update_command(0x10, data, sizeof data);
}
static void pass_component(void) {
    static const uint8_t data[] = {5, 10, 0, 1, 0, 0, 0, 0, 0, 0, 1, 0};
    update_command(0x13, data, sizeof data);
}
static void update_component(void) {
    static const uint8_t data[] = {10, 0, 1, 0, 0, 0, 0, 0, 0, 300 % 256, 300 / 256, 0, 0, 0, 0, 0, 0, 1, 0};
    update_command(0x14, data, sizeof data);
}
static void firmware_component(void) {
    static const uint8_t data[FIRMWARE_DATA + 1] = {5, 10, 0, 1, 0, 0, 0, 0, 0, 0, 1, 255};
    static struct needleoat_component named;
    needleoat_firmware_component(0x13, data, sizeof data, &named);
}
static void firmware_done(void) { needleoat_firmware_done(&machine, flash_number, true); }
static void firmware_wish(void) { needleoat_firmware_wish(&machine, 0, &wish); }
static void firmware_opened(void) { needleoat_firmware_opened(&machine, 0, 0); }
static void firmware_answered(void) { needleoat_firmware_answered(&machine, 0, 0, 0, response, 256); }
static void firmware_gave_up(void) { needleoat_firmware_gave_up(&machine, 0); }
static void firmware_tick(void) { needleoat_firmware_tick(&machine, 0); }
static void firmware_stage(void) { needleoat_firmware_stage(&machine); }
static void firmware_free(void) { needleoat_firmware_free(&machine); }

static const struct {
    const char *name;
    void (*function)(void);
} calls[] = {
    {"needleoat_command_write", command_write}, {"needleoat_command_read", command_read},
    {"needleoat_answer_write", answer_write},   {"needleoat_answer_read", answer_read},
    {"needleoat_answer_check", answer_check},   {"needleoat_packet_write", packet_write},
    {"needleoat_packet_read", packet_read},     {"needleoat_request_read", request_read},
    {"needleoat_response_read", response_read}, {"needleoat_crc8", checksum},
    {"needleoat_crc32", version_checksum},      {"needleoat_base_answer", base_answer},
    {"needleoat_i2c_write", i2c_write},         {"needleoat_i2c_read", i2c_read},
    {"needleoat_i3c_write", i3c_write},         {"needleoat_i3c_read", i3c_read},
    {"needleoat_state_effecter_record_write", states_write},
    {"needleoat_numeric_sensor_record_write", sensor_write},
    {"needleoat_entity_name_record_write", name_write},
    {"needleoat_records_answer", records_answer},
    {"needleoat_endpoint_new", endpoint_new},
    {"needleoat_endpoint_receive, not ready", receive_busy},
    {"needleoat_endpoint_receive, a command", receive_request},
    {"needleoat_endpoint_answer", endpoint_answer},
    {"needleoat_endpoint_receive, a copy", receive_copy},
    {"needleoat_endpoint_receive, a command in two packets", receive_two},
    {"needleoat_endpoint_answer, to a command in two packets", endpoint_answer},
    {"needleoat_endpoint_receive, handed on", receive_other},
    {"needleoat_endpoint_request", endpoint_request},
    {"needleoat_endpoint_answer_bytes", endpoint_answer_bytes},
    {"needleoat_endpoint_receive, a control message", receive_control}, {"needleoat_endpoint_eid", endpoint_eid},
    {"needleoat_endpoint_receive, first packet", receive_start},
    {"needleoat_endpoint_restart", endpoint_restart}, {"needleoat_endpoint_free", endpoint_free},
    {"needleoat_requester_new", requester_new}, {"needleoat_requester_open", requester_open},
    {"needleoat_requester_packet", requester_packet},
    {"needleoat_requester_next_deadline", requester_next_deadline}, {"needleoat_requester_tick", requester_tick},
    {"needleoat_requester_receive, first packet", receive_first},
    {"needleoat_requester_receive, middle packets", receive_middle},
    {"needleoat_requester_receive, last packet", receive_last},
    {"needleoat_requester_status", requester_status}, {"needleoat_requester_free", requester_free},
    {"needleoat_firmware_new", firmware_new}, {"needleoat_firmware_receive, RequestUpdate", request_update},
    {"needleoat_firmware_receive, PassComponentTable", pass_component},
    {"needleoat_firmware_receive, UpdateComponent", update_component},
    {"needleoat_firmware_component", firmware_component}, {"needleoat_firmware_done", firmware_done},
    {"needleoat_firmware_wish", firmware_wish},
    {"needleoat_firmware_opened", firmware_opened}, {"needleoat_firmware_gave_up", firmware_gave_up},
    {"needleoat_firmware_opened, once more", firmware_opened},
    {"needleoat_firmware_answered", firmware_answered}, {"needleoat_firmware_tick", firmware_tick},
    {"needleoat_firmware_stage", firmware_stage}, {"needleoat_firmware_free", firmware_free},
};

int main(void) {
    command.pldm_type = answer.pldm_type = NEEDLEOAT_PLATFORM;
    command.command = answer.command = NEEDLEOAT_GET_PDR;
    answer.transfer_flag = 4;
    answer.length = NEEDLEOAT_PART_BYTES;
    /* Once without a look at the stack, so that the linker has found each function and malloc has its first memory. */
    for (size_t i = 0; i < sizeof calls / sizeof *calls; i++) calls[i].function();
    size_t before = taken_by(none), too_much = 0;
    for (size_t i = 0; i < sizeof calls / sizeof *calls; i++) {
        size_t taken = taken_by(calls[i].function) - before;
        if (taken > LIMIT) too_much++;
        printf("stack of %s %zu\n", calls[i].name, taken);
    }
    return too_much > 0;
}
