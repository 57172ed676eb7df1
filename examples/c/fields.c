/*
 * Passes other values through each field of each struct, and through each number that a call returns. The
 * bytes beside it in fields.expected are those of the tables of DSP0236, DSP0240, DSP0248, DSP0237 and DSP0233,
 * written by hand, the PECs by another program.
 */
#include "needleoat.h"
#include <inttypes.h>
#include <stdio.h>
#include <string.h>

#define COUNT(list) (sizeof(list) / sizeof *(list))
#define UNTOUCHED 0xee

static void print_bytes(const uint8_t *bytes, size_t length) {
    for (size_t i = 0; i < length; i++) printf("%02x", bytes[i]);
}

/* The bytes of a text in hex. */
static size_t from_hex(const char *hex, uint8_t *bytes) {
    size_t count = strlen(hex) / 2;
    for (size_t i = 0; i < count; i++) {
        unsigned byte;
        if (sscanf(hex + 2 * i, "%2x", &byte) != 1) return 0;
        bytes[i] = (uint8_t)byte;
    }
    return count;
}

/* Whether each byte from `start` on is as it was. */
static const char *rest(const uint8_t *bytes, size_t start, size_t end) {
    for (size_t i = start; i < end; i++)
        if (bytes[i] != UNTOUCHED) return "overwritten";
    return "untouched";
}

/* ---- Packets ---- */

static void read_packet(uint8_t own, const char *hex) {
    uint8_t bytes[80];
    size_t length = from_hex(hex, bytes);
    struct needleoat_packet p = needleoat_packet_read(own, bytes, length);
    printf("packet at %u: reason %u", own, p.reason);
    if (p.reason == 0)
        printf(" destination %u source %u tag %u seq %u owner %d start %d end %d payload %" PRIu32, p.destination,
               p.source, p.tag, p.seq, p.owner, p.start, p.end, p.payload_length);
    printf("\n");
}

static void packets(void) {
    read_packet(9, "010908c801800002");
    read_packet(30, "f11e1d5daabbcc");
    read_packet(254, "01fe0827aabb");
    read_packet(8, "0108feb001");
    read_packet(9, "");
    read_packet(9, "020908c801800002");
    read_packet(9, "010b08c801800002");
    read_packet(9, "010907c801800002");
    read_packet(9, "010909c801800002");
    read_packet(9, "010908c8");
    read_packet(9, "010908c8" "01010101010101010101010101010101010101010101010101010101010101010101"
                   "01010101010101010101010101010101010101010101010101010101010101");
    read_packet(7, "010708c801800002");
    read_packet(255, "01ff08c801800002");
    static const uint32_t lengths[] = {0, 1, 64, 65, 128, 320, 321, UINT32_MAX};
    printf("counts");
    for (size_t i = 0; i < COUNT(lengths); i++) printf(" %" PRIu32, needleoat_packet_count(lengths[i]));
    printf("\n");
}

static void write_packet(uint8_t destination, uint8_t source, bool owner, uint8_t tag, size_t length, uint32_t index) {
    uint8_t message[321], out[NEEDLEOAT_PACKET_BYTES];
    for (size_t i = 0; i < sizeof message; i++) message[i] = (uint8_t)i;
    memset(out, UNTOUCHED, sizeof out);
    uint32_t count = needleoat_packet_write(destination, source, owner, tag, message, length, index, out);
    printf("packet %" PRIu32 " of %zu bytes: %" PRIu32 " ", index, length, count);
    print_bytes(out, count < 6 ? count : 6);
    printf(" %s\n", rest(out, count, sizeof out));
}

static void written_packets(void) {
    write_packet(8, 9, false, 0, 64, 0);
    write_packet(30, 29, true, 5, 65, 0);
    write_packet(30, 29, true, 5, 65, 1);
    for (uint32_t i = 0; i < 6; i++) write_packet(254, 10, false, 7, 320, i);
    write_packet(8, 9, false, 0, 0, 0);
    write_packet(8, 9, false, 0, 321, 0);
    write_packet(7, 9, false, 0, 1, 0);
    write_packet(8, 255, false, 0, 1, 0);
    write_packet(8, 9, false, 8, 1, 0);
}

/* ---- Messages ---- */

static void print_message(const char *name, struct needleoat_message m) {
    printf("%s: reason %u", name, m.reason);
    if (m.reason == 0)
        printf(" id %u type %u command %u code %u data %" PRIu32, m.instance_id, m.pldm_type, m.command, m.code,
               m.data_length);
    printf("\n");
}

static void read_request(const char *hex) {
    uint8_t bytes[64];
    size_t length = from_hex(hex, bytes);
    print_message("request", needleoat_request_read(bytes, length));
}

static void read_response(const char *hex) {
    uint8_t bytes[64];
    size_t length = from_hex(hex, bytes);
    print_message("response", needleoat_response_read(bytes, length));
}

static void messages(void) {
    static const char *const requests[] = {"01800002", "019d3f7a0102030405", "02800002", "81800002", "0180", "",
                                           "01804002", "01000002", "01c00002"};
    for (size_t i = 0; i < COUNT(requests); i++) read_request(requests[i]);
    static const char *const responses[] = {"010000020001", "011d025182aabbcc", "020000020001",
                                            "810000020001", "01000002",         "",
                                            "010040020001", "018000020001",     "014000020001"};
    for (size_t i = 0; i < COUNT(responses); i++) read_response(responses[i]);
}

/* ---- Commands ---- */

#define BASE(id, number) .instance_id = id, .pldm_type = NEEDLEOAT_BASE, .command = number
#define PLATFORM(id, number) .instance_id = id, .pldm_type = NEEDLEOAT_PLATFORM, .command = number

static const struct needleoat_command commands[] = {
    {BASE(1, NEEDLEOAT_SET_TID), .tid = 40},
    {BASE(2, NEEDLEOAT_GET_TID)},
    {BASE(3, NEEDLEOAT_GET_PLDM_VERSION), .data_transfer_handle = 0x04030201, .transfer_operation_flag = 6,
     .asked_type = 5},
    {BASE(4, NEEDLEOAT_GET_PLDM_TYPES)},
    {BASE(5, NEEDLEOAT_GET_PLDM_COMMANDS), .asked_type = 2, .version = {0xf1, 0xf2, 0xf3, 0xf4}},
    {PLATFORM(6, NEEDLEOAT_GET_SENSOR_READING), .sensor = 0x0201, .rearm = 3},
    {PLATFORM(0, NEEDLEOAT_GET_STATE_SENSOR_READINGS), .sensor = 3, .rearm = 0xff},
    {PLATFORM(1, NEEDLEOAT_SET_NUMERIC_EFFECTER_VALUE), .effecter = 1, .size = NEEDLEOAT_SINT16, .value = -2},
    {PLATFORM(8, NEEDLEOAT_SET_NUMERIC_EFFECTER_VALUE), .effecter = 1, .size = NEEDLEOAT_UINT32, .value = 4294967295},
    {PLATFORM(9, NEEDLEOAT_GET_NUMERIC_EFFECTER_VALUE), .effecter = 0x0605},
    {PLATFORM(10, NEEDLEOAT_SET_STATE_EFFECTER_STATES), .effecter = 2, .count = 8,
     .sets = {{0, 10}, {1, 11}, {2, 12}, {3, 13}, {4, 14}, {5, 15}, {6, 16}, {7, 17}}},
    {PLATFORM(11, NEEDLEOAT_GET_STATE_EFFECTER_STATES), .effecter = 2},
    {PLATFORM(12, NEEDLEOAT_GET_PDR_REPOSITORY_INFO)},
    {PLATFORM(31, NEEDLEOAT_GET_PDR), .record_handle = 0x44332211, .data_transfer_handle = 0x88776655,
     .transfer_operation_flag = 1, .request_count = 0xaa99, .record_change_number = 0xccbb},
};

/* Each has a field that is out of range. */
static const struct needleoat_command no_commands[] = {
    {BASE(32, NEEDLEOAT_GET_TID)},
    {BASE(1, 0x06)},
    {PLATFORM(1, 0x10)},
    {.instance_id = 1, .pldm_type = 1, .command = NEEDLEOAT_GET_TID},
    {PLATFORM(1, NEEDLEOAT_SET_NUMERIC_EFFECTER_VALUE), .size = 6},
    {PLATFORM(1, NEEDLEOAT_SET_NUMERIC_EFFECTER_VALUE), .size = NEEDLEOAT_UINT8, .value = 256},
    {PLATFORM(1, NEEDLEOAT_SET_NUMERIC_EFFECTER_VALUE), .size = NEEDLEOAT_SINT8, .value = -129},
    {PLATFORM(1, NEEDLEOAT_SET_STATE_EFFECTER_STATES), .count = 0},
    {PLATFORM(1, NEEDLEOAT_SET_STATE_EFFECTER_STATES), .count = 9},
};

#define SAME(field) (memcmp(&a->field, &b->field, sizeof a->field) == 0)

/* Whether each field is the same; the bytes between them may be any. */
static bool same_command(const struct needleoat_command *a, const struct needleoat_command *b) {
    return SAME(instance_id) && SAME(pldm_type) && SAME(command) && SAME(tid) && SAME(asked_type) &&
           SAME(transfer_operation_flag) && SAME(rearm) && SAME(size) && SAME(count) && SAME(sensor) &&
           SAME(effecter) && SAME(request_count) && SAME(record_change_number) && SAME(data_transfer_handle) && SAME(record_handle) &&
           SAME(value) && SAME(version) && SAME(sets);
}

static void read_command(const char *hex) {
    uint8_t bytes[64];
    size_t length = from_hex(hex, bytes);
    struct needleoat_command command;
    memset(&command, UNTOUCHED, sizeof command);
    struct needleoat_command_reading r = needleoat_command_read(bytes, length, &command);
    printf("command: reason %u code %02x %s\n", r.reason, r.code, rest((const uint8_t *)&command, 0, sizeof command));
}

static void written_commands(void) {
    uint8_t out[NEEDLEOAT_REQUEST_BYTES];
    for (size_t i = 0; i < COUNT(commands); i++) {
        struct needleoat_command command;
        memset(out, UNTOUCHED, sizeof out);
        memset(&command, UNTOUCHED, sizeof command);
        uint32_t count = needleoat_command_write(&commands[i], out);
        struct needleoat_command_reading r = needleoat_command_read(out, count, &command);
        bool same = r.reason == 0 && r.code == 0 && same_command(&commands[i], &command);
        printf("command ");
        print_bytes(out, count);
        printf(" %s, read back %s\n", rest(out, count, sizeof out), same ? "the same" : "OTHERWISE");
    }
    for (size_t i = 0; i < COUNT(no_commands); i++) {
        memset(out, UNTOUCHED, sizeof out);
        uint32_t count = needleoat_command_write(&no_commands[i], out);
        printf("no command %" PRIu32 " %s\n", count, rest(out, 0, sizeof out));
    }
    static const char *const refused[] = {"01800231010006",   "0180023101000628", "0180023101000228", "01800239020000",
                                          "0180023902000201", "01800502",         "01810010",         "0182000200",
                                          "01000002",         "01c00002"};
    for (size_t i = 0; i < COUNT(refused); i++) read_command(refused[i]);
}

/* ---- Answers ---- */

static const struct needleoat_answer answers[] = {
    {BASE(1, NEEDLEOAT_SET_TID)},
    {BASE(2, NEEDLEOAT_GET_TID), .tid = 40},
    {BASE(3, NEEDLEOAT_GET_PLDM_VERSION), .next_data_transfer_handle = 0x04030201, .length = 8,
     .bytes = {0xa1, 0xa2, 0xa3, 0xa4, 0xb1, 0xb2, 0xb3, 0xb4}},
    {BASE(4, NEEDLEOAT_GET_PLDM_TYPES), .types = {1, 2, 3, 4, 5, 6, 7, 8}},
    {BASE(5, NEEDLEOAT_GET_PLDM_COMMANDS),
     .commands = {0x20, 0x21, 0x22, 0x23, 0x24, 0x25, 0x26, 0x27, 0x28, 0x29, 0x2a, 0x2b, 0x2c, 0x2d, 0x2e, 0x2f,
                  0x30, 0x31, 0x32, 0x33, 0x34, 0x35, 0x36, 0x37, 0x38, 0x39, 0x3a, 0x3b, 0x3c, 0x3d, 0x3e, 0x3f}},
    {PLATFORM(6, NEEDLEOAT_GET_SENSOR_READING), .size = NEEDLEOAT_SINT32, .operational = 2,
     .sensor_event_message_enable = 3, .present = 4, .previous = 5, .event = 6, .value = -2},
    {PLATFORM(7, NEEDLEOAT_GET_STATE_SENSOR_READINGS), .count = 8,
     .sensor_states = {{0x10, 0x20, 0x30, 0x40}, {0x11, 0x21, 0x31, 0x41}, {0x12, 0x22, 0x32, 0x42},
                       {0x13, 0x23, 0x33, 0x43}, {0x14, 0x24, 0x34, 0x44}, {0x15, 0x25, 0x35, 0x45},
                       {0x16, 0x26, 0x36, 0x46}, {0x17, 0x27, 0x37, 0x47}}},
    {PLATFORM(8, NEEDLEOAT_SET_NUMERIC_EFFECTER_VALUE)},
    {PLATFORM(3, NEEDLEOAT_GET_NUMERIC_EFFECTER_VALUE), .size = NEEDLEOAT_UINT8, .operational = 1, .value = 40,
     .pending_value = 40},
    {PLATFORM(9, NEEDLEOAT_GET_NUMERIC_EFFECTER_VALUE), .size = NEEDLEOAT_SINT16, .operational = 1, .value = 300,
     .pending_value = -2},
    {PLATFORM(10, NEEDLEOAT_SET_STATE_EFFECTER_STATES)},
    {PLATFORM(11, NEEDLEOAT_GET_STATE_EFFECTER_STATES), .count = 8,
     .effecter_states = {{0x50, 0x60, 0x70}, {0x51, 0x61, 0x71}, {0x52, 0x62, 0x72}, {0x53, 0x63, 0x73},
                         {0x54, 0x64, 0x74}, {0x55, 0x65, 0x75}, {0x56, 0x66, 0x76}, {0x57, 0x67, 0x77}}},
    {PLATFORM(12, NEEDLEOAT_GET_PDR_REPOSITORY_INFO), .repository_state = 1,
     .update_time = {0x80, 0x81, 0x82, 0x83, 0x84, 0x85, 0x86, 0x87, 0x88, 0x89, 0x8a, 0x8b, 0x8c},
     .oem_update_time = {0x90, 0x91, 0x92, 0x93, 0x94, 0x95, 0x96, 0x97, 0x98, 0x99, 0x9a, 0x9b, 0x9c},
     .record_count = 0x04030201, .repository_size = 0x08070605, .largest_record_size = 0x0c0b0a09, .timeout = 0x0d},
    {PLATFORM(31, NEEDLEOAT_GET_PDR), .next_record_handle = 0x44332211, .next_data_transfer_handle = 0x88776655,
     .transfer_flag = 4, .transfer_crc = 0xf5, .length = 5, .bytes = {0xe1, 0xe2, 0xe3, 0xe4, 0xe5}},
    {PLATFORM(30, NEEDLEOAT_GET_PDR), .transfer_flag = 5, .length = 1, .bytes = {0xe6}},
    {PLATFORM(4, NEEDLEOAT_GET_PDR), .code = 0x82},
};

/* Each has a field that is out of range. */
static const struct needleoat_answer no_answers[] = {
    {BASE(32, NEEDLEOAT_GET_TID)},
    {.instance_id = 1, .pldm_type = 64, .command = NEEDLEOAT_GET_TID, .code = 5},
    {.instance_id = 1, .pldm_type = 1, .command = NEEDLEOAT_GET_TID},
    {BASE(1, 0x06)},
    {BASE(1, NEEDLEOAT_GET_PLDM_VERSION), .length = 5},
    {BASE(1, NEEDLEOAT_GET_PLDM_VERSION), .length = 36},
    {BASE(1, NEEDLEOAT_GET_PLDM_VERSION), .length = UINT32_MAX},
    {PLATFORM(1, NEEDLEOAT_GET_SENSOR_READING), .size = 6},
    {PLATFORM(1, NEEDLEOAT_GET_NUMERIC_EFFECTER_VALUE), .size = NEEDLEOAT_UINT8, .value = 256},
    {PLATFORM(1, NEEDLEOAT_GET_NUMERIC_EFFECTER_VALUE), .size = NEEDLEOAT_UINT8, .pending_value = -1},
    {PLATFORM(1, NEEDLEOAT_GET_STATE_SENSOR_READINGS), .count = 9},
    {PLATFORM(1, NEEDLEOAT_GET_STATE_EFFECTER_STATES), .count = 0},
    {PLATFORM(1, NEEDLEOAT_GET_PDR), .transfer_flag = 3},
    {PLATFORM(1, NEEDLEOAT_GET_PDR), .transfer_flag = 5, .length = 304},
};

static bool same_answer(const struct needleoat_answer *a, const struct needleoat_answer *b) {
    return SAME(instance_id) && SAME(pldm_type) && SAME(command) && SAME(code) && SAME(tid) && SAME(transfer_flag) &&
           SAME(transfer_crc) && SAME(size) && SAME(operational) && SAME(sensor_event_message_enable) &&
           SAME(present) && SAME(previous) && SAME(event) && SAME(count) && SAME(repository_state) && SAME(timeout) &&
           SAME(next_record_handle) && SAME(next_data_transfer_handle) && SAME(record_count) && SAME(repository_size) &&
           SAME(largest_record_size) && SAME(value) && SAME(pending_value) && SAME(length) && SAME(sensor_states) &&
           SAME(effecter_states) && SAME(types) && SAME(commands) && SAME(update_time) && SAME(oem_update_time) &&
           SAME(bytes);
}

/* A request that the answer is one to. */
static uint32_t request_for(const struct needleoat_answer *answer, uint8_t out[NEEDLEOAT_REQUEST_BYTES]) {
    struct needleoat_command command = {.instance_id = answer->instance_id,
                                        .pldm_type = answer->pldm_type,
                                        .command = answer->command,
                                        .count = 1};
    return needleoat_command_write(&command, out);
}

static void check(const char *request_hex, const char *response_hex) {
    uint8_t request[32], response[32];
    size_t request_length = from_hex(request_hex, request), response_length = from_hex(response_hex, response);
    struct needleoat_answer answer;
    memset(&answer, UNTOUCHED, sizeof answer);
    uint8_t fault = needleoat_answer_read(request, request_length, response, response_length, &answer);
    uint8_t checked = needleoat_answer_check(request, request_length, response, response_length);
    printf("answer %u %u ", fault, checked);
    if (fault == 0) printf("code %02x\n", answer.code);
    else printf("%s\n", rest((const uint8_t *)&answer, 0, sizeof answer));
}

static void written_answers(void) {
    uint8_t request[NEEDLEOAT_REQUEST_BYTES], out[NEEDLEOAT_MESSAGE_BYTES];
    for (size_t i = 0; i < COUNT(answers); i++) {
        struct needleoat_answer answer;
        memset(out, UNTOUCHED, sizeof out);
        memset(&answer, UNTOUCHED, sizeof answer);
        uint32_t count = needleoat_answer_write(&answers[i], out);
        uint32_t request_length = request_for(&answers[i], request);
        uint8_t fault = needleoat_answer_read(request, request_length, out, count, &answer);
        bool same = fault == 0 && same_answer(&answers[i], &answer);
        printf("answer ");
        print_bytes(out, count);
        printf(" %s, read back %s\n", rest(out, count, sizeof out), same ? "the same" : "OTHERWISE");
    }
    for (size_t i = 0; i < COUNT(no_answers); i++) {
        memset(out, UNTOUCHED, sizeof out);
        uint32_t count = needleoat_answer_write(&no_answers[i], out);
        printf("no answer %" PRIu32 " %s\n", count, rest(out, 0, sizeof out));
    }
    check("01800002", "010000020001");
    check("01800002", "0100000203ff");
    check("01800502", "010000020001");
    check("01000002", "010000020001");
    check("01800002", "018000020001");
    check("01800002", "010100020001");
    check("01800002", "010000010001");
    check("01800002", "0100000200");
    check("01800002", "010000020001ff");
    check("01800211010000", "010002110006000001010128");
    check("01800211010000", "010002110002000001010128");
    check("018002510000000000000000012f010000", "01000251000000000000000000030000");
    check("018002510000000000000000012f010000", "01000251000000000000000000053001");
}

/* ---- Control messages ---- */

/* What an endpoint answers that answers control messages. */
static void control(const char *what, const char *hex) {
    static struct needleoat_endpoint endpoint = NEEDLEOAT_ENDPOINT_NONE;
    struct needleoat_endpoint_settings settings = {.own = 200, .keep_ms = 1000, .answers_control = true};
    struct needleoat_command command;
    uint8_t bytes[80], packets[NEEDLEOAT_PACKETS][NEEDLEOAT_PACKET_BYTES];
    for (size_t i = 0; i < sizeof settings.uuid; i++) settings.uuid[i] = (uint8_t)(0x10 + i);
    for (size_t i = 0; i < sizeof settings.base_version; i++) {
        settings.base_version[i] = (uint8_t)(0xa1 + i);
        settings.control_version[i] = (uint8_t)(0xb1 + i);
        settings.pldm_version[i] = (uint8_t)(0xc1 + i);
    }
    memset(packets, UNTOUCHED, sizeof packets);
    uint8_t refusal = needleoat_endpoint_new(&settings, 0, &endpoint);
    struct needleoat_step step =
        needleoat_endpoint_receive(&endpoint, 0, bytes, from_hex(hex, bytes), &command, packets);
    printf("by the endpoint %u, %s: %u %u %u %" PRIu32 " ", needleoat_endpoint_eid(&endpoint), what, refusal, step.kind,
           step.reason, step.count);
    print_bytes(packets[0], step.lengths[0]);
    printf(" %s\n", rest(packets[0], step.lengths[0], sizeof packets));
    needleoat_endpoint_free(&endpoint);
}

static void controls(void) {
    control("endpoint ID", "01c808cb" "008302");
    control("UUID", "01c808cc" "008403");
    control("versions of the base specification", "01c808cd" "008504ff");
    control("versions of the control protocol", "01c808ce" "00860400");
    control("versions of PLDM over MCTP", "01c808cf" "00870401");
    control("message types", "01c808c8" "008805");
    control("to be the endpoint 200", "01c8fec9" "00890100c8");
    control("to be the endpoint 201", "01c8feca" "009f0100c9");
    control("to the null endpoint ID", "010008c8" "008002");
    control("from the null endpoint ID", "010000c8" "008002");
    control("from the null endpoint ID to this one", "01c800c8" "008002");
    control("to another endpoint", "01c908c8" "008002");
    control("from a reserved endpoint ID", "01c807c8" "008002");
    control("from this one to itself", "01c8c8c8" "008002");
    control("a response", "01c808c8" "000002");
    control("no bytes", "");
}

/* ---- Steps of an endpoint ---- */

static struct needleoat_endpoint endpoint = NEEDLEOAT_ENDPOINT_NONE;
static uint8_t rooms[NEEDLEOAT_PACKETS][NEEDLEOAT_PACKET_BYTES];

/* The numbers of a step, and the first five bytes of each packet. */
static void print_step(const char *what, struct needleoat_step step) {
    printf("%s: kind %u reason %u fresh %d changed %d count %" PRIu32 " lengths", what, step.kind, step.reason,
           step.fresh, step.changed, step.count);
    for (size_t i = 0; i < NEEDLEOAT_PACKETS; i++) printf(" %" PRIu32, step.lengths[i]);
    printf(" handle %" PRIu64 " %u %u", step.handle.number, step.handle.source, step.handle.instance_id);
    for (uint32_t i = 0; i < step.count && i < NEEDLEOAT_PACKETS; i++) {
        printf(" ");
        print_bytes(rooms[i], 5);
    }
    printf("\n");
}

/* Receives a packet, and returns the handle of its command. */
static struct needleoat_command_handle step_receive(const char *what, uint64_t now_ms, const char *hex) {
    uint8_t bytes[NEEDLEOAT_PACKET_BYTES];
    size_t length = from_hex(hex, bytes);
    struct needleoat_command command;
    struct needleoat_step step = needleoat_endpoint_receive(&endpoint, now_ms, bytes, length, &command, rooms);
    print_step(what, step);
    return step.handle;
}

static void step_answer(const char *what, struct needleoat_command_handle handle,
                        const struct needleoat_answer *answer) {
    print_step(what, needleoat_endpoint_answer(&endpoint, &handle, answer, rooms));
}

/* Answers a request for a part of a record with so many bytes, each of which is its own place. */
static void step_part(const char *hex, uint8_t transfer_flag, uint32_t length) {
    struct needleoat_answer part = {PLATFORM(0, NEEDLEOAT_GET_PDR), .transfer_flag = transfer_flag, .length = length};
    for (size_t i = 0; i < length; i++) part.bytes[i] = (uint8_t)i;
    step_answer("answer with a part", step_receive("part", 6, hex), &part);
}

#define SET_OF_8 "010908c8" "0180023101000028"
#define OTHER_SET_OF_8 "010908c9" "0186023101000032"
#define PART_OF_8(flags, id) "010908" flags "01" id "025100000000000000000100010000"

static const struct needleoat_answer done = {PLATFORM(0, NEEDLEOAT_SET_NUMERIC_EFFECTER_VALUE)};

/* The device has two commands at a time, and answers the second one first. */
static void two_commands(void) {
    static const struct needleoat_answer of_another = {BASE(0, NEEDLEOAT_SET_TID)};
    static const struct needleoat_answer out_of_range = {PLATFORM(32, NEEDLEOAT_SET_NUMERIC_EFFECTER_VALUE)};
    struct needleoat_command_handle first = step_receive("set", 5, SET_OF_8);
    step_receive("set again", 5, SET_OF_8);
    step_receive("first half of the set", 5, "01090888" "01800231");
    step_receive("second half of the set", 5, "01090858" "01000028");
    step_receive("set to another value", 5, "010908c8" "0180023101000029");
    step_receive("set by another", 5, "01090ac8" "0180023101000028");
    struct needleoat_command_handle second = step_receive("set with another instance ID", 5, OTHER_SET_OF_8);
    step_receive("set with another instance ID again", 5, OTHER_SET_OF_8);
    step_receive("set with a third instance ID", 5, "010908ca" "0187023101000028");
    step_receive("for another endpoint meanwhile", 5, "010a08c8" "0180023101000028");
    step_answer("answer to another command", first, &of_another);
    step_answer("answer out of range", first, &out_of_range);
    step_answer("answer under another number", (struct needleoat_command_handle){1, 8, 0}, &done);
    step_answer("answer to another instance ID", (struct needleoat_command_handle){0, 8, 6}, &done);
    step_answer("answer to another source", (struct needleoat_command_handle){0, 10, 0}, &done);
    step_answer("answer to no source", (struct needleoat_command_handle){0, 0, 0}, &done);
    step_answer("answer to the second", second, &done);
    step_answer("answer to the first", first, &done);
    step_answer("answer to the first again", first, &done);
    step_receive("copy of the first", 6, SET_OF_8);
    step_receive("copy of the second", 6, OTHER_SET_OF_8);
}

static void steps(void) {
    static const struct needleoat_answer refused = {PLATFORM(0, NEEDLEOAT_GET_PDR), .code = 0x82};
    static const struct needleoat_endpoint_settings settings = {
        .own = 9, .first_start = true, .keep_ms = 1000, .sources = 1, .open_messages = 3, .pending_commands = 2};
    const struct needleoat_command_handle none = {0, 8, 0};
    step_receive("nothing there", 0, SET_OF_8);
    step_answer("nothing there", none, &done);
    printf("made %u", needleoat_endpoint_new(&settings, 4, &endpoint));
    printf(" again %u\n", needleoat_endpoint_new(&settings, 4, &endpoint));
    step_answer("nothing pending", none, &done);
    step_receive("before the first moment", 3, SET_OF_8);
    two_commands();
    step_receive("before the last moment", 5, SET_OF_8);
    step_receive("for another endpoint", 6, "010a08c8" "0180023101000028");
    step_receive("first packet", 6, "0109088d" "0180023101000028");
    step_receive("a second open message", 6, "0109088e" "01800231");
    step_receive("a third open message", 6, "0109088f" "01800231");
    step_receive("middle of the first", 6, "0109081d" "0000000000000000");
    step_receive("a fourth open message", 6, "01090888" "01800231");
    step_receive("middle of the first again", 6, "0109082d" "0000000000000000");
    step_receive("another source", 6, "01090ac8" "0180023101000028");
    step_part(PART_OF_8("c9", "81"), 4, 300);
    step_part(PART_OF_8("ca", "82"), 0, 60);
    step_part(PART_OF_8("cb", "83"), 0, 130);
    step_part(PART_OF_8("cc", "84"), 0, 200);
    step_answer("answer with a code", step_receive("part", 6, PART_OF_8("cd", "85")), &refused);
    struct needleoat_command_handle last = step_receive("set before the restart", 6, "010908ce" "0188023101000028");
    printf("restarted %u", needleoat_endpoint_restart(&endpoint, 7));
    printf(" before %u\n", needleoat_endpoint_restart(&endpoint, 6));
    step_answer("answer after the restart", last, &done);
    needleoat_endpoint_free(&endpoint);
    printf("freed %u\n", needleoat_endpoint_restart(&endpoint, 8));
}

/* The numbers of a window and of a busy time, whole, and each in its own field. */
static void made_with(uint32_t window, uint32_t busy) {
    const struct needleoat_endpoint_settings settings = {.own = 9, .keep_ms = 1000, .window = window, .busy = busy};
    printf("window %" PRIu32 " busy %" PRIu32 ": %u\n", window, busy, needleoat_endpoint_new(&settings, 4, &endpoint));
    needleoat_endpoint_free(&endpoint);
}

static void windows(void) {
    made_with(0, NEEDLEOAT_BUSY_ALL);
    made_with(1, NEEDLEOAT_BUSY_SETS);
    made_with(32, NEEDLEOAT_BUSY_SETS);
    made_with(33, NEEDLEOAT_BUSY_ALL);
    made_with(0x101, NEEDLEOAT_BUSY_ALL);
    made_with(UINT32_MAX, NEEDLEOAT_BUSY_ALL);
    made_with(1, 2);
    made_with(32, 0x100);
    made_with(32, 0x10000);
}

/* ---- Packets on I2C and I3C ---- */

/* Prints the bytes before a packet and its first four, and the PEC. */
static void print_frame(uint32_t count, const uint8_t *out, uint32_t front, size_t most) {
    printf("%" PRIu32 " ", count);
    print_bytes(out, count < front ? count : front);
    if (count > 0) printf(" .. %02x", out[count - 1]);
    printf(" %s\n", rest(out, count, most));
}

/* The bytes of the packet are 0, 1, 2 .. */
static void write_frames(uint8_t first, uint8_t second, size_t length) {
    uint8_t packet[256], out[NEEDLEOAT_I2C_FRAME_BYTES], i3c_out[NEEDLEOAT_I3C_FRAME_BYTES];
    for (size_t i = 0; i < sizeof packet; i++) packet[i] = (uint8_t)i;
    memset(out, UNTOUCHED, sizeof out);
    memset(i3c_out, UNTOUCHED, sizeof i3c_out);
    printf("I2C from %02x to %02x, %zu bytes: ", first, second, length);
    print_frame(needleoat_i2c_write(first, second, packet, length, out), out, 8, sizeof out);
    printf("I3C to %02x, %zu bytes: ", first, length);
    print_frame(needleoat_i3c_write(first, false, packet, length, i3c_out), i3c_out, 4, sizeof i3c_out);
    memset(i3c_out, UNTOUCHED, sizeof i3c_out);
    printf("I3C from %02x, %zu bytes: ", first, length);
    print_frame(needleoat_i3c_write(first, true, packet, length, i3c_out), i3c_out, 4, sizeof i3c_out);
}

static void read_i2c(uint8_t own, const char *hex) {
    uint8_t bytes[NEEDLEOAT_I2C_FRAME_BYTES];
    struct needleoat_i2c_frame frame = needleoat_i2c_read(own, bytes, from_hex(hex, bytes));
    printf("I2C at %02x: fault %u", own, frame.fault);
    if (frame.fault == 0)
        printf(" source %02x packet at %" PRIu32 " of %" PRIu32, frame.source_address, frame.packet_start,
               frame.packet_length);
    printf("\n");
}

static void read_i3c(uint8_t address, bool is_read, const char *hex) {
    uint8_t bytes[NEEDLEOAT_I3C_FRAME_BYTES];
    struct needleoat_i3c_frame frame = needleoat_i3c_read(address, is_read, bytes, from_hex(hex, bytes));
    printf("I3C %s %02x: fault %u", is_read ? "from" : "to", address, frame.fault);
    if (frame.fault == 0) printf(" packet of %" PRIu32, frame.packet_length);
    printf("\n");
}

static void bus_frames(void) {
    write_frames(0x10, 0x1d, 4);
    write_frames(0x08, 0x77, 254);
    write_frames(0x77, 0x08, 5);
    write_frames(0x10, 0x1d, 3);
    write_frames(0x10, 0x1d, 255);
    write_frames(0x07, 0x1d, 4);
    write_frames(0x78, 0x1d, 4);
    write_frames(0x10, 0x07, 4);
    write_frames(0x10, 0x78, 4);
    write_frames(0x7f, 0x1d, 4);
    write_frames(0x80, 0x1d, 4);
    read_i2c(0x1d, "3a0f0921" "010908c801800002" "ca");
    read_i2c(0x77, "ee0f0211" "aa" "70");
    read_i2c(0x1d, "3a0f0121" "80");
    read_i2c(0x1e, "3a0f0921" "010908c801800002" "ca");
    read_i2c(0x1d, "3a0e0921" "010908c801800002" "d5");
    read_i2c(0x1d, "3a0f0a21" "010908c801800002" "72");
    read_i2c(0x1d, "3a0f0920" "010908c801800002" "b3");
    read_i2c(0x1d, "3a0f0921" "010908c801800002" "cc");
    read_i2c(0x07, "0e0f0921" "010908c801800002" "ca");
    read_i2c(0x78, "f00f0921" "010908c801800002" "ca");
    read_i3c(0x30, false, "010908c801800002" "2b");
    read_i3c(0x30, true, "010908c801800002" "52");
    read_i3c(0x30, true, "010908c801800002" "2b");
    read_i3c(0x31, false, "010908c801800002" "2b");
    read_i3c(0x7f, true, "010908c8" "cb");
    read_i3c(0x30, false, "010908" "00");
    read_i3c(0x80, false, "010908c801800002" "2b");
}

/* A device of two types: its terminus ID, versions, types and commands, and what it refuses. */
static void ask_device(uint8_t number, uint8_t asked_type, uint8_t operation) {
    static const struct needleoat_type_version types[] = {
        {NEEDLEOAT_BASE, {0x31, 0x32, 0x33, 0x34}}, {NEEDLEOAT_PLATFORM, {0x00, 0xf2, 0xf1, 0xf1}}};
    static const struct needleoat_type_command commands[] = {
        {NEEDLEOAT_BASE, NEEDLEOAT_GET_TID},          {NEEDLEOAT_BASE, NEEDLEOAT_GET_PLDM_VERSION},
        {NEEDLEOAT_BASE, NEEDLEOAT_GET_PLDM_TYPES},   {NEEDLEOAT_BASE, NEEDLEOAT_GET_PLDM_COMMANDS},
        {NEEDLEOAT_PLATFORM, NEEDLEOAT_GET_PDR},      {NEEDLEOAT_PLATFORM, NEEDLEOAT_GET_SENSOR_READING},
        {NEEDLEOAT_PLATFORM, 0xff}};
    const struct needleoat_command command = {.instance_id = 5,
                                              .command = number,
                                              .asked_type = asked_type,
                                              .transfer_operation_flag = operation};
    struct needleoat_answer answer = {.code = 0x77};
    uint8_t response[NEEDLEOAT_MESSAGE_BYTES];
    uint8_t fault = needleoat_base_answer(7, types, 2, commands, 7, &command, &answer);
    printf("command %u of type %u: ", number, asked_type);
    if (fault != 0) printf("fault %u, code %02x\n", fault, answer.code);
    else {
        print_bytes(response, needleoat_answer_write(&answer, response));
        printf("\n");
    }
}

static void base_answers(void) {
    ask_device(NEEDLEOAT_GET_TID, 0, 0);
    ask_device(NEEDLEOAT_GET_PLDM_VERSION, 0, 1);
    ask_device(NEEDLEOAT_GET_PLDM_VERSION, 2, 1);
    ask_device(NEEDLEOAT_GET_PLDM_VERSION, 4, 1);
    ask_device(NEEDLEOAT_GET_PLDM_VERSION, 0, 0);
    ask_device(NEEDLEOAT_GET_PLDM_VERSION, 0, 2);
    ask_device(NEEDLEOAT_GET_PLDM_TYPES, 0, 0);
    ask_device(NEEDLEOAT_GET_PLDM_COMMANDS, 0, 0);
    ask_device(NEEDLEOAT_GET_PLDM_COMMANDS, 2, 0);
    ask_device(NEEDLEOAT_GET_PLDM_COMMANDS, 4, 0);
    ask_device(NEEDLEOAT_SET_TID, 0, 0);
}

int main(void) {
    packets();
    written_packets();
    messages();
    written_commands();
    written_answers();
    controls();
    bus_frames();
    steps();
    windows();
    printf("checksum %02x\n", needleoat_crc8((const uint8_t *)"123456789", 9));
    printf("checksum %02x\n", needleoat_crc8((const uint8_t *)"", 0));
    printf("checksum %08" PRIx32 "\n", needleoat_crc32((const uint8_t *)"123456789", 9));
    base_answers();
    return 0;
}
