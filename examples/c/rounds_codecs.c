/*
 * Calls each codec with pseudo-random values, and prints how often it took them, and a hash of all that it wrote and
 * read. tests/check_c compares what it prints on two processors.
 */
#include "rounds.h"

enum { OWN = 9, OTHER = 8, MOST = NEEDLEOAT_I2C_FRAME_BYTES };

static const uint8_t commands[] = {1, 2, 3, 4, 5, 0x11, 0x21, 0x31, 0x32, 0x39, 0x3a, 0x50, 0x51, 0x77};
static uint8_t request[NEEDLEOAT_REQUEST_BYTES], response[NEEDLEOAT_MESSAGE_BYTES], packet[NEEDLEOAT_PACKET_BYTES];
static uint32_t request_length, response_length, packet_length;
static struct needleoat_command command;
static struct needleoat_answer answer;
static unsigned written, read, answered, packets, frames;

/* A number of any size, of either sign. */
static int64_t some_value(void) {
    int64_t magnitude = 2 * (int64_t)next_number();
    magnitude >>= below(33);
    return one_in(2) ? magnitude : -magnitude;
}

static void make_fields(void) {
    fill(&command, sizeof command);
    fill(&answer, sizeof answer);
    uint32_t which = below(sizeof commands);
    command.command = answer.command = commands[which];
    uint8_t type = which < 5 ? NEEDLEOAT_BASE : NEEDLEOAT_PLATFORM;
    command.pldm_type = answer.pldm_type = one_in(20) ? (uint8_t)below(70) : type;
    command.instance_id = answer.instance_id = (uint8_t)below(33);
    answer.code = one_in(4) ? (uint8_t)below(256) : 0;
    command.size = (uint8_t)below(7);
    command.count = (uint8_t)below(10);
    command.value = some_value();
    answer.size = (uint8_t)below(7);
    answer.count = (uint8_t)below(10);
    answer.value = some_value();
    answer.pending_value = some_value();
    answer.length = one_in(2) ? below(310) : 4 * below(10);
    answer.transfer_flag = (uint8_t)below(7);
}

static void write_messages(void) {
    make_fields();
    memset(request, 0, sizeof request);
    memset(response, 0, sizeof response);
    request_length = needleoat_command_write(&command, request);
    response_length = needleoat_answer_write(&answer, response);
    mix_number(request_length);
    mix_number(response_length);
    mix(request, sizeof request);
    mix(response, sizeof response);
    written += (request_length > 0) + (response_length > 0);
    if (one_in(4)) change(request, request_length);
    if (one_in(4)) change(response, response_length);
}

static void mix_message(struct needleoat_message message) {
    mix_number(message.reason);
    if (message.reason != 0) return;
    mix_number(message.instance_id);
    mix_number(message.pldm_type);
    mix_number(message.command);
    mix_number(message.code);
    mix_number(message.data_length);
}

/* Reads both messages, and writes back what was read. */
static void read_messages(void) {
    uint8_t again[NEEDLEOAT_MESSAGE_BYTES] = {0};
    struct needleoat_command_reading reading =
        needleoat_command_read(request, one_in(8) ? request_length / 2 : request_length, &command);
    mix_number(reading.reason);
    mix_number(reading.code);
    if (reading.reason == 0 && reading.code == 0) mix_number(needleoat_command_write(&command, again)), read++;
    mix(again, sizeof again);
    uint8_t fault = needleoat_answer_read(request, request_length, response, response_length, &answer);
    mix_number(fault);
    mix_number(needleoat_answer_check(request, request_length, response, response_length));
    if (fault == 0) mix_number(needleoat_answer_write(&answer, again)), answered++;
    mix(again, sizeof again);
    mix_message(needleoat_request_read(request, request_length));
    mix_message(needleoat_response_read(response, response_length));
}

static void write_packet(void) {
    memset(packet, 0, sizeof packet);
    uint8_t destination = one_in(3) ? 3 : OWN;
    bool owner = one_in(2);
    uint8_t tag = (uint8_t)below(9);
    uint32_t index = one_in(4) ? below(6) : 0;
    packet_length = needleoat_packet_write(destination, OTHER, owner, tag, response, response_length, index, packet);
    mix_number(packet_length);
    mix(packet, sizeof packet);
    mix_number(needleoat_packet_count(response_length));
    mix_number(needleoat_packet_count(below(400)));
    if (one_in(3)) change(packet, packet_length);
}

static void read_packet(void) {
    struct needleoat_packet found = needleoat_packet_read(OWN, packet, one_in(8) ? packet_length / 2 : packet_length);
    mix_number(found.reason);
    if (found.reason != 0) return;
    packets++;
    mix_number(found.destination);
    mix_number(found.source);
    mix_number(found.tag);
    mix_number(found.seq);
    mix_number(found.owner);
    mix_number(found.start);
    mix_number(found.end);
    mix_number(found.payload_length);
}

/* A frame of any bytes, which may be as long as a frame can be, on both buses. */
static void frame(void) {
    uint8_t bytes[MOST], out[MOST] = {0};
    uint8_t own = (uint8_t)(one_in(9) ? below(256) : 8 + below(112)), other = (uint8_t)(8 + below(112));
    uint32_t length = one_in(9) ? below(MOST) : 4 + below(251);
    bool is_read = one_in(2);
    fill(bytes, sizeof bytes);
    uint32_t count = needleoat_i2c_write(other, own, bytes, length, out);
    mix_number(count);
    if (one_in(4)) change(out, count);
    struct needleoat_i2c_frame found = needleoat_i2c_read(own, out, count);
    mix_number(found.fault);
    if (found.fault == 0) {
        frames++;
        mix_number(found.source_address);
        mix_number(found.packet_start);
        mix_number(found.packet_length);
    }
    mix(out, sizeof out);
    count = needleoat_i3c_write(own, is_read, bytes, length, out);
    mix_number(count);
    if (one_in(4)) change(out, count);
    struct needleoat_i3c_frame taken = needleoat_i3c_read(own, is_read, out, count);
    mix_number(taken.fault);
    frames += taken.fault == 0;
    if (taken.fault == 0) mix_number(taken.packet_length);
    mix(out, sizeof out);
    mix_number(needleoat_crc8(bytes, length));
}

int main(void) {
    seed();
    for (int i = 0; i < ROUNDS; i++) {
        write_messages();
        read_messages();
        write_packet();
        read_packet();
        frame();
    }
    printf("rounds %d, written %u, read %u, answered %u, packets %u, frames %u\n", ROUNDS, written, read,
           answered, packets, frames);
    print_hash();
    return 0;
}
