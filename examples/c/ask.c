/*
 * The requesting end: a request whose answer is lost, its retry, a second request, one that is given up, and requests
 * of another PLDM type by their bytes. The device is a fan that keeps one answer. A call that had no memory is made
 * again, at most three times: it changed nothing.
 */
#include "needleoat.h"
#include <inttypes.h>
#include <stdio.h>
#include <string.h>

static void print_bytes(const char *name, const uint8_t *bytes, size_t length) {
    printf("%s ", name);
    for (size_t i = 0; i < length; i++) printf("%02x", bytes[i]);
    printf("\n");
}

/* ---- The device at endpoint 9 ---- */

static int64_t speed = 10;
static uint8_t kept_request[NEEDLEOAT_PACKET_BYTES], kept_answer[NEEDLEOAT_PACKET_BYTES];
static size_t kept_request_length, kept_answer_length;

/* Answers a packet with a packet in `kept_answer`; the same packet once more has the same answer. */
static const char *device(const uint8_t *bytes, size_t length) {
    if (length == kept_request_length && memcmp(bytes, kept_request, length) == 0) return "copy";
    struct needleoat_packet packet = needleoat_packet_read(9, bytes, length);
    struct needleoat_command command;
    struct needleoat_command_reading reading = needleoat_command_read(bytes + 4, packet.payload_length, &command);
    if (packet.reason != 0 || reading.reason != 0 || reading.code != 0) return "dropped";
    struct needleoat_answer answer = {.instance_id = command.instance_id,
                                      .pldm_type = command.pldm_type,
                                      .command = command.command,
                                      .size = NEEDLEOAT_UINT8,
                                      .operational = 1};
    if (command.command == NEEDLEOAT_SET_NUMERIC_EFFECTER_VALUE) speed = command.value;
    answer.value = answer.pending_value = speed;
    uint8_t response[NEEDLEOAT_MESSAGE_BYTES];
    uint32_t count = needleoat_answer_write(&answer, response);
    kept_answer_length = needleoat_packet_write(packet.source, 9, false, packet.tag, response, count, 0, kept_answer);
    memcpy(kept_request, bytes, length);
    kept_request_length = length;
    return "fresh";
}

/* ---- The requester at endpoint 8 ---- */

static struct needleoat_requester requester = NEEDLEOAT_REQUESTER_NONE;
static uint8_t packet[NEEDLEOAT_PACKET_BYTES], response[NEEDLEOAT_MESSAGE_BYTES];

enum { MEMORY_TRIES = 3 };

static uint8_t make(struct needleoat_requester *handle, uint8_t own) {
    struct needleoat_requester_settings settings = {
        .own = own, .device = 9, .tries = 3, .keep_ms = 1000, .timeout_ms = 200};
    uint8_t refusal;
    int tries = MEMORY_TRIES;
    do refusal = needleoat_requester_new(&settings, handle);
    while (refusal == NEEDLEOAT_NO_MEMORY && --tries > 0);
    return refusal;
}

static void print_opening(uint64_t now, struct needleoat_opening opening) {
    if (opening.refusal != 0) printf("%" PRIu64 " not opened: %u\n", now, opening.refusal);
    else
        printf("%" PRIu64 " opened %" PRIu64 ", instance ID %u, tag %u\n", now, opening.number, opening.instance_id,
               opening.tag);
}

static void open(uint64_t now, const struct needleoat_command *command) {
    uint8_t request[NEEDLEOAT_REQUEST_BYTES];
    uint32_t length = needleoat_command_write(command, request);
    struct needleoat_opening opening;
    int tries = MEMORY_TRIES;
    do opening = needleoat_requester_open(&requester, now, request, length);
    while (opening.refusal == NEEDLEOAT_NO_MEMORY && --tries > 0);
    print_opening(now, opening);
}

/* A request of any PLDM type, by its data. */
static void open_request(uint64_t now, uint8_t pldm_type, uint8_t command, const uint8_t *data, size_t length) {
    struct needleoat_opening opening;
    int tries = MEMORY_TRIES;
    do opening = needleoat_requester_open_request(&requester, now, pldm_type, command, data, length);
    while (opening.refusal == NEEDLEOAT_NO_MEMORY && --tries > 0);
    print_opening(now, opening);
}

static uint32_t send(uint64_t number) {
    uint32_t length = needleoat_requester_packet(&requester, number, packet);
    print_bytes("packet", packet, length);
    return length;
}

static void tick(uint64_t now) {
    struct needleoat_due due;
    uint8_t refusal = needleoat_requester_tick(&requester, now, &due);
    if (refusal != 0) {
        printf("%" PRIu64 " no tick: %u\n", now, refusal);
        return;
    }
    for (uint32_t i = 0; i < due.again_count; i++) printf("%" PRIu64 " again %" PRIu64 "\n", now, due.again[i]);
    for (uint32_t i = 0; i < due.given_up_count; i++) printf("%" PRIu64 " gave up %" PRIu64 "\n", now, due.given_up[i]);
}

/* How long the caller may sleep. */
static void print_deadline(void) {
    uint64_t deadline;
    if (needleoat_requester_next_deadline(&requester, &deadline))
        printf("nothing is due before %" PRIu64 "\n", deadline);
    else printf("nothing is due\n");
}

static void receive(uint64_t now) {
    struct needleoat_receiving r;
    int tries = MEMORY_TRIES;
    do r = needleoat_requester_receive(&requester, now, kept_answer, kept_answer_length);
    while (r.kind == NEEDLEOAT_RECEIVING_REFUSED && r.reason == NEEDLEOAT_NO_MEMORY && --tries > 0);
    if (r.kind == NEEDLEOAT_RECEIVING_ANSWERED) printf("%" PRIu64 " answered %" PRIu64 "\n", now, r.number);
    else printf("%" PRIu64 " kind %u reason %u\n", now, r.kind, r.reason);
}

static void status(uint64_t number) {
    struct needleoat_status s = needleoat_requester_status(&requester, number, response);
    printf("request %" PRIu64 ": kind %u\n", number, s.kind);
    if (s.kind == NEEDLEOAT_STATUS_ANSWERED) print_bytes("response", response, s.length);
}

/*
 * FRU data (PLDM type 4, DSP0257): GetFRURecordTable (0x02) with a transfer handle and an operation, its answer, in one
 * part, and a request that takes all of a message. The bytes are those of the tables of the standards.
 */
static void ask_by_bytes(void) {
    static const uint8_t first_part[] = {0, 0, 0, 0, 1};
    static const uint8_t answer[] = {1, 8, 9, 0xc3, 1, 3, 4, 2, 0, 0, 0, 0, 0, 5, 'a', 'b'};
    uint8_t data[NEEDLEOAT_REQUEST_DATA + 1];
    for (size_t i = 0; i < sizeof data; i++) data[i] = (uint8_t)i;
    open_request(1000, 64, 2, first_part, sizeof first_part);
    open_request(1000, 4, 2, data, sizeof data);
    open_request(1000, 4, 2, first_part, sizeof first_part);
    send(3);
    memcpy(kept_answer, answer, sizeof answer);
    kept_answer_length = sizeof answer;
    receive(1010);
    status(3);
    open_request(1020, 4, 1, data, NEEDLEOAT_REQUEST_DATA);
    for (uint32_t i = 0; i <= NEEDLEOAT_PACKETS; i++) {
        uint32_t length = needleoat_requester_packet_at(&requester, 4, i, packet);
        printf("packet %u: %u bytes\n", (unsigned)i, (unsigned)length);
        if (length != 0) print_bytes("it begins", packet, 8);
    }
}

int main(void) {
    struct needleoat_command set = {.pldm_type = NEEDLEOAT_PLATFORM,
                                    .command = NEEDLEOAT_SET_NUMERIC_EFFECTER_VALUE,
                                    .effecter = 1,
                                    .size = NEEDLEOAT_UINT8,
                                    .value = 40};
    struct needleoat_command get = {
        .pldm_type = NEEDLEOAT_PLATFORM, .command = NEEDLEOAT_GET_NUMERIC_EFFECTER_VALUE, .effecter = 1};
    struct needleoat_command get_tid = {.pldm_type = NEEDLEOAT_BASE, .command = NEEDLEOAT_GET_TID};
    struct needleoat_requester none = NEEDLEOAT_REQUESTER_NONE;
    printf("made %u\n", make(&requester, 8));
    printf("made %u\n", make(&requester, 8));
    printf("made %u\n", make(&none, 9));

    open(0, &set);
    printf("0 %s\n", device(packet, send(0))); /* this answer is lost */
    status(0);
    print_deadline();
    tick(199);
    tick(200);
    printf("200 %s\n", device(packet, send(0)));
    receive(210);
    print_deadline();
    receive(211);
    status(0);

    open(300, &get);
    printf("300 %s\n", device(packet, send(1)));
    receive(310);
    status(1);

    open(399, &(struct needleoat_command){.pldm_type = 1});
    open(400, &get_tid);
    print_deadline();
    tick(399);
    tick(1000);
    status(2);
    status(3);
    ask_by_bytes();
    needleoat_requester_free(&requester);
    status(2);
    tick(1001);
    return 0;
}
