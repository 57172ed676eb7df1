/*
 * A device with FRU data (PLDM type 4, DSP0257) beside a sensor: requests of type 4 are handed on as bytes, and
 * answered by bytes. It is asked over a line that loses each fourth frame, in both directions; the asker sends the very
 * same packet again until the whole answer has come. The bytes in fru.expected are those of the tables of the
 * standards, written by hand, with a CRC-32 of another program's.
 *
 *   GetFRURecordTableMetadata (0x01), no data. After the code: the version of the FRU data (major, minor), the greatest
 *   and the present size of the table (4 bytes each), how many record sets and records it has (2 each), its CRC-32 (4).
 *   GetFRURecordTable (0x02), a transfer handle (4) and an operation (0 next part, 1 first). After the code: the next
 *   transfer handle (4), a transfer flag (5: all in one part), the part.
 *
 * A record has its set's identifier (2), its type (1 general), how many fields, their encoding (1 ASCII), and for each
 * field its type (3 part number, 4 serial number, 5 manufacturer), its length and its bytes. The table is padded to
 * four bytes.
 */
#include "needleoat.h"
#include <stdio.h>
#include <string.h>

enum { OWN = 9, ASKER = 8, KEEP_MS = 1000, AGAIN_MS = 100, MEMORY_TRIES = 3 };
enum { FRU = 4, GET_TABLE_METADATA = 1, GET_TABLE = 2 };
enum { SUCCESS = 0, INVALID_DATA = 2, INVALID_LENGTH = 3, UNSUPPORTED_COMMAND = 5 };

static const uint8_t table[] = "\x01\x00\x01\x03\x01"
                               "\x03\x10" "NLO-FAN-60-12-V1"
                               "\x04\x18" "SN-2026-0000000000000017"
                               "\x05\x1f" "Needleoat Example Works, Hall 3"
                               "\x00"; /* and a 0 that ends the text: 84 bytes */

static struct needleoat_endpoint endpoint = NEEDLEOAT_ENDPOINT_NONE;
static struct needleoat_command command;
static struct needleoat_request request;
static uint8_t packets[NEEDLEOAT_PACKETS][NEEDLEOAT_PACKET_BYTES];
static unsigned asked; /* how often the device was asked something */
static unsigned frames; /* how many frames went over the line */
static uint64_t now_ms;

/* ---- the device ---- */

static uint32_t crc32(const uint8_t *bytes, size_t length) {
    uint32_t crc = UINT32_MAX;
    for (size_t i = 0; i < length; i++) {
        crc ^= bytes[i];
        for (int bit = 0; bit < 8; bit++) crc = crc >> 1 ^ (crc & 1 ? 0xedb88320 : 0);
    }
    return ~crc;
}

/* Puts a number of so many bytes, the least byte first, and returns the place after it. */
static uint8_t *put(uint8_t *at, uint32_t number, int bytes) {
    while (bytes-- > 0) *at++ = (uint8_t)number, number >>= 8;
    return at;
}

/* Responds to a request of type 4: the completion code, and the data with its length in `data`. */
static uint8_t respond(uint8_t data[NEEDLEOAT_RESPONSE_DATA], size_t *length) {
    uint8_t *at = data;
    *length = 0;
    if (request.command == GET_TABLE_METADATA) {
        if (request.length != 0) return INVALID_LENGTH;
        at = put(put(at, 1, 1), 0, 1);
        at = put(put(at, sizeof table, 4), sizeof table, 4);
        at = put(put(at, 1, 2), 1, 2);
        at = put(at, crc32(table, sizeof table), 4);
    } else if (request.command == GET_TABLE) {
        if (request.length != 5) return INVALID_LENGTH;
        if (request.data[4] != 1) return INVALID_DATA; /* there is no next part */
        at = put(put(at, 0, 4), 5, 1);
        memcpy(at, table, sizeof table);
        at += sizeof table;
    } else {
        return UNSUPPORTED_COMMAND;
    }
    *length = (size_t)(at - data);
    return SUCCESS;
}

/* The sensor reads 40. */
static struct needleoat_answer perform(void) {
    struct needleoat_answer answer = {.pldm_type = command.pldm_type, .command = command.command};
    if (command.command != NEEDLEOAT_GET_SENSOR_READING) answer.code = UNSUPPORTED_COMMAND;
    answer.present = answer.previous = answer.event = 1;
    answer.value = 40;
    return answer;
}

/* Makes the endpoint, and returns the refusal, 0 for none; where memory was refused, again, at most three times. */
static uint8_t begin(void) {
    const struct needleoat_endpoint_settings settings = {.own = OWN,
                                                         .first_start = true,
                                                         .keep_ms = KEEP_MS,
                                                         .sources = 1,
                                                         .open_messages = 1,
                                                         .pending_commands = 2,
                                                         .busy = NEEDLEOAT_BUSY_SETS,
                                                         .pldm_types = UINT64_C(1) << FRU};
    uint8_t refusal;
    int tries = MEMORY_TRIES;
    do refusal = needleoat_endpoint_new(&settings, now_ms, &endpoint);
    while (refusal == NEEDLEOAT_NO_MEMORY && --tries > 0);
    return refusal;
}

/* Receives a packet; where memory was refused, again, at most three times. What is asked is given at once. */
static struct needleoat_step serve(const uint8_t *packet, size_t length) {
    struct needleoat_step step;
    int tries = MEMORY_TRIES;
    do step = needleoat_endpoint_receive(&endpoint, now_ms, packet, length, &command, packets);
    while (step.kind == NEEDLEOAT_STEP_REFUSED && step.reason == NEEDLEOAT_NO_MEMORY && --tries > 0);
    if (step.kind == NEEDLEOAT_STEP_PERFORM) {
        struct needleoat_answer answer = perform();
        asked++;
        return needleoat_endpoint_answer(&endpoint, &step.handle, &answer, packets);
    }
    if (step.kind == NEEDLEOAT_STEP_RESPOND && needleoat_endpoint_request(&endpoint, &step.handle, &request)) {
        uint8_t data[NEEDLEOAT_RESPONSE_DATA];
        size_t count;
        uint8_t code = respond(data, &count);
        asked++;
        return needleoat_endpoint_answer_bytes(&endpoint, &step.handle, code, data, count, packets);
    }
    return step;
}

/* ---- the asker ---- */

/* The line loses each fourth frame, from the third one on. */
static bool is_lost(void) { return ++frames % 4 == 3; }

/* Sends a request until its whole answer has come, and prints that and how often it was sent. */
static void ask(const char *name, const char *hex) {
    uint8_t message[NEEDLEOAT_MESSAGE_BYTES], packet[NEEDLEOAT_PACKET_BYTES];
    size_t length = 0;
    while (sscanf(hex + 2 * length, "%2hhx", &message[length]) == 1) length++;
    uint32_t sent = needleoat_packet_write(OWN, ASKER, true, 0, message, length, 0, packet);
    unsigned tries = 0, before = asked;
    bool is_whole = false;
    struct needleoat_step step = {0};
    while (!is_whole) {
        tries++;
        now_ms += AGAIN_MS;
        if (is_lost()) continue;
        step = serve(packet, sent);
        is_whole = step.kind == NEEDLEOAT_STEP_ANSWERED;
        for (uint32_t i = 0; i < step.count; i++) is_whole &= !is_lost();
    }
    printf("%s, sent %u times, asked %u times:\n", name, tries, asked - before);
    for (uint32_t i = 0; i < step.count; i++) {
        for (uint32_t j = 0; j < step.lengths[i]; j++) printf("%02x", packets[i][j]);
        printf("\n");
    }
}

/* What the two ways to answer refuse. */
static void refusals(void) {
    static const uint8_t metadata[] = {1, OWN, ASKER, 0xc8, 1, 0x90, FRU, GET_TABLE_METADATA};
    static const uint8_t reading[] = {1, OWN, ASKER, 0xc9, 1, 0x91, 2, 0x11, 1, 0, 0};
    static const uint8_t much[NEEDLEOAT_RESPONSE_DATA + 1] = {0};
    static const struct needleoat_answer answer = {.pldm_type = FRU, .command = GET_TABLE_METADATA};
    struct needleoat_step step, other, given;
    int tries = MEMORY_TRIES;
    do step = needleoat_endpoint_receive(&endpoint, now_ms, metadata, sizeof metadata, &command, packets);
    while (step.kind == NEEDLEOAT_STEP_REFUSED && --tries > 0);
    tries = MEMORY_TRIES;
    do other = needleoat_endpoint_receive(&endpoint, now_ms, reading, sizeof reading, &command, packets);
    while (other.kind == NEEDLEOAT_STEP_REFUSED && --tries > 0);
    given = needleoat_endpoint_answer_bytes(&endpoint, &step.handle, 0, much, sizeof much, packets);
    printf("316 bytes: %u\n", given.reason);
    printf("fields for bytes: %u\n", needleoat_endpoint_answer(&endpoint, &step.handle, &answer, packets).reason);
    given = needleoat_endpoint_answer_bytes(&endpoint, &other.handle, 0, much, 1, packets);
    printf("bytes for a command: %u\n", given.reason);
    step = needleoat_endpoint_answer_bytes(&endpoint, &step.handle, 0, much, sizeof much - 1, packets);
    printf("315 bytes: %u packets, the last of %u bytes\n", (unsigned)step.count, (unsigned)step.lengths[4]);
    printf("again: %u\n", needleoat_endpoint_answer_bytes(&endpoint, &other.handle, 0, much, 0, packets).reason);
}

int main(void) {
    uint8_t refusal = begin();
    ask("GetFRURecordTableMetadata", "01800401");
    ask("GetSensorReading", "01810211010000");
    ask("GetFRURecordTable", "018204020000000001");
    ask("a further part", "018304020000000000");
    ask("another command of type 4", "01840403");
    ask("type 5", "01850501");
    refusals();
    printf("restarted %u\n", needleoat_endpoint_restart(&endpoint, now_ms));
    ask("GetFRURecordTableMetadata in the busy time", "01860401");
    ask("GetSensorReading in the busy time", "01870211010000");
    needleoat_endpoint_free(&endpoint);
    return refusal;
}
