/*
 * How soon an instance ID is used again. The requester at endpoint 8 asks the device at endpoint 9, which keeps answers
 * for 1,000 ms and 4 instance IDs, over a line that loses or delivers within 50 ms. Request 32 has the instance ID of
 * request 0, which is opened at 0. The others are opened at `others_ms` and later; the first of them are answered, and
 * all the rest are given up. The moments in pace.expected are those of docs/PROTOCOL.md, section 9, written by hand.
 */
#include "needleoat.h"
#include <inttypes.h>
#include <stdio.h>

enum { OWN = 8, DEVICE = 9, KEEP_MS = 1000, LIFETIME_MS = 50, WINDOW = 4, TIMEOUT_MS = 5, MEMORY_TRIES = 3 };

static struct needleoat_requester requester = NEEDLEOAT_REQUESTER_NONE;

static uint8_t make(uint32_t lifetime_ms, uint32_t window) {
    const struct needleoat_requester_settings settings = {.own = OWN,
                                                          .device = DEVICE,
                                                          .tries = 1,
                                                          .keep_ms = KEEP_MS,
                                                          .timeout_ms = TIMEOUT_MS,
                                                          .lifetime_ms = lifetime_ms,
                                                          .window = window};
    uint8_t refusal;
    int tries = MEMORY_TRIES;
    do refusal = needleoat_requester_new(&settings, &requester);
    while (refusal == NEEDLEOAT_NO_MEMORY && --tries > 0);
    return refusal;
}

static struct needleoat_opening open(uint64_t now_ms) {
    const struct needleoat_command command = {.pldm_type = NEEDLEOAT_BASE, .command = NEEDLEOAT_GET_TID};
    uint8_t request[NEEDLEOAT_REQUEST_BYTES];
    uint32_t length = needleoat_command_write(&command, request);
    struct needleoat_opening opening;
    int tries = MEMORY_TRIES;
    do opening = needleoat_requester_open(&requester, now_ms, request, length);
    while (opening.refusal == NEEDLEOAT_NO_MEMORY && --tries > 0);
    return opening;
}

/* The device's answer comes at once. */
static void answer(uint64_t now_ms, const struct needleoat_opening *opening) {
    const struct needleoat_answer tid = {
        .instance_id = opening->instance_id, .pldm_type = NEEDLEOAT_BASE, .command = NEEDLEOAT_GET_TID, .tid = 7};
    uint8_t response[NEEDLEOAT_MESSAGE_BYTES], packet[NEEDLEOAT_PACKET_BYTES];
    uint32_t count = needleoat_answer_write(&tid, response);
    uint32_t length = needleoat_packet_write(OWN, DEVICE, false, opening->tag, response, count, 0, packet);
    needleoat_requester_receive(&requester, now_ms, packet, length);
}

static void ask(uint64_t now_ms) {
    struct needleoat_opening opening = open(now_ms);
    if (opening.refusal != 0) printf("  %" PRIu64 " not opened: %u\n", now_ms, opening.refusal);
    else printf("  %" PRIu64 " opened %" PRIu64 ", instance ID %u\n", now_ms, opening.number, opening.instance_id);
}

/* Opens the first 32 requests, and asks at moments at which request 32 may be opened, or not. */
static void run(const char *name, uint32_t lifetime_ms, uint64_t others_ms, unsigned answered) {
    static const uint64_t asked[] = {99, 100, 1999, 2000};
    struct needleoat_due due;
    printf("%s: made %u\n", name, make(lifetime_ms, WINDOW));
    for (unsigned number = 0; number < 32; number++) {
        uint64_t now_ms = number == 0 ? 0 : others_ms + number;
        needleoat_requester_tick(&requester, now_ms, &due);
        struct needleoat_opening opening = open(now_ms);
        if (number >= 1 && number <= answered) answer(now_ms, &opening);
    }
    for (size_t i = 0; i < sizeof asked / sizeof *asked; i++) {
        needleoat_requester_tick(&requester, asked[i], &due);
        ask(asked[i]);
    }
    needleoat_requester_free(&requester);
}

int main(void) {
    printf("lifetime above the keeping time: %u\n", make(KEEP_MS + 1, WINDOW));
    printf("lifetime below the tries: %u\n", make(TIMEOUT_MS - 1, WINDOW));
    printf("window of 33: %u\n", make(LIFETIME_MS, 33));
    run("four answered", LIFETIME_MS, 50, 4);
    run("three answered", LIFETIME_MS, 50, 3);
    run("all answered, and opened too early", LIFETIME_MS, 10, 31);
    run("by the keeping time", 0, 50, 31);
    return 0;
}
