/*
 * More senders than there is room for, as one that forges sources would be: the endpoint 9 has room for the answers to
 * two sources, and for one open message of several packets. A source too many is refused, and its packet counts as lost.
 * The sources that have room go on being served. For an open message too many the oldest one ends, as if a packet of it
 * were lost. The bytes in bounds.expected are those of the tables of DSP0236 and DSP0240, written by hand.
 */
#include "needleoat.h"
#include <stdio.h>

enum { OWN = 9, TID = 7, MEMORY_TRIES = 3 };

static const struct needleoat_endpoint_settings settings = {
    .own = OWN, .first_start = true, .keep_ms = 1000, .sources = 2, .open_messages = 1, .pending_commands = 1};
static struct needleoat_endpoint endpoint = NEEDLEOAT_ENDPOINT_NONE;

/* The device: it answers GetTID alone. */
static struct needleoat_answer perform(const struct needleoat_command *command) {
    return (struct needleoat_answer){.pldm_type = command->pldm_type, .command = command->command, .tid = TID};
}

/*
 * Receives a packet of at most 12 bytes, and prints what comes of it. Where memory was refused it is received again, at
 * most three times. At a bound it is not: that would not help before a restart.
 */
static void receive(const char *name, const char *hex) {
    uint8_t packet[12], packets[NEEDLEOAT_PACKETS][NEEDLEOAT_PACKET_BYTES];
    size_t length = 0;
    while (length < sizeof packet && sscanf(hex + 2 * length, "%2hhx", &packet[length]) == 1) length++;
    struct needleoat_command command;
    struct needleoat_step step;
    int tries = MEMORY_TRIES;
    do step = needleoat_endpoint_receive(&endpoint, 0, packet, length, &command, packets);
    while (step.kind == NEEDLEOAT_STEP_REFUSED && step.reason == NEEDLEOAT_NO_MEMORY && --tries > 0);
    if (step.kind == NEEDLEOAT_STEP_PERFORM) {
        struct needleoat_answer answer = perform(&command);
        step = needleoat_endpoint_answer(&endpoint, &step.handle, &answer, packets);
    }
    printf("%s: ", name);
    if (step.kind == NEEDLEOAT_STEP_REFUSED) printf("lost, refusal %u", step.reason);
    else if (step.kind == NEEDLEOAT_STEP_DROPPED) printf("dropped, reason %u", step.reason);
    else if (step.kind == NEEDLEOAT_STEP_PARTIAL) printf("open");
    for (uint32_t i = 0; i < step.count; i++)
        for (uint32_t j = 0; j < step.lengths[i]; j++) printf("%02x", packets[i][j]);
    printf("\n");
}

int main(void) {
    uint8_t refusal;
    int tries = MEMORY_TRIES;
    do refusal = needleoat_endpoint_new(&settings, 0, &endpoint);
    while (refusal == NEEDLEOAT_NO_MEMORY && --tries > 0);
    receive("GetTID from 8", "010908c8" "01800002");
    receive("GetTID from 10", "01090ac8" "01800002");
    receive("GetTID from 11", "01090bc8" "01800002");
    receive("the same again", "01090bc8" "01800002");
    receive("a copy from 8", "010908c8" "01800002");
    receive("another from 10", "01090ac9" "01810002");
    receive("first packet from 8", "0109088a" "0182");
    receive("GetTID from 10 meanwhile", "01090acc" "01840002");
    receive("last packet from 8", "0109085a" "0002");
    receive("first packet from 11, that never ends", "01090b8b" "0183");
    receive("first packet from 10", "01090a8b" "0183");
    receive("last packet from 11", "01090b5b" "0002");
    receive("last packet from 10", "01090a5b" "0002");
    receive("GetTID from 11 at the end", "01090bc8" "01800002");
    needleoat_endpoint_free(&endpoint);
    return refusal;
}
