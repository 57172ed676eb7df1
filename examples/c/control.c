/*
 * A bus owner finds the endpoint 9 by control messages (DSP0236, "MCTP control protocol"), and assigns endpoint IDs to
 * another that has none: 10, then 11. Late copies change nothing. The bytes in control.expected are those of the tables
 * of DSP0236 and DSP0240, written by hand.
 */
#include "needleoat.h"
#include <stdio.h>
#include <string.h>

enum { OWN = 9, MEMORY_TRIES = 3 };

/* The versions 1.3.1 of the base specification and of the control protocol, and 1.0.0 of PLDM over MCTP. */
static const struct needleoat_endpoint_settings settings = {
    .own = OWN,
    .first_start = true,
    .keep_ms = 1000,
    .sources = 1,
    .open_messages = 1,
    .pending_commands = 1,
    .answers_control = true,
    .uuid = {0x4e, 0x65, 0x65, 0x64, 0x6c, 0x65, 0x8f, 0x61, 0x80, 0x74, 0, 0, 0, 0, 0, OWN},
    .base_version = {0xf1, 0xf3, 0xf1, 0x00},
    .control_version = {0xf1, 0xf3, 0xf1, 0x00},
    .pldm_version = {0xf1, 0xf0, 0xf0, 0x00},
};
static struct needleoat_endpoint endpoint = NEEDLEOAT_ENDPOINT_NONE;

/* Makes the endpoint, with a growth that is refused tried again. Returns 0, or why it was not made. */
static uint8_t make(const struct needleoat_endpoint_settings *made_with) {
    uint8_t refusal;
    int tries = MEMORY_TRIES;
    do refusal = needleoat_endpoint_new(made_with, 0, &endpoint);
    while (refusal == NEEDLEOAT_NO_MEMORY && --tries > 0);
    return refusal;
}

/*
 * Receives a packet of at most 11 bytes, and prints what comes of it. Where memory was refused it is received again, at
 * most three times; a packet that is refused counts as lost.
 */
static void receive(const char *name, uint64_t now_ms, const char *hex) {
    uint8_t packet[11], packets[NEEDLEOAT_PACKETS][NEEDLEOAT_PACKET_BYTES];
    size_t length = 0;
    while (length < sizeof packet && sscanf(hex + 2 * length, "%2hhx", &packet[length]) == 1) length++;
    struct needleoat_command command;
    struct needleoat_step step;
    int tries = MEMORY_TRIES;
    do step = needleoat_endpoint_receive(&endpoint, now_ms, packet, length, &command, packets);
    while (step.kind == NEEDLEOAT_STEP_REFUSED && step.reason == NEEDLEOAT_NO_MEMORY && --tries > 0);
    printf("%s: ", name);
    if (step.kind == NEEDLEOAT_STEP_PERFORM) printf("command %02x of PLDM is to be performed", command.command);
    else if (step.kind == NEEDLEOAT_STEP_REFUSED) printf("lost, refusal %u", step.reason);
    else if (step.kind == NEEDLEOAT_STEP_DROPPED) printf("dropped, reason %u", step.reason);
    else if (step.kind == NEEDLEOAT_STEP_ANSWERED) printf("PLDM ");
    for (uint32_t i = 0; step.count == 1 && i < step.lengths[0]; i++) printf("%02x", packets[0][i]);
    printf("\n");
}

/* Prints the endpoint ID that the endpoint has, and frees it. */
static void end(const char *name) {
    printf("%s: endpoint ID %u\n", name, needleoat_endpoint_eid(&endpoint));
    needleoat_endpoint_free(&endpoint);
}

/* The endpoint 9 has a static endpoint ID, and takes no other. */
static void found(void) {
    receive("Get Endpoint ID, by the physical address", 0, "010008c8008002");
    receive("Set Endpoint ID to its own", 0, "010008c80081010009");
    receive("Set Endpoint ID to another", 0, "010008c8008201000a");
    receive("Get Endpoint UUID", 0, "010908c9008303");
    receive("versions of the base specification", 0, "010908ca008404ff");
    receive("versions of PLDM over MCTP", 0, "010908ca00860401");
    receive("versions of another type", 0, "010908ca00870405");
    receive("Get Message Type Support", 0, "010908cb008805");
    receive("an unknown command", 0, "010908cc0089ff");
    receive("a wrong length", 0, "010908cc008a0200");
    receive("to another endpoint", 0, "010a08c8008002");
    receive("Get Endpoint ID, from the null endpoint ID", 0, "010900c8008002");
    receive("from a reserved endpoint ID", 0, "010907c8008002");
    receive("from its own endpoint ID", 0, "010909c8008002");
    receive("from the broadcast endpoint ID", 0, "0100ffc8008002");
    receive("a response", 0, "010908c8000002");
    receive("GetTID of PLDM, by the physical address", 0, "010008c801800002");
    receive("GetTID of PLDM", 0, "010908c801800002");
    end("found");
}

/* Another has none at first, and gets 10, then 11. After the move it is busy for the keeping time. */
static void assigned(void) {
    receive("no endpoint ID yet, GetTID to 10", 0, "010a08c801800002");
    receive("no endpoint ID yet, Get Endpoint ID", 0, "010008c8008002");
    receive("Set Endpoint ID to 10", 0, "010008c8008101000a");
    receive("GetTID to 10", 0, "010a08c801800002");
    receive("Set Endpoint ID to 11", 400, "010a08c8008201000b");
    receive("a late copy of the first assignment", 500, "010008c8008101000a");
    receive("a late copy of GetTID to 10", 500, "010a08c801800002");
    receive("Get Endpoint ID at 11", 500, "010b08c9008302");
    receive("GetTID to 11, in the busy time", 1399, "010b08c801800002");
    receive("GetTID to 11, past the busy time", 1400, "010b08c801800002");
    receive("Reset where there is no static endpoint ID", 1400, "010b08c80084010200");
    end("assigned");
}

/* One that has a static endpoint ID goes back to it. */
static void reset(void) {
    receive("a static endpoint ID that it does not have yet", 0, "010008c8008002");
    receive("Force Endpoint ID 10", 0, "010008c8008101010a");
    receive("Reset to the static endpoint ID", 0, "010a08c80082010200");
    end("reset");
}

int main(void) {
    struct needleoat_endpoint_settings without = settings, with = settings, silent = settings, wrong = settings;
    without.own = 0;
    without.assigned = with.assigned = wrong.assigned = true;
    silent.answers_control = wrong.answers_control = false;
    uint8_t refusal = make(&settings);
    found();
    refusal |= make(&without);
    assigned();
    refusal |= make(&with);
    reset();
    refusal |= make(&silent);
    receive("control messages are not answered", 0, "010008c8008002");
    end("not answered");
    printf("assigned, and control messages are not answered: refusal %u\n", make(&wrong));
    return refusal;
}
