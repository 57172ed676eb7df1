/*
 * Which requests are copies, and what is performed right after a restart: the endpoint 9 keeps the answers to the last
 * two instance IDs of a source, and in its busy time it refuses only what sets. Its device is one effecter. The bytes
 * in window.expected are those of the tables of DSP0236, DSP0240 and DSP0248, written by hand.
 */
#include "needleoat.h"
#include <inttypes.h>
#include <stdio.h>

enum { OWN = 9, TID = 7, WINDOW = 2, KEEP_MS = 1000, MEMORY_TRIES = 3 };

static struct needleoat_endpoint endpoint = NEEDLEOAT_ENDPOINT_NONE;
static struct needleoat_command command;
static uint8_t packets[NEEDLEOAT_PACKETS][NEEDLEOAT_PACKET_BYTES];
static int64_t effecter;

/* Requests of the endpoint 8: `id` is 0x80 and the instance ID. */
#define GET_TID(id) "010908c8" "01" id "0002"
#define SET(id, value) "010908c8" "01" id "0231" "010000" value

/* Makes the endpoint: 0, or why not. */
static uint8_t make(uint32_t window, uint32_t busy) {
    const struct needleoat_endpoint_settings settings = {.own = OWN,
                                                         .first_start = true,
                                                         .keep_ms = KEEP_MS,
                                                         .sources = 1,
                                                         .open_messages = 1,
                                                         .pending_commands = 2,
                                                         .window = window,
                                                         .busy = busy};
    uint8_t refusal;
    int tries = MEMORY_TRIES;
    do refusal = needleoat_endpoint_new(&settings, 0, &endpoint);
    while (refusal == NEEDLEOAT_NO_MEMORY && --tries > 0);
    return refusal;
}

/* Receives a packet of at most 12 bytes. Where memory was refused it is received again, at most three times. */
static struct needleoat_step receive(uint64_t now_ms, const char *hex) {
    uint8_t packet[12];
    size_t length = 0;
    while (length < sizeof packet && sscanf(hex + 2 * length, "%2hhx", &packet[length]) == 1) length++;
    struct needleoat_step step;
    int tries = MEMORY_TRIES;
    do step = needleoat_endpoint_receive(&endpoint, now_ms, packet, length, &command, packets);
    while (step.kind == NEEDLEOAT_STEP_REFUSED && step.reason == NEEDLEOAT_NO_MEMORY && --tries > 0);
    return step;
}

/* The device performs the command that came last. */
static struct needleoat_answer perform(void) {
    if (command.command == NEEDLEOAT_SET_NUMERIC_EFFECTER_VALUE) effecter = command.value;
    return (struct needleoat_answer){.pldm_type = command.pldm_type, .command = command.command, .tid = TID};
}

static void print_step(const struct needleoat_step *step) {
    if (step->kind == NEEDLEOAT_STEP_REFUSED) printf("lost, refusal %u", step->reason);
    for (uint32_t i = 0; i < step->count; i++)
        for (uint32_t j = 0; j < step->lengths[i]; j++) printf("%02x", packets[i][j]);
    printf("\n");
}

/* Receives a packet, has its command performed where it is handed out, and prints what comes of it. */
static void serve(const char *name, uint64_t now_ms, const char *hex) {
    struct needleoat_step step = receive(now_ms, hex);
    printf("%s: ", name);
    if (step.kind == NEEDLEOAT_STEP_PERFORM) {
        struct needleoat_answer answer = perform();
        printf("performed, ");
        step = needleoat_endpoint_answer(&endpoint, &step.handle, &answer, packets);
    }
    print_step(&step);
}

/* A request whose instance ID is no longer among the last two of its source is performed again. */
static void past_the_window(void) {
    serve("set to 40 with ID 2", 0, SET("82", "28"));
    serve("set to 50 with ID 17", 100, SET("91", "32"));
    serve("the first again", 200, SET("82", "28"));
    printf("effecter %" PRId64 "\n", effecter);
    serve("GetTID with ID 3", 300, GET_TID("83"));
    serve("the first again, past the window", 400, SET("82", "28"));
    printf("effecter %" PRId64 "\n", effecter);
}

/* A command that takes so long that its instance ID falls out is pending still, and its answer is not kept. */
static void late_answer(void) {
    struct needleoat_step late = receive(500, GET_TID("85"));
    struct needleoat_answer answer = perform();
    serve("GetTID with ID 6 while ID 5 is pending", 500, GET_TID("86"));
    serve("GetTID with ID 7", 500, GET_TID("87"));
    serve("GetTID with ID 5 meanwhile", 500, GET_TID("85"));
    late = needleoat_endpoint_answer(&endpoint, &late.handle, &answer, packets);
    printf("the answer to ID 5: ");
    print_step(&late);
    serve("GetTID with ID 5 again", 500, GET_TID("85"));
}

/* In the busy time a command that only asks is performed. */
static void after_a_restart(void) {
    printf("restarted %u\n", needleoat_endpoint_restart(&endpoint, 1000));
    serve("set to 60 with ID 8", 1000, SET("88", "3c"));
    serve("GetTID with ID 9", 1000, GET_TID("89"));
    serve("the same again", 1999, GET_TID("89"));
    serve("set to 60 with ID 8", 1999, SET("88", "3c"));
    printf("effecter %" PRId64 "\n", effecter);
    serve("set to 60 with ID 8, a keeping time later", 2000, SET("88", "3c"));
    printf("effecter %" PRId64 "\n", effecter);
}

int main(void) {
    printf("a window of 33: refusal %u\n", make(33, NEEDLEOAT_BUSY_SETS));
    printf("a third kind of busy time: refusal %u\n", make(WINDOW, 2));
    uint8_t refusal = make(WINDOW, NEEDLEOAT_BUSY_SETS);
    past_the_window();
    late_answer();
    after_a_restart();
    needleoat_endpoint_free(&endpoint);
    return refusal;
}
