/*
 * Makes each call of both ends, with pseudo-random requests and answers, packets that are lost or changed, and
 * restarts; prints how often things came, and a hash of all that the calls gave. tests/check_c compares what it
 * prints on two processors.
 */
#include "rounds.h"

enum { OWN = 9, ASKER = 8, JOBS = 5, ROUNDS_OF_ONE_LIFE = 1000 };

static struct needleoat_endpoint endpoint = NEEDLEOAT_ENDPOINT_NONE;
static struct needleoat_requester requester = NEEDLEOAT_REQUESTER_NONE;
static uint8_t packets[NEEDLEOAT_PACKETS][NEEDLEOAT_PACKET_BYTES], packet[NEEDLEOAT_PACKET_BYTES];
static uint32_t packet_length;
static uint64_t now_ms;
static unsigned steps[5], received[4], opened, performed;
static struct {
    bool is_open;
    struct needleoat_command_handle handle;
    struct needleoat_command command;
} jobs[JOBS];

static void mix_step(const struct needleoat_step *step) {
    steps[step->kind]++;
    mix_number(step->kind);
    mix_number(step->reason);
    mix_number(step->fresh);
    mix_number(step->changed);
    mix_number(step->count);
    for (uint32_t i = 0; i < step->count; i++) {
        mix_number(step->lengths[i]);
        mix(packets[i], step->lengths[i]);
    }
    mix_number(step->handle.number);
    mix_number(step->handle.source);
    mix_number(step->handle.instance_id);
}

/* The packets of an answer go to the requester, but for some that are lost or changed. */
static void hand_on(const struct needleoat_step *step) {
    for (uint32_t i = 0; i < step->count; i++) {
        uint8_t message[NEEDLEOAT_MESSAGE_BYTES] = {0};
        if (one_in(8)) continue;
        if (one_in(8)) change(packets[i], step->lengths[i]);
        struct needleoat_receiving receiving =
            needleoat_requester_receive(&requester, now_ms, packets[i], step->lengths[i]);
        received[receiving.kind]++;
        mix_number(receiving.kind);
        mix_number(receiving.reason);
        mix_number(receiving.number);
        struct needleoat_status status = needleoat_requester_status(&requester, receiving.number, message);
        mix_number(status.kind);
        mix_number(status.length);
        mix(message, sizeof message);
    }
}

static void begin_life(bool is_first) {
    struct needleoat_endpoint_settings settings = {.own = OWN, .first_start = is_first, .keep_ms = 500};
    static const struct needleoat_requester_settings asking = {
        .own = ASKER, .device = OWN, .tries = 4, .keep_ms = 500, .timeout_ms = 60};
    needleoat_endpoint_free(&endpoint);
    needleoat_requester_free(&requester);
    memset(jobs, 0, sizeof jobs);
    settings.sources = 4;
    settings.open_messages = 2;
    settings.pending_commands = JOBS;
    settings.window = below(34);
    settings.busy = below(3);
    uint8_t refusal = needleoat_endpoint_new(&settings, now_ms, &endpoint);
    mix_number(refusal);
    settings.window = 4, settings.busy = NEEDLEOAT_BUSY_SETS;
    if (refusal != 0) mix_number(needleoat_endpoint_new(&settings, now_ms, &endpoint));
    mix_number(needleoat_requester_new(&asking, &requester));
}

/* Writes a request of some command, and returns its length. */
static uint32_t write_request(uint8_t request[NEEDLEOAT_MESSAGE_BYTES]) {
    static const uint8_t commands[] = {1, 2, 3, 4, 0x11, 0x21, 0x31, 0x32, 0x39, 0x3a, 0x50, 0x51};
    struct needleoat_command command = {.command = commands[below(sizeof commands)]};
    command.pldm_type = command.command < 5 ? NEEDLEOAT_BASE : NEEDLEOAT_PLATFORM;
    command.instance_id = (uint8_t)below(32);
    command.effecter = (uint16_t)below(3);
    command.sensor = (uint16_t)below(3);
    command.size = (uint8_t)below(6);
    command.value = below(100);
    command.count = (uint8_t)(1 + below(8));
    command.request_count = (uint16_t)below(400);
    return needleoat_command_write(&command, request);
}

static void open_request(const uint8_t *request, uint32_t length) {
    struct needleoat_opening opening = needleoat_requester_open(&requester, now_ms, request, length);
    mix_number(opening.refusal);
    if (opening.refusal != 0) return;
    opened++;
    mix_number(opening.instance_id);
    mix_number(opening.tag);
    mix_number(opening.number);
    packet_length = needleoat_requester_packet(&requester, opening.number, packet);
}

static void tick(void) {
    struct needleoat_due due;
    uint8_t refusal = needleoat_requester_tick(&requester, now_ms, &due);
    mix_number(refusal);
    if (refusal != 0) return;
    mix_number(due.again_count);
    mix_number(due.given_up_count);
    for (uint32_t i = 0; i < due.again_count; i++) mix_number(due.again[i]);
    for (uint32_t i = 0; i < due.given_up_count; i++) mix_number(due.given_up[i]);
    if (due.again_count > 0) packet_length = needleoat_requester_packet(&requester, due.again[0], packet);
}

/* A packet of another source, of a message that may have several. */
static void write_other(const uint8_t *request, uint32_t length) {
    static uint32_t index;
    uint8_t source = (uint8_t)(10 + below(4));
    if (one_in(3)) length = 65 + below(256);
    index = one_in(3) ? 0 : index + 1;
    if (index >= needleoat_packet_count(length)) index = 0;
    packet_length = needleoat_packet_write(OWN, source, true, source % 8, request, length, index, packet);
}

/* Hands in the answer to a command that is pending. */
static void answer_job(void) {
    uint32_t job = below(JOBS);
    if (!jobs[job].is_open) return;
    struct needleoat_answer answer = {.pldm_type = jobs[job].command.pldm_type, .command = jobs[job].command.command};
    answer.code = one_in(3) ? (uint8_t)(1 + below(5)) : 0;
    answer.size = (uint8_t)below(6);
    answer.value = answer.pending_value = below(100);
    answer.count = (uint8_t)(1 + below(8));
    answer.length = answer.command == NEEDLEOAT_GET_PDR ? below(304) : 4;
    answer.transfer_flag = 5;
    fill(answer.bytes, sizeof answer.bytes);
    struct needleoat_step step = needleoat_endpoint_answer(&endpoint, &jobs[job].handle, &answer, packets);
    mix_step(&step);
    jobs[job].is_open = step.kind == NEEDLEOAT_STEP_REFUSED;
    performed += step.kind == NEEDLEOAT_STEP_ANSWERED;
    hand_on(&step);
}

static void keep_job(const struct needleoat_step *step, const struct needleoat_command *command) {
    uint8_t again[NEEDLEOAT_REQUEST_BYTES] = {0};
    mix_number(needleoat_command_write(command, again));
    mix(again, sizeof again);
    for (uint32_t i = 0; i < JOBS; i++) {
        if (jobs[i].is_open) continue;
        jobs[i].is_open = true, jobs[i].handle = step->handle, jobs[i].command = *command;
        return;
    }
}

static void receive(void) {
    struct needleoat_command command = {0};
    if (one_in(16)) change(packet, packet_length);
    struct needleoat_step step =
        needleoat_endpoint_receive(&endpoint, now_ms, packet, packet_length, &command, packets);
    mix_step(&step);
    if (step.kind == NEEDLEOAT_STEP_PERFORM) keep_job(&step, &command);
    hand_on(&step);
}

static void go_round(void) {
    uint8_t request[NEEDLEOAT_MESSAGE_BYTES] = {0};
    uint32_t length = write_request(request), what = below(10);
    now_ms += below(40);
    packet_length = 0;
    if (what < 3) open_request(request, length);
    else if (what < 4) tick();
    else if (what < 6) write_other(request, length);
    else answer_job();
    if (packet_length > 0) receive();
    if (one_in(3000)) {
        mix_number(needleoat_endpoint_restart(&endpoint, now_ms));
        memset(jobs, 0, sizeof jobs);
    }
}

int main(void) {
    seed();
    for (int i = 0; i < ROUNDS; i++) {
        if (i % ROUNDS_OF_ONE_LIFE == 0) begin_life(i == 0);
        go_round();
    }
    needleoat_endpoint_free(&endpoint);
    needleoat_requester_free(&requester);
    printf("rounds %d, refused %u, dropped %u, partial %u, answered %u, to perform %u, performed %u\n", ROUNDS,
           steps[0], steps[1], steps[2], steps[3], steps[4], performed);
    printf("opened %u, received: refused %u, dropped %u, partial %u, answered %u\n", opened, received[0], received[1],
           received[2], received[3]);
    print_hash();
    return 0;
}
