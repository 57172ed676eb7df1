/*
 * Two devices that answer and ask, at the endpoints 9 and 10, each over one handle: a terminus. Each asks the other for
 * 1,000 numbers, and answers what it is asked, over a link that loses every fifth packet and repeats every seventh.
 * Every third request is of the OEM type, which is handed on as bytes and answered with its own data; the others read
 * an effecter, whose value is its ID. The number asked for is the data, or the effecter: an answer with another number
 * is wrong. What is given up is asked for once more, by another request.
 */
#include "needleoat.h"
#include <inttypes.h>
#include <stdio.h>
#include <string.h>

enum { REQUESTS = 1000, KEEP_MS = 500, TIMEOUT_MS = 50, TRIES = 8, OEM = 63, ECHO = 7, QUEUE = 64, REMEMBERED = 32 };

struct device {
    struct needleoat_terminus terminus;
    uint8_t own, peer;
    uint32_t asked, answered, wrong; /* for how many numbers, how many answers came, and how many were wrong */
    uint32_t performed;              /* requests of the peer that were performed */
    uint32_t numbers[REMEMBERED];    /* what the last requests asked for */
    uint32_t again[REMEMBERED], again_count; /* what is to be asked for once more */
};

static struct device devices[2] = {{.terminus = NEEDLEOAT_TERMINUS_NONE, .own = 9, .peer = 10},
                                   {.terminus = NEEDLEOAT_TERMINUS_NONE, .own = 10, .peer = 9}};
static uint64_t now_ms;

/* ---- The link ---- */

static struct {
    uint8_t bytes[NEEDLEOAT_PACKET_BYTES];
    uint32_t length;
} queue[QUEUE];
static uint32_t first, count, sent;

static void put(const uint8_t *bytes, uint32_t length) {
    if (count == QUEUE) return; /* lost as well */
    memcpy(queue[(first + count) % QUEUE].bytes, bytes, length);
    queue[(first + count++) % QUEUE].length = length;
}

/* Every fifth packet is lost, and every seventh comes twice. */
static void send(const uint8_t *bytes, uint32_t length) {
    sent++;
    if (sent % 5 == 0) return;
    put(bytes, length);
    if (sent % 7 == 0) put(bytes, length);
}

/* ---- What answers ---- */

static uint8_t packets[NEEDLEOAT_PACKETS][NEEDLEOAT_PACKET_BYTES];

static struct needleoat_step perform(struct device *device, const struct needleoat_step *asked,
                                     const struct needleoat_command *command) {
    struct needleoat_answer answer = {.pldm_type = command->pldm_type,
                                      .command = command->command,
                                      .size = NEEDLEOAT_UINT16,
                                      .operational = 1,
                                      .value = command->effecter,
                                      .pending_value = command->effecter};
    device->performed++;
    return needleoat_terminus_answer(&device->terminus, &asked->handle, &answer, packets);
}

/* A request of the OEM type gets its own data back. */
static struct needleoat_step respond(struct device *device, const struct needleoat_step *asked) {
    struct needleoat_request request;
    if (!needleoat_terminus_request(&device->terminus, &asked->handle, &request)) return *asked;
    device->performed++;
    return needleoat_terminus_answer_bytes(&device->terminus, &asked->handle, NEEDLEOAT_CODE_SUCCESS, request.data,
                                           request.length, packets);
}

/* ---- What asks ---- */

/* Opens a request for the next number n: one of the OEM type, or GetNumericEffecterValue of the effecter n. */
static void ask(struct device *device) {
    bool is_again = device->again_count > 0;
    if (!is_again && device->asked == REQUESTS) return;
    uint32_t n = is_again ? device->again[device->again_count - 1] : device->asked;
    uint8_t number[2] = {(uint8_t)n, (uint8_t)(n >> 8)}, packet[NEEDLEOAT_PACKET_BYTES];
    struct needleoat_command command = {.pldm_type = NEEDLEOAT_PLATFORM,
                                        .command = NEEDLEOAT_GET_NUMERIC_EFFECTER_VALUE,
                                        .effecter = (uint16_t)n};
    uint8_t request[NEEDLEOAT_REQUEST_BYTES];
    struct needleoat_opening opening;
    if (n % 3 == 0)
        opening = needleoat_terminus_open_request(&device->terminus, now_ms, OEM, ECHO, number, sizeof number);
    else
        opening =
            needleoat_terminus_open(&device->terminus, now_ms, request, needleoat_command_write(&command, request));
    if (opening.refusal != 0) return; /* too soon: later once more */
    if (is_again) device->again_count--;
    else device->asked++;
    device->numbers[opening.number % REMEMBERED] = n;
    send(packet, needleoat_terminus_packet(&device->terminus, opening.number, 0, packet));
}

/* The number in an answer: the data of an OEM request, or the value that was read. */
static uint32_t number_in(const uint8_t *response, uint32_t length) {
    bool is_oem = response[2] == OEM;
    size_t at = is_oem ? 5 : 7; /* after the code; a reading has its size and its state before the value */
    return length >= at + 2 ? response[at] | (uint32_t)response[at + 1] << 8 : UINT32_MAX;
}

static void check(struct device *device, uint64_t number) {
    uint8_t response[NEEDLEOAT_MESSAGE_BYTES];
    struct needleoat_status status = needleoat_terminus_status(&device->terminus, number, response);
    device->answered++;
    device->wrong += status.kind != NEEDLEOAT_STATUS_ANSWERED ||
                     number_in(response, status.length) != device->numbers[number % REMEMBERED];
}

static void tick(struct device *device) {
    struct needleoat_due due;
    uint8_t packet[NEEDLEOAT_PACKET_BYTES];
    uint64_t deadline;
    if (!needleoat_terminus_next_deadline(&device->terminus, &deadline) || now_ms < deadline) return;
    if (needleoat_terminus_tick(&device->terminus, now_ms, &due) != 0) return;
    for (uint32_t i = 0; i < due.again_count; i++)
        send(packet, needleoat_terminus_packet(&device->terminus, due.again[i], 0, packet));
    for (uint32_t i = 0; i < due.given_up_count; i++)
        device->again[device->again_count++] = device->numbers[due.given_up[i] % REMEMBERED];
}

/* ---- Both ---- */

/* A packet comes to a device. Where memory was refused, it counts as lost. */
static void come(struct device *device, const uint8_t *bytes, uint32_t length) {
    struct needleoat_command command;
    struct needleoat_coming coming =
        needleoat_terminus_receive(&device->terminus, now_ms, bytes, length, &command, packets);
    struct needleoat_step step = coming.step;
    if (coming.half == NEEDLEOAT_HALF_ASKING) {
        if (coming.receiving.kind == NEEDLEOAT_RECEIVING_ANSWERED) check(device, coming.receiving.number);
        return;
    }
    if (step.kind == NEEDLEOAT_STEP_PERFORM) step = perform(device, &step, &command);
    else if (step.kind == NEEDLEOAT_STEP_RESPOND) step = respond(device, &step);
    for (uint32_t i = 0; i < step.count; i++) send(packets[i], step.lengths[i]);
}

static uint8_t begin(struct device *device) {
    const struct needleoat_endpoint_settings settings = {.own = device->own,
                                                         .first_start = true,
                                                         .keep_ms = KEEP_MS,
                                                         .sources = 1,
                                                         .open_messages = 1,
                                                         .pending_commands = 1,
                                                         .pldm_types = UINT64_C(1) << OEM};
    const struct needleoat_peer_settings peer = {
        .device = device->peer, .tries = TRIES, .keep_ms = KEEP_MS, .timeout_ms = TIMEOUT_MS};
    uint8_t refusal;
    int tries = 3;
    do refusal = needleoat_terminus_new(&settings, &peer, now_ms, now_ms, &device->terminus);
    while (refusal == NEEDLEOAT_NO_MEMORY && --tries > 0);
    return refusal;
}

static bool is_done(void) { return devices[0].answered == REQUESTS && devices[1].answered == REQUESTS; }

/* Each millisecond both ask, where they may, and all packets on the link arrive. */
static void run(void) {
    for (; !is_done() && now_ms < 1000000; now_ms++) {
        for (int i = 0; i < 2; i++) {
            tick(&devices[i]);
            ask(&devices[i]);
        }
        while (count > 0) {
            uint8_t bytes[NEEDLEOAT_PACKET_BYTES];
            uint32_t length = queue[first].length;
            memcpy(bytes, queue[first].bytes, length);
            first = (first + 1) % QUEUE;
            count--;
            come(&devices[bytes[1] == devices[0].own ? 0 : 1], bytes, length);
        }
    }
}

int main(void) {
    printf("made %u %u\n", begin(&devices[0]), begin(&devices[1]));
    run();
    for (int i = 0; i < 2; i++)
        printf("endpoint %u: %" PRIu32 " requests answered, %" PRIu32 " wrongly; %" PRIu32 " of the other performed\n",
               devices[i].own, devices[i].answered, devices[i].wrong, devices[i].performed);
    for (int i = 0; i < 2; i++) {
        uint8_t refusal = needleoat_terminus_restart(&devices[i].terminus, now_ms);
        uint8_t early = needleoat_terminus_open_request(&devices[i].terminus, now_ms, OEM, ECHO, &refusal, 1).refusal;
        printf("restarted %u, opened at once %u\n", refusal, early);
        needleoat_terminus_free(&devices[i].terminus);
    }
    return 0;
}
