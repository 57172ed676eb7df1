/*
 * Prints how many bytes of heap the ends take, and ends with status 1 where an endpoint takes more than docs/C.md says,
 * where an open message that has ended leaves more than a message's room and the lists of four, for the next ones,
 * where a call asks for memory that needs none, where a restart keeps what it forgets, or where some is left at the
 * end. Its allocator has the size of each block in front of it. It copies a block that grows, so for a moment both
 * count.
 */
#include "needleoat.h"
#include <stddef.h>
#include <stdio.h>
#include <stdlib.h>
#include <string.h>

enum { FRONT = 16, MANY_SOURCES = 4, MANY_COMMANDS = 5 };
/* the room of a message, and that of the lists of four: of each a key of 3 bytes, a number of 2 and an entry of 16 */
enum { ROOM = 328, LISTS = 4 * (3 + 2 + 16) };

static size_t in_use, most, growths;

struct needleoat_block rattle_alloc(uint64_t size, uint64_t align) {
    static uint8_t some_byte;
    uint8_t *at = size <= SIZE_MAX / 2 && align <= _Alignof(max_align_t) ? malloc(FRONT + (size_t)size) : NULL;
    if (!at) return (struct needleoat_block){false, &some_byte};
    *(size_t *)(void *)at = (size_t)size;
    growths++;
    in_use += (size_t)size;
    if (in_use > most) most = in_use;
    return (struct needleoat_block){true, at + FRONT};
}

void rattle_dealloc(uint8_t *old) {
    in_use -= *(size_t *)(void *)(old - FRONT);
    free(old - FRONT);
}

struct needleoat_block rattle_realloc(uint8_t *old, uint64_t kept, uint64_t size, uint64_t align) {
    struct needleoat_block next = rattle_alloc(size, align);
    if (next.is_there) {
        memcpy(next.at, old, (size_t)kept);
        rattle_dealloc(old);
    }
    return next;
}

static const struct needleoat_endpoint_settings settings = {.own = 9,
                                                            .first_start = true,
                                                            .keep_ms = 1000,
                                                            .sources = MANY_SOURCES,
                                                            .open_messages = 1,
                                                            .pending_commands = MANY_COMMANDS};
static const struct needleoat_requester_settings requester_settings = {
    .own = 8, .device = 9, .tries = 3, .keep_ms = 1000, .timeout_ms = 200};
static struct needleoat_endpoint endpoint = NEEDLEOAT_ENDPOINT_NONE;
static struct needleoat_requester requester = NEEDLEOAT_REQUESTER_NONE;
static uint8_t packet[NEEDLEOAT_PACKET_BYTES], packets[NEEDLEOAT_PACKETS][NEEDLEOAT_PACKET_BYTES];

/* A message of two packets. */
static const uint8_t two_packets[100] = {1};

static struct needleoat_step receive_packet(uint8_t source, uint8_t tag, const uint8_t *message, size_t length,
                                            uint32_t index) {
    struct needleoat_command command;
    uint32_t count = needleoat_packet_write(9, source, true, tag, message, length, index, packet);
    return needleoat_endpoint_receive(&endpoint, 0, packet, count, &command, packets);
}

static struct needleoat_step receive(uint8_t source, const uint8_t *message, size_t length) {
    return receive_packet(source, 0, message, length, 0);
}

static struct needleoat_step get_tid(uint8_t source, uint8_t instance_id) {
    const uint8_t message[] = {1, 0x80 | instance_id, NEEDLEOAT_BASE, NEEDLEOAT_GET_TID};
    return receive(source, message, sizeof message);
}

/* An endpoint with a window and three bounds, all of which are reached, from the highest endpoint IDs. */
struct load {
    uint32_t window, sources, open_messages, commands;
};
static const struct load loads[] = {{4, 1, 1, 1},  {1, 1, 1, 1},    {1, 200, 1, 1},   {2, 100, 1, 1},
                                    {8, 2, 2, 1},  {8, 20, 40, 60}, {16, 50, 300, 9}, {32, 8, 4, 100},
                                    {4, 9, 65, 8}, {32, 1, 8, 32}};

/* The most bytes of the first of these, a small device with one requester; and those of an open message. */
enum { SMALL_MOST = 3840, OPEN_MESSAGE = 400 };

/* What docs/C.md says, of commands and of requests that are handed on. */
static size_t bound_of(const struct load *load, bool handed_on) {
    return (handed_on ? 300 : 256) + load->sources * (700 * load->window + 200) + OPEN_MESSAGE * load->open_messages +
           (handed_on ? 460 : 420) * load->commands;
}

/* Each source sends a request with each instance ID, which is refused by its code and kept. */
static bool fill(uint32_t sources) {
    for (uint32_t i = 0; i < 32 * sources; i++) {
        const uint8_t message[] = {1, (uint8_t)(0x80 | i % 32), NEEDLEOAT_BASE, 0x3f};
        struct needleoat_step step = receive((uint8_t)(254 - i / 32), message, sizeof message);
        if (step.kind != NEEDLEOAT_STEP_ANSWERED || !step.fresh) return false;
    }
    return true;
}

/* Message i of several packets begins. */
static bool begin(uint32_t i) {
    return receive_packet((uint8_t)(254 - i / 8), i % 8, two_packets, sizeof two_packets, 0).kind ==
           NEEDLEOAT_STEP_PARTIAL;
}

static bool begin_all(uint32_t open_messages) {
    for (uint32_t i = 0; i < open_messages; i++)
        if (!begin(i)) return false;
    return true;
}

/* Commands of the longest requests are pending: eight states of effecter 1 are to be set. */
static bool hand_out(uint32_t commands) {
    uint8_t message[23] = {1, 0, NEEDLEOAT_PLATFORM, NEEDLEOAT_SET_STATE_EFFECTER_STATES, 1, 0, 8};
    for (uint32_t i = 0; i < commands; i++) {
        message[1] = (uint8_t)(0x80 | i % 32);
        if (receive((uint8_t)(254 - i / 32), message, sizeof message).kind != NEEDLEOAT_STEP_PERFORM) return false;
    }
    return true;
}

/* Requests of the greatest length are handed on, each in five packets. */
static bool hand_on(uint32_t requests) {
    uint8_t message[320] = {1, 0, 63, 1};
    for (uint32_t i = 0; i < requests; i++) {
        message[1] = (uint8_t)(0x80 | i % 32);
        struct needleoat_step step = {0};
        for (uint32_t j = 0; j < 5; j++)
            step = receive_packet((uint8_t)(254 - i / 32), 0, message, sizeof message, j);
        if (step.kind != NEEDLEOAT_STEP_RESPOND) return false;
    }
    return true;
}

/*
 * Whether an endpoint takes at most what is said, and that of an open message more while one begins that ends the
 * oldest. It leaves none.
 */
static bool is_within(const struct load *load, bool handed_on, size_t bound) {
    const struct needleoat_endpoint_settings loaded = {.own = 9,
                                                       .first_start = true,
                                                       .keep_ms = 6000,
                                                       .sources = load->sources,
                                                       .open_messages = load->open_messages,
                                                       .pending_commands = load->commands,
                                                       .window = load->window,
                                                       .busy = NEEDLEOAT_BUSY_SETS,
                                                       .pldm_types = handed_on ? (uint64_t)1 << 63 : 0};
    most = 0;
    needleoat_endpoint_new(&loaded, 0, &endpoint);
    bool well = fill(load->sources) && (handed_on ? hand_on : hand_out)(load->commands);
    well = well && begin_all(load->open_messages);
    size_t full = most;
    well = begin(load->open_messages) && well;
    needleoat_endpoint_free(&endpoint);
    printf("heap with window %u, sources %u, open messages %u, %s %u: ", (unsigned)load->window,
           (unsigned)load->sources, (unsigned)load->open_messages, handed_on ? "requests handed on" : "commands",
           (unsigned)load->commands);
    printf("%zu of %zu; %zu while the oldest message ends\n", full, bound, most);
    return well && full <= bound && most <= bound + OPEN_MESSAGE && in_use == 0;
}

/* A command pending beside others takes two blocks: its place and its request, here of 4 bytes. */
enum { COMMAND_MOST = 92, COMMAND_BLOCKS = 2 };

/* Prints what an endpoint takes step by step. */
static bool print_steps(void) {
    static const struct needleoat_answer tid = {.pldm_type = NEEDLEOAT_BASE, .command = NEEDLEOAT_GET_TID, .tid = 7};
    needleoat_endpoint_new(&settings, 0, &endpoint);
    printf("heap of an endpoint at first %zu\n", in_use);
    for (uint8_t i = 0; i < MANY_SOURCES; i++) {
        struct needleoat_step step = get_tid(10 + i, 0);
        if (step.kind != NEEDLEOAT_STEP_PERFORM) return false;
        step = needleoat_endpoint_answer(&endpoint, &step.handle, &tid, packets);
        if (step.kind != NEEDLEOAT_STEP_ANSWERED) return false;
        printf("heap of an endpoint with answers for %d sources %zu\n", i + 1, in_use);
    }
    for (uint8_t i = 1; i <= MANY_COMMANDS; i++) {
        size_t bytes = in_use, blocks = growths;
        if (get_tid(10, i).kind != NEEDLEOAT_STEP_PERFORM) return false;
        bytes = in_use - bytes;
        blocks = growths - blocks;
        if (1 < i && i < MANY_COMMANDS && (bytes > COMMAND_MOST || blocks > COMMAND_BLOCKS)) return false;
        printf("heap of an endpoint with %d commands too %zu\n", i, in_use);
    }
    if (get_tid(10, MANY_COMMANDS + 1).reason != NEEDLEOAT_TOO_MANY_COMMANDS) return false;
    if (get_tid(14, 0).reason != NEEDLEOAT_TOO_MANY_COMMANDS) return false;
    size_t before = in_use;
    if (receive(14, two_packets, sizeof two_packets).kind != NEEDLEOAT_STEP_PARTIAL) return false;
    printf("heap of an endpoint with an open message too %zu\n", in_use);
    if (receive_packet(14, 0, two_packets, sizeof two_packets, 1).kind != NEEDLEOAT_STEP_DROPPED) return false;
    printf("heap of an endpoint after that message %zu\n", in_use);
    if (in_use != before + ROOM + LISTS) return false;
    needleoat_endpoint_free(&endpoint);
    return true;
}

/* How often memory had been asked for at the last look. */
static size_t looked_at;

/* Whether this went well, and asked for no memory since then. */
static bool asked_for_none(const char *what, bool well) {
    bool none = growths == looked_at;
    if (!none) printf("memory is asked for by %s\n", what);
    looked_at = growths;
    return well && none;
}

/* Whether memory is asked for only by a source's first request, by what is handed out, and by a message that begins. */
static bool takes_only_there(void) {
    static const struct needleoat_answer tid = {.pldm_type = NEEDLEOAT_BASE, .command = NEEDLEOAT_GET_TID, .tid = 7};
    static const struct needleoat_answer other = {.pldm_type = NEEDLEOAT_BASE, .command = NEEDLEOAT_SET_TID};
    static const uint8_t refused[] = {1, 0x83, NEEDLEOAT_BASE, 0x3f};
    struct needleoat_request request;
    needleoat_endpoint_new(&settings, 0, &endpoint);
    struct needleoat_step step = get_tid(10, 0);
    bool well = step.kind == NEEDLEOAT_STEP_PERFORM;
    size_t held = in_use;
    looked_at = growths;
    well = asked_for_none("a repeat of a pending one", get_tid(10, 0).reason == NEEDLEOAT_BEING_PERFORMED) && well;
    bool is_read = needleoat_endpoint_request(&endpoint, &step.handle, &request);
    well = asked_for_none("a request read back", is_read) && well;
    well = asked_for_none("an endpoint ID", needleoat_endpoint_eid(&endpoint) == 9) && well;
    struct needleoat_step sent = needleoat_endpoint_answer(&endpoint, &step.handle, &other, packets);
    well = asked_for_none("another answer", sent.reason == NEEDLEOAT_NOT_ITS_ANSWER) && well;
    sent = needleoat_endpoint_answer(&endpoint, &step.handle, &tid, packets);
    well = asked_for_none("an answer", sent.kind == NEEDLEOAT_STEP_ANSWERED) && well;
    sent = get_tid(10, 0);
    well = asked_for_none("a copy", sent.kind == NEEDLEOAT_STEP_ANSWERED && !sent.fresh) && well;
    sent = receive(10, refused, sizeof refused);
    well = asked_for_none("a refused request", sent.kind == NEEDLEOAT_STEP_ANSWERED && sent.fresh) && well;
    sent = receive_packet(10, 0, two_packets, sizeof two_packets, 1);
    well = asked_for_none("a dropped packet", sent.kind == NEEDLEOAT_STEP_DROPPED) && well;
    well = get_tid(10, 1).kind == NEEDLEOAT_STEP_PERFORM && in_use <= held && well;
    needleoat_endpoint_free(&endpoint);
    return well && in_use == 0;
}

/* Whether a restart gives back all but what an endpoint takes at first, and the list of four messages that began. */
static bool restart_gives_back(void) {
    needleoat_endpoint_new(&settings, 0, &endpoint);
    size_t at_first = in_use;
    bool well = get_tid(10, 0).kind == NEEDLEOAT_STEP_PERFORM && begin(0);
    well = needleoat_endpoint_restart(&endpoint, 0) == 0 && well;
    printf("heap of an endpoint after a restart %zu\n", in_use);
    well = in_use <= at_first + 4 * 3 && well;
    needleoat_endpoint_free(&endpoint);
    return well && in_use == 0;
}

/* The most bytes that a brief requester takes. */
enum { BRIEF_MOST = 10000 };

/* Whether only the first 32 requests of a requester ask for memory. */
static bool requester_takes_32(bool brief) {
    static const uint8_t message[] = {1, 0x80, NEEDLEOAT_BASE, NEEDLEOAT_GET_TID};
    static struct needleoat_due due;
    const char *name = brief ? "brief requester" : "requester";
    bool well = true;
    struct needleoat_requester_settings settings = requester_settings;
    settings.brief = brief;
    most = 0;
    needleoat_requester_new(&settings, &requester);
    printf("heap of a %s at first %zu\n", name, in_use);
    for (uint64_t i = 0; i < 64; i++) {
        if (i == 32) looked_at = growths;
        well = needleoat_requester_open(&requester, i * 2000, message, sizeof message).refusal == 0 && well;
        well = needleoat_requester_tick(&requester, i * 2000 + 1999, &due) == 0 && due.given_up_count == 1 && well;
    }
    well = asked_for_none("request 33 of a requester", well);
    printf("heap of a %s with 32 requests %zu, while it grows %zu\n", name, in_use, most);
    well = (!brief || most <= BRIEF_MOST) && well;
    needleoat_requester_free(&requester);
    return well && in_use == 0;
}

/* What the machine of firmware update takes at most. Only the call that makes it asks for memory. */
enum { FIRMWARE_MOST = 80 };

static bool firmware_takes_little(void) {
    static const uint8_t data[] = {0, 1, 0, 0, 1, 0, 1, 0, 0, 1, 0};
    struct needleoat_firmware machine = NEEDLEOAT_FIRMWARE_NONE;
    struct needleoat_firmware_answer answer;
    bool well = needleoat_firmware_new(0, &machine) == 0;
    size_t taken = in_use;
    printf("heap of the machine of firmware update %zu\n", taken);
    looked_at = growths;
    well = needleoat_firmware_receive(&machine, 8, 0, 0x10, data, sizeof data, 1, &answer).refusal == 0 && well;
    well = needleoat_firmware_tick(&machine, 90000).action == NEEDLEOAT_FLASH_ABANDON_UPDATE && well;
    well = asked_for_none("a command of firmware update", well) && taken <= FIRMWARE_MOST;
    needleoat_firmware_free(&machine);
    return well && in_use == 0;
}

/* Prints what a source with answers takes, by the window. */
static bool print_windows(void) {
    static const uint32_t windows[] = {1, 2, 4, 8, 16, 32};
    bool well = true;
    for (size_t i = 0; i < sizeof windows / sizeof windows[0]; i++) {
        const struct needleoat_endpoint_settings one_source = {
            .own = 9, .first_start = true, .keep_ms = 1000, .sources = 1, .window = windows[i]};
        needleoat_endpoint_new(&one_source, 0, &endpoint);
        size_t before = in_use;
        well = fill(1) && well;
        printf("heap of a source at a window of %u %zu\n", (unsigned)windows[i], in_use - before);
        needleoat_endpoint_free(&endpoint);
    }
    return well;
}

/* The most bytes that an endpoint takes more where it answers control messages. */
enum { CONTROL_MOST = 240 };

/* Prints what that is. */
static bool print_control(void) {
    struct needleoat_endpoint_settings answering = settings;
    answering.answers_control = true;
    needleoat_endpoint_new(&settings, 0, &endpoint);
    size_t without = in_use;
    needleoat_endpoint_free(&endpoint);
    needleoat_endpoint_new(&answering, 0, &endpoint);
    size_t more = in_use - without;
    needleoat_endpoint_free(&endpoint);
    printf("heap of what answers control messages %zu more\n", more);
    return 0 < more && more <= CONTROL_MOST;
}

int main(void) {
    bool well = print_steps();
    well = print_control() && well;
    well = print_windows() && well;
    well = firmware_takes_little() && well;
    for (size_t i = 0; i < sizeof loads / sizeof loads[0]; i++) {
        well = is_within(&loads[i], false, i == 0 ? SMALL_MOST : bound_of(&loads[i], false)) && well;
        well = is_within(&loads[i], true, bound_of(&loads[i], true)) && well;
    }
    well = takes_only_there() && well;
    well = restart_gives_back() && well;
    well = requester_takes_32(false) && well;
    well = requester_takes_32(true) && well;
    return !well || in_use != 0;
}
