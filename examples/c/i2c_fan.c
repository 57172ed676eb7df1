/*
 * The fan of fan.c, endpoint 9, on I2C. It is a slave while it is asked, and a master when it answers. An interrupt
 * handler puts what is written to the fan's address into a ring of frames, and the main loop serves them. The bus is a
 * list of transfers here; the output is each frame that the fan sends, and the fault of each transfer that is no frame.
 */
#include "needleoat.h"
#include <inttypes.h>
#include <stdio.h>
#include <string.h>

enum { OWN = 9, OWN_ADDRESS = 0x1d, MEMORY_TRIES = 3, SEND_TRIES = 3 };
enum { ERROR_INVALID_DATA = 2, ERROR_UNSUPPORTED_COMMAND = 5, INVALID_EFFECTER_ID = 0x80 };
enum { FULL_SPEED = 100, ENABLED_NO_UPDATE_PENDING = 1 };

/* ---- The slave: an interrupt handler ---- */

/*
 * The handler writes frame `received`, and the main loop reads frame `served`, each by its number modulo FRAMES. So the
 * handler writes no frame that the main loop reads, and none has to be copied. Each number is written by one of them
 * alone, so a load and a store are enough, which each processor has.
 */
enum { FRAMES = 2 };
static struct {
    size_t length;
    uint8_t bytes[NEEDLEOAT_I2C_FRAME_BYTES];
} frames[FRAMES];
static _Atomic uint32_t received, served;

enum slave_event { WRITE_BEGINS, BYTE_CAME, WRITE_ENDS };

/*
 * This controller hands over the address byte as WRITE_BEGINS comes, since it answers to more than one address. Where a
 * controller keeps it, put OWN_ADDRESS * 2 there. A transfer for which there is no room is lost: its sender repeats it.
 */
static void on_slave_event(enum slave_event event, uint8_t byte) {
    static bool is_taken; /* whether the bytes of this transfer are taken */
    uint32_t place = received % FRAMES;
    if (event == WRITE_BEGINS) {
        is_taken = received - served < FRAMES;
        if (is_taken) frames[place].length = 0;
    }
    if (!is_taken) return;
    if (event == WRITE_ENDS) is_taken = false, received = received + 1;
    else if (frames[place].length < NEEDLEOAT_I2C_FRAME_BYTES) frames[place].bytes[frames[place].length++] = byte;
    else is_taken = false;
}

/* ---- The master ---- */

static unsigned collisions; /* how many of the next transfers lose the bus to another master */

/*
 * Writes to a slave. The controller sends the address byte by itself, so the bytes are those after it. Returns whether
 * the bus was won and each byte acknowledged.
 */
static bool write_to(uint8_t address, const uint8_t *bytes, size_t length) {
    if (collisions > 0) return collisions--, false;
    printf("%02x", address * 2);
    for (size_t i = 0; i < length; i++) printf("%02x", bytes[i]);
    printf("\n");
    return true;
}

/* Sends a packet to the slave of an address. Where it can't be sent it is lost: who asked asks again. */
static void send_packet(uint8_t address, const uint8_t *packet, uint32_t length) {
    uint8_t frame[NEEDLEOAT_I2C_FRAME_BYTES];
    uint32_t count = needleoat_i2c_write(OWN_ADDRESS, address, packet, length, frame);
    for (int tries = SEND_TRIES; count > 0 && tries > 0; tries--)
        if (write_to(address, frame + 1, count - 1)) return;
}

/* ---- The fan, as in fan.c ---- */

static int64_t speed = 10;

static struct needleoat_answer perform(const struct needleoat_command *command) {
    struct needleoat_answer answer = {.pldm_type = command->pldm_type, .command = command->command};
    bool sets = command->command == NEEDLEOAT_SET_NUMERIC_EFFECTER_VALUE;
    bool gets = command->command == NEEDLEOAT_GET_NUMERIC_EFFECTER_VALUE;
    if (command->pldm_type != NEEDLEOAT_PLATFORM || (!sets && !gets)) answer.code = ERROR_UNSUPPORTED_COMMAND;
    else if (command->effecter != 1) answer.code = INVALID_EFFECTER_ID;
    else if (gets) {
        answer.size = NEEDLEOAT_UINT8;
        answer.operational = ENABLED_NO_UPDATE_PENDING;
        answer.value = answer.pending_value = speed;
    } else if (command->size != NEEDLEOAT_UINT8 || command->value > FULL_SPEED) answer.code = ERROR_INVALID_DATA;
    else speed = command->value;
    return answer;
}

static const struct needleoat_endpoint_settings settings = {
    .own = OWN,
    .first_start = true,
    .keep_ms = 1000,
    .sources = 2,
    .open_messages = 1,
    .pending_commands = 1,
    .answers_control = true,
    .uuid = {0x4e, 0x65, 0x65, 0x64, 0x6c, 0x65, 0x8f, 0x61, 0x80, 0x74, 0, 0, 0, 0, 0, OWN},
    .base_version = {0xf1, 0xf3, 0xf1, 0x00},
    .control_version = {0xf1, 0xf3, 0xf1, 0x00},
    .pldm_version = {0xf1, 0xf0, 0xf0, 0x00},
};
static struct needleoat_endpoint endpoint = NEEDLEOAT_ENDPOINT_NONE;
static uint8_t packets[NEEDLEOAT_PACKETS][NEEDLEOAT_PACKET_BYTES];

/* ---- The main loop ---- */

/*
 * Serves a packet that came from the device of an address: its answer goes back there. Returns whether the moment and
 * the answer were good.
 */
static bool serve_packet(uint64_t now_ms, uint8_t address, const uint8_t *packet, uint32_t length) {
    struct needleoat_command command;
    struct needleoat_step step;
    int tries = MEMORY_TRIES;
    do step = needleoat_endpoint_receive(&endpoint, now_ms, packet, length, &command, packets);
    while (step.kind == NEEDLEOAT_STEP_REFUSED && step.reason == NEEDLEOAT_NO_MEMORY && --tries > 0);
    if (step.kind == NEEDLEOAT_STEP_REFUSED) return step.reason != NEEDLEOAT_BAD_MOMENT; /* the packet is lost */
    if (step.kind == NEEDLEOAT_STEP_PERFORM) {
        struct needleoat_answer answer = perform(&command);
        step = needleoat_endpoint_answer(&endpoint, &step.handle, &answer, packets);
    }
    for (uint32_t i = 0; i < step.count; i++) send_packet(address, packets[i], step.lengths[i]);
    return step.kind != NEEDLEOAT_STEP_REFUSED;
}

/* Serves the frames that were received. */
static bool serve_frames(uint64_t now_ms) {
    bool well = true;
    for (; well && served != received; served = served + 1) {
        const uint8_t *bytes = frames[served % FRAMES].bytes;
        struct needleoat_i2c_frame frame = needleoat_i2c_read(OWN_ADDRESS, bytes, frames[served % FRAMES].length);
        if (frame.fault != 0) printf("fault %u\n", frame.fault);
        else well = serve_packet(now_ms, frame.source_address, bytes + frame.packet_start, frame.packet_length);
    }
    return well;
}

/* ---- The bus ---- */

/* A transfer: its bytes in hexadecimal, and how many zeros after them. */
struct transfer {
    uint64_t now_ms;
    const char *name;
    const char *bytes;
    size_t zeros;
    unsigned collisions; /* for the answer */
    bool is_followed;    /* the next transfer comes before the main loop gets its turn */
};

static const struct transfer transfers[] = {
    {.now_ms = 0, .name = "effecter 1 is set to 40", .bytes = "3a0f0d21" "010908c90181023101000028" "61"},
    {.now_ms = 10, .name = "and asked for", .bytes = "3a0f0b21" "010908ca018202320100" "70"},
    {.now_ms = 20, .name = "also by another device", .bytes = "3a0f0b45" "01090acb018302320100" "ab"},
    {.now_ms = 30, .name = "a bus owner asks for the endpoint ID", .bytes = "3a0f0821" "010008c8008002" "56"},
    {.now_ms = 40, .name = "a wrong PEC", .bytes = "3a0f0d21" "010908cc0184023101000032" "18"},
    {.now_ms = 50, .name = "set to 50: two collisions", .bytes = "3a0f0d21" "010908cc0184023101000032" "17",
     .collisions = 2},
    {.now_ms = 60, .name = "asked for: three collisions", .bytes = "3a0f0b21" "010908cd018502320100" "4a",
     .collisions = 3},
    {.now_ms = 70, .name = "so once more", .bytes = "3a0f0b21" "010908cd018502320100" "4a"},
    {.now_ms = 80, .name = "no packet", .bytes = "3a0f0121" "80"},
    {.now_ms = 90, .name = "for another address", .bytes = "3c0f0b21" "010908ca018202320100" "20"},
    {.now_ms = 100, .name = "another command code", .bytes = "3a0e0b21" "010908ca018202320100" "e4"},
    {.now_ms = 110, .name = "another count", .bytes = "3a0f0c21" "010908ca018202320100" "e4"},
    {.now_ms = 120, .name = "no source", .bytes = "3a0f0b20" "010908ca018202320100" "6f"},
    {.now_ms = 130, .name = "for another endpoint", .bytes = "3a0f0b21" "010a08ca018202320100" "fb"},
    {.now_ms = 140, .name = "one byte more than the longest frame", .bytes = "3a0fff21", .zeros = 256},
    {.now_ms = 150, .name = "three at once: the third finds no room", .bytes = "3a0f0b21" "010908ce018602320100" "8a",
     .is_followed = true},
    {.now_ms = 150, .name = "the second", .bytes = "3a0f0b45" "01090acb018302320100" "ab", .is_followed = true},
    {.now_ms = 150, .name = "the third", .bytes = "3a0f0b21" "010908cd018502320100" "4a"},
};

/* What the controller of the fan does as it is written to. */
static void run(const struct transfer *transfer) {
    uint8_t byte;
    enum slave_event event = WRITE_BEGINS;
    for (const char *text = transfer->bytes; sscanf(text, "%2" SCNx8, &byte) == 1; text += 2) {
        on_slave_event(event, byte);
        event = BYTE_CAME;
    }
    for (size_t i = 0; i < transfer->zeros; i++) on_slave_event(BYTE_CAME, 0);
    on_slave_event(WRITE_ENDS, 0);
}

int main(void) {
    uint8_t refusal;
    bool well = true;
    int tries = MEMORY_TRIES;
    do refusal = needleoat_endpoint_new(&settings, 0, &endpoint);
    while (refusal == NEEDLEOAT_NO_MEMORY && --tries > 0);
    for (size_t i = 0; i < sizeof transfers / sizeof *transfers && refusal == 0 && well; i++) {
        printf("# %s\n", transfers[i].name);
        run(&transfers[i]);
        collisions = transfers[i].collisions;
        if (!transfers[i].is_followed) well = serve_frames(transfers[i].now_ms);
    }
    needleoat_endpoint_free(&endpoint);
    return refusal != 0 || !well;
}
