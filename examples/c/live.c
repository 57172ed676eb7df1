/*
 * A requester on a serial line (DSP0253): it sets the value of an effecter and reads it back, as often as it is asked
 * to. Argument 1 is the line, a terminal such as /dev/ttyS0; argument 2 how many values are set. The device is at
 * endpoint 9, has the numeric effecter 1 of size uint8 with values 0 to 100, and keeps answers for a second, as
 * examples/device.toml says. Arguments 3 and 4, where they are given, are the line's lifetime in milliseconds and the
 * device's window: it then asks as fast as they allow. It writes a line for each value, and ends with 0 where each was
 * read back.
 */
#define _DEFAULT_SOURCE
#include "needleoat.h"
#include "serial_frames.h"
#include <fcntl.h>
#include <poll.h>
#include <stdio.h>
#include <stdlib.h>
#include <termios.h>
#include <time.h>
#include <unistd.h>

enum { MEMORY_TRIES = 3, MOST_SPREAD = 16, INSTANCE_IDS = 32 };

static struct needleoat_requester_settings requester_settings = {
    .own = 8, .device = 9, .tries = 5, .keep_ms = 1000, .timeout_ms = 200};

static int line;
static struct needleoat_requester requester = NEEDLEOAT_REQUESTER_NONE;

static void fail(const char *what) {
    perror(what);
    exit(1);
}

/* Milliseconds of a clock that never goes back. */
static uint64_t now(void) {
    struct timespec time;
    if (clock_gettime(CLOCK_MONOTONIC, &time) != 0) fail("clock");
    return (uint64_t)time.tv_sec * 1000 + (uint64_t)time.tv_nsec / 1000000;
}

static struct serial_reader reader;

static void send_packet(const uint8_t *packet, size_t length) {
    uint8_t frame[SERIAL_FRAME_BYTES];
    size_t count = serial_frame_write(packet, length, frame);
    for (size_t sent = 0; sent < count;) {
        ssize_t wrote = write(line, frame + sent, count - sent);
        if (wrote <= 0) fail("write");
        sent += (size_t)wrote;
    }
}

/*
 * With a window requests are spread: one waits for the lifetime after the one so many before it, 16 or 32 less the
 * window. A burst of all 32 would leave none to count, and then wait for twice the keeping time.
 */
static uint64_t openings[MOST_SPREAD], opened;

static uint32_t spread(void) {
    uint32_t window = requester_settings.window, free_ids = window > 0 ? INSTANCE_IDS - window : 0;
    return free_ids < MOST_SPREAD ? free_ids : MOST_SPREAD;
}

static bool is_too_soon(void) {
    uint32_t count = spread();
    return count > 0 && opened >= count && now() < openings[opened % count] + requester_settings.lifetime_ms;
}

static void note_opening(void) {
    uint32_t count = spread();
    if (count > 0) openings[opened++ % count] = now();
}

static void send_request(uint64_t number) {
    uint8_t packet[NEEDLEOAT_PACKET_BYTES];
    send_packet(packet, needleoat_requester_packet(&requester, number, packet));
}

/* Hands in what has come, and waits at most so many milliseconds for it. A packet without memory for it is lost. */
static void listen(int most) {
    struct pollfd polled = {.fd = line, .events = POLLIN};
    if (poll(&polled, 1, most) < 0) fail("poll");
    if (!(polled.revents & (POLLIN | POLLHUP | POLLERR))) return;
    uint8_t bytes[256];
    ssize_t count = read(line, bytes, sizeof bytes);
    if (count <= 0) fail("read");
    for (ssize_t i = 0; i < count; i++) {
        if (!serial_reader_take(&reader, bytes[i])) continue;
        struct needleoat_receiving received;
        int tries = MEMORY_TRIES;
        do received = needleoat_requester_receive(&requester, now(), reader.packet, reader.length);
        while (received.kind == NEEDLEOAT_RECEIVING_REFUSED && received.reason == NEEDLEOAT_NO_MEMORY && --tries > 0);
    }
}

/* Asks until there is an answer, with a new request where one was given up. */
static void ask(const struct needleoat_command *command, struct needleoat_answer *answer) {
    uint8_t request[NEEDLEOAT_REQUEST_BYTES], response[NEEDLEOAT_MESSAGE_BYTES];
    uint32_t length = needleoat_command_write(command, request);
    for (;;) {
        if (is_too_soon()) {
            listen(1);
            continue;
        }
        struct needleoat_opening opening = needleoat_requester_open(&requester, now(), request, length);
        if (opening.refusal == NEEDLEOAT_ID_IN_USE || opening.refusal == NEEDLEOAT_NO_MEMORY) {
            listen(1);
            continue;
        }
        if (opening.refusal != 0) {
            fprintf(stderr, "not opened: %u\n", opening.refusal);
            exit(1);
        }
        note_opening();
        send_request(opening.number);
        struct needleoat_status status;
        while (status = needleoat_requester_status(&requester, opening.number, response),
               status.kind == NEEDLEOAT_STATUS_OPEN) {
            listen(10);
            struct needleoat_due due;
            if (needleoat_requester_tick(&requester, now(), &due) != 0) continue;
            for (uint32_t i = 0; i < due.again_count; i++) send_request(due.again[i]);
        }
        request[1] = (uint8_t)(0x80 | opening.instance_id); /* byte 0 is the message type */
        if (status.kind == NEEDLEOAT_STATUS_ANSWERED &&
            needleoat_answer_read(request, length, response, status.length, answer) == 0)
            return;
    }
}

int main(int count, char **words) {
    if (count != 3 && count != 5) {
        fprintf(stderr, "usage: %s LINE HOW_MANY [LIFETIME WINDOW]\n", words[0]);
        return 2;
    }
    if (count == 5) {
        requester_settings.lifetime_ms = (uint32_t)atoi(words[3]);
        requester_settings.window = (uint32_t)atoi(words[4]);
        requester_settings.timeout_ms = requester_settings.lifetime_ms / requester_settings.tries;
    }
    line = open(words[1], O_RDWR | O_NOCTTY);
    if (line < 0) fail(words[1]);
    struct termios settings;
    if (tcgetattr(line, &settings) == 0) {
        cfmakeraw(&settings);
        if (tcsetattr(line, TCSANOW, &settings) != 0) fail(words[1]);
    }
    if (needleoat_requester_new(&requester_settings, &requester) != 0) return 1;
    int wrong = 0;
    for (int i = 0; i < atoi(words[2]); i++) {
        struct needleoat_command set = {.pldm_type = NEEDLEOAT_PLATFORM,
                                        .command = NEEDLEOAT_SET_NUMERIC_EFFECTER_VALUE,
                                        .effecter = 1,
                                        .size = NEEDLEOAT_UINT8,
                                        .value = i * 37 % 101};
        struct needleoat_command get = {
            .pldm_type = NEEDLEOAT_PLATFORM, .command = NEEDLEOAT_GET_NUMERIC_EFFECTER_VALUE, .effecter = 1};
        struct needleoat_answer answer;
        ask(&set, &answer);
        printf("set %d: code %u\n", (int)set.value, answer.code);
        ask(&get, &answer);
        printf("read %d\n", answer.code == 0 ? (int)answer.value : -1);
        wrong += answer.code != 0 || answer.value != set.value;
    }
    needleoat_requester_free(&requester);
    return wrong != 0;
}
