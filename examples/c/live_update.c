/*
 * The agent of a firmware update on a serial line (DSP0253): argument 1 is the line, a terminal such as /dev/ttyS0,
 * argument 2 how many KiB the image has, at most 128. The device is at endpoint 9 (update_ends.h). It writes what came
 * of it, and ends with 0 where the device reads back the image byte for byte.
 */
#define _DEFAULT_SOURCE
#include "needleoat.h"
#include "serial_frames.h"
#include "update_ends.h"
#include <fcntl.h>
#include <poll.h>
#include <stdio.h>
#include <stdlib.h>
#include <termios.h>
#include <time.h>
#include <unistd.h>

enum { MOST_KIB = 128, UPDATE_SECONDS = 100 };

static int line;
static uint8_t image[MOST_KIB * 1024];

static void fail(const char *what) {
    perror(what);
    exit(1);
}

/* Milliseconds of a clock that never goes back. */
uint64_t moment(void) {
    struct timespec time;
    if (clock_gettime(CLOCK_MONOTONIC, &time) != 0) fail("clock");
    return (uint64_t)time.tv_sec * 1000 + (uint64_t)time.tv_nsec / 1000000;
}

void send_packet(const uint8_t *packet, uint32_t length) {
    uint8_t frame[SERIAL_FRAME_BYTES];
    size_t count = serial_frame_write(packet, length, frame);
    for (size_t sent = 0; sent < count;) {
        ssize_t wrote = write(line, frame + sent, count - sent);
        if (wrote <= 0) fail("write");
        sent += (size_t)wrote;
    }
}

/* Hands in what has come, and waits at most a millisecond for it. */
static void listen_to_line(void) {
    static struct serial_reader reader;
    struct pollfd polled = {.fd = line, .events = POLLIN};
    if (poll(&polled, 1, 1) < 0) fail("poll");
    if (!(polled.revents & (POLLIN | POLLHUP | POLLERR))) return;
    uint8_t bytes[256];
    ssize_t count = read(line, bytes, sizeof bytes);
    if (count <= 0) fail("read");
    for (ssize_t i = 0; i < count; i++)
        if (serial_reader_take(&reader, bytes[i])) agent_come(reader.packet, (uint32_t)reader.length);
}

/* Runs until the device has accepted the last command, or for too long. */
static bool run(void) {
    for (uint64_t end = moment() + UPDATE_SECONDS * UINT64_C(1000); !agent_is_over() && moment() < end;) {
        agent_turn();
        listen_to_line();
    }
    return agent_is_over();
}

int main(int count, char **words) {
    uint32_t size = count == 3 ? (uint32_t)atoi(words[2]) * 1024 : 0;
    if (size == 0 || size > sizeof image) {
        fprintf(stderr, "usage: %s LINE KIB\n", words[0]);
        return 2;
    }
    line = open(words[1], O_RDWR | O_NOCTTY);
    if (line < 0) fail(words[1]);
    struct termios settings;
    if (tcgetattr(line, &settings) == 0) {
        cfmakeraw(&settings);
        if (tcsetattr(line, TCSANOW, &settings) != 0) fail(words[1]);
    }
    for (uint32_t i = 0; i < size - 4; i++) image[i] = (uint8_t)(i * 7 + (i >> 8));
    put_u32(image + size - 4, needleoat_crc32(image, size - 4));
    if (agent_begin() != 0) return 1;
    agent_start(image, size, size);
    bool is_active = run();
    printf("%s\n", is_active ? "activated" : "not activated");
    agent_read_back(size);
    bool is_same = is_active && run() && agent_has_read(image, size);
    printf("%s\n", is_same ? "read back the same" : "not read back");
    agent_end();
    return !is_same;
}
