/*
 * i2c_bridge: the controller of a device on an I2C bus (DSP0237), for a device that speaks on a serial line (DSP0253).
 * Standard input and output are the bus: each transfer is a line of hex, from the address byte on. File descriptor 3
 * is the serial line. The frames of I2C are read and written by the C library, those of the serial line by
 * line_frames.h. A transfer that is no frame is named by its fault's number on standard error. It ends where the bus or
 * the line does.
 */
#include "line_frames.h"
#include "needleoat.h"
#include <inttypes.h>
#include <poll.h>
#include <stdio.h>
#include <stdlib.h>
#include <string.h>
#include <unistd.h>

enum { OWN_ADDRESS = 0x1d, BUS_IN = 0, BUS_OUT = 1, LINE = 3 };

static uint8_t source_address; /* where the last packet came from: what the device says is its answer */

/* ---- The bus ---- */

static void write_transfer(const uint8_t *bytes, uint32_t count) {
    char text[2 * NEEDLEOAT_I2C_FRAME_BYTES + 2];
    for (uint32_t i = 0; i < count; i++) snprintf(text + 2 * i, 3, "%02x", bytes[i]);
    text[2 * count] = '\n';
    write_all(BUS_OUT, text, 2 * (size_t)count + 1);
}

/* Reads the transfer of a line of hex. */
static void take_transfer(const char *text) {
    uint8_t bytes[512];
    size_t count = 0;
    while (count < sizeof bytes && sscanf(text + 2 * count, "%2" SCNx8, &bytes[count]) == 1) count++;
    struct needleoat_i2c_frame read = needleoat_i2c_read(OWN_ADDRESS, bytes, count);
    if (read.fault != 0) {
        fprintf(stderr, "fault %u\n", read.fault);
        return;
    }
    source_address = read.source_address;
    write_line_frame(LINE, bytes + read.packet_start, read.packet_length);
}

/* Takes bytes of the bus, of which a line may come in pieces. */
static void take_bus_bytes(const char *bytes, size_t count) {
    static char text[2048];
    static size_t length;
    for (size_t i = 0; i < count; i++) {
        if (bytes[i] != '\n') {
            if (length < sizeof text - 1) text[length++] = bytes[i];
            continue;
        }
        text[length] = 0;
        take_transfer(text);
        length = 0;
    }
}

/* Writes what the device says to the one that asked. */
static void take_line_bytes(const uint8_t *bytes, size_t count) {
    uint8_t out[NEEDLEOAT_I2C_FRAME_BYTES];
    for (size_t i = 0; i < count; i++)
        if (take_line_byte(bytes[i]))
            write_transfer(out, needleoat_i2c_write(OWN_ADDRESS, source_address, frame.packet, frame.length, out));
}

int main(void) {
    struct pollfd ends[2] = {{.fd = BUS_IN, .events = POLLIN}, {.fd = LINE, .events = POLLIN}};
    uint8_t bytes[4096];
    while (poll(ends, 2, -1) > 0) {
        for (int i = 0; i < 2; i++) {
            if (!ends[i].revents) continue;
            ssize_t count = read(ends[i].fd, bytes, sizeof bytes);
            if (count <= 0) return count < 0;
            if (i == 0) take_bus_bytes((char *)bytes, (size_t)count);
            else take_line_bytes(bytes, (size_t)count);
        }
    }
    return 1;
}
