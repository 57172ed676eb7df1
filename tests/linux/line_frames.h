/*
 * The frames of a serial line (DSP0253), as a device of the test writes and reads them. Whole frames may be lost on the
 * way, but no byte of one, so no check sequence is looked at here.
 */
#include <stdbool.h>
#include <stddef.h>
#include <stdint.h>
#include <stdlib.h>
#include <unistd.h>

enum { FLAG = 0x7e, ESCAPE = 0x7d, REVISION = 1, MOST_BYTES = 255 };

static void write_all(int file, const void *bytes, size_t count) {
    for (size_t written = 0; written < count;) {
        ssize_t more = write(file, (const char *)bytes + written, count - written);
        if (more <= 0) exit(1);
        written += (size_t)more;
    }
}

/* The frame check sequence after one more byte. */
static uint16_t checked(uint16_t sequence, uint8_t byte) {
    sequence ^= byte;
    for (int i = 0; i < 8; i++) sequence = (uint16_t)(sequence & 1 ? (sequence >> 1) ^ 0x8408 : sequence >> 1);
    return sequence;
}

static void write_line_frame(int line, const uint8_t *packet, size_t length) {
    uint8_t frame[6 + 2 * MOST_BYTES] = {FLAG, REVISION, (uint8_t)length};
    uint16_t sequence = checked(checked(0xffff, REVISION), (uint8_t)length);
    size_t count = 3;
    for (size_t i = 0; i < length; i++) {
        bool escaped = packet[i] == FLAG || packet[i] == ESCAPE;
        sequence = checked(sequence, packet[i]);
        if (escaped) frame[count++] = ESCAPE;
        frame[count++] = escaped ? packet[i] ^ 0x20 : packet[i];
    }
    frame[count++] = (uint8_t)(sequence >> 8);
    frame[count++] = (uint8_t)(sequence & 0xff);
    frame[count++] = FLAG;
    write_all(line, frame, count);
}

/* The frame that comes, as far as it has come: the flag, the revision, the count, and so on. */
static struct {
    size_t place, length, count;
    bool escaped;
    uint8_t packet[MOST_BYTES], tail[2];
} frame;

/* Takes a byte. True where it ends a frame. */
static bool take_line_byte(uint8_t byte) {
    switch (frame.place) {
    case 0:
        frame.place = byte == FLAG;
        return false;
    case 1:
        frame.place = byte == FLAG ? 1 : byte == REVISION ? 2 : 0;
        return false;
    case 2:
        frame.length = byte, frame.count = 0, frame.escaped = false, frame.place = 3;
        return false;
    case 3:
        if (byte == ESCAPE && !frame.escaped) {
            frame.escaped = true;
            return false;
        }
        frame.packet[frame.count++] = frame.escaped ? byte ^ 0x20 : byte;
        frame.escaped = false;
        frame.place += frame.count == frame.length;
        return false;
    case 4:
    case 5:
        frame.tail[frame.place++ - 4] = byte;
        return false;
    default:
        frame.place = byte == FLAG; /* this flag may open the next frame too */
        return byte == FLAG;
    }
}
