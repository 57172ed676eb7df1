/* Packets in the frames of a serial line. */
#include "serial_frames.h"

enum { FLAG = 0x7e, ESCAPE = 0x7d, REVISION = 1 };

/* The frame check sequence after one more byte. */
static uint16_t checked(uint16_t sequence, uint8_t byte) {
    sequence ^= byte;
    for (int i = 0; i < 8; i++) sequence = (uint16_t)(sequence & 1 ? (sequence >> 1) ^ 0x8408 : sequence >> 1);
    return sequence;
}

size_t serial_frame_write(const uint8_t *packet, size_t length, uint8_t out[SERIAL_FRAME_BYTES]) {
    size_t count = 0;
    uint16_t sequence = checked(checked(0xffff, REVISION), (uint8_t)length);
    out[count++] = FLAG;
    out[count++] = REVISION;
    out[count++] = (uint8_t)length;
    for (size_t i = 0; i < length; i++) {
        sequence = checked(sequence, packet[i]);
        if (packet[i] == FLAG || packet[i] == ESCAPE) {
            out[count++] = ESCAPE;
            out[count++] = packet[i] ^ 0x20;
        } else {
            out[count++] = packet[i];
        }
    }
    out[count++] = (uint8_t)(sequence >> 8);
    out[count++] = (uint8_t)(sequence & 0xff);
    out[count++] = FLAG;
    return count;
}

bool serial_reader_take(struct serial_reader *reader, uint8_t byte) {
    /* A flag opens a frame, but in the check sequence, which is not escaped, and at its end. */
    if (byte == FLAG && reader->next <= FILLED) {
        reader->next = REVISED;
        return false;
    }
    switch (reader->next) {
    case WAITING:
        break;
    case REVISED:
        reader->next = byte == REVISION ? COUNTED : WAITING;
        reader->sequence = checked(0xffff, byte);
        break;
    case COUNTED:
        reader->length = byte;
        reader->count = 0;
        reader->escaped = false;
        reader->sequence = checked(reader->sequence, byte);
        reader->next = byte >= 1 && byte <= NEEDLEOAT_PACKET_BYTES ? FILLED : WAITING;
        break;
    case FILLED:
        if (byte == ESCAPE && !reader->escaped) {
            reader->escaped = true;
            break;
        }
        if (reader->escaped) byte ^= 0x20;
        reader->escaped = false;
        reader->packet[reader->count++] = byte;
        reader->sequence = checked(reader->sequence, byte);
        if (reader->count == reader->length) reader->next = HIGH;
        break;
    case HIGH:
        reader->told = (uint16_t)(byte << 8);
        reader->next = LOW;
        break;
    case LOW:
        reader->told |= byte;
        reader->next = CLOSING;
        break;
    case CLOSING:
        reader->next = byte == FLAG ? REVISED : WAITING;
        return byte == FLAG && reader->told == reader->sequence;
    }
    return false;
}
