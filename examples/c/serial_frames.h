/*
 * Packets in the frames of a serial line (DSP0253): a flag, the revision, how many bytes the packet has, the packet
 * with its escapes, the frame check sequence, and a flag.
 */
#ifndef SERIAL_FRAMES_H
#define SERIAL_FRAMES_H
#include "needleoat.h"

enum { SERIAL_FRAME_BYTES = 6 + 2 * NEEDLEOAT_PACKET_BYTES };

/* Writes the frame of a packet to the front of `out`, and returns its length. */
size_t serial_frame_write(const uint8_t *packet, size_t length, uint8_t out[SERIAL_FRAME_BYTES]);

/* What has come of a frame, and what comes next. It begins as zeros. */
struct serial_reader {
    enum { WAITING, REVISED, COUNTED, FILLED, HIGH, LOW, CLOSING } next;
    bool escaped;
    uint8_t packet[NEEDLEOAT_PACKET_BYTES];
    size_t length, count;
    uint16_t sequence, told;
};

/* Takes a byte. True where it ends the frame of a packet: the packet is `length` bytes of `packet`. */
bool serial_reader_take(struct serial_reader *reader, uint8_t byte);

#endif
