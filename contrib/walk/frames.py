"""Packets in frames on a serial line, as DSP0253 has them: a packet to its frame, and bytes to the packets in them."""

FLAG, ESCAPE, REVISION = 0x7E, 0x7D, 0x01
CHANGED = 0x20  # the bit of an escaped byte that is turned over
MOST_BYTES = 68


def check_sequence(data):
    """FCS-16 of RFC 1662 from 0xFFFF, without its final complement."""
    sequence = 0xFFFF
    for byte in data:
        sequence ^= byte
        for _ in range(8):
            sequence = sequence >> 1 ^ (0x8408 if sequence & 1 else 0)
    return sequence


assert check_sequence(b"123456789") == 0x6F91  # as catalogues of checksums have it


def frame(packet):
    head = bytes([REVISION, len(packet)])
    body = bytearray()
    for byte in packet:
        body += bytes([ESCAPE, byte ^ CHANGED]) if byte in (FLAG, ESCAPE) else bytes([byte])
    return bytes([FLAG, *head, *body, *check_sequence(head + packet).to_bytes(2, "big"), FLAG])


class FrameReader:
    """Takes bytes as they come, and finds the packets of whole frames; `wrong` counts what began and was none."""

    def __init__(self):
        self.held = b""
        self.wrong = 0

    def take(self, data):
        self.held += data

    def packet(self):
        """The packet of the next whole frame, None where none has come yet."""
        while True:
            start = self.held.find(bytes([FLAG]))
            if start < 0:
                self.held = b""
                return None
            self.held = self.held[start:].lstrip(bytes([FLAG]))
            self.held = bytes([FLAG]) + self.held
            found = self.first_frame()
            if found is None:
                return None
            length, packet = found
            self.held = self.held[length:]
            if packet is not None:
                return packet
            self.wrong += 1

    def first_frame(self):
        """How many bytes the frame at the front has, up to its last flag, and its packet; None where more have to come.
        Where no frame stands there: 1 byte, and no packet."""
        held = self.held
        if len(held) < 3:
            return None
        if held[1] != REVISION or not 1 <= held[2] <= MOST_BYTES:
            return 1, None
        packet, place = bytearray(), 3
        while len(packet) < held[2] and place + 1 < len(held):
            if held[place] == FLAG:
                return 1, None
            step = 2 if held[place] == ESCAPE else 1
            packet.append(held[place + 1] ^ CHANGED if step == 2 else held[place])
            place += step
        if len(packet) < held[2] or len(held) < place + 3:
            return None
        sequence = check_sequence(bytes([REVISION, len(packet)]) + packet).to_bytes(2, "big")
        well = held[place : place + 3] == sequence + bytes([FLAG])
        return (place + 2, bytes(packet)) if well else (1, None)
