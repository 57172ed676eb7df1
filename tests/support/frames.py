"""Packets in the frames of a serial line (DSP0253), written from the standard and without mctpctl."""

FLAG, ESCAPE, REVISION = 0x7E, 0x7D, 0x01
ESCAPED = {FLAG: b"\x7d\x5e", ESCAPE: b"\x7d\x5d"}


def check_sequence(data):
    """FCS-16 as DSP0253 has it: from 0xFFFF, the polynomial 0x8408 (reflected), with no final complement."""
    sequence = 0xFFFF
    for byte in data:
        sequence ^= byte
        for _ in range(8):
            sequence = sequence >> 1 ^ (0x8408 if sequence & 1 else 0)
    return sequence


def frame(packet):
    """A flag, the revision, the count, the packet with its escapes, the check sequence, high byte first, and a flag."""
    head = bytes([REVISION, len(packet)])
    body = b"".join(ESCAPED.get(byte, bytes([byte])) for byte in packet)
    return bytes([FLAG]) + head + body + check_sequence(head + packet).to_bytes(2, "big") + bytes([FLAG])


def packets_of(text):
    """The packets of a capture, whose lines are a moment and hex; blank lines and comments have none."""
    lines = (line.split() for line in text.splitlines())
    return [bytes.fromhex(words[1]) for words in lines if len(words) == 2 and not words[0].startswith("#")]


def read_frame(data):
    """The packet of the frame at the front of `data`, and what follows it; ValueError where no whole frame is there."""
    if len(data) < 3 or data[0] != FLAG or data[1] != REVISION:
        raise ValueError(f"no frame begins: {data[:8].hex()}")
    packet, place = bytearray(), 3
    while len(packet) < data[2]:
        step = 2 if data[place : place + 1] == b"\x7d" else 1
        taken = data[place : place + step]
        if len(taken) < step or taken[0] == FLAG:
            raise ValueError("the frame is cut short")
        packet.append({b"\x7d\x5e": FLAG, b"\x7d\x5d": ESCAPE}[bytes(taken)] if step == 2 else taken[0])
        place += step
    if data[place : place + 3] != check_sequence(data[1:3] + packet).to_bytes(2, "big") + bytes([FLAG]):
        raise ValueError(f"the frame ends in {data[place : place + 3].hex()}")
    return bytes(packet), data[place + 3 :]


def read_frames(data):
    packets = []
    while data:
        packet, data = read_frame(data)
        packets.append(packet)
    return packets


# The check value of this sequence, as catalogues of them have it, and DSP0253's own bytes for a flag and an escape.
assert check_sequence(b"123456789") == 0x6F91
assert frame(b"\x7e\x7d")[:7] == b"\x7e\x01\x02\x7d\x5e\x7d\x5d"
