"""Captures, with the packets and messages in them: mostly requests that a device knows."""
from choices import pick

# Type, command, name, and the bytes of a request's data that is well formed.
COMMANDS = [
    (0, 0x01, "SetTID", 1),
    (0, 0x02, "GetTID", 0),
    (0, 0x03, "GetPLDMVersion", 6),
    (0, 0x04, "GetPLDMTypes", 0),
    (0, 0x05, "GetPLDMCommands", 5),
    (2, 0x11, "GetSensorReading", 3),
    (2, 0x21, "GetStateSensorReadings", 4),
    (2, 0x31, "SetNumericEffecterValue", 4),
    (2, 0x32, "GetNumericEffecterValue", 2),
    (2, 0x39, "SetStateEffecterStates", 7),
    (2, 0x3A, "GetStateEffecterStates", 2),
    (2, 0x50, "GetPDRRepositoryInfo", 0),
    (2, 0x51, "GetPDR", 13),
]


def request_data(source, command):
    """Data of a request: mostly of the right length, with numbers that the example devices know."""
    kind, code, _, length = command
    if code == 0x51 and kind == 2:
        record = source.choice([0, 0, 1, 1, 2, 2**32 - 1])
        offset = source.choice([0, 0, 1, 239, 299, 300, 2**32 - 1])
        count = source.choice([0, 1, 7, 239, 299, 303, 304, 65535])
        handles = record.to_bytes(4, "little") + offset.to_bytes(4, "little")
        return handles + bytes([source.choice([0, 1, 1, 2])]) + count.to_bytes(2, "little") + bytes(2)
    if kind == 0 and code == 0x03:
        return bytes(4) + bytes([source.choice([0, 1, 1, 1, 2]), source.choice([0, 2, 2, 1, 63])])
    if kind == 2 and code in (0x31, 0x39):
        number = source.choice([1, 2, 4, 10]).to_bytes(2, "little")
        count = source.choice([0, 1, 2, 2, 2, 5, 8, 9])
        fields = count if code == 0x39 else (1, 1, 2, 2, 4, 4, 1, 1, 1, 1)[count]
        width = 2 * fields if code == 0x39 else fields
        return number + bytes([count]) + bytes(source.choice([0, 1, 1, 2, 5, 255]) for _ in range(width))
    if kind == 2 and length >= 2:
        return source.choice([0, 1, 2, 3, 4, 5, 6, 10, 65535]).to_bytes(2, "little") + bytes(length - 2)
    return source.randbytes(length)


def message(source):
    """A PLDM message: mostly a request that a device knows."""
    if source.random() < 0.05:
        return source.randbytes(source.randrange(0, 360))
    command = source.choice(COMMANDS)
    kind, code, data = command[0], command[1], request_data(source, command)
    if source.random() < 0.1:
        kind, code = source.randrange(256), source.randrange(256)
    if source.random() < 0.1:
        data = data + source.randbytes(source.choice([1, 2, 60, 64, 130, 250, 312]))
    if source.random() < 0.05:
        data = data[: source.randrange(len(data) + 1)]
    flags = pick(source, (0x80, 90), (0x00, 4), (0xC0, 3), (0xA0, 3)) | source.choice([0, 1, 2, 31])
    first = pick(source, (0x01, 95), (0x81, 2), (0x02, 2), (0x00, 1))
    return bytes([first, flags, kind, code]) + data


def packets(source, device_eid):
    """The packets of one message, now and then with one that is lost, doubled, longer, shorter or out of place."""
    body = message(source)
    unit = pick(source, (64, 8), (1, 1), (5, 1), (63, 1), (65, 1))
    pieces = [body[i : i + unit] for i in range(0, len(body), unit)] or [b""]
    pieces = pieces[: source.choice([6, 6, 300])]
    if source.random() < 0.06:
        place = source.randrange(len(pieces))
        pieces[place] = source.choice([b"", pieces[place][:-1], pieces[place] + b"\x01"])
    sender = pick(source, (8, 60), (10, 20), (254, 10), (device_eid, 1), (0, 1), (7, 1), (255, 1))
    tag = pick(source, (0x08, 60), (0x09, 15), (0x0F, 10), (0x00, 2))
    number = source.randrange(4)
    made = []
    for place, piece in enumerate(pieces):
        ends = (0x80 if place == 0 else 0) | (0x40 if place == len(pieces) - 1 else 0)
        flags = ends | (number + place) % 4 * 16 | tag
        made.append(bytes([pick(source, (0x01, 98), (0xF1, 1), (0x02, 1)), device_eid, sender, flags]) + piece)
    if source.random() < 0.15:
        place = source.randrange(len(made))
        made[place : place + 1] = source.choice([[], [made[place]] * 2, [source.choice(made)]])
    if source.random() < 0.05:
        source.shuffle(made)
    return made


def capture(source, device_eid):
    """Lines of a capture, with moments that mostly do not go back."""
    moment = source.choice([0, 0, 0, 5, 3_999_999_999_999_000])
    lines = []
    for _ in range(source.choice([0, 1, 1, 2, 3, 5, 8, 20])):
        for packet in packets(source, device_eid):
            digits = packet.hex()
            lines.append(b"%d %s" % (moment, (digits.upper() if source.random() < 0.1 else digits).encode()))
        moment += pick(source, (0, 50), (1, 20), (500, 10), (999, 10), (1000, 10), (1001, 10), (-1, 1))
        moment = max(moment, 0)
        if source.random() < 0.2 and lines:
            lines.append(b"%d %s" % (moment, source.choice(lines).split(b" ")[-1]))
        if source.random() < 0.1:
            lines.append(source.choice([b"", b"  ", b"# a comment", b"  # another", b"\r", b"%d" % moment]))
    ending = pick(source, (b"\n", 9), (b"\r\n", 1))
    return ending.join(lines) + source.choice([ending, b"", b"\n"])
