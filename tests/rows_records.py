"""Rows for `tests/check` over the table `records` of a description, and the key `version_checksum`.

What is wanted comes from the layouts of DSP0248 alone: a reader of records that knows nothing of the program's own.
"""
import struct
import zlib

from support.examples import text_of

TABLE = '[records]\nname = "Board"\nentity = [64, 1, 100]\n'
UNITS = {2: "degrees C", 5: "V", 19: "RPM", 65: "%"}


def asked(number, command, data):
    """The packet of a platform request with this instance ID, from endpoint 8 to 9."""
    return f"{number} 010908{0xC8 | number % 8:02x}01{0x80 | number % 32:02x}02{command:02x}{data.hex()}\n"


def messages(text):
    """The messages of the packets, without the PLDM header."""
    message, done = b"", []
    for line in text.split():
        packet = bytes.fromhex(line)
        message += packet[4:]
        if packet[3] & 0x40:
            done.append(message[4:])
            message = b""
    return done


def records(run, device):
    """The records of a device, each asked for whole, by the handle that came before; and the repository's counts."""
    found, handle = [], 0
    while not found or handle:
        get = struct.pack("<IIBHH", handle, 0, 1, 303, 0)
        ran = run(["answer"], f"{device}%%\n{asked(0, 0x50, b'')}{asked(1, 0x51, get)}")
        info, part = messages(ran.stdout.decode())
        handle, _, flag, count = struct.unpack("<IIBH", part[1:12])
        assert (info[0], part[0], flag, len(part)) == (0, 0, 5, 12 + count), part
        found.append(part[12:])
    return found, struct.unpack("<III", info[28:40])


def name_of(text):
    """The first name in a record of names: a tag that ends with a zero byte, and a text that ends with two."""
    text = text[text.index(0) + 1:]
    units = [text[at:at + 2] for at in range(0, len(text), 2)]
    return b"".join(units[:units.index(b"\0\0")]).decode("utf-16-be")


def number(form, data, at):
    kind = "BbHhIi"[form]
    return struct.unpack_from(f"<{kind}", data, at)[0], at + struct.calcsize(kind)


def numeric_sensor(data):
    """Its ID, data size, unit and modifier, and the thresholds that it supports."""
    ident, unit, modifier, form = struct.unpack_from("<2xH8xBb", data) + (data[22],)
    _, at = number(form, data, 35)
    supported, at = data[at], at + 10
    highest, at = number(form, data, at)
    lowest, at = number(form, data, at)
    range_form, at = data[at], at + 2
    fields = []
    for _ in range(9):
        field, at = number(range_form, data, at)
        fields.append(field)
    assert at == len(data), data
    names = ("high warning", "high critical", "high fatal", "low warning", "low critical", "low fatal")
    places = (3, 5, 7, 4, 6, 8)
    limits = {name: fields[place] for bit, (name, place) in enumerate(zip(names, places)) if supported >> bit & 1}
    return ident, form, UNITS[unit], modifier, (lowest, highest), limits


# What board.toml says of its numeric sensors, in the order of their IDs.
SENSORS = [
    (1, 2, "RPM", 0, (0, 65535), {"low warning": 1200, "low critical": 600}),
    (2, 3, "degrees C", -1, (-32768, 32767), {"high warning": 700, "high critical": 850, "high fatal": 1000}),
    (3, 2, "V", -3, (0, 65535), {"high warning": 12600, "low warning": 11400}),
    (4, 2, "V", -3, (0, 65535), {"high warning": 3465, "low warning": 3135}),
]
TYPES = [1, 16, 2, 6, 2, 6, 2, 6, 2, 6, 4, 6, 9, 13, 11, 13]
NAMES = {(6, 1): "Fan", (6, 2): "Inlet temperature", (6, 3): "12 V", (6, 4): "3.3 V", (6, 5): "Power",
         (13, 1): "Fan speed", (13, 2): "Power"}


def board(rows, run):
    device = text_of("board.toml")
    found, counts = records(run, device)
    headers = [struct.unpack_from("<IBBHH", it) for it in found]
    want = [(place + 1, 1, kind, 0, len(it) - 10) for place, (kind, it) in enumerate(zip(TYPES, found))]
    rows.check("board.toml: each record's header", headers == want, repr(headers))
    sizes = [len(it) for it in found]
    rows.check("board.toml: its records are counted", counts == (len(found), sum(sizes), max(sizes)), repr(counts))
    sensors = [numeric_sensor(it[10:]) for it in found if it[5] == 2]
    rows.check("board.toml: its numeric sensors", sensors == SENSORS, repr(sensors))
    names = {(it[5], it[12]): name_of(it[16:]) for it in found if it[5] in (6, 13)}
    rows.check("board.toml: its names", names == NAMES, repr(names))
    rows.check("board.toml: the terminus", found[0][10:] == bytes.fromhex("010001010000010109"), found[0].hex())
    rows.check("board.toml: its own name", name_of(found[1][18:]) == "Board", found[1].hex())


# A line of an entry or of the table, and the fault that is reported.
FAULTS = [
    ('name = 1', "WrongKind"), ('name = ""', "OutOfRange"), (f'name = "{"x" * 128}"', "OutOfRange"),
    ('name = "\u00e4"', "OutOfRange"), ("entity = 1", "WrongKind"), ("entity = [1, 2]", "OutOfRange"),
    ("entity = [1, 2, 65536]", "OutOfRange"), ('entity = [1, "2"]', "WrongKind"),
    ("unit = 256", "OutOfRange"), ('unit = "furlongs"', "OutOfRange"), ("unit = true", "WrongKind"),
    ("modifier = 128", "OutOfRange"), ("modifier = 0.5", "WrongKind"), ("warning_high = 256", "OutOfRange"),
    ("fatal_low = -1", "OutOfRange"), ('nominal = "x"', "WrongKind"), ("name = 1\nunit = 256", "WrongKind"),
    ("unit = 256\nmodifier = true", "OutOfRange"),
]


def faults(rows, run, device):
    for line, fault in FAULTS:
        entry = device.replace("value = 40\n", f"value = 40\n{line}\n")
        ran = run(["answer"], f"{entry}%%\n")
        well = (ran.returncode, ran.stdout) == (0, b"")
        rows.check(f"without the table no {line!r} is looked at", well, repr(ran))
        ran = run(["answer"], f"{entry}{TABLE}%%\n")
        well = (ran.returncode, ran.stdout, ran.stderr) == (1, b"", f"mctpctl: device: {fault}\n".encode())
        rows.check(f"with the table {line!r} is {fault}", well, repr(ran))


def versions(rows, run, device):
    get = "0 010908c801800003000000000100\n"
    version = bytes.fromhex("00f0f0f1")
    checked = version + zlib.crc32(version).to_bytes(4, "little")
    for line, want in (("", version), ("version_checksum = true\n", checked)):
        ran = run(["answer"], f"{line}{device}%%\n{get}")
        told = messages(ran.stdout.decode())
        rows.check(f"the version with {line.strip() or 'no key'}", told and told[0][6:] == want, repr(ran))


def check(rows, run, device):
    board(rows, run)
    faults(rows, run, device)
    versions(rows, run, device)
