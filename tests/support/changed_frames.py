"""Frames of a serial line (DSP0253) that were changed on their way, and a reader of them in Python.

The reader follows the table of `docs/PROTOCOL.md`, "What `mctpctl serve` reads and writes", and shares no code with the
program.
"""
import collections
import os
import random
import subprocess
import tempfile

from support.frames import ESCAPE, FLAG, REVISION, check_sequence, frame

MAX_PACKET_BYTES = 68
SECONDS = 600
DEVICE = """eid = 9
keep_ms = 1000
tid = 1
version0 = "00f0f0f1"
version2 = "00f2f1f1"
update_time = "00000000000000000000000000"
oem_update_time = "00000000000000000000000000"
"""


class Reader:
    """Reads frames byte by byte. What it found is in `found`: the name of a drop, or the bytes of a packet."""

    def __init__(self):
        self.found = []
        self.read = self.idle

    def take(self, data):
        for byte in data:
            self.read = self.read(byte)

    def drop(self, name, byte):
        self.found.append(name)
        return self.begin if byte == FLAG else self.idle

    def idle(self, byte):
        return self.begin if byte == FLAG else self.idle

    def begin(self, byte):
        if byte == FLAG:
            return self.begin
        return self.counting if byte == REVISION else self.drop("WrongRevision", byte)

    def counting(self, byte):
        if not 1 <= byte <= MAX_PACKET_BYTES:
            return self.drop("TooLong" if byte else "Empty", byte)
        self.count, self.packet = byte, bytearray()
        return self.inside

    def add(self, byte):
        self.packet.append(byte)
        return self.high if len(self.packet) == self.count else self.inside

    def inside(self, byte):
        if byte == FLAG:
            return self.drop("CutShort", byte)
        return self.escaped if byte == ESCAPE else self.add(byte)

    def escaped(self, byte):
        return self.add(byte ^ 0x20) if byte in (0x5E, 0x5D) else self.drop("BadEscape", byte)

    def high(self, byte):
        self.sent = byte << 8
        return self.low

    def low(self, byte):
        self.sent |= byte
        return self.closing

    def closing(self, byte):
        if byte != FLAG:
            return self.drop("NoEnd", byte)
        is_right = check_sequence(bytes([REVISION, self.count]) + self.packet) == self.sent
        self.found.append(bytes(self.packet) if is_right else "WrongCheck")
        return self.begin


def packet(chance):
    """A packet for endpoint 9, or now and then for another one, with a payload of any length and bytes."""
    head = bytes([1, chance.choice((9, 9, 9, 11)), chance.randrange(8, 12), 0xC8 | chance.randrange(8)])
    special = chance.random() < 0.5
    length = chance.choice((1, 4, 7, 16, 64))
    byte = (lambda: chance.choice((0x7E, 0x7D, 0x5E, 1))) if special else (lambda: chance.randrange(256))
    return head + bytes(byte() for _ in range(length))


def changed(data, chance):
    """These bytes with one to three changes."""
    data = bytearray(data)
    for _ in range(chance.randrange(1, 4)):
        place = chance.randrange(len(data) or 1)
        kind = chance.randrange(7)
        if kind < 2 and data:
            data[place] ^= 1 << chance.randrange(8)
        elif kind == 2:
            del data[place : place + chance.randrange(1, 4)]
        elif kind == 3:
            data[place:place] = data[place : place + chance.randrange(1, 4)]
        elif kind == 4:
            data[place:place] = bytes([chance.choice((FLAG, ESCAPE, REVISION, 0, chance.randrange(256)))])
        elif kind == 5:
            data[place : place + 2] = data[place : place + 2][::-1]
        else:
            del data[place:]
    return bytes(data)


def stream(count, seed):
    """So many changed frames, one after the other, with a frame as it was after every tenth."""
    chance = random.Random(seed)
    for number in range(count):
        yield changed(frame(packet(chance)), chance)
        if number % 10 == 9:
            yield frame(packet(chance))


def served(program, data):
    """The program's status, what it named on standard error, and the packets of its capture that it did not send."""
    with tempfile.TemporaryDirectory() as folder:
        device, log, line = (os.path.join(folder, name) for name in ("device.toml", "log", "line"))
        with open(device, "w") as file:
            file.write(DEVICE)
        with open(line, "wb") as file:
            file.write(data)
        words = [program, "serve", "--device", device, "--verbose", "--log", log]
        with open(line, "rb") as given:
            ran = subprocess.run(words, stdin=given, stdout=subprocess.DEVNULL, stderr=subprocess.PIPE, timeout=SECONDS)
        front = "mctpctl: no frame: "
        named = [it.removeprefix(front) for it in ran.stderr.decode().splitlines() if it.startswith(front)]
        with open(log) as file:
            packets = [bytes.fromhex(text.split()[1]) for text in file if len(text.split()) == 2]
        # an answer of the device comes from endpoint 9, and no packet that is sent to it does
        return ran.returncode, named, [it for it in packets if it[2:3] != b"\x09" or it[1:2] == b"\x09"]


def compare(program, count, seed):
    """How often each thing came, and where the program says otherwise: an empty text where it does not."""
    data = b"".join(stream(count, seed))
    reader = Reader()
    reader.take(data)
    dropped = [it for it in reader.found if isinstance(it, str)]
    packets = [it for it in reader.found if isinstance(it, bytes)]
    counts = collections.Counter(dropped)
    counts["packets"] = len(packets)
    status, named, came = served(program, data)
    own = [it for it in packets if it[2:3] != b"\x09" or it[1:2] == b"\x09"]
    if status != 0:
        return counts, f"the program ended with status {status}"
    for what, want, got in (("drop", dropped, named), ("packet", own, came)):
        if want != got:
            place = next((i for i, pair in enumerate(zip(want, got)) if pair[0] != pair[1]), min(len(want), len(got)))
            return counts, f"{what} {place} of {len(want)} is {got[place : place + 1]}, not {want[place : place + 1]}"
    return counts, ""
