"""A device with many sensors, effecters and records, and random requests to it.

It is endpoint 9 and keeps answers for 1,000 ms. It has 200 numeric sensors, 100 numeric effecters from 0 to 100, 50
state effecters of eight fields, and 20 records of 500 to 2,400 bytes.
"""

import random

OWN = 9
KEEP = 1000
SENSORS = 200
NUMERIC = 100
STATE = range(101, 151)
FIELDS = 8
RECORDS = 20
SIZES = (("uint8", 1), ("sint8", 1), ("uint16", 2), ("sint16", 2), ("uint32", 4), ("sint32", 4))
SOURCES = [eid for eid in range(8, 255) if eid != OWN]


def size_of(place):
    """The data size of the sensor or numeric effecter at this place: its name, its code and its bytes."""
    code = place % len(SIZES)
    name, width = SIZES[code]
    return name, code, width


def record(handle, source):
    body = source.randbytes(390 + 100 * handle)
    head = handle.to_bytes(4, "little") + bytes([1, 1, 0, 0]) + len(body).to_bytes(2, "little")
    return head + body


def description():
    """The device as TOML, and the line that divides."""
    source = random.Random(0)
    zeros = "00" * 13
    lines = [f"eid = {OWN}", f"keep_ms = {KEEP}", "tid = 1", 'version0 = "00f0f0f1"', 'version2 = "00f2f1f1"']
    lines += [f'update_time = "{zeros}"', f'oem_update_time = "{zeros}"']
    for place in range(SENSORS):
        lines += ["[[numeric_sensor]]", f"id = {place + 1}", f'size = "{size_of(place)[0]}"', "states = [1, 1, 1]"]
        lines += [f"value = {place % 100}"]
    for place in range(NUMERIC):
        lines += ["[[numeric_effecter]]", f"id = {place + 1}", f'size = "{size_of(place)[0]}"']
        lines += ["min = 0", "max = 100", "value = 10"]
    for identifier in STATE:
        allowed = ", ".join(["[1, 2, 3]"] * FIELDS)
        lines += ["[[state_effecter]]", f"id = {identifier}", f"allowed = [{allowed}]", f"values = {[1] * FIELDS}"]
    for handle in range(1, RECORDS + 1):
        lines += ["[[pdr]]", f'hex = "{record(handle, source).hex()}"']
    return "\n".join(lines).encode() + b"\n%%\n"


def two_bytes(number):
    return number.to_bytes(2, "little")


def short_request(identifier, source):
    """A message of one packet: half read a sensor, most others set a numeric effecter; a few are refused."""
    head = bytes([1, 0x80 | identifier])
    kind = source.random()
    if kind < 0.5:
        return head + b"\x02\x11" + two_bytes(source.randrange(1, SENSORS + 6)) + b"\x00"
    if kind < 0.9:
        place = source.randrange(NUMERIC)
        _, code, width = size_of(place)
        value = source.randrange(103).to_bytes(width, "little")
        return head + b"\x02\x31" + two_bytes(place + 1) + bytes([code]) + value
    if kind < 0.95:
        return head + b"\x02\x32" + two_bytes(source.randrange(1, NUMERIC + 3))
    return head + b"\x00\x02"


def long_request(identifier, source):
    """A message that is cut into four packets, and the length of its pieces: half set a state effecter, most others
    ask for a part of a record, and the rest are too long for their command, with random bytes."""
    head = bytes([1, 0x80 | identifier])
    kind = source.random()
    if kind < 0.5:
        fields = b"".join(bytes([source.randrange(2), source.randrange(1, 4)]) for _ in range(FIELDS))
        return head + b"\x02\x39" + two_bytes(source.choice(STATE)) + bytes([FIELDS]) + fields, 6
    if kind < 0.8:
        handle = source.randrange(RECORDS + 2).to_bytes(4, "little")
        transfer = source.choice((0, 239, 478)).to_bytes(4, "little")
        return head + b"\x02\x51" + handle + transfer + bytes([source.randrange(2)]) + b"\xff\xff\x00\x00", 5
    return head + b"\x02\x39" + source.randbytes(source.randrange(190, 253)), 64


def command(source):
    """The words of a command in a schedule."""
    kind = source.random()
    if kind < 0.4:
        return f"sensor {source.randrange(1, SENSORS + 6)}"
    if kind < 0.75:
        place = source.randrange(NUMERIC)
        return f"setnum {place + 1} {size_of(place)[0]} {source.randrange(103)}"
    if kind < 0.85:
        states = " ".join(source.choice("-123") for _ in range(FIELDS))
        return f"setstate {source.choice(STATE)} {states}"
    if kind < 0.95:
        return f"getpdr {source.randrange(RECORDS + 2)} 0 first 65535"
    return "gettid"
