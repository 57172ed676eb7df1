"""Captures for the scripts of this folder.

Packets over the device of examples/device.toml (endpoint 9, answers kept for 1,000 ms). Packet n is counted from 0, and
the sources are the endpoints 8 to 254 but 9, in turn:

- one: one-packet requests GetSensorReading, all from endpoint 8. Packet n comes at 32 * n ms with the instance ID
  n mod 32, so each instance ID comes again after 1,024 ms, and each request is fresh.
- many: the same requests from all 246 sources. Packet n comes at n ms from source n mod 246 with the instance ID
  (n / 246) mod 32. Each source and instance ID comes again after 7,872 ms.
- copies: the requests of `many`, each sent four times in a row. One in four is fresh.
- messages: messages of four full packets (a GetTID with 252 bytes too many, which is refused), eight sources
  interleaved: packet 0 of each of the eight, then packet 1 of each, and so on.

Two more are random, the same in each run, over the device of `large_device.py`:

- scattered: requests of one packet, each from any of the 246 sources with any instance ID and tag; of ten packets one
  is a late copy of one of the 64 requests before it.
- interleaved: requests of four packets, 24 of them open at a time, of any source and tag; the next packet is of any of
  the 24.
"""

import random

from large_device import OWN, SOURCES, description, long_request, short_request
from timing import DESCRIBED


def packet(moment, source, flags, payload):
    return b"%d 01%02x%02x%02x%s\n" % (moment, OWN, source, flags, payload)


def reading(identifier):
    """The message GetSensorReading of sensor 1 with this instance ID, as hex."""
    return b"01%02x0211010000" % (0x80 + identifier)


def request(number):
    """The request of this number over all sources: its source, its tag, and the message as hex."""
    return SOURCES[number % len(SOURCES)], number % 8, reading(number // len(SOURCES) % 32)


def one():
    number = 0
    while True:
        yield packet(32 * number, SOURCES[0], 0xC8 + number % 8, reading(number % 32))
        number += 1


def many():
    number = 0
    while True:
        source, tag, message = request(number)
        yield packet(number, source, 0xC8 + tag, message)
        number += 1


def copies():
    number = 0
    while True:
        source, tag, message = request(number)
        for _ in range(4):
            yield packet(number, source, 0xC8 + tag, message)
        number += 1


def messages():
    number = 0
    while True:
        group = [number + i for i in range(8)]
        for piece in range(4):
            for member in group:
                source = SOURCES[member % len(SOURCES)]
                identifier = member // len(SOURCES) % 32
                head = b"01%02x0002" % (0x80 + identifier) if piece == 0 else b""
                flags = (0x80 if piece == 0 else 0) | (0x40 if piece == 3 else 0) | piece << 4 | 0x08
                payload = head + b"00" * (64 - len(head) // 2)
                yield packet(number, source, flags | member % 8, payload)
        number += 8


def scattered():
    source = random.Random(1)
    moment = 0
    recent = []
    while True:
        if recent and source.random() < 0.1:
            said = source.choice(recent)
        else:
            message = short_request(source.randrange(32), source)
            said = bytes([1, OWN, source.choice(SOURCES), 0xC8 | source.randrange(8)]) + message
            recent = recent[-63:] + [said]
        yield b"%d %s\n" % (moment, said.hex().encode())
        moment += source.random() < 0.3


def packets_of(message, unit, sender, tag, first):
    """The packets of a message that is cut into pieces of this length, the first with this sequence number."""
    pieces = [message[place : place + unit] for place in range(0, len(message), unit)]
    for number, piece in enumerate(pieces):
        start, end = number == 0, number == len(pieces) - 1
        flags = start << 7 | end << 6 | (first + number) % 4 << 4 | 0x08 | tag
        yield bytes([1, OWN, sender, flags]) + piece


def interleaved():
    source = random.Random(2)
    moment = 0
    open_messages = {}
    while True:
        while len(open_messages) < 24:
            key = source.choice(SOURCES), source.randrange(8)
            if key not in open_messages:
                message, unit = long_request(source.randrange(32), source)
                open_messages[key] = list(packets_of(message, unit, *key, source.randrange(4)))
        key = source.choice(list(open_messages))
        said = open_messages[key].pop(0)
        if not open_messages[key]:
            del open_messages[key]
        yield b"%d %s\n" % (moment, said.hex().encode())
        moment += source.random() < 0.1


# each rule with the device that its packets are for
RULES = [(rule, DESCRIBED) for rule in (one, many, copies, messages)]
RULES += [(rule, description()) for rule in (scattered, interleaved)]
