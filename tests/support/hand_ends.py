"""An end of PLDM over a serial line, by hand: messages of firmware update in packets and frames, without mctpctl.

Packets are those of DSP0236, messages those of DSP0240, frames those of DSP0253. Nothing is asked again: nothing is
lost on the line of a test.
"""
import os
import select
import time

from support.changed_frames import Reader
from support.frames import frame
from support.packages import u16, u32

UPDATES = 5  # the PLDM type
PAYLOAD = 64
SOM, EOM, TO = 0x80, 0x40, 0x08
COMPONENT = bytes.fromhex("0a00 0100 00")  # 10:1:0
SILENT = object()


class HandEnd:
    """An end with this endpoint ID on one side of a line, and what it got and was asked."""

    def __init__(self, line, own, peer):
        self.line, self.own, self.peer = line, own, peer
        self.reader, self.parts, self.answers = Reader(), {}, {}
        self.count, self.asked = 0, []

    def answer(self, command, data):
        """The answer to a request, from the completion code on; SILENT for none."""
        raise NotImplementedError

    def send(self, flags, message):
        """Sends a message in as many packets as it takes."""
        body = bytes([1]) + message
        places = range(0, len(body), PAYLOAD)
        for number, place in enumerate(places):
            bits = (SOM if number == 0 else 0) | (EOM if number == len(places) - 1 else 0) | (number % 4) << 4
            os.write(self.line, frame(bytes([1, self.peer, self.own, bits | flags]) + body[place : place + PAYLOAD]))

    def respond(self, request, answer):
        """Answers a request, which is the flags of its packets, its header and its data."""
        flags, header, _ = request
        self.send(flags & 7, bytes([header[0] & 0x1F, *header[1:]]) + answer)

    def pass_time(self, seconds=0.0):
        """Takes what comes in so many seconds, and at least what is there."""
        until = time.monotonic() + seconds
        while select.select([self.line], [], [], max(until - time.monotonic(), 0))[0]:
            self.reader.take(os.read(self.line, 4096))
            packets = [packet for packet in self.reader.found if isinstance(packet, bytes)]
            self.reader.found.clear()
            for packet in packets:
                self.take(packet)

    def take(self, packet):
        flags = packet[3] & 0x0F
        self.parts[flags] = (b"" if packet[3] & SOM else self.parts.get(flags, b"")) + packet[4:]
        if not packet[3] & EOM:
            return
        message = self.parts.pop(flags)[1:]
        if not flags & TO:
            self.answers[message[0] & 0x1F] = message[3:]
            return
        request = (flags, message[:3], message[3:])
        self.asked.append((time.monotonic(), *request))
        answer = self.answer(message[2], message[3:])
        if answer is not SILENT:
            self.respond(request, answer)

    def ask(self, command, data=b"", seconds=5.0):
        """The answer to a request, from the completion code on; None where none came."""
        number, until = self.count % 32, time.monotonic() + seconds
        self.count += 1
        self.answers.pop(number, None)
        self.send(TO | number % 8, bytes([0x80 | number, UPDATES, command]) + data)
        while number not in self.answers and time.monotonic() < until:
            self.pass_time(0.01)
        return self.answers.get(number)

    def wait_for(self, command, seconds=10.0):
        """Waits until this was asked, and returns whether it was."""
        until = time.monotonic() + seconds
        while command not in self.commands() and time.monotonic() < until:
            self.pass_time(0.01)
        return command in self.commands()

    def commands(self):
        return [header[2] for _, _, header, _ in self.asked]


def version(text):
    return bytes([1, len(text)]) + text.encode()


def numbers_in(data):
    """The offset and length in RequestFirmwareData."""
    return tuple(int.from_bytes(data[place : place + 4], "little") for place in (0, 4))


class HandAgent(HandEnd):
    """An agent with an image. What it is to answer first to a piece is in `pieces`, else it gives the image."""

    def __init__(self, line, image):
        super().__init__(line, 8, 9)
        self.image, self.pieces = image, {}

    def piece(self, offset, length):
        return b"\0" + self.image[offset : offset + length].ljust(length, b"\0")

    def answer(self, command, data):
        if command != 0x15:
            return b"\0"
        offset, length = numbers_in(data)
        others = self.pieces.get(offset)
        return others.pop(0) if others else self.piece(offset, length)

    def begin(self, most=256):
        """RequestUpdate and PassComponentTable; their answers."""
        begun = self.ask(0x10, u32(most) + u16(1) + bytes([1, 0, 0]) + version("set"))
        return begun, self.ask(0x13, b"\5" + COMPONENT + u32(0) + version("table"))

    def transfer(self, text):
        """UpdateComponent with this version; its answer."""
        return self.ask(0x14, COMPONENT + u32(0) + u32(len(self.image)) + u32(0) + version(text))

    def asked_pieces(self):
        """The offset and length of each piece that was asked for."""
        return [numbers_in(data) for _, _, header, data in self.asked if header[2] == 0x15]


IDENTIFIER = bytes(range(16))


class HandDevice(HandEnd):
    """A device with a UUID and components of version 1.0. What it answers to a command first is in `others`."""

    def __init__(self, line, components=(COMPONENT,)):
        super().__init__(line, 9, 8)
        self.components, self.others = components, {}

    def answer(self, command, data):
        others = self.others.get(command)
        if others:
            return others.pop(0)
        return {
            0x01: b"\0\x14\0\0\0\1\2\0\x10\0" + IDENTIFIER,
            0x02: self.parameters(),
            0x10: bytes(4),
            0x13: bytes(3),
            0x14: bytes(9),
            0x1A: bytes(3),
            0x1D: bytes(10),
        }.get(command, b"\5")

    def parameters(self):
        """GetFirmwareParameters (DSP0267): nothing is pending."""
        data = b"\0" + u32(0) + u16(len(self.components)) + bytes(4)
        for component in self.components:
            data += component + u32(7) + version("1.0")[:2] + b"20260101" + u32(0) + bytes(2) + b"00000000"
            data += u16(2) + u32(0) + b"1.0"
        return data

    def fetch(self, offset, length):
        """RequestFirmwareData; its answer."""
        return self.ask(0x15, u32(offset) + u32(length))
