"""MCTP messages (DSP0236): a request is sent in packets, and the packets of its answer are put together.

A request is a message type and a body, the answer the body of its message. An answer that does not come in time is
asked for twice more, by the very same packets, as a management controller does."""
import time

PHYSICAL, OWN_EID = 0, 8  # the null endpoint ID, by which a device is asked that is known by its line alone
VERSION, UNIT = 1, 64
START, END, OWNER = 0x80, 0x40, 0x08
TRIES = 3


class Fault(Exception):
    """A question that got no answer, or one that is refused or cannot be read."""


def packets_of(destination, tag, message):
    """The packets of a request (DSP0236, "Packetizing a message")."""
    pieces = [message[place : place + UNIT] for place in range(0, len(message), UNIT)]
    for number, piece in enumerate(pieces):
        flags = (START if number == 0 else 0) | (END if number == len(pieces) - 1 else 0) | number % 4 << 4
        yield bytes([VERSION, destination, OWN_EID, flags | OWNER | tag]) + piece


class Assembly:
    """Puts the packets of one answer together (DSP0236, "Message assembly")."""

    def __init__(self, source, tag):
        self.source, self.tag = source, tag
        self.message, self.number = None, 0

    def whole(self, packet):
        """The message that this packet ends, else None. A packet that is not of this answer is left out."""
        if len(packet) < 5 or packet[0] != VERSION or packet[1] != OWN_EID or packet[3] & 0x0F != self.tag:
            return None
        if self.source not in (PHYSICAL, packet[2]):
            return None
        flags, payload = packet[3], packet[4:]
        if flags & START:
            self.message, self.number = b"", flags >> 4 & 3
        if self.message is None or flags >> 4 & 3 != self.number or (not flags & END and len(payload) != UNIT):
            self.message = None
            return None
        self.message, self.number = self.message + payload, (self.number + 1) % 4
        return self.message if flags & END else None


class Asker:
    """The asking end. Tags and instance IDs are used in turn."""

    def __init__(self, line, seconds):
        self.line, self.seconds = line, seconds
        self.asked = 0
        self.device = PHYSICAL

    def ask(self, kind, is_answer, body):
        """The body of the answer to a request of this message type; `is_answer` says whether a body is that of one."""
        tag = self.asked % 8
        self.asked += 1
        packets = list(packets_of(self.device, tag, bytes([kind]) + body))
        for _ in range(TRIES):
            for packet in packets:
                self.line.send(packet)
            assembly, until = Assembly(self.device, tag), time.monotonic() + self.seconds
            while (packet := self.line.packet(until)) is not None:
                message = assembly.whole(packet)
                if message and message[0] == kind and is_answer(message[1:]):
                    return message[1:]
        raise Fault(f"no answer in {TRIES} tries of {self.seconds:g} seconds")

    def instance_id(self):
        return self.asked % 32
