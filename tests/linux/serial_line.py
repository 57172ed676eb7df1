"""The serial line between the guest and the device: a passer of bytes, with faults.

It cuts the bytes of each direction at frames (DSP0253), so that it can lose, repeat and delay whole ones. A frame is
passed as the very bytes that came. It makes none and changes none; bytes between frames are passed as they come.
"""
import heapq
import itertools
import os
import random
import select
import threading
import time
from collections import Counter
from dataclasses import dataclass

from shared import ESCAPE, FLAG, REVISION

START, END, OWNER = 0x80, 0x40, 0x08
TO_DEVICE, TO_GUEST = "to the device", "to the guest"


@dataclass(frozen=True)
class Frame:
    """The bytes of a frame as they came, the packet that they carry, and the moment at which its last byte came."""

    raw: bytes
    packet: bytes
    moment: float

    def ends_message(self):
        return len(self.packet) > 3 and bool(self.packet[3] & END)


class FrameCutter:
    """Cuts a stream of bytes into frames and what stands between them.

    Count and check sequence are not escaped and may hold a flag, so it goes by the count."""

    def __init__(self):
        self.held = b""

    def cut(self, data):
        """Yields each frame that has ended, and each run of other bytes."""
        self.held += data
        while self.held:
            length = self.length_of_first()
            if length is None:
                return
            piece, self.held = self.held[:length], self.held[length:]
            yield Frame(piece, unescaped(piece[3:-3]), time.monotonic()) if len(piece) > 1 else piece

    def length_of_first(self):
        """Of the frame that is held; 1 where the first byte begins none; None where more bytes are needed."""
        held = self.held
        if held[0] != FLAG or held[1:2] not in (b"", bytes([REVISION])):
            return 1
        if len(held) < 3:
            return None
        place = 3
        for _ in range(held[2]):
            place += 2 if held[place : place + 1] == bytes([ESCAPE]) else 1
        end = place + 3
        if len(held) < end:
            return None
        return end if held[end - 1] == FLAG else 1


def unescaped(data):
    packet, rest = bytearray(), iter(data)
    for byte in rest:
        packet.append(next(rest) ^ 0x20 if byte == ESCAPE else byte)
    return bytes(packet)


class Orders:
    """Faults that are ordered, each for the next frames alone. Without any, all frames pass."""

    def __init__(self):
        self.answers_to_lose = 0
        self.request_order = []  # places of the next frames to the device, in the order in which they are delivered
        self.answer_order = []  # the same of the packets of the next answer
        self.repeat_late = False  # the next answer comes a second time, just after the request that follows it
        self.held_requests, self.held_answer, self.late = [], [], []

    def deliveries(self, direction, frame):
        """What this frame leads to: pairs of a direction and a frame, in order."""
        return self.of_request(frame) if direction == TO_DEVICE else self.of_answer(frame)

    def of_request(self, frame):
        late, self.late = self.late, []
        frames = [frame]
        if self.request_order:
            self.held_requests.append(frame)
            if len(self.held_requests) <= max(self.request_order):
                return []
            frames = [self.held_requests[place] for place in self.request_order]
            self.request_order, self.held_requests = [], []
        return [(TO_GUEST, it) for it in late] + [(TO_DEVICE, it) for it in frames]

    def of_answer(self, frame):
        if self.answers_to_lose:
            self.answers_to_lose -= frame.ends_message()
            return []
        if not self.answer_order and not self.repeat_late:
            return [(TO_GUEST, frame)]
        self.held_answer.append(frame)
        if not frame.ends_message():
            return []
        frames, self.held_answer = self.held_answer, []
        if self.repeat_late:
            self.late, self.repeat_late = frames, False
        if self.answer_order:
            frames, self.answer_order = [frames[place] for place in self.answer_order], []
        return [(TO_GUEST, it) for it in frames]


class Chance:
    """Faults by chance, with a stated seed: of each frame no copy, one or more, at once or late.

    A copy of a request reaches the device less than the keeping time after the request was first sent, less what a busy
    machine may add from here to the device. Requests are distinguished by their bytes without the MCTP header, since a
    retry may have another tag."""

    # how often a frame is delivered, and in how many of a hundred
    ANSWERS = ((0, 1, 2), (7, 88, 5))
    REQUESTS = ((0, 1, 2, 3), (15, 60, 20, 5))
    # which share of the copies is late; and, of an answer's, by how many seconds at most
    LATE_ANSWERS, LATE_REQUESTS = (0.07, 0.9), 0.4

    def __init__(self, seed, keep_ms, slack_ms):
        self.random = random.Random(seed)
        self.keep = keep_ms / 1000
        self.room = (keep_ms - slack_ms) / 1000
        self.first_sent = {}
        self.tally = Counter()

    def deliveries(self, direction, frame):
        """Triples of a frame, the seconds until it is delivered, and the moment after which it is left out."""
        now = time.monotonic()
        if self.is_answer(direction, frame):
            copies = self.random.choices(*self.ANSWERS)[0]
            self.tally[f"frames of answers delivered {copies} times"] += 1
            return [(frame, self.late(*self.LATE_ANSWERS), None) for _ in range(copies)]
        request = frame.packet[4:]
        if now - self.first_sent.get(request, -self.keep) >= self.keep:
            self.first_sent[request] = now
        copies = self.random.choices(*self.REQUESTS)[0]
        self.tally[f"requests delivered {copies} times"] += 1
        until = self.first_sent[request] + self.room
        return [(frame, self.late(self.LATE_REQUESTS, self.room), until) for _ in range(copies)]

    def is_answer(self, direction, frame):
        """Here the device asks nothing."""
        return direction == TO_GUEST

    def late(self, share, most):
        """Seconds until a copy is delivered: more than none for this share of the copies."""
        return self.random.uniform(0, most) if self.random.random() < share else 0


class SerialLine:
    """Passes bytes between a socket, which is the guest's serial line, and the standard streams of a device."""

    def __init__(self, guest, device):
        self.ends = {TO_DEVICE: device.stdin.fileno(), TO_GUEST: guest.fileno()}
        self.sources = {guest.fileno(): TO_DEVICE, device.stdout.fileno(): TO_GUEST}
        self.told_by = device.stderr.fileno()
        self.guest, self.device = guest, device
        self.cutters = {TO_DEVICE: FrameCutter(), TO_GUEST: FrameCutter()}
        self.came = {TO_DEVICE: [], TO_GUEST: []}  # frames, as they came from the other end
        self.passed = {TO_DEVICE: [], TO_GUEST: []}  # frames, as they were delivered, copies too
        self.stray = Counter()  # bytes between frames
        self.told = b""  # what the device wrote to standard error
        self.orders, self.chance = Orders(), None
        self.queue, self.turn = [], itertools.count()
        self.fault, self.is_stopped = None, False
        self.thread = threading.Thread(target=self.run, daemon=True)
        self.thread.start()

    def run(self):
        try:
            while self.sources and not self.is_stopped:
                self.deliver_due()
                wait = max(0, self.queue[0][0] - time.monotonic()) if self.queue else 1
                for source in select.select([*self.sources, self.told_by], [], [], min(wait, 1))[0]:
                    self.take(source)
        except (OSError, ValueError) as fault:
            self.fault = fault

    def stop(self):
        """Ends the line before its ends have gone."""
        self.is_stopped = True
        self.thread.join(timeout=30)

    def require_running(self):
        if not self.thread.is_alive() or len(self.sources) < 2:
            raise RuntimeError(f"the line has ended: {self.fault or 'one of its ends has gone'}")

    def take(self, source):
        try:
            data = os.read(source, 65536)
        except ConnectionResetError:
            data = b""
        if source == self.told_by:
            self.told += data
            if not data:
                time.sleep(0.01)  # the device has gone, or has closed its standard error
            return
        if not data:
            # Where one end has gone, that is passed on to the other, and what it still says is read.
            if self.sources.pop(source) == TO_DEVICE and not self.device.stdin.closed:
                self.device.stdin.close()
            return
        direction = self.sources[source]
        for piece in self.cutters[direction].cut(data):
            if isinstance(piece, Frame):
                self.came[direction].append(piece)
                self.pass_frame(direction, piece)
            else:
                self.stray[direction] += len(piece)
                self.write(direction, piece)

    def pass_frame(self, direction, frame):
        if self.chance is None:
            for way, it in self.orders.deliveries(direction, frame):
                self.deliver(way, it)
            return
        now = time.monotonic()
        for it, delay, until in self.chance.deliveries(direction, frame):
            heapq.heappush(self.queue, (now + delay, next(self.turn), direction, it, until))
        self.deliver_due()

    def deliver_due(self):
        while self.queue and self.queue[0][0] <= time.monotonic():
            _, _, direction, frame, until = heapq.heappop(self.queue)
            if until is not None and time.monotonic() >= until:
                self.chance.tally["copies left out as too late"] += 1
            else:
                self.deliver(direction, frame)

    def deliver(self, direction, frame):
        self.passed[direction].append(frame)
        self.write(direction, frame.raw)

    def write(self, direction, data):
        while data:
            data = data[os.write(self.ends[direction], data) :]
