"""Endpoint IDs that a bus owner assigns (DSP0236, "Set Endpoint ID"), over a line that loses, repeats, delays frames.

No request is performed at an ID that the device does not have, and none a second time around an assignment."""
import time
from collections import Counter

from bus_owner import CONTROL, GET_EID, NULL_EID, REQUEST, SET_EID, SUCCESS
from conversation import PLDM, get_numeric, set_numeric
from guest import Message
from second_device import KEEP_MS
from serial_line import Chance
from soak import SHORT_TAGS, SLACK_MS, Soak

FIRST_EID, SECOND_EID = 10, 11
NO_WRONG = "moves: 0 wrong"
NOT_READY = b"\x04"  # the PLDM completion code of the busy time
TRY_SECONDS, CONTROL_TRIES = 0.1, 50
SILENT_REQUESTS = 6  # none of them answered: then the device is not at the ID that it was given
COPY_SECONDS = 0.6  # a request is sent again within the keeping time, less what the line may add
BUSY_SECONDS = (KEEP_MS + SLACK_MS) / 1000


class Lost(Exception):
    """The device is not at the endpoint ID that it was given."""


class Moves(Soak):
    """The soak of a device that is moved between two endpoint IDs; each has a route."""

    def __init__(self, rows, guest, line, seed):
        super().__init__(rows, guest, line, seed, FIRST_EID)
        self.control_instance, self.values = 0, 0
        self.counts = Counter()

    def run(self, moves):
        """a bus owner assigns 10, then 11 and 10 in turn"""
        print(f"-- {self.run.__doc__}, seed {self.seed}, {moves} moves", flush=True)
        self.tags_of = {}
        for self.eid in (SECOND_EID, FIRST_EID):
            self.tags_of[self.eid] = [(self.guest.keep_tag(self.eid), 0.0) for _ in range(SHORT_TAGS)]
        self.line.chance = Chance(self.seed, KEEP_MS, SLACK_MS)
        try:
            self.begin()
            for number in range(moves):
                self.move(goes_back=number % 3 == 2)
                self.counts["moves"] += 1
        except Lost:
            self.wrong.append(f"the device is not at {self.eid}")
        tally = self.let_late_ones_come()
        self.report(moves, tally)

    def next_tag(self, kind):
        tags = self.tags_of[self.eid]
        tags.append(tags.pop(0))
        return tags[-1][0]

    def begin(self):
        """Requests go out before the device has an ID, and after. From its first ID on it serves, with no busy time."""
        self.control("Get Endpoint ID before", GET_EID, b"", bytes([SUCCESS, NULL_EID]))
        self.early = self.next_request(set_numeric(1, 0, 1)), time.monotonic()
        self.send_copy(FIRST_EID)
        self.assign(FIRST_EID)
        if not self.repeat_until_answered():
            time.sleep(KEEP_MS / 1000)  # then no copy of it is under way any more
        value, _ = self.set_value()
        self.require_value(value, 0)
        self.control("Get Endpoint ID after", GET_EID, b"", bytes([SUCCESS, FIRST_EID]))

    def repeat_until_answered(self):
        """Whether the early request was answered in its time."""
        answer = None
        while answer is None and self.send_copy(self.eid):
            answer = self.answer_until(self.early[0], time.monotonic() + TRY_SECONDS)
        if answer not in (None, bytes([SUCCESS])):
            self.wrong.append(f"the first set: got {answer.hex()}")
        return answer is not None

    def move(self, goes_back):
        """Two sets, then another endpoint ID. The first set comes again before, meanwhile, after: at the ID of before,
        which the device may get back. The value is that of the second."""
        old, new = self.eid, FIRST_EID + SECOND_EID - self.eid
        _, self.early = self.set_value()
        value, _ = self.set_value()
        self.send_copy(old)
        self.assign(new)
        self.send_copy(old)
        if goes_back:
            self.assign(old)
            self.send_copy(old)
            self.counts["went back within the keeping time"] += time.monotonic() - self.early[1] < KEEP_MS / 1000
        self.require_value(value, BUSY_SECONDS)

    def set_value(self):
        """Sets another value until that is answered. Returns it, and the request with when it was sent first."""
        self.values += 1
        value = self.values * 7 % 101
        for _ in range(SILENT_REQUESTS):
            sent = time.monotonic()
            request, answer = self.exchange("set", set_numeric(1, 0, value))
            if answer is not None:
                if answer != bytes([SUCCESS]):
                    self.wrong.append(f"set {value} at {self.eid}: got {answer.hex()}")
                return value, (request, sent)
            time.sleep(KEEP_MS / 1000)  # then no copy of it is under way any more
        raise Lost

    def require_value(self, value, busy_seconds):
        """The effecter has this value. Requests that begin within so long may be refused as in the busy time."""
        busy_until = time.monotonic() + busy_seconds
        silent = 0
        while silent < SILENT_REQUESTS:
            sent = time.monotonic()
            _, answer = self.exchange("get", get_numeric(1))
            if answer is None:
                silent += 1
            elif answer == NOT_READY and sent < busy_until:
                self.counts["refused in the busy time"] += 1
            else:
                if answer != bytes([0, 0, 1, value, value]):
                    self.wrong.append(f"get at {self.eid}: got {answer.hex()}, wanted {value}")
                return
        raise Lost

    def send_copy(self, eid):
        """Sends the early request again, to the ID that it was sent to. False where it is too late for that."""
        request, sent = self.early
        in_time = time.monotonic() - sent < COPY_SECONDS
        if in_time:
            self.counts["copies sent on purpose"] += 1
            self.counts["of them to an ID that the device no longer had"] += eid != self.eid
            self.guest.send(eid, PLDM, request, tag=self.tags_of[eid][0][0])
        return in_time

    def assign(self, eid):
        """Assigns an endpoint ID, with a copy of the early request at each try."""
        old = self.eid
        wanted = bytes([SUCCESS, 0x00, eid, 0])  # accepted, and no pool of endpoint IDs
        self.control(f"Set Endpoint ID to {eid}", SET_EID, bytes([0, eid]), wanted, lambda: self.send_copy(old))
        self.counts["assignments"] += 1
        self.eid = eid

    def control(self, name, command, data, wanted, beside=lambda: None):
        """A control message, sent until it is answered: at the ID of now first, then at the physical address; `beside`
        is done at each try. The answer begins with `wanted`."""
        head = bytes([self.control_instance, command])
        request = bytes([REQUEST | self.control_instance, command]) + data
        self.control_instance = (self.control_instance + 1) % 32
        for attempt in range(CONTROL_TRIES):
            beside()
            if attempt == 0:
                self.guest.send(self.eid, CONTROL, request)
            else:
                self.guest.send_physical(NULL_EID, CONTROL, request)
            answer = self.control_answer_until(head, time.monotonic() + TRY_SECONDS)
            if answer is not None:
                self.counts["control messages answered at an endpoint ID"] += attempt == 0
                if not answer.startswith(wanted):
                    self.wrong.append(f"{name}: got {answer.hex()}, wanted {wanted.hex()}")
                return
        self.wrong.append(f"{name}: no answer")

    def control_answer_until(self, head, end):
        while (left := end - time.monotonic()) > 0:
            got = self.guest.receive(int(left * 1000) + 1)
            if isinstance(got, Message) and got.kind == CONTROL and got.data[:2] == head:
                return got.data[2:]
        return None

    def report(self, moves, tally):
        for what, count in sorted((tally + self.counts).items()):
            print(f"   {what}: {count}")
        print(f"   answered {dict(self.answered)}, {self.sendings} sendings, {self.given_up} given up")
        for it in self.wrong[:20]:
            print(f"   wrong: {it}")
        if self.counts["moves"] == moves:
            late = self.counts["of them to an ID that the device no longer had"]
            back = self.counts["went back within the keeping time"]
            self.rows.check("moves: copies went to an ID of before", late >= moves / 2, str(late))
            self.rows.check("moves: IDs came back within the keeping time", back >= moves / 12, str(back))
        self.rows.check(NO_WRONG, not self.wrong, f"{len(self.wrong)} wrong")
