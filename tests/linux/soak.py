"""The soak: a line that loses, repeats and delays frames by chance. Each set has to be shown by the get after it."""
import time
from collections import Counter

from conversation import PLDM, WHOLE_PART, get_numeric, set_numeric
from guest import Message
from second_device import EID, KEEP_MS, SecondDevice
from serial_line import Chance

TRIES, TRY_SECONDS = 3, 0.25  # all within the keeping time
REST = 2 * KEEP_MS / 1000 + 0.01  # seconds after which an instance ID, and a record's tag, are used again
SHORT_TAGS, RECORD_TAGS = 4, 3
EVERY = 5  # rounds with a record
LATE_MS = 2000  # after which nothing is late any more
SLACK_MS = 300  # what a busy machine may take from the line to the device


class Soak:
    def __init__(self, rows, guest, line, seed, eid=EID):
        self.rows, self.guest, self.line, self.seed, self.eid = rows, guest, line, seed, eid
        self.opened = [0.0] * 32  # the moments at which the instance IDs were used last
        self.turn = 0
        self.answered = Counter()
        self.sendings = self.given_up = self.of_others = 0
        self.wrong = []

    def run(self, rounds):
        """faults by chance"""
        print(f"-- {self.run.__doc__}, seed {self.seed}, {rounds} rounds", flush=True)
        self.keep_tags(RECORD_TAGS)
        time.sleep(KEEP_MS / 1000)
        self.line.chance = Chance(self.seed, KEEP_MS, SLACK_MS)
        for number in range(rounds):
            self.round(number)
        tally = self.let_late_ones_come()
        self.drop_tags()
        self.tell(rounds, tally)

    def keep_tags(self, of_records):
        """Tags for requests in turn, and some for requests of records."""
        tags = [(self.guest.keep_tag(self.eid), 0.0) for _ in range(SHORT_TAGS + of_records)]
        self.tags, self.record_tags = tags[:SHORT_TAGS], tags[SHORT_TAGS:]

    def drop_tags(self):
        for tag, _ in self.tags + self.record_tags:
            self.guest.drop_tag(self.eid, tag)

    def let_late_ones_come(self):
        """What is still late comes, and is no answer of a later row. Returns the tally of the faults, which end."""
        while self.guest.receive(LATE_MS) is not None:
            pass
        tally, self.line.chance = self.line.chance.tally, None
        return tally

    def round(self, number):
        value = number * 7 % 101
        was_set = self.ask("set", set_numeric(1, 0, value), bytes(1))
        if not was_set:
            time.sleep(KEEP_MS / 1000)  # then no copy of it is under way any more
        # Where the set was given up, any value may stand.
        told = bytes([0, 0, 1, value, value]) if was_set else None
        self.ask("get", get_numeric(1), told)
        if number % EVERY == EVERY - 1:
            answer = SecondDevice().perform(bytes([0x80]) + bytes.fromhex(WHOLE_PART))
            self.ask("record", WHOLE_PART, answer[3:])

    def ask(self, kind, command, wanted):
        """Whether a request was answered. `wanted` is the code and the data."""
        request, answer = self.exchange(kind, command)
        if wanted is not None and answer not in (None, wanted):
            self.wrong.append(f"{kind} {request[0] & 0x1F}: got {answer.hex()}, wanted {wanted.hex()}")
        return answer is not None

    def exchange(self, kind, command):
        """A request's bytes, and its answer's code and data, None where it was given up after some tries."""
        request = self.next_request(command)
        tag, sent = self.next_tag(kind), time.monotonic()
        for attempt in range(TRIES):
            self.sendings += 1
            self.guest.send(self.eid, PLDM, request, tag=tag)
            answer = self.answer_until(request, sent + TRY_SECONDS * (attempt + 1))
            if answer is not None:
                self.answered[kind] += 1
                return request, answer
        self.given_up += 1
        return request, None

    def next_request(self, command):
        """A request's bytes, with the next instance ID, which has rested."""
        number, self.turn = self.turn % 32, self.turn + 1
        wait_until(self.opened[number] + REST)
        self.opened[number] = time.monotonic()
        return bytes([0x80 | number]) + bytes.fromhex(command)

    def next_tag(self, kind):
        """The tags are used in turn. Packets of an answer of several are distinguished by the tag alone, so a tag of it
        rests until no packet of the answer before is under way."""
        tags = self.record_tags if kind == "record" else self.tags
        tag, used = tags.pop(0)
        if kind == "record":
            wait_until(used + REST)
        tags.append((tag, time.monotonic()))
        return tag

    def answer_until(self, request, end):
        """Only an answer with the instance ID, the type and the command of the request is taken: Linux looks at the tag
        alone, and an answer to an earlier request on it may be late."""
        head = bytes([request[0] & 0x1F]) + request[1:3]
        while (left := end - time.monotonic()) > 0:
            got = self.guest.receive(int(left * 1000) + 1)
            if isinstance(got, Message) and got.data[:3] == head and len(got.data) > 3:
                return got.data[3:]
            self.of_others += got is not None
        return None

    def tell(self, rounds, tally):
        for what, count in sorted(tally.items()):
            print(f"   {what}: {count}")
        print(f"   answered {dict(self.answered)}, {self.sendings} sendings, {self.given_up} given up")
        print(f"   {self.of_others} answers to other requests")
        for it in self.wrong[:20]:
            print(f"   wrong: {it}")
        enough = self.answered["set"] > rounds / 2 and self.answered["get"] > rounds / 2
        self.rows.check("soak: most requests are answered", enough, str(self.answered))
        self.rows.check("soak: each set is told by the get after it", not self.wrong, f"{len(self.wrong)} wrong")


def wait_until(moment):
    time.sleep(max(0, moment - time.monotonic()))
