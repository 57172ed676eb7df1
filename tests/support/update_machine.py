"""A model of the machine of a firmware device, in tables: what each call of `needleoat_firmware_*` has to give.

The stages and calls are those of `include/needleoat.h`; states, commands, answers and completion codes are those of
DSP0267 and DSP0240.
"""
from collections import namedtuple

NONE, IDLE, LEARNING, READY, BEGINNING, FETCHING, STORING, FETCHED = range(8)
FAILED, VERIFYING, VERIFIED, NOT_VERIFIED, APPLYING, APPLIED, NOT_APPLIED, ACTIVATING = range(8, 16)
NO_STEP, BEGIN, STORE, VERIFY, APPLY, ACTIVATE, ABANDON, ABANDON_UPDATE = range(8)

QUERY_IDENTIFIERS, GET_PARAMETERS, REQUEST_UPDATE, PASS_COMPONENT, UPDATE_COMPONENT = 0x01, 0x02, 0x10, 0x13, 0x14
REQUEST_DATA, TRANSFER_COMPLETE, VERIFY_COMPLETE, APPLY_COMPLETE = 0x15, 0x16, 0x17, 0x18
ACTIVATE_FIRMWARE, GET_STATUS, CANCEL_COMPONENT, CANCEL_UPDATE = 0x1A, 0x1B, 0x1C, 0x1D

SUCCESS, INVALID_DATA, INVALID_LENGTH, UNSUPPORTED = 0x00, 0x02, 0x03, 0x05
NOT_IN_UPDATE_MODE, ALREADY_IN_UPDATE_MODE, OUT_OF_RANGE, INVALID_TRANSFER_LENGTH = 0x80, 0x81, 0x82, 0x83
INVALID_STATE, INCOMPLETE_UPDATE, NOT_EXPECTED = 0x84, 0x85, 0x88

# Refusals of a call.
BAD_MOMENT, NOTHING_THERE, BAD_NUMBER, ALREADY_THERE, FIRMWARE_ANSWERS = 2, 3, 6, 7, 18

LAST_MOMENT = 4_000_000_000_000_000
PIECE, LEAST_TRANSFER, TRIES = 256, 32, 10
PAUSE, SILENCE = 1_000, 90_000  # milliseconds
NO_PROGRESS, GENERIC_ERROR = 0x65, 0x0A

# Of each stage: the state, its auxiliary state and status in GetStatus, and the command that the device asks there,
# with the data; that of a piece depends on how much is stored.
Stage = namedtuple("Stage", "state auxiliary status asks data", defaults=(None, b""))
STAGES = {
    IDLE: Stage(0, 3, 0),
    LEARNING: Stage(1, 3, 0),
    READY: Stage(2, 3, 0),
    BEGINNING: Stage(3, 0, 0),
    FETCHING: Stage(3, 0, 0, REQUEST_DATA),
    STORING: Stage(3, 0, 0),
    FETCHED: Stage(3, 1, 0, TRANSFER_COMPLETE, bytes([0])),
    FAILED: Stage(3, 2, 10, TRANSFER_COMPLETE, bytes([GENERIC_ERROR])),
    VERIFYING: Stage(4, 0, 0),
    VERIFIED: Stage(4, 1, 0, VERIFY_COMPLETE, bytes([0])),
    NOT_VERIFIED: Stage(4, 2, 10, VERIFY_COMPLETE, bytes([GENERIC_ERROR])),
    APPLYING: Stage(5, 0, 0),
    APPLIED: Stage(5, 1, 0, APPLY_COMPLETE, bytes([0, 0, 0])),
    NOT_APPLIED: Stage(5, 2, 10, APPLY_COMPLETE, bytes([GENERIC_ERROR, 0, 0])),
    ACTIVATING: Stage(6, 0, 0),
}

# Of each command: the bytes of its data up to a version string, and whether it has one.
LAYOUTS = {
    QUERY_IDENTIFIERS: (0, False),
    GET_PARAMETERS: (0, False),
    REQUEST_UPDATE: (9, True),
    PASS_COMPONENT: (10, True),
    UPDATE_COMPONENT: (17, True),
    REQUEST_DATA: (8, False),
    TRANSFER_COMPLETE: (1, False),
    VERIFY_COMPLETE: (1, False),
    APPLY_COMPLETE: (3, False),
    ACTIVATE_FIRMWARE: (1, False),
    GET_STATUS: (0, False),
    CANCEL_COMPONENT: (0, False),
    CANCEL_UPDATE: (0, False),
}
PARTS = (1, 2, 4, 5)

# The stages at which a command of the agent is taken, but RequestUpdate.
TAKEN_AT = {
    PASS_COMPONENT: {LEARNING},
    UPDATE_COMPONENT: {READY},
    ACTIVATE_FIRMWARE: {READY},
    CANCEL_COMPONENT: set(range(BEGINNING, ACTIVATING)),
    CANCEL_UPDATE: set(range(LEARNING, ACTIVATING)),
}

# The data of the answer to a command that is taken, but GetStatus.
ANSWERS = {
    REQUEST_UPDATE: bytes(3),
    PASS_COMPONENT: bytes(2),
    UPDATE_COMPONENT: bytes(8),
    ACTIVATE_FIRMWARE: bytes(2),
    CANCEL_COMPONENT: b"",
    CANCEL_UPDATE: bytes(9),
}

# The stage and the step that an answer with the code SUCCESS brings, and those that another code brings: with None the
# same is asked again.
ANSWERED = {
    FETCHING: ((STORING, STORE), None),
    FETCHED: ((VERIFYING, VERIFY), None),
    FAILED: ((READY, ABANDON), (READY, ABANDON)),
    VERIFIED: ((APPLYING, APPLY), None),
    NOT_VERIFIED: ((READY, ABANDON), (READY, ABANDON)),
    APPLIED: ((READY, NO_STEP), None),
    NOT_APPLIED: ((READY, NO_STEP), None),
}

# The stages that a report of the last step brings: done well, or not.
REPORTED = {
    BEGINNING: (FETCHING, FAILED),
    STORING: (FETCHING, FAILED),
    VERIFYING: (VERIFIED, NOT_VERIFIED),
    APPLYING: (APPLIED, NOT_APPLIED),
    ACTIVATING: (IDLE, IDLE),
}

# What a call gives: a refusal, the step of the flash, and the answer to a command.
Step = namedtuple("Step", "refusal action number size offset", defaults=(0, NO_STEP, 0, 0, 0))
Answer = namedtuple("Answer", "code data")


def number_in(data, place, count):
    return int.from_bytes(data[place : place + count], "little")


def unreadable(command, data):
    """The completion code by which data is refused that can't be read, else 0."""
    if command not in LAYOUTS:
        return UNSUPPORTED
    if command == PASS_COMPONENT and data and data[0] not in PARTS:
        return INVALID_DATA
    length, has_version = LAYOUTS[command]
    if has_version:
        length += 2 + (data[length + 1] if len(data) > length + 1 else 0)
    return 0 if len(data) == length else INVALID_LENGTH


def component_of(command, data):
    """The classification, identifier and index in a command that names a component; None in any other."""
    if command not in (PASS_COMPONENT, UPDATE_COMPONENT) or unreadable(command, data):
        return None
    front = 1 if command == PASS_COMPONENT else 0
    return number_in(data, front, 2), number_in(data, front + 2, 2), data[front + 4]


class Machine:
    """A machine that was just made, or none."""

    def __init__(self):
        self.is_live = False

    def new(self, latest):
        if self.is_live:
            return ALREADY_THERE
        self.is_live = True
        self.stage, self.previous, self.agent, self.latest = IDLE, 0, None, latest
        self.total = self.left = self.most = self.size = self.stored = self.tries = self.heard = self.rest = 0
        self.is_applied, self.asked = False, None
        return 0

    def free(self):
        self.is_live = False

    def at(self):
        """The stage, and how many bytes are stored."""
        return (self.stage, self.stored) if self.is_live else (NONE, 0)

    def go(self, stage):
        """The machine is at this stage. Where the state is another one, nothing was tried yet, and where no transfer
        goes on, nothing is stored and no request is open."""
        old, new = STAGES[self.stage].state, STAGES[stage].state
        if old != new:
            self.previous, self.tries = old, 0
        if stage <= BEGINNING:
            self.size = self.stored = 0
            self.asked = None
        if stage == IDLE:
            self.agent, self.is_applied = None, False
        self.stage = stage

    def step(self, action):
        if action == NO_STEP:
            return Step()
        self.latest = (self.latest + 1) % 2**64
        size = self.size if action == BEGIN else 0
        return Step(0, action, self.latest, size, self.stored if action == STORE else 0)

    # ---- commands

    def receive(self, source, now, command, data, room):
        """The step, and the answer; None where the call is refused."""
        for refusal, is_refused in (
            (NOTHING_THERE, not self.is_live),
            (BAD_NUMBER, not 8 <= source <= 254),
            (BAD_MOMENT, now > LAST_MOMENT),
            (FIRMWARE_ANSWERS, command in (QUERY_IDENTIFIERS, GET_PARAMETERS) and not unreadable(command, data)),
        ):
            if is_refused:
                return Step(refusal), None
        code = unreadable(command, data) or self.refusal(source, command, data, room)
        if code:
            return Step(), Answer(code, b"")
        if command == GET_STATUS:
            row = STAGES[self.stage]
            told = [row.state, self.previous, row.auxiliary, row.status, NO_PROGRESS, 0]
            return Step(), Answer(SUCCESS, bytes(told) + bytes(4))
        return self.step(self.take(source, now, command, data)), Answer(SUCCESS, ANSWERS[command])

    def refusal(self, source, command, data, room):
        """The completion code by which a command that can be read is refused, else 0."""
        if command == GET_STATUS:
            return 0
        if command == REQUEST_UPDATE:
            reasons = (
                (ALREADY_IN_UPDATE_MODE, self.stage != IDLE),
                (INVALID_TRANSFER_LENGTH, number_in(data, 0, 4) < LEAST_TRANSFER),
                (INVALID_DATA, number_in(data, 4, 2) == 0),
            )
        elif command in TAKEN_AT:
            reasons = (
                (NOT_IN_UPDATE_MODE, self.stage == IDLE),
                (NOT_EXPECTED, self.agent != source),
                (INVALID_STATE, self.stage not in TAKEN_AT[command]),
                *self.own_reasons(command, data, room),
            )
        else:
            return UNSUPPORTED
        return next((code for code, holds in reasons if holds), 0)

    def own_reasons(self, command, data, room):
        """The refusals of one command alone."""
        if command == PASS_COMPONENT:
            return ((INVALID_DATA, data[0] != self.part()),)
        if command == UPDATE_COMPONENT:
            size = number_in(data, 9, 4)
            return (INVALID_DATA, room == 0), (OUT_OF_RANGE, size == 0 or size > room)
        if command == ACTIVATE_FIRMWARE:
            return ((INCOMPLETE_UPDATE, not self.is_applied),)
        return ()

    def part(self):
        """The transfer flag of the component that is passed next: 1 first, 4 last, 5 both."""
        return (1 if self.left == self.total else 0) + (4 if self.left == 1 else 0) or 2

    def take(self, source, now, command, data):
        """Takes a command that is not refused; the action of its step."""
        if command != CANCEL_UPDATE:
            self.heard = now
        if command == REQUEST_UPDATE:
            self.go(LEARNING)
            self.agent, self.most, self.total = source, number_in(data, 0, 4), number_in(data, 4, 2)
            self.left = self.total
        elif command == PASS_COMPONENT:
            self.left -= 1
            if self.left == 0:
                self.go(READY)
        elif command == UPDATE_COMPONENT:
            self.go(BEGINNING)
            self.size = number_in(data, 9, 4)
            return BEGIN
        elif command == ACTIVATE_FIRMWARE:
            self.go(ACTIVATING)
            self.is_applied = False
            return ACTIVATE
        elif command == CANCEL_COMPONENT:
            self.go(READY)
            return ABANDON
        elif command == CANCEL_UPDATE:
            self.go(IDLE)
            return ABANDON_UPDATE
        return NO_STEP

    # ---- requests of the device

    def length(self):
        """How long the next piece is."""
        return min(self.most, PIECE, self.size - self.stored)

    def wish(self, now):
        """The command that is asked, and its data; None where nothing is."""
        if not self.is_live or now > LAST_MOMENT or self.asked is not None or now < self.rest:
            return None
        row = STAGES[self.stage]
        if row.asks == REQUEST_DATA:
            return row.asks, self.stored.to_bytes(4, "little") + self.length().to_bytes(4, "little")
        return (row.asks, row.data) if row.asks else None

    def opened(self, number, now):
        if self.wish(now):
            self.asked = number
        return self.refused(now)

    def refused(self, now=0):
        """Why a call at this moment is refused, else 0."""
        return NOTHING_THERE if not self.is_live else BAD_MOMENT if now > LAST_MOMENT else 0

    def answered(self, number, now, code, length):
        if self.refused(now) or self.asked != number:
            return Step(self.refused(now))
        self.asked, self.heard = None, now
        well, other = ANSWERED[self.stage]
        is_whole = self.stage != FETCHING or length == self.length()
        after = well if code == SUCCESS and is_whole else other
        if after is None:
            return self.tried(now + PAUSE)
        self.is_applied |= self.stage == APPLIED
        self.go(after[0])
        return self.step(after[1])

    def gave_up(self, number):
        if self.refused() or self.asked != number:
            return Step(self.refused())
        self.asked = None
        return self.tried(0)

    def tried(self, rest):
        """A try was in vain: the last one ends the transfer."""
        self.tries += 1
        if self.tries < TRIES:
            self.rest = rest
            return Step()
        self.go(READY)
        return self.step(ABANDON)

    # ---- the flash, and time

    def done(self, number, well):
        if not self.is_live or number != self.latest or self.stage not in REPORTED:
            return
        after = REPORTED[self.stage][0 if well else 1]
        if self.stage == STORING and well:
            self.stored += self.length()
            self.tries = 0
            after = FETCHED if self.stored == self.size else FETCHING
        self.go(after)

    def tick(self, now):
        if self.refused(now) or self.stage not in (LEARNING, READY) or now < self.heard + SILENCE:
            return Step(self.refused(now))
        self.go(IDLE)
        return self.step(ABANDON_UPDATE)
