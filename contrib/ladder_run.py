"""For contrib/ladder: a run, read from a schedule and what `mctpctl run` wrote, and which of its sendings came when."""
import bisect
import re
from dataclasses import dataclass, field

EIDS = 8, 254
MOST_INPUT = 16_777_216
MOST_OUTPUT = 268_435_456
NUMBER = "[0-9]{1,16}"
NUMBERS = f"(?: {NUMBER})+"
HANDED = "partial|answered|drop [A-Za-z]+|nothing"

# By the kind of a step: the words after it, and what may have come of it.
STEPS = {
    "open": (f"{NUMBER}(?: [-a-z0-9]+)+", f"opened {NUMBER}|tag in use|id in use"),
    "tick": (NUMBER, f"again{NUMBERS}(?: gave up{NUMBERS})?|gave up{NUMBERS}|nothing due"),
    "req": (NUMBER, "fresh changed|fresh unchanged|copy|busy|nothing"),
    "rep": (f"{NUMBER} {NUMBER}", HANDED),
    "busy": (NUMBER, HANDED),
    "sense": (f"{NUMBER} -?{NUMBER}", "set|no such sensor|out of size"),
    "restart": ("", "restarted"),
}

# What is written at the device's side where a request came.
EFFECTS = {"fresh changed": "performed"}


class Refused(Exception):
    """What is wrong with a file."""


@dataclass
class Step:
    """A step of the schedule, and what came of it."""

    place: int
    moment: int
    kind: str
    words: list
    outcome: str = ""


@dataclass
class Run:
    """What both files say."""

    eid: int
    keep: int
    requesters: list
    steps: list
    moments: list  # of the steps
    owners: list  # by the number of a request, the requester that opened it
    timely: str


@dataclass
class Sending:
    """A packet of a request, or an answer, that was sent."""

    kind: str
    request: int
    place: int
    label: str
    words: list
    slot: int = 0  # which of the sendings of its step it is
    has_come: bool = False


@dataclass
class Flow:
    """Sendings of the same bytes, of which later steps deliver packets."""

    sendings: list = field(default_factory=list)
    waiting: dict = field(default_factory=dict)  # by packet, the sendings of which it has not come
    looked_at: dict = field(default_factory=dict)  # by packet, how many sendings went into `waiting`

    def deliver(self, packet):
        """The latest sending of which this packet has not come, or the latest of all; and whether it is a repeat."""
        waiting = self.waiting.setdefault(packet, [])
        waiting += self.sendings[self.looked_at.get(packet, 0) :]
        self.looked_at[packet] = len(self.sendings)
        is_repeat = not waiting
        sending = self.sendings[-1] if is_repeat else waiting.pop()
        sending.has_come = True
        return sending, is_repeat


@dataclass
class Arrow:
    """A packet that came at a step, or a sending that was lost."""

    sending: Sending
    place: int  # of the step at which it came, or of the sending where it is lost
    packet: int
    label: str
    fate: str
    words: list

    @property
    def is_lost(self):
        return "lost" in self.words


@dataclass
class Mark:
    """Something beside an arrow: at a requester, or at the device where `eid` is None."""

    kind: str
    place: int
    text: str
    eid: int = None


@dataclass
class Picture:
    """All that is drawn."""

    run: Run
    arrows: list
    marks: list


def read_file(path, most):
    """The text of a file; bytes that are no UTF-8 can stand in comments alone."""
    try:
        with open(path, "rb") as file:
            data = file.read(most + 1)
    except OSError as fault:
        raise Refused(f"cannot read {path!r}: {fault.strerror}") from None
    if len(data) > most:
        raise Refused(f"{path!r} is too large")
    return data.decode(errors="replace")


def described(description, key, least, most):
    """The number of a line `KEY = N` of the device description."""
    found = re.search(rf"""^[ \t]*["']?{key}["']?[ \t]*=[ \t]*\+?(\w+)[ \t]*(?:#.*)?\r?$""", description, re.M | re.A)
    try:
        number = int(found[1], 0) if found else -1
    except ValueError:
        number = -1
    if not least <= number <= most:
        raise Refused(f"the device description has no line '{key} = N' with N from {least} to {most}")
    return number


def divide(text):
    """The device description, and the lines after the line that divides."""
    lines = text.split("\n")
    for place, line in enumerate(lines):
        if line.removesuffix("\r") == "%%":
            return "\n".join(lines[:place]), lines[place + 1 :]
    raise Refused("the schedule has no line %%")


def read_schedule(lines):
    """The requesters and the steps of a schedule."""
    requesters, steps = [], []
    for number, line in enumerate(lines, 1):
        words = [word for word in line.removesuffix("\r").split(" ") if word]
        if not words or words[0].startswith("#"):
            continue
        if is_requester(words):
            requesters.append(int(words[1]))
        elif is_step(words):
            add_step(requesters, steps, Step(len(steps), int(words[1]), words[2], words[3:]), number)
        else:
            raise Refused(f"line {number} of the schedule is not understood")
    return requesters, steps


def is_requester(words):
    shape = f"requester {NUMBER} timeout {NUMBER} tries {NUMBER}"
    return bool(re.fullmatch(shape, " ".join(words))) and EIDS[0] <= int(words[1]) <= EIDS[1]


def is_step(words):
    if words[0] != "at" or len(words) < 3 or words[2] not in STEPS or not re.fullmatch(NUMBER, words[1]):
        return False
    return bool(re.fullmatch(STEPS[words[2]][0], " ".join(words[3:])))


def add_step(requesters, steps, step, number):
    """Adds the step of the line with this number."""
    if steps and steps[-1].moment > step.moment:
        raise Refused(f"line {number} of the schedule goes back in time")
    if step.kind in ("open", "tick") and int(step.words[0]) not in requesters:
        raise Refused(f"line {number} of the schedule names no requester of a line before it")
    steps.append(step)


def misfit(number):
    return Refused(f"line {number} of the output is of another run")


def read_outcomes(steps, lines):
    """Gives each step what came of it, by its line of the output."""
    for step in steps:
        words = lines[step.place].split(" ", 1) if step.place < len(lines) else []
        if len(words) < 2 or words[0] != str(step.moment) or not re.fullmatch(STEPS[step.kind][1], words[1]):
            raise misfit(step.place + 1)
        step.outcome = words[1]


def opened(steps):
    """The requester of each request, by its number."""
    owners = []
    for step in steps:
        if step.outcome.startswith("opened "):
            if step.outcome != f"opened {len(owners)}":
                raise misfit(step.place + 1)
            owners.append(int(step.words[0]))
    return owners


def read_end(steps, owners, lines):
    """Checks the lines of the output after those of the steps, and returns the last, which is about time."""
    shapes = [f"request {k} from {eid} (?:open|gave up|answered [0-9a-f]+)" for k, eid in enumerate(owners)]
    order = [step.words[0] for step in steps if step.outcome.startswith("fresh ")]
    shapes += ["order " + (" ".join(str(int(k)) for k in order) or "-"), f"tid {NUMBER}"]
    start = len(steps)
    last = len(lines) - 1
    shapes += [f"(?:sensor|numeric) {NUMBER} -?{NUMBER}|state {NUMBER}{NUMBERS}"] * (last - start - len(shapes))
    shapes += ["timely: (?:yes|no)"]
    for number, shape in enumerate(shapes, start):
        if number > last or not re.fullmatch(shape, lines[number]):
            raise misfit(number + 1)
    return lines[last]


def read_input(paths):
    """The device description and the lines of the schedule, from one file of both or from a file of each."""
    texts = [read_file(path, MOST_INPUT) for path in paths]
    return divide(texts[0]) if len(texts) == 1 else (texts[0], texts[1].split("\n"))


def read_run(*paths):
    """The run of these files: its input, one or two, and the output."""
    *input_paths, output_path = paths
    description, lines = read_input(input_paths)
    eid, keep = described(description, "eid", *EIDS), described(description, "keep_ms", 1, 60_000)
    requesters, steps = read_schedule(lines)
    if len({eid, *requesters}) != len(requesters) + 1:
        raise Refused("two ends of the schedule have the same endpoint ID")
    told = read_file(output_path, MOST_OUTPUT).removesuffix("\n").split("\n")
    read_outcomes(steps, told)
    owners = opened(steps)
    moments = [step.moment for step in steps]
    return Run(eid, keep, requesters, steps, moments, owners, read_end(steps, owners, told))


class Tracer:
    """Goes through the steps of a run, and notes each sending and each arrow."""

    def __init__(self, run):
        self.run = run
        self.arrows, self.marks, self.sendings = [], [], []
        self.requests, self.answers, self.refusals = [], {}, {}
        self.in_parts = parted(run.steps)

    def trace(self):
        tasks = {
            "open": self.open,
            "tick": self.tick,
            "req": self.come,
            "rep": self.answer,
            "busy": self.answer,
            "sense": self.sense,
            "restart": self.restart,
        }
        for step in self.run.steps:
            tasks[step.kind](step)
        for sending in self.sendings:
            if not sending.has_come:
                label = self.numbered(sending.request, sending.label)
                self.arrows.append(Arrow(sending, sending.place, 0, label, "lost", [*sending.words, "lost"]))
        self.arrows.sort(key=lambda arrow: (arrow.place, arrow.is_lost))
        return Picture(self.run, self.arrows, self.marks)

    def numbered(self, request, label):
        """The label, after the request's number where there are several."""
        return f"{request}: {label}" if len(self.run.owners) > 1 else label

    def mark(self, step, kind, text, eid=None):
        self.marks.append(Mark(kind, step.place, text, eid))

    def send(self, flow, sending):
        flow.sendings.append(sending)
        self.sendings.append(sending)

    def open(self, step):
        eid, command = int(step.words[0]), " ".join(step.words[1:])
        if not step.outcome.startswith("opened "):
            self.mark(step, "note", f"{command}: {step.outcome}", eid)
            return
        self.requests.append(Flow())
        number = len(self.requests) - 1
        self.send(self.requests[number], Sending("request", number, step.place, command, []))

    def tick(self, step):
        eid = int(step.words[0])
        if step.outcome == "nothing due":
            self.mark(step, "nothing", step.outcome, eid)
            return
        again, _, given_up = step.outcome.partition("gave up")
        for slot, word in enumerate(again.split()[1:]):
            self.send(self.request_of(step, word), Sending("request", int(word), step.place, "again", [], slot))
        for word in given_up.split():
            self.request_of(step, word)
        if given_up:
            self.mark(step, "note", f"gave up{given_up}", eid)

    def request_of(self, step, word):
        """The flow of a request that the requester of this tick has opened."""
        number = int(word)
        if number >= len(self.requests) or self.run.owners[number] != int(step.words[0]):
            raise misfit(step.place + 1)
        return self.requests[number]

    def come(self, step):
        number = int(step.words[0])
        if (step.outcome == "nothing") != (number >= len(self.requests)):
            raise misfit(step.place + 1)
        if step.outcome == "nothing":
            self.mark(step, "nothing", f"req {number}: nothing")
            return
        words = [step.outcome] if step.outcome in ("copy", "busy") else []
        sending, is_repeat = self.requests[number].deliver(0)
        fate = EFFECTS.get(step.outcome, step.outcome)
        self.arrive(step, sending, 0, sending.label, fate, words, is_repeat)
        self.give_answer(step, number, words)

    def give_answer(self, step, number, words):
        """The device answers: a fresh request has a new answer, a copy the one before."""
        if "busy" in words:
            flow, label = self.refusals.setdefault(number, Flow()), "not ready"
        else:
            if "copy" not in words:
                self.answers[number] = Flow()
            flow, label = self.answers.setdefault(number, Flow()), "answer"
        self.send(flow, Sending("reply", number, step.place, label, words))

    def answer(self, step):
        number, packet = int(step.words[0]), int(step.words[1]) if step.kind == "rep" else 0
        flow = (self.answers if step.kind == "rep" else self.refusals).get(number)
        if step.outcome == "nothing":
            self.mark(step, "nothing", f"{step.kind} {' '.join(step.words)}: nothing")
            return
        if flow is None:
            raise misfit(step.place + 1)
        sending, is_repeat = flow.deliver(packet)
        label, fate = self.answer_label(sending, packet, step.outcome)
        words = sending.words + (["dropped"] if fate else [])
        self.arrive(step, sending, packet, label, fate, words, is_repeat)

    def arrive(self, step, sending, packet, label, fate, words, is_repeat):
        """Notes the arrow of a packet that came."""
        label = self.numbered(sending.request, label)
        if is_repeat:
            label, words = f"{label} (repeat)", [*words, "repeat"]
        self.arrows.append(Arrow(sending, step.place, packet, label, fate, words))

    def answer_label(self, sending, packet, outcome):
        """What stands at a packet of an answer, and at its end."""
        name = sending.label
        if name == "answer" and sending.request in self.in_parts:
            name = f"packet {packet}"
        if outcome.startswith("drop "):
            return name, outcome
        return (outcome if name == "answer" else f"{name}, {outcome}"), ""

    def sense(self, step):
        how = "" if step.outcome == "set" else f": {step.outcome}"
        self.mark(step, "sense", f"sense {' '.join(step.words)}{how}")

    def restart(self, step):
        self.mark(step, "restart", f"restart: not ready until {step.moment + self.run.keep}")


def parted(steps):
    """The requests of which an answer has several packets, as far as its packets came."""
    came = [step for step in steps if step.kind == "rep" and step.outcome != "nothing"]
    return {int(step.words[0]) for step in came if int(step.words[1]) > 0 or step.outcome == "partial"}


def bar_end(run, place):
    """The place of the first step after the busy time of the restart at this place."""
    return bisect.bisect_left(run.moments, run.moments[place] + run.keep)
