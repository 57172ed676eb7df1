"""The cases: what the program is given, and at a limit of the input what has to come of it."""
import collections
import os
import re

from choices import pick
from mutations import mutated
from packets import capture
from schedules import schedule

ROOT = os.path.dirname(os.path.dirname(os.path.dirname(os.path.realpath(__file__))))
EXAMPLES = os.path.join(ROOT, "examples")

MOST_INPUT = 16_777_216
MOST_DESCRIPTION = 1_048_576
MOST_LINE = 4_096

Case = collections.namedtuple("Case", "words text want")

# What stands in the place of an expected end where the case is a random command line.
ANY_WORDS = "any words"


class Examples:
    """The descriptions and captures of examples/."""

    def __init__(self):
        self.devices = []
        self.captures = []
        for name in sorted(os.listdir(EXAMPLES)):
            if name.endswith((".toml", ".txt")):
                with open(os.path.join(EXAMPLES, name), "rb") as file:
                    self.add(name, file.read())

    def add(self, name, text):
        if name.endswith(".toml"):
            self.devices.append(text)
        elif b"\n%%\n" in text:
            device, lines = text.split(b"\n%%\n", 1)
            self.devices.append(device + b"\n")
            self.captures.append(lines)


def eid_of(device):
    """The endpoint ID that a description gives, else 9."""
    found = re.search(rb"(?m)^eid = ([0-9]{1,3})$", device)
    return min(int(found[1]), 255) if found else 9


def body(source, examples, word, device):
    """A capture or a schedule."""
    if word == "run":
        return schedule(source)
    if source.random() < 0.3:
        return source.choice(examples.captures)
    made = capture(source, eid_of(device))
    return made + capture(source, 10) if word == "show" and source.random() < 0.3 else made


def usual(source, examples, word):
    """A description, a divider and a capture, each now and then mutated."""
    device = source.choice(examples.devices)
    text = body(source, examples, word, device)
    where = pick(source, ("text", 6), ("device", 3), ("all", 2))
    if where == "text" or word == "show":
        text = mutated(source, text)
    if word == "show":
        return text
    if where == "device":
        device = mutated(source, device)
    divider = pick(source, (b"%%\n", 95), (b"%%\r\n", 2), (b"%%", 1), (b"", 1), (b"%% \n", 1))
    whole = device + divider + text
    return mutated(source, whole) if where == "all" else whole


def random_bytes(source, examples, word):
    """Bytes that mean nothing, alone or after a description."""
    alphabet = pick(source, (bytes(range(256)), 2), (b"0123456789abcdef \n", 3), (b" \r\n#%09\t", 2))
    made = bytes(source.choices(alphabet, k=source.choice([0, 1, 3, 50, 5000])))
    front = b"" if word == "show" or source.random() < 0.4 else source.choice(examples.devices) + b"%%\n"
    return front + made


def long_line(source, examples, word):
    """A line of a capture that has its most bytes, one less or one more, and what it must give."""
    count = MOST_LINE + source.choice([-1, 0, 0, 1, 1, 2, 5000])
    front = source.choice([b"0 010908c801800002", b"# ", b"", b"0", b"0 0109"])
    end = source.choice([b"", b"\r"])
    line = front + b" " * (count - len(front) - len(end)) + end
    before = b"\n" * source.choice([0, 1, 7])
    after = source.choice([b"", b"\n", b"\nx\n"]) if count > MOST_LINE else source.choice([b"", b"\n"])
    device = b"" if word == "show" else source.choice(examples.devices[:1]) + b"%%\n"
    fault = b"mctpctl: line %d: LongLine\n" % (len(before) + 1)
    return device + before + line + after, (1, fault) if count > MOST_LINE else (0, b"")


def long_description(source, examples, word):
    """A description of its most bytes, or a byte more or less, and what it must give."""
    count = MOST_DESCRIPTION + source.choice([-1, 0, 0, 1, 1, 2])
    device = examples.devices[0]
    device += b"#" + b"x" * (count - len(device) - 2) + b"\n"
    end = source.choice([b"%%\n", b"%%", b"%%\r\n"])
    return device + end, (1, b"mctpctl: input too large\n") if count > MOST_DESCRIPTION else (0, b"")


def long_input(source, examples, word):
    """Input of its most bytes, or a byte more or less, and what it must give."""
    count = MOST_INPUT + source.choice([-1, 0, 1, 1, 100_000])
    device = b"" if word == "show" else examples.devices[0] + b"%%\n"
    blank = b" " * 63 + b"\n"
    text = device + blank * ((count - len(device)) // len(blank) + 1)
    return text[:count], (1, b"mctpctl: input too large\n") if count > MOST_INPUT else (0, b"")


def command_line(source):
    """Words of a command line."""
    words = "answer run show --help -h help --version -x -- more answers é %%".split() + [""]
    return Case(source.choices(words, k=source.choice([0, 1, 2, 2, 3])), b"", ANY_WORDS)


def case_of(source, examples, word):
    """One case for a subcommand."""
    if source.random() < 0.01:
        return command_line(source)
    ways = [(usual, 2000), (random_bytes, 100)]
    if word != "run":
        ways += [(long_line, 30), (long_input, 1)]
    if word == "answer":
        ways += [(long_description, 6)]
    made = pick(source, *ways)(source, examples, word)
    return Case([word], *made) if isinstance(made, tuple) else Case([word], made, None)
