"""Rows of `tests/check` for contrib/ladder, which draws runs.

Each example of a run, and each of RUNS below, is drawn. The arrows of the picture are compared with what the schedule
and the output say, by rules that are written here once more and share nothing with the drawing. Then come rows for the
text, and for how the command ends.
"""
import os
import re
import subprocess
import tempfile
import xml.etree.ElementTree as ElementTree

from support import programs
from support.examples import EXAMPLES, ROOT

SVG = "{http://www.w3.org/2000/svg}"
MOST_COLUMNS = 100

DEVICE = "eid = 9\nkeep_ms = 1000\n%%\n"

# Runs that no example has: a schedule after DEVICE, and its output. `crates/layer_tests` has them too, but for the
# second, which was put together by hand.
RUNS = {
    "a restart before a copy": (
        "requester 8 timeout 200 tries 5\nat 0 open 8 setnum 1 uint8 40\nat 0 req 0\nat 100 restart\nat 200 tick 8\n"
        "at 200 req 0\nat 210 busy 0\nat 220 rep 0 0\n",
        "0 opened 0\n0 fresh changed\n100 restarted\n200 again 0\n200 busy\n210 drop NotReady\n220 answered\n"
        "request 0 from 8 answered 0100023100\norder 0\ntid 1\nsensor 1 40\nnumeric 1 40\nstate 2 1 1\ntimely: yes\n",
    ),
    "two answers to one request": (
        "requester 8 timeout 200 tries 3\nat 0 open 8 setnum 1 uint8 40\nat 0 req 0\nat 1000 req 0\nat 1010 rep 0 0\n"
        "at 1020 rep 0 0\n",
        "0 opened 0\n0 fresh changed\n1000 fresh changed\n1010 answered\n1020 drop BadTag\n"
        "request 0 from 8 answered 0100023100\norder 0 0\ntid 1\nsensor 1 40\nnumeric 1 40\nstate 2 1 1\ntimely: no\n",
    ),
    "a restart before a request": (
        "requester 8 timeout 200 tries 5\nat 0 restart\nat 500 open 8 setnum 1 uint8 40\nat 500 busy 0\nat 500 req 0\n"
        "at 999 req 0\nat 1000 req 0\nat 1010 rep 0 0\n",
        "0 restarted\n500 opened 0\n500 nothing\n500 busy\n999 busy\n1000 fresh changed\n1010 answered\n"
        "request 0 from 8 answered 0100023100\norder 0\ntid 1\nsensor 1 40\nnumeric 1 40\nstate 2 1 1\ntimely: yes\n",
    ),
    "two requesters": (
        "requester 8 timeout 200 tries 3\nrequester 10 timeout 200 tries 3\nat 0 open 8 setnum 1 uint8 40\n"
        "at 0 open 10 setnum 1 uint8 50\nat 0 req 1\nat 0 req 0\nat 0 req 1\nat 0 req 2\n",
        "0 opened 0\n0 opened 1\n0 fresh changed\n0 fresh changed\n0 copy\n0 nothing\nrequest 0 from 8 open\n"
        "request 1 from 10 open\norder 1 0\ntid 1\nsensor 1 40\nnumeric 1 40\nstate 2 1 1\ntimely: yes\n",
    ),
    "no step": ("\n# nothing\n", "order -\ntid 1\nsensor 1 40\nnumeric 1 10\nstate 2 1 1\ntimely: yes\n"),
}


def check(rows):
    ladder = os.path.join(ROOT, "contrib", "ladder")
    with tempfile.TemporaryDirectory() as room:
        runs = examples() + written(room)
        for name, schedule, output in runs:
            drawing(rows, ladder, name, schedule, output)
            text(rows, ladder, name, schedule, output)
        apart(rows, ladder, room, runs)
        refusals(rows, ladder, room)
        closed_pipe(rows, ladder, *runs[0][1:])
    command_lines(rows, ladder)


def examples():
    """The name, the schedule and the output of each example of a run."""
    names = [os.path.splitext(name) for name in sorted(os.listdir(EXAMPLES))]
    paths = [(stem, os.path.join(EXAMPLES, stem)) for stem, ending in names if ending == ".schedule"]
    return [(stem, f"{path}.schedule", f"{path}.expected") for stem, path in paths]


def written(room):
    """As `examples`, for the runs above."""
    runs = []
    for number, (name, (schedule, output)) in enumerate(RUNS.items()):
        paths = os.path.join(room, f"{number}.schedule"), os.path.join(room, f"{number}.expected")
        for path, content in zip(paths, (DEVICE + schedule, output)):
            put(path, content)
        runs.append((name, *paths))
    return runs


def put(path, content):
    with open(path, "w") as file:
        file.write(content)


def read(path):
    with open(path) as file:
        return file.read()


def run(words):
    return programs.run(words, stdin=subprocess.DEVNULL)


def steps_of(schedule, output):
    """The words of each step after `at`, its moment first, and what came of it."""
    lines = read(schedule).split("\n%%\n", 1)[1].splitlines()
    steps = [line.split()[1:] for line in lines if line.startswith("at ")]
    return [(words, line.split(" ", 1)[1]) for words, line in zip(steps, read(output).splitlines())]


class Sent:
    """A packet of a request, or an answer, that was sent, and the packets of it that came."""

    def __init__(self, kind, number, moment, words):
        self.kind, self.number, self.moment, self.words = kind, number, moment, words
        self.came = set()


def follow(steps):
    """The arrows that have to be there: those that came, in order, and those that were lost."""
    came, sent = [], []
    for (moment, kind, *words), outcome in steps:
        number = words[0] if words else None
        again = re.match("again((?: [0-9]+)+)", outcome)
        if outcome.startswith("opened "):
            sent.append(Sent("request", outcome.split()[1], moment, set()))
        elif again:
            sent += [Sent("request", word, moment, set()) for word in again[1].split()]
        elif outcome == "nothing" or kind not in ("req", "rep", "busy"):
            continue
        elif kind == "req":
            words = {outcome} & {"copy", "busy"}
            came.append(("request", number, moment, None, words | deliver(sent, is_request, number, None)[1]))
            sent.append(Sent("reply" if words else "fresh reply", number, moment, words))
        else:
            packet, wanted = (words[1], is_answer) if kind == "rep" else ("0", is_refusal)
            answer, repeat = deliver(since_fresh(sent, number) if kind == "rep" else sent, wanted, number, packet)
            dropped = {"dropped"} if outcome.startswith("drop ") else set()
            came.append(("reply", number, moment, packet, answer.words | dropped | repeat))
    lost = [(one.kind.split()[-1], one.number, one.moment, one.words | {"lost"}) for one in sent if not one.came]
    return came, lost


def is_request(one):
    return one.kind == "request"


def is_answer(one):
    return one.kind != "request" and "busy" not in one.words


def is_refusal(one):
    return one.kind != "request" and "busy" in one.words


def since_fresh(sent, number):
    """What was sent since the device last performed the request, or all where it never did."""
    places = [place for place, one in enumerate(sent) if one.kind == "fresh reply" and one.number == number]
    return sent[places[-1] :] if places else sent


def deliver(sent, wanted, number, packet):
    """The latest sending of which the packet has not come, else the latest; and the word for a repeat."""
    sendings = [one for one in sent if wanted(one) and one.number == number]
    missing = [one for one in sendings if packet not in one.came]
    one = (missing or sendings)[-1]
    one.came.add(packet)
    return one, set() if missing else {"repeat"}


def drawing(rows, ladder, name, schedule, output):
    """Rows for the picture of one run."""
    ran = run([ladder, schedule, output])
    rows.check(f"ladder of {name}", ran.returncode == 0 and ran.stderr == b"", repr(ran.stderr[:200]))
    if ran.returncode != 0:
        return
    groups = [(group, group.get("class", "").split()) for group in ElementTree.fromstring(ran.stdout).iter(SVG + "g")]
    arrows = [(group, words) for group, words in groups if words[:1] in (["request"], ["reply"])]
    steps = steps_of(schedule, output)
    came, lost = follow(steps)
    drawn = [arrow_of(group, words) for group, words in arrows if "lost" not in words]
    rows.check(f"ladder of {name}: what came", drawn == came, f"{drawn} for {came}")
    drawn = [arrow_of(group, words) for group, words in arrows if "lost" in words]
    drawn = [(kind, number, moment, words) for kind, number, moment, _, words in drawn]
    rows.check(f"ladder of {name}: what was lost", by_text(drawn) == by_text(lost), f"{drawn} for {lost}")
    bars = [group for group, words in groups if words == ["restart"]]
    bars = [bar.get("data-moment") for bar in bars for box in bar.iter(SVG + "rect") if float(box.get("height")) > 0]
    restarts = [words[0] for words, _ in steps if words[1] == "restart"]
    rows.check(f"ladder of {name}: restarts", bars == restarts, f"{bars} for {restarts}")
    last = read(output).splitlines()[-1].encode()
    rows.check(f"ladder of {name}: the bottom line", f">{last.decode()}<".encode() in ran.stdout, repr(last))


def arrow_of(group, words):
    """An arrow of the picture, as `follow` gives it."""
    kind, *words = words
    return kind, group.get("data-request"), group.get("data-moment"), group.get("data-packet"), set(words)


def by_text(arrows):
    return sorted((*arrow[:3], *sorted(arrow[3])) for arrow in arrows)


def text(rows, ladder, name, schedule, output):
    ran = run([ladder, "--text", schedule, output])
    lines = ran.stdout.decode("ascii", "replace").splitlines()
    well = ran.returncode == 0 and ran.stdout.isascii() and lines[-1:] == read(output).splitlines()[-1:]
    rows.check(f"ladder of {name} as text", well, repr(ran.stderr[:200]))
    most = max(map(len, lines), default=0)
    rows.check(f"ladder of {name} as text: columns", most <= MOST_COLUMNS, f"{most} columns")


def apart(rows, ladder, room, runs):
    """A description and a schedule that are files of their own give the picture of the file that has both."""
    paths = os.path.join(room, "device.toml"), os.path.join(room, "own.schedule")
    for name, schedule, output in runs:
        for path, content in zip(paths, read(schedule).split("%%\n", 1)):
            put(path, content)
        for flags in ([], ["--text"]):
            whole, ran = run([ladder, *flags, schedule, output]), run([ladder, *flags, *paths, output])
            well = (ran.returncode, ran.stdout) == (0, whole.stdout)
            rows.check(f"ladder of {name} from two files {flags}", well, repr(ran.stderr[:200]))
    for words in ([paths[1], paths[0], output], [paths[0], schedule, output]):
        refused(rows, f"ladder refuses {[os.path.basename(word) for word in words]}", [ladder, *words])


def refusals(rows, ladder, room):
    """Files that are not as expected, each with one line on standard error."""
    schedule, output = RUNS["two requesters"]
    lines = output.splitlines(keepends=True)
    cases = [
        ("an output with a line less", DEVICE + schedule, "".join(lines[1:])),
        ("an output with a line more", DEVICE + schedule, lines[0] + output),
        ("an output that ends early", DEVICE + schedule, "".join(lines[:4])),
        ("an output of another order", DEVICE + schedule, output.replace("order 1 0", "order 0 1")),
        ("the output of another run", DEVICE + schedule, RUNS["a restart before a copy"][1]),
        ("an empty output", DEVICE + schedule, ""),
        ("a schedule without a device", "%%\n" + schedule, output),
        ("a schedule without a divider", schedule, output),
        ("a schedule with a wrong word", DEVICE + schedule.replace("req 2", "rek 2"), output),
    ]
    paths = os.path.join(room, "refused.schedule"), os.path.join(room, "refused.expected")
    for name, *contents in cases:
        for path, content in zip(paths, contents):
            put(path, content)
        refused(rows, f"ladder refuses {name}", [ladder, *paths])
    refused(rows, "ladder refuses a file that is not there", [ladder, paths[0], os.path.join(room, "none")])
    refused(rows, "ladder refuses a folder", [ladder, "--text", room, room])


def refused(rows, name, words):
    ran = run(words)
    well = ran.returncode == 1 and ran.stdout == b"" and re.fullmatch(b"ladder: .+\n", ran.stderr) is not None
    rows.check(name, well, f"status {ran.returncode}, {ran.stdout[:80]!r}, {ran.stderr[:200]!r}")


def closed_pipe(rows, ladder, schedule, output):
    """The reader is gone before the first byte is written."""
    for words in ([ladder, schedule, output], [ladder, "--text", schedule, output], [ladder, "--help"]):
        reader, writer = os.pipe()
        os.close(reader)
        ran = programs.run(words, stdout=writer)
        os.close(writer)
        well = ran.stderr == b"" and ran.returncode != 0
        rows.check(f"ladder with a closed pipe: {len(words)} words", well, f"{ran.returncode}, {ran.stderr[:200]!r}")


def command_lines(rows, ladder):
    ran = run([ladder, "--help"])
    well = ran.returncode == 0 and ran.stderr == b"" and b"contrib/ladder [DESCRIPTION] SCHEDULE OUTPUT" in ran.stdout
    rows.check("ladder's help", well, f"status {ran.returncode}, {ran.stderr[:200]!r}")
    refused_words = ([], ["one"], ["--text", "one"], ["--other", "one"], ["one", "--text"])
    for words in (*refused_words, ["one", "two", "three", "four"]):
        ran = run([ladder, *words])
        well = ran.returncode == 2 and ran.stdout == b"" and ran.stderr.startswith(b"usage: contrib/ladder ")
        rows.check(f"ladder refuses the words {words}", well, f"status {ran.returncode}, {ran.stderr[:200]!r}")
