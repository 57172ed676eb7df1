"""Rows for `tests/check` over the keys `window` and `busy` of a description.

What is wanted comes from the rule alone. A request is a copy where it repeats the latest fresh one of its source and
instance ID, byte for byte and less than the keeping time later, and fewer than `window` other instance IDs of its
source had a fresh request since. A schedule is timely where each repeat of a request is within its window too.
"""
from support.examples import text_of

ASKER, OTHER_ASKER = "requester 8 timeout 200 tries 3\n", "requester 10 timeout 200 tries 3\n"
SET = {40: "setnum 1 uint8 40", 50: "setnum 1 uint8 50"}
STEP = 25  # milliseconds from one request to the next

# The packets: effecter 1 is set with instance IDs 1 and 2, and read with 3; the answers.
SET_40, SET_50, READ = "010908c90181023101000028", "010908ca0182023101000032", "010908cb018302320100"
DONE_40, DONE_50 = "010809c10101023100", "010809c20102023100"
AT_40, AT_50 = "010809c3010302320000012828", "010809c3010302320000013232"


def keyed(device, line):
    """The description with this line behind its keeping time."""
    return device.replace("keep_ms = 1000\n", f"keep_ms = 1000\n{line}")


def at_end(order, value, timely):
    """The last lines of a run: effecter 1 is at this value."""
    return f"order {order}\ntid 1\nsensor 1 40\nnumeric 1 {value}\nstate 2 1 1\ntimely: {timely}\n"


def repeated(others, window):
    """A schedule and what has to come of it: effecter 1 is set to 40, then come so many other requests, the middle one
    of which sets it to 50, and then the first one once more."""
    commands = [SET[40]] + ["gettid"] * others
    if others:
        commands[(others + 1) // 2] = SET[50]
    lines, steps, requests = [ASKER], [], []
    for number, command in enumerate(commands):
        moment, is_set = STEP * number, command != "gettid"
        lines += [f"at {moment} {it}\n" for it in (f"open 8 {command}", f"req {number}", f"rep {number} 0")]
        came = (f"opened {number}", "fresh changed" if is_set else "fresh unchanged", "answered")
        steps += [f"{moment} {it}\n" for it in came]
        requests.append(f"request {number} from 8 answered 01{number:02x}{'023100' if is_set else '00020001'}\n")
    moment, is_copy = STEP * len(commands), others < window
    lines.append(f"at {moment} req 0\n")
    steps.append(f"{moment} {'copy' if is_copy else 'fresh changed'}\n")
    order = " ".join(map(str, [*range(len(commands)), *[0] * (not is_copy)]))
    end = at_end(order, 50 if is_copy and others else 40, "yes" if is_copy else "no")
    return "".join(lines), "".join((*steps, *requests, end))


# What a description says of its window, the window that it has, and how many other requests come before the repeat.
REPEATS = [
    ("window = 16\n", 16, 31),
    ("", 32, 31),
    ("window = 32\n", 32, 31),
    ("window = 31\n", 31, 31),
    ("window = 31\n", 31, 30),
    ("window = 16\n", 16, 16),
    ("window = 16\n", 16, 15),
    ("window = 1\n", 1, 1),
    ("window = 1\n", 1, 0),
]


def repeats(rows, run, device):
    for line, window, others in REPEATS:
        schedule, want = repeated(others, window)
        ran = run(["run"], f"{keyed(device, line)}%%\n{schedule}")
        well = (ran.returncode, ran.stdout.decode(), ran.stderr) == (0, want, b"")
        rows.check(f"run: a repeat after {others} others, {line.strip() or 'no window'}", well, repr(ran.stdout[-80:]))


# Request 0 sets effecter 1 to 40, request 1 to 50, request 2 asks for the terminus ID; request 3 is of endpoint 10, and
# sets the effecter to 50 too.
OPENED = "".join(f"at 0 open 8 {it}\n" for it in (SET[40], SET[50], "gettid")) + f"at 0 open 10 {SET[50]}\n"

# The name, the description's keys, what reaches the device and what has to come of it; then the order in which requests
# are performed, where the effecter is at the end, and whether the run is timely.
RUNS = [
    # The copy of request 0 does not renew its place: at the end two others came since it was fresh.
    ("a copy renews nothing", "window = 2\n", "0 1 0 2 0", "set set copy read set", "0 1 2 0", 40, "no"),
    ("copies within the window", "window = 2\n", "0 1 0 1 0 1", "set set copy copy copy copy", "0 1", 50, "yes"),
    ("another source has a window of its own", "window = 1\n", "0 3 0 3", "set set copy copy", "0 3", 50, "yes"),
    ("one other is enough for a window of 1", "window = 1\n", "0 1 0", "set set set", "0 1 0", 40, "no"),
    ("a repeat takes the other's place", "window = 1\n", "0 1 0 1", "set set set set", "0 1 0 1", 50, "no"),
    ("one other is not enough for 2", "window = 2\n", "0 1 0", "set set copy", "0 1", 50, "yes"),
    ("in the busy time each is refused", 'busy = "sets"\n', "restart 2 0", "restarted busy busy", "-", 10, "yes"),
    ("a restart within the window", "window = 1\n", "0 restart 0", "set restarted busy", "0", 40, "yes"),
]
TEXTS = {"set": "fresh changed", "read": "fresh unchanged"}


def runs(rows, run, device):
    for name, keys, steps, outcomes, order, value, timely in RUNS:
        schedule = "".join(f"at 1 {it if it == 'restart' else f'req {it}'}\n" for it in steps.split())
        ran = run(["run"], f"{keyed(device, keys)}%%\n{ASKER}{OTHER_ASKER}{OPENED}{schedule}")
        want = "".join(f"0 opened {number}\n" for number in range(4))
        want += "".join(f"1 {TEXTS.get(it, it)}\n" for it in outcomes.split())
        want += "".join(f"request {number} from {8 if number < 3 else 10} open\n" for number in range(4))
        want += at_end(order, value, timely)
        well = (ran.returncode, ran.stdout.decode(), ran.stderr) == (0, want, b"")
        rows.check(f"run: {name}", well, repr(ran.stdout.decode()[-120:]))


def answers(rows, run, device):
    """Set to 40, to 50, and the first packet once more; the read shows whether it was a copy."""
    done = [DONE_40, DONE_50, DONE_40]
    for line, at in (("window = 1\n", AT_40), ("window = 2\n", AT_50), ("", AT_50), ('busy = "sets"\n', AT_50)):
        capture = "".join(f"{moment} {packet}\n" for moment, packet in enumerate((SET_40, SET_50, SET_40, READ)))
        ran = run(["answer"], f"{keyed(device, line)}%%\n{capture}")
        want = "".join(f"{packet}\n" for packet in (*done, at))
        well = (ran.returncode, ran.stdout.decode(), ran.stderr) == (0, want, b"")
        rows.check(f"answer: 40, 50 and 40 again, {line.strip() or 'no window'}", well, repr(ran.stdout))


def described(rows, run):
    """The description for OpenBMC's pldmd: instance ID 2 comes round 800 ms later, with the bytes that it had."""
    device = text_of("openbmc.toml")
    ids = [(2 + count) % 32 for count in range(33)]
    sets = {0: 40, 15: 50, 32: 40}
    asked, want = [], []
    for count, number in enumerate(ids):
        tag, is_set = count % 8, count in sets
        command = f"0231010000{sets[count]:02x}" if is_set else "0002"
        asked.append(f"{STEP * count} 010908{0xC8 | tag:02x}01{0x80 | number:02x}{command}\n")
        want.append(f"010809{0xC0 | tag:02x}01{number:02x}{'023100' if is_set else '00020001'}\n")
    asked.append(f"{STEP * 33} {READ}\n")
    want.append(f"{AT_40}\n")
    ran = run(["answer"], f"{device}%%\n{''.join(asked)}")
    well = (ran.returncode, ran.stdout.decode(), ran.stderr) == (0, "".join(want), b"")
    rows.check("answer: openbmc.toml, each instance ID again", well, repr(ran.stdout[-80:]))
    ran = run(["answer", "--explain"], f"{device}%%\n")
    well = (ran.returncode, ran.stderr) == (0, b"")
    rows.check("openbmc.toml has no fault and no unknown key", well, repr(ran.stderr))


def check(rows, run, device):
    repeats(rows, run, device)
    runs(rows, run, device)
    answers(rows, run, device)
    described(rows, run)
