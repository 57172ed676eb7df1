"""Rows for `tests/check` over the state of a line: what is kept of requests, and what a run goes on with.

The moments are those of the system's clock since its start; a request's bytes are those of DSP0240 for GetTID with the
instance ID of its number, on the tag of its number.
"""
import fcntl
import os
import subprocess
import tempfile
import time

from support.askers import ENDS, TIMES, Place
from support.frames import frame
from support.programs import PIPES, SECONDS
from support.terminals import Terminal

SETTLING = 1.0  # the seconds before the first request where nothing is known, by these times
AT_ONCE = 0.7  # fewer seconds than this are no waiting
ALL = 32


def request(number):
    return frame(bytes([1, 9, 8, 0xC8 | number % 8, 1, 0x80 | number % 32, 0, 2]))


def answer(number):
    return frame(bytes([1, 8, 9, 0xC0 | number % 8, 1, number % 32, 0, 2, 0, 1]))


def printed(number):
    return f"  response {number % 32} GetTID tid 1\n".encode()


def boot_id():
    with open("/proc/sys/kernel/random/boot_id") as file:
        return file.read().strip()


def uptime():
    """The milliseconds since the system's start."""
    with open("/proc/uptime") as file:
        return int(float(file.read().split()[0]) * 1000)


def state(following, moments, boot=None, own=8, device=9, queries=(0, 0)):
    words = [boot or boot_id(), own, device, following, *queries, *moments]
    return "mctpctl-openings " + " ".join(map(str, words)) + "\n"


def kept(path):
    with open(path) as file:
        return file.read()


def is_kept(path, following, moments):
    """Whether this is kept, and no control query."""
    words = kept(path).split()
    return words[6].isdecimal() and kept(path) == state(following, moments, queries=(0, words[6]))


def asked(place, terminal, number, *words, **how):
    """The seconds until the request with this number comes, which is then answered, and how the run ended."""
    words = [place.program, "ask", "--line", terminal.name, *ENDS, *TIMES, *words, "gettid"]
    began = time.monotonic()
    asking = subprocess.Popen(words, **{**PIPES, **how})
    sent = terminal.read()
    passed = time.monotonic() - began
    terminal.write(answer(number))
    out, err = asking.communicate(timeout=SECONDS)
    return passed, (asking.returncode, out, err.decode(), sent)


def gone_on(rows, place):
    """Where nothing is known a run waits; the next one goes on at once, with the next instance ID."""
    path = os.path.join(place.folder, "state")
    with Terminal() as terminal:
        before = uptime()
        passed, ran = asked(place, terminal, 0, "--state", path)
        rows.check("state: a new file", ran == (0, printed(0), "", request(0)) and passed >= SETTLING, repr((passed, ran)))
        rows.check("state: what a first request leaves", is_kept(path, 1, ["-"]), kept(path))
        passed, ran = asked(place, terminal, 1, "--state", path)
        rows.check("state: the next run", ran == (0, printed(1), "", request(1)) and passed < AT_ONCE, repr((passed, ran)))
        words = kept(path).split()
        well = words[4] == "2" and words[8] == "-" and before <= int(words[7]) <= uptime() + 20
        rows.check("state: the moment of the one before", well, kept(path))
        rows.equal("state: what is left beside it", sorted(os.listdir(place.folder)), ["device.toml", "state", "state.lock"])


def waited_for(rows, place):
    """An instance ID is used again after twice the keeping time; one that may have been used counts from now on."""
    ago = uptime() - 60_000
    for name, fifth, least in (
        ("long ago", lambda: ago, 0.0),
        ("0.2 s ago", lambda: uptime() - 200, 0.75),
        ("maybe", lambda: "-", SETTLING),
    ):
        with Terminal() as terminal:
            path = place.write("state", state(5, [ago] * 5 + [fifth()] + [ago] * 26))
            passed, ran = asked(place, terminal, 5, "--state", path)
        well = ran == (0, printed(5), "", request(5)) and least <= passed < least + AT_ONCE
        rows.check(f"state: an instance ID of {name}", well, repr((passed, ran)))


def unknown(rows, place):
    """What tells nothing costs the whole wait, and is said."""
    soon, ago = uptime() + 60_000, uptime() - 60_000
    last = state(1, [ago])
    for text, reason in (
        (state(1, [ago], boot="00000000-0000-0000-0000-000000000000"), "from before the system's last start"),
        (state(1, [ago], own=7), "of other endpoint IDs"),
        (state(1, [ago], device=10), "of other endpoint IDs"),
        (state(1, [soon]), "from a moment to come"),
        (state(1, [ago], queries=(3, soon)), "from a moment to come"),
        (state(2, [ago]), "damaged"),
        (state(32, [ago] * ALL), "damaged"),
        ("", "damaged"),
        (last[:-1], "damaged"),
        (last.replace(" 1 ", " 01 "), "damaged"),
        (last.replace(" 8 ", "  8 "), "damaged"),
        (last + last, "damaged"),
        (state(1, [ago] * (ALL + 1)), "damaged"),
        (state(1, ["x"]), "damaged"),
        ("mctpctl-openings \n", "damaged"),
    ):
        with Terminal() as terminal:
            path = place.write("state", text)
            passed, ran = asked(place, terminal, 0, "--state", path)
        want = (0, printed(0), f"mctpctl: {path}: {reason}; 1000 ms pass first\n", request(0))
        rows.check(f"state: {reason}: {text[:60]!r}", ran == want and passed >= SETTLING, repr((passed, ran)))
        rows.check(f"state: anew after {text[:60]!r}", is_kept(path, 1, ["-"]), kept(path))


def left_alone(rows, place):
    """A file that holds something else stays as it is, and one that cannot be made is told."""
    for text in ("12x\n", "1\n", "[records]\n", "mctpctl"):
        path = place.write("state", text)
        ran = place.run("ask", "--line", "/dev/null", *ENDS, *TIMES, "--state", path, "gettid")
        want = (2, b"", f"mctpctl: {path}: no state of a device\n".encode())
        rows.check(f"state: no state: {text!r}", ran == want and kept(path) == text, repr(ran))
    path = os.path.join(place.folder, "none", "state")
    ran = place.run("ask", "--line", "/dev/null", *ENDS, *TIMES, "--state", path, "gettid")
    want = (3, b"", f"mctpctl: {path}: No such file or directory (os error 2)\n".encode())
    rows.check("state: a file that cannot be made", ran == want, repr(ran))


def locked(rows, place):
    """A second run is refused, and takes nothing from the line; a lock whose process is gone is none."""
    path = place.write("state", state(0, []))
    with Terminal() as terminal:
        words = [place.program, "ask", "--line", terminal.name, *ENDS, *TIMES, "--state", path, "gettid"]
        first = subprocess.Popen(words, **PIPES)
        sent = terminal.read()
        second = subprocess.run(words, timeout=SECONDS, **PIPES)
        terminal.write(answer(0))
        out, err = first.communicate(timeout=SECONDS)
        want = (3, b"", f"mctpctl: {path}: in use by another process\n".encode())
        rows.check("state: a second run", (second.returncode, second.stdout, second.stderr) == want, repr(second))
        rows.equal("state: the first one", (first.returncode, sent, out, err), (0, request(0), printed(0), b""))
        with open(path + ".lock") as lock:
            fcntl.flock(lock, fcntl.LOCK_EX)
            ran = place.run("ask", "--line", terminal.name, *ENDS, *TIMES, "--state", path, "gettid")
            rows.equal("state: a lock of another program", ran, want)
        passed, ran = asked(place, terminal, 1, "--state", place.write("state", state(1, [uptime() - 60_000])))
        well = ran == (0, printed(1), "", request(1)) and passed < AT_ONCE
        rows.check("state: a lock that was left", well, repr((passed, ran)))


def killed(rows, place):
    """What a run that is killed had begun counts as used, and costs nothing else."""
    path = place.write("state", state(0, []))
    with Terminal() as terminal:
        words = [place.program, "ask", "--line", terminal.name, *ENDS, *TIMES, "--state", path, "gettid"]
        asking = subprocess.Popen(words, **PIPES)
        sent = terminal.read()
        asking.kill()
        asking.communicate(timeout=SECONDS)
        well = sent == request(0) and is_kept(path, 1, ["-"])
        rows.check("state: of a run that was killed", well, repr((sent, kept(path))))
        passed, ran = asked(place, terminal, 1, "--state", path)
        well = ran == (0, printed(1), "", request(1)) and passed < AT_ONCE
        rows.check("state: after a run that was killed", well, repr((passed, ran)))


def usual(rows, place):
    """Where no file is named there is one for each line and pair of endpoints, or none."""
    home = os.path.join(place.folder, "home")
    os.mkdir(home)
    bare = {name: value for name, value in os.environ.items() if name not in ("HOME", "XDG_STATE_HOME")}
    with Terminal() as terminal:
        name = "8-9" + terminal.name.replace("/", "-")
        for number, least, most, words, variables in (
            (0, SETTLING, 9, (), {"XDG_STATE_HOME": home}),
            (1, 0, AT_ONCE, (), {"XDG_STATE_HOME": home}),
            (0, SETTLING, 9, ("--no-state",), {"XDG_STATE_HOME": home}),
            (2, 0, AT_ONCE, (), {"XDG_STATE_HOME": home, "HOME": "/none"}),
            (0, SETTLING, 9, (), {"HOME": home, "XDG_STATE_HOME": "not/whole"}),
            (1, 0, AT_ONCE, (), {"HOME": home}),
            (0, SETTLING, 9, (), {}),
        ):
            passed, ran = asked(place, terminal, number, *words, env={**bare, **variables})
            well = ran == (0, printed(number), "", request(number)) and least <= passed < most
            rows.check(f"state: of {words} {sorted(variables)}, request {number}", well, repr((passed, ran)))
        for folder in (os.path.join(home, "mctpctl"), os.path.join(home, ".local/state/mctpctl")):
            rows.equal(f"state: in {folder[-20:]}", sorted(os.listdir(folder)), [name, name + ".lock"])
        passed, ran = asked(place, terminal, 0, env={**bare, "XDG_STATE_HOME": "/dev/null"})
        told = ran[2].startswith(f"mctpctl: {terminal.name}: ") and ran[2].endswith("; no state is kept\n")
        rows.check("state: that cannot be kept", ran[:2] == (0, printed(0)) and told and passed >= SETTLING, repr(ran))


def queried(rows, place):
    """The control queries of a walk have instance IDs of their own: ten walks go at once, then a wait."""
    ago = uptime() - 60_000
    for name, queries, first, waits in (
        ("the next", (3, uptime()), 3, False),
        ("the last", (29, uptime()), 29, False),
        ("again from 0", (30, ago), 0, False),
        ("from 0 after a wait", (30, uptime()), 0, True),
    ):
        path = place.write("state", state(1, [ago], queries=queries))
        with Terminal() as terminal:
            words = [place.program, "walk", "--line", terminal.name, *ENDS, *TIMES, "--state", path]
            began = time.monotonic()
            asking = subprocess.Popen(words, **PIPES)
            sent = terminal.read()
            passed = time.monotonic() - began
            asking.kill()
            asking.communicate(timeout=SECONDS)
        want = frame(bytes([1, 9, 8, 0xC8, 0, 0x80 | first, 2]))
        well = sent == want and waits == (passed >= SETTLING)
        rows.check(f"state: control queries, {name}", well, repr((passed, sent.hex())))
        words = kept(path).split()
        rows.equal(f"state: control queries kept, {name}", words[5:7], [str(first + 3), "-"])


PARTS = (gone_on, waited_for, unknown, left_alone, locked, killed, usual, queried)


def check(rows, program, device):
    """Checks each row over the program, with the description of this text."""
    for part in PARTS:
        with tempfile.TemporaryDirectory() as folder:
            part(rows, Place(program, folder, device))
