"""Rows for `tests/check` over `ask`: the device that `serve` serves is at the other end of a pseudoterminal.

The commands' answers are those that DSP0240 and DSP0248 give for the description of `device.toml`; the words of the
lines are those of the rows of `show --decode`.
"""
import os
import select
import subprocess
import tempfile
import time

from rows_explain import BYTE, COMMANDS, ID, SIZES, STATE, UINT8
from rows_state import state
from support.askers import ENDS, TIMES, Place
from support.frames import frame, read_frames
from support.programs import PIPES, SECONDS
from support.terminals import Terminal

SILENT = {**PIPES, "stdin": subprocess.DEVNULL}
MORE = "\n\nFor more information, try '--help'.\n"

NO_WINDOW, NO_LIFETIME, NO_TIMEOUT = (
    f"invalid value for '--{option}'" for option in ("window <N>", "lifetime <MS>", "timeout <MS>")
)
LONG, PAST = "the lifetime is longer than the keeping time", "the tries take longer than the lifetime"

# A keeping time that is shorter than the lifetime with a window.
FAST = ("--keep", "249", "--timeout", "80")

SETTLING = 1.0  # the seconds before the first request, by these times

GET_TID = bytes.fromhex("010908c801800002")
ANSWER = frame(bytes.fromhex("010809c0010000020001"))
TID_IS_1 = "  response 0 GetTID tid 1\n"
SET_IN_DOUBT = "mctpctl: SetNumericEffecterValue: no answer; it may have been performed\n"


def answered(rows, place):
    """What is printed of an answer, and the status of its completion code."""
    asked = (
        ("an answer", ("gettid",), 0, TID_IS_1),
        ("an answer in hex", ("--hex", "gettid"), 0, "010000020001\n"),
        ("a set", ("setnum", "1", "uint8", "40"), 0, "  response 0 SetNumericEffecterValue SUCCESS\n"),
        ("no such sensor", ("sensor", "99"), 1, "  response 0 GetSensorReading refused INVALID_SENSOR_ID\n"),
        ("a refusal in hex", ("--hex", "sensor", "99"), 1, "0100021180\n"),
    )
    for name, words, status, out in asked:
        ran = place.served("ask", *ENDS, *TIMES, *words)
        rows.check(f"asked: {name}", ran == (status, out.encode(), b""), repr(ran))


def filed(rows, place):
    """The commands of a file, one after another: each has the next instance ID, and the greatest status counts."""
    text = "# set it, and read it back\nsetnum 1 uint8 40\n\n  getnum 1\n"
    want = "  response 0 SetNumericEffecterValue SUCCESS\n"
    want += "  response 1 GetNumericEffecterValue uint8 value 40 pending 40 operational enabled-noUpdatePending\n"
    ran = place.served("ask", *ENDS, *TIMES, "--file", place.write("commands", text))
    rows.check("asked: two commands of a file", ran[0] == 0 and ran[1].decode() == want and ran[2] == b"", repr(ran))
    text = "sensor 99\r\ngettid\r\n"
    ran = place.served("ask", *ENDS, *TIMES, "--hex", f"--file={place.write('commands', text)}")
    rows.check("asked: a refusal, then an answer", ran == (1, b"0100021180\n010100020001\n", b""), repr(ran))
    file = place.write("commands", "\n# none\n")
    ran = place.served("ask", *ENDS, *TIMES, "--file", file)
    rows.check("asked: a file without a command", ran == (0, b"", f"mctpctl: {file}: no command\n".encode()), repr(ran))


def unanswered(rows, place):
    """No answer in the tries: nothing more is asked of a device that is not there, and each try is one frame."""
    for name, words, err in (
        ("another endpoint ID", ("gettid",), "mctpctl: GetTID: no answer\n"),
        ("a set", ("setnum", "1", "uint8", "40"), SET_IN_DOUBT),
        ("a line of a file", ("--file", place.write("commands", "\ngettid\n")), "mctpctl: line 2: GetTID: no answer\n"),
    ):
        ran = place.served("ask", "--own", "8", "--device", "10", *TIMES, *words)
        rows.check(f"asked: {name} without an answer", ran == (3, b"", err.encode()), repr(ran))
    with Terminal() as terminal:
        ran = place.run("ask", "--line", terminal.name, *ENDS, *TIMES, "gettid")
        sent = terminal.read(0)
    rows.check("asked: nobody is there", ran == (3, b"", b"mctpctl: GetTID: no answer\n"), repr(ran))
    rows.check("asked: as many frames as tries", sent == frame(GET_TID) * 2, sent.hex())


def wait_until_open(asking, terminal):
    """Until the program has the line open for reading and for writing at least; a second where the system does not show it."""
    files, end = f"/proc/{asking.pid}/fd", time.monotonic() + (SECONDS if os.path.isdir("/proc/self/fd") else 1)
    while time.monotonic() < end and asking.poll() is None:
        try:
            names = [os.readlink(os.path.join(files, file)) for file in os.listdir(files)]
        except OSError:
            names = []
        if names.count(terminal.name) >= 2:
            return
        time.sleep(0.02)


def ended(rows, place):
    """A line that cannot be opened, and one that hangs up."""
    name = os.path.join(place.folder, "none")
    ran = place.run("ask", "--line", name, *ENDS, *TIMES, "gettid")
    want = f"mctpctl: {name}: No such file or directory (os error 2)\n".encode()
    rows.check("asked: a line that is not there", ran == (3, b"", want) and not os.path.exists(name), repr(ran))
    with Terminal() as terminal:
        words = [place.program, "ask", "--line", terminal.name, *ENDS, "gettid"]  # it waits for twelve seconds
        asking = subprocess.Popen(words, **SILENT)
        wait_until_open(asking, terminal)
        os.close(terminal.ours)
        terminal.ours = None
        out, err = asking.communicate(timeout=SECONDS)
    # The system reports a hangup as an end or as a failed read.
    well = (asking.returncode, out, err) == (3, b"", f"mctpctl: {terminal.name}: the line ended\n".encode())
    rows.check("asked: a terminal that goes away", well, repr((asking.returncode, out, err)))


def refused(rows, place):
    """Command lines, commands and timings that are refused, before a byte is written."""
    none = "either a COMMAND or '--file <FILE>' is needed"
    commands = place.write("commands", "gettid\n")
    meant = f"COMMAND: 'getid': expected {COMMANDS}; did you mean 'gettid'?"
    misplaced = "COMMAND: '--hex' is an option, and options stand before the command"
    lines = (
        ("an endpoint ID that is none", ("--own", "7", "--device", "9", "gettid"), "invalid value for '--own <EID>'"),
        ("a device that is none", ("--own", "8", "--device", "255", "gettid"), "invalid value for '--device <EID>'"),
        ("a keeping time of 0", (*ENDS, "--keep", "0", "gettid"), "invalid value for '--keep <MS>'"),
        ("a timeout that is no number", (*ENDS, "--timeout", "x", "gettid"), "invalid value for '--timeout <MS>'"),
        ("nine tries", (*ENDS, "--tries", "9", "gettid"), "invalid value for '--tries <N>'"),
        ("tries that take too long", (*ENDS, "--keep", "300", "gettid"), "the tries take longer than the keeping time"),
        ("a timeout of 0", (*ENDS, "--timeout", "0", "gettid"), "the timeout is 0"),
        ("no tries", (*ENDS, "--tries", "0", "gettid"), "the tries are not 1 to 8"),
        ("the device itself", ("--own", "9", "--device", "9", "gettid"), "the device has the same endpoint ID"),
        ("a window of 0", (*ENDS, "--window", "0", "gettid"), f"{NO_WINDOW}: the window is not 1 to 32"),
        ("a window of 33", (*ENDS, "--window", "33", "gettid"), NO_WINDOW),
        ("a lifetime of 0", (*ENDS, "--lifetime", "0", "gettid"), f"{NO_LIFETIME}: the lifetime is 0"),
        ("a lifetime that is no number", (*ENDS, "--lifetime", "x", "gettid"), NO_LIFETIME),
        ("a lifetime that is too long", (*ENDS, "--lifetime", "7000", "gettid"), f"{NO_LIFETIME}: {LONG}"),
        ("a lifetime that is not given", (*ENDS, *FAST, "--window", "8", "gettid"), f"{NO_LIFETIME}: {LONG}"),
        ("tries past the lifetime", (*ENDS, "--window", "8", "--timeout", "84", "gettid"), f"{NO_TIMEOUT}: {PAST}"),
        ("more tries than milliseconds", (*ENDS, "--lifetime", "2", "gettid"), f"{NO_LIFETIME}: {PAST}"),
        ("no command", ENDS, none),
        ("a command and a file", (*ENDS, "--file", commands, "gettid"), none),
        ("a comment for a command", (*ENDS, "# gettid"), none),
        ("a word that is no command", (*ENDS, "getid"), meant),
        ("a number out of range", (*ENDS, "settid", "256"), f"COMMAND: '256': expected {BYTE}"),
        ("a value out of range", (*ENDS, "setnum", "1", "uint8", "400"), f"COMMAND: '400': expected {UINT8}"),
        ("an ID out of range", (*ENDS, "sensor", "65536"), f"COMMAND: '65536': expected {ID}"),
        ("an ID that is no number", (*ENDS, "getnum", "fan"), f"COMMAND: 'fan': expected {ID}"),
        ("a state out of range", (*ENDS, "setstate", "2", "1", "256"), f"COMMAND: '256': expected {STATE}"),
        ("a ninth state", (*ENDS, "setstate", *"1123456789"), "COMMAND: '9': expected the end of the line"),
        ("a size that is none", (*ENDS, "setnum", "1", "float", "4"), f"COMMAND: 'float': expected {SIZES}"),
        ("a count out of range", (*ENDS, "getpdr", "0", "0", "first", "65536"), f"COMMAND: '65536': expected {ID}"),
        ("a word too many", (*ENDS, "gettid", "1"), "COMMAND: '1': expected the end of the line"),
        ("a word that is missing", (*ENDS, "sensor"), f"COMMAND: expected {ID} at the end of the line"),
        ("an option after the command", (*ENDS, "gettid", "--hex"), misplaced),
        ("an option after a value", (*ENDS, "setnum", "1", "sint8", "-5", "--hex", "--keep", "9"), misplaced),
    )
    for name, words, err in lines:
        with Terminal() as terminal:
            ran = place.run("ask", "--line", terminal.name, *words)
            sent = terminal.read(0)
        rows.check(f"asked: {name}", (*ran, sent) == (2, b"", f"error: {err}{MORE}".encode(), b""), repr(ran))
    for words in (("gettid",), ("--own", "8", "gettid"), (*ENDS, *ENDS, "gettid"), (*ENDS, "--explain", "gettid")):
        status, out, err = place.run("ask", *words)
        rows.check(f"asked: refused words {words}", (status, out) == (2, b"") and b"Usage: mctpctl" in err, repr(err))
    files = (
        ("a line that is no command", "gettid\n\nsettid\n", 2, "line 3: Words"),
        ("a file that is too long", "#" * 1048577, 2, "input too large"),
        ("a file that is not there", None, 3, "No such file or directory (os error 2)"),
    )
    for name, text, status, line in files:
        path = os.path.join(place.folder, "none") if text is None else place.write("commands", text)
        ran = place.run("ask", "--line", "/dev/null", *ENDS, "--file", path)
        rows.check(f"asked: {name}", ran == (status, b"", f"mctpctl: {path}: {line}\n".encode()), repr(ran))


def paced(rows, place):
    """The tries share a lifetime that is shorter than the keeping time: three of 83 ms, or of 2,000 ms at most."""
    for words, tries, least, most in (
        (("--window", "8"), 3, 0.249, 2),
        (("--window", "8", "--tries", "1"), 1, 0.25, 2),
        (("--lifetime", "600", "--tries", "2"), 2, 0.6, 2.3),
        (("--lifetime", "5000", "--tries", "1"), 1, 2.0, 4),
        (("--window", "8", "--timeout", "125", "--tries", "2"), 2, 0.25, 2),
    ):
        known = place.write("state", state(0, []))  # nothing was asked, so the first request goes out at once
        with Terminal() as terminal:
            began = time.monotonic()
            ran = place.run("ask", "--line", terminal.name, *ENDS, "--state", known, *words, "gettid")
            passed, sent = time.monotonic() - began, terminal.read(0)
        well = (ran, sent) == ((3, b"", b"mctpctl: GetTID: no answer\n"), frame(GET_TID) * tries)
        rows.check(f"asked: the tries with {words}", well and least <= passed < most, repr((ran, sent.hex(), passed)))


def waited(rows, place):
    """Twice the keeping time passes first, whatever comes meanwhile: an answer to an earlier request is none."""
    with Terminal() as terminal:
        words = [place.program, "ask", "--line", terminal.name, *ENDS, *TIMES, "gettid"]
        began = time.monotonic()
        asking = subprocess.Popen(words, **SILENT)
        terminal.write(frame(bytes.fromhex("010809c001000002007e")))  # the answer of an earlier one
        sent = terminal.read()
        passed = time.monotonic() - began
        terminal.write(ANSWER)
        out, err = asking.communicate(timeout=SECONDS)
    well = (asking.returncode, out, err, sent) == (0, TID_IS_1.encode(), b"", frame(GET_TID))
    rows.check("asked: after twice the keeping time", well and passed >= SETTLING, repr((passed, sent.hex(), out, err)))


def lost(rows, place):
    """A request that got no answer is sent again: the second copy is answered, amid garbage and cut frames."""
    with Terminal() as terminal:
        words = [place.program, "ask", "--line", terminal.name, *ENDS, *TIMES, "gettid"]
        asking = subprocess.Popen(words, **SILENT)
        sent = []
        for back in (b"\x00\xff" * 40 + ANSWER[:9], ANSWER):
            sent.append(terminal.read())
            terminal.write(back)
        out, err = asking.communicate(timeout=SECONDS)
    well = (asking.returncode, out, err) == (0, TID_IS_1.encode(), b"") and sent == [frame(GET_TID)] * 2
    rows.check("asked: a request that is sent again", well, repr((out, err, sent)))


# To a GetTID of instance ID 0 on tag 0: answers of another instance ID, on another tag, from and to another endpoint,
# to another command, and one that is no response by its tag owner bit.
OTHERS = ("010809c001010002007e", "010809c101000002007e", "01080ac001000002007e", "010b09c001000002007e")
OTHERS += ("010809c001000004000500000000000000", "010809c801000002007e")


def others(rows, place):
    """Answers to other requests are none, and its own is taken after them."""
    with Terminal() as terminal:
        words = [place.program, "ask", "--line", terminal.name, *ENDS, *TIMES, "gettid"]
        asking = subprocess.Popen(words, **SILENT)
        terminal.read()
        terminal.write(b"".join(frame(bytes.fromhex(packet)) for packet in OTHERS) + ANSWER)
        out, err = asking.communicate(timeout=SECONDS)
    ran = (asking.returncode, out, err)
    rows.check("asked: answers to other requests", ran == (0, TID_IS_1.encode(), b""), repr(ran))


def late(rows, place):
    """An answer that comes after its request was given up is no answer to the next request."""
    with Terminal() as terminal:
        file = place.write("commands", "gettid\ngettypes\n")
        words = [place.program, "ask", "--line", terminal.name, *ENDS, *TIMES, "--hex", "--file", file]
        asking = subprocess.Popen(words, **SILENT)
        packet = b""
        while packet[5:6] != b"\x81":  # the request with instance ID 1
            packet = read_frames(terminal.read())[-1]
        own = bytes([1, 8, 9, 0xC0 | packet[3] & 7]) + bytes.fromhex("01010004000500000000000000")
        terminal.write(ANSWER + frame(own))
        out, err = asking.communicate(timeout=SECONDS)
    ran = (asking.returncode, out, err)
    want = (3, b"01010004000500000000000000\n", b"mctpctl: line 1: GetTID: no answer\n")
    rows.check("asked: a late answer", ran == want, repr(ran))


def garbage(rows, place):
    """A line on which garbage comes for ever ends no try later, and is no end of the line."""
    with Terminal() as terminal:
        words = [place.program, "ask", "--line", terminal.name, *ENDS, *TIMES, "gettid"]
        asking = subprocess.Popen(words, **SILENT)
        began = time.monotonic()
        while asking.poll() is None and time.monotonic() < began + SECONDS:
            if select.select([], [terminal], [], 0.1)[1]:
                terminal.write(bytes(range(256)))
            terminal.read(0)
        out, err = asking.communicate(timeout=SECONDS)
        passed = time.monotonic() - began
    ran = (asking.returncode, out, err)
    well = ran == (3, b"", b"mctpctl: GetTID: no answer\n") and passed < 10 * SETTLING
    rows.check("asked: garbage for ever", well, repr((passed, ran)))


def on_standard_input(rows, place):
    """Without `--line` the line is standard input and output, and answers are on standard error."""
    with Terminal() as terminal:
        served = place.serve(terminal)
        try:
            ends = {"stdin": terminal.its, "stdout": terminal.its}
            status, _, err = place.run("ask", *ENDS, *TIMES, "gettid", **ends)
        finally:
            served.terminate()
            served.wait(timeout=SECONDS)
    rows.check("asked: on standard input and output", (status, err) == (0, TID_IS_1.encode()), repr(err))
    ran = place.run("ask", *ENDS, *TIMES, "gettid")
    rows.check("asked: standard input that ended", ran == (3, b"", b"mctpctl: the line ended\n"), repr(ran))


PARTS = (answered, filed, unanswered, ended, refused, paced, waited, lost, others, late, garbage)
PARTS += (on_standard_input,)


def check(rows, program, device):
    """Checks each row over the program, with the description of this text."""
    with tempfile.TemporaryDirectory() as folder:
        place = Place(program, folder, device)
        for part in PARTS:
            part(rows, place)
