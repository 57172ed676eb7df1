"""Rows for `tests/check` over `serve`: frames through pipes and a pseudoterminal, and how the program ends.

The frames are made and read by `tests/support/frames.py`, and the packets of the answers are those of the examples'
expected files. Moments are those of the clock, so only such examples are served whose answers do not depend on them.
"""
import os
import pty
import select
import subprocess
import tempfile
import termios
import time
import tty

import rows_explain
import rows_large
from support import programs
from support.examples import text_of
from support.frames import check_sequence, frame, packets_of, read_frames
from support.programs import PIPES, SECONDS
from support.terminals import Terminal

QUESTION = bytes.fromhex("010908c801800002")
ANSWER = bytes.fromhex("010809c0010000020001")

# The examples that are served. Each begins with a description, and each packet is a request of its own or is dropped.
EXAMPLES = ("get_tid.txt", "drops_and_answers.txt", "several_packets.txt", "records.txt", "platform.txt")


class Place(programs.Place):
    """The same, with a device that is served."""

    def start(self, *words, device=None, **how):
        words = [self.program, "serve", "--device", device or self.device, *words]
        return subprocess.Popen(words, bufsize=0, **{**PIPES, **how})

    def run(self, data, *words, **how):
        """The status, standard output and standard error over these bytes, which are written at once."""
        served = self.start(*words, **how)
        out, err = served.communicate(data, timeout=SECONDS)
        return served.returncode, out, err


def answers_in(text):
    """The packets of an expected file: its lines that are hex alone."""
    lines = (line for line in text.splitlines() if not line.startswith(("drop ", "partial")))
    return [bytes.fromhex(line) for line in lines]


def wait_for(descriptor, count, seconds=SECONDS):
    """As many bytes as that, or what came until the input ended or the time was up."""
    data, end = b"", time.monotonic() + seconds
    while len(data) < count and select.select([descriptor], [], [], max(end - time.monotonic(), 0))[0]:
        more = os.read(descriptor, count - len(data))
        if not more:
            break
        data += more
    return data


def examples(rows, place):
    """Packets of captures, in one piece and byte by byte: the answers are those that `answer` gives."""
    for name in EXAMPLES:
        description, _, capture = text_of(name).partition("%%\n")
        want = answers_in(text_of(f"{os.path.splitext(name)[0]}.expected"))
        data = b"".join(map(frame, packets_of(capture)))
        device = place.write("example.toml", description)
        status, out, err = place.run(data, device=device)
        well = (status, read_frames(out), err) == (0, want, b"")
        rows.check(f"{name} as frames", well, repr((status, out[:80], err)))
        served = place.start(device=device)
        for byte in data:
            served.stdin.write(bytes([byte]))
        out, err = served.communicate(timeout=SECONDS)
        well = (served.returncode, read_frames(out), err) == (0, want, b"")
        rows.check(f"{name} byte by byte", well, repr((served.returncode, out[:80], err)))


def large(rows, place):
    """As many packets as the large capture has, in more bytes than a piece of the input."""
    asked, want = ([bytes.fromhex(it.split()[-1]) for it in them] for them in list(zip(*rows_large.capture()))[:2])
    status, out, err = place.run(b"".join(map(frame, asked)), device=place.write("large.toml", rows_large.DEVICE))
    well = (status, read_frames(out), err) == (0, want, b"")
    rows.check(f"{len(asked)} packets as frames", well, repr((status, err)))


def no_frames(rows, place):
    """What is no frame gets no answer, and the frame after it gets one."""
    asked, answered = frame(QUESTION), frame(ANSWER)
    wrong = asked[:-3] + bytes([asked[-3] ^ 1]) + asked[-2:]
    longest = bytes.fromhex("01090888") + b"\x01" * 64
    inputs = (
        ("nothing", b"", b""),
        ("bytes that are no frame", bytes(range(0x20, 0x7E)), b""),
        ("garbage before a frame", b"\0\x01garbage" + asked, answered),
        ("garbage between frames", asked + b"\xff\x7d\0" * 9 + asked, answered * 2),
        ("flags between frames", asked + b"\x7e" * 9 + asked, answered * 2),
        ("one flag that ends a frame and begins the next", asked + asked[1:], answered * 2),
        ("a wrong check sequence", wrong, b""),
        ("a frame after a wrong check sequence", wrong + asked, answered),
        ("a check sequence with its low byte first", asked[:-3] + asked[-2:-4:-1] + asked[-1:] + asked, answered),
        ("a check sequence with a final complement", complemented(QUESTION) + asked, answered),
        ("another revision", b"\x7e\x02" + asked[2:] + asked, answered),
        ("a frame of no bytes", b"\x7e\x01\x00" + asked, answered),
        ("a packet that is too long for a frame", b"\x7e\x01\x45" + bytes(69) + asked, answered),
        ("a frame that is cut short", asked[:7] + asked, answered),
        ("an escape of another byte", asked[:3] + b"\x7d\x09" + asked[4:] + asked, answered),
        ("the input ends in a frame", asked + asked[:9], answered),
        ("a packet for another endpoint", frame(b"\x01\x0b" + QUESTION[2:]) + asked, answered),
        ("a packet of a full payload", frame(longest) + asked, answered),
    )
    for name, data, want in inputs:
        status, out, err = place.run(data)
        rows.check(f"served: {name}", (status, out, err) == (0, want, b""), repr((status, out, err)))


def complemented(packet):
    """A frame whose check sequence is that of other protocols, with all its bits changed."""
    sequence = check_sequence(bytes([1, len(packet)]) + packet) ^ 0xFFFF
    return b"\x7e" + bytes([1, len(packet)]) + packet + sequence.to_bytes(2, "big") + b"\x7e"


def escapes(rows, place):
    """A flag and an escape in a packet are escaped both ways: the terminus ID is set to them, and asked for."""
    for tid in (0x7E, 0x7D):
        packets = [bytes.fromhex("010908c901810001") + bytes([tid]), bytes.fromhex("010908ca01820002")]
        want = [bytes.fromhex("010809c10101000100"), bytes.fromhex("010809c20102000200") + bytes([tid])]
        status, out, err = place.run(b"".join(map(frame, packets)))
        well = (status, out, err) == (0, b"".join(map(frame, want)), b"") and bytes([0x7D, tid ^ 0x20]) in out
        rows.check(f"a terminus ID of {tid:#x}", well, repr((status, out, err)))


def open_pipe(rows, place):
    """Each frame is answered while the pipe stays open, and half a frame is not."""
    asked, answered = frame(QUESTION), frame(ANSWER)
    served = place.start()
    served.stdin.write(asked)
    first = wait_for(served.stdout.fileno(), len(answered))
    served.stdin.write(asked[:7])
    nothing = wait_for(served.stdout.fileno(), 1, seconds=0.5)
    served.stdin.write(asked[7:])
    second = wait_for(served.stdout.fileno(), len(answered))
    was_running = served.poll() is None
    rows.check("a frame through an open pipe", first == answered and was_running, repr(first))
    rows.check("half a frame, then the other half", (nothing, second) == (b"", answered), repr((nothing, second)))
    served.stdin.write(asked[:5])
    cut = wait_for(served.stdout.fileno(), 1, seconds=0.5)
    served.stdin.write(asked)
    whole = wait_for(served.stdout.fileno(), len(answered))
    rows.check("half a frame, then a whole one", (cut, whole) == (b"", answered), repr((cut, whole)))
    served.stdin.close()
    rest = (served.stdout.read(), served.stderr.read(), served.wait(timeout=SECONDS))
    rows.check("a client that goes away", rest == (b"", b"", 0), repr(rest))


def terminal(rows, place):
    """Over a pseudoterminal that is raw, which passes each byte on as it is; the program says nothing of it."""
    ours, its = pty.openpty()
    tty.setraw(its)
    served = place.start(stdin=its, stdout=its)
    name = os.ttyname(its)
    os.close(its)
    tid = bytes.fromhex("010908c90181000104")  # 4 would end the input of a terminal that is not raw
    done = bytes.fromhex("010809c10101000100")
    answers = []
    again, is_4 = bytes.fromhex("010908c801820002"), bytes.fromhex("010809c0010200020004")
    for packet, want in ((QUESTION, ANSWER), (tid, done), (again, is_4)):
        os.write(ours, frame(packet))
        answers.append(wait_for(ours, len(frame(want))) == frame(want))
    was_running = served.poll() is None
    os.close(ours)
    err = served.stderr.read()
    status = served.wait(timeout=SECONDS)
    rows.check("a raw terminal", answers == [True] * 3 and was_running, repr(answers))
    want = (0, f"mctpctl: {name}: the line ended\n".encode())  # the system reports it as an end or as a failed read
    rows.check("a terminal that goes away", (status, err) == want, repr((status, err)))


def terminal_of_the_help(rows, place):
    """A terminal that `stty` makes raw and the shell opens twice, as the help of `serve` has it."""
    ours, its = pty.openpty()
    line = 'stty -F "$0" raw -echo && exec "$1" serve --device "$2" <"$0" >"$0"'
    words = ["sh", "-c", line, os.ttyname(its), place.program, place.device]
    served = subprocess.Popen(words, stdin=subprocess.DEVNULL, stdout=subprocess.PIPE, start_new_session=True)
    while termios.tcgetattr(its)[3] & termios.ICANON and served.poll() is None:
        time.sleep(0.01)
    os.write(ours, frame(QUESTION))
    answer = wait_for(ours, len(frame(ANSWER)))
    served.kill()
    served.communicate(timeout=SECONDS)
    os.close(its)
    os.close(ours)
    rows.check("a terminal that stty makes raw", answer == frame(ANSWER), repr(answer))


# An effecter is set to 40 and to 50 and asked for its value twice, each with an instance ID of its own; the answers.
SET_40, SET_50 = map(bytes.fromhex, ("010908c90181023101000028", "010908ca0182023101000032"))
ASK, ASK_AGAIN = map(bytes.fromhex, ("010908cb018302320100", "010908cc018402320100"))
DONE_40, DONE_50 = map(bytes.fromhex, ("010809c10101023100", "010809c20102023100"))
AT_50, AT_40 = map(bytes.fromhex, ("010809c3010302320000013232", "010809c4010402320000012828"))


def keeping(place, milliseconds):
    """The device's description with another keeping time."""
    with open(place.device) as file:
        text = file.read()
    return place.write(f"keeps_{milliseconds}.toml", text.replace("keep_ms = 1000", f"keep_ms = {milliseconds}"))


def told(served, asked, wanted):
    """Whether a program that runs answers these packets by those."""
    served.stdin.write(b"".join(map(frame, asked)))
    want = b"".join(map(frame, wanted))
    return wait_for(served.stdout.fileno(), len(want)) == want


def copies(rows, place):
    """The clock is the one of the keeping time: a copy within it has the kept answer, and after it is performed."""
    served = place.start(device=keeping(place, 300))
    well = told(served, (SET_40, SET_50, SET_40, ASK), (DONE_40, DONE_50, DONE_40, AT_50))
    rows.check("a copy within the keeping time", well, "it was performed")
    time.sleep(0.4)
    well = told(served, (SET_40, ASK_AGAIN), (DONE_40, AT_40))
    rows.check("the same packet after the keeping time", well, "it was not performed")
    served.communicate(timeout=SECONDS)


def copies_in_turn(rows, place):
    """The clock goes on from the start: a packet, a copy after half the keeping time, and the same packet once more,
    which is past the keeping time of the first and within that time of the copy. It is performed."""
    served = place.start(device=keeping(place, 600))
    well = told(served, (SET_40, SET_50), (DONE_40, DONE_50))
    rows.check("two packets at first", well, "they were not answered")
    time.sleep(0.3)
    well = told(served, (SET_40, ASK), (DONE_40, AT_50))
    rows.check("a copy after half the keeping time", well, "it was performed")
    time.sleep(0.4)
    well = told(served, (SET_40, ASK_AGAIN), (DONE_40, AT_40))
    rows.check("the same packet within that time of its copy", well, "it was not performed")
    served.communicate(timeout=SECONDS)


def windows(rows, place):
    """The description's window is that of the answers; a program that starts is not busy, whatever `busy` says."""
    with open(place.device) as file:
        text = file.read()
    keys = (("window = 1", ASK_AGAIN, AT_40), ("window = 2", ASK, AT_50), ('busy = "sets"', ASK, AT_50))
    for line, ask, told_at in keys:
        device = place.write("window.toml", text.replace("keep_ms = 1000\n", f"keep_ms = 1000\n{line}\n"))
        ran = place.run(b"".join(map(frame, (SET_40, SET_50, SET_40, ask))), device=device)
        want = (0, b"".join(map(frame, (DONE_40, DONE_50, DONE_40, told_at))), b"")
        rows.check(f"served: 40, 50 and 40 again, {line}", ran == want, repr(ran))


def refusals(rows, place):
    """Command lines, descriptions and files that are refused; nothing of the line is read or written."""
    refused = ([], ["--verbose"], ["--log", "a"], ["--device"], ["--device", "a", "b"], ["--device", "a", "--decode"])
    for words in refused:
        words = ["serve", *words]
        ran = programs.run([place.program, *words], stdin=subprocess.DEVNULL)
        well = (ran.returncode, ran.stdout) == (2, b"") and ran.stderr.startswith(b"error: ")
        rows.check(f"refused words {words}", well, repr(ran))
    none = os.path.join(place.folder, "none")
    front = "eid = 9\nkeep_ms = 1000\n"
    files = (
        ("a file that is not there", none, 3, f"{none}: No such file or directory (os error 2)"),
        ("a folder", place.folder, 3, f"{place.folder}: Is a directory (os error 21)"),
        ("an empty description", place.write("empty", ""), 1, "device: MissingKey"),
        ("a description that is no TOML", place.write("toml", "eid = \n"), 1, "device: Toml"),
        ("a description out of range", place.write("range", f"{front}tid = 255\n"), 1, "device: OutOfRange"),
        ("a description of the limit", place.write("limit", "#" * 1048576), 1, "device: MissingKey"),
        ("a description that is too long", place.write("long", "#" * 1048577), 1, "input too large"),
        ("a description that never ends", "/dev/zero", 1, "input too large"),
    )
    for name, file, status, line in files:
        ran = place.run(b"", device=file)
        rows.check(f"served: {name}", ran == (status, b"", f"mctpctl: {line}\n".encode()), repr(ran))
    served = place.start(device=none)
    rows.check("the description is read first", served.wait(timeout=SECONDS) == 3, "the input was waited for")
    served.communicate()
    log = os.path.join(place.folder, "none", "log")
    ran = place.run(frame(QUESTION), "--log", log)
    want = (3, b"", f"mctpctl: {log}: No such file or directory (os error 2)\n".encode())
    rows.check("served: a log that cannot be made", ran == want, repr(ran))


# What is added to a good description, and its warnings. All of the file is the description.
ODD = (
    ("", []),
    ("[control]\nassigned = true\n", []),
    ("[control]\nuid = ''\n", ["line 29, column 1: 'control.uid' is no key of a description, and is ignored; did you mean 'uuid'?"]),
    ("[records]\nremark = \'\'\'\n%%\n\'\'\'\n", ["line 29, column 1: 'records.remark' is no key of a description, and is ignored"]),
)


def explained(rows, place):
    """`--explain` says of a description what it says of that of `answer`."""
    good = rows_explain.TOP + rows_explain.ALL
    for old, new, fault, text in rows_explain.DESCRIPTIONS:
        ran = place.run(b"", "--explain", device=place.write("odd", good.replace(old, new, 1)))
        want = f"mctpctl: device: {fault}\nmctpctl: {text}\n"
        rows.check(f"served: explained {fault}: {text[:60]}", ran == (1, b"", want.encode()), repr(ran))
    changed = [(good.replace(old, new, 1), found) for old, new, found in rows_explain.WARNINGS]
    for text, found in (*changed, *((good + added, found) for added, found in ODD)):
        ran = place.run(b"", "--explain", device=place.write("odd", text))
        want = "".join(f"mctpctl: warning: {line}\n" for line in found)
        rows.check(f"served: warned of {(found or ['nothing'])[0][:60]}", ran == (0, b"", want.encode()), repr(ran))


def broken_line(rows, place):
    """Reads and writes that fail."""
    folder = os.open(place.folder, os.O_RDONLY)
    served = place.start(stdin=folder)
    os.close(folder)
    out, err = served.communicate(timeout=SECONDS)
    well = (served.returncode, out, err) == (3, b"", b"mctpctl: read fault\n")
    rows.check("served: a read that fails", well, repr(err))
    served = place.start()
    served.stdout.close()
    _, err = served.communicate(frame(QUESTION), timeout=SECONDS)
    rows.check("served: output that is closed", (served.returncode, err) == (3, b"mctpctl: write fault\n"), repr(err))
    if os.path.exists("/dev/full"):
        with open("/dev/full", "wb") as full:
            status, _, err = place.run(frame(QUESTION), stdout=full)
        rows.check("served: a write that fails", (status, err) == (3, b"mctpctl: write fault\n"), repr((status, err)))
        with open("/dev/full", "wb") as full:
            status, _, err = place.run(frame(QUESTION)[:9], stdout=full)
        rows.check("served: nothing is written", (status, err) == (0, b""), repr((status, err)))


def watched(rows, place):
    """`--verbose` names each drop, and `--log` writes a capture that `show` takes and that `answer` answers alike."""
    asked, other = frame(QUESTION), frame(b"\x01\x0b" + QUESTION[2:])
    dropped = (
        (asked[:-3] + bytes([asked[-3] ^ 1]) + asked[-2:], "no frame: WrongCheck"),
        (b"\x7e\x02" + asked[2:-1], "no frame: WrongRevision"),
        (asked[:7] + b"\x7e", "no frame: CutShort"),
        (other, "drop UnknownDestination"),
    )
    told = "".join(f"mctpctl: {line}\n" for _, line in dropped).encode()
    data = asked + b"".join(bytes_ for bytes_, _ in dropped) + asked
    ran = place.run(data, "--verbose")
    rows.check("drops are named", ran == (0, frame(ANSWER) * 2, told), repr(ran))
    ran = place.run(data)
    rows.check("drops are not named", ran == (0, frame(ANSWER) * 2, b""), repr(ran))
    log = os.path.join(place.folder, "log")
    ran = place.run(data, f"--log={log}")
    with open(log) as file:
        lines = [line.split() for line in file]
    moments = [int(moment) for moment, _ in lines]
    want = [QUESTION, ANSWER, b"\x01\x0b" + QUESTION[2:], QUESTION, ANSWER]
    well = ran == (0, frame(ANSWER) * 2, b"") and [digits for _, digits in lines] == [it.hex() for it in want]
    in_time = moments == sorted(moments) and moments[-1] < 1_000 * SECONDS
    rows.check("a capture of the line", well and in_time, repr((ran, lines)))
    with open(place.device) as device, open(log) as file:
        text = f"{device.read()}%%\n{file.read()}".encode()
    again = programs.run([place.program, "answer"], input=text)
    lines = again.stdout.decode().splitlines()
    packets = [line for line in lines if not line.startswith("drop UnknownDestination")]
    rows.check("the capture is answered alike", (again.returncode, packets) == (0, [ANSWER.hex()] * 2), repr(again))
    with open(log) as file:
        shown = programs.run([place.program, "show"], stdin=file)
    rows.check("the capture is shown", shown.returncode == 0 and shown.stdout.count(b" GetTID ") == 5, repr(shown))
    if os.path.exists("/dev/full"):
        ran = place.run(asked, "--log", "/dev/full")
        want = (3, frame(ANSWER), b"mctpctl: log fault\n")
        rows.check("a log that is full stops no answer", ran == want, repr(ran))


def control(rows, place):
    """Control messages are answered from the endpoint ID, also where they are sent to the null one, as a bus owner that
    knows only the physical address sends them (DSP0236, "MCTP control protocol")."""
    uuid = bytes.fromhex("4e6565646c658f618074000000000009")
    asked = (
        ("Get Endpoint ID", "010008c8008002", "010809c000000200090100"),
        ("Set Endpoint ID to its own", "010008c80081010009", "010809c00001010000" + "0900"),
        ("Set Endpoint ID to another", "010008c8008201000a", "010809c00002010010" + "0900"),
        ("Reset to the static endpoint ID", "010908c80081010200", "010809c00001010000" + "0900"),
        ("Get Endpoint UUID", "010908c9008303", "010809c100030300" + uuid.hex()),
        ("versions of the base", "010908ca008404ff", "010809c20004040001" + "f1f3f100"),
        ("versions of control messages", "010908ca00850400", "010809c20005040001" + "f1f3f100"),
        ("versions of PLDM", "010908ca00860401", "010809c20006040001" + "f1f0f000"),
        ("versions of another type", "010908ca00870405", "010809c200070480"),
        ("types", "010908cb008805", "010809c300080500020001"),
        ("an unknown command", "010908cc0089ff", "010809c40009ff05"),
        ("a wrong length", "010908cc008a0200", "010809c4000a0203"),
        ("Get Endpoint ID from the null source", "010900c8008002", "010009c000000200090100"),
        ("Get Endpoint ID between null endpoint IDs", "010000c8008002", "010009c000000200090100"),
    )
    for name, packet, want in asked:
        ran = place.run(frame(bytes.fromhex(packet)))
        want = frame(bytes.fromhex(want))
        rows.check(f"control: {name}", ran == (0, want, b""), repr((ran, want.hex())))
    dropped = ("010008c801800002", "010a08c8008002", "0100ffc8008002", "010009c8008002", "010908c8000002")
    dropped += ("010907c8008002", "010909c8008002", "0109ffc8008002", "010900c801800002")
    for packet in dropped:
        ran = place.run(frame(bytes.fromhex(packet)), "--verbose")
        well = (ran[0], ran[1]) == (0, b"") and ran[2].startswith(b"mctpctl: drop ")
        rows.check(f"control: {packet} is dropped", well, repr(ran))


# The questions about a UUID and about versions, and each answer up to where its bytes begin (DSP0236, "Get Endpoint
# UUID" and "Get MCTP Version Support": the completion code, and for versions their number).
UUID_ASKED = ("010908c9008303", "010809c100030300")
BASE_ASKED = ("010908ca008404ff", "010809c20004040001")
CONTROL_ASKED = ("010908ca00850400", "010809c20005040001")
PLDM_ASKED = ("010908ca00860401", "010809c20006040001")

# What is found at endpoint ID 9 where the description says nothing.
DEFAULTS = ("4e6565646c658f618074000000000009", "f1f3f100", "f1f3f100", "f1f0f000")

# The UUID of RFC 4122's examples, and the versions 1.2.1, 1.3 and 1.0.0a (DSP0236, "Version field encoding").
TABLE = """[control]
uuid = "f81d4fae7dec11d0a76500a0c91e6bf6"
base_version = "f1f2f100"
control_version = "F1F3FF00"
pldm_version = "f1f0f061"
"""
IN_TABLE = ("f81d4fae7dec11d0a76500a0c91e6bf6", "f1f2f100", "f1f3ff00", "f1f0f061")


def one_key():
    """Each line of the table, and what is found where the table has that line alone."""
    for place, line in enumerate(TABLE.splitlines()[1:]):
        yield line, (*DEFAULTS[:place], IN_TABLE[place], *DEFAULTS[place + 1 :])


def described_control(rows, place):
    """The table `control` of a description says what is found, key by key, and has faults of its own."""
    with open(place.device) as file:
        device = file.read()
    said = (
        ("a whole table", TABLE, IN_TABLE),
        ("an empty table", "[control]\n", DEFAULTS),
        ("unknown keys", "[control]\nversion = 1\neid = 300\n", DEFAULTS),
        *((f"only {line.split()[0]}", f"[control]\n{line}\n", found) for line, found in one_key()),
    )
    asked = (UUID_ASKED, BASE_ASKED, CONTROL_ASKED, PLDM_ASKED)
    data = b"".join(frame(bytes.fromhex(packet)) for packet, _ in asked)
    for name, table, found in said:
        ran = place.run(data, device=place.write("control.toml", device + table))
        want = b"".join(frame(bytes.fromhex(front + end)) for (_, front), end in zip(asked, found))
        rows.check(f"control: {name}", ran == (0, want, b""), repr((ran, want.hex())))
    refused = (
        ("a number for the table", f"control = 1\n{device}", "WrongKind"),
        ("a list of tables", f"{device}[[control]]\n", "WrongKind"),
        ("a number for a UUID", f"{device}[control]\nuuid = 1\n", "WrongKind"),
        ("a UUID with dashes", f"{device}[control]\nuuid = 'f81d4fae-7dec-11d0-a765-00a0c91e6bf6'\n", "BadHex"),
        ("a UUID of fifteen bytes", f"{device}[control]\nuuid = 'f81d4fae7dec11d0a76500a0c91e6b'\n", "OutOfRange"),
        ("a version of three bytes", f"{device}[control]\nbase_version = 'f1f3f1'\n", "OutOfRange"),
        ("two versions at a key", f"{device}[control]\ncontrol_version = 'f1f3f100f1f2f100'\n", "OutOfRange"),
        ("half a byte of a version", f"{device}[control]\npldm_version = 'f1f0f00'\n", "BadHex"),
        ("a list for a version", f"{device}[control]\npldm_version = [241, 240, 240, 0]\n", "WrongKind"),
        ("the order of its keys", f"{device}[control]\nbase_version = 1\nuuid = '0'\n", "BadHex"),
        ("a table that is no TOML", f"{device}[control]\nuuid =\n", "Toml"),
        ("a fault of the device before it", f"control = 1\n{device}[[pdr]]\nhex = '00'\n", "BadRecord"),
    )
    for name, text, fault in refused:
        ran = place.run(data, device=place.write("control.toml", text))
        want = (1, b"", f"mctpctl: device: {fault}\n".encode())
        rows.check(f"control: {name}", ran == want, repr(ran))
    text = f"control = 1\n{device}%%\n0 {QUESTION.hex()}\n".encode()
    ran = programs.run([place.program, "answer"], input=text)
    want = (0, f"{ANSWER.hex()}\n".encode(), b"")
    rows.check("control: `answer` ignores the table", (ran.returncode, ran.stdout, ran.stderr) == want, repr(ran))


# A packet, and the one that answers it, if one does: a device that has no endpoint ID is assigned 10, then 11, and goes
# back to the static one, 9 (DSP0236, "Set Endpoint ID" and "Get Endpoint ID"; DSP0248, "SetNumericEffecterValue").
ASSIGNED = (
    ("010908c801800002", None),  # GetTID at the endpoint ID of the description: not yet
    ("010008c8008002", "010800c0000002" + "00000100"),  # Get Endpoint ID at the null one: none, static
    ("010008c8008101000a", "010800c00001010000" + "0a00"),  # 10 is accepted
    ("010a08c90181023101000028", "01080ac10101023100"),  # effecter 1 is set at once
    ("010a08c8008201000b", "01080ac00002010000" + "0b00"),  # 11, asked of 10 and answered from it
    ("010008c8008101000a", "01080bc00001010000" + "0a00"),  # a late copy of the first: its answer, and no more
    ("010b08c8008302", "01080bc0000302" + "000b0100"),  # it still has 11
    ("010a08c90181023101000028", None),  # a late copy of the setting, at the endpoint ID of then
    ("010b08c90181023101000028", "01080bc10101023104"),  # the same at 11: not ready for the keeping time
    ("010b08c80084010200", "01080bc00004010000" + "0900"),  # Reset
    ("010908c8008502", "010809c0000502" + "00090100"),
    ("010008c8008601000b", "010809c00006010000" + "0b00"),  # a second board of the kind is given another one
)


def assigned(rows, place):
    """A device whose description says so has no endpoint ID until a bus owner assigns one."""
    with open(place.device) as file:
        device = place.write("assigned.toml", file.read() + "[control]\nassigned = true\n")
    data = b"".join(frame(bytes.fromhex(packet)) for packet, _ in ASSIGNED)
    want = b"".join(frame(bytes.fromhex(answer)) for _, answer in ASSIGNED if answer)
    ran = place.run(data, device=device)
    rows.check("assigned: 10, then 11, then the static one", ran == (0, want, b""), repr((ran, want.hex())))
    for eid in (10, 11):
        packets = (f"010008c800810100{eid:02x}", f"01{eid:02x}08c801800002")
        answers = (f"010800c00001010000{eid:02x}00", f"0108{eid:02x}c0010000020001")
        ran = place.run(b"".join(frame(bytes.fromhex(packet)) for packet in packets), device=device)
        want = b"".join(frame(bytes.fromhex(answer)) for answer in answers)
        rows.check(f"assigned: one of two boards has {eid}", ran == (0, want, b""), repr((ran, want.hex())))
    for value, fault in (("1", "WrongKind"), ("'true'", "WrongKind")):
        with open(place.device) as file:
            text = file.read() + f"[control]\nassigned = {value}\n"
        ran = place.run(b"", device=place.write("assigned.toml", text))
        want = (1, b"", f"mctpctl: device: {fault}\n".encode())
        rows.check(f"assigned: {value} is no truth value", ran == want, repr(ran))


# SplitMix64 by Steele, Lea and Flood: the numbers of a seed.
MASK = (1 << 64) - 1


def numbers(seed):
    """The numbers of a seed, one after another."""
    while True:
        seed = (seed + 0x9E3779B97F4A7C15) & MASK
        mixed = ((seed ^ (seed >> 30)) * 0xBF58476D1CE4E5B9) & MASK
        mixed = ((mixed ^ (mixed >> 27)) * 0x94D049BB133111EB) & MASK
        yield mixed ^ (mixed >> 31)


def fate(faults, frame):
    """How often a frame comes and how many milliseconds late, as the help of `serve` and PROTOCOL.md say."""
    seed, lose, repeat, delay = faults
    chances = numbers((next(numbers(seed)) + frame) & MASK)
    lost, twice, late = (next(chances) for _ in range(3))
    return (0, 0) if lost % 100 < lose else (2 if twice % 100 < repeat else 1, late % (delay + 1))


def faulty(faults, requests):
    """How many answers there are to so many requests, each answered each time that it comes, and when the last of them
    is out at the earliest, in milliseconds."""
    answers = passed = out = 0
    for request in range(requests):
        copies, late = fate(faults, 2 * request)
        out += late if copies else 0
        for _ in range(copies):
            repeats, late = fate(faults, 2 * answers + 1)
            answers += 1
            passed += repeats
            out += late if repeats else 0
    return passed, out


def with_faults(rows, place):
    """`--faults` loses, repeats and delays frames both ways, by a seed."""
    rows.check("SplitMix64 of 1234567", next(numbers(1234567)) == 6457827717110365317)
    asked, answered = frame(QUESTION), frame(ANSWER)
    gets = [bytes.fromhex(f"010908c80180{byte}") for byte in ("0002",)] * 40
    data = b"".join(map(frame, gets))
    for name, words, want in (
        ("no faults", "0,0,0,0", answered * 40),
        ("all frames are lost", "7,100,0,0", b""),
        ("all frames are repeated", "7,0,100,0", answered * 160),
    ):
        ran = place.run(data, "--faults", words)
        rows.check(f"faults: {name}", ran == (0, want, b""), repr((ran[0], len(ran[1]), ran[2])))
    for faults in ((7, 30, 0, 0), (7, 0, 30, 0), (8, 30, 30, 3), (9999999999999999, 50, 50, 0)):
        words = ",".join(map(str, faults))
        count, late = faulty(faults, len(gets))
        began = time.monotonic()
        ran = place.run(data, "--faults", words)
        passed = 1000 * (time.monotonic() - began)
        well = ran == (0, answered * count, b"") and 0 < count != 40 and passed >= late
        rows.check(f"faults: {words}", well, repr((ran[0], len(ran[1]), ran[2], count, late, passed)))
        again = place.run(b"garbage" + data, f"--faults={words}", "--verbose")
        rows.check(f"faults: {words} once more", again == ran, repr((again[0], len(again[1]), again[2])))
    faults, began = (7, 0, 0, 900), time.monotonic()
    ran, passed = place.run(asked, "--faults", "7,0,0,900"), 1000 * (time.monotonic() - began)
    late = faulty(faults, 1)[1]
    rows.check("faults: a delay is kept", ran[1] == answered and late <= passed < late + 5000, repr((late, passed)))
    for words, part in (
        ("7,10,20", "four numbers are needed, with commas between"),
        ("7,10,20,50,1", "four numbers are needed, with commas between"),
        ("", "four numbers are needed, with commas between"),
        ("x,10,20,50", "SEED is a number of at most 16 digits"),
        ("12345678901234567,10,20,50", "SEED is a number of at most 16 digits"),
        ("7,101,20,50", "LOSE is 0 to 100, in percent"),
        ("7,10,-1,50", "REPEAT is 0 to 100, in percent"),
        ("7,10,20,60001", "DELAY is 0 to 60000, in milliseconds"),
        ("x,101,101,", "SEED is a number of at most 16 digits"),
    ):
        ran = place.run(asked, f"--faults={words}")
        line = f"error: invalid value for '--faults <FAULTS>': {part}\n\nFor more information, try '--help'.\n"
        rows.check(f"faults: refused {words!r}", ran == (2, b"", line.encode()), repr(ran))
    asked_through_faults(rows, place)


def asked_through_faults(rows, place):
    """`ask` gets its answers over a line that loses, repeats and delays frames, since it asks again."""
    with Terminal() as line:
        words = [place.program, "serve", "--device", place.device, "--faults", "7,10,10,50"]
        served = subprocess.Popen(words, stdin=line.ours, stdout=line.ours, stderr=subprocess.DEVNULL)
        commands = place.write("commands", "gettid\n" * 12)
        words = [place.program, "ask", "--line", line.name, "--own", "8", "--device", "9", "--keep", "1000"]
        ran = programs.run([*words, "--timeout", "200", "--tries", "5", "--file", commands])
        served.terminate()
        served.wait(timeout=SECONDS)
    lines = ran.stdout.decode().splitlines()
    well = ran.returncode == 0 and [line.split(" ", 4)[4] for line in lines] == ["GetTID tid 1"] * 12
    rows.check("faults: `ask` gets its answers", well, repr(ran))


PARTS = (large, no_frames, escapes, open_pipe, terminal, terminal_of_the_help, copies, copies_in_turn, windows)
PARTS += (refusals, explained, broken_line, watched, control, described_control, assigned, with_faults)


def check(rows, program, device):
    """Checks each row over the program, with the description of this text."""
    with tempfile.TemporaryDirectory() as folder:
        place = Place(program, folder, device)
        examples(rows, place)
        for part in PARTS:
            part(rows, place)
