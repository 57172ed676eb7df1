"""Rows for `tests/check` over the program's own `walk`: the device that `serve` serves is at the other end of a line.

The tables were written by hand from the texts of descriptions, with the words of `show --decode` for units and states;
the records are those of the texts. What is printed of each answer is what `show --decode` shows of the capture that
`serve` writes.
"""
import os
import re
import signal
import subprocess
import sys
import tempfile
import time
import tomllib

from rows_state import state
from support.askers import ENDS, TIMES, Place
from support.examples import ROOT, text_of
from support.lossy import converse
from support.programs import PIPES, SECONDS, run
from support.terminals import Terminal

CHANGER = os.path.join(ROOT, "tests", "changed_answers.py")

ENABLED, ON = "enabled-noUpdatePending", "state 1 (set 260: 1, 5)"
BOARD = (
    ("sensor 1", "Fan", "4200 rpm", "normal"),
    ("sensor 2", "Inlet temperature", "41.5 °C", "normal"),
    ("sensor 3", "12 V", "12.040 V", "normal"),
    ("sensor 4", "3.3 V", "3.310 V", "normal"),
    ("sensor 5", "Power", ON, "enabled"),
    ("effecter 1", "Fan speed", "40 %", ENABLED),
    ("effecter 2", "Power", ON, ENABLED),
)
OPENBMC = (("sensor 1", "-", "40 °C", "normal"), ("effecter 1", "-", "10 %", ENABLED))
PLATFORM = (
    ("sensor 1", "-", "200", "normal"),
    ("sensor 2", "-", "-5", "upperWarning"),
    ("sensor 3", "-", "4000", "normal"),
    ("sensor 4", "-", "-300", "normal"),
    ("sensor 5", "-", "100000", "warning"),
    ("sensor 6", "-", "-70000", "normal"),
    ("sensor 10", "-", "state 1 (set 0: 0, 1)", "enabled"),
    ("sensor 10", "-", "state 2 (set 0: 1, 2)", "enabled"),
    ("effecter 1", "-", "50", ENABLED),
    ("effecter 2", "-", "-20", ENABLED),
    ("effecter 4", "-", "state 1 (set 0: 1, 2)", ENABLED),
    ("effecter 4", "-", "state 4 (set 0: 1, 2, 3, 4)", ENABLED),
)

# An example, what is added to its text, its endpoint ID, its records, and its table. A walk asks seven commands before
# the first record: terminus ID, types, versions and commands of two types, repository.
TABLES = (
    ("board", "", "9", 16, BOARD),
    ("openbmc", "", "9", 3, OPENBMC),
    ("platform", "[records]\n", "20", 10, PLATFORM),
)
FOUND = 7

# What is said where the first question has no answer: nothing more is asked.
NO_ENDPOINT = """\
mctpctl: GetEndpointID: no answer
mctpctl: nobody answered as endpoint 10; a device that has no endpoint ID yet gets it by 'mctpctl assign'
"""

# What the first answers of openbmc.toml's device say (DSP0240, DSP0248), with what was asked, and its two values. The
# checksums are those of zlib's crc32.
SAID = """\
  response 0 GetTID tid 1
  response 1 GetPLDMTypes types 0 2
  response 2 GetPLDMVersion type 0 versions 00f0f0f1 crc32 fb8f864a next 0
  response 3 GetPLDMCommands type 0 commands 01 SetTID 02 GetTID 03 GetPLDMVersion 04 GetPLDMTypes 05 GetPLDMCommands
  response 4 GetPLDMVersion type 2 versions 00f2f1f100f3f1f1 crc32 3798c64d next 0
  response 5 GetPLDMCommands type 2 commands 11 GetSensorReading 21 GetStateSensorReadings\
 31 SetNumericEffecterValue 32 GetNumericEffecterValue 39 SetStateEffecterStates 3a GetStateEffecterStates\
 50 GetPDRRepositoryInfo 51 GetPDR
"""


def columns(rows):
    """Each column but the last as wide as its longest cell, and two spaces between."""
    widths = [max(map(len, column)) for column in list(zip(*rows))[:3]]
    cells = (("  ".join((*(text.ljust(width) for text, width in zip(row, widths)), row[3]))) for row in rows)
    return "".join(f"{line}\n" for line in cells)


def parts_of(printed):
    """The answers, and the table after the blank line."""
    answers, _, table = printed.decode().partition("\n\n")
    return [line for line in answers.splitlines() if line.startswith("  response")], table


SAID_LAST = (" GetSensorReading sensor 1 uint8 reading 40 ", " GetNumericEffecterValue effecter 1 uint8 value 10 ")


def without_what_was_asked(line):
    """An answer as `show --decode` writes it, which sees it alone: commands are numbers, in decimal."""
    told = re.sub(r"^(  response \d+ \w+) (?:type|sensor|effecter|record) \d+", r"\1", line)
    front, commands, names = told.partition(" commands ")
    numbers = [str(int(word, 16)) for word in names.split() if re.fullmatch("[0-9a-f]{2}", word)]
    return front + commands + " ".join(numbers)


def asked(rows, place):
    """Each answer says what was asked: the type, the sensor, the effecter; commands have their names."""
    place.write("device.toml", text_of("openbmc.toml"))
    status, out, err = place.served("walk", *ENDS, *TIMES)
    answers, _ = parts_of(out)
    told = "".join(f"{line}\n" for line in answers[3:9])
    rows.check("walked: what was asked of each type", (status, err, told) == (0, b"", SAID), repr((status, err, told)))
    last = [words in line for words, line in zip(SAID_LAST, answers[-2:])]
    rows.check("walked: what was asked of a sensor and an effecter", last == [True, True], repr(answers[-2:]))


def closed(rows, place):
    """Where nobody reads what a walk prints, it ends and says nothing."""
    place.write("device.toml", text_of("openbmc.toml"))
    with Terminal() as terminal:
        served = place.serve(terminal)
        words = [place.program, "walk", "--line", terminal.name, *ENDS, *TIMES]
        try:
            walking = subprocess.Popen(words, **{**PIPES, "stdin": subprocess.DEVNULL})
            walking.stdout.readline()
            walking.stdout.close()
            err, status = walking.stderr.read(), walking.wait(timeout=SECONDS)
        finally:
            served.terminate()
            served.wait(timeout=SECONDS)
    rows.check("walked: a closed pipe", (status, err) == (3, b""), repr((status, err)))


def tables(rows, place):
    for name, added, eid, records, table in TABLES:
        place.write("device.toml", text_of(f"{name}.toml") + added)
        log = os.path.join(place.folder, "log")
        status, out, err = place.served("walk", "--own", "8", "--device", eid, *TIMES, log=log)
        answers, printed = parts_of(out)
        ran = (status, err, printed)
        rows.check(f"walked: the table of {name}.toml", ran == (0, b"", columns(table)), repr(ran))
        subjects = len({row[0] for row in table})
        well = len(answers) >= FOUND + records + subjects
        rows.check(f"walked: {name}.toml, each record and each reading", well, repr(answers))
        with open(log, "rb") as capture:
            shown = run([place.program, "show", "--decode"], input=capture.read()).stdout.decode()
        wanted = [line for line in shown.splitlines() if line.startswith("  response")]
        plain = [without_what_was_asked(line) for line in answers]
        rows.check(f"walked: {name}.toml, the answers by name", plain == wanted, repr((plain, wanted)))


def records(rows, place):
    """The file of the records has the bytes of the description's, one record after another."""
    text = text_of("openbmc.toml")
    place.write("device.toml", text)
    path = os.path.join(place.folder, "pdr")
    status, _, err = place.served("walk", *ENDS, *TIMES, "--records", path)
    with open(path, "rb") as file:
        found = file.read()
    wanted = b"".join(bytes.fromhex(record["hex"]) for record in tomllib.loads(text)["pdr"])
    ran = (status, err, found)
    rows.check("walked: a file of the records", ran == (0, b"", wanted), repr(ran))
    path = os.path.join(place.folder, "none", "pdr")
    status, out, err = place.served("walk", *ENDS, *TIMES, "--records", path)
    want = f"mctpctl: {path}: No such file or directory (os error 2)\n".encode()
    well = (status, err) == (3, want) and columns(OPENBMC).encode() in out
    rows.check("walked: records that cannot be written", well, repr(err))


# A state effecter of eight fields, each of which can be in state 1 or 2, and its record (DSP0248, "State effecter
# PDR"), of 305 bytes: two parts.
LONG = """
[[state_effecter]]
id = 2
allowed = [[1, 2], [1, 2], [1, 2], [1, 2], [1, 2], [1, 2], [1, 2], [1, 2]]
values = [1, 2, 1, 2, 1, 2, 1, 2]

[[pdr]]
hex = "04000000010b00002701010002001d00010000000000000008{}"
""".format(("010020" + "06" + "00" * 31) * 8)
FIELDS = tuple(("effecter 2", "-", f"state {1 + field % 2} (set 1: 1, 2)", ENABLED) for field in range(8))


def joined(rows, place):
    """A record that comes in two parts is printed once it is whole."""
    place.write("device.toml", text_of("openbmc.toml") + LONG)
    status, out, err = place.served("walk", *ENDS, *TIMES)
    lines, (_, table) = out.decode().splitlines(), parts_of(out)
    ran = (status, err, table)
    rows.check("walked: a record in two parts", ran == (0, b"", columns((*OPENBMC, *FIELDS))), repr(ran))
    at = [number for number, line in enumerate(lines) if line == "    record 4 version 1 type StateEffecter change 0"]
    well = len(at) == 1 and " GetPDR record 4 next 0 transfer 0 End " in lines[at[0] - 1]
    rows.check("walked: its fields are below its last part", well, repr([line[:80] for line in lines]))


# Two valid locators, which name terminus 1 by the handle 1 and terminus 2 by the handle 2, and the record of a numeric
# sensor 1 of terminus 2, in volts, with its name (DSP0248, "Terminus locator PDR").
TWO_TERMINI = """
[[pdr]]
hex = "0400000001010000090002000102000001010a"

[[pdr]]
hex = '''\
05000000010200003b00020001001d0001000000000005000000000000000001000000803f000000000000000000000000\
0000000000803f7f000000000000000000000000'''

[[pdr]]
hex = "06000000010600001500020001000101656e00004f00740068006500720000"

[[pdr]]
hex = "07000000010100000900010001010000010109"
"""


def two_termini(rows, place):
    """A sensor that another terminus has is not read, and gives no row and no name."""
    place.write("device.toml", text_of("openbmc.toml") + TWO_TERMINI)
    status, out, err = place.served("walk", *ENDS, *TIMES)
    answers, table = parts_of(out)
    ran = (status, err, table)
    rows.check("walked: two termini", ran == (0, b"", columns(OPENBMC)), repr(ran))
    readings = [line for line in answers if " GetSensorReading sensor " in line]
    rows.check("walked: a sensor of another terminus is not read", len(readings) == 1, repr(readings))


def refused(rows, place):
    """A sensor of a record that the device has not, a device without records, and nobody."""
    text = text_of("openbmc.toml").replace("3b00010001001d", "3b00010009001d")
    place.write("device.toml", text)
    status, out, err = place.served("walk", *ENDS, *TIMES)
    _, table = parts_of(out)
    want = columns((("sensor 9", "-", "-", "refused INVALID_SENSOR_ID"), OPENBMC[1]))
    rows.check("walked: a sensor that is not there", (status, err, table) == (1, b"", want), repr((status, err, table)))
    place.write("device.toml", text_of("openbmc.toml").split("# record 1")[0])
    status, out, err = place.served("walk", *ENDS, *TIMES)
    answers, table = parts_of(out)
    well = (status, err, table) == (0, b"", "") and "records 0 " in answers[-1]
    rows.check("walked: a device without records", well, repr((status, out, err)))
    status, out, err = place.served("walk", "--own", "8", "--device", "10", *TIMES)
    rows.check("walked: nobody", (status, out, err) == (3, b"", NO_ENDPOINT.encode()), repr((status, out, err)))
    ran = place.run("walk", "--line", "/dev/null", *ENDS, *TIMES)
    rows.check("walked: no terminal", ran == (3, b"", b"mctpctl: /dev/null: not a terminal\n"), repr(ran))
    for words in ((), ("--own", "8"), (*ENDS, "gettid"), (*ENDS, "--hex"), (*ENDS, "--file", "x")):
        status, out, err = place.run("walk", *words)
        well = (status, out) == (2, b"") and b"Usage: mctpctl walk" in err
        rows.check(f"walked: refused words {words}", well, repr(err))
    status, out, err = place.run("walk", "--own", "7", "--device", "9")
    rows.check("walked: an endpoint ID that is none", (status, out) == (2, b"") and b"--own <EID>" in err, repr(err))


# What is changed in the answers of board.toml's device: the bytes, what stands in their place; the exit status, and the
# table that is left: a record that names itself as the next one, one that has another handle than was asked for, and
# readings of 16 bits, which are refused. The first two end the records, before one of a sensor.
# Between the ends is one more program, so an answer may take longer.
PATIENT = ("--keep", "1500", "--timeout", "500", "--tries", "3")
WORDS, NOT_SAID = ("sensor 1", "sensor 3", "sensor 4"), ("-", "refused INVALID_SENSOR_ID")
CHANGED = (
    ("a record that comes again", "02510003000000", "02510002000000", 0, ()),
    ("a record of another handle", "020000000110", "030000000110", 0, ()),
    ("refusals", "02110002", "02118002", 1, tuple((*row[:2], *NOT_SAID) if row[0] in WORDS else row for row in BOARD)),
)


def changed(rows, place):
    """A device whose answers are not those of its description: the walk ends, and shows what it got."""
    place.write("device.toml", text_of("board.toml"))
    for name, old, new, wanted, table in CHANGED:
        with Terminal() as terminal:
            words = [sys.executable, CHANGER, old, new, place.program, "serve", "--device", place.device]
            ends = {"stdin": terminal.ours, "stdout": terminal.ours}
            served = subprocess.Popen(words, stderr=subprocess.DEVNULL, start_new_session=True, **ends)
            try:
                ran = place.run("walk", "--line", terminal.name, *ENDS, *PATIENT)
            finally:
                os.killpg(served.pid, signal.SIGKILL)
                served.wait()
        status, out, err = ran
        _, printed = parts_of(out)
        well = (status, err, printed) == (wanted, b"", columns(table) if table else "")
        rows.check(f"walked: {name}", well, repr((status, err, printed)))


# A device with so many numeric sensors, each with another reading, that keeps answers for 8 instance IDs.
MANY = 40
SENSOR = """
[[numeric_sensor]]
id = {0}
size = "uint8"
states = [1, 1, 1]
value = {0}
"""


def paced(rows, place):
    """More commands than there are instance IDs: the device's window says when each is used again, and every answer is
    that of its own request. Twice the keeping time would be twelve seconds."""
    text = text_of("openbmc.toml").split("[[")[0]
    place.write("device.toml", text + "[records]\n" + "".join(SENSOR.format(number) for number in range(1, MANY + 1)))
    known = place.write("state", state(0, []))  # nothing was asked, so the first request goes out at once
    began = time.monotonic()
    status, out, err = place.served("walk", *ENDS, "--window", "8", "--state", known)
    passed = time.monotonic() - began
    answers, table = parts_of(out)
    ran = (status, err, table)
    want = columns([(f"sensor {number}", "-", str(number), "normal") for number in range(1, MANY + 1)])
    rows.check("walked: a window of 8", ran == (0, b"", want) and passed < 3, repr((ran, passed)))
    rows.check("walked: a window of 8, each sensor is read", len(answers) >= FOUND + 2 * MANY, repr(answers))


def lossy(rows, place):
    """A line that loses one byte in 250: each command is answered in one of its eight tries."""
    place.write("device.toml", text_of("openbmc.toml"))
    device = [place.program, "serve", "--device", place.device]
    times = ("--keep", "900", "--timeout", "100", "--tries", "8")
    words = [place.program, "walk", "--line", "LINE", *ENDS, *times]
    status, out, lost = converse(device, words, 250, 7, ticking=True)
    _, table = parts_of(out)
    well = status == 0 and table == columns(OPENBMC) and lost > 0
    rows.check("walked: over a line that loses bytes", well, repr((status, out, lost)))


PARTS = (tables, asked, closed, records, joined, two_termini, refused, changed, paced, lossy)


def check(rows, program, device):
    """Checks each row over the program."""
    with tempfile.TemporaryDirectory() as folder:
        place = Place(program, folder, device)
        for part in PARTS:
            part(rows, place)
