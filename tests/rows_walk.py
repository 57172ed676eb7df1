"""Rows for `tests/check` over `contrib/walk`: the tables of descriptions, and devices that do not hold true.

The tables were written by hand from the texts of descriptions; the UUID is that of docs/PROTOCOL.md, section 15, and a
state sensor's possible states are those that its fields have. The records that are wrong are those of
examples/openbmc.toml with a field changed, and a state sensor's, spelled out from DSP0248.
"""
import os
import shlex
import subprocess
import sys
import tempfile

from support import programs
from support.examples import ROOT, text_of

WALK = [sys.executable, os.path.join(ROOT, "contrib", "walk")]
CHANGER = os.path.join(ROOT, "tests", "changed_answers.py")

BOARD = """\
Board: endpoint ID 9, terminus ID 1
UUID 4e656564-6c65-8f61-8074-000000000009
PLDM type 0 version 1.0.0
PLDM type 2 version 1.1.2

sensor 1    Fan                4200 RPM                 normal
sensor 2    Inlet temperature  41.5 degrees C           normal
sensor 3    12 V               12.040 V                 normal
sensor 4    3.3 V              3.310 V                  normal
sensor 5    Power              state 1 (set 260: 1, 5)  enabled
effecter 1  Fan speed          40 %                     enabled
effecter 2  Power              state 1 (set 260: 1, 5)  enabled
"""
OPENBMC = """\
Fan: endpoint ID 9, terminus ID 1
UUID 4e656564-6c65-8f61-8074-000000000009
PLDM type 0 version 1.0.0
PLDM type 2 version 1.1.2, 1.1.3

sensor 1    -  40 degrees C  normal
effecter 1  -  10 %          enabled
"""
PLATFORM = """\
a device: endpoint ID 20, terminus ID 7
UUID 4e656564-6c65-8f61-8074-000000000014
PLDM type 0 version 1.0.0
PLDM type 2 version 1.1.2, 1.1.3

sensor 1    -  200                          normal
sensor 2    -  -5                           upper warning
sensor 3    -  4000                         normal
sensor 4    -  -300                         normal
sensor 5    -  100000                       warning
sensor 6    -  -70000                       normal
sensor 10   -  state 1 (set 0: 0, 1)        enabled
sensor 10   -  state 2 (set 0: 1, 2)        enabled
effecter 1  -  50                           enabled
effecter 2  -  -20                          enabled
effecter 4  -  state 1 (set 0: 1, 2)        enabled
effecter 4  -  state 4 (set 0: 1, 2, 3, 4)  enabled
"""

# An example, what is added to its text, and its table.
TABLES = (("board", "", BOARD), ("openbmc", "", OPENBMC), ("platform", "[records]\n", PLATFORM))

# A state sensor's record of one field, whose possible states are 1 and 5, and sensors that it may be of.
STATE_RECORD = "[[pdr]]\nhex = '04000000010400001100" + "01000500400001000000000001040101" + "22'\n"
STATES = "[[state_sensor]]\nid = 5\nfields = [{}]\n"
FIELD, OTHER_FIELD = "[0, 1, 5, 1]", "[0, 3, 1, 1]"


def changed_records(device):
    """Descriptions whose records are not those of their sensors and effecters, and the check that each fails."""
    record = device[device.index("# record 2") : device.index("# record 3")]

    def with_record(old, new):
        assert record.count(old) == 1, old
        return device.replace(record, record.replace(old, new))

    sensor = device.index("[[numeric_sensor]]")
    yield "a sensor that is not there", with_record("3b00010001001d", "3b00010009001d"), "sensor 9: GetSensorReading"
    yield "a range without its value", with_record("803f7f00", "803f2000"), "sensor 1: 40 is from 0 to 32"
    size = device[:sensor] + device[sensor:].replace('"uint8"', '"sint8"', 1)
    yield "another data size", size, "sensor 1: the data size is that of its record"
    unnamed = with_record("1d0001000000000002", "1d0001000000000102")
    yield "names without a record", unnamed, "sensor 1: a record of names"
    longer = with_record("3b00010001001d", "3c00010001001d").replace('00"""\n\n# record 3', '0000"""\n\n# record 3')
    yield "a byte after the last field", longer, "record 2, read to its end"
    yield "a size that is none", with_record("01000000803f", "01060000803f"), "record 2, read to its end"
    fields = device + STATES.format(f"{FIELD}, {FIELD}") + STATE_RECORD
    yield "a field that is not there", fields, "sensor 5: as many fields as in its record"
    impossible = device + STATES.format(OTHER_FIELD) + STATE_RECORD
    yield "an impossible state", impossible, "sensor 5: state 3 is one of (1, 5)"
    twice = device + STATES.format(FIELD) + STATE_RECORD + STATE_RECORD.replace("04", "05", 1)
    yield "a sensor twice", twice, "each sensor and effecter has one record"


# The answer to GetPDRRepositoryInfo of board.toml: type, command and code, the state and two times of zeros; then 16
# records, 738 bytes, the largest of 81, and no timeout.
INFO = ("025000" + "00" * 27, "10000000", "e2020000", "51000000", "00")

# What is changed in the packets of board.toml's device: the bytes, what stands in their place, the check that fails.
CHANGED = (
    ("the number of records", "".join(INFO), "".join((INFO[0], "11000000", *INFO[2:])), "as many records as"),
    ("the size of the repository", "".join(INFO), "".join((*INFO[:2], "e3020000", *INFO[3:])), "as many bytes"),
    ("the size of the largest", "".join(INFO), "".join((*INFO[:3], "52000000", INFO[4])), "the largest has as many"),
    ("a byte of a record in two parts", "01020000803f", "01020000813f", "GetPDR of record 3: the record's checksum"),
    ("the handle of a record", "020000000110", "030000000110", "GetPDR of record 2: it has the handle 3"),
    ("the length of a record", "0110" + "0000" + "1700", "0110" + "0000" + "1800", "GetPDR of record 2: version 1"),
    ("the handle of the next record", "025100" + "03000000", "025100" + "02000000", "record 2 comes once"),
    ("the checksum of the versions", "00f0f0f1fb8f864a", "00f0f0f1fb8f864b", "its versions 00f0f0f1fb8f864b"),
    ("a refusal", "02110002", "02118002", "sensor 1: GetSensorReading: refused with 0x80"),
)


# The end of the entity, no names, degrees C and the modifier, of numeric sensor 1 of openbmc.toml.
UNIT, CHANGED_UNIT = "00000000000200", "00000000000201"


def walk(*words):
    return programs.run([*WALK, *words], stdin=subprocess.DEVNULL, text=True)


def fails(ran, check):
    """Whether this check failed, and with it the walk."""
    return ran.returncode == 1 and f"FAILED  {check}" in ran.stdout and not ran.stdout.endswith(" 0 failed\n")


def tables(rows, program, description):
    for name, added, want in TABLES:
        with open(description, "w") as copy:
            copy.write(text_of(f"{name}.toml") + added)
        ran = walk("--print", program, description)
        well = (ran.returncode, ran.stdout, ran.stderr) == (0, want, "")
        rows.check(f"walk: the table of {name}.toml", well, repr(ran))
        for part in ("1", "64", "303", "1024"):
            ran = walk("--part", part, program, description)
            well = ran.returncode == 0 and want in ran.stdout and ran.stdout.endswith(" passed, 0 failed\n")
            rows.check(f"walk: {name}.toml in parts of {part}", well, repr(ran))


def script(folder, text):
    path = os.path.join(folder, "program")
    with open(path, "w") as file:
        file.write(f"#!/bin/sh\n{text}\n")
    os.chmod(path, 0o755)
    return path


def hostile(rows, program, folder, description, device):
    """Devices whose records are not theirs, and a line on which answers are changed."""
    for name, text, wanted in changed_records(device):
        with open(description, "w") as file:
            file.write(text)
        ran = walk(program, description)
        rows.check(f"walk: {name} is found", fails(ran, wanted), repr(ran))
    for name, old, new, wanted in CHANGED:
        words = shlex.join([sys.executable, CHANGER, old, new, program])
        ran = walk(script(folder, f'exec {words} "$@"'))
        rows.check(f"walk: {name}, changed, is found", fails(ran, wanted), repr(ran))


def lines(rows, program, folder):
    """A question that is lost, and programs that do not answer."""
    # The first frame has 13 bytes: the packet's 7 between its flag, revision and count, and its check and flag.
    lost = script(folder, f'dd bs=1 count=13 of=/dev/null 2>/dev/null && exec {shlex.quote(program)} "$@"')
    ran = walk("--print", "--seconds", "1", lost)
    rows.check("walk: a question that is lost is sent again", (ran.returncode, ran.stdout) == (0, BOARD), repr(ran))
    ran = walk(script(folder, "exit 0"))
    rows.check("walk: a program that ends", fails(ran, "the line stays open"), repr(ran))
    ran = walk("--seconds", "0.1", script(folder, "exec sleep 60"))
    well = fails(ran, "Get Endpoint ID at the physical address: no answer in 3 tries")
    rows.check("walk: a program that says nothing", well, repr(ran))


def conversion(rows, program, description, device):
    """40, times 0.1 (0x3dcccccd), less 10 (0xc1200000), times 10^1."""
    with open(description, "w") as file:
        file.write(device.replace("01000000803f00000000", "0100cdcccc3d000020c1", 1).replace(UNIT, CHANGED_UNIT, 1))
    ran = walk("--print", program, description)
    well = ran.returncode == 0 and "sensor 1    -  -60 degrees C  normal\n" in ran.stdout
    rows.check("walk: a resolution, an offset and a modifier", well, repr(ran))


def without_a_terminus(rows, program):
    """The one record of examples/device.toml is a terminus locator that says that it is not valid."""
    ran = walk(program, os.path.join(ROOT, "examples", "device.toml"))
    rows.check("walk: a locator that is not valid is passed over", ran.returncode == 0, repr(ran))


def check(rows, program):
    device = text_of("openbmc.toml")
    without_a_terminus(rows, program)
    with tempfile.TemporaryDirectory() as folder:
        description = os.path.join(folder, "device.toml")
        tables(rows, program, description)
        hostile(rows, program, folder, description, device)
        conversion(rows, program, description, device)
        lines(rows, program, folder)
