"""Rows for `tests/check` over `update`, and over `serve` with a firmware that it brings: both ends of DSP0267.

What is brought has to be in the device's file, byte for byte. The lines that are printed were written by hand from the
help, the packages are made by `tests/support/packages.py`, and the packets that a device is asked by hand from DSP0267
and DSP0240. Most of the time both programs wait, so the cases run beside one another, each with a line of its own.
"""
import os
import random
import signal
import subprocess
import tempfile
import time
import uuid
import zlib
from concurrent.futures import ThreadPoolExecutor

import rows_update_hand
from support.frames import frame, read_frames
from support.packages import IANA, UUID, Image, Record, package
from support.programs import SECONDS, run
from support.terminals import Terminal
from support.updates import ENDS, TIMES, UpdatedDevice, read_file, times_of, write_file

OLD = b"the firmware of before" * 40
TRY_HELP = b"\n\nFor more information, try '--help'.\n"

# The device's UUID where its description has none (its last byte is the endpoint ID), and that of RFC 4122's examples.
DEFAULT_UUID = bytes.fromhex("4e6565646c658f618074000000000009")
OTHER_UUID = uuid.UUID("f81d4fae-7dec-11d0-a765-00a0c91e6bf6").bytes
OTHER_CONTROL = f'[control]\nuuid = "{OTHER_UUID.hex()}"\n'

FOR_THIS = "the file is for this device\n"
NO_PACKAGE = "mctpctl: {}: no package and no image: "
NO_COMPONENT = "error: invalid value for '--component <COMPONENT>'"
SPELLED_WRONG = ("x", "10:1", "10:1:256", "65536:1:0", "10:1:0:0", "10:x:0")


def image_of(size, seed):
    return random.Random(f"rows of updates {seed}").randbytes(size)


def identity(version, device=DEFAULT_UUID):
    """What is printed of a device with this active version."""
    return f'device identifier 0002 {device.hex()}\ncomponent 10:1:0 active version "{version}"\n'


def steps(size):
    """What is printed of an update by an image of so many bytes."""
    front = "component 10:1:0"
    lines = ["update requested", f"{front} {size} bytes"]
    lines += [f"{front} {done}" for done in ("transferred", "verified", "applied")]
    return "".join(f"{line}\n" for line in (*lines, "activated"))


def refused(text, printed="", status=1):
    """How an update ends that is not brought."""
    return status, printed.encode(), f"mctpctl: {text}\n".encode()


def brought(printed):
    return 0, printed.encode(), b""


# ---- Each case gets the program, and yields rows: a name, what came and what has to.


def whole(program):
    """An image goes through. The next update of the same process finds its version active, and is brought too."""
    first, second = image_of(40_000, "first"), image_of(700, "second")
    with UpdatedDevice(program, OLD) as device:
        paths = [device.write(name, data) for name, data in (("first.bin", first), ("second.bin", second))]
        device.serve()
        ran = device.update(paths[0], "--image-version", "version 2")
        yield "40,000 bytes are brought", ran, brought(identity("unknown") + steps(40_000))
        yield "they are the same", device.active() == first, True
        yield "nothing is beside them", (device.coming(), read_file(f"{device.firmware}.new")), (None, None)
        ran = device.update(paths[1])
        yield "the version of the first is active", ran, brought(identity("version 2") + steps(700))
        yield "the second is the same", device.active() == second, True
        ran = device.update(paths[0], "--dry-run")
        yield "the version of an image is its name", ran, brought(identity("second.bin") + FOR_THIS)
        yield "a dry run after it", device.active() == second, True


def dry_run(program):
    with UpdatedDevice(program, OLD) as device:
        image = device.write("image.bin", image_of(3_000, "dry"))
        ran = device.serve().update(image, "--dry-run")
        yield "a dry run", ran, brought(identity("unknown") + FOR_THIS)
        yield "a dry run transfers nothing", (device.active(), device.coming()), (OLD, None)


def with_uuid(*more):
    return [(UUID, OTHER_UUID), *more]


def packaged(program):
    """The first record for the device says which images are for it."""
    data, others = image_of(900, "packaged"), image_of(800, "others")
    images = (Image(11, 7, "other", others), Image(10, 1, "3.1.4", data))
    records = (Record([(UUID, DEFAULT_UUID)], [0]), Record(with_uuid(), [1]), Record(with_uuid(), [0]))
    with UpdatedDevice(program, OLD, added=OTHER_CONTROL) as device:
        path = device.write("update.pkg", package(records, images))
        ran = device.serve().update(path, "--dry-run")
        yield "a package's dry run", ran, brought(identity("unknown", OTHER_UUID) + FOR_THIS)
        ran = device.update(path)
        yield "a package is brought", ran, brought(identity("unknown", OTHER_UUID) + steps(900))
        yield "its image is the same", device.active() == data, True
        ran = device.update(path, "--dry-run")
        yield "the version is that of the package", ran, brought(identity("3.1.4", OTHER_UUID) + FOR_THIS)


def not_for_it(program):
    """What a device is not offered."""
    data = image_of(500, "not for it")
    image, elsewhere = Image(10, 1, "1", data), Image(10, 2, "1", data)
    no_record = "no record of the package is for this device"
    no_component = "the device has no such component"
    own = [(UUID, DEFAULT_UUID)]
    files = (
        ("a package for another UUID", package([Record(with_uuid(), [0])], [image]), (), no_record),
        ("one more descriptor", package([Record([*own, (IANA, b"\1\2\3\4")], [0])], [image]), (), no_record),
        ("no image", package([Record(own, [])], [image]), (), "no image of the package is for this device"),
        ("a package's component", package([Record(own, [0])], [elsewhere]), (), no_component),
        ("--component 10:2:0", data, ("--component", "10:2:0"), no_component),
        ("--component 10:1:1", data, ("--component", "10:1:1"), no_component),
    )
    with UpdatedDevice(program, OLD) as device:
        device.serve()
        for name, content, words, fault in files:
            ran = device.update(device.write("file", content), *words)
            yield f"not for the device: {name}", ran, refused(fault, identity("unknown"))
        ran = device.update(device.write("file", data), "--component", "10:1:0", "--dry-run")
        yield "--component 10:1:0", ran, brought(identity("unknown") + FOR_THIS)
        yield "what is not for the device is not transferred", (device.active(), device.coming()), (OLD, None)


def another_agent(program):
    """An update of another endpoint than --agent is refused with UNABLE_TO_INITIATE_UPDATE, 0x8a."""
    data = image_of(300, "agent")
    with UpdatedDevice(program, OLD) as device:
        image = device.write("image.bin", data)
        ran = device.serve().update(image, ends=("--own", "10", "--device", "9"))
        code = "RequestUpdate: refused with the completion code 0x8a"
        yield "another agent", ran, refused(code, identity("unknown"))
        yield "another agent changes nothing", (device.active(), device.coming()), (OLD, None)
    with UpdatedDevice(program, OLD) as device:
        image = device.write("image.bin", data)
        ran = device.serve("--agent", "10").update(image, ends=("--own", "10", "--device", "9"))
        yield "--agent 10", ran, brought(identity("unknown") + steps(300))
        yield "--agent 10: the same bytes", device.active() == data, True


def nobody(program):
    """Nobody answers, and a device that takes no updates: its PLDM types have not 5 (ERROR_INVALID_PLDM_TYPE, 0x20)."""
    with UpdatedDevice(program, OLD) as device:
        image = device.write("image.bin", b"image")
        ran = device.update(image)
        yield "nobody is there", ran, refused("QueryDeviceIdentifiers: no answer", status=3)
    with UpdatedDevice(program, OLD) as device:
        ran = device.serve(takes_updates=False).update(device.write("image.bin", b"image"))
        code = "QueryDeviceIdentifiers: refused with the completion code 0x20"
        yield "a device that takes no updates", ran, refused(code)


def lossy(program):
    """A line that loses, repeats and delays frames: the tries suffice, and the bytes are the same."""
    data = image_of(6_000, "lossy")
    with UpdatedDevice(program, OLD, keep=1_600) as device:
        image = device.write("lossy.bin", data)
        device.serve("--faults", "7,5,5,5", "--lifetime", "800")
        ran = device.update(image, times=times_of(1_600, 8))
        yield "over a line with faults", ran, brought(identity("unknown") + steps(6_000))
        yield "over a line with faults: the same bytes", device.active() == data, True


def killed(program):
    """Killed in the middle, the device has its old firmware, and the next process takes the update."""
    data = image_of(30_000, "killed")
    with UpdatedDevice(program, OLD) as device:
        image = device.write("killed.bin", data)
        device.serve().begin_update(image)
        yield "a third has come", device.wait_for(10_000), True
        device.kill_device()
        yield "killed in the middle", (device.active(), data.startswith(device.coming())), (OLD, True)
        device.kill_agent()
        ran = device.serve().update(image)
        yield "after a new start", ran, brought(identity("unknown") + steps(30_000))
        yield "after a new start: the same bytes", device.active() == data, True


def killed_agent(program):
    """After an agent was killed in the middle, the next one cancels its update, and brings its own."""
    data = image_of(900, "after a killed agent")
    with UpdatedDevice(program, OLD) as device:
        device.serve().begin_update(device.write("killed.bin", image_of(30_000, "killed agent")))
        yield "a third has come of an agent", device.wait_for(10_000), True
        device.kill_agent()
        ran = device.update(device.write("next.bin", data))
        want = brought(identity("unknown") + "an earlier update cancelled\n" + steps(900))
        yield "after a killed agent", ran, want
        yield "after a killed agent: the same bytes", (device.active() == data, device.coming()), (True, None)


def failing(program):
    """Where the device's files fail, it says so, and its firmware is as it was."""
    for ending, last in (("part", "component 10:1:0 800 bytes\n"), ("new", "component 10:1:0 verified\n")):
        front, _, _ = steps(800).partition(last)
        with UpdatedDevice(program, OLD) as device:
            os.makedirs(f"{device.firmware}.{ending}/full")  # no file can be made of this name
            status, out, _ = device.serve().update(device.write("image.bin", image_of(800, "failing")))
            want = (1, identity("unknown") + front + last + "cancelled\n")
            yield f"a device whose .{ending} fails", (status, out.decode()), want
            yield f"a device whose .{ending} fails has the old firmware", device.active() == OLD, True


def files(program):
    """Words and files that are refused before anything is asked."""
    good = package([Record([(UUID, DEFAULT_UUID)], [0])], [Image(10, 1, "1", b"image")])
    checksum = len(good) - len(b"image") - 1
    wrong = good[:checksum] + bytes([good[checksum] ^ 1]) + good[checksum + 1 :]
    with tempfile.TemporaryDirectory() as folder:
        names = {"wrong": wrong, "empty": b"", "cut": good[:50], "image": b"image"}
        paths = {name: write_file(os.path.join(folder, name), data) for name, data in names.items()}
        image = paths["image"]
        for name, path, words, status, said in (
            ("a wrong checksum", paths["wrong"], (), 2, NO_PACKAGE),
            ("an empty file", paths["empty"], (), 2, NO_PACKAGE),
            ("a package cut short", paths["cut"], (), 2, NO_PACKAGE),
            ("no file", os.path.join(folder, "none"), (), 3, "mctpctl: {}: No such file or directory (os error 2)\n"),
            ("a folder", folder, (), 3, "mctpctl: {}: Is a directory (os error 21)\n"),
            ("no terminal", image, (), 3, "mctpctl: /dev/null: not a terminal\n"),
            *((f"--component {word}", image, ("--component", word), 2, NO_COMPONENT) for word in SPELLED_WRONG),
        ):
            ran = run([program, "update", "--line", "/dev/null", *ENDS, *TIMES, *words, path])
            want = said.format(path).encode()
            yield name, (ran.returncode, ran.stdout, ran.stderr[: len(want)]), (status, b"", want)


def options(program):
    """Values of `serve` that are refused."""
    with UpdatedDevice(program, OLD) as device:
        for option, name, words in (
            ("--lifetime", "MS", ("0", "1001", "x", "99999999999999999")),
            ("--agent", "EID", ("300", "7", "255", "x", "9")),
        ):
            for word in words:
                line = [program, "serve", "--device", device.device, "--firmware", device.firmware, option, word]
                ran = run(line, stdin=subprocess.DEVNULL)
                want = (2, b"", f"error: invalid value for '{option} <{name}>'".encode() + TRY_HELP)
                yield f"serve {option} {word}", (ran.returncode, ran.stdout, ran.stderr), want
        words = [program, "serve", "--device", device.device, "--firmware", device.firmware]
        ran = run(words, stdin=subprocess.DEVNULL)
        yield "an input that has ended", (ran.returncode, ran.stdout, ran.stderr), (0, b"", b"")


def hung_up(program):
    """A terminal that goes away is said on standard error, as without updates."""
    with UpdatedDevice(program, OLD) as device:
        terminal = Terminal(tenths=1)
        words = [program, "serve", "--device", device.device, "--firmware", device.firmware]
        served = subprocess.Popen(words, stdin=terminal.its, stdout=terminal.its, stderr=subprocess.PIPE)
        os.close(terminal.its)
        terminal.its = None
        time.sleep(0.3)
        terminal.__exit__()
        try:
            _, err = served.communicate(timeout=SECONDS)
        finally:
            served.kill()
        want = (0, f"mctpctl: {terminal.name}: the line ended\n".encode())
        yield "a terminal that goes away", (served.returncode, err), want


# ---- Commands by hand.

CONTROL, UPDATES = 0, 5
COMPONENT = bytes.fromhex("0a00 0100 00")
VERSION = bytes([1, 3]) + b"1.0"
AGENT, STRANGER = 8, 10


def request_update(most=256):
    return most.to_bytes(4, "little") + bytes([1, 0, 1, 0, 0]) + VERSION


def status(state, previous):
    """What GetStatus says where the agent has the next move: no progress is told."""
    return bytes([0, state, previous, 3, 0, 0x65, 0, 0, 0, 0, 0])


def parameters():
    """GetFirmwareParameters of a device with one component of version 'unknown', of which nothing is known."""
    none, nothing = bytes([0, 0]), bytes(4) + b"\0\0" + b"00000000"
    active = bytes(4) + bytes([1, 7]) + b"00000000"
    own = COMPONENT + active + nothing + b"\2\0" + bytes(4) + b"unknown"
    return b"\0" + bytes(4) + b"\1\0" + none + none + own


def bits(numbers, count):
    return sum(1 << number for number in numbers).to_bytes(count, "little")


COMMANDS = (0x01, 0x02, 0x10, 0x13, 0x14, 0x1A, 0x1B, 0x1C, 0x1D)
VERSION_1_1 = bytes.fromhex("00f0f1f1")
TRANSFER = COMPONENT + bytes(4) + (600).to_bytes(4, "little") + bytes(4) + VERSION
TABLE = b"\5" + COMPONENT + bytes(4) + VERSION
IDENTIFIERS = b"\x14\0\0\0" + b"\1" + b"\2\0" + b"\x10\0" + DEFAULT_UUID

# A sender, a type, a command, its data, and the answer from the completion code on (DSP0240, DSP0267). The first ones
# come in no update, the last ones begin and end one.
BY_HAND = (
    ("GetPLDMTypes", AGENT, CONTROL, 0x04, b"", b"\0" + bits((0, 2, 5), 8)),
    ("GetPLDMCommands 5", AGENT, CONTROL, 0x05, b"\5" + VERSION_1_1, b"\0" + bits(COMMANDS, 32)),
    ("GetPLDMVersion 5", AGENT, CONTROL, 0x03, b"\0\0\0\0\1\5", b"\0" + bytes(4) + b"\5" + VERSION_1_1
     + zlib.crc32(VERSION_1_1).to_bytes(4, "little")),
    ("GetTID", AGENT, CONTROL, 0x02, b"", b"\0\1"),
    ("QueryDeviceIdentifiers", STRANGER, UPDATES, 0x01, b"", b"\0" + IDENTIFIERS),
    ("GetFirmwareParameters", STRANGER, UPDATES, 0x02, b"", parameters()),
    ("GetStatus", STRANGER, UPDATES, 0x1B, b"", status(0, 0)),
    ("RequestFirmwareData", AGENT, UPDATES, 0x15, bytes(4) + b"\0\1\0\0", b"\5"),
    ("TransferComplete", AGENT, UPDATES, 0x16, b"\0", b"\5"),
    ("QueryDownstreamDevices", AGENT, UPDATES, 0x03, b"", b"\5"),
    ("an unknown command", AGENT, UPDATES, 0x7F, b"", b"\5"),
    ("an unknown type", AGENT, 6, 0x01, b"", b"\x20"),
    ("RequestUpdate cut short", AGENT, UPDATES, 0x10, request_update()[:-1], b"\3"),
    ("RequestUpdate without data", AGENT, UPDATES, 0x10, b"", b"\3"),
    ("PassComponentTable cut short", AGENT, UPDATES, 0x13, TABLE[:5], b"\3"),
    ("UpdateComponent cut short", AGENT, UPDATES, 0x14, TRANSFER[:-3], b"\3"),
    ("GetStatus with a byte", AGENT, UPDATES, 0x1B, b"\0", b"\3"),
    ("PassComponentTable in no update", AGENT, UPDATES, 0x13, TABLE, b"\x80"),
    ("UpdateComponent in no update", AGENT, UPDATES, 0x14, TRANSFER, b"\x80"),
    ("ActivateFirmware in no update", AGENT, UPDATES, 0x1A, b"\1", b"\x80"),
    ("CancelUpdateComponent in no update", AGENT, UPDATES, 0x1C, b"", b"\x80"),
    ("CancelUpdate in no update", AGENT, UPDATES, 0x1D, b"", b"\x80"),
    ("RequestUpdate of 31 bytes", AGENT, UPDATES, 0x10, request_update(31), b"\x83"),
    ("RequestUpdate of a stranger", STRANGER, UPDATES, 0x10, request_update(), b"\x8a"),
    ("RequestUpdate", AGENT, UPDATES, 0x10, request_update(), bytes(4)),
    ("RequestUpdate in an update", AGENT, UPDATES, 0x10, request_update(33), b"\x81"),
    ("GetStatus in an update", STRANGER, UPDATES, 0x1B, b"", status(1, 0)),
    ("UpdateComponent before the table", AGENT, UPDATES, 0x14, TRANSFER, b"\x84"),
    ("PassComponentTable of a stranger", STRANGER, UPDATES, 0x13, TABLE, b"\x88"),
    ("PassComponentTable", AGENT, UPDATES, 0x13, TABLE, bytes(3)),
    ("GetStatus after the table", AGENT, UPDATES, 0x1B, b"", status(2, 1)),
    ("ActivateFirmware of nothing", AGENT, UPDATES, 0x1A, b"\1", b"\x85"),
    ("CancelUpdateComponent of none", AGENT, UPDATES, 0x1C, b"", b"\x84"),
    ("CancelUpdate of a stranger", STRANGER, UPDATES, 0x1D, b"", b"\x88"),
    ("CancelUpdate", AGENT, UPDATES, 0x1D, b"", bytes(10)),
    ("GetStatus after the update", AGENT, UPDATES, 0x1B, b"", status(0, 2)),
)


def message(sender, pldm_type, command, data, identifier, is_answer=False):
    """The one packet of a request to endpoint 9, or of the answer to it, whose data begins with the code."""
    tag = identifier % 8
    ends = (sender, 9) if is_answer else (9, sender)
    front = [1, *ends, 0xC0 | tag if is_answer else 0xC8 | tag, 1]
    return bytes([*front, identifier if is_answer else 0x80 | identifier, pldm_type, command]) + data


def by_hand(program):
    """Each command with an instance ID of its own, all at once through a pipe."""
    asked, wanted = [], []
    counts = {AGENT: 0, STRANGER: 0}
    for _, sender, pldm_type, command, data, answer in BY_HAND:
        asked.append(message(sender, pldm_type, command, data, counts[sender]))
        wanted.append(message(sender, pldm_type, command, answer, counts[sender], is_answer=True))
        counts[sender] += 1
    with UpdatedDevice(program, OLD) as device:
        words = [program, "serve", "--device", device.device, "--firmware", device.firmware]
        ran = run(words, input=b"".join(map(frame, asked)))
        came = read_frames(ran.stdout)
        yield "commands by hand", (ran.returncode, ran.stderr, len(came)), (0, b"", len(wanted))
        for row, got, want in zip(BY_HAND, came, wanted):
            yield f"by hand: {row[0]}", got.hex(), want.hex()
        yield "commands by hand change no firmware", (device.active(), device.coming()), (OLD, None)


CASES = (lossy, killed, killed_agent, whole, packaged, not_for_it, failing, another_agent, nobody, dry_run, hung_up)
CASES += (by_hand, files, options, *rows_update_hand.CASES)
AT_ONCE = 10


def check(rows, program):
    """Checks each row over the program."""
    with ThreadPoolExecutor(AT_ONCE) as pool:
        cases = [pool.submit(lambda case=case: list(case(program))) for case in CASES]
        for case, done in zip(CASES, cases):
            try:
                for name, got, want in done.result():
                    rows.check(f"updated: {name}", got == want, f"{got!r}, not {want!r}")
            except Exception as fault:  # a case that breaks off is a row that failed
                rows.check(f"updated: {case.__name__}", False, repr(fault))
