"""Rows for `tests/check` over firmware updates where one end is made by hand (`tests/support/hand_ends.py`).

`serve` is brought an update by an agent, and `update` brings one to a device, that know nothing of mctpctl: the
commands and completion codes are those of DSP0267. An agent answers pieces also wrongly, late or not at all; a device
asks for any piece, and says no at each step.
"""
import random
import subprocess
import threading
import time

from support.hand_ends import COMPONENT, IDENTIFIER, SILENT, HandAgent, HandDevice, numbers_in, version
from support.packages import UUID, Image, Record, package, u16, u32
from support.programs import SECONDS
from support.updates import UpdatedDevice, read_file

OLD = b"the firmware of before" * 40

SUCCESS, RETRY = b"\0", b"\x89"
DOWNLOAD, READY, IDLE = 3, 2, 0


def image_of(size, seed):
    return random.Random(f"rows by hand {seed}").randbytes(size)


def status_of(agent):
    """The state and the one before that GetStatus tells."""
    told = agent.ask(0x1B)
    return (told[1], told[2]) if told else None


def waits_for(agent, state, seconds=SECONDS):
    """Whether the device comes to this state."""
    until = time.monotonic() + seconds
    while (status := status_of(agent)) and status[0] != state and time.monotonic() < until:
        agent.pass_time(0.2)
    return status


def in_order(pieces):
    """Whether pieces follow one another from offset 0 on, where the last of several requests for one counts."""
    place = 0
    for offset, length in dict(pieces).items():
        if offset != place:
            return False
        place += length
    return True


# ---- `serve`, and an agent by hand.


def brought_by_hand(program):
    """A whole update: what the device asks for, in which order, and how long each piece is (32 to 256 bytes)."""
    for size, most in ((1_100, 256), (2_049, 4_096), (200, 40)):
        image = image_of(size, most)
        with UpdatedDevice(program, OLD) as device:
            agent = HandAgent(device.serve().line.ends[1], image)
            yield f"{size} bytes: the update is taken", agent.begin(most), (bytes(4), bytes(3))
            yield f"{size} bytes: so is its component", agent.transfer("by hand"), bytes(9)
            yield f"{size} bytes: it is applied", agent.wait_for(0x18), True
            pieces, others = agent.asked_pieces(), [it for it in agent.commands() if it != 0x15]
            lengths = [length for _, length in pieces]
            yield f"{size} bytes: at most {min(most, 256)} at once", max(lengths), min(most, 256)
            yield f"{size} bytes: all but the last are whole", set(lengths[:-1]) <= {min(most, 256)}, True
            yield f"{size} bytes: each once and in order", in_order(pieces) and len(dict(pieces)) == len(pieces), True
            yield f"{size} bytes: all is told", others, [0x16, 0x17, 0x18]
            results = [data[0] for _, _, header, data in agent.asked if header[2] != 0x15]
            yield f"{size} bytes: each a success", results, [0, 0, 0]
            agent.pass_time(0.2)
            yield f"{size} bytes: not active yet", (device.active() == OLD, status_of(agent)), (True, (READY, 5))
            yield f"{size} bytes: it is activated", agent.ask(0x1A, b"\1"), bytes(3)
            yield f"{size} bytes: it is active", (device.active() == image, status_of(agent)[0]), (True, IDLE)


def wrong_pieces(program):
    """A piece that is not given, or has another length, is asked for again: the same one, a second later at least."""
    image = image_of(1_000, "wrong")
    with UpdatedDevice(program, OLD) as device:
        agent = HandAgent(device.serve().line.ends[1], image)
        agent.pieces = {
            256: [RETRY, SUCCESS + bytes(255), SUCCESS + bytes(257)],
            512: [SUCCESS],
        }
        agent.begin()
        agent.transfer("wrong")
        yield "wrong pieces: it is applied", agent.wait_for(0x18, 20), True
        wanted = [(0, 256), *[(256, 256)] * 4, *[(512, 256)] * 2, (768, 232)]
        yield "wrong pieces: each is asked for again", agent.asked_pieces(), wanted
        moments = [moment for moment, _, header, _ in agent.asked if header[2] == 0x15]
        least = min(moments[number + 1] - moments[number] for number in (1, 2, 3, 5))
        yield "wrong pieces: not before a second", least > 0.99, True
        agent.pass_time(0.2)
        yield "wrong pieces: it is activated", agent.ask(0x1A, b"\1"), bytes(3)
        yield "wrong pieces: the same bytes", device.active() == image, True


def asked_at(agent, offset):
    """The header of each request for the piece at this offset, and the request."""
    requests = [request for _, *request in agent.asked if request[1][2] == 0x15]
    return [(request[1], request) for request in requests if numbers_in(request[2])[0] == offset]


def late_pieces(program):
    """An answer that comes when its request was given up is stored nowhere; nor is one to a request of before."""
    image = image_of(1_000, "late")
    with UpdatedDevice(program, OLD) as device:
        agent = HandAgent(device.serve("--lifetime", "200").line.ends[1], image)
        agent.pieces = {512: [SILENT] * 6}
        agent.begin()
        agent.transfer("late")
        until = time.monotonic() + SECONDS
        while len({header[0] for header, _ in asked_at(agent, 512)}) < 2 and time.monotonic() < until:
            agent.pass_time(0.01)
        last = agent.asked[-1][2]
        for header, request in (*asked_at(agent, 256), *asked_at(agent, 512)):
            if header != last:
                agent.respond(request, SUCCESS + bytes(256))
        agent.pieces = {}
        yield "late pieces: it is applied", agent.wait_for(0x18, 20), True
        agent.pass_time(0.2)
        yield "late pieces: it is activated", agent.ask(0x1A, b"\1"), bytes(3)
        yield "late pieces: the same bytes", device.active() == image, True


def silent_agent(program):
    """Where no piece is answered the device gives the transfer up, and takes another one."""
    image = image_of(600, "silent")
    with UpdatedDevice(program, OLD) as device:
        agent = HandAgent(device.serve("--lifetime", "100").line.ends[1], image)
        agent.pieces = {0: [SILENT] * 1_000}
        agent.begin()
        agent.transfer("never")
        agent.wait_for(0x15)
        yield "a silent agent: the device downloads", status_of(agent), (DOWNLOAD, READY)
        yield "a silent agent: the device gives up", waits_for(agent, READY), (READY, DOWNLOAD)
        yield "a silent agent: nothing is kept", (device.active() == OLD, device.coming()), (True, None)
        agent.pieces, agent.asked = {}, []
        yield "a silent agent: once more", agent.transfer("again"), bytes(9)
        yield "a silent agent: it is applied", agent.wait_for(0x18), True


def cancelled(program):
    """What is cancelled leaves nothing, but what was applied before: that is activated, and its version is active."""
    applied = image_of(300, "applied")
    with UpdatedDevice(program, OLD) as device:
        agent = HandAgent(device.serve().line.ends[1], applied)
        agent.begin()
        agent.transfer("first")
        agent.wait_for(0x18)
        agent.pass_time(0.2)
        agent.image, agent.pieces = image_of(900, "cancelled"), {256: [SILENT] * 1_000}
        agent.asked = []
        agent.transfer("second")
        agent.wait_for(0x15)
        agent.pass_time(0.3)
        yield "cancelled: a part has come", len(device.coming() or b""), 256
        yield "cancelled: the component", (agent.ask(0x1C), status_of(agent)), (SUCCESS, (READY, DOWNLOAD))
        yield "cancelled: its part is gone", device.coming(), None
        yield "cancelled: what was applied is activated", agent.ask(0x1A, b"\1"), bytes(3)
        yield "cancelled: what was applied is active", device.active() == applied, True
        told = agent.ask(0x02)
        yield "cancelled: its version is active", (told.endswith(b"first"), told.endswith(b"second")), (True, False)
        agent.begin()
        agent.transfer("third")
        agent.pass_time(0.3)
        yield "cancelled: an update", (agent.ask(0x1D), status_of(agent)[0]), (bytes(10), IDLE)
        beside = (device.coming(), read_file(f"{device.firmware}.new"))
        yield "cancelled: an update leaves nothing", (device.active() == applied, *beside), (True, None, None)


# ---- `update`, and a device by hand.

FRONT = f'device identifier 0002 {IDENTIFIER.hex()}\ncomponent 10:1:0 active version "1.0"\n'
BEGUN = f"{FRONT}update requested\n"
OFFERED = f"{BEGUN}component 10:1:0 1000 bytes\n"
IMAGE = image_of(1_000, "offered")
OTHER = bytes.fromhex("0a00 0200 00")  # 10:2:0
STAMP = b"\xff" * 4  # no comparison stamp
PAUSE = 0.3  # seconds, in which the agent prints what it was told


def update_by(program, work, words=(), others=None, components=(COMPONENT,), data=IMAGE):
    """How an agent ends whose device does this `work` once a component is offered, what came of it each time, and the
    requests that the device got."""
    with UpdatedDevice(program, OLD) as place:
        device, ended = HandDevice(place.line.ends[0], components), []
        device.others = others or {}
        image = place.write("image.bin", data)

        def bring():
            try:
                ended.append(place.update(image, *words))
            except subprocess.SubprocessError as fault:
                ended.append(fault)

        agent = threading.Thread(target=bring)
        agent.start()
        came = []
        while agent.is_alive():
            device.pass_time(0.02)
            if work and device.commands().count(0x14) > len(came):
                device.pass_time(PAUSE)
                came.append(work(device))
        agent.join()
        return ended[0], came, [(header[2], data) for _, _, header, data in device.asked]


def commands_of(requests):
    return [command for command, _ in requests]


def ended_with(*reports, first=0x16):
    """The work of a device that says these results: of a transfer, a verification and an application."""

    def work(device):
        answers = []
        for command, report in enumerate(reports, first):
            answers.append(device.ask(command, report))
            device.pass_time(PAUSE)
        return answers

    return work


WELL = ended_with(b"\0", b"\0", b"\0\0\0")
STEPS = ("component 10:1:0 transferred\n", "component 10:1:0 verified\n", "component 10:1:0 applied\n")


def any_piece(device):
    """The work of a device that asks for pieces in any order, also such as it must not get."""
    front, last = device.fetch(512, 256), device.fetch(900, 256)
    given = [front == SUCCESS + IMAGE[512:768], last == SUCCESS + IMAGE[900:] + bytes(156)]
    given += [device.fetch(0, 32) == SUCCESS + IMAGE[:32], device.fetch(0, 32) == SUCCESS + IMAGE[:32]]
    refused = [device.fetch(*piece) for piece in ((0, 0), (0, 257), (1_300, 256), (2**32 - 1, 32))]
    early = [device.ask(0x17, b"\0"), device.ask(0x18, b"\0\0\0")]
    told = ended_with(b"\0")(device)
    late = device.fetch(0, 32)
    return given, refused, early, [*told, *ended_with(b"\0", b"\0\0\0", first=0x17)(device)], late


def pieces_by_hand(program):
    ran, came, requests = update_by(program, any_piece)
    given, refused, early, told, late = came[0]
    yield "a device by hand: pieces", given, [True] * 4
    yield "a device by hand: wrong pieces", refused, [b"\x83", b"\x83", b"\x82", b"\x82"]
    yield "a device by hand: reports out of turn", early, [b"\x88", b"\x88"]
    yield "a device by hand: reports", told, [SUCCESS] * 3
    yield "a device by hand: a piece of no transfer", late, b"\x88"
    yield "a device by hand: it is brought", ran, (0, (OFFERED + "".join(STEPS) + "activated\n").encode(), b"")
    yield "a device by hand: its commands", commands_of(requests), [0x01, 0x02, 0x10, 0x13, 0x14, 0x1A]


def two_images(program):
    """A package with two images for the device: the table has both, and both are brought in their order."""
    first, second = image_of(300, "first of two"), image_of(500, "second of two")
    images = [Image(10, 2, "b", first), Image(9, 9, "other", b"other"), Image(10, 1, "a", second)]
    data = package([Record([(UUID, IDENTIFIER)], [0, 2], "both")], images)
    two = (COMPONENT, OTHER)

    def fetch_all(device):
        pieces = [device.fetch(place, 256)[1:] for place in (0, 256)]
        return b"".join(pieces), WELL(device)

    ran, came, requests = update_by(program, fetch_all, components=two, data=data)
    lines = "".join(
        f"component {name} {size} bytes\n" + "".join(step.replace("10:1:0", name) for step in STEPS)
        for name, size in (("10:2:0", 300), ("10:1:0", 500))
    )
    front = FRONT + 'component 10:2:0 active version "1.0"\nupdate requested\n'
    yield "two images: they are brought", ran, (0, f"{front}{lines}activated\n".encode(), b"")
    wanted = [(image + bytes(512 - len(image)), [SUCCESS] * 3) for image in (first, second)]
    yield "two images: each is the same", came == wanted, True
    names = [(OTHER, b"b", 300), (COMPONENT, b"a", 500)]
    table = [bytes([flag]) + name + STAMP + b"\1\1" + text for flag, (name, text, _) in zip((1, 4), names)]
    yield "two images: the table", [data for command, data in requests if command == 0x13], table
    offers = [name + STAMP + u32(size) + u32(0) + b"\1\1" + text for name, text, size in names]
    yield "two images: the offers", [data for command, data in requests if command == 0x14], offers
    begun = [data[4:6] + data[9:] for command, data in requests if command == 0x10]
    yield "two images: RequestUpdate has the version of both", begun, [u16(2) + version("both")]


# What a device does that says no or reports a fault, and what is printed before the agent cancels.
FAILED = b"\x0a"
REFUSALS = (
    ("RequestUpdate", None, {0x10: [b"\x8a"]}, FRONT),
    ("PassComponentTable", None, {0x13: [b"\x01"]}, BEGUN),
    ("PassComponentTable's response", None, {0x13: [b"\0\1\6"]}, BEGUN),
    ("UpdateComponent", None, {0x14: [b"\x01"]}, BEGUN),
    ("UpdateComponent's response", None, {0x14: [b"\0\1\6" + bytes(6)]}, BEGUN),
)
REPORTS = (
    ("the transfer", ended_with(FAILED), None, OFFERED),
    ("the verification", ended_with(b"\0", FAILED), None, OFFERED + STEPS[0]),
    ("the application", ended_with(b"\0", b"\0", FAILED + b"\0\0"), None, OFFERED + STEPS[0] + STEPS[1]),
    ("ActivateFirmware", WELL, {0x1A: [b"\x85"]}, OFFERED + "".join(STEPS)),
)


def said_no(program):
    return ended_by(program, REFUSALS)


def reported(program):
    return ended_by(program, REPORTS)


def ended_by(program, table):
    """Where the device says no or reports a fault, the agent says so, cancels the update and activates nothing."""
    for name, work, others, printed in table:
        (status, out, err), _, requests = update_by(program, work, others=others)
        commands = commands_of(requests)
        is_begun = name != "RequestUpdate"
        want = (1, printed + ("cancelled\n" if is_begun else ""))
        yield f"a device says no: {name}", (status, out.decode()), want
        yield f"a device says no: {name} is said in a line", (err.startswith(b"mctpctl: "), err.count(b"\n")), (True, 1)
        activates = name == "ActivateFirmware"
        yield f"a device says no: {name}, what is sent", (0x1D in commands, 0x1A in commands), (is_begun, activates)


# What a device says to RequestUpdate and CancelUpdate that has an update under way, whether it is brought one then, and
# what is asked: ALREADY_IN_UPDATE_MODE, NOT_IN_UPDATE_MODE and COMMAND_NOT_EXPECTED.
OCCUPIED = b"\x81"
UNDER_WAY = (
    ("it is cancelled", {0x10: [OCCUPIED]}, True, [0x10, 0x1D, 0x10]),
    ("it has ended", {0x10: [OCCUPIED], 0x1D: [b"\x80"]}, True, [0x10, 0x1D, 0x10]),
    ("another agent's", {0x10: [OCCUPIED], 0x1D: [b"\x88"]}, False, [0x10, 0x1D]),
    ("it begins again", {0x10: [OCCUPIED] * 2}, False, [0x10, 0x1D, 0x10]),
)


def occupied(program):
    """A device that has an update under way: it is asked once to cancel it."""
    refused = b"mctpctl: RequestUpdate: refused with the completion code 0x81\n"
    cancelled = "an earlier update cancelled\n"
    for name, others, is_brought, asked in UNDER_WAY:
        ran, _, requests = update_by(program, WELL, others=others)
        printed = FRONT + cancelled * (asked[-1] == 0x10)
        want = (1, printed.encode(), refused)
        if is_brought:
            rest = (OFFERED + "".join(STEPS)).removeprefix(FRONT)
            want = (0, f"{printed}{rest}activated\n".encode(), b"")
        yield f"an update under way: {name}", ran, want
        commands = [command for command in commands_of(requests) if command in (0x10, 0x1D)]
        yield f"an update under way: {name}, what is asked", commands, asked


def said_otherwise(program):
    """What a device may say else: another activation method, not yet, and several components."""
    ran, *_ = update_by(program, ended_with(b"\0", b"\0", b"\1\2\0"))
    yield "another activation method", ran, (0, (OFFERED + "".join(STEPS) + "activated\n").encode(), b"")
    ran, _, requests = update_by(program, WELL, others={0x1A: [b"\x84", b"\x84"]})
    yield "a device that is not ready yet", (ran[0], commands_of(requests).count(0x1A)), (0, 3)
    two = (COMPONENT, OTHER)
    front = FRONT + 'component 10:2:0 active version "1.0"\n'
    ran, _, requests = update_by(program, None, components=two)
    said = b"mctpctl: which component the image is for is not said (--component)\n"
    yield "two components", (ran, commands_of(requests)), ((1, front.encode(), said), [0x01, 0x02])
    ran, *_ = update_by(program, None, ("--component", "10:2:0", "--dry-run"), components=two)
    yield "the second of two", ran, (0, f"{front}the file is for this device\n".encode(), b"")


CASES = (said_no, reported, said_otherwise, brought_by_hand, silent_agent, wrong_pieces, cancelled, late_pieces)
CASES += (pieces_by_hand, two_images, occupied)
