"""Large inputs, made by rule, with outputs made by the same rules and compared whole.

Each passes pieces of 64 KiB, more than a hundred requesters and more than a thousand steps. Nothing here is taken from
what the program writes: bytes are put together from the tables of docs/PROTOCOL.md, and a checksum is long division.
"""

KEEP = 1_000
DEVICE_EID = 9

# A device whose one record has 606 bytes: its part from byte 303 on is the longest that an answer carries, and the
# last.
RECORD = bytes.fromhex("01000000" "01" "01" "0000") + (596).to_bytes(2, "little") + bytes(596)
HALF = 303
DEVICE = f"""eid = {DEVICE_EID}
keep_ms = {KEEP}
tid = 1
version0 = "00f0f0f1"
version2 = "00f2f1f1"
update_time = "00000000000000000000000000"
oem_update_time = "00000000000000000000000000"
[[pdr]]
hex = "{RECORD.hex()}"
"""

PACKETS = 3_000
REQUESTERS = 120
REQUESTS = 300
FIRST_MOMENT = 3_999_999_999_000_000


def checksum(data):
    """The remainder of the bits of `data` and eight zeros by x^8 + x^2 + x + 1."""
    rest = int.from_bytes(data + b"\0", "big")
    for place in range(8 * len(data) - 1, -1, -1):
        if rest >> (place + 8) & 1:
            rest ^= 0b1_0000_0111 << place
    return rest


def source(number):
    """The endpoint ID of the requester of this number: those from 8 on but for the device's."""
    return 8 + number if number < 1 else 9 + number


def capture():
    """Each packet is GetTID: its line, the line of its answer, and what `show` writes of it."""
    for number in range(PACKETS):
        moment, eid, instance, tag = 1_000_000 + number, source(number % 100), number // 100, number % 8
        asked = bytes([0x01, DEVICE_EID, eid, 0xC8 | tag, 0x01, 0x80 | instance, 0x00, 0x02])
        answered = bytes([0x01, eid, DEVICE_EID, 0xC0 | tag, 0x01, instance, 0x00, 0x02, 0x00, 0x01])
        shown = (
            f"{moment} {eid}>{DEVICE_EID} tag {tag} to 1 som 1 eom 1 seq 0 len 4 whole\n"
            f"  request {instance} GetTID - ok\n"
        )
        yield f"{moment} {asked.hex()}\n", f"{answered.hex()}\n", shown


def answer_message(instance):
    """The answer with the record's last part: no next record, no next part, flag 'end', 303 bytes, the checksum."""
    part = RECORD[HALF:]
    fields = bytes(8) + b"\x04" + len(part).to_bytes(2, "little")
    message = bytes([0x01, instance, 0x02, 0x51, 0x00]) + fields + part + bytes([checksum(RECORD)])
    assert len(message) == 320
    return message


def schedule():
    """Ten steps a request: it is opened, comes twice, its five packets come, the last once more, and a tick."""
    for number in range(REQUESTERS):
        yield f"requester {source(number)} timeout 200 tries 3\n", ""
    for number in range(REQUESTS):
        eid, moment = source(number % REQUESTERS), FIRST_MOMENT + number
        steps = [(f"open {eid} getpdr 1 {HALF} next 65535", f"opened {number}")]
        steps += [(f"req {number}", "fresh unchanged"), (f"req {number}", "copy")]
        steps += [(f"rep {number} {packet}", "partial" if packet < 4 else "answered") for packet in range(5)]
        steps += [(f"rep {number} 4", "drop BadTag"), (f"tick {eid}", "nothing due")]
        for step, told in steps:
            yield f"at {moment} {step}\n", f"{moment} {told}\n"


def report():
    """What `run` writes after the steps."""
    for number in range(REQUESTS):
        answer = answer_message(number // REQUESTERS).hex()
        yield f"request {number} from {source(number % REQUESTERS)} answered {answer}\n"
    yield "order " + " ".join(map(str, range(REQUESTS))) + "\n"
    yield "tid 1\ntimely: yes\n"


# What stands in a description in place of what, and the fault.
FAULTS = [
    ("eid = 9", "eid = ", "Toml"),
    ("eid = 9\n", "", "MissingKey"),
    ("keep_ms = 1000", 'keep_ms = "1000"', "WrongKind"),
    ("keep_ms = 1000", "keep_ms = 60001", "OutOfRange"),
    ('"00f0f0f1"', '"00f0f0fg"', "BadHex"),
    ("[[pdr]]\n", f'[[pdr]]\nhex = "{RECORD.hex()}"\n[[pdr]]\n', "Duplicate"),
    ('"01000000', '"00000000', "BadRecord"),
    ("[[pdr]]\n", "[[numeric_sensor]]\n" * 1_001 + "[[pdr]]\n", "OutOfRange"),
]

STATES = f"[[state_effecter]]\nid = 1\nallowed = [{list(range(201))}]\nvalues = [200]\n"
START = "0 01090888" + "01" * 64 + "\n"
LONG = "0 010908c8" + "01" * 300 + "\n"

# What is taken, and what is written then: as many states as there are, a start packet of a full payload, a long packet.
TAKEN = [
    ("201 allowed states", STATES, "0 010908c801800002\n", "010809c0010000020001\n"),
    ("a start packet of a full payload", "", START, "partial\n"),
    ("a packet of 304 bytes", "", LONG, "drop UnsupportedUnit\n"),
]


def check(rows, run):
    """Checks each row; `run(arguments, text)` runs the program over a pipe."""
    lines = list(capture())
    ran = run(["answer"], f"{DEVICE}%%\n" + "".join(asked for asked, _, _ in lines))
    want = "".join(answered for _, answered, _ in lines)
    rows.check(f"{PACKETS} packets answered", (ran.returncode, ran.stdout) == (0, want.encode()))
    ran = run(["show"], "".join(asked for asked, _, _ in lines))
    want = "".join(shown for _, _, shown in lines)
    rows.check(f"{PACKETS} packets shown", (ran.returncode, ran.stdout) == (0, want.encode()))
    steps = list(schedule())
    want = "".join(told for _, told in steps) + "".join(report())
    ran = run(["run"], f"{DEVICE}%%\n" + "".join(step for step, _ in steps))
    well = (ran.returncode, ran.stdout) == (0, want.encode())
    rows.check(f"{10 * REQUESTS} steps of {REQUESTERS} requesters run", well)
    for old, new, fault in FAULTS:
        assert DEVICE.count(old) == 1, old
        ran = run(["answer"], DEVICE.replace(old, new) + "%%\n")
        well = (ran.returncode, ran.stdout, ran.stderr) == (1, b"", f"mctpctl: device: {fault}\n".encode())
        rows.check(f"a description that is refused as {fault}", well, repr(ran.stderr))
    for name, more, packets, text in TAKEN:
        ran = run(["answer"], DEVICE + more + "%%\n" + packets)
        rows.check(name, (ran.returncode, ran.stdout.decode()) == (0, text), repr(ran))
