"""What `show --binding` writes: frames by hand from DSP0237, DSP0233 and DSP0253, and each fault by its name.

Nothing of the program is used here: which fault a changed frame has is found by this module's own reading of the order
that docs/PROTOCOL.md gives.
"""
from support.frames import check_sequence, frame as serial_frame

QUESTION, ANSWER = bytes.fromhex("010908c801800002"), bytes.fromhex("010809c0010000020001")
LINES = ("8>9 tag 0 to 1 som 1 eom 1 seq 0 len 4 whole\n", "9>8 tag 0 to 0 som 1 eom 1 seq 0 len 6 whole\n")
IN_HEX = ("  request 0 GetTID - ok\n", "  response 0 GetTID 00 01\n")
BY_NAME = ("  request 0 GetTID\n", "  response 0 GetTID tid 1\n")

# The frames of the question and its answer. On I2C the asker is at address 10 and the device at 1D; on I3C the device
# is a target at 30, which is written to and read from.
I2C = ("3a0f0921" "010908c801800002" "ca", "200f0b3b" "010809c0010000020001" "7e")
I3C = ("60" "010908c801800002" "2b", "61" "010809c0010000020001" "36")
SERIAL = ("7e0108" "010908c801800002" "0ca6" "7e", "7e010a" "010809c0010000020001" "1313" "7e")
BINDINGS = {"i2c": I2C, "i3c": I3C, "serial": SERIAL}


def crc8(data):
    """The PEC of SMBus: the remainder by x^8 + x^2 + x + 1."""
    remainder = 0
    for byte in data:
        remainder ^= byte
        for _ in range(8):
            remainder = (remainder << 1 ^ 0x07) & 0xFF if remainder & 0x80 else remainder << 1
    return remainder


def with_pec(checked):
    return checked + bytes([crc8(checked)])


def i2c_fault(frame):
    """The first fault of a block write, None for a frame."""
    if len(frame) < 6:
        return "Short"
    destination, command, count, source = frame[:4]
    faults = {
        "NotOurs": destination & 1 == 1 or not 0x08 <= destination >> 1 <= 0x77,
        "OtherCommand": command != 0x0F,
        "WrongCount": count != len(frame) - 4,
        "NotSource": source & 1 == 0 or not 0x08 <= source >> 1 <= 0x77,
        "WrongPec": frame[-1] != crc8(frame[:-1]),
    }
    return next((name for name, has in faults.items() if has), None)


def i3c_fault(frame):
    """The first fault of a transfer with its address byte."""
    return "Short" if len(frame) < 6 else None if frame[-1] == crc8(frame[:-1]) else "WrongPec"


def changed_in_turn(frame):
    """The frame with each of its bits changed, and each of its fronts."""
    for place in range(len(frame)):
        for bit in range(8):
            yield frame[:place] + bytes([frame[place] ^ 1 << bit]) + frame[place + 1 :]
    yield from (frame[:length] for length in range(len(frame)))


def i2c_faults():
    """Frames on SMBus of which each has all faults from one on."""
    all_good = bytes.fromhex(I2C[0])
    faulty = (("WrongPec", -1, 0x01), ("NotSource", 3, 0x01), ("WrongCount", 2, 0x02), ("OtherCommand", 1, 0x01))
    for name, place, bits in (*faulty, ("NotOurs", 0, 0x01)):
        changed = bytearray(all_good)
        changed[place] ^= bits
        all_good = bytes(changed)
        yield f"{name} and those after it", all_good.hex(), name
    yield "a source below 08", with_pec(bytes.fromhex("3a0f090f") + QUESTION).hex(), "NotSource"
    yield "a source above 77", with_pec(bytes.fromhex("3a0f09f1") + QUESTION).hex(), "NotSource"
    yield "a destination below 08", with_pec(bytes.fromhex("0e0f0921") + QUESTION).hex(), "NotOurs"
    yield "a destination above 77", with_pec(bytes.fromhex("f00f0921") + QUESTION).hex(), "NotOurs"
    yield "a frame of no packet", with_pec(bytes.fromhex("3a0f0121")).hex(), "Short"
    yield "a PEC without the address byte", I2C[0][:-2] + f"{crc8(bytes.fromhex(I2C[0])[1:-1]):02x}", "WrongPec"
    yield "no bytes", "", "Short"


def i3c_faults():
    yield "the PEC of a write in a read", "61" + I3C[0][2:], "WrongPec"
    yield "no address byte", I3C[0][2:], "WrongPec"
    yield "three bytes of a packet", with_pec(bytes.fromhex("60010908")).hex(), "Short"
    yield "an address byte alone", "60", "Short"
    yield "no bytes", "", "Short"


def serial_faults():
    question = SERIAL[0]
    yield "another revision", "7e02" + question[4:], "WrongRevision"
    yield "a count of 0", "7e01" "00" "0000" "7e", "Empty"
    yield "a count of 69", "7e01" "45" + "00" * 69 + "0000" "7e", "TooLong"
    yield "a flag in the packet", question[:12] + "7e" + question[14:], "CutShort"
    yield "an end before the packet's", question[:12], "CutShort"
    yield "no last flag", question[:-2], "CutShort"
    yield "flags alone", "7e7e7e", "CutShort"
    yield "no flag", "010908", "CutShort"
    yield "no bytes", "", "CutShort"
    yield "a wrong escape", "7e0102" "7d5f00" "0000" "7e", "BadEscape"
    yield "a wrong check sequence", question[:-4] + "a7" "7e", "WrongCheck"
    yield "another byte than the last flag", question[:-2] + "00", "NoEnd"
    yield "a flag after the frame", question + "7e", "NoEnd"
    yield "two frames", question + question, "NoEnd"


FAULTS = {"i2c": i2c_faults, "i3c": i3c_faults, "serial": serial_faults}


def conversations(rows, run):
    """The same question and answer in each frame, in hex and by name."""
    for binding, frames in BINDINGS.items():
        text = f"# by hand\n0 {frames[0]}\n5 {frames[1].upper()}\n"
        for words, messages in (([], IN_HEX), (["--decode"], BY_NAME)):
            ran = run(["show", "--binding", binding, *words], text)
            wanted = f"0 {LINES[0]}{messages[0]}5 {LINES[1]}{messages[1]}"
            well = (ran.returncode, ran.stdout, ran.stderr) == (0, wanted.encode(), b"")
            rows.check(f"framed: {binding} {' '.join(words)}", well, repr(ran))


def faults(rows, run):
    """Each fault is named on its line, and the frame after it is shown."""
    for binding, faulty in FAULTS.items():
        for name, frame, fault in faulty():
            ran = run(["show", f"--binding={binding}"], f"3 {frame}\n4 {BINDINGS[binding][0]}\n")
            wanted = f"3 no frame: {fault}\n4 {LINES[0]}{IN_HEX[0]}"
            well = (ran.returncode, ran.stdout) == (0, wanted.encode())
            rows.check(f"framed: {binding}, {name}: {fault}", well, repr(ran))


def changed(rows, run):
    """A frame with one bit changed is none, whichever it is, and so is each front of one."""
    for binding, fault_of in (("i2c", i2c_fault), ("i3c", i3c_fault)):
        for frame in map(bytes.fromhex, BINDINGS[binding]):
            frames = list(changed_in_turn(frame))
            ran = run(["show", "--binding", binding, "--decode"], "".join(f"7 {it.hex()}\n" for it in frames))
            wanted = "".join(f"7 no frame: {fault_of(it)}\n" for it in frames)
            name = f"framed: {binding}, {len(frames)} changed frames"
            rows.check(name, ran.stdout == wanted.encode() and None not in map(fault_of, frames), repr(ran.stdout[:80]))
    frames = list(changed_in_turn(bytes.fromhex(SERIAL[0])))
    ran = run(["show", "--binding", "serial"], "".join(f"7 {it.hex()}\n" for it in frames))
    told = ran.stdout.decode().splitlines()
    well = len(told) == len(frames) and all(line.startswith("7 no frame: ") for line in told)
    rows.check(f"framed: serial, {len(frames)} changed frames", well, repr(ran.stdout[:80]))


def packets(rows, run):
    """What a frame carries is read as a packet: a short and a long one are dropped by name, parts are put together."""
    bare = lambda packet: bytes([0x3A, 0x0F, 1 + len(packet), 0x21]) + packet
    long = bytes.fromhex("010908c801") + bytes(249)
    for name, frame, line in (
        ("a packet of a byte", with_pec(bare(b"\x01")), "0 drop Short\n"),
        ("a packet without a payload", with_pec(bare(QUESTION[:4])), "0 drop NoPayload\n"),
        ("the longest packet", with_pec(bare(long)), "0 drop UnsupportedUnit\n"),
        ("another destination", with_pec(b"\xee" + bare(QUESTION)[1:]), f"0 {LINES[0]}{IN_HEX[0]}"),
    ):
        ran = run(["show", "--binding", "i2c"], f"0 {frame.hex()}\n")
        rows.check(f"framed: i2c, {name}", ran.stdout == line.encode(), repr(ran))
    escaped = serial_frame(bytes.fromhex("010908c801807d7e"))
    ran = run(["show", "--binding", "serial"], f"0 {escaped.hex()}\n")
    wanted = b"0 8>9 tag 0 to 1 som 1 eom 1 seq 0 len 4 whole\n  drop BadPldmHeader\n"
    rows.check("framed: serial, a packet with escapes", ran.stdout == wanted, repr(ran))
    parts = [QUESTION[:3] + bytes([flags]) + part for flags, part in ((0x88, QUESTION[4:6]), (0x58, QUESTION[6:]))]
    text = f"0 {with_pec(bare(parts[0])).hex()}\n1 {I2C[0][:-2]}00\n2 {with_pec(bare(parts[1])).hex()}\n"
    ran = run(["show", "--binding", "i2c"], text)
    wanted = (
        "0 8>9 tag 0 to 1 som 1 eom 0 seq 0 len 2 partial\n1 no frame: WrongPec\n"
        f"2 8>9 tag 0 to 1 som 0 eom 1 seq 1 len 2 whole\n{IN_HEX[0]}"
    )
    rows.check("framed: i2c, a message in two packets with no frame between", ran.stdout == wanted.encode(), repr(ran))


def command_lines(rows, run):
    """A binding that there is not, and one where none is taken."""
    refused = (["--binding", "spi"], ["--binding", ""], ["--binding=I2C"], ["--binding"])
    for words in (*(["show", *words] for words in refused), ["answer", "--binding=i2c"], ["run", "--binding=i2c"]):
        ran = run(words, "")
        well = ran.returncode == 2 and ran.stdout == b"" and b"'--binding" in ran.stderr
        rows.check(f"framed: refused words {words}", well, repr(ran))


def check(rows, run):
    assert check_sequence(bytes.fromhex(SERIAL[0])[1:-3]) == 0x0CA6
    for part in (conversations, faults, changed, packets, command_lines):
        part(rows, run)
