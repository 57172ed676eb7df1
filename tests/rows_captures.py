"""Rows for `tests/check` over contrib/pcap and contrib/conversation. `check` is the public function.

The files that are read here are made here, by `struct`; what comes out is compared by rules of this module's own.
"""
import os
import re
import signal
import struct
import subprocess
import sys
import tempfile
import threading

from support import programs
from support.examples import EXAMPLES, ROOT, bytes_of, text_of
from support.programs import PIPES, SECONDS

PYTHON = (sys.executable, "-S")
LINKS = (113, 276)
MICROSECONDS, NANOSECONDS = 0xA1B2C3D4, 0xA1B23C4D
RESOLUTION, OFFSET = 9, 14
MCTP, IPV4 = 0x00FA, 0x0800
QUESTION, ANSWER = "010908c801800002", "010809c0010000020001"
START, END = "0108098001000251", "0108095000"
ASKED = f"#+ 0.500 ms\n7 {QUESTION}\n"
TIMED = f"{ASKED}#+ 0.500 ms\n7 {ANSWER}\n"

# inputs, outputs, and the captures that contrib/conversation makes of them
FITS = (
    ("an empty one", "", "", ""),
    ("a bare capture", f"7 {QUESTION}\n", f"{ANSWER}\n", f"7 {QUESTION}\n7 {ANSWER}\n"),
    ("an answer in two packets", f"7 {QUESTION}", f"{START}\n{END}\n", f"7 {QUESTION}\n7 {START}\n7 {END}\n"),
    ("a fraction", ASKED, f"{ANSWER}\n", TIMED),
    ("a fraction, then none", f"{ASKED}8 {QUESTION}\n", f"{ANSWER}\n{ANSWER}\n", f"{TIMED}8 {QUESTION}\n8 {ANSWER}\n"),
    ("a drop", f"# why\n\n7\n8 {QUESTION}\n", "drop Short\npartial\n", f"# why\n\n7\n# drop Short\n8 {QUESTION}\n"),
    ("CR", f"eid = 9\r\n%%\r\n7 {QUESTION}\r\n", f"{ANSWER}\n", f"7 {QUESTION}\r\n7 {ANSWER}\n"),
)

# inputs, and outputs that do not fit them
MISFITS = (
    ("no output", ASKED, ""),
    ("a line too few", ASKED * 2, f"{ANSWER}\n"),
    ("a line too many", ASKED, f"{ANSWER}\ndrop BadTag\n"),
    ("an output that breaks off", ASKED, ANSWER),
    ("an answer that breaks off", ASKED, f"{START}\n"),
    ("an answer that a drop breaks off", ASKED, f"{START}\ndrop BadTag\n"),
    ("an answer without its first packet", ASKED, f"{END}\n"),
    ("an answer without its second packet", ASKED, f"{START}\n0108096000\n"),
    ("an answer to another endpoint", ASKED, "010a09c0010000020001\n"),
    ("an answer from another endpoint", ASKED, "01080ac0010000020001\n"),
    ("an answer on another tag", ASKED, "010809c1010000020001\n"),
    ("a request for an answer", ASKED, "010809c8010000020001\n"),
    ("an answer to a packet of two bytes", "7 0109\n", f"{ANSWER}\n"),
    ("an answer of six packets", ASKED, "".join(f"010809{flags}01\n" for flags in "80 10 20 30 00 50".split())),
    ("a blank line", ASKED, "\n"),
    ("an input that is none", "x\n", f"{ANSWER}\n"),
)


def run(tool, *words, data=b"", output=subprocess.PIPE):
    """Runs a script with the standard library alone, which is what it is to do with, and starts sooner."""
    return programs.run([*PYTHON, tool, *words], input=data, stdout=output)


def told(ran):
    """What a run left behind, for a row that failed."""
    return f"status {ran.returncode}, {(ran.stdout or b'')[:80]!r}, {ran.stderr[:200]!r}"


def refused(ran, name):
    """Whether a run ended with status 1 and one line of its own on standard error."""
    line = rf"{name}: [^\n]+\n".encode()
    return ran.returncode == 1 and re.fullmatch(line, ran.stderr) is not None


def packets_of(text):
    """The moment and the packet of each line of a capture, or of an input with a description before it."""
    lines = [line.split() for line in text.split("\n%%\n")[-1].splitlines()]
    return [(int(words[0]), "".join(words[1:]).lower()) for words in lines if words and not words[0].startswith("#")]


def cooked(link, packet, protocol=MCTP):
    """A frame as Linux hands it out."""
    if link == 113:
        return struct.pack(">HHHQH", 0, 290, 0, 0, protocol) + bytes.fromhex(packet)
    return struct.pack(">HHIHBBQ", protocol, 0, 0, 290, 0, 0, 0) + bytes.fromhex(packet)


def classic(order, magic, link, *records):
    """A pcap file; a record is its seconds, the parts of a second, and the frame."""
    front = struct.pack(order + "IHHiIII", magic, 2, 4, 0, 0, 262144, link)
    parts = [struct.pack(order + "IIII", *time, len(frame), len(frame)) + frame for *time, frame in records]
    return front + b"".join(parts)


def block(order, kind, body):
    length = len(body) + -len(body) % 4 + 12
    return struct.pack(order + "II", kind, length) + body.ljust(length - 12, b"\0") + struct.pack(order + "I", length)


def section(order):
    return block(order, 0x0A0D0D0A, struct.pack(order + "IHHq", 0x1A2B3C4D, 1, 0, -1))


def interface(order, link, *options):
    """The description of an interface; an option is its number and its value."""
    body = struct.pack(order + "HHI", link, 0, 262144)
    for code, value in options:
        body += struct.pack(order + "HH", code, len(value)) + value.ljust(len(value) + -len(value) % 4, b"\0")
    return block(order, 1, body + (bytes(4) if options else b""))


def timed(order, number, ticks, frame, whole=None):
    """A packet of an interface, in an enhanced packet block."""
    head = (number, ticks >> 32, ticks & 0xFFFFFFFF, len(frame), len(frame) if whole is None else whole)
    return block(order, 6, struct.pack(order + "IIIII", *head) + frame)


def reads(rows, name, pcap, data, capture, note=""):
    """A row: the file is read as the capture, with the words of the note on standard error."""
    ran = run(pcap, "read", data=data)
    noted = re.fullmatch(note, ran.stderr.decode()) is not None
    rows.check(f"pcap read: {name}", ran.returncode == 0 and ran.stdout.decode() == capture and noted, told(ran))


def round_trips(rows, pcap):
    """Each example is written and read again."""
    for name in sorted(os.listdir(EXAMPLES)):
        if not name.endswith((".capture", ".txt")):
            continue
        text = bytes_of(name)
        for link in LINKS:
            wrote = run(pcap, "write", "--link", str(link), data=text)
            ran = run(pcap, "read", data=wrote.stdout)
            well = (wrote.returncode, wrote.stderr, ran.returncode, ran.stderr) == (0, b"", 0, b"")
            well = well and wrote.stdout[20:24] == struct.pack("<I", link)
            well = well and packets_of(ran.stdout.decode()) == packets_of(text.decode())
            rows.check(f"pcap with link type {link}: {name}", well, told(ran))


def written_files(rows, pcap):
    """What is written, byte for byte, and what is refused."""
    text = f"1500 {QUESTION}\n\n# none\n  1501   {ANSWER.upper()} \r\n4294967295999"
    times = ((1, 500_000, QUESTION), (1, 501_000, ANSWER), (2**32 - 1, 999_000, ""))
    for words, link in (([], 113), (["--link", "113"], 113), (["--link", "276"], 276)):
        ran = run(pcap, "write", *words, data=text.encode())
        want = classic("<", MICROSECONDS, link, *((*time, cooked(link, packet)) for *time, packet in times))
        rows.check(f"pcap write {' '.join(words)}: its bytes", (ran.returncode, ran.stdout) == (0, want), told(ran))
    faults = ("x", "-1", "+1", "1_0", "5 0", "5 zz", "5 01 02", "5 01\t02", "12345678901234567", "4294967296000")
    for line in faults:
        ran = run(pcap, "write", data=f"%%\n0\n{line}\n".encode())
        well = refused(ran, "pcap") and b"line 2" in ran.stderr and ran.stdout == b""
        rows.check(f"pcap write refuses {line!r}", well, told(ran))


def fractions(rows, pcap):
    """Fractions of a millisecond are written and read; the file has nanoseconds only where it has to."""
    for magic, unit, digits in ((MICROSECONDS, 1_000, "045"), (NANOSECONDS, 1, "045678")):
        text = f"#+ 0.{digits} ms\n12 {QUESTION}\n12 {ANSWER}\n#+ 0.{digits} ms\n13 {ANSWER}\n".encode()
        fine, twelve, thirteen = 45_678 // unit, 12_000_000 // unit, 13_000_000 // unit
        times = ((twelve + fine, QUESTION), (twelve, ANSWER), (thirteen + fine, ANSWER))
        for link in LINKS:
            want = classic("<", magic, link, *((0, parts, cooked(link, packet)) for parts, packet in times))
            wrote, ran = run(pcap, "write", "--link", str(link), data=text), run(pcap, "read", data=want)
            rows.check(f"pcap write {link}: fractions of {len(digits)} digits", wrote.stdout == want, told(wrote))
            rows.check(f"pcap read {link}: fractions of {len(digits)} digits", ran.stdout == text, told(ran))


def classic_files(rows, pcap):
    """Files of either byte order and unit; a time that goes back; another protocol."""
    for order in "<>":
        for magic, parts in ((MICROSECONDS, 123_456), (NANOSECONDS, 123_456_000)):
            for link in LINKS:
                frames = ((1_700_000_000, parts, cooked(link, QUESTION)), (1_700_000_001, 0, cooked(link, "")))
                data = classic(order, magic, link, *frames)
                want = f"#+ 0.456 ms\n1700000000123 {QUESTION}\n1700000001000\n"
                reads(rows, f"{order} {magic:x} {link}", pcap, data, want)
    other = (2, 0, cooked(276, "45", IPV4))
    late, early, same, last = ((0, micros, cooked(276, QUESTION)) for micros in (5_700, 3_000, 5_100, 6_000))
    data = classic("<", MICROSECONDS, 276, other, late, early, same, early, last)
    first, second = f"#+ 0.700 ms\n5 {QUESTION}\n", f"#+ 0.100 ms\n5 {QUESTION}\n"
    notes = r"pcap: [^\n]*protocols[^\n]* 1\npcap: [^\n]*went back[^\n]* 2\n"
    reads(rows, "a time that goes back", pcap, data, f"{first}{first}{second}{first}6 {QUESTION}\n", notes)


def refused_files(rows, pcap):
    """Files that break off, and others that are refused. What stands before the fault is read."""
    short = struct.pack("<IIII", 0, 0, 24, 25) + cooked(113, QUESTION)
    whole = classic("<", MICROSECONDS, 113, (0, 0, cooked(113, QUESTION)))
    huge = struct.pack("<IIII", 0, 0, 2**32 - 1, 2**32 - 1)
    faults = {"a packet that is cut": whole + short, "a packet of 4 GiB": whole + huge}
    faults |= {f"a file of {length} bytes": (whole + whole[24:])[:length] for length in (0, 3, 4, 23, 65, 79, 80, 103)}
    for name, data in (faults | {"a file of another link type": classic("<", MICROSECONDS, 1)}).items():
        ran = run(pcap, "read", data=data)
        before = f"0 {QUESTION}\n".encode() if len(data) > 64 else b""
        rows.check(f"pcap read refuses {name}", refused(ran, "pcap") and ran.stdout == before, told(ran))


def pcapng_times(rows, pcap):
    """Files in pcapng, of either byte order, with each option of a time."""
    for order in "<>":
        nine, back = (RESOLUTION, b"\x09"), (OFFSET, struct.pack(order + "q", -1_000))
        forms = (
            ("microseconds", (), 1_700_000_000_123_456, "#+ 0.456 ms\n1700000000123"),
            ("nanoseconds", (nine,), 1_700_000_000_123_456_789, "#+ 0.456789 ms\n1700000000123"),
            ("1024ths", ((RESOLUTION, b"\x8a"),), 1_700_000_000 * 1024 + 1, "#+ 0.976562 ms\n1700000000000"),
            ("an offset", ((2, b"a name"), nine, back), 1_001_000_000_000, "1000"),
        )
        for link in LINKS:
            for name, options, ticks, moment in forms:
                front = section(order) + interface(order, link, *options)
                data = front + timed(order, 0, ticks, cooked(link, QUESTION))
                reads(rows, f"pcapng {order} {link}, {name}", pcap, data, f"{moment} {QUESTION}\n")


def pcapng_parts(rows, pcap):
    """A file in pcapng of two sections and several interfaces, with something of everything that is left out."""
    data = section("<") + interface("<", 1) + interface("<", 113) + interface("<", 276, (RESOLUTION, b"\x03"))
    data += timed("<", 2, 7, cooked(276, QUESTION)) + timed("<", 1, 3_000, cooked(113, ANSWER))
    data += timed("<", 0, 7, bytes(60)) + timed("<", 1, 7_000, cooked(113, "45", IPV4))
    data += block("<", 3, struct.pack("<I", 24) + cooked(113, QUESTION)) + block("<", 0xBAD, b"unknown")
    old = struct.pack(">HHIIII", 0, 0, 0, 9_000, 26, 26) + cooked(113, ANSWER)
    data += section(">") + interface(">", 113) + timed(">", 0, 8_000, cooked(113, QUESTION)) + block(">", 2, old)
    capture = f"7 {QUESTION}\n7 {ANSWER}\n8 {QUESTION}\n9 {ANSWER}\n"
    words = ("went back", "link types", "protocols", "without a time")
    notes = "".join(rf"pcap: [^\n]*{word}[^\n]*: 1\n" for word in words)
    reads(rows, "pcapng of two sections", pcap, data, capture, notes)


def refused_pcapng(rows, pcap):
    """Files in pcapng that break off or are wrong in themselves."""
    front, question = section("<") + interface("<", 113), cooked(113, QUESTION)
    early = section("<") + interface("<", 113, (OFFSET, b"\xff" * 8))
    faults = {
        "a cut packet": front + timed("<", 0, 0, question, 25),
        "no interface": section("<") + timed("<", 0, 0, question),
        "a block of 8 bytes": front + struct.pack("<III", 6, 8, 8),
        "two lengths": front[:-4] + bytes(4),
        "a packet block that is too short": front + block("<", 6, bytes(16)),
        "a time before 1970": early + timed("<", 0, 0, question),
        "a time past the last moment": front + timed("<", 0, 2**64 - 1, question),
    }
    faults |= {f"its end after {length} bytes": front[:length] for length in (4, 8, 12, 27, 30, 47)}
    for name, data in faults.items():
        ran = run(pcap, "read", data=data)
        rows.check(f"pcap read refuses pcapng with {name}", refused(ran, "pcap") and ran.stdout == b"", told(ran))


def command_lines(rows, pcap, conversation):
    """Help and refused words of both scripts."""
    for tool in (pcap, conversation):
        name = os.path.basename(tool)
        rows.check(f"{name} is executable", os.access(tool, os.X_OK), tool)
        for word in ("--help", "-h"):
            ran = run(tool, word)
            well = (ran.returncode, ran.stderr) == (0, b"") and f"contrib/{name}".encode() in ran.stdout
            rows.check(f"{name} {word}", well, told(ran))
    wrong = {
        pcap: ("", "other", "write x", "write --link", "write --link 1", "read --link 113"),
        conversation: ("", "a", "a b c", "--other b"),
    }
    for tool, lines in wrong.items():
        for line in lines:
            ran = run(tool, *line.split())
            well = (ran.returncode, ran.stdout) == (2, b"") and b"Usage:" in ran.stderr
            rows.check(f"refused words: {os.path.basename(tool)} {line}", well, told(ran))


def closed_pipes(rows, pcap, conversation):
    """A pipe that is closed ends a script without a word; a write that fails is reported in one line."""
    records = os.path.join(EXAMPLES, "records")
    commands = (
        ([pcap, "write"], f"0 {QUESTION}\n".encode()),
        ([pcap, "read"], classic("<", MICROSECONDS, 113, (0, 0, cooked(113, QUESTION)))),
        ([pcap, "--help"], b""),
        ([conversation, records + ".txt", records + ".expected"], b""),
        ([conversation, "--help"], b""),
    )
    for command, data in commands:
        name = " ".join(os.path.basename(word) for word in command)
        reader, writer = os.pipe()
        os.close(reader)
        ran = run(*command, data=data, output=writer)
        os.close(writer)
        rows.check(f"closed pipe: {name}", ran.returncode != 0 and ran.stderr == b"", told(ran))
        if "--help" not in command and os.path.exists("/dev/full"):
            with open("/dev/full", "wb") as full:
                ran = run(*command, data=data, output=full)
            rows.check(f"a write that fails: {name}", refused(ran, os.path.basename(command[0])), told(ran))


def interrupt(rows, pcap):
    """A packet is read as soon as it has come through a pipe that stays open; then an interrupt ends the script."""
    program = subprocess.Popen([*PYTHON, pcap, "read"], bufsize=0, **PIPES)
    limit = threading.Timer(SECONDS, program.kill)
    limit.start()
    program.stdin.write(classic("<", MICROSECONDS, 113, (0, 0, cooked(113, QUESTION))))
    line = program.stdout.readline()
    program.send_signal(signal.SIGINT)
    rest = program.communicate()
    limit.cancel()
    well = line == f"0 {QUESTION}\n".encode() and rest == (b"", b"") and program.returncode != 0
    rows.check("pcap read: a line through an open pipe, then an interrupt", well, f"{line!r}, {rest!r}")


def told_apart(text, capture):
    """The packets of the input and the output of `mctpctl answer`, made again from a joined capture.

    An answer's packet comes from the device and has TO 0; no packet of the examples' inputs is like that.
    """
    device = re.search(r"^eid *= *(\d+)", text, re.M)[1]
    asked, results = [], []
    for line in capture.splitlines():
        words = [*line.split(), "", ""]
        packet = bytes.fromhex(words[1]) if words[0].isdigit() else b""
        if words[:2] == ["#", "drop"]:
            results[-1].append(line.removeprefix("# "))
        elif len(packet) > 3 and packet[2] == int(device) and not packet[3] & 8:
            same = int(words[0]) == asked[-1][0]
            results[-1].append(words[1] if same else f"{line} is at another moment")
        elif words[0].isdigit():
            asked.append((int(words[0]), packet.hex()))
            results.append([])
    return asked, "".join(f"{line}\n" for result in results for line in result or ["partial"])


def joined_examples(rows, pcap, conversation):
    """Each example's input is joined with its output; both are found again in what comes of it."""
    for name in sorted(os.listdir(EXAMPLES)):
        stem, ending = os.path.splitext(name)
        if ending != ".txt":
            continue
        expected = f"{stem}.expected"
        text, output = text_of(name), text_of(expected)
        ran = run(conversation, os.path.join(EXAMPLES, name), os.path.join(EXAMPLES, expected))
        asked, made = told_apart(text, ran.stdout.decode())
        well = (ran.returncode, ran.stderr) == (0, b"") and asked == packets_of(text) and made == output
        rows.check(f"conversation: {name}", well, told(ran))
        back = run(pcap, "read", data=run(pcap, "write", data=ran.stdout).stdout)
        well = packets_of(back.stdout.decode()) == packets_of(ran.stdout.decode())
        rows.check(f"conversation through pcap: {name}", well, told(back))


def small_conversations(rows, conversation):
    """Each row of FITS gives the capture beside it, and each row of MISFITS is refused."""
    with tempfile.TemporaryDirectory() as room:
        files = [os.path.join(room, name) for name in ("input", "output")]
        for name, *texts in (*FITS, *MISFITS):
            for path, text in zip(files, texts):
                with open(path, "wb") as target:
                    target.write(text.encode())
            ran = run(conversation, *files)
            if len(texts) == 3:
                well = (ran.returncode, ran.stdout, ran.stderr) == (0, texts[2].encode(), b"")
                rows.check(f"conversation: {name}", well, told(ran))
            else:
                well = refused(ran, "conversation") and ran.stdout == b""
                rows.check(f"conversation refuses: {name}", well, told(ran))
        ran = run(conversation, files[0], os.path.join(room, "none"))
        rows.check("conversation refuses: no such file", refused(ran, "conversation"), told(ran))


def truncated_examples(rows, conversation):
    """The output of an example without its last line, or without its last byte, is refused."""
    source = os.path.join(EXAMPLES, "records.txt")
    output = bytes_of("records.expected")
    for name, less in (("line", output[: output.rindex(b"\n", 0, -1) + 1]), ("byte", output[:-1])):
        ran = run(conversation, source, "/dev/stdin", data=less)
        well = refused(ran, "conversation") and ran.stdout == b""
        rows.check(f"conversation refuses: an output without its last {name}", well, told(ran))


def check(rows):
    """Runs all rows; `rows.check(name, well, why)` counts one."""
    pcap, conversation = (os.path.join(ROOT, "contrib", name) for name in ("pcap", "conversation"))
    round_trips(rows, pcap)
    for part in (written_files, fractions, classic_files, refused_files, pcapng_times, pcapng_parts, refused_pcapng):
        part(rows, pcap)
    command_lines(rows, pcap, conversation)
    closed_pipes(rows, pcap, conversation)
    interrupt(rows, pcap)
    joined_examples(rows, pcap, conversation)
    small_conversations(rows, conversation)
    truncated_examples(rows, conversation)
