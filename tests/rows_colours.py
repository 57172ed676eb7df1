"""Rows for `tests/check` over colours: `show` and `watch` on a terminal, a pipe and a file."""
import os
import re
import select
import subprocess
import tempfile
import time
import tty

from rows_watch_command import SET
from support.askers import ENDS, TIMES, Place
from support.examples import text_of
from support.frames import frame
from support.lossy import LossyLine
from support.programs import SECONDS, run
from support.terminals import set_ticking

CHANGED, DROPPED = "33", "31"  # ECMA-48, "Select graphic rendition": yellow and red

# Effecter 1 has 40, then twice 50, then 50 at another device; sensor 1 has 10, then 11; a packet and a message are
# dropped, and an answer comes to no request. The fields are those of DSP0248; see `rows_decode.py`.

def packet(to, sender, first, message):
    """A packet to an endpoint: its flags and tag, and the message."""
    return bytes([1, to, sender, first]) + message


def asked(device, instance, command, fields):
    return packet(device, 8, 0xC8, bytes([1, 0x80 | instance, 2, command]) + fields)


def answered(device, instance, command, fields):
    return packet(8, device, 0xC0, bytes([1, instance, 2, command]) + fields)


def effecter(device, instance, value):
    """GetNumericEffecterValue of effecter 1, and its answer (DSP0248): uint8, enabled-noUpdatePending, twice the value."""
    yield asked(device, instance, 0x32, bytes.fromhex("0100"))
    yield answered(device, instance, 0x32, bytes([0, 0, 2, value, value]))


def sensor(instance, value):
    """GetSensorReading of sensor 1, and its answer: uint8, enabled, no events, normal."""
    yield asked(9, instance, 0x11, bytes.fromhex("010000"))
    yield answered(9, instance, 0x11, bytes([0, 0, 0, 0, 1, 1, 1, value]))


def capture():
    """The packets, and the colours of the lines that `show --decode` writes of each."""
    pairs = (
        (effecter(9, 1, 40), None),
        (sensor(2, 10), None),
        (effecter(9, 3, 50), CHANGED),
        (effecter(9, 4, 50), None),
        (effecter(10, 5, 40), None),
        (sensor(6, 11), CHANGED),
        (sensor(6, 11), None),
        (sensor(1, 10), CHANGED),
    )
    for (question, answer), colour in pairs:
        yield question, [None, None]
        yield answer, [None, colour]
    yield bytes.fromhex("0109"), [DROPPED]
    yield bytes.fromhex("010809c00100"), [None, DROPPED]


def on_terminal(words, text=None, environment=None, **how):
    """What a program writes to a terminal that is its standard output, when it has ended."""
    ours, its = os.openpty()
    tty.setraw(its)
    env = {**os.environ, "TERM": "xterm", **(environment or {})}
    env = {name: value for name, value in env.items() if name != "NO_COLOR" or environment}
    ran = subprocess.Popen(words, stdin=subprocess.PIPE, stdout=its, stderr=subprocess.PIPE, env=env, **how)
    os.close(its)
    ran.stdin.write(text or b"")
    ran.stdin.close()
    said, end = b"", time.monotonic() + SECONDS
    while time.monotonic() < end and select.select([ours], [], [], SECONDS)[0]:
        try:
            said += os.read(ours, 4096)
        except OSError:
            break
    os.close(ours)
    err = ran.stderr.read()
    return ran.wait(timeout=SECONDS), said.decode(), err


def colours_of(text):
    """Of each line its colour, if it has one: a code before it, and the reset after it."""
    found = []
    for line in text.splitlines():
        coloured = re.fullmatch(r"\x1b\[(\d+)m([^\x1b]*)\x1b\[0m", line)
        found.append(coloured[1] if coloured else None if "\x1b" not in line else line)
    return found


def plain_of(text):
    return re.sub(r"\x1b\[\d+m", "", text)


def shown(rows, place):
    packets = list(capture())
    text = "".join(f"{moment} {data.hex()}\n" for moment, (data, _) in enumerate(packets)).encode()
    words = [place.program, "show", "--decode"]
    piped = run(words, input=text)
    out = piped.stdout.decode()
    rows.check("no colour in a pipe", piped.returncode == 0 and "\x1b" not in out and "value 50" in out, repr(piped))
    with open(os.path.join(place.folder, "out"), "wb") as file:
        run(words, input=text, stdout=file)
    with open(os.path.join(place.folder, "out")) as file:
        rows.check("no colour in a file", file.read() == out)
    status, said, err = on_terminal(words, text)
    rows.check("a terminal has the same text", (status, plain_of(said), err) == (0, out, b""), repr((status, said, err)))
    want = [colour for _, lines in packets for colour in lines]
    rows.check("what changed and what was dropped", colours_of(said) == want, repr((colours_of(said), said)))
    for name, value, coloured in (("NO_COLOR", "1", False), ("NO_COLOR", "", True), ("TERM", "dumb", False)):
        status, said, err = on_terminal(words, text, {name: value})
        well = status == 0 and plain_of(said) == out and ("\x1b" in said) == coloured
        rows.check(f"{name}={value}", well, repr(said))
    status, said, _ = on_terminal([place.program, "show", "--binding", "serial"], b"0 0109\n1 7e\n")
    want = run([place.program, "show", "--binding", "serial"], input=b"0 0109\n1 7e\n").stdout.decode()
    well = plain_of(said) == want and colours_of(said) == [DROPPED] * len(said.splitlines())
    rows.check("what is no frame", well and want != "", repr((said, want)))


def watched(rows, place):
    """In the tables of `watch` the rows that are marked have a colour."""
    place.write("device.toml", text_of("openbmc.toml"))
    with LossyLine(10**9, 0) as line:
        set_ticking(line.ends[1])
        serve = [place.program, "serve", "--device", place.device]
        served = subprocess.Popen(serve, stdin=line.ends[0], stdout=line.ends[0], stderr=subprocess.DEVNULL)
        words = [place.program, "watch", "--line", line.name(1), *ENDS, *TIMES, "--every", "500", "--count", "6"]
        ours, its = os.openpty()
        tty.setraw(its)
        watching = subprocess.Popen(words, stdin=subprocess.DEVNULL, stdout=its, env={**os.environ, "TERM": "xterm", "NO_COLOR": ""})
        os.close(its)
        said, is_set = b"", False
        while True:
            if not is_set and said.count(b"\n\n") >= 2:
                is_set = True
                os.write(line.masters[0], frame(SET))
            try:
                said += os.read(ours, 4096)
            except OSError:
                break
        os.close(ours)
        watching.wait(timeout=SECONDS)
        served.kill()
        served.wait()
    lines = said.decode().splitlines()
    marked = [line for line in lines if plain_of(line).startswith("* ")]
    coloured = [line for line in lines if "\x1b" in line]
    well = marked == coloured and colours_of("\n".join(marked)) == [CHANGED] and len(lines) > 12
    rows.check("watched: a change has a colour", well, repr((marked, coloured, len(lines))))


PARTS = (shown, watched)


def check(rows, program, device):
    """Checks each row over the program, with the description of this text."""
    with tempfile.TemporaryDirectory() as folder:
        place = Place(program, folder, device)
        for part in PARTS:
            part(rows, place)
