"""Rows for `tests/check` over `watch`: the device that `serve` serves is at the other end of a line, on which another
endpoint sets an effecter meanwhile. The tables are those of `rows_walk_command.py`."""
import os
import re
import subprocess
import tempfile
import time
from xml.etree import ElementTree

from rows_walk_command import BOARD, OPENBMC, columns
from support.askers import ENDS, TIMES, Place
from support.examples import ROOT, text_of
from support.frames import frame
from support.lossy import LossyLine
from support.programs import PIPES, SECONDS, run
from support.terminals import Terminal, set_ticking

SVG = "{http://www.w3.org/2000/svg}"

# Endpoint 10 sets effecter 1 to 70, of 8 bits (DSP0248, "SetNumericEffecterValue command").
SET = bytes.fromhex("01090ac801800231010000" + "46")


def periods_of(printed):
    """Of each period the moment and the lines of its table."""
    parts = [part.splitlines() for part in printed.decode().split("\n\n")[:-1]]
    return [(int(re.fullmatch(r"(\d+) ms", part[0])[1]), part[1:]) for part in parts]


def watched(rows, place):
    place.write("device.toml", text_of("board.toml"))
    log = os.path.join(place.folder, "readings")
    ran = place.served("watch", *ENDS, *TIMES, "--every", "300", "--count", "3", "--log", log)
    periods = periods_of(ran[1])
    table = [f"  {line}" for line in columns(BOARD).splitlines()]
    well = (ran[0], ran[2]) == (0, b"") and [lines for _, lines in periods] == [table] * 3
    rows.check("watched: three periods of a board", well, repr(ran))
    moments = [moment for moment, _ in periods]
    steps = [later - moment for moment, later in zip(moments, moments[1:])]
    # None begins before it is to, but for the step of a clock. 32 commands are asked in a second at most, and the walk
    # and the first period have more.
    well = all(moment - moments[0] >= 300 * number - 20 for number, moment in enumerate(moments))
    well = well and all(step < 3000 for step in steps)
    rows.check("watched: as long as they are said to be", well, repr(moments))
    want = "".join(f'{moment},{what},"{name}","{value}"\n' for moment in moments for what, name, value, _ in BOARD)
    with open(log) as file:
        found = file.read()
    rows.check("watched: the readings of a log", found == want, repr(found))


def changed(rows, place):
    """What another endpoint sets is marked in the period after it, and in that one alone."""
    place.write("device.toml", text_of("openbmc.toml"))
    with LossyLine(10**9, 0) as line:
        set_ticking(line.ends[1])
        serve = [place.program, "serve", "--device", place.device]
        served = subprocess.Popen(serve, stdin=line.ends[0], stdout=line.ends[0], stderr=subprocess.DEVNULL)
        words = [place.program, "watch", "--line", line.name(1), *ENDS, *TIMES, "--every", "400", "--count", "6"]
        watching = subprocess.Popen(words, **PIPES)
        out = b""
        while out.count(b"\n\n") < 2 and (more := os.read(watching.stdout.fileno(), 4096)):
            out += more
        time.sleep(0.1)
        os.write(line.masters[0], frame(SET))
        rest, err = watching.communicate(timeout=SECONDS)
        served.kill()
        served.wait()
    marks = ["".join(row[0] for row in lines) for _, lines in periods_of(out + rest)]
    well = (err, sorted(marks)) == (b"", ["  "] * 5 + [" *"])
    rows.check("watched: a change is marked once", well, repr((marks, err)))
    last = periods_of(out + rest)[-1][1]
    want = columns((OPENBMC[0], (*OPENBMC[1][:2], "70 %", OPENBMC[1][3]))).splitlines()
    rows.check("watched: the value that was set", [row[2:] for row in last] == want, repr(last))


def flat(rows, place):
    """After 400 periods it holds no more memory than after 50, give or take 16 pages."""
    place.write("device.toml", text_of("openbmc.toml").replace("keep_ms = 6000", "keep_ms = 100"))
    times = ("--keep", "100", "--timeout", "50", "--tries", "2", "--every", "0", "--count", "420")
    with Terminal() as terminal:
        served = place.serve(terminal)
        words = [place.program, "watch", "--line", terminal.name, *ENDS, *times]
        watching = subprocess.Popen(words, stdout=subprocess.PIPE, stderr=subprocess.DEVNULL)
        held, periods = [], 0
        for wanted in (50, 400):
            while periods < wanted and (line := watching.stdout.readline()):
                periods += line.endswith(b" ms\n")
            with open(f"/proc/{watching.pid}/status") as status:
                held += [int(line.split()[1]) for line in status if line.startswith("VmRSS:")]
        watching.communicate(timeout=SECONDS)
        served.kill()
        served.wait()
    well = periods == 400 and len(held) == 2 and held[1] - held[0] <= 64
    rows.check("watched: its memory stays flat", well, repr((periods, held)))


def refused(rows, place):
    for name, words in (
        ("a period that is no number", ("--every", "x")),
        ("a period of more than a day", ("--every", "86400001")),
        ("a count that is no number", ("--count", "-1")),
    ):
        status, out, err = place.run("watch", *ENDS, f"{words[0]}={words[1]}")
        well = (status, out) == (2, b"") and err.startswith(f"error: invalid value for '{words[0]} <".encode())
        rows.check(f"watched: {name}", well, repr(err))
    path = os.path.join(place.folder, "none", "readings")
    status, out, err = place.served("watch", *ENDS, *TIMES, "--count", "1", "--log", path)
    want = f"mctpctl: {path}: No such file or directory (os error 2)\n".encode()
    rows.check("watched: a log that cannot be made", (status, out, err) == (3, b"", want), repr((status, out, err)))
    ran = place.run("watch", "--line", "/dev/null", *ENDS, *TIMES)
    rows.check("watched: no terminal", ran == (3, b"", b"mctpctl: /dev/null: not a terminal\n"), repr(ran))
    place.write("device.toml", text_of("openbmc.toml"))
    ran = place.run("watch", "--line", "/dev/null", *ENDS, *TIMES, "--count", "0")
    want = (0, b"", b"mctpctl: --count 0: no period, so nothing is asked\n")
    rows.check("watched: no period", ran == want, repr(ran))
    began = time.monotonic()
    ran = place.served("watch", "--own", "8", "--device", "10", *TIMES)
    want = (3, b"", b"mctpctl: GetTID: no answer\n")
    rows.check("watched: nobody", ran == want and time.monotonic() - began < 4, repr(ran))


# Three moments: a value that goes up and half down, one that is missed once, and two fields of one sensor.
LOG = """\
1000,sensor 1,"Fan <1>","10 rpm"
1000,sensor 2,"-","state 1 (set 260: 1, 5)"
1000,sensor 3,"-","state 1 (set 0: 0, 1)"
1000,sensor 3,"-","state 2 (set 0: 1, 2)"
2000,sensor 1,"Fan <1>","20 rpm"
2000,sensor 2,"-","-"
2000,sensor 3,"-","state 1 (set 0: 0, 1)"
2000,sensor 3,"-","state 1 (set 0: 1, 2)"
3000,sensor 1,"Fan <1>","15 rpm"
3000,sensor 2,"-","state 5 (set 260: 1, 5)"
3000,sensor 3,"-","state 1 (set 0: 0, 1)"
3000,sensor 3,"-","state 2 (set 0: 1, 2)"
"""
LINES = [
    "240.0,90.0 640.0,90.0 640.0,30.0 1040.0,30.0 1040.0,60.0",
    *("240.0,174.0", "1040.0,114.0"),
    "240.0,258.0 640.0,258.0 1040.0,258.0",
    "240.0,282.0 640.0,282.0 640.0,342.0 1040.0,342.0 1040.0,282.0",
]
LABELS = ["Fan <1>", "sensor 1", "sensor 2", "sensor 3, field 0", "sensor 3, field 1"]


def plotted(rows, place):
    """The drawing of a log: panels of 800 by 60 pixels, 84 apart, the first at 240, 30. A value stays until the next."""
    plot = os.path.join(ROOT, "contrib", "plot")
    ran = run([plot, place.write("readings", LOG)])
    drawn = [it.get("points") for it in ElementTree.fromstring(ran.stdout).iter(f"{SVG}polyline")]
    rows.check("plotted: the readings of a log", (ran.returncode, drawn, ran.stderr) == (0, LINES, b""), repr(drawn))
    texts = [it.text for it in ElementTree.fromstring(ran.stdout).iter(f"{SVG}text") if it.get("x") == "10"]
    rows.check("plotted: the names", texts == LABELS, repr(texts))
    ran = run([plot, place.write("readings", "1000,sensor 1\n")])
    well = (ran.returncode, ran.stdout, ran.stderr) == (1, b"", b"plot: line 1: 1000,sensor 1\n")
    rows.check("plotted: a file that is no log", well, repr(ran))


PARTS = (watched, changed, flat, refused, plotted)


def check(rows, program, device):
    """Checks each row over the program."""
    with tempfile.TemporaryDirectory() as folder:
        place = Place(program, folder, device)
        for part in PARTS:
            part(rows, place)
