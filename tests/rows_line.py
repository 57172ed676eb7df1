"""Rows for `tests/check` over the line of `ask`, `walk` and `watch`: which is refused, how one ends, how it may be set,
and what is said while it is waited for."""
import fcntl
import os
import select
import shutil
import subprocess
import tempfile
import termios
import time
import tty

from rows_state import state
from support.askers import ENDS, TIMES, Place
from support.frames import frame
from support.programs import PIPES, SECONDS
from support.terminals import Terminal

SILENT = {**PIPES, "stdin": subprocess.DEVNULL}
ANSWER = frame(bytes.fromhex("010809c0010000020001"))
TID_IS_1 = b"  response 0 GetTID tid 1\n"
NOBODY = b"mctpctl: GetTID: no answer\n"

MISTAKEN = "may take a new request for a copy of an earlier one, not perform it, and send the earlier answer"

# The subcommands that ask, with the words after those of the line.
ASKING = (("ask", ("gettid",)), ("walk", ()), ("watch", ("--count", "1")))


def refused(rows, place):
    """What is no terminal, cannot be read, or is in use: its path and the reason, and nothing is waited for."""
    pipe = os.path.join(place.folder, "pipe")
    os.mkfifo(pipe)
    none = os.path.join(place.folder, "none")
    files = (
        ("a file", place.write("file", ""), "not a terminal"),
        ("a folder", place.folder, "not a terminal"),
        ("a pipe that nobody writes", pipe, "not a terminal"),
        ("no device of a terminal", "/dev/zero", "not a terminal"),
        ("nothing", none, "No such file or directory (os error 2)"),
        ("below a file", f"{place.device}/line", "Not a directory (os error 20)"),
    )
    for subcommand, words in ASKING:
        for name, path, reason in files:
            ran = place.run(subcommand, "--line", path, *ENDS, *words)
            rows.check(f"a line of {subcommand} that is {name}", ran == (3, b"", f"mctpctl: {path}: {reason}\n".encode()), repr(ran))
    with Terminal() as terminal:
        with open(terminal.name) as other:
            fcntl.flock(other, fcntl.LOCK_EX)
            ran = place.run("ask", "--line", terminal.name, *ENDS, "gettid")
        want = (3, b"", f"mctpctl: {terminal.name}: in use by another program\n".encode())
        rows.check("a line that another program holds", ran == want and terminal.read(0) == b"", repr(ran))
        first = subprocess.Popen([place.program, "ask", "--line", terminal.name, *ENDS, *TIMES, "gettid"], **SILENT)
        sent = terminal.read()
        ran = place.run("walk", "--line", terminal.name, *ENDS)
        rows.check("a line that another `ask` holds", ran == want, repr(ran))
        terminal.write(ANSWER)
        out, err = first.communicate(timeout=SECONDS)
        rows.check("it gets its answer", (out, err) == (TID_IS_1, b"") and sent != b"", repr((out, err)))
        fcntl.ioctl(terminal.its, termios.TIOCEXCL)
        if os.getuid() != 0:  # whom the system lets open it all the same
            ran = place.run("ask", "--line", terminal.name, *ENDS, "gettid")
            want = (3, b"", f"mctpctl: {terminal.name}: Device or resource busy (os error 16)\n".encode())
            rows.check("a line that is exclusive", ran == want, repr(ran))
        else:
            os.chmod(terminal.name, 0o600)
            with tempfile.TemporaryDirectory() as open_to_all:
                os.chmod(open_to_all, 0o755)
                other = Place(shutil.copy(place.program, open_to_all), open_to_all, "")
                nobody = {"user": 65534, "group": 65534, "extra_groups": []}
                ran = other.run("ask", "--line", terminal.name, *ENDS, "gettid", **nobody)
            want = (3, b"", f"mctpctl: {terminal.name}: Permission denied (os error 13)\n".encode())
            rows.check("a line that may not be read", ran == want, repr(ran))


def hung_up(rows, place):
    """A terminal that hangs up, before the first request and after it, ends each subcommand with its path."""
    for subcommand, words in ASKING:
        for name, after in (("before a request", False), ("after a request", True)):
            with Terminal() as terminal:
                words_ = [place.program, subcommand, "--line", terminal.name, *ENDS, *TIMES, *words]
                asking = subprocess.Popen(words_, **SILENT)
                if after:
                    terminal.read()
                else:
                    time.sleep(0.5)
                os.close(terminal.its)
                os.close(terminal.ours)
                terminal.its = terminal.ours = None
                out, err = asking.communicate(timeout=SECONDS)
            ran = (asking.returncode, out, err)
            want = (3, b"", f"mctpctl: {terminal.name}: the line ended\n".encode())
            rows.check(f"{subcommand} on a terminal that hangs up {name}", ran == want, repr(ran))


def settings(rows, place):
    """On a raw terminal whose reads end, a question is answered, and one without an answer ends."""
    for least, tenths in ((0, 0), (0, 1), (0, 2)):
        with Terminal() as terminal:
            how = termios.tcgetattr(terminal.its)
            how[6][termios.VMIN], how[6][termios.VTIME] = least, tenths
            termios.tcsetattr(terminal.its, termios.TCSANOW, how)
            served = place.serve(terminal)
            try:
                ran = place.run("ask", "--line", terminal.name, *ENDS, *TIMES, "gettid")
                nobody = place.run("ask", "--line", terminal.name, "--own", "8", "--device", "10", *TIMES, "gettid")
                ends = {"stdin": terminal.its, "stdout": terminal.its}
                on_input = place.run("ask", *ENDS, *TIMES, "gettid", **ends)
            finally:
                served.terminate()
                served.wait(timeout=SECONDS)
        name = f"min {least} time {tenths}"
        rows.check(f"an answer, {name}", ran == (0, TID_IS_1, b""), repr(ran))
        rows.check(f"no answer, {name}", nobody == (3, b"", NOBODY), repr(nobody))
        rows.check(f"an answer on standard input, {name}", (on_input[0], on_input[2]) == (0, TID_IS_1), repr(on_input))


def with_own_terminal(words, seconds=SECONDS, **how):
    """What a program writes to a terminal that is its standard error, when it has ended."""
    ours, its = os.openpty()
    tty.setraw(its)
    ran = subprocess.Popen(words, stdin=subprocess.DEVNULL, stderr=its, **how)
    os.close(its)
    said, end = b"", time.monotonic() + seconds
    while time.monotonic() < end and select.select([ours], [], [], seconds)[0]:
        try:
            said += os.read(ours, 4096)
        except OSError:
            break
    os.close(ours)
    ran.wait(timeout=SECONDS)
    return said.decode()


def waiting(rows, place):
    """On a terminal it is said what is waited for; where answers come at once, only the time that passes first."""
    for subcommand, words in ASKING:
        with Terminal() as terminal:
            times = ("--keep", "2000", "--timeout", "950", "--tries", "2")
            words_ = [place.program, subcommand, "--line", terminal.name, *ENDS, *times, *words]
            said = with_own_terminal(words_, stdout=subprocess.DEVNULL).splitlines()
            ran = place.run(*words_[1:])
        warned = f"mctpctl: warning: a device that keeps its answers for more than 2000 ms {MISTAKEN}"
        first = "mctpctl: 4 s pass first: late answers to earlier requests may still come"
        then = f"mctpctl: waiting for an answer on {terminal.name}; a terminal has to be raw: stty -F {terminal.name} raw -echo min 0 time 0"
        well = said[:3] == [warned, first, then] and then not in said[3:]
        rows.check(f"what {subcommand} waits for", well, repr(said))
        silent = all(word not in ran[2] for word in (b"warning", b"wait", b"pass"))
        rows.check(f"{subcommand} says nothing of it elsewhere", silent, repr(ran))
    with Terminal() as terminal:
        served = place.serve(terminal)
        words_ = [place.program, "ask", "--line", terminal.name, *ENDS, *TIMES, "gettid"]
        said = with_own_terminal(words_, stdout=subprocess.DEVNULL).splitlines()
        served.terminate()
        served.wait(timeout=SECONDS)
    warned = f"mctpctl: warning: a device that keeps its answers for more than 500 ms {MISTAKEN}"
    first = "mctpctl: 1 s pass first: late answers to earlier requests may still come"
    rows.check("an answer that comes is not waited for", said == [warned, first], repr(said))


def warned(rows, place):
    """On a terminal it is said what a device may do that keeps more than the options say, where that is not usual."""
    known = place.write("state", state(0, []))  # nothing was asked, so the first request goes out at once
    front = "mctpctl: warning: a device that keeps more than"
    for words, said in (
        (("--window", "8"), [f"{front} 8 answers, or for more than 6000 ms, {MISTAKEN}"]),
        (("--window", "31", "--keep", "1000"), [f"{front} 31 answers, or for more than 1000 ms, {MISTAKEN}"]),
        (("--window", "32", "--keep", "6000"), []),
        (("--lifetime", "250"), []),
    ):
        with Terminal() as terminal:
            served = place.serve(terminal)
            asked = [place.program, "ask", "--line", terminal.name, *ENDS, "--state", known, *words, "gettid"]
            heard = with_own_terminal(asked, stdout=subprocess.DEVNULL).splitlines()
            served.terminate()
            served.wait(timeout=SECONDS)
        rows.check(f"what is said of {words}", heard == said, repr(heard))


PARTS = (refused, hung_up, settings, waiting, warned)


def check(rows, program, device):
    """Checks each row over the program, with the description of this text."""
    with tempfile.TemporaryDirectory() as folder:
        place = Place(program, folder, device)
        for part in PARTS:
            part(rows, place)
