"""The wrapper `mctpctl` and `install`, in a folder of their own in which the given program stands as the proved one."""
import os
import select
import shutil
import signal
import subprocess
import tempfile
import termios

from support.askers import ENDS, TIMES
from support.examples import ROOT
from support.frames import frame
from support.programs import SECONDS, run
from support.terminals import Terminal

TAKEN = (
    *("mctpctl", "prove", "install", "crates.txt", "HANDLES", "contrib/proved.sh", "docs/mctpctl.1"),
    *("contrib/packaging/put", "contrib/packaging/trees.py", "contrib/packaging/completions.py", "examples/device.toml"),
    *("contrib/packaging/mctpctl.in", "contrib/packaging/set_line.sh"),
)
PUT = (
    *("bin/mctpctl", "share/man/man1/mctpctl.1", "share/bash-completion/completions/mctpctl"),
    "libexec/needleoat/mctpctl",
    *("share/zsh/site-functions/_mctpctl", "share/fish/vendor_completions.d/mctpctl.fish"),
)
STAMP = 'root=$1; . "$root/contrib/proved.sh"; printf "%s\\n%s\\n" "$(content_of_sources)" "$(times_of_sources)" >"$stamp"'
SOURCE = "crates/mctpctl/src/main.rt"
QUESTION, ANSWER = bytes.fromhex("010908c801800002"), bytes.fromhex("010809c0010000020001")
TID_IS_1, NOBODY = "  response 0 GetTID tid 1\n", "mctpctl: GetTID: no answer\n"
ASK = ("ask", *ENDS, *TIMES, "gettid")
COOKED = termios.ICANON | termios.ECHO
SPEED = termios.B57600  # not that of a new terminal


def call(words, text="", **how):
    return run(words, input=text, text=True, **how)


def make(top, program):
    """A folder with the scripts, one source, the program, and the stamp that says it is of that source."""
    for name in TAKEN:
        os.makedirs(os.path.dirname(os.path.join(top, name)), exist_ok=True)
        shutil.copy2(os.path.join(ROOT, name), os.path.join(top, name))
    for name in (SOURCE, "crates/mctpctl/out/mctpctl"):
        os.makedirs(os.path.dirname(os.path.join(top, name)), exist_ok=True)
    with open(os.path.join(top, SOURCE), "w") as source:
        source.write("// a source\n")
    shutil.copy2(program, os.path.join(top, "crates/mctpctl/out/mctpctl"))
    call(["bash", "-c", STAMP, "stamp", top])


def files(rows, top):
    """Files in place of standard input."""
    with open(os.path.join(top, "capture"), "w") as capture:
        capture.write("0 010908c801800002\n")
    with open(os.path.join(top, "schedule"), "w") as schedule:
        schedule.write("requester 8 timeout 200 tries 3\nat 0 open 8 gettid\nat 0 req 0\n")
    device, capture, schedule = (os.path.join(top, name) for name in ("examples/device.toml", "capture", "schedule"))
    wrapper = os.path.join(top, "mctpctl")
    ran = call([wrapper, "answer", device, capture])
    rows.check("a description and a capture as files", (ran.returncode, ran.stdout) == (0, "010809c0010000020001\n"), repr(ran))
    ran = call([wrapper, "run", device, schedule])
    rows.check("a description and a schedule as files", ran.returncode == 0 and ran.stdout.startswith("0 opened 0\n"), repr(ran))
    ran = call([wrapper, "show", capture])
    rows.check("a capture as a file", ran.returncode == 0 and "request 0 GetTID - ok" in ran.stdout, repr(ran))
    ran = call([wrapper, "show", "--decode", capture])
    rows.check("a flag and a capture as a file", ran.returncode == 0 and "  request 0 GetTID\n" in ran.stdout, repr(ran))
    framed = os.path.join(top, "framed")
    with open(framed, "w") as capture_of_frames:
        capture_of_frames.write("0 3a0f0921010908c801800002ca\n")
    for words in (["--binding", "i2c"], ["--binding=i2c"]):
        ran = call([wrapper, "show", *words, "--decode", framed])
        rows.check(f"{words} and a capture as a file", ran.returncode == 0 and "  request 0 GetTID\n" in ran.stdout, repr(ran))
    ran = call([wrapper, "run", "--explain", device, capture])
    rows.check("a flag and two files", ran.returncode == 1 and "input line 26: wrong words: '0': expected 'requester' or 'at'" in ran.stderr, repr(ran))
    ran = call([wrapper, "answer", device, os.path.join(top, "none")])
    rows.check("a file that is not there", ran.returncode == 3 and ran.stdout == "" and "cannot be read" in ran.stderr, repr(ran))
    ran = call([wrapper, "other"])
    rows.check("the wrapper's refused word", ran.returncode == 2 and "Usage: mctpctl" in ran.stderr, repr(ran))


def serve(top):
    """What the wrapper makes of a frame on a serial line."""
    words = [os.path.join(top, "mctpctl"), "serve", "--device", os.path.join(top, "examples/device.toml")]
    return run(words, input=frame(QUESTION))


def ask(top):
    """What the wrapper makes of a command on what is no terminal."""
    return call([os.path.join(top, "mctpctl"), "ask", "--line", "/dev/null", "--own", "8", "--device", "9", "gettid"])


def lines(rows, top):
    """A serial line goes through the wrapper as it is."""
    ran = serve(top)
    rows.check("a serial line", (ran.returncode, ran.stdout, ran.stderr) == (0, frame(ANSWER), b""), repr(ran))
    ran = ask(top)
    want = (3, "", "mctpctl: /dev/null: not a terminal\n")
    rows.check("a line that is asked on", (ran.returncode, ran.stdout, ran.stderr) == want, repr(ran))


# ---- A terminal ----


def on_cooked(ask, serve=None):
    """What `ask` comes to, given a terminal as it is at first and its name, where `serve` runs at the other end.

    It is the status and what was written, and how the terminal stands then: set, or as it was, or otherwise.
    """
    ours, its = os.openpty()
    how = termios.tcgetattr(its)
    how[4] = how[5] = SPEED
    termios.tcsetattr(its, termios.TCSANOW, how)
    before = termios.tcgetattr(its)
    served = serve and subprocess.Popen(serve, stdin=ours, stdout=ours, stderr=subprocess.DEVNULL)
    try:
        ran = ask(its, os.ttyname(its))
        came = (ran.returncode, ran.stdout or "", ran.stderr or "")
    except subprocess.TimeoutExpired:
        came = "it did not end"
    after = termios.tcgetattr(its)
    if served:
        served.terminate()
        served.wait()
    os.close(ours)
    os.close(its)
    is_set = (after[3] & COOKED, after[6][termios.VMIN], after[6][termios.VTIME], after[4]) == (0, 0, 0, SPEED)
    return came, "set" if is_set and before[3] & COOKED == COOKED else "as it was" if after == before else repr(after)


def check_named(rows, name, command, device):
    """A terminal that --line names is set, and stays so: a device answers, and without one the tries end."""
    for option in ("--line", "--line="):
        def ask(_, line, option=option):
            words = [option + line] if option.endswith("=") else [option, line]
            return call([command, "ask", *words, *ASK[1:]])

        got = on_cooked(ask, [command, "serve", "--device", device])
        rows.equal(f"{name}: {option} names a terminal that is not raw", got, ((0, TID_IS_1, ""), "set"))
    got = on_cooked(ask)
    rows.equal(f"{name}: --line, and no device", got, ((3, "", NOBODY), "set"))


def check_standard(rows, name, call_, serve):
    """The same of standard input; `call_` runs the command with words and ends."""
    def ask(its, _):
        return call_([*ASK], stdin=its, stdout=its, stderr=subprocess.PIPE, text=True)

    got = on_cooked(ask, serve)
    rows.equal(f"{name}: standard input is a terminal that is not raw", got, ((0, "", TID_IS_1), "set"))
    got = on_cooked(ask)
    rows.equal(f"{name}: standard input, and no device", got, ((3, "", NOBODY), "set"))


def check_left(rows, name, command):
    """A terminal on which nothing is asked, and the user's own, are as they were."""
    for words, status, error in (
        (["ask", "--own", "1", "--device", "9", "gettid"], 2, True),
        (["walk", *ENDS, "--help"], 0, False),
        (["watch", *ENDS, "--line", "/none"], 3, False),
        (["help", "ask"], 0, False),
    ):
        def ask(its, _, words=words, error=error):
            ends = {"stdin": its, "stdout": its, "stderr": its if error else subprocess.PIPE}
            return run([command, *words], text=True, **ends)

        (came, *_), how = on_cooked(ask)
        rows.equal(f"{name}: {words[0]} {words[-1]} leaves a terminal as it was", (came, how), (status, "as it was"))


def check_terminals(rows, name, command, device):
    """The command sets the terminal that is asked on, and no other."""
    check_named(rows, name, command, device)
    words = [command, "serve", "--device", device]
    check_standard(rows, name, lambda words, **how: run([command, *words], **how), words)
    check_left(rows, name, command)


def terminals(rows, top):
    """The same of the wrapper."""
    check_terminals(rows, "the wrapper", *(os.path.join(top, name) for name in ("mctpctl", "examples/device.toml")))


def stamps(rows, top):
    """A source whose time alone has changed builds nothing anew; one whose content has changed is no longer proved."""
    source = os.path.join(top, SOURCE)
    test = ["bash", "-c", 'root=$1; . "$root/contrib/proved.sh"; is_proved', "test", top]
    rows.check("the program is that of its sources", call(test).returncode == 0)
    os.utime(source, (1, 1))
    rows.check("a source with another time", call(test).returncode == 0)
    with open(source, "a") as text:
        text.write("// more\n")
    rows.check("a source with other content", call(test).returncode != 0)
    ran = serve(top)
    well = (ran.returncode, ran.stdout) == (3, b"") and b"serve needs the proved program" in ran.stderr
    rows.check("a serial line without a proved program", well, repr(ran))
    ran = ask(top)
    well = (ran.returncode, ran.stdout) == (3, "") and "ask needs the proved program" in ran.stderr
    rows.check("a line that is asked on without a proved program", well, repr(ran))


# ---- What is installed ----


def without_stty(rows, command, device):
    """Without `stty` it is said what to type, and a terminal that is set is asked on."""
    with Terminal() as terminal:
        serve = [command, "serve", "--device", device]
        served = subprocess.Popen(serve, stdin=terminal.ours, stdout=terminal.ours, stderr=subprocess.DEVNULL)
        environment = {**os.environ, "PATH": "/nowhere"}
        ran = call([command, "ask", "--line", terminal.name, *ASK[1:]], env=environment)
        served.terminate()
        served.wait()
        say = f"mctpctl: the terminal was not set; type: stty -F {terminal.name} raw -echo min 0 time 0\n"
    rows.equal("installed: without stty", (ran.returncode, ran.stdout, ran.stderr), (0, TID_IS_1, say))


def becomes_the_program(rows, command, device):
    """The command's status is the program's, a signal reaches it, and a link leads to it."""
    ran = call([command, "two words", "--line"])
    rows.check("installed: refused words", ran.returncode == 2 and "'two words'" in ran.stderr, repr(ran))
    pipes = {"stdin": subprocess.PIPE, "stdout": subprocess.PIPE}
    with subprocess.Popen([command, "serve", "--device", device], **pipes) as served:
        served.stdin.write(frame(QUESTION))
        served.stdin.flush()
        is_answered = bool(select.select([served.stdout], [], [], SECONDS)[0])
        answer = os.read(served.stdout.fileno(), len(frame(ANSWER)))
        served.send_signal(signal.SIGTERM)
        # The output ends only where no process is left that has it.
        has_ended = select.select([served.stdout], [], [], SECONDS)[0] and served.stdout.read() == b""
        status = served.wait()
    well = is_answered and frame(ANSWER).startswith(answer) and has_ended
    rows.check("installed: a signal ends the program", well and status == -signal.SIGTERM, repr((answer, status)))
    with tempfile.TemporaryDirectory() as folder:
        link = os.path.join(folder, "link")
        os.symlink(os.path.relpath(command, folder), link)
        ran = run(["./link", "serve", "--device", device], input=frame(QUESTION), cwd=folder)
    rows.equal("installed: a link", (ran.returncode, ran.stdout), (0, frame(ANSWER)))


def installs(rows, top):
    """The program, its page and its completions are put below a prefix, and taken away."""
    prefix = os.path.join(top, "prefix")
    put = [os.path.join(prefix, name) for name in PUT]
    ran = call([os.path.join(top, "install"), prefix])
    well = ran.returncode == 0 and all(map(os.path.isfile, put)) and ran.stdout.count("installed ") == len(put)
    rows.check("installed", well, repr(ran))
    ran = call([put[0], "--help"])
    rows.check("the installed program runs", ran.returncode == 0 and "Usage: mctpctl" in ran.stdout, repr(ran))
    device = os.path.join(top, "examples/device.toml")
    check_terminals(rows, "installed", put[0], device)
    without_stty(rows, put[0], device)
    becomes_the_program(rows, put[0], device)
    ran = call([os.path.join(top, "install"), "--remove", prefix])
    places = (*put, os.path.join(prefix, "libexec/needleoat"))
    rows.check("removed", ran.returncode == 0 and not any(map(os.path.exists, places)), repr(ran))


def check(rows, program):
    with tempfile.TemporaryDirectory() as top:
        make(top, program)
        for part in (files, lines, terminals, installs, stamps):
            part(rows, top)
