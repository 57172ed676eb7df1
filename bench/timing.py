"""What the scripts of this folder share: a program is timed over inputs, beside another one or alone."""

import argparse
import contextlib
import os
import statistics
import subprocess
import sys
import tempfile
import time
from pathlib import Path

ROOT = Path(__file__).resolve().parent.parent
DEVICE = (ROOT / "examples" / "device.toml").read_bytes()
DESCRIBED = DEVICE + b"%%\n"
MOST_INPUT = 16 * 1024 * 1024
RUNS = 9
MOST_RUNS = 60


def begin(program, task, given, taken):
    given.seek(0)
    return subprocess.Popen([program, task], stdin=given, stdout=taken)


def run(program, task, given, output):
    """The seconds of one run over this input; what it writes goes to `output`."""
    with open(output, "wb") as taken:
        start = time.monotonic()
        status = begin(program, task, given, taken).wait()
        seconds = time.monotonic() - start
    if status != 0:
        sys.exit(f"bench: {program} ended with status {status}")
    return seconds


def peak_memory(program, task, given):
    """The greatest memory in MiB of one run over this input, looked at every 2 ms."""
    child = begin(program, task, given, subprocess.DEVNULL)
    peak = 0
    while child.poll() is None:
        try:
            status = Path(f"/proc/{child.pid}/status").read_text()
        except OSError:
            break
        peak = max([peak] + [int(line.split()[1]) for line in status.splitlines() if line.startswith("VmHWM:")])
        time.sleep(0.002)
    child.wait()
    return peak / 1024


def build_peer(folder, room):
    """Builds the other program away from its folder, and gives the path of what was built."""
    subprocess.run(
        ["cargo", "build", "--release", "--offline", "--quiet", "--target-dir", room], cwd=folder, check=True
    )
    built = [path for path in (Path(room) / "release").iterdir() if path.is_file() and os.access(path, os.X_OK)]
    if len(built) != 1:
        sys.exit(f"bench: expected one program of {folder}, found {len(built)}")
    return built[0]


def measure(programs, task, text, room, is_loaded):
    """The seconds of each program, the peak memory of each, and whether all wrote the same. What else the machine does
    can only lengthen a run, so the least of several says most; of a short input there are more. Beside load the least
    is a run that happened to be left alone, so there are three times as many runs, and the one in the middle is taken.
    """
    runs = max(RUNS, min(RUNS * MOST_INPUT // len(text), MOST_RUNS)) * (3 if is_loaded else 1)
    typical = statistics.median if is_loaded else min
    outputs = [Path(room) / f"output{place}" for place in range(len(programs))]
    with tempfile.TemporaryFile() as given:
        given.write(text)
        given.flush()
        rounds = [
            [run(program, task, given, output) for program, output in zip(programs, outputs)]
            for _ in range(runs)
        ]
        peaks = [peak_memory(program, task, given) for program in programs]
    seconds = [typical(times[place] for times in rounds) for place in range(len(programs))]
    return seconds, peaks, len({output.read_bytes() for output in outputs}) == 1


def filled(head, rule, size):
    """An input of at most this many bytes that begins with `head`, and how many lines of the rule it has."""
    parts = [head]
    left = size - len(head)
    count = 0
    for line in rule():
        if len(line) > left:
            return b"".join(parts), count
        parts.append(line)
        left -= len(line)
        count += 1


def start_time(program):
    """The least milliseconds from the program's start to its end where it does nothing but print its version."""
    times = []
    for _ in range(10 * RUNS):
        start = time.monotonic()
        subprocess.run([program, "--version"], stdout=subprocess.DEVNULL, check=True)
        times.append(time.monotonic() - start)
    return 1000 * min(times)


@contextlib.contextmanager
def busy_beside(count):
    """Keeps this many other processes busy."""
    others = [subprocess.Popen([sys.executable, "-c", "while True: pass"]) for _ in range(count)]
    try:
        yield
    finally:
        for other in others:
            other.kill()
            other.wait()


def bench(document, task, unit, rules):
    """Times `mctpctl` with this subcommand over inputs of the head and the lines of each rule; `unit` is what a line
    is called."""
    arguments = argparse.ArgumentParser(description=document, formatter_class=argparse.RawDescriptionHelpFormatter)
    arguments.add_argument("--peer", metavar="FOLDER", help="a Rust program to compare with")
    arguments.add_argument("--beside", metavar="COUNT", type=int, default=0, help="other processes to keep busy")
    arguments.add_argument("sizes", metavar="MiB", nargs="*", type=int, help="sizes of the inputs")
    chosen = arguments.parse_args()
    sizes = chosen.sizes or [1, 4, 16]
    with tempfile.TemporaryDirectory() as room, busy_beside(chosen.beside):
        # proves and builds the program where it does not stand yet
        subprocess.run([ROOT / "prove"], check=True)
        programs = [ROOT / "crates" / "mctpctl" / "out" / "mctpctl"]
        if chosen.peer:
            programs.append(build_peer(chosen.peer, room + "/peer"))
        print(f"{'input':<10}{'MiB':>5}{unit:>9}{'seconds':>9}{'a second':>11}{'peak MiB':>10}", end="")
        print(f"{'peer':>9}{'ratio':>7}{'peer MiB':>10}" if chosen.peer else "")
        same = True
        for rule, head in rules:
            times = []
            for size in sizes:
                text, count = filled(head, rule, min(size * 1024 * 1024, MOST_INPUT))
                seconds, peaks, equal = measure(programs, task, text, room, chosen.beside > 0)
                same = same and equal
                times.append(seconds[0])
                row = f"{rule.__name__:<10}{size:>5}{count:>9}"
                row += f"{seconds[0]:>9.3f}{count / seconds[0]:>11.0f}{peaks[0]:>10.1f}"
                if chosen.peer:
                    row += f"{seconds[1]:>9.3f}{seconds[0] / seconds[1]:>7.2f}{peaks[1]:>10.1f}"
                    row += "" if equal else "  outputs differ"
                print(row)
            growth = times[-1] / times[0]
            print(f"{rule.__name__:<10} {sizes[-1]} MiB take {growth:.1f} times as long as {sizes[0]} MiB")
        print(f"a start takes {start_time(programs[0]):.1f} ms")
    if not same:
        sys.exit("bench: the programs did not write the same")
