"""A served device that takes firmware updates into a file, and an agent that brings one, on the two ends of a line."""
import os
import subprocess
import tempfile
import time
import tty

from support.examples import DEVICE
from support.lossy import LossyLine
from support.programs import SECONDS, run
from support.terminals import set_ticking

ENDS = ("--own", "8", "--device", "9")


def times_of(keep, tries=3):
    """The words of a keeping time that the tries share, with no state of earlier requests."""
    return ("--keep", str(keep), "--timeout", str(keep // tries), "--tries", str(tries), "--no-state")


KEEP = 600  # twice that passes before the first request
TIMES = times_of(KEEP)


def write_file(path, data):
    with open(path, "wb") as file:
        file.write(data)
    return path


def read_file(path):
    """The bytes of a file; None where there is none."""
    try:
        with open(path, "rb") as file:
            return file.read()
    except FileNotFoundError:
        return None


class UpdatedDevice:
    """A device with one component, whose firmware is in the file `firmware` of a folder of its own. At most two
    programs are on the line, the device and an agent; they end with it."""

    def __init__(self, program, firmware, keep=KEEP, added=""):
        """The text `added` comes behind the device's description."""
        self.program = program
        self.room = tempfile.TemporaryDirectory()
        self.firmware = self.write("firmware", firmware)
        text = DEVICE.replace("keep_ms = 1000\n", f"keep_ms = {keep}\n") + added
        self.device = self.write("device.toml", text.encode())
        self.line = LossyLine(0, 0)
        for end in self.line.ends:
            set_ticking(end, tenths=1)
        self.served = self.agent = None

    def __enter__(self):
        self.line.__enter__()
        return self

    def __exit__(self, *_):
        self.kill_agent()
        self.kill_device()
        self.line.__exit__()
        self.room.cleanup()

    def path(self, name):
        return os.path.join(self.room.name, name)

    def write(self, name, data):
        """Writes a file into the folder, and returns its path."""
        return write_file(self.path(name), data)

    def active(self):
        """The firmware that is active."""
        return read_file(self.firmware)

    def coming(self):
        """What has come of a firmware; None where nothing has."""
        return read_file(f"{self.firmware}.part")

    def serve(self, *words, takes_updates=True, **started):
        """Starts the device at its end of the line, so `started`. One that takes no updates has nothing to ask: for it a
        read that gives nothing is the line's end, so its reads wait."""
        end = self.line.ends[0]
        if not takes_updates:
            tty.setraw(end)
        front = [self.program, "serve", "--device", self.device]
        front += ["--firmware", self.firmware] if takes_updates else []
        how = {"stdin": end, "stdout": end, "stderr": subprocess.DEVNULL, **started}
        self.served = subprocess.Popen([*front, *words], **how)
        return self

    def words(self, image, *words, ends=ENDS, times=TIMES):
        """The words of an agent at the other end that brings this file."""
        return [self.program, "update", "--line", self.line.name(1), *ends, *times, *words, image]

    def update(self, image, *words, seconds=SECONDS, **how):
        """Brings a file, and returns the exit status, standard output and standard error."""
        ran = run(self.words(image, *words, **how), stdin=subprocess.DEVNULL, timeout=seconds)
        return ran.returncode, ran.stdout, ran.stderr

    def begin_update(self, image, *words, **how):
        """Starts an agent that brings a file, of which nothing is read."""
        quiet = {name: subprocess.DEVNULL for name in ("stdin", "stdout", "stderr")}
        self.agent = subprocess.Popen(self.words(image, *words, **how), **quiet)

    def wait_for(self, count, seconds=SECONDS):
        """Waits until so many bytes of a firmware have come, and returns whether they have."""
        until = time.monotonic() + seconds
        while (is_short := len(self.coming() or b"") < count) and time.monotonic() < until:
            time.sleep(0.01)
        return not is_short

    def kill_device(self):
        if self.served:
            self.served.kill()
            self.served.wait()
            self.served = None

    def kill_agent(self):
        if self.agent:
            self.agent.kill()
            self.agent.wait()
            self.agent = None
