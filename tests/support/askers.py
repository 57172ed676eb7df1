"""A device that is asked on a pseudoterminal: the words of the endpoints and times, and how a program is run on it."""
import os
import subprocess
import time

from support import programs
from support.programs import SECONDS, run
from support.terminals import Terminal

# No state is kept where a row does not say so.
for variable in ("HOME", "XDG_STATE_HOME"):
    os.environ.pop(variable, None)

# The endpoints of the descriptions, and times for a line on which nothing is lost.
ENDS = ("--own", "8", "--device", "9")
TIMES = ("--keep", "500", "--timeout", "250", "--tries", "2")


def settle(log):
    """Waits until nothing more comes to a log: the device writes an answer's line after the answer."""
    size, until = -1, time.monotonic() + SECONDS
    while size != os.path.getsize(log) and time.monotonic() < until:
        size = os.path.getsize(log)
        time.sleep(0.3)


class Place(programs.Place):
    """The same, with a device that is asked."""

    def run(self, *words, **how):
        """The status, standard output and standard error."""
        ran = run([self.program, *words], **{"stdin": subprocess.DEVNULL, **how})
        return ran.returncode, ran.stdout, ran.stderr

    def serve(self, terminal, *words):
        words = [self.program, "serve", "--device", self.device, *words]
        return subprocess.Popen(words, stdin=terminal.ours, stdout=terminal.ours, stderr=subprocess.DEVNULL)

    def served(self, subcommand, *words, log=None):
        """The same where the described device is at the other end."""
        with Terminal() as terminal:
            served = self.serve(terminal, *(("--log", log) if log else ()))
            try:
                ran = self.run(subcommand, "--line", terminal.name, *words)
                if log:
                    settle(log)
                return ran
            finally:
                served.terminate()
                served.wait(timeout=SECONDS)
