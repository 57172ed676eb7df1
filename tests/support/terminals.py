"""A serial line that is a pseudoterminal."""
import os
import select
import termios
import tty

from support.programs import SECONDS


def set_ticking(end, tenths=0):
    """Sets a terminal: raw, and a read of nothing ends at once, as the help of `ask` says, or after tenths of a second,
    as that of `update` does."""
    tty.setraw(end)
    how = termios.tcgetattr(end)
    how[6][termios.VMIN], how[6][termios.VTIME] = 0, tenths
    termios.tcsetattr(end, termios.TCSANOW, how)


class Terminal:
    """A pseudoterminal, set by `set_ticking`. `ask` opens it by its name; the other end is the test's."""

    def __init__(self, tenths=0):
        self.ours, self.its = os.openpty()
        set_ticking(self.its, tenths)
        self.name = os.ttyname(self.its)

    def fileno(self):
        return self.ours

    def read(self, seconds=SECONDS):
        """What was written on the line, or nothing where nothing is in that time."""
        return os.read(self.ours, 4096) if select.select([self.ours], [], [], seconds)[0] else b""

    def write(self, data):
        os.write(self.ours, data)

    def __enter__(self):
        return self

    def __exit__(self, *_):
        for end in (self.ours, self.its):
            if end is not None:
                os.close(end)
