"""Two programs on the two ends of a serial line that loses bytes: two terminals, and what passes bytes between them."""
import os
import pty
import random
import select
import subprocess
import threading
import tty

from support.terminals import set_ticking


class LossyLine:
    """A line of two raw terminals. Of each direction's bytes, about one in `one_in` is lost, by a stated seed; none
    where that is 0."""

    def __init__(self, one_in, seed):
        self.one_in = one_in
        self.chance = [random.Random(f"{seed} {direction}") for direction in "ab"]
        self.passed = 0
        self.lost = 0
        self.masters, self.ends = zip(*(pty.openpty() for _ in range(2)))
        for end in self.ends:
            tty.setraw(end)
        self.woken, self.wake = os.pipe()
        self.thread = threading.Thread(target=self._pass_on)

    def __enter__(self):
        self.thread.start()
        return self

    def __exit__(self, *_):
        os.close(self.wake)
        self.thread.join()
        for fd in (*self.masters, *self.ends, self.woken):
            os.close(fd)

    def name(self, end):
        return os.ttyname(self.ends[end])

    def _pass_on(self):
        while True:
            ready, _, _ = select.select([*self.masters, self.woken], [], [])
            if self.woken in ready:
                return
            for master in ready:
                side = self.masters.index(master)
                try:
                    found = os.read(master, 4096)
                except OSError:
                    return
                kept = found
                if self.one_in:
                    kept = bytes(byte for byte in found if self.chance[side].randrange(self.one_in))
                self.passed += len(kept)
                self.lost += len(found) - len(kept)
                os.write(self.masters[1 - side], kept)


def converse(device, requester, one_in, seed, seconds=120, ticking=False):
    """Runs `device` with one end of a line as its standard input and output, and `requester` until it ends: lists of
    words, in which LINE is the name of the end that is theirs. Returns the requester's status, what it wrote, and how
    many bytes were lost. Where it is `ticking`, a read of the requester that gets nothing ends."""
    with LossyLine(one_in, seed) as line:
        if ticking:
            set_ticking(line.ends[1])
        named = [line.name(0) if word == "LINE" else word for word in device]
        server = subprocess.Popen(named, stdin=line.ends[0], stdout=line.ends[0], stderr=subprocess.DEVNULL)
        try:
            words = [line.name(1) if word == "LINE" else word for word in requester]
            ran = subprocess.run(words, stdout=subprocess.PIPE, stderr=subprocess.PIPE, timeout=seconds)
            return ran.returncode, ran.stdout, line.lost
        finally:
            server.kill()
            server.wait()
