"""The line: a program with a raw pseudoterminal for standard input and output, and the packets that pass over it."""
import os
import pty
import select
import subprocess
import time
import tty

from frames import FrameReader, frame


class LineEnded(Exception):
    """The program has gone, or has closed its end of the line."""


class Line:
    def __init__(self, words):
        self.ours, its = pty.openpty()
        tty.setraw(its)
        self.reader = FrameReader()
        try:
            self.program = subprocess.Popen(words, stdin=its, stdout=its, start_new_session=True)
        except OSError:
            os.close(self.ours)
            raise
        finally:
            os.close(its)

    def __enter__(self):
        return self

    def __exit__(self, *_):
        self.program.kill()
        self.program.wait()
        os.close(self.ours)

    def send(self, packet):
        rest = frame(packet)
        try:
            while rest:
                rest = rest[os.write(self.ours, rest) :]
        except OSError as fault:
            raise LineEnded(fault.strerror) from fault

    def packet(self, until):
        """The next packet that comes before this moment of the monotonic clock, else None."""
        while (found := self.reader.packet()) is None:
            wait = until - time.monotonic()
            if wait <= 0 or not select.select([self.ours], [], [], wait)[0]:
                return None
            try:
                data = os.read(self.ours, 4096)
            except OSError as fault:
                raise LineEnded(fault.strerror) from fault
            if not data:
                raise LineEnded("the program has closed it")
            self.reader.take(data)
        return found
