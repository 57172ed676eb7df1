"""The program under test, run over a case: from a file, and in pieces through a pipe."""
import os
import subprocess
import tempfile
import threading
import time

from cases import MOST_DESCRIPTION


class Program:
    """The program under test, with files for what it writes."""

    def __init__(self, path, seconds):
        self.path = path
        self.seconds = seconds
        self.out = tempfile.TemporaryFile()
        self.err = tempfile.TemporaryFile()

    def run(self, case, pieces=None):
        """Status, standard output and standard error; the status is 'no end' where it did not end in time."""
        for file in (self.out, self.err):
            file.seek(0)
            file.truncate()
        late = threading.Event()
        with tempfile.TemporaryFile() as given:
            if pieces is None:
                given.write(case.text)
                given.seek(0)
            stdin = given if pieces is None else subprocess.PIPE
            started = subprocess.Popen([self.path, *case.words], stdin=stdin, stdout=self.out, stderr=self.err)
            timer = threading.Timer(self.seconds, lambda: (late.set(), started.kill()))
            timer.start()
            if pieces is not None:
                self.feed(started.stdin, pieces)
            status = started.wait()
            timer.cancel()
        return "no end" if late.is_set() else status, self.text(self.out), self.text(self.err)

    @staticmethod
    def feed(pipe, pieces):
        """Writes the pieces, each by itself, until the program takes no more."""
        try:
            for piece in pieces:
                os.write(pipe.fileno(), piece)
                time.sleep(0)
            pipe.close()
        except BrokenPipeError:
            try:
                pipe.close()
            except BrokenPipeError:
                pass

    @staticmethod
    def text(file):
        file.seek(0)
        return file.read()


def pieces_of(source, text):
    """The text in a few pieces."""
    if not text or len(text) > 4 * MOST_DESCRIPTION:
        step_size = 65_536
        return [text[i : i + step_size] for i in range(0, len(text), step_size)]
    places = sorted(source.randrange(len(text) + 1) for _ in range(source.choice([0, 1, 3, 20])))
    return [text[a:b] for a, b in zip([0] + places, places + [len(text)])]


def whole_write(pieces):
    """Each piece in parts that one write to a pipe takes."""
    return [piece[i : i + 4096] for piece in pieces for i in range(0, len(piece), 4096)]
