"""How a program is run, and a folder with the files that it reads."""
import os
import subprocess

SECONDS = 60  # that a run may take
PIPES = {"stdin": subprocess.PIPE, "stdout": subprocess.PIPE, "stderr": subprocess.PIPE}


def run(words, **how):
    """Runs a command to its end. What it writes is kept, where `how` does not say otherwise."""
    return subprocess.run(words, **{"stdout": subprocess.PIPE, "stderr": subprocess.PIPE, "timeout": SECONDS, **how})


class Place:
    """The program, and a folder with a description, `device`, and other files."""

    def __init__(self, program, folder, device):
        self.program = program
        self.folder = folder
        self.device = self.write("device.toml", device)

    def write(self, name, text):
        """Writes a file into the folder, and returns its path."""
        path = os.path.join(self.folder, name)
        with open(path, "w") as file:
            file.write(text)
        return path
