"""What is checked: a line for each row, and the counts at the end."""


def told(value):
    """A value as text: bytes in hex, and no line too long to read."""
    if isinstance(value, (list, tuple)):
        return f"({', '.join(map(told, value))})"
    text = value.hex() if isinstance(value, bytes) else str(value)
    return text if len(text) <= 100 else f"{text[:80]}..{text[-12:]}"


class Rows:
    """Prints a line for each row, and counts them."""

    def __init__(self):
        self.passed = 0
        self.failed = []  # the names of the rows that did not pass

    def check(self, name, well, why=""):
        """A row that passes where `well` holds; `why` is shown where it fails. Returns whether it passed."""
        return self._count(name, well, name if well else f"{name}: {why}")

    def equal(self, name, got, want):
        return self.check(name, got == want, f"got {told(got)}, wanted {told(want)}")

    def measure(self, name, well, found):
        """The same for a number: what was found is shown where the row passes too."""
        return self._count(name, well, f"{name}: {found}")

    def _count(self, name, well, line):
        if well:
            self.passed += 1
        else:
            self.failed.append(name)
        print(f"{'ok     ' if well else 'FAILED '} {line}", flush=True)
        return bool(well)

    def close(self):
        """Prints the counts. Returns the exit status: 1 where a row failed, or where there was none."""
        print(f"{self.passed} passed, {len(self.failed)} failed")
        return 1 if self.failed or not self.passed else 0
