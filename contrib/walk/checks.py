"""What is checked: a line for each, and the counts at the end."""
from messages import Fault


class Checks:
    def __init__(self, is_told):
        self.is_told = is_told
        self.passed = 0
        self.failed = 0

    def check(self, name, well, why=""):
        self.passed += bool(well)
        self.failed += not well
        if self.is_told:
            print(f"{'ok     ' if well else 'FAILED '} {name}{'' if well or not why else f': {why}'}", flush=True)
        return bool(well)

    def equal(self, name, got, wanted):
        return self.check(name, got == wanted, f"{got}, and not {wanted}")

    def answer(self, name, question, *words):
        """What a question finds; None where it is not answered, or not in a form that can be read."""
        try:
            found = question(*words)
        except Fault as fault:
            self.check(name, False, str(fault))
            return None
        self.check(name, True)
        return found

    def close(self):
        if self.is_told:
            print(f"{self.passed} passed, {self.failed} failed")
        return 1 if self.failed or not self.passed else 0
