"""What is wrong with how the program ended, and with what it wrote."""
import re

from cases import ANY_WORDS
from forms import LINES, TOLD


def bad_line(pattern, text):
    """What is wrong with the lines of a text: one of another form, or one that has no end."""
    if text and not text.endswith(b"\n"):
        return f"the last line has no end: {text[-60:]!r}"
    for line in text.split(b"\n")[:-1]:
        if not pattern.fullmatch(line):
            return f"a line of another form: {line[:120]!r}"
    return None


def fault_of_command_line(status, out, err):
    """What is wrong with the end of a run over a random command line, whose input is empty."""
    if status == 2 and not out and err:
        return None
    if status == 0 and not err:
        return None
    if status == 1 and not out and (TOLD["answer"].fullmatch(err) or TOLD["run"].fullmatch(err)):
        return None
    return f"status {status}, {out[:80]!r}, {err[:80]!r}"


def fault_of_told(case, out, err):
    """What is wrong with the line on standard error of a refused input, or None."""
    if not TOLD[case.words[0]].fullmatch(err):
        return f"standard error at status 1: {err[:120]!r}"
    line = re.match(rb"mctpctl: line ([0-9]+):", err)
    if line and int(line[1]) > case.text.count(b"\n") + 1:
        return f"a line that is not there: {err!r}"
    if out and re.match(rb"mctpctl: (?:device|no %% line|requester)", err):
        return f"{err!r} after {out[:80]!r}"
    return None


def fault_of(case, status, out, err):
    """What is wrong with how a case ended, or None."""
    if status == "no end" or status < 0:
        return f"it did not end by itself: {status}"
    if case.want == ANY_WORDS:
        return fault_of_command_line(status, out, err)
    word = case.words[0]
    if status not in (0, 1):
        return f"status {status}, {err[:80]!r}"
    if status == 0 and err:
        return f"standard error at status 0: {err[:120]!r}"
    if status == 1 and fault_of_told(case, out, err):
        return fault_of_told(case, out, err)
    if case.want and case.want != (status, err):
        return f"at a limit: {(status, err)} for {case.want}"
    return bad_line(LINES[word], out)
