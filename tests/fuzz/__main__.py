#!/usr/bin/env python3
"""Feeds random, mutated and truncated input to the built program, and checks how it ends and what it writes.

    python3 tests/fuzz [--seed N] [--cases N] [--run] [--show] [--keep FOLDER] PROGRAM

PROGRAM is the built program, as crates/mctpctl/out/mctpctl. Cases are for `answer`, with --run also for `run`
and with --show also for `show`, in turn; one case in a hundred is a random command line. Case N of a seed is
always the same input. This is no part of the gate: it asks nothing about which answer is right.

Of each case it checks that

- the program ends in time, by itself, with status 0, 1 or 3, and 0 or 2 for a command line;
- standard output is whole lines, each of a form that docs/PROTOCOL.md gives;
- standard error is empty at status 0, and one known line at status 1, with nothing written where that line says
  that the description was refused;
- status 3 does not come: each case has memory at hand, and files and pipes that work;
- where the case lies at a limit of the input, the status and the line are those of that limit;
- the same input in pieces through a pipe gives the same status and the same bytes.

The last line is 'N passed, M failed'. A case that failed is kept as a file in the folder of --keep.
"""
import argparse
import collections
import os
import random
import re
import sys

sys.dont_write_bytecode = True
from cases import Examples, case_of
from faults import fault_of
from programs import Program, pieces_of, whole_write


def tried(program, source, case):
    """How a case ended, and what is wrong with it, or None."""
    status, out, err = program.run(case)
    fault = fault_of(case, status, out, err)
    if fault is None:
        again = program.run(case, whole_write(pieces_of(source, case.text)))
        if again != (status, out, err):
            fault = f"another answer where it came in pieces: {again[0]}, {again[1][-80:]!r}, {again[2][:80]!r}"
    return status, out, err, fault


def keep(folder, number, case):
    """Keeps the input of a case that failed."""
    os.makedirs(folder, exist_ok=True)
    path = os.path.join(folder, f"case-{number}-{'-'.join(case.words)[:40]}".replace("%", "_"))
    with open(path, "wb") as file:
        file.write(case.text)
    return path


class Counts:
    """What came of the cases."""

    def __init__(self):
        self.passed = 0
        self.failed = 0
        self.ends = collections.Counter()
        self.lines = collections.Counter()

    def add(self, case, status, out, err):
        told = re.sub(rb"line [0-9]+", b"line N", err.split(b"\n")[0])[:60] if status in (1, 3) else b""
        self.ends[f"{' '.join(case.words[:1]) or 'nothing'}: status {status} {told.decode(errors='replace')}"] += 1
        for line in out.split(b"\n")[:-1] if case.words[:1] == ["answer"] and status in (0, 1) else []:
            self.lines[line.decode(errors="replace") if line[:1] in b"dp" else "a packet"] += 1

    def tell(self):
        for counter in (self.ends, self.lines):
            for name, count in sorted(counter.items()):
                print(f"{count:9} {name}")
        print(f"{self.passed} passed, {self.failed} failed")


def words_of(asked):
    """The subcommands that get cases."""
    return ["answer"] + ["run"] * asked.run + ["show"] * asked.show


def arguments():
    parser = argparse.ArgumentParser(description=__doc__, formatter_class=argparse.RawDescriptionHelpFormatter)
    parser.add_argument("program", help="the built program")
    parser.add_argument("--seed", type=int, help="the seed of the cases; else one is made")
    parser.add_argument("--cases", type=int, default=2000, help="how many cases (2000)")
    parser.add_argument("--first", type=int, default=0, help="the number of the first case (0)")
    parser.add_argument("--seconds", type=float, default=20, help="how long one run may take (20)")
    parser.add_argument("--keep", default="fuzz-cases", help="the folder for the cases that failed (fuzz-cases)")
    parser.add_argument("--run", action="store_true", help="cases for the subcommand run too")
    parser.add_argument("--show", action="store_true", help="cases for the subcommand show too")
    return parser.parse_args()


def main():
    asked = arguments()
    seed = asked.seed if asked.seed is not None else random.SystemRandom().randrange(2**32)
    print(f"seed {seed}, {asked.cases} cases", flush=True)
    examples, counts = Examples(), Counts()
    program = Program(os.path.abspath(asked.program), asked.seconds)
    words = words_of(asked)
    for number in range(asked.first, asked.first + asked.cases):
        source = random.Random(f"{seed} {number}")
        case = case_of(source, examples, words[number % len(words)])
        status, out, err, fault = tried(program, source, case)
        counts.add(case, status, out, err)
        counts.passed += fault is None
        counts.failed += fault is not None
        if fault:
            kept = keep(asked.keep, number, case)
            print(f"FAILED  case {number} of seed {seed}: {fault}; kept as {kept}", flush=True)
    counts.tell()
    return 1 if counts.failed else 0


if __name__ == "__main__":
    sys.exit(main())
