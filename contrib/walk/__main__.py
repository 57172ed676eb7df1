#!/usr/bin/env python3
"""Walks over a device as a management controller does that has just found it, and checks what it says of itself.

    python3 contrib/walk PROGRAM [DESCRIPTION]

PROGRAM is the built program, as crates/mctpctl/out/mctpctl; `PROGRAM serve --device DESCRIPTION` is started behind a
pseudoterminal. DESCRIPTION is examples/board.toml where none is named. The walk speaks frames (DSP0253), packets and
control messages (DSP0236), PLDM (DSP0240) and platform data records (DSP0248) by code of its own, written from these
standards. As endpoint 8 it asks for

- the endpoint ID at the physical address, the UUID, and the message types;
- the terminus ID, the PLDM types, and the versions and commands of each. Where the description has `version_checksum`,
  versions have to end with their CRC-32; where the last four bytes are that sum without it, they are taken for it;
- what the repository has, and each record, in as many parts as it takes;
- the reading or the states of each sensor and effecter that a record names.

It checks the counts, sizes and handles of the records against the repository, that each record is read to its end, and
of each sensor and effecter that it answers, with the data size of its record, within the range, and in possible states.
Rate units, thresholds and records of other types are passed over.

It prints a line for each check, then a table of what was found. The last line is 'N passed, M failed'. The status is 0
where all passed, 1 where some did not, 2 where the command line is refused. A question that is not answered is sent
twice more. This script stands beside the program, and promises nothing.
"""
import argparse
import os
import sys
import tomllib

sys.dont_write_bytecode = True
from checks import Checks
from line import Line, LineEnded
from messages import Asker
from questions import Questions
from walk import Walk

ROOT = os.path.dirname(os.path.dirname(os.path.dirname(os.path.realpath(__file__))))
BOARD = os.path.join(ROOT, "examples", "board.toml")
MOST_PART_BYTES = 65535


def words():
    text, _, rest = __doc__.partition("\n\n")
    how = {"formatter_class": argparse.RawDescriptionHelpFormatter, "description": text, "epilog": rest}
    parser = argparse.ArgumentParser(prog="python3 contrib/walk", **how)
    parser.add_argument("program", metavar="PROGRAM")
    parser.add_argument("description", metavar="DESCRIPTION", nargs="?", default=BOARD)
    parser.add_argument("--print", dest="table_alone", action="store_true", help="write the table alone")
    parser.add_argument("--part", type=int, default=64, metavar="BYTES", help="of a record at most at once (64)")
    parser.add_argument("--seconds", type=float, default=2, help="how long an answer is waited for (2)")
    given = parser.parse_args()
    if not 1 <= given.part <= MOST_PART_BYTES or not given.seconds > 0:
        parser.error("--part is 1 to 65535, --seconds more than 0")
    return given


def has_checksum(description):
    """Whether the description says so; what is wrong with it, the program says."""
    try:
        with open(description, "rb") as file:
            return tomllib.load(file).get("version_checksum") is True
    except (OSError, tomllib.TOMLDecodeError):
        return False


def main():
    given = words()
    checks = Checks(not given.table_alone)
    try:
        with Line([given.program, "serve", "--device", given.description]) as line:
            asker = Asker(line, given.seconds)
            walk = Walk(asker, checks, Questions(asker, given.part), has_checksum(given.description))
            try:
                walk.run()
            except LineEnded as fault:
                checks.check("the line stays open", False, str(fault))
            checks.equal("bytes that are no frame", line.reader.wrong, 0)
    except OSError as fault:
        print(f"walk: {given.program}: {fault.strerror}", file=sys.stderr)
        return 1
    if not given.table_alone:
        print()
    print(walk.table(), end="")
    if not given.table_alone:
        print()
    return checks.close()


if __name__ == "__main__":
    sys.exit(main())
