"""The device of examples/c/fru.c, whose requests of PLDM type 4 (DSP0257) are handed on as bytes, asked by Linux.

Its tables are written here a second time, from the standard and the text of its fields."""
import struct
import zlib
from collections import Counter

from second_device import KEEP_MS
from serial_line import Chance
from soak import RECORD_TAGS, SLACK_MS, Soak

FRU_EID = 9
FIELDS = ((3, b"NLO-FAN-60-12-V1"), (4, b"SN-2026-0000000000000017"), (5, b"Needleoat Example Works, Hall 3"))
CODES = (bytes([code]) for code in (0, 2, 3, 5, 0x20))
SUCCESS, INVALID_DATA, INVALID_LENGTH, UNSUPPORTED_COMMAND, INVALID_TYPE = CODES


def record_table():
    """One record: its set, its type (general), how many fields, ASCII; padded to four bytes."""
    table = struct.pack("<HBBB", 1, 1, len(FIELDS), 1) + b"".join(bytes([kind, len(it)]) + it for kind, it in FIELDS)
    return table + bytes(-len(table) % 4)


def answers():
    """The commands, and the code and data of the answer to each."""
    table = record_table()
    metadata = struct.pack("<BBIIHHI", 1, 0, len(table), len(table), 1, 1, zlib.crc32(table))
    return {
        "04 01": SUCCESS + metadata,
        "04 02 00000000 01": SUCCESS + struct.pack("<IB", 0, 5) + table,
        "04 02 00000000 00": INVALID_DATA,
        "04 01 00": INVALID_LENGTH,
        "04 03": UNSUPPORTED_COMMAND,
        "05 01": INVALID_TYPE,
        "02 11 0100 00": SUCCESS + bytes([0, 0, 0, 1, 1, 1, 40]),
    }


class FruRows(Soak):
    def __init__(self, rows, guest, line, seed):
        super().__init__(rows, guest, line, seed, FRU_EID)

    def run(self, rounds):
        """requests that are handed on, over a line that loses, repeats and delays frames"""
        print(f"-- {self.run.__doc__}, seed {self.seed}, {rounds} rounds", flush=True)
        self.keep_tags(RECORD_TAGS)
        self.line.chance = Chance(self.seed, KEEP_MS, SLACK_MS)
        got = Counter()
        for _ in range(rounds):
            for command, wanted in answers().items():
                got[command] += self.ask("record" if len(wanted) > 64 else "short", command, wanted)
        self.let_late_ones_come()
        self.drop_tags()
        for command, count in got.items():
            self.rows.check(f"most of {command} are answered", count > rounds / 2, f"{count} of {rounds}")
        self.rows.check("each answer is the one of the tables", not self.wrong, str(self.wrong[:3]))
