"""Platform data records (DSP0248, "PDR formats"), read field by field from their bytes.

Read are the terminus locator (1), numeric and state sensors (2, 4), numeric and state effecters (9, 11), and the names
of a sensor, an effecter and an entity (6, 13, 16). Fields that a walk has no use for are passed over."""
import math
import struct
from dataclasses import dataclass
from decimal import Decimal

from messages import Fault
from questions import FORMS

SENSOR, EFFECTER = "sensor", "effecter"
REAL = 6  # a format of range fields
HEADER_BYTES = 10
MOST_FIELDS = 8  # of a state sensor or effecter


@dataclass(frozen=True)
class Header:
    handle: int
    version: int
    kind: int
    change: int
    length: int


@dataclass(frozen=True)
class Terminus:
    tid: int
    eid: int


@dataclass(frozen=True)
class Numeric:
    """A numeric sensor or effecter: its range is what can be read of it, or set."""

    what: str
    identifier: int
    has_names: bool
    unit: int
    modifier: int
    size: int
    resolution: Decimal
    offset: Decimal
    lowest: int
    highest: int

    def value(self, reading):
        """(reading * resolution + offset) * 10^modifier (DSP0248, "Sensor reading conversion formula")."""
        return (reading * self.resolution + self.offset).scaleb(self.modifier)


@dataclass(frozen=True)
class States:
    """A state sensor or effecter: of each field its state set and the possible states."""

    what: str
    identifier: int
    has_names: bool
    fields: tuple


@dataclass(frozen=True)
class Names:
    """The names of a sensor or effecter with this ID, of each field a list; of an entity, its names and container."""

    what: str
    identifier: int
    names: tuple


class Fields:
    """The bytes of a record from its data on, taken one field after another."""

    def __init__(self, data):
        self.data, self.place = data, 0

    def take(self, form):
        """The fields of this form, one by itself or a tuple."""
        length = struct.calcsize(f"<{form}")
        if self.place + length > len(self.data):
            raise Fault(f"the record ends at byte {HEADER_BYTES + len(self.data)}, in a field")
        found = struct.unpack_from(f"<{form}", self.data, self.place)
        self.place += length
        return found[0] if len(found) == 1 else found

    def size(self):
        size = self.take("B")
        if size >= len(FORMS):
            raise Fault(f"data size {size}")
        return size

    def real(self):
        """A real32, as the shortest decimal that is rounded to it."""
        number = self.take("f")
        if not math.isfinite(number):
            raise Fault(f"the number {number}")
        texts = (f"{number:.{digits}g}" for digits in range(1, 10))
        return next(Decimal(text) for text in texts if struct.pack("<f", float(text)) == struct.pack("<f", number))

    def text(self, unit, encoding):
        """A text that ends with a unit of zero bytes."""
        start = self.place
        while any(self.take(f"{unit}s")):
            pass
        try:
            return self.data[start : self.place - unit].decode(encoding)
        except UnicodeDecodeError as fault:
            raise Fault(f"a text is no {encoding}") from fault

    def names(self, count):
        """Names, each a language tag in ASCII and a text in UTF-16, high byte first; the texts."""
        return tuple((self.text(1, "ascii"), self.text(2, "utf-16-be"))[1] for _ in range(count))

    def pass_over(self):
        """What is left is not looked at."""
        self.place = len(self.data)

    def end(self):
        if self.place != len(self.data):
            raise Fault(f"{len(self.data) - self.place} bytes after the last field")


def terminus_locator(fields):
    """Where a terminus is; None of a record that says that it is not valid, whose other bytes mean nothing."""
    _, is_valid, tid, _, kind, size = fields.take("H?BHBB")
    if not is_valid:
        fields.pass_over()
        return None
    if (kind, size) != (1, 1):
        raise Fault(f"locator type {kind} with {size} bytes, and no MCTP endpoint ID")
    return Terminus(tid, fields.take("B"))


def numeric_sensor(fields):
    _, identifier, _, _, _, _, has_names = fields.take("HHHHHB?")
    unit, modifier, *_ = fields.take("Bb" + "BBBbBBB")
    return numeric(fields, SENSOR, identifier, has_names, unit, modifier)


def numeric_effecter(fields):
    _, identifier, _, _, _, _, _, has_names = fields.take("HHHHHHB?")
    unit, modifier, *_ = fields.take("Bb" + "BBBbBB")
    return numeric(fields, EFFECTER, identifier, has_names, unit, modifier)


def numeric(fields, what, identifier, has_names, unit, modifier):
    """What sensors and effecters have alike, from the conversion on; of the rest they have other fields."""
    is_sensor = what == SENSOR
    _, size = fields.take("?"), fields.size()
    resolution, offset = fields.real(), fields.real()
    fields.take("HBB")  # accuracy, tolerances
    if is_sensor:
        fields.take(FORMS[size] + "BB")  # hysteresis, supported thresholds, volatility
    fields.take("ff")  # the intervals
    highest, lowest = fields.take(FORMS[size] * 2)
    form, _ = fields.take("BB")
    if form > REAL:
        raise Fault(f"range field format {form}")
    fields.take((FORMS + "f")[form] * (9 if is_sensor else 5))
    return Numeric(what, identifier, has_names, unit, modifier, size, resolution, offset, lowest, highest)


def state_sensor(fields):
    _, identifier, _, _, _, _, has_names = fields.take("HHHHHB?")
    return States(SENSOR, identifier, has_names, possible_states(fields))


def state_effecter(fields):
    _, identifier, _, _, _, _, _, has_names = fields.take("HHHHHHB?")
    return States(EFFECTER, identifier, has_names, possible_states(fields))


def possible_states(fields):
    """Of each field the number of its state set, and the states that it can have: state s is bit s mod 8 of byte
    s / 8."""
    count, found = fields.take("B"), []
    if not 1 <= count <= MOST_FIELDS:
        raise Fault(f"{count} state fields")
    for _ in range(count):
        state_set, size = fields.take("HB")
        bits = int.from_bytes(fields.take(f"{size}s"), "little")
        found.append((state_set, tuple(state for state in range(8 * size) if bits >> state & 1)))
    return tuple(found)


def names_of(what):
    def auxiliary_names(fields):
        _, identifier, count = fields.take("HHB")
        return Names(what, identifier, tuple(fields.names(fields.take("B")) for _ in range(count)))

    return auxiliary_names


def entity_names(fields):
    _, _, container, shared, count = fields.take("HHHBB")
    if shared:
        raise Fault(f"{shared} shared names")
    return Names("entity", container, (fields.names(count),))


READERS = {
    1: terminus_locator,
    2: numeric_sensor,
    4: state_sensor,
    6: names_of(SENSOR),
    9: numeric_effecter,
    11: state_effecter,
    13: names_of(EFFECTER),
    16: entity_names,
}


def header_of(record):
    """The common header (DSP0248, "Common PDR format")."""
    if len(record) < HEADER_BYTES:
        raise Fault(f"a record of {len(record)} bytes")
    return Header(*struct.unpack_from("<IBBHH", record))


def contents_of(record):
    """What a record says, None where it is of another type than those above, or not valid."""
    reader, fields = READERS.get(header_of(record).kind), Fields(record[HEADER_BYTES:])
    if reader is None:
        return None
    found = reader(fields)
    fields.end()
    return found
