"""The table of what a device has: each sensor and effecter with its name, its value or state, and how it stands."""
from dataclasses import dataclass

# The base units of DSP0248, "Sensor units", that things are measured in most.
UNITS = {
    **{0: "", 1: "", 2: "degrees C", 5: "V", 6: "A", 7: "W", 8: "J", 18: "CFM", 19: "RPM", 20: "Hz", 21: "s"},
    **{60: "bits", 61: "bytes", 65: "%", 66: "Pa", 67: "counts"},
}
# DSP0248: "presentState" of a sensor, "sensorOperationalState", "effecterOperationalState".
SENSOR_STATES = (
    *("unknown", "normal", "warning", "critical", "fatal", "lower warning", "lower critical", "lower fatal"),
    *("upper warning", "upper critical", "upper fatal"),
)
SENSOR_OPERATIONAL = (
    *("enabled", "disabled", "unavailable", "status unknown", "failed", "initializing", "shutting down", "in test"),
)
PENDING = 0
EFFECTER_STATES = ("update pending", *SENSOR_OPERATIONAL)


@dataclass(frozen=True)
class Row:
    what: str
    name: str
    value: str
    state: str


def named(names, number):
    return names[number] if number < len(names) else f"state {number}"


def value_text(numeric, reading):
    value = format(numeric.value(reading), "f")
    return f"{value} {UNITS.get(numeric.unit, f'(unit {numeric.unit})')}".rstrip()


def state_text(state, state_set, possible):
    """A state by its number in its state set (DSP0249), and those that are possible."""
    return f"state {state} (set {state_set}: {', '.join(map(str, possible))})"


def table_text(title, rows):
    """The lines of the title, and after a blank one a line for each row, in columns."""
    cells = [(row.what, row.name or "-", row.value or "-", row.state) for row in rows]
    widths = [max((len(it[column]) for it in cells), default=0) for column in range(3)]
    lines = ["  ".join((*(f"{text:<{width}}" for text, width in zip(it, widths)), it[3])) for it in cells]
    return "".join(f"{line.rstrip()}\n" for line in (*title, *([""] if lines else []), *lines))
