"""What a sensor or an effecter is asked, and what has to hold of the answer by its record."""
from records import SENSOR, Numeric
from table import EFFECTER_STATES, PENDING, SENSOR_OPERATIONAL, SENSOR_STATES, Row, named, state_text, value_text


class Readings:
    def __init__(self, checks, questions, names):
        self.checks, self.ask = checks, questions
        self.names = {(it.what, it.identifier): it.names for it in names}

    def rows(self, thing):
        """The rows of the table for a sensor or an effecter: one, or one for each of its state fields."""
        what, is_sensor = f"{thing.what} {thing.identifier}", thing.what == SENSOR
        if isinstance(thing, Numeric):
            return (self.numeric_sensor if is_sensor else self.numeric_effecter)(thing, what)
        return (self.state_sensor if is_sensor else self.state_effecter)(thing, what)

    def name(self, thing, place=0):
        names = self.names.get((thing.what, thing.identifier), ())
        return names[place][0] if place < len(names) and names[place] else ""

    def number(self, record, what, size, number):
        """Checks a number against the record: its data size, and the range."""
        self.checks.equal(f"{what}: the data size is that of its record", size, record.size)
        is_within = record.lowest <= number <= record.highest
        self.checks.check(f"{what}: {number} is from {record.lowest} to {record.highest}", is_within)

    def numeric_sensor(self, record, what):
        got = self.checks.answer(f"{what}: GetSensorReading", self.ask.sensor_reading, record.identifier)
        if got is None:
            return []
        size, operational, present, reading = got
        self.number(record, what, size, reading)
        state = named(SENSOR_STATES, present)
        if operational:
            state += f", {named(SENSOR_OPERATIONAL, operational)}"
        return [Row(what, self.name(record), value_text(record, reading), state)]

    def numeric_effecter(self, record, what):
        got = self.checks.answer(f"{what}: GetNumericEffecterValue", self.ask.effecter_value, record.identifier)
        if got is None:
            return []
        size, operational, pending, present = got
        self.number(record, what, size, present)
        if operational == PENDING:
            self.number(record, f"{what}, pending", size, pending)
        state = named(EFFECTER_STATES, operational)
        return [Row(what, self.name(record), value_text(record, present), state)]

    def state_sensor(self, record, what):
        got = self.checks.answer(f"{what}: GetStateSensorReadings", self.ask.state_sensor_readings, record.identifier)
        return self.fields(record, what, got, SENSOR_OPERATIONAL)

    def state_effecter(self, record, what):
        got = self.checks.answer(f"{what}: GetStateEffecterStates", self.ask.state_effecter_states, record.identifier)
        return self.fields(record, what, got, EFFECTER_STATES)

    def fields(self, record, what, got, operational_names):
        """Checks the fields of an answer against the possible states of the record. Of each field the operational state
        is first, and the present one last."""
        if got is None:
            return []
        if not self.checks.equal(f"{what}: as many fields as in its record", len(got), len(record.fields)):
            return []
        rows = []
        for place, ((operational, *states), (state_set, possible)) in enumerate(zip(got, record.fields)):
            for state in dict.fromkeys(states):
                self.checks.check(f"{what}: state {state} is one of {possible}", state in possible)
            value = state_text(states[-1], state_set, possible)
            rows.append(Row(what, self.name(record, place), value, named(operational_names, operational)))
        return rows
