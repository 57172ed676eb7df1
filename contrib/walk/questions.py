"""The questions of a management controller: control messages (DSP0236), and PLDM commands (DSP0240, DSP0248).

Each answers with what it found, or raises `Fault`."""
import struct
import uuid
import zlib
from dataclasses import dataclass

from messages import Fault

CONTROL, PLDM = 0, 1  # MCTP message types
BASE, PLATFORM = 0, 2  # PLDM types
REQUEST, INSTANCE_ID = 0x80, 0x1F
SUCCESS, UNSUPPORTED_COMMAND = 0x00, 0x05

GET_ENDPOINT_ID, GET_ENDPOINT_UUID, GET_MESSAGE_TYPES = 2, 3, 5
GET_TID, GET_VERSION, GET_TYPES, GET_COMMANDS = 2, 3, 4, 5
GET_SENSOR_READING, GET_STATE_SENSOR_READINGS = 0x11, 0x21
GET_NUMERIC_EFFECTER_VALUE, GET_STATE_EFFECTER_STATES = 0x32, 0x3A
GET_REPOSITORY_INFO, GET_PDR = 0x50, 0x51

NEXT_PART, FIRST_PART = 0, 1  # transfer operation flags
START, MIDDLE, END, START_AND_END = 0x00, 0x01, 0x04, 0x05  # transfer flags
FORMS = "BbHhIi"  # a number of each data size, 0 to 5


class Refused(Fault):
    """A completion code other than SUCCESS."""

    def __init__(self, code):
        super().__init__(f"refused with {code:#04x}")
        self.code = code


def unpack(form, data):
    """The fields of all of the data, which begins with them and may go on only where `form` ends with `*`."""
    form, is_front = f"<{form.rstrip('*')}", form.endswith("*")
    length = struct.calcsize(form)
    if len(data) < length or (len(data) > length and not is_front):
        raise Fault(f"{len(data)} bytes where {length} were to come: {data.hex()}")
    fields = struct.unpack_from(form, data)
    return (*fields, data[length:]) if is_front else fields


def crc8(data):
    """DSP0248, "GetPDR command": x^8 + x^2 + x + 1, the most significant bit first."""
    remainder = 0
    for byte in data:
        remainder ^= byte
        for _ in range(8):
            remainder = (remainder << 1 ^ 0x07) & 0xFF if remainder & 0x80 else remainder << 1
    return remainder


assert crc8(b"123456789") == 0xF4  # as catalogues of checksums have it


def bits_of(data):
    return [8 * place + bit for place, byte in enumerate(data) for bit in range(8) if byte >> bit & 1]


@dataclass(frozen=True)
class Repository:
    """What GetPDRRepositoryInfo says of the records."""

    state: int
    records: int
    size: int
    largest: int


class Questions:
    def __init__(self, asker, part):
        self.asker = asker
        self.part = part  # the most bytes of a record that are asked for at once

    def ask(self, kind, head, data=b"", form="*"):
        """The fields of an answer with SUCCESS. `head` is what follows the instance ID's byte in both messages."""
        number = self.asker.instance_id()

        def is_answer(body):
            return body[0] & ~0x20 == number and body[1 : 1 + len(head)] == head and len(body) > 1 + len(head)

        body = self.asker.ask(kind, is_answer, bytes([REQUEST | number]) + head + data)
        code, rest = body[1 + len(head)], body[2 + len(head) :]
        if code != SUCCESS:
            raise Refused(code)
        return unpack(form, rest)

    def control(self, command, form="*"):
        return self.ask(CONTROL, bytes([command]), form=form)

    def pldm(self, kind, command, data=b"", form="*"):
        return self.ask(PLDM, bytes([kind, command]), data, form)

    # ---- Control messages ----

    def endpoint_id(self):
        return self.control(GET_ENDPOINT_ID, "BBB")[0]

    def endpoint_uuid(self):
        """None where the endpoint has none: the command is optional."""
        try:
            return uuid.UUID(bytes=self.control(GET_ENDPOINT_UUID, "16s")[0])
        except Refused as refusal:
            if refusal.code != UNSUPPORTED_COMMAND:
                raise
            return None

    def message_types(self):
        count, types = self.control(GET_MESSAGE_TYPES, "B*")
        return list(unpack(f"{count}B", types))

    # ---- PLDM base (DSP0240) ----

    def terminus_id(self):
        return self.pldm(BASE, GET_TID, form="B")[0]

    def types(self):
        return bits_of(self.pldm(BASE, GET_TYPES, form="8s")[0])

    def version_data(self, kind):
        """The versions of a type, and their CRC-32 where the device gives it."""
        _, flag, data = self.pldm(BASE, GET_VERSION, struct.pack("<IBB", 0, FIRST_PART, kind), "IB*")
        if flag != START_AND_END or len(data) % 4 or not data:
            raise Fault(f"transfer flag {flag} with {len(data)} bytes")
        return data

    def commands(self, kind, version):
        return bits_of(self.pldm(BASE, GET_COMMANDS, bytes([kind]) + version, "32s")[0])

    # ---- Records (DSP0248, "Platform Data Record (PDR) Repository") ----

    def repository(self):
        state, _, _, records, size, largest, _ = self.pldm(PLATFORM, GET_REPOSITORY_INFO, form="B13s13sIIIB")
        return Repository(state, records, size, largest)

    def record(self, handle):
        """The bytes of the record of this handle, 0 for the first one, in as many parts as it takes; the handle of the
        record after it, 0 where there is none."""
        record, transfer, operation, parts = b"", 0, FIRST_PART, 0
        while True:
            change = int.from_bytes(record[6:8], "little") if len(record) >= 8 else 0
            asked = struct.pack("<IIBHH", handle, transfer, operation, self.part, change)
            after, transfer, flag, count, rest = self.pldm(PLATFORM, GET_PDR, asked, "IIBH*")
            part, *crc = unpack(f"{count}s*" if flag == END else f"{count}s", rest)
            record, operation, parts = record + part, NEXT_PART, parts + 1
            if not part or count > self.part or flag not in ((START, START_AND_END) if parts == 1 else (MIDDLE, END)):
                raise Fault(f"part {parts} has {count} bytes and transfer flag {flag}")
            if flag == END and crc != [bytes([crc8(record)])]:
                raise Fault(f"the record's checksum is {crc[0].hex()}, and not {crc8(record):02x}")
            if flag in (END, START_AND_END):
                return record, after

    # ---- Sensors and effecters (DSP0248) ----

    def numbers(self, command, data, form, count):
        """The data size, the fields of this form, and as many numbers of that size."""
        size, *fields, numbers = self.pldm(PLATFORM, command, data, f"B{form}*")
        if size >= len(FORMS):
            raise Fault(f"data size {size}")
        return (size, *fields, *unpack(FORMS[size] * count, numbers))

    def sensor_reading(self, identifier):
        """The data size, the operational state, the present state and the reading."""
        asked = struct.pack("<HB", identifier, 0)
        size, operational, _, present, _, _, reading = self.numbers(GET_SENSOR_READING, asked, "BBBBB", 1)
        return size, operational, present, reading

    def effecter_value(self, identifier):
        """The data size, the operational state, the pending value and the present one."""
        return self.numbers(GET_NUMERIC_EFFECTER_VALUE, struct.pack("<H", identifier), "B", 2)

    def state_sensor_readings(self, identifier):
        """Of each field the operational state and the present one."""
        fields = self.fields(GET_STATE_SENSOR_READINGS, struct.pack("<HBB", identifier, 0, 0), 4)
        return [(operational, present) for operational, present, _, _ in fields]

    def state_effecter_states(self, identifier):
        """Of each field the operational state, the pending state and the present one."""
        return self.fields(GET_STATE_EFFECTER_STATES, struct.pack("<H", identifier), 3)

    def fields(self, command, data, width):
        count, rest = self.pldm(PLATFORM, command, data, "B*")
        numbers = unpack("B" * count * width, rest)
        return [numbers[place : place + width] for place in range(0, len(numbers), width)]


def versions_in(data, has_checksum):
    """The versions in version data, in the order in which they stand there; `Fault` where the CRC-32 is wrong."""
    sums_up = len(data) > 4 and zlib.crc32(data[:-4]).to_bytes(4, "little") == data[-4:]
    if has_checksum and not sums_up:
        raise Fault(f"the CRC-32 of {data[:-4].hex()} is not {data[-4:].hex()}")
    versions = data[:-4] if sums_up else data
    return [versions[place : place + 4] for place in range(0, len(versions), 4)]


def version_text(version):
    """A version as it is spoken: alpha, update, minor and major; of each the nibble F is no digit, an FF no field."""
    alpha, update, minor, major = version
    digits = [f"{byte:02x}".replace("f", "") or None for byte in (major, minor, update)]
    return ".".join(it for it in digits if it) + (chr(alpha) if alpha else "")
