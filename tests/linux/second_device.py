"""A second device, written for this test from DSP0240, DSP0248 and docs/PROTOCOL.md. It shares nothing with the
program: what the program has to answer is what this one answers."""
import struct

EID, KEEP_MS = 9, 1000
BASE, PLATFORM = 0, 2
WIDTHS = {0: "<B", 1: "<b", 2: "<H", 3: "<h", 4: "<I", 5: "<i"}
SIZE_NAMES = ("uint8", "sint8", "uint16", "sint16", "uint32", "sint32")
VERSIONS = {BASE: bytes.fromhex("00f0f0f1"), PLATFORM: bytes.fromhex("00f2f1f100f3f1f1")}
UPDATE_TIME, OEM_UPDATE_TIME = bytes.fromhex("20261124000000000000000001"), bytes(13)
MOST_PART_BYTES = 303

# sensor: data size, states (present, previous, event), reading; 0x7D7E7D7E and others have bytes that a line escapes
NUMERIC_SENSORS = {
    1: (0, (1, 1, 1), 40),
    2: (1, (8, 1, 8), -5),
    3: (2, (1, 0, 1), 4000),
    4: (3, (1, 1, 0), -300),
    5: (4, (2, 1, 2), 0x7D7E7D7E),
    6: (5, (1, 1, 1), -70000),
}
STATE_SENSORS = {10: [(0, 1, 1, 0), (0, 2, 1, 2)]}  # fields: operational, present, previous, event

# PLDM completion codes
SUCCESS, INVALID_DATA, INVALID_LENGTH, UNSUPPORTED_COMMAND, INVALID_TYPE = 0x00, 0x02, 0x03, 0x05, 0x20


class Refused(Exception):
    """A completion code other than SUCCESS. Its answer has no data."""

    def __init__(self, code):
        super().__init__(code)
        self.code = code


def need(holds, code):
    if not holds:
        raise Refused(code)


def record(handle, kind, body, change=0):
    """A platform data record (DSP0248, "Common PDR format")."""
    return struct.pack("<IBBHH", handle, 1, kind, change, len(body)) + body


RECORDS = {
    1: record(1, 1, b"\x01" + bytes(33)),
    2: record(2, 0x7E, bytes((i * 7 + 0x7C) % 256 for i in range(596)), change=0x7D7E),
    3: record(3, 127, bytes(range(0x70, 0x90)) * 4),
}


def crc8(data):
    """DSP0248, "GetPDR command": x^8 + x^2 + x + 1, the most significant bit first."""
    remainder = 0
    for byte in data:
        remainder ^= byte
        for _ in range(8):
            remainder = (remainder << 1 ^ 0x07) & 0xFF if remainder & 0x80 else remainder << 1
    return remainder


assert crc8(b"123456789") == 0xF4  # as catalogues of checksums have it


def bit_field(numbers, width):
    field = bytearray(width)
    for number in numbers:
        field[number // 8] |= 1 << number % 8
    return bytes(field)


class SecondDevice:
    """The state of the device, and what it answers."""

    def __init__(self):
        self.tid = 1
        self.numeric = {1: [0, 0, 100, 10], 3: [3, -500, 500, -20]}  # data size, least, greatest, value
        self.states = {2: [[(1, 2), (1, 2)], [1, 1]]}  # allowed states and the state of each field
        self.commands = {
            (BASE, 0x01): (1, self.set_tid),
            (BASE, 0x02): (0, lambda data: bytes([self.tid])),
            (BASE, 0x03): (6, self.get_version),
            (BASE, 0x04): (0, lambda data: bit_field(VERSIONS, 8)),
            (BASE, 0x05): (5, self.get_commands),
            (PLATFORM, 0x11): (3, self.get_sensor_reading),
            (PLATFORM, 0x21): (4, self.get_state_sensor_readings),
            (PLATFORM, 0x31): (None, self.set_numeric_effecter),
            (PLATFORM, 0x32): (2, self.get_numeric_effecter),
            (PLATFORM, 0x39): (None, self.set_state_effecter),
            (PLATFORM, 0x3A): (2, self.get_state_effecter),
            (PLATFORM, 0x50): (0, self.get_repository_info),
            (PLATFORM, 0x51): (13, self.get_pdr),
        }

    def perform(self, request):
        """The answer to a request; both begin with the byte of the instance ID."""
        head = bytes([request[0] & 0x1F, request[1], request[2]])
        try:
            return head + bytes([SUCCESS]) + self.data_for(request[1] & 0x3F, request[2], request[3:])
        except Refused as refused:
            return head + bytes([refused.code])

    def data_for(self, kind, command, data):
        need(kind in VERSIONS, INVALID_TYPE)
        need((kind, command) in self.commands, UNSUPPORTED_COMMAND)
        length, handler = self.commands[kind, command]
        need(length is None or len(data) == length, INVALID_LENGTH)
        return handler(data)

    def set_tid(self, data):
        need(data[0] not in (0, 255), INVALID_DATA)
        self.tid = data[0]
        return b""

    def get_version(self, data):
        operation, kind = data[4], data[5]
        need(operation <= 1, 0x81)
        need(operation == 1, 0x80)
        need(kind in VERSIONS, 0x83)
        return bytes(4) + b"\x05" + VERSIONS[kind]

    def get_commands(self, data):
        need(data[0] in VERSIONS, 0x83)
        return bit_field([command for kind, command in self.commands if kind == data[0]], 32)

    def get_sensor_reading(self, data):
        size, states, value = found(NUMERIC_SENSORS, data)
        return bytes([size, 0, 0, *states]) + struct.pack(WIDTHS[size], value)

    def get_state_sensor_readings(self, data):
        fields = found(STATE_SENSORS, data)
        return bytes([len(fields)]) + b"".join(map(bytes, fields))

    def set_numeric_effecter(self, data):
        need(len(data) >= 4, INVALID_LENGTH)
        size = data[2]
        need(size in WIDTHS, INVALID_DATA)
        need(len(data) == 3 + struct.calcsize(WIDTHS[size]), INVALID_LENGTH)
        effecter = found(self.numeric, data)
        value = struct.unpack(WIDTHS[size], data[3:])[0]
        need(size == effecter[0] and effecter[1] <= value <= effecter[2], INVALID_DATA)
        effecter[3] = value
        return b""

    def get_numeric_effecter(self, data):
        size, _, _, value = found(self.numeric, data)
        return bytes([size, 1]) + 2 * struct.pack(WIDTHS[size], value)

    def set_state_effecter(self, data):
        need(len(data) >= 3, INVALID_LENGTH)
        count = data[2]
        need(1 <= count <= 8, INVALID_DATA)
        need(len(data) in (3 + 2 * count, 19), INVALID_LENGTH)
        allowed, values = found(self.states, data)
        fields = [(data[3 + 2 * i], data[4 + 2 * i]) for i in range(count)]
        need(count == len(allowed) and all(request <= 1 for request, _ in fields), INVALID_DATA)
        need(all(not request or state in states for (request, state), states in zip(fields, allowed)), 0x81)
        for place, (request, state) in enumerate(fields):
            if request:
                values[place] = state
        return b""

    def get_state_effecter(self, data):
        _, values = found(self.states, data)
        return bytes([len(values)]) + b"".join(bytes([1, value, value]) for value in values)

    def get_repository_info(self, data):
        lengths = [len(it) for it in RECORDS.values()]
        sizes = struct.pack("<III", len(lengths), sum(lengths), max(lengths))
        return b"\0" + UPDATE_TIME + OEM_UPDATE_TIME + sizes + b"\0"

    def get_pdr(self, data):
        handle, offset, operation, count, _ = struct.unpack("<IIBHH", data)
        need(count > 0, INVALID_DATA)
        need(operation <= 1, 0x81)
        handles = list(RECORDS)
        handle = handle or handles[0]
        need(handle in RECORDS, 0x82)
        whole = RECORDS[handle]
        need(operation == 1 or 0 < offset < len(whole), 0x80)
        offset = 0 if operation == 1 else offset
        part = whole[offset : offset + min(count, MOST_PART_BYTES)]
        is_last = offset + len(part) == len(whole)
        flag = {(True, True): 5, (True, False): 0, (False, True): 4, (False, False): 1}[offset == 0, is_last]
        after = dict(zip(handles, handles[1:])).get(handle, 0)
        head = struct.pack("<IIBH", after, 0 if is_last else offset + len(part), flag, len(part))
        return head + part + (bytes([crc8(whole)]) if flag == 4 else b"")


def found(table, data):
    """The sensor or effecter whose ID the data begins with; 0x80 says that there is none."""
    number = struct.unpack("<H", data[:2])[0]
    need(number in table, 0x80)
    return table[number]


def description(assigned=False):
    """The same device for the program, in the form of docs/PROTOCOL.md; a bus owner may assign its endpoint ID."""
    device = SecondDevice()
    lines = [
        "# The device of the test against Linux; tests/linux/run wrote this.",
        f"eid = {EID}\nkeep_ms = {KEEP_MS}\ntid = {device.tid}",
        *(f'version{kind} = "{version.hex()}"' for kind, version in VERSIONS.items()),
        f'update_time = "{UPDATE_TIME.hex()}"\noem_update_time = "{OEM_UPDATE_TIME.hex()}"',
    ]
    for number, (size, states, value) in NUMERIC_SENSORS.items():
        lines.append(f'[[numeric_sensor]]\nid = {number}\nsize = "{SIZE_NAMES[size]}"')
        lines.append(f"states = {list(states)}\nvalue = {value}")
    for number, fields in STATE_SENSORS.items():
        lines.append(f"[[state_sensor]]\nid = {number}\nfields = {[list(it) for it in fields]}")
    for number, (size, least, greatest, value) in device.numeric.items():
        lines.append(f'[[numeric_effecter]]\nid = {number}\nsize = "{SIZE_NAMES[size]}"')
        lines.append(f"min = {least}\nmax = {greatest}\nvalue = {value}")
    for number, (allowed, values) in device.states.items():
        lines.append(f"[[state_effecter]]\nid = {number}\nallowed = {[list(it) for it in allowed]}\nvalues = {values}")
    lines += [f'[[pdr]]\nhex = "{it.hex()}"' for it in RECORDS.values()]
    lines += ["[control]\nassigned = true"] if assigned else []
    return "\n".join(lines) + "\n"
