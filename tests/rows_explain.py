"""What `--explain` adds on standard error: each fault of a description, each of a line, each warning.

Standard output and the exit status have to be those without it, and so has the first line on standard error.
"""
ASKER = "requester 8 timeout 200 tries 3\n"
TIME = "0" * 26
TOP = f"""eid = 9
keep_ms = 1000
tid = 1
version0 = "00f0f0f1"
version2 = "00f2f1f1"
update_time = "{TIME}"
oem_update_time = "{TIME}"
"""
SENSOR = '[[numeric_sensor]]\nid = 1\nsize = "uint8"\nstates = [1, 1, 1]\nvalue = 40\n'
STATES = "[[state_sensor]]\nid = 2\nfields = [[0, 1, 1, 1]]\n"
EFFECTER = '[[numeric_effecter]]\nid = 1\nsize = "uint8"\nmin = 0\nmax = 100\nvalue = 10\n'
SWITCH = "[[state_effecter]]\nid = 2\nallowed = [[1, 2], [1, 2]]\nvalues = [1, 1]\n"
RECORD = '[[pdr]]\nhex = "01000000010100000100ff"\n'
ALL = SENSOR + STATES + EFFECTER + SWITCH + RECORD
SIZES = "'uint8', 'sint8', 'uint16', 'sint16', 'uint32' or 'sint32'"

# a part of a description, what stands in its place, the fault's name, and the explanation
DESCRIPTIONS = [
    ("eid = 9", "eid =", "Toml", "line 1, column 6: invalid value, expected a string, number, boolean, date-time, array or inline table"),
    ("tid = 1\n", "tid = 1\ntid = 2\n", "Toml", "line 4, column 1: duplicate key"),
    ("eid = 9\n", "", "MissingKey", "eid: the key is missing, needed is an integer from 8 to 254"),
    ("eid = 9", "eid = 7", "OutOfRange", "line 1, column 1: eid: found 7, allowed is an integer from 8 to 254"),
    ("eid = 9", "# an endpoint\n\n  eid = 255", "OutOfRange", "line 3, column 3: eid: found 255, allowed is an integer from 8 to 254"),
    ("eid = 9", 'eid = "9"', "WrongKind", "line 1, column 1: eid: found '9', allowed is an integer from 8 to 254"),
    ("keep_ms = 1000", "keep_ms = 60001", "OutOfRange", "line 2, column 1: keep_ms: found 60001, allowed is an integer from 1 to 60000"),
    ("keep_ms = 1000", "keep_ms = 1.5", "WrongKind", "line 2, column 1: keep_ms: found a float, allowed is an integer from 1 to 60000"),
    ("tid = 1", "window = 0\ntid = 1", "OutOfRange", "line 3, column 1: window: found 0, allowed is an integer from 1 to 32"),
    ("tid = 1", "window = 33\ntid = 1", "OutOfRange", "line 3, column 1: window: found 33, allowed is an integer from 1 to 32"),
    ("tid = 1", "window = '1'\ntid = 1", "WrongKind", "line 3, column 1: window: found '1', allowed is an integer from 1 to 32"),
    ("tid = 1", "window = 'x'\ntid = 1", "WrongKind", "line 3, column 1: window: found 'x', allowed is an integer from 1 to 32"),
    ("tid = 1", "busy = 'none'\ntid = 1", "OutOfRange", "line 3, column 1: busy: found 'none', allowed is 'all' or 'sets'"),
    ("tid = 1", "busy = 3\ntid = 1", "WrongKind", "line 3, column 1: busy: found 3, allowed is 'all' or 'sets'"),
    # the keys are looked at in their order, wherever they stand: keep_ms, window, busy, tid
    ("keep_ms = 1000", "window = 'x'\nkeep_ms = 0", "OutOfRange", "line 3, column 1: keep_ms: found 0, allowed is an integer from 1 to 60000"),
    ("tid = 1", "busy = 3\nwindow = 0\ntid = 1", "OutOfRange", "line 4, column 1: window: found 0, allowed is an integer from 1 to 32"),
    ("tid = 1", "tid = true\nbusy = ''", "OutOfRange", "line 4, column 1: busy: found '', allowed is 'all' or 'sets'"),
    ("tid = 1", "tid = true", "WrongKind", "line 3, column 1: tid: found a boolean, allowed is an integer from 0 to 254"),
    ('"00f0f0f1"', '"00f0f0f"', "BadHex", "line 4, column 1: version0: found '00f0f0f', allowed is hex text of 1 to 8 versions of 4 bytes"),
    ('"00f2f1f1"', '"00f2f1"', "OutOfRange", "line 5, column 1: version2: found '00f2f1', allowed is hex text of 1 to 8 versions of 4 bytes"),
    ("tid = 1", "version_checksum = 1\ntid = 1", "WrongKind", "line 3, column 1: version_checksum: found 1, allowed is true or false"),
    (
        '"00f0f0f1"',
        f'"{"00f0f0f1" * 8}"\nversion_checksum = true',
        "OutOfRange",
        f"line 4, column 1: version0: found '{'00f0f0f1' * 5}..', allowed is hex text of 1 to 7 versions of 4 bytes, since version_checksum appends 4 more",
    ),
    ("tid = 1", "records = 1\ntid = 1", "WrongKind", "line 3, column 1: records: found 1, allowed is a table"),
    (RECORD, RECORD + "[records]\nname = ''\n", "OutOfRange", "line 29, column 1: records.name: found '', allowed is a text of 1 to 127 printed ASCII characters"),
    (RECORD, RECORD + "[records]\nentity = [1, 2]\n", "OutOfRange", "line 29, column 1: records.entity: found an array of 2, allowed is an array of 3 integers from 0 to 65535"),
    (
        SENSOR,
        SENSOR + 'unit = "rpms"\n[records]\n',
        "OutOfRange",
        "line 13, column 1: numeric_sensor[0].unit: found 'rpms', allowed is an integer from 0 to 255, or a unit by its name, as 'degrees_c' or 'rpm'",
    ),
    (SENSOR, SENSOR + "warning_high = 256\n[records]\n", "OutOfRange", "line 13, column 1: numeric_sensor[0].warning_high: found 256, allowed is an integer from 0 to 255"),
    (EFFECTER, EFFECTER + "modifier = 128\n[records]\n", "OutOfRange", "line 22, column 1: numeric_effecter[0].modifier: found 128, allowed is an integer from -128 to 127"),
    (SWITCH, SWITCH + "state_set = '1'\n[records]\n", "WrongKind", "line 26, column 1: state_effecter[0].state_set: found '1', allowed is an integer from 0 to 65535"),
    (f'\nupdate_time = "{TIME}"', '\nupdate_time = ""', "OutOfRange", "line 6, column 1: update_time: found '', allowed is hex text of 13 bytes"),
    (f'oem_update_time = "{TIME}"', "oem_update_time = [1]", "WrongKind", "line 7, column 1: oem_update_time: found an array of 1, allowed is hex text of 13 bytes"),
    (SENSOR, "numeric_sensor = 1\n", "WrongKind", "line 8, column 1: numeric_sensor: found 1, allowed is a list of at most 1000 tables"),
    (SENSOR, "numeric_sensor = [\n  1,\n]\n", "WrongKind", "line 9, column 3: numeric_sensor[0]: found 1, allowed is a table"),
    (
        SENSOR,
        f"numeric_sensor = [{','.join(['0'] * 1001)}]\n",
        "OutOfRange",
        "line 8, column 1: numeric_sensor: found an array of 1001, allowed is a list of at most 1000 tables",
    ),
    (
        SENSOR,
        'numeric_sensor = [ { id = 1, size = "u8", states = [1, 1, 1], value = 40 } ]\n',
        "OutOfRange",
        f"line 8, column 30: numeric_sensor[0].size: found 'u8', allowed is {SIZES}",
    ),
    ("id = 1\nsize", "size", "MissingKey", "line 8, column 1: numeric_sensor[0].id: the key is missing, needed is an integer from 0 to 65535"),
    ("id = 1\nsize", '"id" = -1\nsize', "OutOfRange", "line 9, column 1: numeric_sensor[0].id: found -1, allowed is an integer from 0 to 65535"),
    ("[1, 1, 1]", "[1, 11, 1]", "OutOfRange", "line 11, column 14: numeric_sensor[0].states[1]: found 11, allowed is an integer from 0 to 10"),
    ("[1, 1, 1]", '[1, "a", 1]', "WrongKind", "line 11, column 14: numeric_sensor[0].states[1]: found 'a', allowed is an integer"),
    ("[1, 1, 1]", "[1, 1]", "OutOfRange", "line 11, column 1: numeric_sensor[0].states: found an array of 2, allowed is an array of 3 integers from 0 to 10"),
    ("value = 40", "value = 256", "OutOfRange", "line 12, column 1: numeric_sensor[0].value: found 256, allowed is an integer from 0 to 255"),
    (STATES, STATES.replace("id = 2", "id = 1"), "Duplicate", "line 13, column 1: state_sensor[0]: found 1, which numeric_sensor[0] has already"),
    ("[[0, 1, 1, 1]]", "[[0, 1, 1]]", "OutOfRange", "line 15, column 11: state_sensor[0].fields[0]: found an array of 3, allowed is an array of 4 integers from 0 to 255"),
    ("[[0, 1, 1, 1]]", "[\n  [0, 1, 1, 1],\n  [0, 256, 1, 1],\n]", "OutOfRange", "line 17, column 7: state_sensor[0].fields[1][1]: found 256, allowed is an integer from 0 to 255"),
    ("[[0, 1, 1, 1]]", "[]", "OutOfRange", "line 15, column 1: state_sensor[0].fields: found an array of 0, allowed is an array of 1 to 8 arrays of 4 states"),
    ("[[0, 1, 1, 1]]", "[[0], 1]", "WrongKind", "line 15, column 16: state_sensor[0].fields[1]: found 1, allowed is an array of integers"),
    (EFFECTER, EFFECTER + EFFECTER, "Duplicate", "line 22, column 1: numeric_effecter[1]: found 1, which numeric_effecter[0] has already"),
    ("max = 100", "max = 256", "OutOfRange", "line 20, column 1: numeric_effecter[0].max: found 256, allowed is an integer from 0 to 255"),
    ("min = 0\nmax = 100", "min = 20\nmax = 10", "OutOfRange", "line 20, column 1: numeric_effecter[0].max: found 10, allowed is an integer from 20 to 255"),
    ("value = 10", "value = 101", "OutOfRange", "line 21, column 1: numeric_effecter[0].value: found 101, allowed is an integer from 0 to 100"),
    (SWITCH, SWITCH.replace("id = 2", "id = 1"), "Duplicate", "line 22, column 1: state_effecter[0]: found 1, which numeric_effecter[0] has already"),
    ("values = [1, 1]", "values = [1, 3]", "OutOfRange", "line 25, column 14: state_effecter[0].values[1]: found 3, allowed is a state of the field's array in allowed"),
    ("values = [1, 1]", "values = [1]", "OutOfRange", "line 25, column 1: state_effecter[0].values: found an array of 1, allowed is as many states as allowed has arrays"),
    ("[[1, 2], [1, 2]]", "[[], [1, 2]]", "OutOfRange", "line 24, column 12: state_effecter[0].allowed[0]: found an array of 0, allowed is an array of 1 to 256 integers from 0 to 255"),
    ('hex = "0100', 'hex = "010', "BadHex", "line 27, column 1: pdr[0].hex: found '0100000010100000100ff', allowed is two hex digits for each byte"),
    (RECORD, '[[pdr]]\nhex = "0100"\n', "BadRecord", "line 27, column 1: pdr[0].hex: the record has fewer bytes than its header of 10"),
    ('"01000000', '"00000000', "BadRecord", "line 27, column 1: pdr[0].hex: the record's handle, bytes 0 to 3, is 0: expected another"),
    ('"0100000001', '"0100000002', "BadRecord", "line 27, column 1: pdr[0].hex: the record's header version, byte 4, is not 1"),
    (
        "0100ff",
        "0200ff",
        "BadRecord",
        "line 27, column 1: pdr[0].hex: the count of data, bytes 8 and 9, lowest first, is not that of the bytes after the header",
    ),
    (RECORD, RECORD + RECORD, "Duplicate", "line 28, column 1: pdr[1]: found 1, which pdr[0] has already"),
    # each key that has to be there, and what else is refused of the lists
    (SENSOR, SENSOR.replace('size = "uint8"\n', ""), "MissingKey", "line 8, column 1: numeric_sensor[0].size: the key is missing, needed is the name of a data size"),
    ("states = [1, 1, 1]\n", "", "MissingKey", "line 8, column 1: numeric_sensor[0].states: the key is missing, needed is an array of 3 states"),
    ("value = 40\n", "", "MissingKey", "line 8, column 1: numeric_sensor[0].value: the key is missing, needed is an integer of that size"),
    ("fields = [[0, 1, 1, 1]]\n", "", "MissingKey", "line 13, column 1: state_sensor[0].fields: the key is missing, needed is an array of 1 to 8 arrays of 4 states"),
    ("min = 0\n", "", "MissingKey", "line 16, column 1: numeric_effecter[0].min: the key is missing, needed is an integer of that size"),
    ("max = 100\n", "", "MissingKey", "line 16, column 1: numeric_effecter[0].max: the key is missing, needed is an integer not below min"),
    ("value = 10\n", "", "MissingKey", "line 16, column 1: numeric_effecter[0].value: the key is missing, needed is an integer from min to max"),
    ("allowed = [[1, 2], [1, 2]]\n", "", "MissingKey", "line 22, column 1: state_effecter[0].allowed: the key is missing, needed is an array of 1 to 8 arrays of states"),
    ("values = [1, 1]\n", "", "MissingKey", "line 22, column 1: state_effecter[0].values: the key is missing, needed is a state for each field"),
    ('hex = "01000000010100000100ff"\n', "", "MissingKey", "line 26, column 1: pdr[0].hex: the key is missing, needed is a record as hex text"),
    ("values = [1, 1]", "values = []", "OutOfRange", "line 25, column 1: state_effecter[0].values: found an array of 0, allowed is as many states as allowed has arrays"),
    (
        "values = [1, 1]",
        "values = [1, 1, 1, 1, 1, 1, 1, 1, 1]",
        "OutOfRange",
        "line 25, column 1: state_effecter[0].values: found an array of 9, allowed is an array of 0 to 8 integers from 0 to 255",
    ),
    ("values = [1, 1]", "values = [1, 256]", "OutOfRange", "line 25, column 14: state_effecter[0].values[1]: found 256, allowed is an integer from 0 to 255"),
    ("[[1, 2], [1, 2]]", "[]", "OutOfRange", "line 24, column 1: state_effecter[0].allowed: found an array of 0, allowed is an array of 1 to 8 arrays of states"),
    ("[[1, 2], [1, 2]]", "[[1, 256]]", "OutOfRange", "line 24, column 16: state_effecter[0].allowed[0][1]: found 256, allowed is an integer from 0 to 255"),
    ("[[1, 2], [1, 2]]", "[[1, 'x']]", "WrongKind", "line 24, column 16: state_effecter[0].allowed[0][1]: found 'x', allowed is an integer"),
    (SENSOR, SENSOR + "entity = [1, 2, 70000]\n[records]\n", "OutOfRange", "line 13, column 17: numeric_sensor[0].entity[2]: found 70000, allowed is an integer from 0 to 65535"),
    (STATES, STATES + STATES, "Duplicate", "line 16, column 1: state_sensor[1]: found 2, which state_sensor[0] has already"),
    (
        RECORD,
        RECORD.replace("01000000", "ffffffff", 1) + "[records]\n",
        "OutOfRange",
        "line 28, column 1: records: found a table, allowed is a table with handles and room left for its records",
    ),
]

# lines of a capture after a comment, the number and the name of the fault, and the explanation
CAPTURES = [
    ("0 1 2", 2, "Words", "wrong words: '2': expected nothing after a moment and a packet in hex"),
    ("x", 2, "Number", "wrong number: 'x': expected a moment in milliseconds from 0 to 4000000000000000"),
    ("4000000000000001 01", 2, "Number", "wrong number: '4000000000000001': expected a moment in milliseconds from 0 to 4000000000000000"),
    ("010908c801800002", 2, "Number", "wrong number: '010908c801800002': expected a moment in milliseconds before the packet"),
    ("5\n4", 3, "BackInTime", "the moment '4' is before that of an earlier line, 5"),
    ("0 01090", 2, "BadHex", "wrong hex: '01090' has 5 hex digits: expected two for each byte"),
    ("0 0109zz", 2, "BadHex", "wrong hex: 'z', character 5 of the packet, is no hex digit"),
    ("0 0109\t", 2, "BadHex", "wrong hex: '\\x09', character 5 of the packet, is no hex digit"),
    ("x" * 4097, 2, "LongLine", "the line has 4097 bytes or more: at most 4096 are allowed"),
    ("y" * 50, 2, "Number", f"wrong number: '{'y' * 40}..': expected a moment in milliseconds from 0 to 4000000000000000"),
]

ACTIONS = "'open', 'tick', 'req', 'rep', 'sense', 'restart' or 'busy'"
COMMANDS = (
    "'gettid', 'settid', 'getversion', 'gettypes', 'getcommands', 'sensor', 'statesensors', 'setnum', 'getnum', "
    "'setstate', 'getstate', 'pdrinfo' or 'getpdr'"
)
FORM = "requester EID timeout MS tries N"
EID = "an endpoint ID from 8 to 254"
MOMENT = "a moment in milliseconds from 0 to 4000000000000000"
TIMEOUT = "a timeout in milliseconds from 0 to 60000"
BYTE = "a number from 0 to 255"
ID = "an ID or a count from 0 to 65535"
HANDLE = "a handle from 0 to 4294967295"
STATE = "'-' or a state from 0 to 255"
NUMBER = "a number of at most 16 digits"
VALUE = "a value of at most 16 digits"
UINT8 = "a value of the size 'uint8', 0 to 255"

# a line of a schedule after one requester's that has a wrong word: what is found, which is nothing where the line ended,
# what is expected there, and the word that is suggested, if any
WRONG_WORDS = [
    ("foo 1", "foo", "'requester' or 'at'", None),
    ("requestor 9", "requestor", "'requester' or 'at'", "requester"),
    ("requester", None, EID, None),
    ("requester 10", None, "'timeout'", None),
    ("requester 10 timeout", None, TIMEOUT, None),
    ("requester 10 timeout 200", None, "'tries'", None),
    ("requester 10 timeout 200 tries", None, BYTE, None),
    ("requester 10 timeout 200 tries 3 4 5", "4", "the end of the line", None),
    ("requester 10 timout 200 tries 3", "timout", "'timeout'", None),
    ("requester 10 timeout 200 trys 3", "trys", "'tries'", None),
    ("at", None, MOMENT, None),
    ("at 0", None, ACTIONS, None),
    ("at 0 open", None, EID, None),
    ("at 0 open 8", None, COMMANDS, None),
    ("at 0 reg 0", "reg", ACTIONS, "req"),
    ("at 0 go 0", "go", ACTIONS, None),
    ("at 0 open 8 getTID", "getTID", COMMANDS, "gettid"),
    ("at 0 open 8 reset", "reset", COMMANDS, None),
    ("at 0 open 8 gettid 1", "1", "the end of the line", None),
    ("at 0 open 8 settid", None, BYTE, None),
    ("at 0 open 8 settid 1 2", "2", "the end of the line", None),
    ("at 0 open 8 sensor", None, ID, None),
    ("at 0 open 8 setstate", None, ID, None),
    ("at 0 open 8 setstate 1", None, STATE, None),
    ("at 0 open 8 setstate 1 1 2 3 4 5 6 7 8 9", "9", "the end of the line", None),
    ("at 0 open 8 setnum 1", None, SIZES, None),
    ("at 0 open 8 setnum 1 uint8", None, VALUE, None),
    ("at 0 open 8 setnum 1 uint9 3", "uint9", SIZES, "uint8"),
    ("at 0 open 8 getpdr", None, HANDLE, None),
    ("at 0 open 8 getpdr 1 0", None, "'first' or 'next'", None),
    ("at 0 open 8 getpdr 1 0 first", None, ID, None),
    ("at 0 open 8 getpdr 1 0 frist 4", "frist", "'first' or 'next'", "first"),
    ("at 0 tick", None, EID, None),
    ("at 0 req", None, NUMBER, None),
    ("at 0 rep 0", None, BYTE, None),
    ("at 0 rep 0 1 2", "2", "the end of the line", None),
    ("at 0 sense 1", None, VALUE, None),
    ("at 0 restart 0", "0", "the end of the line", None),
    # a wrong word or count of words is reported before a wrong number
    ("at x tick", None, EID, None),
    ("at 0 open 7 setnum x uint9 3", "uint9", SIZES, "uint8"),
]

# the same of a line that has a wrong number
WRONG_NUMBERS = [
    ("requester 300 timeout 200 tries 3", "300", EID),
    ("requester 10 timeout 60001 tries 3", "60001", TIMEOUT),
    ("requester 10 timeout 200 tries 256", "256", BYTE),
    ("at 0 open 8 settid 256", "256", BYTE),
    ("at 0 open 8 sensor 65536", "65536", ID),
    ("at 0 open 8 setnum 1 uint8 300", "300", UINT8),
    ("at 0 open 8 setnum 1 sint16 -32769", "-32769", "a value of the size 'sint16', -32768 to 32767"),
    ("at 0 open 8 setnum 1 uint8 x", "x", VALUE),
    ("at 0 open 8 setnum x uint8 30", "x", ID),
    ("at 0 open 8 setstate 1 - 256", "256", STATE),
    ("at 0 open 8 getpdr 4294967296 0 next 1", "4294967296", HANDLE),
    ("at 0 open 8 getpdr 0 0 next 65536", "65536", ID),
    ("at 0 open 7 gettid", "7", EID),
    ("at x open 8 gettid", "x", MOMENT),
    ("at 0 tick x", "x", EID),
    ("at 0 req -1", "-1", NUMBER),
    ("at 0 rep 0 256", "256", BYTE),
    ("at 0 sense 1 1e3", "1e3", VALUE),
    ("at 0 busy x", "x", NUMBER),
    ("at x restart", "x", MOMENT),
    # of several the first is reported: those of a command or an action, then the endpoint's ID, then the moment
    ("at x open 7 settid 256", "256", BYTE),
    ("at x open 7 gettid", "7", EID),
]


def word_text(found, expected, meant):
    """What is said of a wrong word, or of a line that ends too soon."""
    if found is None:
        return f"wrong words: expected {expected} at the end of the line"
    hint = f"; did you mean '{meant}'?" if meant else ""
    return f"wrong words: '{found}': expected {expected}{hint}"


# a line of a schedule after one requester's, the name of its fault, and the explanation
SCHEDULES = [
    *((line, "Words", word_text(found, expected, meant)) for line, found, expected, meant in WRONG_WORDS),
    *((line, "Number", f"wrong number: '{found}': expected {expected}") for line, found, expected in WRONG_NUMBERS),
    ("requester 8 timeout 200 tries 3", "SameRequester", "an earlier line is of the requester '8' already"),
    ("at 0 tick 10", "NoSuchRequester", f"no earlier line is of the requester '10': expected '{FORM}' above"),
]

# the line of a requester, the name of its fault, and the explanation
TIMINGS = [
    ("requester 8 timeout 0 tries 3", "requester 8: Timeout", "the timeout is 0: expected 1 to 60000 milliseconds"),
    ("requester 8 timeout 1 tries 9", "requester 8: Tries", "the tries are 9: expected 1 to 8"),
    ("requester 8 timeout 400 tries 3", "requester 8: TooLate", "3 tries of 400 ms take 1200 ms: at most keep_ms, 1000, is allowed"),
    ("requester 9 timeout 200 tries 3", "requester 9: SameEid", "9 is the eid of the device: expected another from 8 to 254"),
]

# a part of a description, what stands in its place, and its warnings
WARNINGS = [
    ("tid = 1", "tid = 1\nname = 'fan'", ["line 4, column 1: 'name' is no key of a description, and is ignored"]),
    ("tid = 1", "windows = 8\ntid = 1", ["line 3, column 1: 'windows' is no key of a description, and is ignored; did you mean 'window'?"]),
    (
        "[[numeric_sensor]]",
        "[[numeric_sensors]]",
        ["line 8, column 1: 'numeric_sensors' is no key of a description, and is ignored; did you mean 'numeric_sensor'?"],
    ),
    (
        "min = 0\n",
        "min = 0\nMax = 1\n",
        ["line 20, column 1: 'numeric_effecter[0].Max' is no key of a description, and is ignored; did you mean 'max'?"],
    ),
    ("[[pdr]]\n", "[[pdr]]\na.b = 1\n", ["line 27, column 1: 'pdr[0].a' is no key of a description, and is ignored"]),
]


def check_row(rows, run, name, words, text, want):
    """What is wanted is the status and the lines on standard error; all else is as without `--explain`."""
    plain, more = run(words, text), run([*words, "--explain"], text)
    same = (plain.returncode, plain.stdout) == (more.returncode, more.stdout) and more.stderr.startswith(plain.stderr)
    got = (more.returncode, more.stderr.decode())
    rows.check(f"explained: {name}", same and got == want, repr(got))


def descriptions(rows, run):
    for old, new, fault, text in DESCRIPTIONS:
        whole = (TOP + ALL).replace(old, new, 1)
        want = (1, f"mctpctl: device: {fault}\nmctpctl: {text}\n")
        for words in (["answer"], ["run"]):
            check_row(rows, run, f"{words[0]} {fault}: {text[:60]}", words, f"{whole}%%\n", want)
    for old, new, found in WARNINGS:
        whole = (TOP + ALL).replace(old, new, 1)
        lines = "".join(f"mctpctl: warning: {text}\n" for text in found)
        check_row(rows, run, f"a warning: {found[0][:60]}", ["answer"], f"{whole}%%\n", (0, lines))
    keys = "".join(f"k{number:02} = 1\n" for number in range(30))
    ran = run(["answer", "--explain"], f"{keys}{TOP}%%\n")
    rows.check("explained: twenty warnings", (ran.returncode, ran.stderr.count(b"\n")) == (0, 20), repr(ran.stderr[:80]))
    check_row(rows, run, "a good description", ["answer"], f"{TOP}{ALL}%%\n", (0, ""))


def lines(rows, run):
    before = (TOP + ALL).count("\n") + 1
    for line, number, fault, text in CAPTURES:
        for words, front, count in ((["answer"], f"{TOP}{ALL}%%\n", before), (["show"], "", 0), (["show", "--decode"], "", 0)):
            want = (1, f"mctpctl: line {number}: {fault}\nmctpctl: input line {number + count}: {text}\n")
            check_row(rows, run, f"{' '.join(words)} {text[:60]}", words, f"{front}# a capture\n{line}\n", want)
    for line, fault, text in SCHEDULES:
        want = (1, f"mctpctl: line 2: {fault}\nmctpctl: input line {before + 2}: {text}\n")
        check_row(rows, run, f"run {line}: {text[:70]}", ["run"], f"{TOP}{ALL}%%\n{ASKER}{line}\n", want)
    want = (1, f"mctpctl: line 3: BackInTime\nmctpctl: input line {before + 3}: the moment '4' is before that of an earlier line, 5\n")
    check_row(rows, run, "run back in time", ["run"], f"{TOP}{ALL}%%\n{ASKER}at 5 tick 8\nat 4 tick 8\n", want)
    for line, first, text in TIMINGS:
        want = (1, f"mctpctl: {first}\nmctpctl: input line {before + 2}: {text}\n")
        check_row(rows, run, f"run {text}", ["run"], f"{TOP}{ALL}%%\n# a requester\n{line}\n", want)


def others(rows, run):
    said = "mctpctl: expected a line '%%' between the description and the"
    check_row(rows, run, "no divider to answer", ["answer"], TOP, (1, f"mctpctl: no %% line\n{said} capture\n"))
    check_row(rows, run, "no divider to run", ["run"], TOP, (1, f"mctpctl: no %% line\n{said} schedule\n"))
    large = "mctpctl: input too large\nmctpctl: the"
    long = (1, f"{large} description before the line '%%' has more than 1048576 bytes\n")
    check_row(rows, run, "a long description", ["answer"], "#" * 1048577, long)
    check_row(rows, run, "a long description with its divider", ["run"], f"{'#' * 1048577}\n%%\n", long)
    comments = "#" * 63 + "\n"
    for words, front in ((["show"], ""), (["run"], f"{TOP}%%\n"), (["answer"], f"{TOP}%%\n")):
        text = front + comments * (16777216 // 64 + 1)
        check_row(rows, run, f"a long input to {words[0]}", words, text, (1, f"{large} whole input has more than 16777216 bytes\n"))
    warning = "a moment alone, which looks like a packet: is the moment before it missing?"
    check_row(rows, run, "a forgotten moment", ["show"], "# x\n0109080801800002\n", (0, f"mctpctl: warning: input line 2: {warning}\n"))
    text = f"{TOP}%%\n0109080801800002\nx\n"
    want = f"mctpctl: line 2: Number\nmctpctl: input line 10: wrong number: 'x': expected {MOMENT}\n"
    check_row(rows, run, "a forgotten moment before a fault", ["answer"], text, (1, f"{want}mctpctl: warning: input line 9: {warning}\n"))
    check_row(rows, run, "a moment alone", ["show"], "0\n1234567890123456\n", (0, ""))
    check_row(rows, run, "a good run", ["run"], f"{TOP}%%\n{ASKER}at 0 open 8 gettid\n", (0, ""))
    busy = TOP.replace("tid = 1", "busy = 'sets'\ntid = 1")
    ignored = "`busy = \"sets\"` is ignored: in the busy time a run refuses all requests"
    check_row(rows, run, "a busy time of settings alone in a run", ["run"], f"{busy}%%\n", (0, f"mctpctl: warning: line 3, column 1: {ignored}\n"))
    check_row(rows, run, "a busy time of settings alone in an answer", ["answer"], f"{busy}%%\n", (0, ""))
    check_row(rows, run, "a busy time of all in a run", ["run"], f"{busy.replace('sets', 'all')}%%\n", (0, ""))


def check(rows, run):
    for part in (descriptions, lines, others):
        part(rows, run)
