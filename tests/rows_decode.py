"""What `show --decode` writes: each command and each answer, refusals, and what cannot be read.

The bytes and the names are those of DSP0240 and DSP0248, and of control messages those of DSP0236.
"""
import glob
import os

from support.examples import EXAMPLES

TIME = "00000000000000000000000000"

# a command's name, its PLDM type and number, its data, and its fields
COMMANDS = [
    ("SetTID", "0001", "05", " tid 5"),
    ("GetTID", "0002", "", ""),
    ("GetPLDMVersion", "0003", "07000000" "00" "02", " transfer 7 GetNextPart type 2"),
    ("GetPLDMVersion", "0003", "00000000" "01" "00", " transfer 0 GetFirstPart type 0"),
    ("GetPLDMVersion", "0003", "00000000" "09" "00", " transfer 0 9 type 0"),
    ("GetPLDMTypes", "0004", "", ""),
    ("GetPLDMCommands", "0005", "02" "00f2f1f1", " type 2 version 00f2f1f1"),
    ("GetSensorReading", "0211", "0500" "00", " sensor 5 rearm 0"),
    ("GetStateSensorReadings", "0221", "0701" "03" "00", " sensor 263 rearm 3"),
    ("SetNumericEffecterValue", "0231", "0100" "00" "28", " effecter 1 uint8 40"),
    ("SetNumericEffecterValue", "0231", "0100" "03" "feff", " effecter 1 sint16 -2"),
    ("SetNumericEffecterValue", "0231", "0100" "04" "ffffffff", " effecter 1 uint32 4294967295"),
    ("GetNumericEffecterValue", "0232", "0100", " effecter 1"),
    ("SetStateEffecterStates", "0239", "0200" "03" "0000" "0102" "0704", " effecter 2 noChange requestSet 2 setRequest 7 state 4"),
    ("GetStateEffecterStates", "023a", "0200", " effecter 2"),
    ("GetPDRRepositoryInfo", "0250", "", ""),
    ("GetPDR", "0251", "01000000" "00000000" "01" "ff00" "0000", " record 1 transfer 0 GetFirstPart count 255 change 0"),
]

# a command's name, its PLDM type and number, the data of its answer after the completion code SUCCESS, and its fields
ANSWERS = [
    ("SetTID", "0001", "", " SUCCESS"),
    ("GetTID", "0002", "01", " tid 1"),
    ("GetPLDMVersion", "0003", "00000000" "05" "00f0f0f1", " versions 00f0f0f1 next 0"),
    # the checksums are those of zlib's crc32, and one that is not
    ("GetPLDMVersion", "0003", "00000000" "05" "00f0f0f1fb8f864a", " versions 00f0f0f1 crc32 fb8f864a next 0"),
    ("GetPLDMVersion", "0003", "00000000" "05" "00f0f0f1fb8f864b", " versions 00f0f0f1fb8f864b next 0"),
    ("GetPLDMTypes", "0004", "0500000000000080", " types 0 2 63"),
    ("GetPLDMCommands", "0005", "3e" + "00" * 31, " commands 1 2 3 4 5"),
    (
        "GetSensorReading",
        "0211",
        "02" "00" "00" "01" "02" "0a" "0002",
        " uint16 reading 512 normal previous warning event upperFatal operational enabled events noEventGeneration",
    ),
    (
        "GetSensorReading",
        "0211",
        "01" "02" "03" "0b" "00" "07" "80",
        " sint8 reading -128 11 previous unknown event lowerFatal operational unavailable events opEventsOnlyEnabled",
    ),
    (
        "GetStateSensorReadings",
        "0221",
        "02" "00010203" "07040506",
        " state 1 previous 2 event 3 operational enabled state 4 previous 5 event 6 operational inTest",
    ),
    ("SetNumericEffecterValue", "0231", "", " SUCCESS"),
    ("GetNumericEffecterValue", "0232", "00" "01" "28" "32", " uint8 value 50 pending 40 operational enabled-noUpdatePending"),
    ("SetStateEffecterStates", "0239", "", " SUCCESS"),
    ("GetStateEffecterStates", "023a", "01" "000203", " state 3 pending 2 operational enabled-updatePending"),
    (
        "GetPDRRepositoryInfo",
        "0250",
        "00" + TIME + TIME + "02000000" "1e000000" "14000000" "00",
        f" state available records 2 bytes 30 largest 20 updated {TIME} oem {TIME} timeout 0",
    ),
    ("GetPDR", "0251", "02000000" "00000000" "05" "0300" "aabbcc", " next 2 transfer 0 StartAndEnd count 3 data aabbcc"),
    ("GetPDR", "0251", "00000000" "07000000" "00" "0100" "aa", " next 0 transfer 7 Start count 1 data aa"),
    ("GetPDR", "0251", "00000000" "07000000" "01" "0100" "aa", " next 0 transfer 7 Middle count 1 data aa"),
    ("GetPDR", "0251", "02000000" "00000000" "04" "0200" "aabb" "5a", " next 2 transfer 0 End count 2 data aabb crc 5a"),
]

# the PLDM type and number of a command, a completion code, and the line after the instance ID
REFUSALS = [
    ("0002", "01", "GetTID refused ERROR"),
    ("0002", "02", "GetTID refused ERROR_INVALID_DATA"),
    ("0002", "03", "GetTID refused ERROR_INVALID_LENGTH"),
    ("0002", "04", "GetTID refused ERROR_NOT_READY"),
    ("0002", "05", "GetTID refused ERROR_UNSUPPORTED_PLDM_CMD"),
    ("0002", "20", "GetTID refused ERROR_INVALID_PLDM_TYPE"),
    ("0002", "80", "GetTID refused 80"),
    ("0003", "80", "GetPLDMVersion refused INVALID_DATA_TRANSFER_HANDLE"),
    ("0003", "81", "GetPLDMVersion refused INVALID_TRANSFER_OPERATION_FLAG"),
    ("0003", "83", "GetPLDMVersion refused INVALID_PLDM_TYPE_IN_REQUEST_DATA"),
    ("0005", "83", "GetPLDMCommands refused INVALID_PLDM_TYPE_IN_REQUEST_DATA"),
    ("0005", "84", "GetPLDMCommands refused INVALID_PLDM_VERSION_IN_REQUEST_DATA"),
    ("0211", "80", "GetSensorReading refused INVALID_SENSOR_ID"),
    ("0211", "81", "GetSensorReading refused REARM_UNAVAILABLE_IN_PRESENT_STATE"),
    ("0221", "80", "GetStateSensorReadings refused INVALID_SENSOR_ID"),
    ("0231", "80", "SetNumericEffecterValue refused INVALID_EFFECTER_ID"),
    ("0232", "80", "GetNumericEffecterValue refused INVALID_EFFECTER_ID"),
    ("0239", "80", "SetStateEffecterStates refused INVALID_EFFECTER_ID"),
    ("0239", "81", "SetStateEffecterStates refused INVALID_STATE_VALUE"),
    ("0239", "82", "SetStateEffecterStates refused UNSUPPORTED_EFFECTERSTATE"),
    ("023a", "80", "GetStateEffecterStates refused INVALID_EFFECTER_ID"),
    ("0251", "82", "GetPDR refused INVALID_RECORD_HANDLE"),
    ("0251", "83", "GetPDR refused INVALID_RECORD_CHANGE_NUMBER"),
    ("0251", "84", "GetPDR refused TRANSFER_TIMEOUT"),
    ("0251", "85", "GetPDR refused REPOSITORY_UPDATE_IN_PROGRESS"),
    ("0502", "20", "5/02 refused ERROR_INVALID_PLDM_TYPE"),
    ("0502", "93", "5/02 refused 93"),
]

# a message that cannot be read, and its whole line
UNREAD = [
    ("0100000200" "0102", "  response 0 GetTID 00 0102"),
    ("0100050200" "07", "  response 0 5/02 00 07"),
    ("0180000200", "  request 0 GetTID 00 refused ERROR_INVALID_LENGTH"),
    ("01800502", "  request 0 5/02 - refused ERROR_INVALID_PLDM_TYPE"),
    ("0180020211", "  request 0 2/02 11 refused ERROR_UNSUPPORTED_PLDM_CMD"),
    ("018002310100" "0700", "  request 0 SetNumericEffecterValue 01000700 refused ERROR_INVALID_DATA"),
    ("01000002", "  drop ShortHeader"),
    ("02", "  drop NotPldm"),
]

# a control command's name, its number, its data, and its fields
CONTROL_COMMANDS = [
    ("SetEndpointID", "01", "0009", " operation set eid 9"),
    ("SetEndpointID", "01", "010a", " operation force eid 10"),
    ("SetEndpointID", "01", "0200", " operation reset eid 0"),
    ("SetEndpointID", "01", "0300", " operation setDiscoveredFlag eid 0"),
    ("SetEndpointID", "01", "fdfe", " operation force eid 254"),
    ("GetEndpointID", "02", "", ""),
    ("GetEndpointUUID", "03", "", ""),
    ("GetMCTPVersionSupport", "04", "ff", " type 255"),
    ("GetMCTPVersionSupport", "04", "00", " type 0"),
    ("GetMCTPVersionSupport", "04", "01", " type 1"),
    ("GetMessageTypeSupport", "05", "", ""),
]

UUID = "4e6565646c658f618074000000000009"

# a control command's name, its number, the data of its answer after the completion code SUCCESS, and its fields
CONTROL_ANSWERS = [
    ("SetEndpointID", "01", "000900", " assignment accepted eid 9 pool 0"),
    ("SetEndpointID", "01", "100900", " assignment rejected eid 9 pool 0"),
    ("SetEndpointID", "01", "cc0900", " assignment accepted eid 9 pool 0"),
    ("GetEndpointID", "02", "090100", " eid 9 simple static medium 0"),
    ("GetEndpointID", "02", "080000", " eid 8 simple dynamic medium 0"),
    ("GetEndpointID", "02", "0812ff", " eid 8 busOwnerOrBridge staticSame medium 255"),
    ("GetEndpointID", "02", "080307", " eid 8 simple staticOther medium 7"),
    ("GetEndpointUUID", "03", UUID, f" uuid {UUID}"),
    ("GetMCTPVersionSupport", "04", "01" "f1f3f100", " versions f1f3f100"),
    ("GetMCTPVersionSupport", "04", "01" "f1f0f000", " versions f1f0f000"),
    ("GetMCTPVersionSupport", "04", "02" "f1f0f000" "f1f3f100", " versions f1f0f000f1f3f100"),
    ("GetMessageTypeSupport", "05", "020001", " types 0 1"),
    ("GetMessageTypeSupport", "05", "03017e7f", " types 1 126 127"),
    ("GetMessageTypeSupport", "05", "00", " types"),
]

# the number of a control command, a completion code with what may follow it, and the line after the instance ID
CONTROL_REFUSALS = [
    ("01", "01", "SetEndpointID refused ERROR"),
    ("01", "02", "SetEndpointID refused ERROR_INVALID_DATA"),
    ("02", "03", "GetEndpointID refused ERROR_INVALID_LENGTH"),
    ("03", "04", "GetEndpointUUID refused ERROR_NOT_READY"),
    ("05", "05", "GetMessageTypeSupport refused ERROR_UNSUPPORTED_CMD"),
    ("05", "06", "GetMessageTypeSupport refused 06"),
    ("04", "80", "GetMCTPVersionSupport refused MESSAGE_TYPE_NOT_SUPPORTED"),
    ("04", "81", "GetMCTPVersionSupport refused 81"),
    ("02", "80", "GetEndpointID refused 80"),
    ("02", "02090100", "GetEndpointID refused ERROR_INVALID_DATA"),
    ("06", "05", "control/06 refused ERROR_UNSUPPORTED_CMD"),
    ("ff", "05", "control/ff refused ERROR_UNSUPPORTED_CMD"),
    ("ff", "80", "control/ff refused 80"),
]

# a control message whose reserved bit is set, or whose command or answer cannot be read, and its whole line
CONTROL_UNREAD = [
    ("00bf02", "  request 31 GetEndpointID"),
    ("003f0200090100", "  response 31 GetEndpointID eid 9 simple static medium 0"),
    ("008a0200", "  request 10 GetEndpointID 00 refused ERROR_INVALID_LENGTH"),
    ("00800100", "  request 0 SetEndpointID 00 refused ERROR_INVALID_LENGTH"),
    ("0080010009" "00", "  request 0 SetEndpointID 000900 refused ERROR_INVALID_LENGTH"),
    ("008004", "  request 0 GetMCTPVersionSupport - refused ERROR_INVALID_LENGTH"),
    ("0089ff", "  request 9 control/ff - refused ERROR_UNSUPPORTED_CMD"),
    ("00800600", "  request 0 control/06 00 refused ERROR_UNSUPPORTED_CMD"),
    ("00000600", "  drop NotPldm"),
    ("0000010000" "09", "  drop NotPldm"),
    ("00000100" "010920", "  drop NotPldm"),
    ("00000100" "200900", "  drop NotPldm"),
    ("00000200" "092000", "  drop NotPldm"),
    ("00000300" + UUID[2:], "  drop NotPldm"),
    ("00000400" "02" "f1f3f100", "  drop NotPldm"),
    ("00000400" "00", "  drop NotPldm"),
    ("00000500" "030001", "  drop NotPldm"),
    ("000002", "  drop NotPldm"),
    ("0080", "  drop NotPldm"),
    ("00", "  drop NotPldm"),
    ("00c002", "  drop NotPldm"),
    ("00400200090100", "  drop NotPldm"),
    ("808002", "  drop NotPldm"),
    ("7e8002", "  drop NotPldm"),
]


def lines(message):
    """The capture's lines of a message that is cut into packets of 64 bytes, from endpoint 8 to endpoint 9."""
    pieces = [message[i : i + 128] for i in range(0, len(message), 128)]
    for number, piece in enumerate(pieces):
        flags = 0x80 * (number == 0) | 0x40 * (number == len(pieces) - 1) | 0x10 * (number % 4) | 0x08
        yield f"0 010908{flags:02x}{piece}\n"


def message_line(run, message):
    """The line of the message; below it may be those of a record."""
    ran = run(["show", "--decode"], "".join(lines(message)))
    shown = [line for line in ran.stdout.decode().splitlines() if line[:2] == "  " and line[2:4] != "  "]
    return shown, ran.returncode, ran.stderr


def messages():
    """Each message of the tables, what is tested by it, and its line."""
    for name, kind, data, fields in COMMANDS:
        yield f"the command {name}{fields}", f"0181{kind}{data}", f"  request 1 {name}{fields}"
    for name, kind, data, fields in ANSWERS:
        yield f"the answer to {name}:{fields}", f"0101{kind}00{data}", f"  response 1 {name}{fields}"
    for kind, code, text in REFUSALS:
        yield f"the refusal {text}", f"0102{kind}{code}", f"  response 2 {text}"
    for message, line in UNREAD + CONTROL_UNREAD:
        yield f"the message {message}", message, line
    for name, number, data, fields in CONTROL_COMMANDS:
        yield f"the control command {name}{fields}", f"0081{number}{data}", f"  request 1 {name}{fields}"
    for name, number, data, fields in CONTROL_ANSWERS:
        yield f"the answer to {name}:{fields}", f"0001{number}00{data}", f"  response 1 {name}{fields}"
    for number, code, text in CONTROL_REFUSALS:
        yield f"the control refusal {text}", f"0002{number}{code}", f"  response 2 {text}"


def check(rows, run):
    for name, message, line in messages():
        got = message_line(run, message)
        rows.check(f"decoded: {name}", got == ([line], 0, b""), repr(got))
    captures = ["".join(lines(message)) for _, message, _ in messages()]
    captures += [open(name).read() for name in glob.glob(os.path.join(EXAMPLES, "*.capture"))]
    text = "".join(f"0 {line.split(' ')[1]}" for capture in captures for line in capture.splitlines(True) if " " in line and line[0] != "#")
    shown, decoded = (run(words, text).stdout.decode().splitlines() for words in (["show"], ["show", "--decode"]))
    outer = [[line for line in out if not line.startswith("  ")] for out in (shown, decoded)]
    messages_of = [[line for line in out if line[:2] == "  " and line[2:4] != "  "] for out in (shown, decoded)]
    well = outer[0] == outer[1] and len(messages_of[0]) == len(messages_of[1]) > 100
    rows.check("decoded: the packets' lines are those of show", well, f"{len(shown)} {len(decoded)}")
    ran = run(["show", "--decode"], "0 0109\n%%\n")
    well = (ran.returncode, ran.stdout, ran.stderr) == (1, b"0 drop Short\n", b"mctpctl: line 2: Number\n")
    rows.check("decoded: a fault", well, repr(ran))
