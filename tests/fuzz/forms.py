"""The forms of what the program writes, as docs/PROTOCOL.md has them."""
import re

from packets import COMMANDS

# The reasons for a drop, in the order of their numbers. A device reports the first 17, a requester all but NotRequest.
REASONS = (
    "Short BadVersion UnknownDestination BadSource NoPayload UnsupportedUnit BadTag UnexpectedMiddleOrEnd "
    "OutOfSequence TooLong WrongUnit NotPldm Integrity ShortHeader BadPldmHeader NotRequest Datagram "
    "NotResponse NotMine NotReady"
).split()
DROPS_OF_DEVICE = "|".join(REASONS[:17])
DROPS_OF_REQUESTER = "|".join(REASONS[:15] + REASONS[16:])
DROPS = "|".join(REASONS[:18])

NAMES = "|".join(row[2] for row in COMMANDS)

MOMENT = r"(?:0|[1-9][0-9]{0,15})"
NUMBER = r"(?:0|[1-9][0-9]*)"
HEX = r"(?:[0-9a-f]{2})+"
COMMAND = rf"(?:{NAMES}|[0-9]{{1,2}}/[0-9a-f]{{2}})"
TICKED = rf"again(?: {NUMBER})+(?: gave up(?: {NUMBER})+)?|gave up(?: {NUMBER})+|nothing due"
STEP = (
    rf"opened {NUMBER}|tag in use|id in use|{TICKED}|fresh changed|fresh unchanged|copy|busy|nothing|partial|answered"
    rf"|drop (?:{DROPS_OF_REQUESTER})|set|no such sensor|out of size|restarted"
)
REPORT = (
    rf"request {NUMBER} from {NUMBER} (?:open|gave up|answered {HEX})|order(?: {NUMBER})+|order -|tid {NUMBER}"
    rf"|(?:sensor|numeric) {NUMBER} -?{NUMBER}|state {NUMBER}(?: {NUMBER}){{1,8}}|timely: (?:yes|no)"
)
PACKET = (
    rf"{MOMENT} {NUMBER}>{NUMBER} tag [0-7] to [01] som [01] eom [01] seq [0-3] len [0-9]{{1,2}} "
    rf"(?:whole|partial|drop (?:{DROPS}))"
)
REQUEST = rf"request [0-9]{{1,2}} {COMMAND} (?:{HEX}|-) (?:ok|refused [0-9a-f]{{2}})"
RESPONSE = rf"response [0-9]{{1,2}} {COMMAND} [0-9a-f]{{2}} (?:{HEX}|-)"

LINES = {
    "answer": re.compile(rf"drop (?:{DROPS_OF_DEVICE})|partial|01[0-9a-f]{{8}}(?:[0-9a-f]{{2}}){{0,63}}".encode()),
    "run": re.compile(rf"{MOMENT} (?:{STEP})|{REPORT}".encode()),
    "show": re.compile(rf"{MOMENT} drop (?:{DROPS})|{PACKET}|  (?:drop (?:{DROPS})|{REQUEST}|{RESPONSE})".encode()),
}

DEVICE_FAULTS = "device: (?:Toml|MissingKey|WrongKind|OutOfRange|Duplicate|BadHex|BadRecord)"
CAPTURE_FAULTS = "line [1-9][0-9]*: (?:LongLine|Words|Number|BackInTime|BadHex)"
SCHEDULE_FAULTS = "line [1-9][0-9]*: (?:Words|Number|BackInTime|NoSuchRequester|SameRequester)"
TIMING_FAULTS = "requester [1-9][0-9]*: (?:Timeout|Tries|TooLate|SameEid)"
LARGE = "input too large"
DESCRIBED = f"{DEVICE_FAULTS}|no %% line"
TOLD = {
    "answer": re.compile(f"mctpctl: (?:{DESCRIBED}|{CAPTURE_FAULTS}|{LARGE})\n".encode()),
    "run": re.compile(f"mctpctl: (?:{DESCRIBED}|{SCHEDULE_FAULTS}|{TIMING_FAULTS}|{LARGE})\n".encode()),
    "show": re.compile(f"mctpctl: (?:{CAPTURE_FAULTS}|{LARGE})\n".encode()),
}
