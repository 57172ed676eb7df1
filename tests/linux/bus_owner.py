"""A bus owner's conversation: how it finds the endpoint, by MCTP control messages (DSP0236, "MCTP control protocol").

The order is that of `mctpd`: at the physical address first (the null endpoint ID, by the line alone), and, with the
endpoint ID that is known then, at this one. A message is written without its message type, 0: a byte with Rq and the
instance ID, the command and its data."""
from conversation import PLDM, facts
from second_device import EID

CONTROL, REQUEST = 0, 0x80
SET_EID, GET_EID, GET_UUID, GET_VERSIONS, GET_TYPES, RESOLVE_EID = 1, 2, 3, 4, 5, 7
SUCCESS, INVALID_DATA, INVALID_LENGTH, UNSUPPORTED_COMMAND, TYPE_NOT_SUPPORTED = 0, 2, 3, 5, 0x80
NULL_EID, BASE_SPECIFICATION = 0, 0xFF
STATIC_EID_KINDS = (1, 2)  # a static endpoint ID is supported; 2 says too that the endpoint has this one
ANSWER_MS, SILENCE_MS = 3000, 400


class BusOwner:
    def __init__(self, rows, guest):
        self.rows, self.guest = rows, guest
        self.instance = 0

    def run(self):
        """a bus owner finds the endpoint"""
        print(f"-- {self.run.__doc__}", flush=True)
        self.guest.remove_route(EID)
        self.find_endpoint_id()
        self.guest.add_route(EID)
        self.assign_endpoint_id()
        self.ask_uuid()
        self.ask_versions()
        self.ask_types()
        self.refusals()
        got = facts(self.guest.ask(EID, PLDM, bytes.fromhex("800002"), ANSWER_MS))
        well = isinstance(got, tuple) and got[:2] == (EID, PLDM)
        self.rows.check("GetTID at the endpoint ID that was found", well, str(got))

    def exchange(self, command, data=b"", physical=False):
        """The answer's data with its completion code in front, None where there is no answer from the endpoint."""
        head = bytes([REQUEST | self.instance, command])
        if physical:
            sent = self.guest.send_physical(NULL_EID, CONTROL, head + data)
            got = self.guest.receive(ANSWER_MS) if sent == "ok" else sent
        else:
            got = self.guest.ask(EID, CONTROL, head + data, ANSWER_MS)
        wanted = (EID, CONTROL, bytes([self.instance, command]))
        self.instance = (self.instance + 1) % 32
        found = facts(got)
        if not isinstance(found, tuple) or (*found[:2], found[2][:2]) != wanted:
            return None
        return found[2][2:]

    def equal(self, name, command, data, wanted, **how):
        self.rows.equal(name, self.exchange(command, data, **how), wanted)

    def find_endpoint_id(self):
        got = self.exchange(GET_EID, physical=True)
        well = got is not None and len(got) == 4 and got[:2] == bytes([SUCCESS, EID])
        # A simple endpoint: bits 5:4 of the endpoint's type are 0.
        well = well and got[2] in STATIC_EID_KINDS
        self.rows.check("Get Endpoint ID at the physical address", well, str(got))
        # Accepted, and no pool of endpoint IDs.
        set_eid, accepted = bytes([0, EID]), bytes([SUCCESS, 0x00, EID, 0])
        self.equal("Set Endpoint ID at the physical address", SET_EID, set_eid, accepted, physical=True)

    def assign_endpoint_id(self):
        got = self.exchange(GET_EID)
        well = got is not None and got[:2] == bytes([SUCCESS, EID])
        self.rows.check("Get Endpoint ID at the endpoint ID", well, str(got))
        self.equal("Set Endpoint ID to its own", SET_EID, bytes([0, EID]), bytes([SUCCESS, 0x00, EID, 0]))
        self.equal("Force Endpoint ID to its own", SET_EID, bytes([1, EID]), bytes([SUCCESS, 0x00, EID, 0]))
        # Rejected, bits 5:4 of the status, with the endpoint ID that it has.
        self.equal("Set Endpoint ID to another", SET_EID, bytes([0, EID + 4]), bytes([SUCCESS, 0x10, EID, 0]))
        self.equal("Force Endpoint ID to another", SET_EID, bytes([1, EID + 4]), bytes([SUCCESS, 0x10, EID, 0]))
        for eid in (0, 255):
            self.equal(f"Set Endpoint ID to {eid}", SET_EID, bytes([0, eid]), bytes([INVALID_DATA]))

    def ask_uuid(self):
        got = self.exchange(GET_UUID)
        self.rows.check("Get Endpoint UUID", got is not None and len(got) == 17 and got[0] == SUCCESS, str(got))
        self.equal("Get Endpoint UUID again", GET_UUID, b"", got)
        print(f"   UUID {got[1:].hex() if got else None}")

    def ask_versions(self):
        kinds = (("the base specification", BASE_SPECIFICATION), ("control messages", CONTROL), ("PLDM", PLDM))
        for name, kind in kinds:
            got = self.exchange(GET_VERSIONS, bytes([kind]))
            self.rows.check(f"Get MCTP Version Support of {name}", is_version_list(got), str(got))
        self.equal("Get MCTP Version Support of no such type", GET_VERSIONS, b"\x05", bytes([TYPE_NOT_SUPPORTED]))

    def ask_types(self):
        self.equal("Get Message Type Support", GET_TYPES, b"", bytes([SUCCESS, 2, CONTROL, PLDM]))

    def refusals(self):
        self.equal("a command that a simple endpoint doesn't have", RESOLVE_EID, b"\x09", bytes([UNSUPPORTED_COMMAND]))
        self.equal("an unknown command", 0x7F, b"", bytes([UNSUPPORTED_COMMAND]))
        wrong = ((SET_EID, b"\0"), (GET_EID, b"\0"), (GET_UUID, b"\0"), (GET_VERSIONS, b""), (GET_TYPES, b"\0"))
        for command, data in wrong:
            self.equal(f"command {command} with {len(data)} bytes", command, data, bytes([INVALID_LENGTH]))
        for name, first in (("a datagram", 0xC0), ("a response", 0x00)):
            got = self.guest.ask(EID, CONTROL, bytes([first, GET_EID]), SILENCE_MS)
            self.rows.equal(f"{name} gets no answer", got, None)


def is_version_list(got):
    """A count and as many versions of four bytes: major, minor, update, alpha (DSP0236, "Version field encoding"). Each
    digit of the first three is a half byte, with F before a single one; the update may be FF, for none."""
    if got is None or got[0] != SUCCESS or len(got) < 6 or len(got) != 2 + 4 * got[1]:
        return False
    versions = [got[i : i + 4] for i in range(2, len(got), 4)]
    return all(is_number(it[0]) and is_number(it[1]) and (it[2] == 0xFF or is_number(it[2])) for it in versions)


def is_number(byte):
    return byte >> 4 in (*range(10), 0xF) and byte & 0xF < 10
