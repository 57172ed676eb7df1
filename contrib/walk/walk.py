"""The walk: what is asked of a device that was found, in order, and what has to hold of the answers."""
from messages import Fault
from questions import BASE, PLATFORM, PLDM, version_text, versions_in
from questions import GET_COMMANDS, GET_PDR, GET_REPOSITORY_INFO, GET_TID, GET_TYPES, GET_VERSION
from readings import Readings
from records import EFFECTER, HEADER_BYTES, SENSOR, Names, Numeric, States, Terminus, contents_of, header_of
from table import table_text

AVAILABLE = 0  # the state of a repository that can be read
OVERALL_CONTAINER = 0
NEEDED = {
    BASE: {GET_TID, GET_VERSION, GET_TYPES, GET_COMMANDS},
    PLATFORM: {GET_REPOSITORY_INFO, GET_PDR},
}


class Walk:
    def __init__(self, asker, checks, questions, has_checksum):
        self.asker, self.checks, self.ask = asker, checks, questions
        self.has_checksum = has_checksum  # whether the versions end with their CRC-32, as the description has it
        self.eid = self.uuid = self.tid = self.name = None
        self.versions = {}  # of each PLDM type
        self.records, self.contents, self.rows = [], [], []

    def run(self):
        """All of it, as far as each part finds what the next one asks about."""
        return self.find_endpoint() and self.find_terminus() and self.read_records() and self.read_values()

    # ---- The endpoint (DSP0236) ----

    def find_endpoint(self):
        self.eid = self.checks.answer("Get Endpoint ID at the physical address", self.ask.endpoint_id)
        if self.eid is None:
            return False
        self.checks.check(f"endpoint ID {self.eid} is one", 8 <= self.eid <= 254)
        self.asker.device = self.eid
        again = self.checks.answer("Get Endpoint ID at the endpoint ID", self.ask.endpoint_id)
        self.checks.equal("both are the same", again, self.eid)
        self.uuid = self.checks.answer("Get Endpoint UUID", self.ask.endpoint_uuid)
        types = self.checks.answer("Get Message Type Support", self.ask.message_types)
        return self.checks.check("PLDM is among the message types", PLDM in (types or ()), str(types))

    # ---- The terminus (DSP0240) ----

    def find_terminus(self):
        self.tid = self.checks.answer("GetTID", self.ask.terminus_id)
        types = self.checks.answer("GetPLDMTypes", self.ask.types) or []
        for kind in types:
            self.find_commands(kind)
        has_both = {BASE, PLATFORM} <= set(types)
        return self.checks.check("types 0 and 2 are among the PLDM types", has_both, str(types))

    def find_commands(self, kind):
        data = self.checks.answer(f"GetPLDMVersion of type {kind}", self.ask.version_data, kind)
        versions = data and self.checks.answer(f"its versions {data.hex()}", versions_in, data, self.has_checksum)
        if versions:
            self.versions[kind] = versions
            commands = self.checks.answer(f"GetPLDMCommands of type {kind}", self.ask.commands, kind, versions[-1])
            missing = NEEDED.get(kind, set()) - set(commands or ())
            self.checks.check(f"the commands of a walk are among those of type {kind}", not missing, str(missing))

    # ---- The records (DSP0248) ----

    def read_records(self):
        said = self.checks.answer("GetPDRRepositoryInfo", self.ask.repository)
        if said is None:
            return False
        self.checks.equal("the repository is available", said.state, AVAILABLE)
        is_whole = said.records == 0 or self.read_each_record()
        sizes = [len(record) for record in self.records]
        handles = [header_of(record).handle for record in self.records]
        self.checks.check("the records have different handles", len(set(handles)) == len(handles), str(handles))
        self.checks.equal("as many records as the repository says", len(sizes), said.records)
        self.checks.equal("as many bytes", sum(sizes), said.size)
        self.checks.equal("the largest has as many", max(sizes, default=0), said.largest)
        self.check_terminus()
        self.check_names()
        return is_whole

    def read_each_record(self):
        """Reads the records, each by the handle that the one before it gave. One that says nothing that can be read is
        passed over."""
        handle, found = 0, set()
        while True:
            name = f"record {handle}" if handle else "the first record"
            got = self.checks.answer(f"GetPDR of {name}", self.record, handle)
            if got is None:
                return False
            record, handle = got
            self.records.append(record)
            self.contents.append(self.checks.answer(f"{name}, read to its end", contents_of, record))
            found.add(header_of(record).handle)
            if handle == 0:
                return True
            if handle in found:
                return self.checks.check(f"record {handle} comes once", False)

    def record(self, asked):
        """The record of this handle, and the handle after it."""
        record, after = self.ask.record(asked)
        header = header_of(record)
        if asked not in (0, header.handle):
            raise Fault(f"it has the handle {header.handle}")
        if header.version != 1 or header.length != len(record) - HEADER_BYTES:
            raise Fault(f"version {header.version}, length {header.length} in {len(record)} bytes")
        return record, after

    def of(self, kind):
        return [it for it in self.contents if isinstance(it, kind)]

    def check_terminus(self):
        for terminus in self.of(Terminus):
            here = (self.eid, self.tid)
            self.checks.equal("the terminus locator is this terminus'", (terminus.eid, terminus.tid), here)

    def check_names(self):
        """A record says whether its names have a record."""
        things = [it for it in self.contents if isinstance(it, (Numeric, States))]
        keys = [(it.what, it.identifier) for it in things]
        self.checks.check("each sensor and effecter has one record", len(set(keys)) == len(keys), str(keys))
        named = {(it.what, it.identifier): it.names for it in self.of(Names) if it.what in (SENSOR, EFFECTER)}
        for it in things:
            what = f"{it.what} {it.identifier}"
            self.checks.equal(f"{what}: a record of names", (it.what, it.identifier) in named, it.has_names)
        for key in named.keys() - set(keys):
            self.checks.check(f"the names of {key[0]} {key[1]} are those of a record", False)
        entities = [it.names[0] for it in self.of(Names) if it.what not in (SENSOR, EFFECTER)]
        overall = [it.names[0] for it in self.of(Names) if (it.what, it.identifier) == ("entity", OVERALL_CONTAINER)]
        self.name = next((names[0] for names in overall + entities if names), None)

    # ---- The values (DSP0248) ----

    def read_values(self):
        readings = Readings(self.checks, self.ask, self.of(Names))
        for it in self.contents:
            if isinstance(it, (Numeric, States)):
                self.rows += readings.rows(it)
        return True

    def table(self):
        where = [f"{self.name or 'a device'}: endpoint ID {self.eid}, terminus ID {self.tid}"]
        where += [f"UUID {self.uuid}"] if self.uuid else []
        for kind, versions in self.versions.items():
            where.append(f"PLDM type {kind} version {', '.join(map(version_text, versions))}")
        return table_text(where, self.rows)
