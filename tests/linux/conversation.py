"""The conversation: PLDM requests of Linux's stack to the device, and what each has to get.

A request is written without its message type, which Linux writes itself: a byte with the instance ID, the PLDM type,
the command and its data. The answers that are wanted come from the second device."""
import struct
import time

from guest import Message
from second_device import EID, KEEP_MS, RECORDS, WIDTHS
from serial_line import TO_DEVICE, TO_GUEST
from shared import told

PLDM, REQUEST = 1, 0x80
START_MS, ANSWER_MS, SILENCE_MS = 60000, 5000, 400
FORGOTTEN = (KEEP_MS + 100) / 1000  # seconds after which no answer is kept any more
KERNEL_TAG_SECONDS = 8  # Linux frees the tag of an unanswered request after 6 seconds
KERNEL_TAGS = 8
WHOLE_PART = "02 51 02000000 00000000 01 2f01 0000"  # record 2's first part of 303 bytes: five packets
MOST_MESSAGE_BYTES = 320  # with the message type


def set_numeric(effecter, size, value):
    return f"02 31 {effecter:02x}00 {size:02x} {struct.pack(WIDTHS[size], value).hex()}"


def get_numeric(effecter):
    return f"02 32 {effecter:02x}00"


class Conversation:
    def __init__(self, rows, guest, line, device, names_drops):
        self.rows, self.guest, self.line, self.device = rows, guest, line, device
        self.names_drops = names_drops
        self.answer_ms = ANSWER_MS
        self.instance = 0
        self.kept = {}
        self.needs_kept = set()  # names of the rows that a device without kept answers may fail

    # ---- Steps ----

    def request(self, command, instance=None):
        """The bytes of a request, with the instance ID that is next, or with this one."""
        if instance is None:
            instance = self.instance
            self.instance = (self.instance + 1) % 32
        return bytes([REQUEST | instance]) + bytes.fromhex(command)

    def perform(self, request):
        self.kept[request] = self.device.perform(request)
        return self.kept[request]

    def wanted(self, answer):
        """The message that carries an answer; the kernel's tag may be any."""
        return (EID, PLDM, answer)

    def ask(self, name, command):
        """A request that is performed. Returns its bytes."""
        request = self.request(command)
        self.send_fresh(name, request)
        return request

    def send_fresh(self, name, request, **how):
        self.expect(name, request, self.perform(request), **how)

    def send_copy(self, name, request, **how):
        self.needs_kept.add(name)
        self.expect(name, request, self.kept[request], **how)

    def expect(self, name, request, answer, **how):
        got = self.guest.ask(EID, PLDM, request, self.answer_ms, **how)
        if not self.rows.equal(name, facts(got), self.wanted(answer)):
            self.line.require_running()
        if got is None:
            self.guest.receive(self.answer_ms)  # what comes late is of no later step

    def expect_silence(self, name, request, kind=PLDM, **how):
        self.rows.equal(name, self.guest.ask(EID, kind, request, SILENCE_MS, **how), None)

    def lose(self, name, command, **how):
        """A request that is performed, of which the guest gets no answer. Returns its bytes."""
        request = self.request(command)
        self.perform(request)
        self.expect_silence(name, request, **how)
        return request

    def expect_drops(self, name, reasons, step):
        """A step in which the device has named drops for these reasons, and no others."""
        before = len(self.line.told)
        step()
        if self.names_drops:
            time.sleep(0.1)  # an answer may be there before what is reported after it
            named = self.line.told[before:].decode(errors="replace").splitlines()
            well = [it.split()[-1] for it in named] == reasons.split()
            self.rows.check(f"{name}: {reasons} named", well, repr(named))

    # ---- Parts ----

    def wait_for_device(self):
        """The device reads its description before it answers, which takes its time on a busy machine."""
        got = facts(self.guest.ask(EID, PLDM, self.request("00 02"), START_MS))
        if not self.rows.equal("the device is there", got, self.wanted(self.device.perform(self.request("00 02", 0)))):
            raise RuntimeError("there is no device")

    def run(self):
        parts = (
            *(self.each_command, self.records, self.refusals, self.copies, self.instance_used_again, self.retries),
            *(self.repeated_and_reordered, self.broken_answers, self.late_copy, self.long_requests, self.small_units),
            *(self.drops, self.kernel_refusals),
        )
        for part in parts:
            print(f"-- {part.__doc__}", flush=True)
            self.instance = 0
            time.sleep(FORGOTTEN)
            part()

    def each_command(self):
        """each command"""
        for command in ("00 02", "00 01 05", "00 02", "00 01 00", "00 01 ff", "00 04"):
            self.ask(f"base {command}", command)
        for kind in (0, 2, 5):
            self.ask(f"GetPLDMVersion of type {kind}", f"00 03 00000000 01 {kind:02x}")
        self.ask("GetPLDMCommands of type 0", "00 05 00 00f0f0f1")
        self.ask("GetPLDMCommands of type 2", "00 05 02 00f2f1f1")
        for sensor in range(1, 7):
            self.ask(f"GetSensorReading {sensor}", f"02 11 {sensor:02x}00 00")
        self.ask("GetSensorReading of no sensor", "02 11 7e7d 00")
        self.ask("GetStateSensorReadings", "02 21 0a00 00 00")
        time.sleep(FORGOTTEN)
        self.ask("GetNumericEffecterValue", get_numeric(1))
        self.ask("SetNumericEffecterValue", set_numeric(1, 0, 77))
        self.ask("GetNumericEffecterValue after it", get_numeric(1))
        self.ask("SetNumericEffecterValue of 101", set_numeric(1, 0, 101))
        self.ask("SetNumericEffecterValue of another size", set_numeric(1, 2, 77))
        self.ask("SetNumericEffecterValue of two bytes", set_numeric(3, 3, -500))
        self.ask("GetNumericEffecterValue of two bytes", get_numeric(3))
        self.ask("SetStateEffecterStates", "02 39 0200 02 0102 0002")
        self.ask("GetStateEffecterStates", "02 3a 0200")
        self.ask("SetStateEffecterStates of 19 bytes", "02 39 0200 02 0101 0102" + "7e" * 12)
        self.ask("GetStateEffecterStates after it", "02 3a 0200")
        self.ask("SetStateEffecterStates of no such state", "02 39 0200 02 0101 0105")
        self.ask("GetPDRRepositoryInfo", "02 50")

    def records(self):
        """records, in answers of one packet to five"""
        self.ask("the first record", "02 51 00000000 00000000 01 ffff 0000")
        for count in (1, 34, 47, 48, 49, 112, 200, 303):
            self.ask(f"{count} bytes of record 1", f"02 51 01000000 00000000 01 {struct.pack('<H', count).hex()} 0000")
        self.ask("record 2, its first part", WHOLE_PART)
        self.ask("record 2, its last part", "02 51 02000000 2f010000 00 2f01 7e7d")
        self.ask("record 2, 65535 bytes", "02 51 02000000 00000000 01 ffff 0000")
        self.ask("record 3", "02 51 03000000 00000000 01 ffff 0000")
        self.ask("no such record", "02 51 04000000 00000000 01 ffff 0000")
        self.ask("no such operation", "02 51 01000000 00000000 02 ffff 0000")
        self.ask("no bytes of a record", "02 51 01000000 00000000 01 0000 0000")
        self.ask("past a record's end", "02 51 01000000 2c000000 00 0100 0000")
        for handle, count in ((2, 303), (2, 100), (2, 20), (3, 50)):
            self.record_in_parts(handle, count)

    def record_in_parts(self, handle, count):
        """Asks for a record in parts of as many bytes, each by the transfer handle that the part before it gave."""
        name, transfer, operation, whole = f"record {handle} in parts of {count}", 0, 1, b""
        for number in range(1, 1 + len(RECORDS[handle])):
            fields = struct.pack("<IIBHH", handle, transfer, operation, count, 0)
            request = self.request("02 51" + fields.hex())
            got = facts(self.guest.ask(EID, PLDM, request, ANSWER_MS))
            if not self.rows.equal(f"{name}: part {number}", got, self.wanted(self.perform(request))):
                return
            _, transfer, flag, length = struct.unpack("<IIBH", got[2][4:15])
            whole, operation = whole + got[2][15 : 15 + length], 0
            if flag in (4, 5):
                break
        self.rows.equal(f"{name}: all of it", whole, RECORDS[handle])

    def refusals(self):
        """refusals"""
        self.ask("no such command of type 0", "00 7f")
        self.ask("no such command of type 2", "02 52")
        self.ask("no such type", "05 01")
        self.ask("the greatest type", "3f 01")
        self.ask("a byte too many", "00 02 00")
        self.ask("a byte too few", "02 11 0100")
        self.ask("no data", "02 31")
        request = self.request("00 02")
        self.send_fresh("the reserved bit of the first byte", bytes([request[0] | 0x20]) + request[1:])

    def copies(self):
        """copies of a request"""
        set_40 = self.ask("set 40", set_numeric(1, 0, 40))
        self.ask("set 50", set_numeric(1, 0, 50))
        self.send_copy("the first set again", set_40)
        get = self.ask("it is 50: the copy was not performed", get_numeric(1))
        self.needs_kept.add("it is 50: the copy was not performed")
        time.sleep(FORGOTTEN)
        self.send_fresh("the first set after the keeping time", set_40)
        self.send_fresh("it is 40: that one was performed", get)

    def instance_used_again(self):
        """an instance ID that is used again at once, with the same bytes and with others"""
        get = self.ask("the value", get_numeric(1))
        self.ask("set 44", set_numeric(1, 0, 44))
        self.send_copy("the value with the first instance ID is the one before", get)
        self.ask("the value with another instance ID", get_numeric(1))
        self.send_fresh("another command with the first instance ID", self.request("00 02", instance=0))
        self.send_fresh("the first request is fresh again", get)

    def retries(self):
        """a lost answer and its retry"""
        self.line.orders.answers_to_lose = 1
        lost = self.lose("set 60, its answer is lost", set_numeric(1, 0, 60))
        self.send_copy("set 60 again, on another tag", lost)
        self.ask("it is 60", get_numeric(1))
        tag = self.guest.keep_tag(EID)
        self.line.orders.answers_to_lose = 1
        lost = self.lose("set 61 on a tag that is kept, its answer is lost", set_numeric(1, 0, 61), tag=tag)
        self.ask("set 62", set_numeric(1, 0, 62))
        self.send_copy("set 61 again, on the same tag", lost, tag=tag)
        self.guest.drop_tag(EID, tag)
        self.ask("it is 62: set 61 was performed once", get_numeric(1))
        self.needs_kept.add("it is 62: set 61 was performed once")

    def repeated_and_reordered(self):
        """requests that come repeatedly and in another order"""
        self.line.orders.request_order = [0, 0, 0]
        self.ask("SetTID, delivered three times", "00 01 21")
        self.rows.equal("two answers more stay in the kernel", self.guest.receive(100), None)
        self.ask("the terminus ID", "00 02")
        self.two_sets("in order", 11, [0, 1])
        self.two_sets("swapped", 13, [1, 0])
        self.two_sets("a copy of the first after the second", 15, [0, 1, 0])
        self.two_sets("swapped, with copies", 17, [1, 0, 1, 1, 0])

    def two_sets(self, name, value, order):
        """Two sets that are sent at once, and delivered in this order."""
        self.line.orders.request_order = order
        requests = [self.request(set_numeric(1, 0, value + i)) for i in range(2)]
        for request in requests:
            self.guest.send(EID, PLDM, request)
        wanted = [self.perform(requests[place]) for place in dict.fromkeys(order)]
        got = [facts(self.guest.receive(ANSWER_MS)) for _ in wanted]
        self.rows.equal(f"two sets {name}: their answers", got, [self.wanted(it) for it in wanted])
        self.rows.equal(f"two sets {name}: no answer more", self.guest.receive(100), None)
        self.ask(f"two sets {name}: the value", get_numeric(1))
        self.needs_kept.add(f"two sets {name}: the value")

    def broken_answers(self):
        """answers of five packets of which one is lost, swapped or repeated"""
        for name, order in (("a packet is lost", [0, 1, 2, 4]), ("packets are swapped", [0, 2, 1, 3, 4])):
            self.line.orders.answer_order = order
            request = self.lose(f"{name}: no answer", WHOLE_PART)
            self.send_copy(f"{name}: the retry", request)
        # Linux drops a repeated middle packet, and throws the message away at a repeated first one.
        twice = (("a middle packet comes twice", [0, 1, 1, 2, 3, 4]), ("the first comes twice", [0, 0, 1, 2, 3, 4]))
        for name, order in twice:
            self.line.orders.answer_order = order
            request = self.request(WHOLE_PART)
            answer = self.perform(request)
            got = facts(self.guest.ask(EID, PLDM, request, SILENCE_MS))
            self.rows.check(f"{name}: the answer or none", got in (None, self.wanted(answer)), str(got))
            self.send_copy(f"{name}: the retry", request)
        time.sleep(KERNEL_TAG_SECONDS)

    def late_copy(self):
        """a late copy of an answer, which Linux takes by its tag alone: a client has to look at the instance ID"""
        self.line.orders.repeat_late = True
        before = self.ask("the value", get_numeric(1))
        request = self.request("00 02")
        self.perform(request)
        self.expect("the next request gets the late copy", request, self.kept[before])
        self.send_copy("its retry gets its own answer", request)

    def long_requests(self):
        """requests of several packets, which Linux cuts"""
        for count in (59, 60, 61, 63, 64, 65, 66, 128, 129, 192, 256, 257, 319, 320):
            filling = bytes.fromhex("7d7e55aa") * 80
            self.ask(f"a request of {count} bytes", "00 02" + filling[: count - 4].hex())
        self.ask("an unknown command of 320 bytes", "02 52" + "00" * 316)
        too_long = self.request("00 02" + "11" * (MOST_MESSAGE_BYTES + 1 - 4))
        self.expect_drops("321 bytes", "TooLong", lambda: self.expect_silence("a request of 321 bytes", too_long))
        self.line.orders.request_order = [1, 0]
        swapped = self.request("00 01" + "11" * 100)
        self.expect_drops(
            *("two packets swapped", "UnexpectedMiddleOrEnd"),
            lambda: self.expect_silence("two packets swapped: no answer", swapped),
        )
        self.line.orders.request_order = [0, 0, 1]
        self.ask("two packets, the first twice", "00 01" + "12" * 100)
        self.line.orders.request_order = [0, 1, 1]
        self.expect_drops(
            *("two packets, the last twice", "UnexpectedMiddleOrEnd"),
            lambda: self.ask("two packets, the last twice", "00 01" + "13" * 100),
        )
        time.sleep(KERNEL_TAG_SECONDS)

    def small_units(self):
        """requests in several packets by the unit of the route"""
        for unit, packets in ((12, 3), (9, 4), (20, 2)):
            self.set_unit(unit)
            before = len(self.line.came[TO_DEVICE])
            self.ask(f"unit {unit}: GetPDR", "02 51 02000000 2f010000 00 2f01 7e7d")
            came = len(self.line.came[TO_DEVICE]) - before
            self.rows.equal(f"unit {unit}: packets of GetPDR", came, packets)
            self.ask(f"unit {unit}: SetStateEffecterStates", f"02 39 0200 02 010{1 + packets % 2} 0102" + "7d" * 12)
            self.ask(f"unit {unit}: GetStateEffecterStates", "02 3a 0200")
            self.ask(f"unit {unit}: SetTID", f"00 01 {unit:02x}")
            self.ask(f"unit {unit}: GetTID", "00 02")
        self.set_unit(8)
        self.ask("unit 8: GetPDR in five packets", "02 51 03000000 00000000 01 4000 0000")
        self.line.orders.request_order = [0, 1, 2, 4, 3]
        request = self.request("02 51 03000000 00000000 01 4000 0000")
        self.expect_drops(
            *("unit 8: the last two swapped", "OutOfSequence UnexpectedMiddleOrEnd"),
            lambda: self.expect_silence("unit 8: the last two swapped", request),
        )
        self.send_fresh("unit 8: its retry", request)
        self.set_unit(0)
        time.sleep(KERNEL_TAG_SECONDS)

    def set_unit(self, unit):
        self.guest.remove_route(EID)
        self.guest.add_route(EID, unit)

    def drops(self):
        """messages that get no answer, and why"""
        for name, kind, message, reason in (
            ("a message of another type", 5, "10840000", "NotPldm"),
            ("a message with the integrity bit", PLDM | 0x80, "800002", "Integrity"),
            ("a response", PLDM, "00000200", "NotRequest"),
            ("a datagram", PLDM, "c00002", "Datagram"),
            ("another version of the header", PLDM, "804002", "BadPldmHeader"),
            ("a short message", PLDM, "8000", "ShortHeader"),
        ):
            data = bytes.fromhex(message)
            self.expect_drops(name, reason, lambda: self.expect_silence(name, data, kind=kind))
        for name, eid in (("the null endpoint ID", 0), ("the broadcast endpoint ID", 255), ("endpoint 77", 77)):
            self.expect_drops(f"to {name}", "UnknownDestination", lambda: self.send_nowhere(name, eid))
        time.sleep(KERNEL_TAG_SECONDS)

    def send_nowhere(self, name, eid):
        """To an endpoint ID that is not the device's, by the line alone."""
        sent = self.guest.send_physical(eid, PLDM, bytes.fromhex("800002"))
        got = self.guest.receive(SILENCE_MS)
        self.rows.equal(f"GetTID to {name}", (sent, got), ("ok", None))

    def kernel_refusals(self):
        """what the kernel doesn't send: without a route, or without a free tag"""
        for eid in (0, 255, 11):
            said = self.guest.send(eid, PLDM, bytes.fromhex("800002"))
            self.rows.equal(f"to {eid}, to which there is no route", said, "error EHOSTUNREACH")
        self.line.orders.answers_to_lose = KERNEL_TAGS
        for value in range(KERNEL_TAGS):
            request = self.request(set_numeric(1, 0, 20 + value))
            self.perform(request)
            self.rows.equal(f"set {20 + value}, unanswered", self.guest.send(EID, PLDM, request), "ok")
        said = self.guest.send(EID, PLDM, self.request(set_numeric(1, 0, 28)))
        self.rows.equal("a ninth request", said, "error EBUSY")
        time.sleep(KERNEL_TAG_SECONDS)
        self.ask("it is 27", get_numeric(1))

    def requests_in_a_row(self, count):
        """requests in a row"""
        print(f"-- {self.requests_in_a_row.__doc__}", flush=True)
        commands = ("00 02", "00 04", "02 11 0500 00", set_numeric(1, 0, 33), get_numeric(1), set_numeric(1, 0, 34))
        time.sleep(FORGOTTEN)
        self.instance, wrong, start = 0, "", time.monotonic()
        for number in range(count):
            # Each instance ID is used for another command than before, so that no request is a copy.
            request = self.request(commands[(number + number // 32) % len(commands)])
            wanted = self.wanted(self.device.perform(request))
            got = facts(self.guest.ask(EID, PLDM, request, ANSWER_MS))
            if got != wanted:
                wrong = f"request {number}: got {told(got)}, wanted {told(wanted)}"
                break
        seconds = time.monotonic() - start
        if self.rows.check(f"{count} requests in a row, all answered", not wrong, wrong):
            print(f"   {seconds:.0f} seconds, {count / seconds:.0f} a second, with the guest and its commands")
            self.tell_times(count)

    def tell_times(self, count):
        """How long the device took for each of the last requests, as it looked from the line. Each is one packet."""
        requests, answers = self.line.came[TO_DEVICE][-count:], self.line.came[TO_GUEST][-count:]
        times = sorted(1000 * (answer.moment - request.moment) for request, answer in zip(requests, answers))
        print(f"   from frame to frame {times[count // 2]:.1f} ms in the middle, {times[-1]:.1f} ms at most")


def facts(got):
    """Of a message, what does not depend on the tag that the kernel picked."""
    return (got.source, got.kind, got.data) if isinstance(got, Message) else got
