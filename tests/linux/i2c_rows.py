"""What is no frame on the I2C bus, for the C library and for Linux's driver; and what wrong PECs have to come to."""
import time
from collections import Counter

from conversation import ANSWER_MS, KERNEL_TAG_SECONDS, PLDM, SILENCE_MS, facts
from i2c_bus import COMMAND_CODE, DEVICE_ADDRESS, FAULTS, fault_of
from guest import OWN_ADDRESS
from second_device import EID, crc8
from serial_line import TO_DEVICE, TO_GUEST

LEAST_OF_LINUX = 9  # bytes of the shortest frame that its driver takes
MOST_PACKET_BYTES = 254
WRONG_PEC = 1 + FAULTS.index("WrongPec")
SPOILED_ANSWER_MS = 200
COUNTERS = ("rx_packets", "rx_dropped", "rx_length_errors", "rx_crc_errors")


def changed_in_turn(transfer):
    """The transfer with each of its bits changed, and each of its fronts."""
    bits = [changed(transfer, place, 1 << bit) for place in range(len(transfer)) for bit in range(8)]
    return bits + [transfer[:length] for length in range(1, len(transfer))]


def changed(transfer, place, bits):
    return transfer[:place] + bytes([transfer[place] ^ bits]) + transfer[place + 1 :]


def linux_counter(transfer):
    """The counter of Linux's driver that a transfer with a fault raises; None where it is to another address."""
    if transfer[0] != OWN_ADDRESS * 2:
        return None
    if len(transfer) < LEAST_OF_LINUX:
        return "rx_length_errors"
    if transfer[1] != COMMAND_CODE:
        return "rx_dropped"
    if transfer[2] != len(transfer) - 4:
        return "rx_length_errors"
    return "rx_crc_errors" if transfer[-1] != crc8(transfer[:-1]) else "rx_packets"


class I2cRows:
    def __init__(self, rows, guest, bus, line, conversation):
        self.rows, self.guest, self.bus, self.line = rows, guest, bus, line
        self.conversation = conversation

    def run(self):
        """what is no frame on the bus"""
        print(f"-- {self.run.__doc__}", flush=True)
        while self.guest.receive(SILENCE_MS) is not None:
            pass  # what came late is of no row here
        self.refused_by_library(changed_in_turn(self.bus.came[TO_DEVICE][-1]))
        self.refused_by_linux(changed_in_turn(self.bus.came[TO_GUEST][-1]))
        self.conversation.ask("and after them a request", "00 02")
        self.another_address()
        self.longest_packet()
        self.conversation.ask("and after it a request", "00 02")

    def refused_by_library(self, transfers):
        before, reached = len(self.bus.faults()), len(self.line.came[TO_DEVICE])
        for it in transfers:
            self.bus.inject(TO_DEVICE, it)
        wait_for(lambda: len(self.bus.faults()) - before >= len(transfers))
        wanted = [fault_of(it, DEVICE_ADDRESS) for it in transfers]
        told = self.bus.faults()[before:]
        name = f"each bit of a request changed, and each front of it: {len(transfers)} faults of the C library"
        self.rows.equal(name, told, wanted)
        self.rows.equal("none of them reached the device", len(self.line.came[TO_DEVICE]), reached)
        print(f"   {', '.join(f'{FAULTS[number - 1]} {count}' for number, count in sorted(Counter(told).items()))}")

    def refused_by_linux(self, transfers):
        before = self.guest.statistics()
        for it in transfers:
            self.bus.inject(TO_GUEST, it)
        wanted = Counter(linux_counter(it) for it in transfers)
        del wanted[None]
        wait_for(lambda: sum(self.counted_since(before).values()) >= sum(wanted.values()))
        told = self.counted_since(before)
        name = f"the same of an answer: {len(transfers)} transfers, as Linux counts them"
        self.rows.equal(name, told, {it: wanted[it] for it in COUNTERS})
        self.rows.equal("none of them is a message", self.guest.receive(SILENCE_MS), None)

    def counted_since(self, before):
        now = self.guest.statistics()
        return {name: now[name] - before[name] for name in COUNTERS}

    def another_address(self):
        self.guest.remove_neighbour(EID)
        self.guest.add_neighbour(EID, DEVICE_ADDRESS + 1)
        before = len(self.bus.faults())
        request = self.conversation.request("00 02")
        self.conversation.expect_silence("a request to another address", request)
        self.rows.equal("it is named", [FAULTS[it - 1] for it in self.bus.faults()[before:]], ["NotOurs"])
        self.guest.remove_neighbour(EID)
        self.guest.add_neighbour(EID, DEVICE_ADDRESS)

    def longest_packet(self):
        """The longest frame there is. The library reads it, and the device takes no such packet."""
        conversation = self.conversation
        conversation.set_unit(MOST_PACKET_BYTES)
        request = conversation.request("00 02" + "11" * (MOST_PACKET_BYTES - 4 - 1 - 3))
        silence = lambda: conversation.expect_silence("a packet of 254 bytes", request)
        conversation.expect_drops("a packet of 254 bytes", "TooLong", silence)
        self.rows.equal("its frame", len(self.bus.came[TO_DEVICE][-1]), MOST_PACKET_BYTES + 5)
        self.rows.equal("its packet", len(self.line.came[TO_DEVICE][-1].packet), MOST_PACKET_BYTES)
        conversation.set_unit(0)


def wait_for(holds):
    end = time.monotonic() + 10
    while not holds() and time.monotonic() < end:
        time.sleep(0.05)


class WrongPecs:
    """A control: a part of the conversation on a bus that changes each PEC of one direction. It has to fail."""

    def __init__(self, rows, told, guest, bus, conversation):
        """`rows` are those of the conversation, `told` those of the control."""
        self.rows, self.told, self.guest, self.bus = rows, told, guest, bus
        self.conversation = conversation

    def run(self):
        self.told.check("with good PECs the device is there", not self.rows.failed, str(self.rows.failed))
        self.conversation.answer_ms = SPOILED_ANSWER_MS
        faults = self.spoil(TO_DEVICE)
        named = self.bus.faults()
        self.told.equal("the C library names each", named, [WRONG_PEC] * faults)
        before = self.guest.statistics()
        answers = self.spoil(TO_GUEST)
        after = self.guest.statistics()
        self.told.equal("Linux counts each", after["rx_crc_errors"] - before["rx_crc_errors"], answers)
        self.told.equal("Linux takes one, with a good PEC", after["rx_packets"] - before["rx_packets"], 1)

    def spoil(self, direction):
        """Returns how many frames went that way."""
        print(f"-- wrong PECs of the frames {direction}", flush=True)
        passed, failed = self.rows.passed, len(self.rows.failed)
        before = len(self.bus.came[direction])
        self.bus.spoiled = direction
        self.conversation.each_command()
        self.bus.spoiled = None
        failed = len(self.rows.failed) - failed
        frames = len(self.bus.came[direction]) - before
        name = f"no request of {failed} is answered, {frames} frames {direction} have a wrong PEC"
        self.told.equal(name, (self.rows.passed - passed, failed > 0, frames > 0), (0, True, True))
        time.sleep(KERNEL_TAG_SECONDS)
        got = facts(self.guest.ask(EID, PLDM, self.conversation.request("00 04"), ANSWER_MS))
        self.told.check(f"with good PECs {direction} again there is an answer", isinstance(got, tuple), str(got))
        return frames
