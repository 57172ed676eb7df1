"""The I2C bus between the guest and the device's controller: a passer of transfers, each a line of hex.

The frames are looked at by the words of DSP0237, in Python: this shares nothing with Linux's driver or the C library.
"""
import os
import select
import socket
import subprocess
import threading
import time

from guest import OWN_ADDRESS
from second_device import crc8
from serial_line import TO_DEVICE, TO_GUEST

DEVICE_ADDRESS = 0x1D  # as i2c_bridge.c has it
COMMAND_CODE = 0x0F
INJECTION_SECONDS = 0.005
FAULTS = ("Short", "NotOurs", "OtherCommand", "WrongCount", "NotSource", "WrongPec")


def frame(source, destination, packet):
    """A block write: address, command code, count, the source's address with bit 0, the packet, and the PEC of all."""
    checked = bytes([destination * 2, COMMAND_CODE, 1 + len(packet), source * 2 + 1]) + packet
    return checked + bytes([crc8(checked)])


def fault_of(transfer, own):
    """The number of the first fault of a transfer, in the order of include/needleoat.h; 0 for a frame to `own`."""
    if len(transfer) < 6:
        return 1
    source = transfer[3]
    failing = (
        transfer[0] != own * 2,
        transfer[1] != COMMAND_CODE,
        transfer[2] != len(transfer) - 4,
        source & 1 == 0 or not 0x08 <= source >> 1 <= 0x77,
        transfer[-1] != crc8(transfer[:-1]),
    )
    return 2 + failing.index(True) if True in failing else 0


class I2cBus:
    def __init__(self, guest, bridge):
        """Starts the program `bridge`, the controller of the device, whose serial line is `self.line`."""
        self.guest = guest
        self.line, line_end = socket.socketpair()
        self.bus, bus_end = socket.socketpair()
        # File descriptor 3 of the bridge is its serial line.
        words = ["sh", "-c", f'exec "$0" 3<&{line_end.fileno()}', bridge]
        self.process = subprocess.Popen(
            words, stdin=bus_end, stdout=bus_end, stderr=subprocess.PIPE, pass_fds=[line_end.fileno()]
        )
        line_end.close()
        bus_end.close()
        self.told_by = self.process.stderr.fileno()
        self.ways = {guest: (self.bus, TO_DEVICE), self.bus: (guest, TO_GUEST)}
        self.sources = [guest, self.bus, self.told_by]
        self.held = {guest: b"", self.bus: b""}
        self.came = {TO_DEVICE: [], TO_GUEST: []}  # transfers, as they came from the other end
        self.passed = []  # the moment of each transfer that was on the bus, and its bytes
        self.spoiled = None  # the direction in which each PEC is made a wrong one
        self.told = b""  # what the bridge wrote to standard error
        self.fault = None
        self.thread = threading.Thread(target=self.run, daemon=True)
        self.thread.start()

    def run(self):
        try:
            while self.sources:
                for source in select.select(self.sources, [], [], 1)[0]:
                    self.take(source)
        except (OSError, ValueError) as fault:
            self.fault = fault

    def take(self, source):
        try:
            data = os.read(self.told_by, 65536) if source == self.told_by else source.recv(65536)
        except ConnectionResetError:
            data = b""
        if not data:
            # Where the guest has gone, that is passed on to the bridge, and what it still says is read.
            self.sources.remove(source)
            if source is self.guest:
                self.bus.shutdown(socket.SHUT_WR)
        elif source == self.told_by:
            self.told += data
        else:
            *lines, self.held[source] = (self.held[source] + data).split(b"\n")
            for line in lines:
                self.take_transfer(*self.ways[source], bytes.fromhex(line.decode()))

    def take_transfer(self, target, direction, transfer):
        self.came[direction].append(transfer)
        if self.spoiled == direction:
            transfer = transfer[:-1] + bytes([transfer[-1] ^ 0xFF])
        self.pass_transfer(target, transfer)

    def pass_transfer(self, target, transfer):
        self.passed.append((time.monotonic(), transfer))
        target.sendall(transfer.hex().encode() + b"\n")

    def inject(self, direction, transfer):
        """A transfer of another master. A line of the guest that was held back is never read again, so it waits."""
        self.pass_transfer(self.bus if direction == TO_DEVICE else self.guest, transfer)
        time.sleep(INJECTION_SECONDS)

    def faults(self):
        """The numbers of the faults that the bridge has named."""
        return [int(line.split()[1]) for line in self.told.decode().splitlines()]

    def close(self):
        if self.process.poll() is None:
            self.process.kill()
        self.process.wait()


def check_bus(rows, bus, line):
    """Of all that passed: each frame is as the standard has it, and carries the packet of the serial line."""
    ways = ((TO_DEVICE, OWN_ADDRESS, DEVICE_ADDRESS, line.came), (TO_GUEST, DEVICE_ADDRESS, OWN_ADDRESS, line.passed))
    for direction, source, destination, packets in ways:
        wanted = [frame(source, destination, it.packet) for it in packets[direction]]
        came = bus.came[direction]
        rows.check(f"the {len(came)} frames {direction} on the bus", came and came == wanted, difference(came, wanted))
    rows.equal("the bridge names no fault", bus.faults(), [])


def difference(came, wanted):
    pairs = [f"{one.hex()} for {other.hex()}" for one, other in zip(came, wanted) if one != other]
    return f"{len(came)} came, {len(wanted)} wanted, {len(pairs)} differ: {pairs[:2]}"
