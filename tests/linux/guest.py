"""The guest: Linux as a program of user mode, with client.c for its user land, which does what it is asked here."""
import os
import select
import shutil
import signal
import socket
import subprocess
import time
from dataclasses import dataclass

OWN_EID = 8
OWN_ADDRESS = 0x08  # on I2C, as client.c has it
PICK_TAG = 8  # the tag that asks the kernel to pick one
PACKET_BYTES = 68  # the most that the device takes; on a serial line Linux sends no more by itself
BOOT_SECONDS = 120
LINE_NUMBERS = (1, 0, 2, 3)  # of the guest's serial lines, as client.c has them: the commands', then those to devices


@dataclass(frozen=True)
class Message:
    """A message that the guest's socket received, its bytes without the message type, which Linux takes off."""

    source: int
    kind: int
    tag: int
    data: bytes


class Guest:
    def __init__(self, work, folder, device_address=0, lines=1):
        """Starts the kernel of the folder `work`. Its root file system is a folder in `folder`. It is on I2C where the
        device has an address there, else on a serial line, or on up to three of them."""
        self.device_address = device_address
        root = os.path.join(folder, "root")
        os.makedirs(os.path.join(root, "dev"))
        for name in ("client", "i2c_adapter.ko") if device_address else ("client",):
            shutil.copy(os.path.join(work, name), root)
        pairs = [socket.socketpair() for _ in range(1 + lines)]
        self.commands, *self.lines = [ours for ours, _ in pairs]
        self.line = self.lines[0]
        self.held = b""
        ends = [its.fileno() for _, its in pairs]
        words = [
            os.path.join(work, "vmlinux-um"),
            *("mem=64M", "con0=null,fd:1", "con=null"),
            *(f"ssl{number}=fd:{end}" for number, end in zip(LINE_NUMBERS, ends)),
            *("root=/dev/root", "rootfstype=hostfs", f"rootflags={os.path.abspath(root)}", "rw", "init=/client"),
            f"binding={'i2c' if device_address else 'serial'}",
            f"lines={lines}",
        ]
        with open(os.path.join(folder, "boot.log"), "wb") as boot:
            self.process = subprocess.Popen(
                words, stdin=subprocess.DEVNULL, stdout=boot, stderr=boot, pass_fds=ends, start_new_session=True
            )
        for _, its in pairs:
            its.close()

    def wait_until_ready(self):
        answer = self.read_line(BOOT_SECONDS)
        if answer != "ready":
            raise RuntimeError(f"the guest did not start: {answer}")

    def read_line(self, seconds):
        end = time.monotonic() + seconds
        while b"\n" not in self.held:
            if not select.select([self.commands], [], [], max(0, end - time.monotonic()))[0]:
                raise RuntimeError(f"the guest wrote no line in {seconds} seconds")
            data = self.commands.recv(65536)
            if not data:
                raise RuntimeError("the guest has gone")
            self.held += data
        line, self.held = self.held.split(b"\n", 1)
        return line.decode().strip()

    def command(self, *words, seconds=30):
        self.commands.sendall((" ".join(map(str, words)) + "\n").encode())
        return self.read_line(seconds)

    def do(self, *words):
        """A command that has to be done."""
        answer = self.command(*words)
        if answer != "ok":
            raise RuntimeError(f"{' '.join(map(str, words))}: {answer}")

    def use_line(self, place):
        """The line that addresses, routes, messages without a route and statistics after it are of."""
        self.do("line", place)

    def set_address(self, eid):
        self.do("address", eid)

    def add_neighbour(self, eid, address):
        """The address on I2C at which an endpoint is."""
        self.do("neighbour", eid, address)

    def remove_neighbour(self, eid):
        self.do("unneighbour", eid)

    def add_route(self, eid, unit=0):
        """A route to an endpoint; `unit` is the most bytes of a packet, 0 for those that the device takes."""
        self.do("route", eid, unit or (PACKET_BYTES if self.device_address else 0))

    def remove_route(self, eid):
        self.do("unroute", eid)

    def keep_tag(self, eid):
        answer = self.command("tag", eid)
        if not answer.startswith("tag "):
            raise RuntimeError(f"no tag: {answer}")
        return int(answer[4:])

    def drop_tag(self, eid, tag):
        self.do("untag", eid, tag)

    def send(self, eid, kind, data, tag=PICK_TAG):
        """Sends a message, and returns `ok` or the kernel's refusal, `error NAME`."""
        return self.command("send", eid, kind, tag, data.hex())

    def send_physical(self, eid, kind, data):
        """The same by the line alone, without a route."""
        return self.command("physical", eid, kind, self.device_address, data.hex())

    def receive(self, milliseconds):
        return message_in(self.command("receive", milliseconds, seconds=30 + milliseconds / 1000))

    def ask(self, eid, kind, data, milliseconds, tag=PICK_TAG):
        """A message that was received, None where none was, or the kernel's refusal."""
        words = ("ask", eid, kind, tag, milliseconds, data.hex())
        return message_in(self.command(*words, seconds=30 + milliseconds / 1000))

    def statistics(self):
        words = self.command("statistics").split()
        return dict(zip(words[::2], map(int, words[1::2])))

    def end(self):
        """Powers the guest off, and returns its exit status."""
        self.command("end")
        return self.process.wait(timeout=30)

    def close(self):
        if self.process.poll() is None:
            # Each process of the guest is one of the host, in the group of the kernel.
            os.killpg(self.process.pid, signal.SIGKILL)
            self.process.wait()
        for end in (self.commands, *self.lines):
            end.close()


def message_in(answer):
    if answer == "nothing":
        return None
    if answer.startswith("error "):
        return answer
    words = answer.split()
    if words[0] != "message":
        raise RuntimeError(f"the guest said {answer!r}")
    return Message(int(words[1]), int(words[2]), int(words[3]), bytes.fromhex("".join(words[4:])))
