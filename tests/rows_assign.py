"""Rows for `tests/check` over `assign`: the device that `serve` serves has no endpoint ID at first.

The packets were written by hand from DSP0236, "MCTP packet fields", "MCTP control message format" and "Set Endpoint ID".
"""
import subprocess
import tempfile

from rows_serve import wait_for
from support.askers import ENDS, TIMES, Place
from support.frames import frame, read_frame
from support.programs import PIPES, SECONDS
from support.terminals import Terminal

CONTROL = """
[control]
assigned = true
"""

# As `show --decode` shows these messages.
TAKEN = b"  response 0 SetEndpointID assignment accepted eid 9 pool 0\n"
TID = b"  response 0 GetTID tid 1\n"
NO_ANSWER = b"mctpctl: SetEndpointID: no answer; it may have been performed\n"

# Endpoint 8 asks whoever is there, by the null endpoint ID, to take the endpoint ID 9: TO 1, tag 0, instance ID 0.
REQUEST = bytes.fromhex("010008c80080010009")


def answer(source, status, eid, identifier=0):
    """The packet of an answer from this endpoint: tag 0, TO 0, a pool of none."""
    return bytes([1, 8, source, 0xC0, 0, identifier, 1, 0, status, eid, 0])


def given(rows, place):
    """A device without an endpoint ID is given one, and is then asked by it; again, and it has it already."""
    with Terminal() as terminal:
        served = place.serve(terminal)
        try:
            asked = place.run("ask", "--line", terminal.name, *ENDS, *TIMES, "gettid")
            assigned = [place.run("assign", "--line", terminal.name, *ENDS, *TIMES) for _ in range(2)]
            after = place.run("ask", "--line", terminal.name, *ENDS, *TIMES, "gettid")
        finally:
            served.terminate()
            served.wait(timeout=SECONDS)
    rows.check("assigned: no answer before", asked[0] == 3, repr(asked))
    rows.check("assigned: taken, and again", assigned == [(0, TAKEN, b"")] * 2, repr(assigned))
    rows.check("assigned: it answers after", after == (0, TID, b""), repr(after))


def answered(place, packet):
    """The packet that `assign` sends first, and how it ends, where that is answered with this packet."""
    with Terminal() as terminal:
        words = [place.program, "assign", "--line", terminal.name, *ENDS, *TIMES]
        with subprocess.Popen(words, **{**PIPES, "stdin": subprocess.DEVNULL}) as assigning:
            asked, _ = read_frame(wait_for(terminal.ours, len(frame(REQUEST))))
            terminal.write(frame(packet))
            out, err = assigning.communicate(timeout=SECONDS)
    return asked, (assigning.returncode, out, err)


def judged(rows, place):
    """Which packets answer, and the exit status of each answer."""
    for name, source, status, eid, want in (
        ("from the null endpoint ID", 0, 0x00, 9, 0),
        ("from the endpoint ID that it had", 10, 0x00, 9, 0),
        ("it was not accepted", 0, 0x10, 0, 1),
        ("it has another endpoint ID", 0, 0x00, 10, 1),
        ("it is a bridge that wants a pool", 0, 0x01, 9, 0),
    ):
        asked, (code, _, err) = answered(place, answer(source, status, eid))
        rows.check(f"assigned: {name}", (asked, code, err) == (REQUEST, want, b""), repr((asked, code, err)))
    for name, packet in (
        ("from the endpoint that asks", answer(8, 0, 9)),
        ("of another instance ID", answer(0, 0, 9, identifier=1)),
        ("to another endpoint", bytes([1, 10]) + answer(0, 0, 9)[2:]),
        ("on another tag", answer(0, 0, 9)[:3] + bytes([0xC1]) + answer(0, 0, 9)[4:]),
    ):
        _, ended = answered(place, packet)
        rows.check(f"assigned: not believed {name}", ended == (3, b"", NO_ANSWER), repr(ended))


def check(rows, program, device):
    """Checks each row over the program; `device` is the text of a description."""
    with tempfile.TemporaryDirectory() as folder:
        place = Place(program, folder, device + CONTROL)
        given(rows, place)
        judged(rows, place)
