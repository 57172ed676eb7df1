"""What is looked at of the frames that passed the line: the device's own frames, and what Linux counted of them."""
from guest import OWN_EID
from second_device import EID
from serial_line import END, OWNER, START, TO_DEVICE, TO_GUEST
from shared import check_sequence

UNIT = 64


def check_packets(rows, line, statistics, sources=(EID,)):
    """On I2C each packet has one frame there too, so that the counts are the same. The device's packets come from the
    endpoint IDs that it had."""
    frames = line.came[TO_GUEST]
    bad = [it.raw.hex() for it in frames if not has_good_sequence(it)]
    rows.check(f"the check sequences of the device's {len(frames)} frames", frames and not bad, str(bad[:3]))
    bad = odd_packets(frames, sources)
    rows.check("the headers of its packets", not bad, str(bad[:3]))
    check_counts(rows, line, statistics)


def check_counts(rows, line, statistics):
    """What Linux counts is what passed the line, and none of it was refused."""
    rows.equal("bytes between frames", dict(line.stray), {})
    counted = (statistics["tx_packets"], statistics["rx_packets"])
    rows.equal("packets that Linux counts", counted, (len(line.came[TO_DEVICE]), len(line.passed[TO_GUEST])))
    names = ("rx_dropped", "rx_crc_errors", "rx_length_errors", "tx_dropped", "tx_errors")
    refused = {name: statistics[name] for name in names}
    rows.equal("frames that Linux refuses", refused, dict.fromkeys(refused, 0))


def has_good_sequence(frame):
    count = len(frame.packet)
    return frame.raw[-3:-1] == check_sequence(bytes([1, count]) + frame.packet).to_bytes(2, "big")


def odd_packets(frames, sources):
    """The packets that are not cut and numbered as DSP0236 has it, in pieces of 64 bytes."""
    odd, before = [], None
    for packet in (it.packet for it in frames):
        version, destination, source, flags = packet[:4]
        place = 0 if flags & START else before + 1 if before is not None else None
        well = place is not None and (version, destination) == (1, OWN_EID) and source in sources and not flags & OWNER
        well = well and flags >> 4 & 3 == place % 4 and 1 <= len(packet) - 4 <= UNIT
        well = well and (flags & END or len(packet) - 4 == UNIT)
        if not well:
            odd.append(packet.hex())
        before = None if flags & END else place
    return odd
