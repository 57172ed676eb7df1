"""Schedules for `run`: requesters, and the steps of what they send and what is delivered."""
from choices import pick


def sent(source):
    """The words of a command."""

    def number(*choices):
        return str(source.choice(choices))

    size, value = source.choice("uint8 sint8 uint16 sint16 uint32 sint32".split()), number(0, 1, 40, 100, 101, 127)
    if source.random() < 0.02:
        value = number(-32769, -500, -1, 128, 255, 256, 65535, 65536)
    return source.choice(
        [
            "gettid", "gettypes", "pdrinfo", "settid " + number(0, 1, 5, 255), "getversion " + number(0, 1, 2, 63),
            "getcommands " + number(0, 2, 3), "sensor " + number(1, 2, 9), "statesensors " + number(10, 1),
            f"setnum {number(1, 2)} {size} {value}", "getnum " + number(1, 2, 9),
            f"setstate {number(2, 4)} {number('-', 1, 2, 5)} {number('-', 1, 2)}", "getstate " + number(2, 4),
            f"getpdr {number(0, 1, 2)} {number(0, 239, 300)} {number('first', 'next')} {number(0, 1, 239, 65535)}",
        ]
    )


def step(source, moment, requester, opened):
    """One step of a schedule."""
    request, piece = source.randrange(opened + 1), source.choice([0, 0, 0, 1, 2, 3, 4, 255])
    return pick(
        source,
        (f"at {moment} open {requester} {sent(source)}", 30),
        (f"at {moment} req {request}", 30),
        (f"at {moment} rep {request} {piece}", 30),
        (f"at {moment} tick {requester}", 8),
        (f"at {moment} sense {source.choice([1, 2, 9])} {source.choice([-129, -1, 0, 41, 255, 256])}", 4),
        (f"at {moment} busy {request}", 4),
        (f"at {moment} restart", 2),
    )


# The timeout and the tries of a requester, for a keeping time of a second: mostly such as are taken.
TIMINGS = [
    ((200, 3), 40), ((100, 5), 10), ((333, 3), 8), ((125, 8), 8), ((1000, 1), 8), ((1, 1), 4),
    ((334, 3), 1), ((0, 3), 1), ((200, 0), 1), ((200, 9), 1), ((60000, 8), 1),
]


def schedule(source):
    """Lines of a schedule."""
    requesters = source.sample([8, 10, 11, 254], source.choice([1, 1, 2, 3]))
    lines = []
    for requester in requesters:
        timeout, tries = pick(source, *TIMINGS)
        lines.append(f"requester {requester} timeout {timeout} tries {tries}")
    moment, opened = 0, 0
    for _ in range(source.choice([0, 1, 3, 8, 20, 60])):
        line = step(source, moment, source.choice(requesters), opened)
        opened += " open " in line
        lines.append(line)
        moment += pick(source, (0, 50), (10, 30), (200, 10), (1000, 8), (2000, 2))
    return "\n".join(lines).encode() + b"\n"
