"""Mutations: a text with bytes, numbers, values or lines changed."""
import re

from choices import pick

ODD_TEXTS = [
    b"%%", b"%%\n", b"\n%%\n", b"%% \n", b" %%\n", b"%%\r\n", b"\r", b"\r\r\n", b"\t", b"\0", b"\xff", b"\xc3\xa9",
    b"#", b" # ", b"\n\n", b" ", b"    ", b"-", b"+", b"0x", b'"', b"'''", b"[[", b"]]", b"[[pdr]]\n", b"= ", b"1e9",
    b"true", b"\xef\xbb\xbf", b"{}", b"\\", b"at", b"open", b"requester",
]
ODD_NUMBERS = [
    0, 1, 2, 7, 8, 9, 10, 31, 32, 63, 64, 127, 128, 239, 246, 254, 255, 256, 303, 304, 320, 321, 999, 1_000, 1_001,
    32_767, 32_768, 59_999, 60_000, 60_001, 65_535, 65_536, 65_545, 2**31 - 1, 2**31, 2**32 - 1, 2**32,
    4 * 10**15 - 1, 4 * 10**15, 4 * 10**15 + 1, 10**16 - 1, 10**16, 2**64 - 1, 2**64,
]

ODD_VALUES = [
    b"1", b"-1", b"1.5", b"true", b'""', b'"0"', b'"00"', b'"uint8"', b'"sint32"', b"[]", b"[1]", b"[1, 1, 1]", b"{}",
    b"[[1]]", b"[[1, 1, 1, 1]]", b'["1", 1, 1]', b"[1, 99, 1]", b"1979-05-27", b'"01000000010100000000"', b"",
]


def change_bytes(source, text):
    """Flips bits, or puts other bytes in place of some."""
    changed = bytearray(text)
    for _ in range(source.choice([1, 1, 2, 5])):
        if changed:
            place = source.randrange(len(changed))
            flipped = changed[place] ^ (1 << source.randrange(8))
            changed[place] = source.choice([flipped, source.randrange(256), 0x20, 0x0A])
    return bytes(changed)


def change_number(source, text):
    """Puts a number at a limit in the place of some number."""
    found = list(re.finditer(rb"-?[0-9]{1,20}", text))
    if not found:
        return text
    place = source.choice(found)
    number = b"%d" % (source.choice(ODD_NUMBERS) * source.choice([1, 1, 1, -1]))
    return text[: place.start()] + number.rjust(source.choice([0, 0, 0, 16, 17]), b"0") + text[place.end() :]


def change_digit(source, text):
    """Puts another hex digit in the place of one."""
    found = [place for place, byte in enumerate(text) if byte in b"0123456789abcdef"]
    if not found:
        return text
    place = source.choice(found)
    return text[:place] + bytes([source.choice(b"0123456789abcdefABCDEFg")]) + text[place + 1 :]


def put_text(source, text):
    """Puts an odd text somewhere."""
    place = source.randrange(len(text) + 1)
    return text[:place] + source.choice(ODD_TEXTS) + text[place:]


def cut(source, text):
    """Cuts the end off, or a piece out."""
    first, last = sorted((source.randrange(len(text) + 1), source.randrange(len(text) + 1)))
    return source.choice([text[:last], text[:first] + text[last:], text[:-1]])


def change_lines(source, text):
    """Swaps, drops, repeats or moves lines."""
    lines = text.split(b"\n")
    first, other = source.randrange(len(lines)), source.randrange(len(lines))
    way = source.randrange(5)
    if way == 0:
        lines[first], lines[other] = lines[other], lines[first]
    elif way == 1:
        del lines[first]
    elif way == 2:
        lines[other:other] = [lines[first]] * source.choice([1, 2, 40])
    elif way == 3:
        lines = lines[first:] + lines[:first]
    else:
        lines[first] = lines[first] + source.choice([b"\r", b" ", b"\t", b" 0", b"00", b" # no comment"])
    return b"\n".join(lines)


def change_value(source, text):
    """Puts another value in the place of a key's, so that its type or its range is another."""
    found = list(re.finditer(rb"(?m)^(\w+) = (.*)$", text))
    if not found:
        return text
    place = source.choice(found)
    return text[: place.start(2)] + source.choice(ODD_VALUES) + text[place.end(2) :]


def repeat_entry(source, text):
    """Repeats an entry of a list, so that its ID or handle is there twice."""
    entries = text.split(b"[[")
    if len(entries) > 1:
        entries.append(source.choice(entries[1:]))
    return b"[[".join(entries)


def change_ends(source, text):
    """Gives all lines other ends or fronts."""
    old, new = source.choice([(b"\n", b"\r\n"), (b"\n", b" \n"), (b"\n", b"\n  "), (b" ", b"\t")])
    return text.replace(old, new)


MUTATIONS = [
    (change_bytes, 4), (change_number, 6), (change_digit, 6), (put_text, 3), (cut, 2), (change_lines, 4),
    (change_ends, 1), (change_value, 3), (repeat_entry, 2),
]


def mutated(source, text):
    """The text after a few mutations; often after none."""
    for _ in range(pick(source, (0, 5), (1, 6), (2, 2), (5, 1))):
        text = pick(source, *MUTATIONS)(source, text)
    return text
