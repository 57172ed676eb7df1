"""What `show --decode` writes below the last of several GetPDR answers that have a record in parts.

The records and their lines are those of rows_decode_records.py, written by hand; the checksum is computed here, by the
long division of DSP0248's CRC-8.
"""
import rows_decode_records

LOCATOR, LOCATOR_LINES = rows_decode_records.RECORDS[0]
SENSOR, SENSOR_LINES = rows_decode_records.RECORDS[1]
NAMES, NAMES_LINES = rows_decode_records.RECORDS[4]

START, MIDDLE, BASE_MIDDLE, END, START_AND_END = "00", "01", "02", "04", "05"


def number(value, size):
    return value.to_bytes(size, "little").hex()


def checksum(record):
    """CRC-8 with the polynomial x^8 + x^2 + x + 1, start 0, the most significant bit first."""
    remainder = 0
    for bit in f"{int(record, 16):0{len(record) * 4}b}00000000":
        remainder = remainder * 2 + int(bit)
        remainder ^= 0x107 if remainder >= 0x100 else 0
    return f"{remainder:02x}"


assert checksum(b"123456789".hex()) == "f4"


def packets(source, destination, owner, message):
    """The capture's lines of a message, cut into packets of 64 bytes."""
    pieces = [message[i : i + 128] for i in range(0, len(message), 128)]
    for place, piece in enumerate(pieces):
        flags = 0x80 * (place == 0) | 0x40 * (place == len(pieces) - 1) | 0x10 * (place % 4) | 0x08 * owner
        yield f"0 01{destination:02x}{source:02x}{flags:02x}{piece}\n"


def ask(instance, transfer, reader=8, device=9):
    """A request for the part at this data transfer handle; 0 is that of the first part."""
    fields = f"00000000{number(transfer, 4)}{'00' if transfer else '01'}ff000000"
    return list(packets(reader, device, 1, f"01{0x80 | instance:02x}0251{fields}"))


def give(instance, flag, part, following=0, crc="", reader=8, device=9):
    """An answer with a part, and the data transfer handle of the following one."""
    fields = f"00000000{number(following, 4)}{flag}{number(len(part) // 2, 2)}{part}{crc}"
    return list(packets(device, reader, 0, f"01{instance:02x}025100{fields}"))


def refuse(instance, code):
    return list(packets(9, 8, 0, f"01{instance:02x}0251{code}"))


def parts(record, *places, flag=MIDDLE, **ends):
    """The questions and answers, in turn, of a record that is cut at these places: the handles are the places."""
    hexes = [2 * place for place in places]
    pieces = [record[a:b] for a, b in zip([0, *hexes], [*hexes, len(record)])]
    for index, piece in enumerate(pieces):
        at = places[index - 1] if index else 0
        instance = (1 + index) % 32
        yield ask(instance, at, **ends)
        if index == len(places):
            yield give(instance, END, piece, 0, checksum(record), **ends)
        else:
            yield give(instance, flag if index else START, piece, places[index], **ends)


def woven(one, other):
    """The messages of two transfers, one of each in turn."""
    return [message for pair in zip(one, other) for message in pair]


def long_record(count):
    """The messages of a record of a type without a name, of so many bytes, in parts of 200."""
    return parts("09000000" "01" "c8" "0000" "ffff" + "00" * (count - 10), *range(200, count, 200))


def cases():
    """What is tested, the messages, and the lines below the answers."""
    two = list(parts(LOCATOR, 7))
    three = list(parts(SENSOR, 20, 50))
    first, second, third = three[0:2], three[2:4], three[4:6]
    again = [ask(30, 20), give(30, MIDDLE, SENSOR[40:100], 50)]
    whole = [ask(9, 0), give(9, START_AND_END, LOCATOR)]
    others = [at(10, message) for message in second]
    both = SENSOR_LINES + NAMES_LINES
    unknown = ["record unread OtherType type 200"]
    yield "a record in two parts", two, LOCATOR_LINES
    yield "a record in three parts", three, SENSOR_LINES
    yield "a record in five parts", parts(NAMES, 1, 2, 10, 11), NAMES_LINES
    yield "a middle part with the flag of DSP0240", parts(SENSOR, 20, 50, flag=BASE_MIDDLE), SENSOR_LINES
    yield "a first part is asked for and answered twice", first + first + second + third, SENSOR_LINES
    yield "a middle part is asked for and answered twice", first + second + second + third, SENSOR_LINES
    yield "a middle part is answered twice", first + second + second[1:] + third, SENSOR_LINES
    yield "a middle part is asked for twice", first + second[:1] + second + third, SENSOR_LINES
    yield "the last part is asked for and answered twice", first + second + third + third, SENSOR_LINES * 2
    yield "an answer comes late", first + second + third[:1] + second[1:] + third[1:], SENSOR_LINES
    yield "a first answer comes late", first + second[:1] + first[1:] + second[1:] + third, SENSOR_LINES
    yield "a middle answer is lost", first + second[:1] + third, []
    yield "a middle question and its answer are lost", first + third, []
    yield "a middle question is lost", first + second[1:] + third, []
    yield "the first answer is lost", first[:1] + second + third, []
    yield "the last question is lost", first + second + third[1:], []
    yield "the last answer is lost", first + second + third[:1], []
    yield "a part is refused, and asked for again", [*first, second[0], refuse(2, "04"), *again, *third], SENSOR_LINES
    yield "a record begins anew", first + second + two, LOCATOR_LINES
    yield "a whole record comes between", first + whole + second + third, LOCATOR_LINES
    yield "another checksum", parts_with(LOCATOR, 7, "00"), ["record unread Crc type TerminusLocator"]
    yield "another checksum of five bytes", parts_with(LOCATOR[:10], 3, "01"), ["record unread Crc"]
    yield "a record that is not read", parts("09000000" "01" "c8" "0000" "0200" "0000", 5), unknown
    yield "two readers at once", woven(three, parts(NAMES, 5, 6, reader=10)), both
    yield "two devices at once", woven(three, parts(NAMES, 20, 50, device=10)), both
    yield "a reader is read, too", woven(three, parts(NAMES, 20, 50, reader=9, device=8)), both
    yield "the parts of two readers", first + others + third, []
    yield "the longest record", long_record(65545), unknown
    yield "a record that is too long", long_record(65546), []


def parts_with(record, place, crc):
    """A record in two parts with this checksum."""
    front, back = record[: 2 * place], record[2 * place :]
    return [ask(1, 0), give(1, START, front, place), ask(2, place), give(2, END, back, 0, crc)]


def at(reader, message):
    """The same, to or from another reader."""
    other = f"{reader:02x}"
    return [line.replace("0 010908", f"0 0109{other}").replace("0 010809", f"0 01{other}09") for line in message]


def check(rows, run):
    for name, messages, lines in cases():
        ran = run(["show", "--decode"], "".join(line for message in messages for line in message))
        got = [line for line in ran.stdout.decode().splitlines() if line.startswith("   ")]
        well = (got, ran.returncode, ran.stderr) == ([f"    {line}" for line in lines], 0, b"")
        rows.check(f"decoded in parts: {name}", well, repr((got[:9], ran.returncode, ran.stderr)))
    last = ran.stdout.decode().splitlines()[-1]
    well = last.startswith("  response ") and " End count " in last
    rows.check("decoded in parts: the answer's own line stays", well, last)
