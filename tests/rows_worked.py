"""The worked captures and schedules: what each of them makes the program write, and how it ends.

The device is that of examples/device.toml. What is wanted is taken from the tables and rules of docs/PROTOCOL.md.
"""
from rows_large import checksum
from support.examples import DEVICE

TID_IS_1 = "010809c0010000020001\n"

# A request for the terminus ID, and its answer.
QUESTION = "0 010908c801800002\n1 010809c0010000020001\n"
QUESTION_SHOWN = """0 8>9 tag 0 to 1 som 1 eom 1 seq 0 len 4 whole
  request 0 GetTID - ok
1 9>8 tag 0 to 0 som 1 eom 1 seq 0 len 6 whole
  response 0 GetTID 00 01
"""

# A request whose first answer is lost, and a retry.
RETRY = """requester 8 timeout 200 tries 3
at 0 open 8 setnum 1 uint8 40
at 0 req 0
at 200 tick 8
at 200 req 0
at 210 rep 0 0
"""
RETRY_REPORT = """0 opened 0
0 fresh changed
200 again 0
200 copy
210 answered
request 0 from 8 answered 0100023100
order 0
tid 1
sensor 1 40
numeric 1 40
state 2 1 1
timely: yes
"""

# The lines of a capture, and what `answer` writes.
ANSWERS = [
    ("0 010908c801800002", TID_IS_1),
    ("0 f10908c801800002", TID_IS_1),
    ("  0 010908C801800002\r\n # 0 00\n", TID_IS_1),
    ("0 010908c90181000105\n1 010908ca01820002\n", "010809c10101000100\n010809c2010200020005\n"),
    ("0 010908c801800502", "010809c00100050220\n"),
    ("0 010908c901810010", "010809c10101001005\n"),
    ("0 010908ca0182000200", "010809c20102000203\n"),
    ("0 010908cb0183000100", "010809c30103000102\n"),
    ("", ""),
    ("# nothing\n\n", ""),
    # a line of as many bytes as it may have
    ("00000 010908c8" + "01" * 2041, "drop UnsupportedUnit\n"),
    # the commands of the device
    ("0 010908c90181023101000028", "010809c10101023100\n"),
    (
        "0 010908c80180023902000201020103\n0 010908c90181023a0200\n"
        "0 010908ca0182023902000201020000000000000000000000000000\n0 010908cb0183023a0200",
        "010809c00100023981\n010809c10101023a0002010101010101\n"
        "010809c20102023900\n010809c30103023a0002010202010101\n",
    ),
    ("0 010908cc01840211090000", "010809c40104021180\n"),
    ("0 010908c801800004", "010809c001000004000500000000000000\n"),
    ("0 010908c9018100050200000000", f"010809c10101000500000002000200060600000300{'0' * 40}\n"),
    ("0 010908ca01820003000000000100", "010809c20102000300000000000500f0f0f1\n"),
    # drops, in the order of their checks
    ("0", "drop Short\n"),
    ("0 020908c801800002", "drop BadVersion\n"),
    ("0 010b08c801800002", "drop UnknownDestination\n"),
    ("0 010907c801800002", "drop BadSource\n"),
    ("0 010909c801800002", "drop BadSource\n"),
    ("0 010908c8", "drop NoPayload\n"),
    ("0 010908c8" + "01" * 65, "drop UnsupportedUnit\n"),
    ("0 010908c001800002", "drop BadTag\n"),
    ("0 0109084801800002", "drop UnexpectedMiddleOrEnd\n"),
    ("0 010908c802800002", "drop NotPldm\n"),
    ("0 010908c881800002", "drop Integrity\n"),
    ("0 010908c80180", "drop ShortHeader\n"),
    ("0 010908c801804002", "drop BadPldmHeader\n"),
    ("0 010908c801000002", "drop NotRequest\n"),
    ("0 010908c801c00002", "drop Datagram\n"),
    # messages of several packets
    ("0 010908880180\n0 010908880182\n0 010908580002", "partial\npartial\n010809c0010200020001\n"),
    (
        "1 010908880180\n1 0109086805\n1 010908180001\n1 0109086805",
        "partial\ndrop OutOfSequence\ndrop UnexpectedMiddleOrEnd\ndrop UnexpectedMiddleOrEnd\n",
    ),
    ("2 010908880180\n2 010908180001\n2 0109086805", "partial\npartial\n010809c00100000100\n"),
    ("3 010908880180\n3 0109081800", "partial\ndrop WrongUnit\n"),
    (
        "4 0109088801\n4 0109081880\n4 0109082800\n4 0109083801\n4 0109084805",
        "partial\npartial\npartial\npartial\n010809c00100000100\n",
    ),
    (
        "5 0109088801\n5 0109081880\n5 0109082800\n5 0109083801\n5 0109080800\n5 0109085805",
        "partial\npartial\npartial\npartial\npartial\ndrop TooLong\n",
    ),
    # in the last millisecond of keeping a copy has the kept answer, and sets nothing
    (
        "0 010908c90181023101000028\n500 010908ca0182023101000032\n"
        "999 010908c90181023101000028\n999 010908cb018302320100",
        "010809c10101023100\n010809c20102023100\n010809c10101023100\n010809c3010302320000013232\n",
    ),
    # after it the message is fresh
    (
        "0 010908c90181023101000028\n500 010908ca0182023101000032\n"
        "1000 010908c90181023101000028\n1000 010908cb018302320100",
        "010809c10101023100\n010809c20102023100\n010809c10101023100\n010809c3010302320000012828\n",
    ),
    # the same message from another source is fresh
    (
        "0 010908c90181023101000028\n1 01090aca0182023101000032\n"
        "2 01090ac90181023101000028\n3 010908ca018202320100",
        "010809c10101023100\n010a09c20102023100\n010a09c10101023100\n010809c2010202320000012828\n",
    ),
    # a copy does not lengthen the keeping
    (
        "0 010908c90181023101000028\n600 010908c90181023101000028\n700 010908ca0182023101000032\n"
        "1100 010908c90181023101000028\n1101 010908cb018302320100",
        "010809c10101023100\n010809c10101023100\n010809c20102023100\n"
        "010809c10101023100\n010809c3010302320000012828\n",
    ),
    # a copy's answer has the tag of the copy
    ("0 010908c801800002\n1 010908ca01800002", "010809c0010000020001\n010809c2010000020001\n"),
    # the repository, and parts of a record of 300 bytes
    ("0 010908cb01830250", f"010809c30103025000{'0' * 54}010000002c0100002c01000000\n"),
    (
        "0 010908c801800251000000000000000001ffff0000",
        f"0108098001000251000000000000000000052c0101000000010100002201{'0' * 76}\n"
        f"01080910{'0' * 128}\n01080920{'0' * 128}\n01080930{'0' * 128}\n01080940{'0' * 120}\n",
    ),
    (
        "0 010908c90181025100000000ef00000000ffff0000",
        f"0108098101010251000000000000000000043d00{'0' * 96}\n01080951{'0' * 26}f5\n",
    ),
    ("0 010908ca01820251000000002c01000000ffff0000", "010809c20102025180\n"),
]

# A record handle, a transfer handle, an operation and a count, and what follows the command's number in the answer: in
# the order of refusals.
PARTS = [
    ("0000000000000000070000", "02"),
    ("0000000000000000070100", "81"),
    ("0200000000000000010100", "82"),
    ("0100000000000000000100", "80"),
    ("0100000001000000000100", "00000000000200000001010000"),
    ("010000002b010000000100", "00000000000000000004010000f5"),
]
ANSWERS += [(f"0 010908c801800251{asked}0000", f"010809c001000251{answer}\n") for asked, answer in PARTS]

# A packet that sets an effecter, cut short after so many bytes.
WHOLE = "010908c90181023101000028"
CUT = ["drop Short"] * 4 + ["drop NoPayload"] + ["drop ShortHeader"] * 3 + ["010809c10101023103"] * 4
ANSWERS += [(f"0 {WHOLE[:2 * bytes]}", f"{text}\n") for bytes, text in enumerate([*CUT, "010809c10101023100"])]

# Each of the 64 bits of the packet `010908c801800002` changed, the top bit of each byte first.
BITS_CHANGED = """\
810908c801800002 010809c0010000020001
410908c801800002 010809c0010000020001
210908c801800002 010809c0010000020001
110908c801800002 010809c0010000020001
090908c801800002 drop BadVersion
050908c801800002 drop BadVersion
030908c801800002 drop BadVersion
000908c801800002 drop BadVersion
018908c801800002 drop UnknownDestination
014908c801800002 drop UnknownDestination
012908c801800002 drop UnknownDestination
011908c801800002 drop UnknownDestination
010108c801800002 drop UnknownDestination
010d08c801800002 drop UnknownDestination
010b08c801800002 drop UnknownDestination
010808c801800002 drop UnknownDestination
010988c801800002 018809c0010000020001
010948c801800002 014809c0010000020001
010928c801800002 012809c0010000020001
010918c801800002 011809c0010000020001
010900c801800002 drop BadSource
01090cc801800002 010c09c0010000020001
01090ac801800002 010a09c0010000020001
010909c801800002 drop BadSource
0109084801800002 drop UnexpectedMiddleOrEnd
0109088801800002 partial
010908e801800002 010809c0010000020001
010908d801800002 010809c0010000020001
010908c001800002 drop BadTag
010908cc01800002 010809c4010000020001
010908ca01800002 010809c2010000020001
010908c901800002 010809c1010000020001
010908c881800002 drop Integrity
010908c841800002 drop NotPldm
010908c821800002 drop NotPldm
010908c811800002 drop NotPldm
010908c809800002 drop NotPldm
010908c805800002 drop NotPldm
010908c803800002 drop NotPldm
010908c800800002 drop NotPldm
010908c801000002 drop NotRequest
010908c801c00002 drop Datagram
010908c801a00002 010809c0010000020001
010908c801900002 010809c0011000020001
010908c801880002 010809c0010800020001
010908c801840002 010809c0010400020001
010908c801820002 010809c0010200020001
010908c801810002 010809c0010100020001
010908c801808002 drop BadPldmHeader
010908c801804002 drop BadPldmHeader
010908c801802002 010809c00100200220
010908c801801002 010809c00100100220
010908c801800802 010809c00100080220
010908c801800402 010809c00100040220
010908c801800202 010809c00100020205
010908c801800102 010809c00100010220
010908c801800082 010809c00100008205
010908c801800042 010809c00100004205
010908c801800022 010809c00100002205
010908c801800012 010809c00100001205
010908c80180000a 010809c00100000a05
010908c801800006 010809c00100000605
010908c801800000 010809c00100000005
010908c801800003 010809c00100000303
"""
ANSWERS += [(f"0 {line.split(' ', 1)[0]}", f"{line.split(' ', 1)[1]}\n") for line in BITS_CHANGED.splitlines()]

# The lines of a capture that is refused, what `answer` writes, and what standard error says.
REFUSED_CAPTURES = [
    ("0 01090", "", "line 1: BadHex"),
    ("0 010908c801800002\n\n0 1 2", TID_IS_1, "line 3: Words"),
    ("0 010908c801800002\nx", TID_IS_1, "line 2: Number"),
    ("5 010908c801800002\n4", TID_IS_1, "line 2: BackInTime"),
    ("%%", "", "line 1: Number"),
]

# A capture, and what `show` writes.
SHOWN = [
    (QUESTION, QUESTION_SHOWN),
    (
        """0 010908c90181023101000028
1 010908c801800502
2 010809c001000002
3 010908c802
4 0109086805
5 0109
""",
        """0 8>9 tag 1 to 1 som 1 eom 1 seq 0 len 8 whole
  request 1 SetNumericEffecterValue 01000028 ok
1 8>9 tag 0 to 1 som 1 eom 1 seq 0 len 4 whole
  request 0 5/02 - refused 20
2 9>8 tag 0 to 0 som 1 eom 1 seq 0 len 4 whole
  drop ShortHeader
3 8>9 tag 0 to 1 som 1 eom 1 seq 0 len 1 whole
  drop NotPldm
4 8>9 tag 0 to 1 som 0 eom 1 seq 2 len 1 drop UnexpectedMiddleOrEnd
5 drop Short
""",
    ),
    # messages of several packets from one source under one tag, to two destinations in turn; a response with a
    # completion code and data; moments as they are read
    (
        """007 010908880180
7 010a08880181
8 010908580002
9 010a08580001
10 010809c001000211800a0b
""",
        """7 8>9 tag 0 to 1 som 1 eom 0 seq 0 len 2 partial
7 8>10 tag 0 to 1 som 1 eom 0 seq 0 len 2 partial
8 8>9 tag 0 to 1 som 0 eom 1 seq 1 len 2 whole
  request 0 GetTID - ok
9 8>10 tag 0 to 1 som 0 eom 1 seq 1 len 2 whole
  request 1 SetTID - refused 03
10 9>8 tag 0 to 0 som 1 eom 1 seq 0 len 7 whole
  response 0 GetSensorReading 80 0a0b
""",
    ),
    ("# nothing\n\n", ""),
]

# A capture that is refused, what `show` writes, and what standard error says.
REFUSED_SHOWN = [
    ("5 0109\n\n%%", "5 drop Short\n", "line 3: Number"),
    ("5 0109\n4 0109", "5 drop Short\n", "line 2: BackInTime"),
]

# A schedule that is refused, and what standard error says.
REFUSED_SCHEDULES = [
    ("requester 8 timeout 200 tries 3\nat 5 tick 8\nat 4 tick 8\n", "line 3: BackInTime"),
    ("requester 8 timeout 200 tries 3\nat 300 tick 9\n", "line 2: NoSuchRequester"),
    ("requester 8 timeout 200 tries 3\nrequester 8 timeout 200 tries 3\n", "line 2: SameRequester"),
    ("requester 8 timeout 400 tries 3\n", "requester 8: TooLate"),
    ("requester 9 timeout 200 tries 3\n", "requester 9: SameEid"),
    ("requester 9 timeout 200 tries 3\n\nx\n", "line 3: Words"),
    ("%%\n", "line 1: Words"),
]

# What a schedule shows, the schedule, and what `run` writes.
SCHEDULES = [
    ("a retry is answered by the kept answer", RETRY, RETRY_REPORT),
    (
        "a copy has the reading that it had; a new request has the new one",
        """requester 8 timeout 200 tries 3
at 0 open 8 sensor 1
at 0 req 0
at 5 sense 1 41
at 10 req 0
at 10 open 8 sensor 1
at 10 req 1
at 20 rep 0 0
at 20 rep 1 0
""",
        """0 opened 0
0 fresh unchanged
5 set
10 copy
10 opened 1
10 fresh unchanged
20 answered
20 answered
request 0 from 8 answered 010002110000000001010128
request 1 from 8 answered 010102110000000001010129
order 0 1
tid 1
sensor 1 41
numeric 1 10
state 2 1 1
timely: yes
""",
    ),
    (
        "an untimely request is performed twice",
        """requester 8 timeout 200 tries 3
at 0 open 8 setnum 1 uint8 40
at 0 req 0
at 1000 req 0
""",
        """0 opened 0
0 fresh changed
1000 fresh changed
request 0 from 8 open
order 0 0
tid 1
sensor 1 40
numeric 1 40
state 2 1 1
timely: no
""",
    ),
    (
        "a tag used again: packets of the request before do not mix with those of the next",
        """requester 8 timeout 200 tries 3
at 0 open 8 getpdr 0 0 first 65535
at 0 req 0
at 0 rep 0 0
at 600 tick 8
at 600 open 8 gettid
at 600 open 8 gettid
at 600 open 8 gettid
at 600 open 8 gettid
at 600 open 8 gettid
at 600 open 8 gettid
at 600 open 8 gettid
at 600 open 8 getpdr 0 0 first 65535
at 600 req 8
at 610 rep 8 1
at 620 rep 8 0
at 620 rep 8 1
at 620 rep 8 2
at 620 rep 8 3
at 620 rep 8 4
""",
        f"""0 opened 0
0 fresh unchanged
0 partial
600 gave up 0
600 opened 1
600 opened 2
600 opened 3
600 opened 4
600 opened 5
600 opened 6
600 opened 7
600 opened 8
600 fresh unchanged
610 drop UnexpectedMiddleOrEnd
620 partial
620 partial
620 partial
620 partial
620 answered
request 0 from 8 gave up
request 1 from 8 open
request 2 from 8 open
request 3 from 8 open
request 4 from 8 open
request 5 from 8 open
request 6 from 8 open
request 7 from 8 open
request 8 from 8 answered 01080251000000000000000000052c0101000000010100002201{'0' * 580}
order 0 8
tid 1
sensor 1 40
numeric 1 10
state 2 1 1
timely: yes
""",
    ),
    (
        "a packet of an answer comes after its tag was used again",
        """requester 8 timeout 200 tries 1
at 0 open 8 gettid
at 0 req 0
at 200 tick 8
at 200 open 8 gettid
at 200 open 8 gettid
at 200 open 8 gettid
at 200 open 8 gettid
at 200 open 8 gettid
at 200 open 8 gettid
at 200 open 8 gettid
at 200 open 8 gettid
at 200 open 8 gettid
at 210 rep 0 0
""",
        """0 opened 0
0 fresh unchanged
200 gave up 0
200 opened 1
200 opened 2
200 opened 3
200 opened 4
200 opened 5
200 opened 6
200 opened 7
200 opened 8
200 tag in use
210 drop NotMine
request 0 from 8 gave up
request 1 from 8 open
request 2 from 8 open
request 3 from 8 open
request 4 from 8 open
request 5 from 8 open
request 6 from 8 open
request 7 from 8 open
request 8 from 8 open
order 0
tid 1
sensor 1 40
numeric 1 10
state 2 1 1
timely: no
""",
    ),
    (
        "an answer of four packets, some early, some twice",
        """requester 8 timeout 200 tries 3
at 0 open 8 getpdr 0 0 first 239
at 0 req 0
at 0 rep 0 1
at 0 rep 0 0
at 0 rep 0 0
at 0 rep 0 1
at 0 rep 0 2
at 0 rep 0 3
at 0 rep 0 3
at 0 rep 0 4
""",
        f"""0 opened 0
0 fresh unchanged
0 drop UnexpectedMiddleOrEnd
0 partial
0 partial
0 partial
0 partial
0 answered
0 drop BadTag
0 nothing
request 0 from 8 answered 010002510000000000ef00000000ef0001000000010100002201{'0' * 458}
order 0
tid 1
sensor 1 40
numeric 1 10
state 2 1 1
timely: yes
""",
    ),
    (
        "two requesters, whose requests come in the other order",
        """requester 8 timeout 200 tries 3
requester 10 timeout 200 tries 3
at 0 open 8 setnum 1 uint8 40
at 0 open 10 setnum 1 uint8 50
at 0 req 1
at 0 req 0
at 0 req 1
at 0 req 2
""",
        """0 opened 0
0 opened 1
0 fresh changed
0 fresh changed
0 copy
0 nothing
request 0 from 8 open
request 1 from 10 open
order 1 0
tid 1
sensor 1 40
numeric 1 40
state 2 1 1
timely: yes
""",
    ),
    (
        "an answer that comes twice",
        """requester 8 timeout 200 tries 3
at 0 open 8 gettid
at 0 req 0
at 0 rep 0 0
at 0 rep 0 0
at 600 tick 8
""",
        """0 opened 0
0 fresh unchanged
0 answered
0 drop BadTag
600 nothing due
request 0 from 8 answered 010000020001
order 0
tid 1
sensor 1 40
numeric 1 10
state 2 1 1
timely: yes
""",
    ),
    (
        "a restart after a request was performed: a copy finds the device busy",
        """requester 8 timeout 200 tries 5
at 0 open 8 setnum 1 uint8 40
at 0 req 0
at 100 restart
at 200 tick 8
at 200 req 0
at 210 busy 0
at 220 rep 0 0
""",
        """0 opened 0
0 fresh changed
100 restarted
200 again 0
200 busy
210 drop NotReady
220 answered
request 0 from 8 answered 0100023100
order 0
tid 1
sensor 1 40
numeric 1 40
state 2 1 1
timely: yes
""",
    ),
    (
        "a restart before a request comes",
        """requester 8 timeout 200 tries 5
at 0 restart
at 500 open 8 setnum 1 uint8 40
at 500 busy 0
at 500 req 0
at 999 req 0
at 1000 req 0
at 1010 rep 0 0
""",
        """0 restarted
500 opened 0
500 nothing
500 busy
999 busy
1000 fresh changed
1010 answered
request 0 from 8 answered 0100023100
order 0
tid 1
sensor 1 40
numeric 1 40
state 2 1 1
timely: yes
""",
    ),
    (
        "no step at all",
        """
# nothing
""",
        """order -
tid 1
sensor 1 40
numeric 1 10
state 2 1 1
timely: yes
""",
    ),
    (
        "what is reported besides: retries and requests given up at one tick, a tag in use, sensors",
        """requester 8 timeout 200 tries 3
at 0 open 8 gettid
at 550 open 8 gettid
at 750 tick 8
at 751 sense 2 1
at 751 sense 1 256
at 751 sense 1 -1
at 751 open 8 gettid
at 751 open 8 gettid
at 751 open 8 gettid
at 751 open 8 gettid
at 751 open 8 gettid
at 751 open 8 gettid
at 751 open 8 gettid
at 751 open 8 gettid
at 751 rep 9 0
""",
        """0 opened 0
550 opened 1
750 again 1 gave up 0
751 no such sensor
751 out of size
751 out of size
751 opened 2
751 opened 3
751 opened 4
751 opened 5
751 opened 6
751 opened 7
751 opened 8
751 tag in use
751 nothing
request 0 from 8 gave up
request 1 from 8 open
request 2 from 8 open
request 3 from 8 open
request 4 from 8 open
request 5 from 8 open
request 6 from 8 open
request 7 from 8 open
request 8 from 8 open
order -
tid 1
sensor 1 40
numeric 1 10
state 2 1 1
timely: yes
""",
    ),
]


# The longest record, and how many bytes of it a part has at most.
LONGEST = bytes.fromhex("0200000001013412ffff") + bytes(place % 251 for place in range(10, 65_545))
PART_BYTES = 303
PARTS_OF_LONGEST = -(-len(LONGEST) // PART_BYTES)


def longest_record(rows, run):
    """The parts of the longest record, each asked for by the transfer handle of its place, join to the record."""
    requests = []
    for part in range(PARTS_OF_LONGEST):
        change = bytes(2) if part == 0 else LONGEST[6:8]
        asked = LONGEST[:4] + (part * PART_BYTES).to_bytes(4, "little") + bytes([part == 0])
        asked += PART_BYTES.to_bytes(2, "little") + change
        requests.append(f"{part} 010908cb01{0x80 | part % 32:02x}0251{asked.hex()}\n")
    ran = run(["answer"], f'{DEVICE}[[pdr]]\nhex = "{LONGEST.hex()}"\n%%\n' + "".join(requests))
    messages = []
    for line in ran.stdout.decode().split():
        packet = bytes.fromhex(line)
        if packet[3] & 0x80:
            messages.append(b"")
        messages[-1] += packet[4:]
    record = b""
    for part, message in enumerate(messages):
        start, end = part == 0, part == PARTS_OF_LONGEST - 1
        bytes_of_part = LONGEST[part * PART_BYTES :][:PART_BYTES]
        following = 0 if end else (part + 1) * PART_BYTES
        want = bytes([1, part % 32, 2, 0x51, 0]) + bytes(4) + following.to_bytes(4, "little")
        want += bytes([0 if start else 4 if end else 1]) + len(bytes_of_part).to_bytes(2, "little") + bytes_of_part
        record += bytes_of_part if message == want + (bytes([checksum(LONGEST)]) if end else b"") else b""
    rows.equal(f"the longest record, in {PARTS_OF_LONGEST} parts", (len(messages), record), (PARTS_OF_LONGEST, LONGEST))


def limits(rows, run):
    """What has the most bytes that are allowed is read; one byte more is refused."""
    comment = f"{DEVICE}#"
    for size, status, texts in ((1_048_576, 0, (TID_IS_1, RETRY_REPORT)), (1_048_577, 1, ("", ""))):
        front = comment + "x" * (size - len(comment) - 1) + "\n%%\n"
        for words, lines, text in ((["answer"], "0 010908c801800002\n", texts[0]), (["run"], RETRY, texts[1])):
            ran = run(words, front + lines)
            rows.equal(f"{words[0]}: a description of {size} bytes", (ran.returncode, ran.stdout.decode()), (status, text))
    line = "0 010908c801800002"
    shown = QUESTION_SHOWN[: QUESTION_SHOWN.index("1 9>8")]
    for words, front, text in ((["answer"], f"{DEVICE}%%\n", TID_IS_1), (["show"], "", shown)):
        for size, status, text in ((4_096, 0, text), (4_097, 1, "")):
            for last in ("", "\n"):
                ran = run(words, front + line + " " * (size - len(line)) + last)
                rows.equal(f"{words[0]}: a line of {size} bytes", (ran.returncode, ran.stdout.decode()), (status, text))
    for words, front, text, kept in (
        (["answer"], f"{DEVICE}%%\n0 010908c801800002\n", TID_IS_1, TID_IS_1),
        (["run"], f"{DEVICE}%%\n{RETRY}", RETRY_REPORT, ""),
        (["show"], QUESTION, QUESTION_SHOWN, QUESTION_SHOWN),
    ):
        for size, status, text in ((16_777_216, 0, text), (16_777_217, 1, kept)):
            ran = run(words, front + "\n" * (size - len(front)))
            rows.equal(f"{words[0]}: an input of {size} bytes", (ran.returncode, ran.stdout.decode()), (status, text))


def check(rows, run):
    """Checks each row; `run(arguments, text)` runs the program over a pipe."""

    def row(name, words, text, status, out, fault):
        ran = run(words, text)
        want = (status, out, f"mctpctl: {fault}\n" if fault else "")
        rows.equal(name, (ran.returncode, ran.stdout.decode(), ran.stderr.decode()), want)

    for lines, text in ANSWERS:
        row(f"answer {lines[:60]!r}", ["answer"], f"{DEVICE}%%\n{lines}", 0, text, None)
    for lines, text, fault in REFUSED_CAPTURES:
        row(f"answer {lines[:60]!r}", ["answer"], f"{DEVICE}%%\n{lines}", 1, text, fault)
    for lines, text in SHOWN:
        row(f"show {lines[:60]!r}", ["show"], lines, 0, text, None)
    for lines, text, fault in REFUSED_SHOWN:
        row(f"show {lines[:60]!r}", ["show"], lines, 1, text, fault)
    for name, lines, text in SCHEDULES:
        row(f"run: {name}", ["run"], f"{DEVICE}%%\n{lines}", 0, text, None)
    for lines, fault in REFUSED_SCHEDULES:
        row(f"run {fault}", ["run"], f"{DEVICE}%%\n{lines}", 1, "", fault)
    longest_record(rows, run)
    limits(rows, run)
