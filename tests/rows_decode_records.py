"""What `show --decode` writes of a platform data record that a GetPDR answer has whole.

The records are written by hand from the layouts of DSP0248, and so are the lines.
"""
import rows_decode

# the record's bytes, and the lines below the answer's
RECORDS = [
    # a terminus locator: terminus handle, valid, terminus ID, container, an endpoint ID of one byte
    (
        "01000000" "01" "01" "0000" "0900" "0100" "01" "05" "6400" "01" "01" "09",
        [
            "record 1 version 1 type TerminusLocator change 0",
            "terminus 1 valid true tid 5 container 100 eid 9",
        ],
    ),
    # a numeric sensor of one byte: degrees C, modifier -1, resolution 1, thresholds upper warning and critical
    (
        "02000000" "01" "02" "0300" "3b00"
        "0100" "0200" "4000" "0300" "6400" "00" "01"
        "02" "ff" "00" "00" "00" "00" "00" "00" "00"
        "01" "01" "0000803f" "00000000" "0a00" "02" "03" "fe"
        "03" "04" "0000003f" "0000803f" "7f" "80"
        "01" "2f" "14" "28" "ec" "46" "ce" "50" "ba" "5a" "a6",
        [
            "record 2 version 1 type NumericSensor change 3",
            "terminus 1 sensor 2 entity 64 instance 3 container 100 init 0 auxiliaryNames true",
            "unit degrees_c modifier -1 rate none oem 0 auxUnit none auxModifier 0 auxRate none rel 0 auxOem 0",
            "linear true size sint8 resolution 0x3f800000 offset 0x00000000 accuracy 10 plusTolerance 2 minusTolerance 3",
            "maxReadable 127 minReadable -128 hysteresis -2 stateTransition 0x3f000000 update 0x3f800000 volatility 4"
            " thresholds upperWarning upperCritical",
            "range sint8 nominal 20 normalMax 40 normalMin -20 warningHigh 70 warningLow -50 criticalHigh 80"
            " criticalLow -70 fatalHigh 90 fatalLow -90 support nominal normalMax normalMin criticalHigh fatalHigh",
        ],
    ),
    # a numeric sensor of two bytes with a range of real32: RPM, no linear one, the other thresholds
    (
        "00010000" "01" "02" "0000" "5900"
        "0100" "0201" "4000" "0100" "6400" "02" "00"
        "13" "00" "00" "07" "15" "02" "04" "01" "08"
        "00" "02" "0000003f" "000080bf" "0000" "00" "00" "0500"
        "3c" "00" "00000000" "00002041" "ffff" "0000"
        "06" "50" + "".join(f"{place:02x}0080bf" for place in range(9)),
        [
            "record 256 version 1 type NumericSensor change 0",
            "terminus 1 sensor 258 entity 64 instance 1 container 100 init 2 auxiliaryNames false",
            "unit rpm modifier 0 rate none oem 7 auxUnit seconds auxModifier 2 auxRate per_minute rel 1 auxOem 8",
            "linear false size uint16 resolution 0x3f000000 offset 0xbf800000 accuracy 0 plusTolerance 0 minusTolerance 0",
            "maxReadable 65535 minReadable 0 hysteresis 5 stateTransition 0x00000000 update 0x41200000 volatility 0"
            " thresholds upperFatal lowerWarning lowerCritical lowerFatal",
            "range real32 nominal 0xbf800000 normalMax 0xbf800001 normalMin 0xbf800002 warningHigh 0xbf800003"
            " warningLow 0xbf800004 criticalHigh 0xbf800005 criticalLow 0xbf800006 fatalHigh 0xbf800007"
            " fatalLow 0xbf800008 support criticalLow fatalLow",
        ],
    ),
    # a composite state sensor: health 1 to 3, and states 0, 8 and 15 of state set 260
    (
        "03000000" "01" "04" "0000" "1600" "0100" "0500" "4000" "0100" "6400" "00" "00" "02" "0100" "01" "0e" "0401" "02" "0181",
        [
            "record 3 version 1 type StateSensor change 0",
            "terminus 1 sensor 5 entity 64 instance 1 container 100 init 0 auxiliaryNames false",
            "stateSet 1 states 1 2 3",
            "stateSet 260 states 0 8 15",
        ],
    ),
    # a sensor's names: `Fan` in English and a name with an umlaut in German; none of the second sensor
    (
        "04000000" "01" "06" "0000" "1d00" "0100" "0200" "02"
        "02" "656e00" "00460061006e" "0000" "646500" "004c00fc0066" "0000"
        "00",
        [
            "record 4 version 1 type SensorAuxiliaryNames change 0",
            "terminus 1 sensor 2",
            'names "en" "Fan" "de" "L\\u00fcf"',
            "names",
        ],
    ),
    # a numeric effecter of one byte: percent, 0 to 100
    (
        "05000000" "01" "09" "0000" "3500"
        "0100" "0300" "4000" "0100" "6400" "0900" "01" "01"
        "41" "00" "03" "00" "00" "00" "00" "00"
        "01" "00" "0000803f" "00000000" "0000" "00" "00"
        "0000003f" "00000040" "64" "00"
        "00" "19" "32" "00" "00" "64" "0a",
        [
            "record 5 version 1 type NumericEffecter change 0",
            "terminus 1 effecter 3 entity 64 instance 1 container 100 semantic 9 init 1 auxiliaryNames true",
            "unit percent modifier 0 rate per_second oem 0 auxUnit none auxModifier 0 auxRate none auxOem 0",
            "linear true size uint8 resolution 0x3f800000 offset 0x00000000 accuracy 0 plusTolerance 0 minusTolerance 0",
            "maxSettable 100 minSettable 0 stateTransition 0x3f000000 transition 0x40000000",
            "range uint8 nominal 50 normalMax 0 normalMin 0 ratedMax 100 ratedMin 10 support nominal ratedMax ratedMin",
        ],
    ),
    # a state effecter: states 1 and 2 of state set 196
    (
        "06000000" "01" "0b" "0000" "1300" "0100" "0400" "4000" "0100" "6400" "0000" "00" "01" "01" "c400" "01" "06",
        [
            "record 6 version 1 type StateEffecter change 0",
            "terminus 1 effecter 4 entity 64 instance 1 container 100 semantic 0 init 0 description true",
            "stateSet 196 states 1 2",
        ],
    ),
    # an effecter's name that would ring, move to the next line, and end its quotation
    (
        "07000000" "01" "0d" "0000" "1300" "0100" "0400" "01" "01" "656e00" "0007000a0022005c" "0000",
        [
            "record 7 version 1 type EffecterAuxiliaryNames change 0",
            "terminus 1 effecter 4",
            'names "en" "\\u0007\\u000a\\u0022\\u005c"',
        ],
    ),
    # an entity's name with a code unit beyond ASCII, and the last printed characters
    (
        "08000000" "01" "10" "0000" "1500" "4000" "0100" "6400" "00" "01" "656e00" "20ac007e007f0020" "0000",
        [
            "record 8 version 1 type EntityAuxiliaryNames change 0",
            "entity 64 instance 1 container 100",
            'names "en" "\\u20ac~\\u007f "',
        ],
    ),
    # an entity association; a type without a name; another version; a sensor that is cut short; no type; no bytes
    ("09000000" "01" "0f" "0000" "0200" "0000", ["record unread OtherType type EntityAssociation"]),
    ("09000000" "01" "c8" "0000" "0200" "0000", ["record unread OtherType type 200"]),
    ("09000000" "02" "01" "0000" "0900" "010001010000010109", ["record unread Version type TerminusLocator"]),
    ("09000000" "01" "02" "0000" "0300" "010002", ["record unread Short type NumericSensor"]),
    ("09000000" "01", ["record unread Length"]),
    ("", ["record unread Length"]),
]

# the number of a unit and its name, by the list of DSP0248
UNITS = [
    (0, "none"), (1, "unspecified"), (2, "degrees_c"), (3, "degrees_f"), (4, "kelvins"), (5, "volts"), (6, "amps"),
    (7, "watts"), (8, "joules"), (18, "cfm"), (19, "rpm"), (20, "hertz"), (21, "seconds"), (22, "minutes"),
    (44, "ounce_inches"), (45, "gauss"), (60, "bits"), (61, "bytes"), (65, "percent"), (66, "pascals"), (67, "counts"),
    (68, "grams"), (86, "square_meters"), (87, "87"), (254, "254"), (255, "oem"),
]


def answer(record):
    """A GetPDR answer with the whole record: next handle 0, transfer flag start and end."""
    count = len(record) // 2
    return "0101025100" "00000000" "00000000" "05" f"{count % 256:02x}{count // 256:02x}{record}"


def lines_below(run, record):
    """The lines below that of the answer, and how the run ended."""
    ran = run(["show", "--decode"], "".join(rows_decode.lines(answer(record))))
    lines = ran.stdout.decode().splitlines()
    return [line for line in lines if line.startswith("   ")], ran.returncode, ran.stderr


def check(rows, run):
    for record, lines in RECORDS:
        want = [f"    {line}" for line in lines]
        got = lines_below(run, record)
        rows.check(f"decoded: {lines[0]}", got == (want, 0, b""), repr(got))
    effecter = RECORDS[5][0]
    for unit, name in UNITS:
        place = 2 * 24
        assert effecter[place : place + 2] == "41"
        got = lines_below(run, f"{effecter[:place]}{unit:02x}{effecter[place + 2:]}")[0]
        rows.check(f"decoded: unit {unit} is {name}", len(got) > 2 and got[2].startswith(f"    unit {name} "), repr(got))
    start = answer(RECORDS[0][0]).replace("05" "1300", "00" "1300")
    ran = run(["show", "--decode"], "".join(rows_decode.lines(start)))
    rows.check("decoded: a part has no lines of a record", b"\n   " not in ran.stdout and b"Start" in ran.stdout, repr(ran))
