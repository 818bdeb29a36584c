"""Generates the cases that the program `cases` runs, and the answers that it must print.

    python3 tools/cases.py            writes crates/cases/stdin and crates/cases/stdout
    python3 tools/cases.py --check    compares these files with what it would write

The input is a run of cases. Numbers have their high byte first. The first byte names the sort:

    0  frame     length (2 bytes), then the frame's bytes
    1  write     year (2), day (2), kind (1), item (1), tier as a character's code (4),
                 share flag (1: 0 or 1), share (2), set (1: 0 amount, 1 water, 2 steam, 3 wastewater),
                 the set's readings (4 each; 1, 2, 2 or 5 of them),
                 name length (1), name, buffer length (1)
    2  calendar  year (2), day (2)
    3  entry     a source and a frame, as figures.py says

The output has one line per case:

    frame     the answer of the name call, ` | `, the answer of the record call:
              `name HEX`, with `-` for an empty name, or a refusal; then
              `record YEAR DAY MONTH KIND ITEM TIER SHARE READINGS QUANTITIES copied LENGTH`, with `-`
              for a missing share, or a refusal. LENGTH counts the bytes of the frame that comes out when
              the record is written again with the frame's name; these bytes are the frame's own.
    write     `frame HEX` or a refusal
    calendar  `month MONTH` or a refusal
    entry     the entry or a refusal, as figures.py says

A refusal is `refused LAYER NUMBER PLACE`. The answers come from expected.py and emissions.py alone.
"""

import sys

sys.dont_write_bytecode = True

import datetime
import random
import struct
from collections import Counter
from dataclasses import replace

import expected
import files
from expected import Record, Refused

LARGEST_INPUT = 120_000

# The sort of a case that asks for an entry; figures.py makes these.
ENTRY = 3

SET_NUMBERS = {"amount": 0, "water": 1, "steam": 2, "wastewater": 3}

# Every known kind with every item of it.
PAIRS = [(kind, item) for kind, items in expected.ITEMS.items() for item in items]

# One kind and item for each row of limits and each share rule.
CHOSEN = [(1, 2), (2, 3), (3, 0), (4, 0), (5, 0), (6, 0), (7, 0), (7, 1), (7, 2), (8, 0), (8, 1), (8, 2)]


# ---- Bytes and readings ----


def word(number: int) -> bytes:
    return number.to_bytes(2, "big")


def bits(value: float) -> int:
    """The bit pattern of the binary32 nearest to a value."""
    return int.from_bytes(struct.pack(">f", value), "big")


def field(tag: int, data: bytes, length: int | None = None) -> bytes:
    """One field; `length` replaces the true length."""
    return bytes([tag]) + word(len(data) if length is None else length) + data


# Lawful readings of each set.
USUAL = {
    "amount": (bits(1000.0),),
    "water": (bits(1000.0), bits(70.0)),
    "steam": (bits(1000.0), bits(950.0)),
    "wastewater": (bits(100.0), bits(2000.0), bits(200.0), bits(12.5), bits(13.0)),
}


def usual_record(kind: int, item: int, /, **changes) -> Record:
    """A lawful record of a known kind and item, with some of its parts replaced."""
    name = expected.set_for(kind, item)
    parts = {
        "year": 2024,
        "day": 366,
        "kind": kind,
        "item": item,
        "tier": "D",
        "share": 40 if kind == expected.BOUGHT_CO2 else None,
        "set": name,
        "readings": USUAL[name],
    }
    return Record(**(parts | changes))


def fields_of(record: Record, name: bytes = b"") -> list[tuple[int, bytes]]:
    """The fields that hold a record, lawful or not; the tier is a character below 256."""
    parts = [
        (1, word(record.year) + word(record.day)),
        (2, bytes([record.kind])),
        (3, bytes([record.item])),
        (4, record.tier.encode("latin-1")),
        (5, b"".join(reading.to_bytes(4, "big") for reading in record.readings)),
    ]
    if record.share is not None:
        parts.append((6, word(record.share)))
    if name:
        parts.append((7, name))
    return parts


def joined(parts: list[tuple[int, bytes]]) -> bytes:
    return b"".join(field(tag, data) for tag, data in parts)


def frame_of(record: Record, name: bytes = b"") -> bytes:
    return joined(fields_of(record, name))


# ---- Answers ----


def hexadecimal(data: bytes) -> str:
    return data.hex().upper() or "-"


def frame_answer(frame: bytes) -> str:
    try:
        name_part = "name " + hexadecimal(expected.name_of(frame))
    except Refused as refusal:
        name_part = str(refusal)
    try:
        record = expected.record_of(frame)
    except Refused as refusal:
        return f"{name_part} | {refusal}"
    copy = expected.write(record, expected.name_of(frame), len(frame))
    assert copy == frame, "a frame read and written again is the same frame"
    month = expected.month_of_day(record.year, record.day)
    share = "-" if record.share is None else record.share
    readings = ",".join(f"{reading:08X}" for reading in record.readings)
    counted = ",".join(str(quantity) for quantity in expected.quantities(record))
    return (
        f"{name_part} | record {record.year} {record.day} {month} {record.kind} {record.item} "
        f"{record.tier} {share} {readings} {counted} copied {len(copy)}"
    )


def write_answer(record: Record, name: bytes, room: int) -> str:
    try:
        frame = expected.write(record, name, room)
    except Refused as refusal:
        return str(refusal)
    assert frame == frame_of(record, name), "the written frame holds the record's fields"
    assert expected.record_of(frame) == record and expected.name_of(frame) == name
    return "frame " + hexadecimal(frame)


def calendar_answer(year: int, day: int) -> str:
    try:
        return f"month {expected.month_of_day(year, day)}"
    except Refused as refusal:
        return str(refusal)


class Cases:
    """The cases in their order, each input once, with their answers."""

    def __init__(self):
        self.answers: dict[bytes, str] = {}

    def add(self, case: bytes, answer: str) -> None:
        self.answers.setdefault(case, answer)

    def frame(self, frame: bytes) -> None:
        self.add(b"\x00" + word(len(frame)) + frame, frame_answer(frame))

    def record(self, record: Record, name: bytes = b"") -> None:
        self.frame(frame_of(record, name))

    def write(self, record: Record, name: bytes = b"", room: int = 255) -> None:
        assert len(record.readings) == len(expected.SETS[record.set])
        case = (
            b"\x01"
            + word(record.year)
            + word(record.day)
            + bytes([record.kind, record.item])
            + ord(record.tier).to_bytes(4, "big")
            + bytes([record.share is not None])
            + word(record.share or 0)
            + bytes([SET_NUMBERS[record.set]])
            + b"".join(reading.to_bytes(4, "big") for reading in record.readings)
            + bytes([len(name)])
            + name
            + bytes([room])
        )
        self.add(case, write_answer(record, name, room))

    def calendar(self, year: int, day: int) -> None:
        self.add(b"\x02" + word(year) + word(day), calendar_answer(year, day))


class Chance:
    """A fixed sequence of numbers, the same with every version of Python."""

    def __init__(self, seed: int):
        self.source = random.Random(seed)

    def below(self, bound: int) -> int:
        return self.source.getrandbits(32) % bound

    def of(self, choices):
        return choices[self.below(len(choices))]

    def bytes(self, count: int) -> bytes:
        return bytes(self.below(256) for _ in range(count))


# ---- Frame cases ----

NAMES = [b"G", b"METER-7", b"BOILER HOUSE 002", bytes([0, 255, 10, 0])]

# Days that exist in every year, used in turn by the good frames.
DAYS = [1, 31, 32, 59, 60, 61, 90, 91, 120, 151, 182, 212, 243, 244, 273, 304, 305, 334, 335, 365]


def good_frames(cases: Cases) -> None:
    """Every kind, item and tier, without and with a name."""
    turn = 0
    for kind, item in PAIRS:
        for tier in expected.TIERS:
            record = usual_record(
                kind, item, tier=tier, year=2000 + 37 * turn % 200, day=DAYS[turn % len(DAYS)]
            )
            cases.record(record)
            cases.record(record, NAMES[turn % len(NAMES)])
            turn += 1
    for length in range(1, 17):
        cases.record(usual_record(1, 21), bytes(range(65, 65 + length)))


def shares(cases: Cases) -> None:
    for kind in expected.ITEMS:
        item = 1 if kind in (1, 2) else 0
        for share in (None, 0, 980, 1000, 1001, 65535):
            cases.record(usual_record(kind, item, share=share), b"S" if share == 980 else b"")
    for kind, item in ((7, 1), (7, 2), (8, 1), (8, 2)):
        cases.record(usual_record(kind, item, share=500))


def cut_frames(cases: Cases) -> None:
    """Every prefix of three frames that hold all fields and the shortest and longest readings."""
    for frame in (
        frame_of(usual_record(1, 2)),
        frame_of(usual_record(3, 0), b"CO2"),
        frame_of(usual_record(4, 0), b"BASIN-OUTLET-0001"[:16]),
    ):
        for end in range(len(frame)):
            cases.frame(frame[:end])


def wrong_lengths(cases: Cases) -> None:
    """Each field with other lengths, its bytes present or not."""
    parts = fields_of(usual_record(2, 2, share=975), b"SALT")
    for at, (tag, _) in enumerate(parts):
        front, back = joined(parts[:at]), joined(parts[at + 1 :])
        longest = 22 if tag == 5 else 19 if tag == 7 else 6
        for length in [*range(longest), 260]:
            cases.frame(front + field(tag, bytes(count % 256 for count in range(1, 1 + length))) + back)
        for length in (0, 1, 2, 4, 16, 20, 256, 65535):
            cases.frame(front + field(tag, b"", length))
    # A length whose two bytes are exchanged.
    for at, (tag, data) in enumerate(parts):
        cases.frame(joined(parts[:at]) + field(tag, data, 256 * len(data)) + joined(parts[at + 1 :]))


def tags(cases: Cases) -> None:
    """Unknown, repeated and falling tags, and missing fields."""
    parts = fields_of(usual_record(2, 1, share=990), b"LIME")
    for at in range(len(parts) + 1):
        for tag in (0, 8, 0x81):
            cases.frame(joined(parts[:at]) + field(tag, b"\x01") + joined(parts[at:]))
    for at, (_, data) in enumerate(parts):
        for tag in (0, 255):
            cases.frame(joined(parts[:at]) + field(tag, data) + joined(parts[at + 1 :]))
    for at in range(len(parts)):
        for again in (0, max(at - 1, 0), at):
            cases.frame(joined(parts[: at + 1] + [parts[again]] + parts[at + 1 :]))
    cases.frame(joined(parts[::-1]))
    for at in range(len(parts) - 1):
        cases.frame(joined(parts[:at] + [parts[at + 1], parts[at]] + parts[at + 2 :]))
    for chosen in range(2 ** len(parts)):
        if chosen % 32 == 31 or chosen < 32 or chosen >= 112:
            cases.frame(joined([part for at, part in enumerate(parts) if chosen >> at & 1]))


def frame_faults_together(cases: Cases) -> None:
    """Several faults of the frame layer in one frame; the order of the checks decides."""
    good = fields_of(usual_record(3, 0), b"CO2")
    for at in range(len(good) + 1):
        front = joined(good[:at])
        last = good[at - 1][0] if at else 0
        for end in (
            b"\x00",  # unknown tag, header cut
            b"\x09\x00",  # unknown tag, header cut
            bytes([last, 0]),  # tag not above, header cut
            field(9, b"", 65535),  # unknown tag, bytes cut
            field(0, b"", 9),  # unknown and not above
            field(last, b"", 65535) if last else b"",  # not above, length wrong, bytes cut
            field(last, b"\x01", 77) if last else b"",  # not above, length wrong, bytes cut
            field(last, b"", 1) if last else b"",  # not above, bytes cut
        ):
            cases.frame(front + end)
    for at, (tag, data) in enumerate(good):
        front = joined(good[:at])
        # Length wrong and bytes cut, then length right and bytes cut, each after and before other faults.
        cases.frame(front + field(tag, data, len(data) + 30))
        cases.frame(front + field(tag, data[:-1], len(data)))
        cases.frame(field(9, b"") + front + field(tag, data, 0))
        cases.frame(front + field(tag, data, 0) + field(9, b""))
        # A later fault wins over a missing field in front of it.
        cases.frame(joined(good[1:at]) + field(9, b"") + joined(good[at:]))
        cases.frame(joined(good[1 : at + 1] + good[at : at + 1]))
    # A frame fault wins over every fault of the record.
    bad = fields_of(Record(1999, 0, 9, 9, "x", 1001, "amount", (bits(-1.0),)), b"N")
    cases.frame(joined(bad))
    cases.frame(joined(bad) + b"\x07")
    cases.frame(joined(bad) + field(8, b""))
    for at in range(len(bad)):
        cases.frame(joined(bad[:at] + bad[at + 1 :]))


def record_faults_together(cases: Cases) -> None:
    """Every set of the faults 6 to 10; the smallest number wins."""
    for kind, item in ((3, 0), (4, 0)):
        usual = usual_record(kind, item)
        worst = (bits(-1.0),) + usual.readings[1:-1] + (0x7FC00000,) * (len(usual.readings) > 1)
        other_number = usual.readings[1:] or usual.readings * 2
        for chosen in range(32):
            changes = {}
            if chosen & 1:
                changes["year"], changes["day"] = ((2023, 366), (2200, 1), (2024, 0))[chosen % 3]
            if chosen & 2:
                changes["item"] = 22
            if chosen & 4:
                changes["tier"] = "m"
            if chosen & 8:
                changes["readings"] = worst if chosen % 3 else other_number
            if chosen & 16:
                changes["share"] = 1001 if kind != 3 or chosen % 2 else None
            cases.record(usual_record(kind, item, **changes))


SPECIAL_READINGS = [
    0x00000000,  # 0
    0x00000001,  # smallest above 0
    0x007FFFFF,  # largest subnormal
    0x00800000,  # smallest normal
    0x00800001,
    0x80000000,  # -0
    0x80000001,
    0x80800000,
    0xBF800000,  # -1
    0x3EFFFFFF,
    0x3F000000,  # 0.5
    0x3F000001,
    0x7F7FFFFF,  # largest finite
    0xFF7FFFFF,
    0x7F800000,  # infinity
    0xFF800000,
    0x7F800001,  # NaN
    0x7FC00000,
    0x7FFFFFFF,
    0xFFC00000,
    0xFFFFFFFF,
]

# The special readings that every place of every set is given.
PLACE_SPECIALS = [
    0x00000000,
    0x00000001,
    0x00800000,
    0x80000000,
    0xBF800000,
    0x7F800000,
    0x7FC00000,
    0xFFC00000,
]

WHOLE_TIES = [0.5, 1.5, 2.5, 99.5, 16_384.5, 131_071.5, 262_143.5, 524_288.5, 799_999.5]

TEMPERATURES = [
    20.005, 20.115, 20.125, 20.135, 20.375, 20.625, 20.875, 37.005, 64.995,
    100.375, 127.625, 128.125, 199.875, 199.995,
]


def with_reading(record: Record, place: int, pattern: int) -> Record:
    changed = record.readings[:place] + (pattern,) + record.readings[place + 1 :]
    return replace(record, readings=changed)


def readings(cases: Cases) -> None:
    """Every place of every set: limits, ties and special patterns, with their neighbours."""
    for kind, item in ((5, 0), (4, 0), (7, 1), (8, 2)):
        usual = usual_record(kind, item)
        for place, limits in enumerate(expected.SETS[usual.set]):
            if limits.parts == 100:
                ties = TEMPERATURES
            elif kind == 5:
                ties = WHOLE_TIES
            else:
                ties = [2.5, limits.high - 0.5]
            tried = list(SPECIAL_READINGS if kind == 5 else PLACE_SPECIALS)
            for value in [limits.low, limits.high, *ties]:
                near = bits(value)
                tried += [near - 1, near, near + 1] if near else [near, near + 1]
            for pattern in tried:
                cases.record(with_reading(usual, place, pattern))
    # The limits hold for every kind and item that takes an amount.
    for kind, item in CHOSEN:
        usual = usual_record(kind, item)
        high = bits(expected.SETS[usual.set][0].high)
        for pattern in (high, high + 1):
            cases.record(with_reading(usual, 0, pattern))
    # The first unlawful reading is told.
    for kind, item in ((4, 0), (7, 1), (8, 2)):
        usual = usual_record(kind, item).readings
        for chosen in range(1, 2 ** len(usual)):
            mixed = tuple(0x7FC00000 if chosen >> at & 1 else good for at, good in enumerate(usual))
            cases.record(usual_record(kind, item, readings=mixed))
    # Numbers of readings.
    for kind, item in ((1, 2), (3, 0), (4, 0), (7, 0), (7, 1), (8, 2)):
        for count in range(1, 6):
            cases.record(usual_record(kind, item, readings=(bits(100.0),) * count))
            if kind == 4:
                cases.record(usual_record(kind, item, readings=(0xFFFFFFFF,) * count))


CALENDAR_YEARS = [1999, 2000, 2023, 2024, 2096, 2100, 2199, 2200]
CALENDAR_DAYS = [0, 1, 31, 32, 59, 60, 61, 365, 366, 367]


def days_kinds_tiers(cases: Cases) -> None:
    for year in CALENDAR_YEARS:
        for day in CALENDAR_DAYS:
            cases.record(usual_record(1, 2, year=year, day=day))
    for year, day in ((0, 0), (0, 1), (232, 2000), (65535, 1), (2024, 65535), (2024, 257), (59399, 1)):
        cases.record(usual_record(1, 2, year=year, day=day))
    for kind in (*range(0, 10), 255):
        for item in (0, 1, 3, 4, 22, 255):
            if (kind, item) in PAIRS:
                record = usual_record(kind, item)
            else:
                record = usual_record(5, 0, kind=kind, item=item, share=5 if kind == 3 else None)
            cases.record(record)
    for tier in "MDmdXLNE0 \0\x7f\xc4\xcd\xff":
        cases.record(usual_record(6, 0, tier=tier))


def random_frames(cases: Cases) -> None:
    chance = Chance(20240366)
    for _ in range(25):
        cases.frame(chance.bytes(chance.below(40)))
    # Random bytes that begin like a frame.
    for _ in range(20):
        front = fields_of(usual_record(*chance.of(CHOSEN)))
        cases.frame(joined(front[: 1 + chance.below(5)]) + chance.bytes(chance.below(30)))
    # Random fields with right lengths and any content.
    for _ in range(20):
        parts = []
        for tag, lengths in expected.FIELD_LENGTHS.items():
            if tag <= 5 or chance.below(2):
                parts.append((tag, chance.bytes(chance.of(sorted(lengths)))))
        cases.frame(joined(parts))
    for _ in range(50):
        record, name = random_record(chance)
        cases.record(record, name)
    # One to three flipped bits.
    for _ in range(70):
        record, name = random_record(chance)
        frame = bytearray(frame_of(record, name))
        for _ in range(1 + chance.below(3)):
            frame[chance.below(len(frame))] ^= 1 << chance.below(8)
        cases.frame(bytes(frame))


def random_record(chance: Chance) -> tuple[Record, bytes]:
    """A lawful record with random contents, and a name."""
    kind, item = chance.of(PAIRS if chance.below(2) else CHOSEN)
    year = 2000 + chance.below(200)
    patterns = []
    for limits in expected.SETS[expected.set_for(kind, item)]:
        low, high = bits(limits.low), bits(limits.high)
        # Either any lawful pattern, or a whole number of eighths of the unit.
        eighths = 8 * limits.low + chance.below(8 * (limits.high - limits.low) + 1)
        patterns.append(low + chance.below(high - low + 1) if chance.below(3) == 0 else bits(eighths / 8))
    share = chance.below(1001) if kind == 3 or (kind == 2 and chance.below(2)) else None
    record = usual_record(
        kind,
        item,
        year=year,
        day=1 + chance.below(expected.days_in_year(year)),
        tier=chance.of("MD"),
        share=share,
        readings=tuple(patterns),
    )
    return record, chance.bytes(chance.below(17)) if chance.below(2) else b""


# ---- Write cases ----


def good_writes(cases: Cases) -> None:
    for turn, (kind, item) in enumerate(PAIRS):
        tier = expected.TIERS[turn % 2]
        record = usual_record(kind, item, tier=tier, year=2000 + 53 * turn % 200, day=DAYS[turn % len(DAYS)])
        cases.write(record, NAMES[turn % len(NAMES)] if turn % 3 else b"")


def faulty_writes(cases: Cases) -> None:
    for kind, item in ((1, 2), (4, 0), (6, 0), (7, 0), (7, 1), (7, 2), (8, 1), (8, 2)):
        for name in SET_NUMBERS:
            cases.write(usual_record(kind, item, set=name, readings=USUAL[name]))
    for kind in (*range(0, 10), 255):
        for item in (0, 1, 3, 4, 22):
            if (kind, item) not in PAIRS:
                cases.write(usual_record(5, 0, kind=kind, item=item, share=5 if kind == 3 else None))
    for tier in "MDmdX\0\u00c4\u014d\u0144\U0001F600\U0010FFFF\ud7ff\ue000":
        cases.write(usual_record(5, 0, tier=tier))
    for kind, item in ((1, 2), (2, 1), (3, 0), (4, 0), (5, 0), (8, 0)):
        for share in (None, 0, 1000, 1001):
            cases.write(usual_record(kind, item, share=share))
    for year, day in (
        (1999, 1),
        (2200, 1),
        (2024, 0),
        (2024, 366),
        (2024, 367),
        (2023, 366),
        (2100, 366),
        (65535, 65535),
    ):
        cases.write(usual_record(1, 2, year=year, day=day))
    for kind, item in ((1, 2), (4, 0), (7, 1), (8, 2)):
        usual = usual_record(kind, item)
        for place, limits in enumerate(expected.SETS[usual.set]):
            high = bits(limits.high)
            for pattern in (high, high + 1, 0x80000000, 0x7FC00000):
                cases.write(with_reading(usual, place, pattern))


def names_and_buffers(cases: Cases) -> None:
    letters = bytes(range(48, 88))
    for kind, item in ((1, 2), (3, 0), (4, 0)):
        record = usual_record(kind, item)
        for length in (0, 1, 15, 16, 17, 40):
            cases.write(record, letters[:length])
        for name in (b"", b"A", letters[:16]):
            needed = len(frame_of(record, name))
            for room in (0, needed - 1, needed, needed + 1):
                cases.write(record, name, room)
        cases.write(record, letters[:17], 0)


def write_faults_together(cases: Cases) -> None:
    """Every set of the writer's faults: long name, 6, 7, 8, 9, 10 and short buffer."""
    usual = usual_record(7, 2)
    for chosen in range(128):
        changes = {}
        if chosen & 2:
            changes["day"] = 367
        if chosen & 4:
            changes["kind" if chosen % 3 else "item"] = 9
        if chosen & 8:
            changes["tier"] = "\U0001F600"
        if chosen & 16 and chosen % 3:
            changes["set"], changes["readings"] = "water", USUAL["water"]
        elif chosen & 16:
            changes["readings"] = (usual.readings[0], 0x00000000)
        if chosen & 32:
            changes["share"] = 1001
        name = b"SEVENTEEN LETTERS" if chosen & 1 else b"BOILER"
        cases.write(usual_record(7, 2, **changes), name, 20 if chosen & 64 else 60)


def random_writes(cases: Cases) -> None:
    chance = Chance(32151)
    for _ in range(30):
        record, name = random_record(chance)
        room = len(frame_of(record, name)) + chance.below(5) - 1
        cases.write(record, name, room)


# ---- Calendar cases ----


def calendar(cases: Cases) -> None:
    for year in (2000, 2023, 2024, 2100, 2199):
        end = 0
        for length in expected.month_lengths(year):
            cases.calendar(year, end + 1)
            end += length
            cases.calendar(year, end)
        cases.calendar(year, end + 1)
    for year in CALENDAR_YEARS:
        for day in CALENDAR_DAYS:
            cases.calendar(year, day)
    for year, day in ((0, 1), (1, 1), (65535, 1), (2024, 65535), (2024, 1000), (2024, 257), (65535, 65535)):
        cases.calendar(year, day)


# ---- The whole ----


def check_figures() -> None:
    """Figures and facts that were settled by hand or by another calculation."""
    kilowatt_hours = frame_of(usual_record(5, 0, readings=(0x49435000,)))
    assert expected.quantities(expected.record_of(kilowatt_hours)) == [800_000]
    above = frame_of(usual_record(5, 0, readings=(0x49435001,)))
    assert frame_answer(above) == "name - | refused record 9 1"
    assert calendar_answer(2024, 366) == "month 12"
    assert calendar_answer(2023, 366) == "refused record 6 0"
    assert calendar_answer(2100, 366) == "refused record 6 0"
    assert calendar_answer(2024, 60) == "month 2"
    assert calendar_answer(2023, 60) == "month 3"
    warm = usual_record(7, 1, readings=(bits(1000.0), bits(20.125)))
    assert expected.quantities(warm) == [1000, 2013]
    example = bytes.fromhex("01000407E8016E 02000101 03000102 04000144 050004447A0000")
    assert frame_answer(example) == "name - | record 2024 366 12 1 2 D - 447A0000 1000 copied 26"
    # Python's own calendar and its own binary32 agree with the calculation.
    for year in range(expected.FIRST_YEAR, expected.LAST_YEAR + 1):
        date = datetime.date(year, 1, 1)
        day = 1
        while date.year == year:
            assert expected.month_of_day(year, day) == date.month
            date += datetime.timedelta(days=1)
            day += 1
        assert expected.days_in_year(year) == day - 1
    chance = Chance(754)
    for _ in range(2000):
        pattern = chance.below(0x7F800000)
        assert expected.value_of(pattern) == struct.unpack(">f", pattern.to_bytes(4, "big"))[0]


def generate() -> Cases:
    cases = Cases()
    for part in (
        good_frames,
        shares,
        cut_frames,
        wrong_lengths,
        tags,
        frame_faults_together,
        record_faults_together,
        readings,
        days_kinds_tiers,
        random_frames,
        good_writes,
        faulty_writes,
        names_and_buffers,
        write_faults_together,
        random_writes,
        calendar,
    ):
        part(cases)
    return cases


def check_reach(cases: Cases) -> None:
    """Every kind, item and tier is read and written, and every refusal is given, among the cases."""
    read = set()
    refused = set()
    for case, answer in cases.answers.items():
        for part in answer.split(" | "):
            words = part.split()
            if words[0] == "refused":
                refused.add((case[0], words[1], int(words[2])))
            elif words[0] == "record":
                read.add((int(words[4]), int(words[5]), words[6]))
    assert read == {(kind, item, tier) for kind, item in PAIRS for tier in expected.TIERS}
    frame_layer = {(0, expected.FRAME, number) for number in range(1, 6)}
    record_layer = {(sort, expected.RECORD, number) for sort in (0, 1) for number in range(6, 11)}
    writer = {(1, expected.FRAME, 4), (1, expected.BOOK, 20)}
    assert refused == frame_layer | record_layer | writer | {(2, expected.RECORD, 6)}


def main(arguments: list[str]) -> int:
    import figures  # here, since it builds on this module

    check_figures()
    cases = generate()
    check_reach(cases)
    for case, answer in figures.answers().items():
        cases.answers[bytes([ENTRY]) + case] = answer
    sent = b"".join(cases.answers)
    answers = "".join(answer + "\n" for answer in cases.answers.values())
    assert len(sent) < LARGEST_INPUT
    status = files.settle(
        {"crates/cases/stdin": sent, "crates/cases/stdout": answers.encode("ascii")}, arguments
    )
    sorts = Counter(case[0] for case in cases.answers)
    print(
        f"{sorts[0]} frame cases, {sorts[1]} write cases, {sorts[2]} calendar cases, {sorts[ENTRY]} entry cases, "
        f"{len(sent)} bytes"
    )
    return status


if __name__ == "__main__":
    sys.exit(main(sys.argv[1:]))
