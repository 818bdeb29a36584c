"""What the ledger answers for frames, records, days and logs, calculated a second time.

The calculation is written from the rules in docs/CALENDAR.md, docs/FRAMES.md, docs/RECORDS.md and
docs/REFUSALS.md and shares nothing with the program. It uses whole numbers and exact fractions only;
a reading is decoded from its 32 bits, never through a floating point number.

    python3 tools/expected.py LOGFILE

prints `year taken refused` of a log: its frames that read as lawful records of its year, and the others.
"""

import sys

sys.dont_write_bytecode = True

from dataclasses import dataclass
from fractions import Fraction
from math import floor

import files

# The layers that refuse.
FRAME = "frame"
RECORD = "record"
BOOK = "book"


class Refused(Exception):
    """A refusal: its layer, its number and its place."""

    def __init__(self, layer: str, number: int, place: int):
        super().__init__(layer, number, place)
        self.layer = layer
        self.number = number
        self.place = place

    def __str__(self) -> str:
        return f"refused {self.layer} {self.number} {self.place}"


# ---- Days and months ----

FIRST_YEAR = 2000
LAST_YEAR = 2199


def check_year(year: int) -> int:
    """The year itself if it is lawful."""
    if not FIRST_YEAR <= year <= LAST_YEAR:
        raise Refused(RECORD, 6, 0)
    return year


def is_leap(year: int) -> bool:
    """Gregorian: every fourth year, but of the full centuries only every fourth."""
    return year % 400 == 0 or (year % 4 == 0 and year % 100 != 0)


def month_lengths(year: int) -> list[int]:
    february = 29 if is_leap(year) else 28
    return [31, february, 31, 30, 31, 30, 31, 31, 30, 31, 30, 31]


def days_in_year(year: int) -> int:
    return sum(month_lengths(check_year(year)))


def month_of_day(year: int, day: int) -> int:
    """The month, 1 to 12, of a day counted from 1 on January 1."""
    if not 1 <= day <= days_in_year(year):
        raise Refused(RECORD, 6, 0)
    left = day
    for month, length in enumerate(month_lengths(year), start=1):
        if left <= length:
            return month
        left -= length
    raise AssertionError("a lawful day has a month")


# ---- Frames ----

# The lengths that a field of each known tag may have.
FIELD_LENGTHS = {
    1: {4},
    2: {1},
    3: {1},
    4: {1},
    5: {4, 8, 12, 16, 20},
    6: {2},
    7: set(range(1, 17)),
}
NEEDED_TAGS = (1, 2, 3, 4, 5)
HEADER = 3
LONGEST_NAME = 16


def number_of(data: bytes) -> int:
    """The whole number that bytes hold, high byte first."""
    total = 0
    for byte in data:
        total = 256 * total + byte
    return total


def fields(frame: bytes) -> dict[int, bytes]:
    """The fields of a frame, by tag; the whole frame layer is checked."""
    found: dict[int, bytes] = {}
    last_tag = None
    at = 0
    while at < len(frame):
        if at + HEADER > len(frame):
            raise Refused(FRAME, 1, at)
        tag = frame[at]
        length = number_of(frame[at + 1 : at + HEADER])
        if tag not in FIELD_LENGTHS:
            raise Refused(FRAME, 2, at)
        if last_tag is not None and tag <= last_tag:
            raise Refused(FRAME, 3, at)
        if length not in FIELD_LENGTHS[tag]:
            raise Refused(FRAME, 4, at)
        if at + HEADER + length > len(frame):
            raise Refused(FRAME, 1, at)
        found[tag] = frame[at + HEADER : at + HEADER + length]
        last_tag = tag
        at += HEADER + length
    for tag in NEEDED_TAGS:
        if tag not in found:
            raise Refused(FRAME, 5, tag)
    return found


def name_of(frame: bytes) -> bytes:
    """The meter's name, empty if the frame has none; only the frame layer is checked."""
    return fields(frame).get(7, b"")


# ---- Readings ----


def value_of(bits: int) -> Fraction | None:
    """The exact value of a binary32 that is finite with its sign bit clear; None for any other."""
    sign = bits // 2**31
    exponent = bits // 2**23 % 2**8
    fraction = bits % 2**23
    if sign == 1 or exponent == 255:
        return None
    if exponent == 0:
        return Fraction(fraction, 2**149)
    return Fraction(2**23 + fraction) * Fraction(2) ** (exponent - 150)


@dataclass(frozen=True)
class Limits:
    """What one reading may be, and the parts of its unit that its quantity counts."""

    low: int
    high: int
    parts: int = 1

    def allow(self, bits: int) -> bool:
        value = value_of(bits)
        return value is not None and self.low <= value <= self.high

    def quantity(self, bits: int) -> int:
        """The nearest whole number of parts, a tie upwards."""
        return floor(value_of(bits) * self.parts + Fraction(1, 2))


AMOUNT = Limits(0, 800_000)
CELSIUS = Limits(20, 200, parts=100)
KILOPASCALS = Limits(1, 22_000)
CUBIC_METRES = Limits(0, 80_000)
GRAMS_PER_CUBIC_METRE = Limits(0, 100_000)

# The four reading sets, each with the limits of its readings in order.
SETS = {
    "amount": (AMOUNT,),
    "water": (AMOUNT, CELSIUS),
    "steam": (AMOUNT, KILOPASCALS),
    "wastewater": (CUBIC_METRES, GRAMS_PER_CUBIC_METRE, GRAMS_PER_CUBIC_METRE, AMOUNT, AMOUNT),
}


# ---- Records ----

FUEL, CARBONATE, BOUGHT_CO2, WASTEWATER, POWER_BOUGHT, POWER_SOLD, HEAT_BOUGHT, HEAT_SOLD = range(1, 9)

# The items of each kind.
ITEMS = {
    FUEL: range(1, 22),
    CARBONATE: range(1, 4),
    BOUGHT_CO2: range(0, 1),
    WASTEWATER: range(0, 1),
    POWER_BOUGHT: range(0, 1),
    POWER_SOLD: range(0, 1),
    HEAT_BOUGHT: range(0, 3),
    HEAT_SOLD: range(0, 3),
}
TIERS = ("M", "D")
LARGEST_SHARE = 1000


@dataclass(frozen=True)
class Record:
    """A record in numbers. Readings are binary32 bit patterns; a missing share is None."""

    year: int
    day: int
    kind: int
    item: int
    tier: str
    share: int | None
    set: str
    readings: tuple[int, ...]


def set_for(kind: int, item: int) -> str:
    """The reading set that a known kind and item take."""
    if kind == WASTEWATER:
        return "wastewater"
    if kind in (HEAT_BOUGHT, HEAT_SOLD):
        return ("amount", "water", "steam")[item]
    return "amount"


def share_is_lawful(kind: int, share: int | None) -> bool:
    if share is None:
        return kind != BOUGHT_CO2
    return kind in (CARBONATE, BOUGHT_CO2) and share <= LARGEST_SHARE


def check_record(year, day, kind, item, tier, share, readings, given_set=None) -> str:
    """Checks the record layer, smallest number first, and answers the reading set.

    A frame gives no set by name, so only the number of its readings can be wrong.
    """
    month_of_day(year, day)
    if kind not in ITEMS or item not in ITEMS[kind]:
        raise Refused(RECORD, 7, 0)
    if tier not in TIERS:
        raise Refused(RECORD, 8, 0)
    wanted = set_for(kind, item)
    if given_set not in (None, wanted) or len(readings) != len(SETS[wanted]):
        raise Refused(RECORD, 9, 0)
    for index, (limits, bits) in enumerate(zip(SETS[wanted], readings), start=1):
        if not limits.allow(bits):
            raise Refused(RECORD, 9, index)
    if not share_is_lawful(kind, share):
        raise Refused(RECORD, 10, 0)
    return wanted


def record_of(frame: bytes) -> Record:
    """The record that a frame holds."""
    found = fields(frame)
    year = number_of(found[1][:2])
    day = number_of(found[1][2:])
    kind = number_of(found[2])
    item = number_of(found[3])
    tier = chr(number_of(found[4]))
    readings = tuple(number_of(found[5][at : at + 4]) for at in range(0, len(found[5]), 4))
    share = number_of(found[6]) if 6 in found else None
    name_of_set = check_record(year, day, kind, item, tier, share, readings)
    return Record(year, day, kind, item, tier, share, name_of_set, readings)


def quantities(record: Record) -> list[int]:
    """The whole numbers that a lawful record counts with."""
    return [limits.quantity(bits) for limits, bits in zip(SETS[record.set], record.readings)]


def write(record: Record, name: bytes, room: int) -> bytes:
    """The frame of a record with a name, written into a buffer of `room` bytes."""
    if len(name) > LONGEST_NAME:
        raise Refused(FRAME, 4, 0)
    check_record(
        record.year,
        record.day,
        record.kind,
        record.item,
        record.tier,
        record.share,
        record.readings,
        record.set,
    )
    contents = {
        1: record.year.to_bytes(2, "big") + record.day.to_bytes(2, "big"),
        2: bytes([record.kind]),
        3: bytes([record.item]),
        4: record.tier.encode("ascii"),
        5: b"".join(bits.to_bytes(4, "big") for bits in record.readings),
    }
    if record.share is not None:
        contents[6] = record.share.to_bytes(2, "big")
    if name:
        contents[7] = name
    frame = b"".join(
        bytes([tag]) + len(data).to_bytes(2, "big") + data for tag, data in sorted(contents.items())
    )
    if room < len(frame):
        raise Refused(BOOK, 20, len(frame))
    return frame


# ---- Logs ----


def log_counts(log: bytes) -> tuple[int, int, int]:
    """The year of a log, the frames taken and the frames refused; three zeros without a lawful year."""
    if len(log) < 2:
        return (0, 0, 0)
    year = number_of(log[:2])
    try:
        check_year(year)
    except Refused:
        return (0, 0, 0)
    taken = 0
    refused = 0
    at = 2
    while at < len(log):
        length = number_of(log[at : at + 2])
        if at + 2 > len(log) or at + 2 + length > len(log):
            refused += 1
            break
        try:
            same_year = record_of(log[at + 2 : at + 2 + length]).year == year
        except Refused:
            same_year = False
        if same_year:
            taken += 1
        else:
            refused += 1
        at += 2 + length
    return (year, taken, refused)


def log_line(log: bytes) -> str:
    """The year of a log and how many frames read as lawful records of it, and how many do not."""
    return "%d %d %d\n" % log_counts(log)


if __name__ == "__main__":
    sys.exit(files.print_of_log("expected.py", log_line, sys.argv[1:]))
