"""Generates the cases of sort `entry`, which cases.py sends to the program `cases`, and their answers.

Numbers have their high byte first. After the byte that names its sort, a case is

    number of rows in the plant list (1 byte, 0 to 6),
    the rows, each: class (1), item (1), tier as a character's code (4), first year (2), last year (2),
                    rate (4), share (2),
    the source (1): 0 the plant list, 1 the printed table, 2 the pair of both, 3 a source that holds nothing,
    the frame: length (2), then its bytes.

The pair sends tier M to the plant list and tier D to the printed table.

The output has one line per case, either

    entry DAY KIND ITEM TIER SHARE QUANTITIES FACTOR GRAMS

with `-` for a missing share, commas between quantities, and the factor as `RATE,SHARE`, or `-` for a record
that asks nothing; or

    refused LAYER NUMBER PLACE

The answers come from emissions.py and expected.py alone.
"""

import sys

sys.dont_write_bytecode = True

from dataclasses import replace
from fractions import Fraction

import emissions
import expected
from cases import CHOSEN, NAMES, PAIRS, Chance, bits, fields_of, frame_of, joined
from cases import random_record, usual_record, word
from emissions import FACTOR, LARGEST_RATE, Entry, Factor, Row
from expected import Record, Refused

LARGEST_INPUT = 60_000
MOST_ROWS = 6

# The four sources, by their numbers.
LIST, PRINTED, PAIR, NOTHING = range(4)

# An exact emission is a whole number of parts of a gram.
PARTS_PER_GRAM = 3 * 10**10


# ---- Records and rows ----


def record_of(kind: int, item: int, *values: float, **changes) -> Record:
    """A record of day 181 of 2024 at tier D, whose readings are the binary32 nearest to the values."""
    changes = {"day": 181} | changes
    return usual_record(kind, item, readings=tuple(bits(value) for value in values), **changes)


def row_for(record: Record, rate: int, share: int = 1000, /, **changes) -> Row:
    """A row for the question of a record, with some of its parts replaced."""
    question = emissions.question_of(record)
    row = Row(question.class_number, question.item, question.tier, question.year, question.year, rate, share)
    return replace(row, **changes)


def random_factor(chance: Chance, class_number: int) -> Factor:
    """A factor within the limits, a quarter of the rates small."""
    largest = LARGEST_RATE[class_number]
    rate = chance.below(1 + (largest // 1000 if chance.below(4) == 0 else largest))
    return Factor(rate, chance.of(emissions.SHARES[class_number]))


def random_row(chance: Chance, record: Record) -> Row:
    """A row for the question of a record, with a random factor and years around the record's."""
    factor = random_factor(chance, emissions.question_of(record).class_number)
    return row_for(
        record,
        factor.rate,
        factor.share,
        first_year=record.year - chance.below(3),
        last_year=record.year + chance.below(3),
    )


def random_wastewater(chance: Chance) -> tuple[Record, Factor]:
    """Wastewater that no rule refuses with its factor."""
    factor = random_factor(chance, emissions.METHANE)
    cubic_metres = chance.below(80_001)
    inlet = chance.below(100_001)
    outlet = chance.below(inlet + 1)
    sludge = chance.below(1 + min(800_000, cubic_metres * (inlet - outlet) // 1000))
    formed = emissions.formed([cubic_metres, inlet, outlet, sludge, 0], factor)
    recovered = chance.below(1 + min(800_000, int(formed)))
    return record_of(4, 0, cubic_metres, inlet, outlet, sludge, recovered, tier=chance.of("MD")), factor


# ---- Cases ----


def row_bytes(row: Row) -> bytes:
    return (
        bytes([row.class_number, row.item])
        + ord(row.tier).to_bytes(4, "big")
        + word(row.first_year)
        + word(row.last_year)
        + row.rate.to_bytes(4, "big")
        + word(row.share)
    )


def source_of(rows: list[Row], mode: int) -> emissions.Source:
    listed = emissions.plant_list(rows)
    return (
        listed,
        emissions.printed_table,
        emissions.pair(listed, emissions.printed_table),
        emissions.nothing,
    )[mode]


def answer_line(entry: Entry) -> str:
    record = entry.record
    share = "-" if record.share is None else record.share
    counted = ",".join(str(quantity) for quantity in entry.quantities)
    factor = f"{entry.factor.rate},{entry.factor.share}" if entry.factor else "-"
    return (
        f"entry {record.day} {record.kind} {record.item} {record.tier} {share} "
        f"{counted} {factor} {entry.grams}"
    )


class Cases:
    """The cases in their order, each input once, with their answers."""

    def __init__(self):
        self.answers: dict[bytes, str] = {}
        self.entries: list[Entry] = []

    def frame(self, frame: bytes, rows: list[Row], mode: int) -> None:
        assert len(rows) <= MOST_ROWS
        case = bytes([len(rows)]) + b"".join(map(row_bytes, rows)) + bytes([mode]) + word(len(frame)) + frame
        if case in self.answers:
            return
        try:
            entry = emissions.entry_of(frame, source_of(rows, mode))
        except Refused as refusal:
            self.answers[case] = str(refusal)
        else:
            self.entries.append(entry)
            self.answers[case] = answer_line(entry)

    def listed(self, record: Record, *rows: Row) -> None:
        self.frame(frame_of(record), list(rows), LIST)

    def printed(self, record: Record) -> None:
        self.frame(frame_of(record), [], PRINTED)

    def factor(self, record: Record, rate: int, share: int = 1000) -> None:
        """The record with a plant list of one row for its question."""
        self.listed(record, row_for(record, rate, share))


# ---- The figures of docs/EMISSIONS.md ----

POWER = record_of(5, 0, 5)


def basin(recovered: int) -> Record:
    return record_of(4, 0, 100, 2000, 200, 0, recovered)


# Each record with its factor, or None to ask the printed table, and its grams.
FIGURES = [
    (record_of(1, 2, 1000), None, 1_741_750),
    (record_of(1, 21, 1), None, 21_622),
    (record_of(7, 1, 1000, 70), Factor(1100, 1000), 23_027),
    (record_of(7, 1, 1000, 70), None, 23_027),
    (record_of(7, 1, 1000, 20), Factor(1100, 1000), 0),
    (record_of(7, 2, 1000, 1000), Factor(1100, 1000), 296_259),
    (record_of(7, 2, 1000, 950), Factor(1100, 1000), 296_039),
    (basin(0), Factor(7500, 279), 376_650),
    (basin(13), Factor(7500, 279), 13_950),
    (POWER, Factor(5701, 1000), 2851),
    (POWER, Factor(5703, 1000), 2852),
    (record_of(3, 0, 250, share=40), None, 10_000),
]


def figures(cases: Cases) -> None:
    for record, factor, grams in FIGURES:
        source = emissions.printed_table if factor is None else lambda question: factor
        assert emissions.entry_of(frame_of(record), source).grams == grams
        if factor is None:
            cases.printed(record)
        else:
            cases.factor(record, factor.rate, factor.share)
    cases.factor(basin(14), 7500, 279)
    assert list(cases.answers.values())[-1] == "refused factor 13 0"


# ---- Every kind, item and source ----


def every_kind(cases: Cases) -> None:
    """Every kind, item and tier with each source; a row for the question stands in the list."""
    chance = Chance(321512)
    for turn, (kind, item) in enumerate(PAIRS):
        for tier in expected.TIERS:
            record = usual_record(kind, item, tier=tier, year=2000 + 41 * turn % 200, day=1 + 7 * turn)
            if kind == expected.WASTEWATER:
                record = replace(record, readings=basin(2).readings)
            rows = [] if kind == expected.BOUGHT_CO2 else [random_row(chance, record)]
            for mode in (LIST, PRINTED, PAIR):
                cases.frame(frame_of(record), [] if mode == PRINTED else rows, mode)
            if (kind, item) in CHOSEN:
                cases.frame(frame_of(record), rows, NOTHING)
                cases.frame(frame_of(record, NAMES[turn % len(NAMES)]), rows, (PRINTED, PAIR, LIST)[turn % 3])


def printed_fuels(cases: Cases) -> None:
    """Each fuel of the printed table with the largest and with random quantities."""
    chance = Chance(21)
    for item in expected.ITEMS[expected.FUEL]:
        for quantity in (800_000, 1 + chance.below(800_000)):
            record = record_of(1, item, quantity, year=2000 + chance.below(200))
            cases.frame(frame_of(record), [], PRINTED if quantity == 800_000 else PAIR)


# ---- Plant lists ----

# A record for each class, with the largest quantities that no factor refuses.
LARGEST = [
    record_of(1, 21, 800_000),
    record_of(2, 1, 800_000, share=1000),
    record_of(4, 0, 80_000, 100_000, 0, 0, 0),
    record_of(6, 0, 800_000),
    record_of(8, 0, 800_000),
]


def class_limits(cases: Cases) -> None:
    """Rates and shares at the limits of their class and just above."""
    for record in LARGEST:
        largest = LARGEST_RATE[emissions.question_of(record).class_number]
        for rate in (0, 1, largest - 1, largest, largest + 1, 2**32 - 1):
            cases.factor(record, rate)
        for share in (0, 1, 999, 1000, 1001, 65_535):
            cases.factor(record, largest, share)
        # A row that breaks a limit stands before one that keeps it.
        cases.listed(record, row_for(record, largest + 1), row_for(record, 77))
        cases.listed(record, row_for(record, 66, 1001), row_for(record, 77))
        cases.listed(record, row_for(record, 66, 1001), row_for(record, largest + 1))
    for item in (1, 2):
        for kind in (7, 8):
            record = record_of(kind, item, 800_000, 200)
            for rate, share in ((10_000, 1000), (10_001, 1000), (10_000, 999), (10_000, 1001)):
                cases.factor(record, rate, share)


def row_years(cases: Cases) -> None:
    """Years at the ends of a row and outside, and rows that hold no year."""
    for year in (2000, 2024, 2199):
        record = record_of(5, 0, 1000, year=year, tier="M")
        for first, last in (
            (year, year),
            (year - 1, year),
            (year, year + 1),
            (year + 1, year + 1),
            (year - 1, year - 1),
            (year + 1, year - 1),
            (year, year - 1),
            (year + 1, year),
            (0, 65_535),
            (65_535, 0),
        ):
            cases.listed(record, row_for(record, 5703, first_year=first, last_year=last))
    # One row for each of six years: the year asked for decides.
    for year in (2020, 2021, 2024, 2026, 2027):
        record = record_of(8, 0, 12_345, year=year, tier="M")
        row = row_for(record, 0)
        cases.listed(
            record,
            *(replace(row, rate=each, first_year=each, last_year=each) for each in range(2026, 2020, -1)),
        )


# Letters that are no tier; some share bytes with M and D.
ODD_TIERS = "mdX\0\u014d\u0144\u4d00\u4400\U0001004d\U00010044\ue000\U0010ffff"


def near_rows(cases: Cases) -> None:
    """Rows that fit but for one part, alone and before a row that fits."""
    for kind, item in ((1, 3), (2, 2), (4, 0), (6, 0), (7, 1), (8, 2)):
        record = usual_record(kind, item, tier="MD"[kind % 2])
        if kind == expected.WASTEWATER:
            record = replace(record, readings=basin(0).readings)
        question = emissions.question_of(record)
        fits = row_for(record, 5000)
        for class_number in sorted({0, kind, question.class_number - 1, question.class_number + 1, 255}):
            if class_number != question.class_number:
                cases.listed(record, replace(fits, class_number=class_number, rate=66), fits)
        for other in sorted({item, 0, question.item + 1, 255} - {question.item}):
            cases.listed(record, replace(fits, item=other, rate=66), fits)
        other_tier = "D" if record.tier == "M" else "M"
        cases.listed(record, replace(fits, tier=other_tier, rate=66), fits)
        cases.listed(record, replace(fits, tier=other_tier))
        # The first of several rows that fit answers.
        cases.listed(record, fits, replace(fits, rate=66))
        cases.listed(record, replace(fits, rate=66), fits)
        # None of six rows fits; the sixth alone does.
        wrong = [
            replace(fits, class_number=question.class_number + 1),
            replace(fits, item=question.item + 1),
            replace(fits, tier=other_tier),
            replace(fits, first_year=record.year + 1),
            replace(fits, last_year=record.year - 1),
        ]
        cases.listed(record, *wrong, replace(fits, rate=2**32 - 1))
        cases.listed(record, *wrong, fits)
    for letter in ODD_TIERS:
        for tier in expected.TIERS:
            record = record_of(5, 0, 1000, tier=tier)
            fits = row_for(record, 5703)
            cases.listed(record, replace(fits, tier=letter, rate=66), fits)
    cases.listed(record, replace(fits, tier="d"))
    # The pair asks the plant list at tier M only.
    for kind, item in ((1, 2), (5, 0), (7, 0)):
        for tier in expected.TIERS:
            record = record_of(kind, item, 1000, tier=tier)
            for row_tier in expected.TIERS:
                cases.frame(frame_of(record), [row_for(record, 4321, tier=row_tier)], PAIR)


def random_lists(cases: Cases) -> None:
    """Random records with lists of rows that are often, but not always, for their question."""
    chance = Chance(900)
    for _ in range(110):
        if chance.below(6) == 0:
            record, factor = random_wastewater(chance)
            rows = [row_for(record, factor.rate, factor.share)]
            name = b""
        else:
            record, name = random_record(chance)
            rows = []
        name = name if chance.below(4) == 0 else b""
        asked = record if record.kind != expected.BOUGHT_CO2 else POWER
        for _ in range(chance.below(4)):
            row = random_row(chance, asked)
            change = chance.below(10)
            if change == 0:
                row = replace(row, class_number=chance.below(7))
            elif change == 1:
                row = replace(row, item=chance.below(23))
            elif change == 2:
                row = replace(row, tier=chance.of("MDX"))
            elif change == 3:
                row = replace(row, first_year=record.year + 1)
            elif change == 4:
                row = replace(row, rate=LARGEST_RATE[row.class_number] + 1)
            elif change == 5:
                row = replace(row, share=chance.of((0, 999, 1001)))
            rows.append(row)
        mode = chance.of((LIST, LIST, LIST, PRINTED, PAIR, PAIR))
        cases.frame(frame_of(record, name), rows, mode)


# ---- Emissions ----


def ties(cases: Cases) -> None:
    """Exact emissions that end in half a gram, and their neighbours on both sides."""
    for record, rate, share in (
        (record_of(1, 1, 1), 150_000, 1000),
        (record_of(1, 18, 3), 250_000, 600),
        (record_of(1, 21, 750_000), 999, 1000),
        (record_of(2, 1, 50, share=1000), 1001, 1000),
        (record_of(2, 2, 1250), 1002, 1000),
        (record_of(2, 3, 50_000, share=1), 3, 1000),
        (record_of(4, 0, 1, 500, 0, 0, 0), 1, 1000),
        (record_of(4, 0, 100, 2000, 199, 0, 13), 7500, 2),
        (record_of(5, 0, 5), 5701, 1000),
        (record_of(5, 0, 1), 5, 1000),
        (record_of(6, 0, 799_999), 99_995, 1000),
        (record_of(7, 0, 15), 1101, 1000),
        (record_of(8, 0, 1), 9995, 1000),
        (record_of(7, 1, 125_000, 120), 1, 1000),
        (record_of(8, 1, 31_250, 100), 25, 1000),
        (record_of(7, 2, 250, 1000), 1000, 1000),
        (record_of(8, 2, 2500, 950), 300, 1000),
        (record_of(8, 2, 1250, 21_500), 400, 1000),
    ):
        exact = emissions.entry_of(frame_of(record), lambda question: Factor(rate, share)).exact
        assert exact % 1 == Fraction(1, 2), record
        for other in (rate - 1, rate, rate + 1):
            cases.factor(record, other, share)


def wastewater(cases: Cases) -> None:
    def basin_of(*values: float, rate: int = 10_000, share: int = 279, mode: int = LIST) -> None:
        record = record_of(4, 0, *values)
        cases.frame(frame_of(record), [row_for(record, rate, share)], mode)

    # Outlet at the inlet, above it and below it.
    for outlet in (1999, 2000, 2001):
        for cubic_metres in (0, 100):
            for sludge in (0, 1):
                basin_of(cubic_metres, 2000, outlet, sludge, 0)
    basin_of(80_000, 0, 100_000, 800_000, 800_000)
    # The quantities decide, not the readings.
    basin_of(100, 2000.25, 2000.375, 0, 0)
    basin_of(100, 2000.25, 2000.5, 0, 0)
    basin_of(100, 2000.5, 2000.75, 0, 0)
    basin_of(100, 2000.5, 2001.5, 0, 0)
    basin_of(99.5, 2000, 200, 180, 0)
    basin_of(99.25, 2000, 200, 179, 0)
    basin_of(100, 2000, 200, 180.25, 0)
    basin_of(100, 2000, 200, 180.5, 0)
    # Sludge exactly at the COD removed, one below and one above.
    for cubic_metres, inlet, outlet in ((100, 2000, 200), (1, 1000, 0), (80_000, 10_000, 0), (3, 999, 1)):
        removed = cubic_metres * (inlet - outlet) // 1000
        for sludge in (removed - 1, removed, removed + 1):
            if 0 <= sludge <= 800_000:
                basin_of(cubic_metres, inlet, outlet, sludge, 0)
        basin_of(cubic_metres, inlet, outlet, removed, 1)
    basin_of(80_000, 9_999, 0, 799_920, 0)
    basin_of(80_000, 9_999, 0, 799_921, 0)
    # Recovered methane exactly what formed, just below and just above.
    for cubic_metres, inlet, sludge, recovered, rate in (
        (100, 1800, 0, 18, 10_000),
        (100, 1800, 80, 10, 10_000),
        (1, 10_000, 0, 1, 10_000),
        (80_000, 100_000, 0, 800_000, 10_000),
        (80_000, 100_000, 800_000, 720_000, 10_000),
        (40_000, 50_000, 0, 600_000, 30_000),
    ):
        for more in (-1, 0, 1):
            if recovered + more <= 800_000:
                basin_of(cubic_metres, inlet, 0, sludge, recovered + more, rate=rate)
        basin_of(cubic_metres, inlet, 0, sludge, recovered, rate=rate - 1)
        basin_of(cubic_metres, inlet, 1, sludge, recovered, rate=rate)
        basin_of(cubic_metres, inlet, 0, sludge + 1 if sludge < 800_000 else 1, recovered, rate=rate)
    # No methane factor, or no warming potential: what was recovered may still exceed what formed.
    for rate, share in ((0, 279), (10_000, 0), (0, 0), (30_000, 1000)):
        for recovered in (0, 1, 18, 19) if rate < 30_000 else (0, 54, 55):
            basin_of(100, 1800, 0, 0, recovered, rate=rate, share=share)
    # Refusal 11 comes before 12, 12 before 13.
    for values in ((100, 200, 2000, 0, 0), (100, 2000, 200, 181, 0), (100, 200, 2000, 181, 800_000)):
        basin_of(*values, mode=NOTHING)
        basin_of(*values, mode=PRINTED)
    for mode in (PRINTED, PAIR, NOTHING):
        basin_of(100, 2000, 200, 0, 14, rate=7500, mode=mode)
    basin_of(100, 2000, 200, 0, 14, rate=30_001)
    basin_of(100, 2000, 200, 0, 14, share=1001)
    chance = Chance(13)
    for _ in range(24):
        record, factor = random_wastewater(chance)
        cases.factor(record, factor.rate, factor.share)


def steam(cases: Cases) -> None:
    """Every pressure of the steam table, and one between each two rows."""
    chance = Chance(22_000)
    pressures = [pressure for pressure, _ in emissions.STEAM]
    between = [
        low + 1 + chance.below(high - low - 1)
        for low, high in zip(pressures, pressures[1:])
        if high > low + 1
    ]
    beside = [999, 1001, 3001, 3999, 21_001, 21_999, 1.25, 1.5, 2.5, 949.5, 21_999.5]
    for turn, pressure in enumerate([*pressures, *between, *beside]):
        record = record_of(7 + turn % 2, 2, 1 + chance.below(800_000), pressure)
        if turn % 4 == 0:
            cases.factor(record, 1 + chance.below(10_000))
        else:
            cases.printed(record)
    for pressure in (1, 22_000):
        for kilograms in (0, 1, 800_000):
            cases.factor(record_of(8, 2, kilograms, pressure), 10_000)
    # Rounding the enthalpy first would give other grams.
    for pressure in (11, 951, 3_777, 4_321, 20_567, 21_999):
        cases.factor(record_of(7, 2, 799_999, pressure), 9_999)


def water(cases: Cases) -> None:
    for celsius in (20, 20.0078125, 20.125, 20.135, 70, 99.875, 100, 199.995, 200):
        for kilograms in (1, 800_000):
            cases.printed(record_of(7, 1, kilograms, celsius))
    for kilograms in (0, 0.5, 0.25):
        cases.factor(record_of(8, 1, kilograms, 200), 10_000)
    chance = Chance(41_868)
    for _ in range(16):
        celsius = 20 + chance.below(18_001) / 100
        cases.factor(record_of(8, 1, chance.below(800_001), celsius), chance.below(10_001))


def shares(cases: Cases) -> None:
    """Purity missing and at its limits, and losses."""
    for item in (1, 2, 3):
        for purity in (None, 0, 1, 980, 1000):
            cases.factor(record_of(2, item, 12_345, share=purity), 43_971)
    for loss in (0, 1, 40, 999, 1000):
        for quantity in (0, 1, 250, 800_000):
            record = record_of(3, 0, quantity, share=loss, tier="MD"[loss % 2])
            cases.frame(frame_of(record), [], (LIST, PRINTED, PAIR, NOTHING)[(loss + quantity) % 4])


# ---- Refused records ----


def refused_records(cases: Cases) -> None:
    """Faults of frames and records, with sources that hold a factor and with one that holds nothing."""
    usual = record_of(2, 1, 1000, share=990)
    parts = fields_of(usual, b"LIME")
    rows = [row_for(usual, 43_971)]
    whole = joined(parts)
    frames = [
        b"",
        whole[:-1],
        whole[:2],
        joined(parts[:2]) + b"\x09\x00\x00" + joined(parts[2:]),
        joined(parts[:3] + parts[2:]),
        joined(parts[:4]) + bytes([5, 0, 3, 0, 0, 0]),
        *(joined(parts[:at] + parts[at + 1 :]) for at in range(5)),
    ]
    for changes in (
        {"year": 1999},
        {"year": 2023, "day": 366},
        {"kind": 9},
        {"item": 4},
        {"tier": "m"},
        {"readings": (bits(-1.0),)},
        {"readings": (bits(1.0),) * 3},
        {"share": 1001},
    ):
        frames.append(frame_of(replace(usual, **changes)))
    for turn, frame in enumerate(frames):
        cases.frame(frame, rows if turn % 2 else [], (LIST, NOTHING, PAIR, PRINTED)[turn % 4])
    basin_rows = [row_for(basin(0), 7500, 279)]
    high = bits(100_000)
    for changes in (
        {"share": 500},
        {"readings": basin(0).readings[:4]},
        {"readings": basin(0).readings[:2] + (high + 1,) + basin(0).readings[3:]},
        {"tier": "X", "readings": record_of(4, 0, 100, 200, 2000, 0, 0).readings},
        {"share": 500, "readings": record_of(4, 0, 100, 200, 2000, 0, 0).readings},
        {"day": 367, "readings": record_of(4, 0, 100, 2000, 200, 0, 14).readings},
    ):
        for mode in (LIST, NOTHING):
            cases.frame(frame_of(replace(basin(0), **changes)), basin_rows, mode)
    for record in (
        record_of(3, 0, 250, share=None),
        record_of(3, 0, 250, share=1001),
        record_of(7, 1, 1000, 19.75),
        record_of(7, 1, 1000, 200.25),
        record_of(7, 2, 1000, 0.75),
        record_of(8, 2, 1000, 22_000.25),
        record_of(8, 2, 800_000.0625, 22_000),
        replace(POWER, item=1),
    ):
        cases.printed(record)


# ---- The whole ----


def check_rules() -> None:
    """Facts that were settled by hand."""
    for item, fuel in emissions.PRINTED_FUELS.items():
        # Heat first, then carbon per heat: the formulas one after the other.
        record = record_of(1, item, 12_000)
        heat = 12 * fuel.heat_value  # GJ of 12 t or of 120000 cubic metres
        tonnes = heat * (fuel.carbon * fuel.oxidation * Fraction(44, 12))
        assert emissions.exact_tonnes(record, [12_000], fuel.factor()) == tonnes
        assert emissions.keeps_limits(emissions.FUELS, fuel.factor())
    assert emissions.PRINTED_FUELS[2].factor() == Factor(51_077_700, 930)
    assert emissions.PRINTED_FUELS[21].factor() == Factor(595_644_300, 990)
    assert len(emissions.PRINTED_FUELS) == 21 and len(emissions.STEAM) == 72
    pressures = [pressure for pressure, _ in emissions.STEAM]
    assert pressures == sorted(set(pressures)) and pressures[0] == 1 and pressures[-1] == 22_000
    assert all(1000 % (high - low) == 0 for low, high in zip(pressures, pressures[1:]))
    assert emissions.steam_enthalpy(1000) == 2777 and emissions.steam_enthalpy(950) == 2775
    assert emissions.steam_enthalpy(21_999) == Fraction("2192.6477")


def generate() -> Cases:
    cases = Cases()
    for part in (
        figures,
        every_kind,
        printed_fuels,
        class_limits,
        row_years,
        near_rows,
        random_lists,
        ties,
        wastewater,
        steam,
        water,
        shares,
        refused_records,
    ):
        part(cases)
    return cases


def check_reach(cases: Cases) -> None:
    """Every kind, item and tier is answered, every refusal given, and every kind but 3 has a tie."""
    refused = set()
    for answer in cases.answers.values():
        words = answer.split()
        if words[0] == "refused":
            refused.add((words[1], int(words[2])))
            if words[2] == "11":
                refused.add(tuple(words[1:]))
    assert refused == {
        *((expected.FRAME, number) for number in range(1, 6)),
        *((expected.RECORD, number) for number in range(6, 12)),
        (expected.RECORD, "11", "1"),
        (expected.RECORD, "11", "2"),
        (FACTOR, 12),
        (FACTOR, 13),
    }
    answered = {(entry.record.kind, entry.record.item, entry.record.tier) for entry in cases.entries}
    assert answered == {(kind, item, tier) for kind, item in PAIRS for tier in expected.TIERS}
    tied = {entry.record.kind for entry in cases.entries if entry.exact % 1 == Fraction(1, 2)}
    assert tied == set(expected.ITEMS) - {expected.BOUGHT_CO2}
    for entry in cases.entries:
        assert (entry.exact * PARTS_PER_GRAM).denominator == 1
        assert -Fraction(1, 2) < entry.grams - entry.exact <= Fraction(1, 2)


def answers() -> dict[bytes, str]:
    """Each case, without the byte that names its sort, with the line that it must print."""
    check_rules()
    cases = generate()
    check_reach(cases)
    assert sum(len(case) for case in cases.answers) <= LARGEST_INPUT
    return cases.answers
