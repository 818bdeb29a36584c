"""Generates the calls that the program `book_cases` makes of books, and the answers that it must print.

    python3 tools/book_calls.py            writes crates/book_cases/stdin and crates/book_cases/stdout
    python3 tools/book_calls.py --check    compares these files with what it would write

The input is a run of calls. Numbers have their high byte first. The first byte names the call:

    0  open      year (2 bytes), entries of memory (4); a new book in place of the old one, and a new, empty
                 plant list with room for 8 rows
    1  row       class (1), item (1), tier as a character's code (4), first year (2), last year (2), rate (4),
                 share (2); appended to the plant list
    2  offer     source (1: 0 the plant list, 1 the printed table, 2 the pair of both, 3 a source that holds
                 nothing), times (4), length (2), then the frame's bytes; offered that many times, at least
                 once, and only the last answer is told
    3  withdraw  number (4)
    4  event     0 hold, 1 release, 2 close (1), month (1)
    5  line      month (1), line (1)
    6  yearline  line (1)
    7  total

The pair sends tier M to the plant list and tier D to the printed table. The first call is an opening, and behind
a refused opening comes another one, so that every other call has a book.

The output has one line per call:

    open      `year YEAR`
    row       `row NUMBER`, counted from 1
    offer     `taken NUMBER GRAMS`
    withdraw  `withdrawn NUMBER GRAMS`
    event     `held MONTH`, `released MONTH` or `closed MONTH`
    line      `line MONTH LINE COUNT GRAMS`
    yearline  `yearline LINE COUNT GRAMS`
    total     `total COUNT GRAMS`, a negative number with its minus sign

or a refusal, `refused LAYER NUMBER PLACE`. The answers come from book.py, emissions.py and expected.py alone.
"""

import sys

sys.dont_write_bytecode = True

from collections import Counter
from collections.abc import Callable
from dataclasses import replace

import book
import emissions
import expected
import figures
import files
from book import CLOSE, CLOSED, HELD, HOLD, LINES, MONTHS, OPEN, RELEASE, Book
from cases import NAMES, PAIRS, Chance, bits, fields_of, frame_of, joined, usual_record, word
from emissions import FACTOR, Factor, Row
from expected import Record, Refused
from figures import LIST, NOTHING, PAIR, PRINTED

LARGEST_INPUT = 150_000
LIST_ROOM = 8

# The calls, by their numbers.
NAMES_OF_CALLS = ("open", "row", "offer", "withdraw", "event", "line", "yearline", "total")
OPENING, ROW, OFFER, WITHDRAW, EVENT, LINE, YEAR_LINE, TOTAL = range(8)

EVENTS = (HOLD, RELEASE, CLOSE)
PAST = {HOLD: "held", RELEASE: "released", CLOSE: "closed"}

# Numbers that name no entry of any book here: the journals end at 60,000.
NO_NUMBERS = (0, 60_001, 65_536, 65_537, 70_000, 2**31, 2**32 - 1)
NO_MONTHS = (0, 13, 14, 128, 255)
NO_LINES = (0, 8, 9, 128, 255)


def long(number: int) -> bytes:
    return number.to_bytes(4, "big")


# ---- Calls with their answers ----


class Calls:
    """The calls in their order with their answers, and the book and the plant list as they stand."""

    def __init__(self):
        self.sent: list[bytes] = []
        self.answers: list[str] = []
        self.book: Book | None = None
        self.rows: list[Row] = []
        # Entries of all books, and each event and withdrawal with the state that it met and its answer's word.
        self.entered: list[book.Offering] = []
        self.met: set[tuple[str, str, str]] = set()

    def call(self, number: int, content: bytes, ask: Callable[[], str]) -> str:
        assert number == OPENING or self.book is not None
        try:
            answer = ask()
        except Refused as refusal:
            answer = str(refusal)
        self.sent.append(bytes([number]) + content)
        self.answers.append(answer)
        return answer

    def end(self) -> None:
        """The last word on a book: its laws hold. A refused opening leaves none."""
        if self.book is not None:
            self.book.check()
            self.entered += self.book.offerings
        self.book = None

    def open(self, year: int, entries: int) -> None:
        def ask() -> str:
            self.book = Book(year, entries)
            return f"year {self.book.year}"

        self.end()
        self.rows = []
        self.call(OPENING, word(year) + long(entries), ask)

    def row(self, row: Row) -> None:
        def ask() -> str:
            if len(self.rows) == LIST_ROOM:
                raise Refused(FACTOR, 16, 0)
            self.rows.append(row)
            return f"row {len(self.rows)}"

        self.call(ROW, figures.row_bytes(row), ask)

    def frame(self, frame: bytes, mode: int = PAIR, times: int = 1) -> str:
        def ask() -> str:
            # No source changes between these offers, so the entry is the same each time.
            entry = emissions.entry_of(frame, figures.source_of(self.rows, mode))
            for _ in range(times - 1):
                try:
                    self.book.enter(entry)
                except Refused:
                    pass
            return "taken %d %d" % self.book.enter(entry)

        assert times >= 1
        return self.call(OFFER, bytes([mode]) + long(times) + word(len(frame)) + frame, ask)

    def offer(self, record: Record, mode: int = PAIR, times: int = 1, name: bytes = b"") -> str:
        return self.frame(frame_of(record, name), mode, times)

    def withdraw(self, number: int) -> None:
        state = None
        if any(offering.number == number for offering in self.book.standing()):
            state = self.book.state(self.book.offerings[number - 1].month)
        answer = self.call(WITHDRAW, long(number), lambda: "withdrawn %d %d" % self.book.withdraw(number))
        if state is not None:
            self.met.add(("withdraw", state, answer.split()[0]))

    def event(self, event: str, month: int) -> None:
        state = self.book.state(month) if month in MONTHS else None
        answer = self.call(
            EVENT,
            bytes([EVENTS.index(event), month]),
            lambda: f"{PAST[event]} {self.book.turn(event, month)}",
        )
        if state is not None:
            self.met.add((event, state, answer.split()[0]))

    def line(self, month: int, line: int) -> None:
        self.call(
            LINE, bytes([month, line]), lambda: "line %d %d %d %d" % (month, line, *self.book.line(month, line))
        )

    def year_line(self, line: int) -> None:
        self.call(YEAR_LINE, bytes([line]), lambda: "yearline %d %d %d" % (line, *self.book.year_line(line)))

    def total(self) -> None:
        self.call(TOTAL, b"", lambda: "total %d %d" % self.book.total())

    # Several calls.

    def read_month(self, month: int) -> None:
        for line in LINES:
            self.line(month, line)
        self.total()

    def read_all(self) -> None:
        for month in MONTHS:
            for line in LINES:
                self.line(month, line)
        for line in LINES:
            self.year_line(line)
        self.total()

    def close(self, month: int) -> None:
        """Closes a held month, its lines read before and after."""
        self.read_month(month)
        self.event(CLOSE, month)
        self.read_month(month)


# ---- Plant lists and records ----

METHANE_FACTOR = Factor(7500, 279)
POWER_FACTOR = Factor(5703, 1000)


def row_of(class_number: int, item: int, factor: Factor, tier: str = "M") -> Row:
    """A row for all years."""
    return Row(class_number, item, tier, expected.FIRST_YEAR, expected.LAST_YEAR, factor.rate, factor.share)


# The questions of a full plant list: two fuels, and all that is no fuel.
LISTED = [
    (emissions.FUELS, 2),
    (emissions.FUELS, 21),
    (emissions.CARBONATES, 1),
    (emissions.CARBONATES, 2),
    (emissions.CARBONATES, 3),
    (emissions.METHANE, 0),
    (emissions.POWER, 0),
    (emissions.HEAT, 0),
]
USUAL_FACTORS = [
    Factor(50_431_207, 935),
    Factor(591_000_003, 991),
    Factor(43_971, 1000),
    Factor(52_380, 1000),
    Factor(40_007, 1000),
    METHANE_FACTOR,
    POWER_FACTOR,
    Factor(1101, 1000),
]


def open_listed(calls: Calls, year: int, entries: int, factors: list[Factor] = USUAL_FACTORS) -> None:
    """Opens a book, with a full plant list at tier M."""
    calls.open(year, entries)
    for (class_number, item), factor in zip(LISTED, factors):
        calls.row(row_of(class_number, item, factor))


def days_of(year: int, month: int) -> range:
    before = sum(expected.month_lengths(year)[: month - 1])
    return range(before + 1, before + 1 + expected.month_lengths(year)[month - 1])


def tier_of(chance: Chance, kind: int, item: int) -> str:
    """A tier at which the pair answers with a full plant list."""
    if kind == expected.FUEL:
        return "D" if item not in (2, 21) else chance.of("MD")
    if kind in (expected.BOUGHT_CO2, expected.HEAT_BOUGHT, expected.HEAT_SOLD):
        return chance.of("MD")
    return "M"


def basin_values(chance: Chance, factor: Factor) -> tuple[int, ...]:
    """Readings of wastewater that no rule refuses with its factor."""
    cubic_metres = 1 + chance.below(80_000)
    inlet = 1 + chance.below(100_000)
    outlet = chance.below(inlet)
    sludge = chance.below(1 + min(800_000, cubic_metres * (inlet - outlet) // 2000))
    formed = emissions.formed([cubic_metres, inlet, outlet, sludge, 0], factor)
    return cubic_metres, inlet, outlet, sludge, chance.below(1 + min(800_000, int(formed)))


def random_record(chance: Chance, rows: list[Row], year: int, day: int, kind: int) -> Record:
    """A record of a kind that the pair answers with a full plant list, and with these rows of it unless 12."""
    item = chance.of(expected.ITEMS[kind])
    tier = tier_of(chance, kind, item)
    record = usual_record(kind, item, year=year, day=day, tier=tier)
    if kind == expected.WASTEWATER:
        factor = emissions.plant_list(rows)(emissions.question_of(record))
        values = basin_values(chance, factor or METHANE_FACTOR)
    else:
        values = [
            limits.low + chance.below(8 * (limits.high - limits.low) + 1) / 8
            for limits in expected.SETS[record.set]
        ]
    share = chance.below(1001) if kind == 3 or (kind == 2 and chance.below(2)) else None
    return replace(record, share=share, readings=tuple(bits(value) for value in values))


def coal(year: int, day: int, kilograms: float = 1000) -> Record:
    return usual_record(1, 2, year=year, day=day, readings=(bits(kilograms),))


def power_sold(year: int, day: int, kilowatt_hours: float) -> Record:
    return usual_record(6, 0, year=year, day=day, tier="M", readings=(bits(kilowatt_hours),))


# ---- Openings ----


def openings(calls: Calls) -> None:
    """Unlawful years, the first and the last lawful one, and a new book in place of one that was used."""
    for year in (1999, 2200, 65_535, 0, 58_375):
        calls.open(year, 5)
    calls.open(2000, 5)
    calls.read_all()
    calls.open(1999, 0)
    open_listed(calls, 2199, 3)
    calls.row(row_of(emissions.POWER, 0, POWER_FACTOR, "D"))
    calls.offer(power_sold(2199, 365, 1000))
    calls.event(HOLD, 1)
    calls.event(CLOSE, 1)
    calls.offer(coal(2199, 31))
    # In its place a book of the same year, with no rows, no entries and no month held.
    calls.open(2199, 3)
    calls.offer(power_sold(2199, 365, 1000))
    calls.total()
    calls.withdraw(1)
    calls.event(RELEASE, 1)
    calls.offer(coal(2199, 31))
    calls.read_all()
    calls.open(65_535, 60_000)
    calls.open(2200, 1)


# ---- Years, days and months ----


def calendar(calls: Calls) -> None:
    """The first and the last day of every month, in no order of dates, and days that are none."""
    for turn, year in enumerate((2000, 2023, 2024, 2100, 2199)):
        chance = Chance(year)
        open_listed(calls, year, 40)
        edges = [day for month in MONTHS for day in (days_of(year, month)[0], days_of(year, month)[-1])]
        while edges:
            day = edges.pop(chance.below(len(edges)))
            kind = 1 + (len(edges) + turn) % 8
            calls.offer(random_record(chance, calls.rows, year, day, kind))
        for day in (0, 366, 367, 59, 60, 61, 365):
            calls.offer(coal(year, day, 100 + day))
        for other in (year - 1, year + 1, 2096, 2097, 65_535):
            for day in (1, 366):
                calls.offer(coal(other, day))
        calls.read_all()


# ---- Kinds, sources and plant lists ----


def every_kind(calls: Calls) -> None:
    """Every kind and item with the pair, and what is not in the printed table at tier D with a list."""
    chance = Chance(32_151)
    open_listed(calls, 2024, 200)
    for turn, (kind, item) in enumerate(PAIRS):
        for mode in (PAIR, LIST, PRINTED, NOTHING):
            tier = tier_of(chance, kind, item)
            record = usual_record(kind, item, day=1 + 11 * turn % 366, tier=tier)
            if kind == expected.WASTEWATER:
                record = replace(record, readings=figures.basin(13).readings)
            if mode in (PAIR, LIST) or kind not in (1, 2, 7, 8) or item in (1, 2):
                calls.offer(record, mode, name=NAMES[turn % len(NAMES)] if turn % 3 == 0 else b"")
    calls.read_all()
    calls.open(2050, 20)
    for class_number, item in LISTED:
        calls.row(row_of(class_number, item, Factor(999, 1000), "D"))
    for kind in range(1, 9):
        record = usual_record(kind, 2 if kind < 3 else 0, year=2050, day=1 + 45 * kind)
        if kind == expected.WASTEWATER:
            record = replace(record, readings=figures.basin(0).readings)
        for mode in (LIST, PAIR):
            calls.offer(record, mode)
    calls.read_all()


def plant_lists(calls: Calls) -> None:
    """Rows are added between offers: each entry keeps the factor that it was booked with."""
    sold = power_sold(2031, 100, 5)
    row = figures.row_for(sold, 5701)
    calls.open(2031, 10)
    calls.offer(sold)
    for more in (
        replace(row, first_year=2032, last_year=2032),
        replace(row, rate=100_001),
        replace(row, tier="m"),
        row,
        replace(row, rate=5703),
        replace(row, class_number=9, item=77, tier="\U0010ffff"),
    ):
        calls.row(more)
        calls.offer(sold)
        calls.offer(sold, LIST)
        calls.total()
    calls.offer(sold, PRINTED)
    steam = usual_record(7, 2, year=2031, day=100, tier="M")
    calls.offer(steam)
    calls.row(figures.row_for(steam, 10_000))
    calls.offer(steam)
    calls.row(row)
    calls.row(row)
    calls.row(replace(row, rate=0))
    calls.offer(sold)
    for number in (1, 3, 7, 2, 8):
        calls.withdraw(number)
        calls.total()
    calls.read_all()


# ---- Refusals ----


def layer_faults(year: int, day: int) -> list[bytes]:
    """Frames that the frame and record layers refuse, each number of theirs at several places."""
    usual = replace(usual_record(2, 1, year=year, day=day, tier="M"), share=990)
    parts = fields_of(usual, b"LIME")
    whole = joined(parts)
    frames = [
        b"",
        whole[:2],
        whole[:-1],
        whole + bytes(300),
        joined(parts[:2]) + b"\x09\x00\x00" + joined(parts[2:]),
        joined(parts[:3] + parts[2:]),
        joined(parts[:4]) + bytes([5, 0, 3, 0, 0, 0]),
        *(joined(parts[:at] + parts[at + 1 :]) for at in range(5)),
    ]
    for changes in (
        {"day": 0},
        {"day": 367},
        {"kind": 9},
        {"item": 4},
        {"tier": "m"},
        {"readings": (bits(1.0),) * 3},
        {"share": 1001},
    ):
        frames.append(frame_of(replace(usual, **changes)))
    frames.append(frame_of(usual_record(3, 0, year=year, day=day, share=None)))
    basin = replace(figures.basin(0), year=year, day=day)
    for place in range(5):
        mixed = basin.readings[:place] + (0x80000000,) * (5 - place)
        frames.append(frame_of(replace(basin, readings=mixed)))
    return frames


def emission_faults(year: int, day: int) -> list[tuple[bytes, int]]:
    """Records that 11, 12 and 13 refuse, with their sources."""

    def basin(*values: int) -> bytes:
        readings = tuple(bits(value) for value in values)
        return frame_of(usual_record(4, 0, year=year, day=day, tier="M", readings=readings))

    return [
        (basin(100, 200, 2000, 181, 14), NOTHING),
        (basin(100, 2000, 200, 181, 14), PAIR),
        (basin(100, 2000, 200, 0, 14), PRINTED),
        (frame_of(replace(coal(year, day), tier="M")), NOTHING),
        (frame_of(usual_record(5, 0, year=year, day=day)), PAIR),
        (basin(100, 2000, 200, 0, 14), LIST),
    ]


def offer_faults(calls: Calls, year: int, day: int) -> None:
    for turn, frame in enumerate(layer_faults(year, day)):
        calls.frame(frame, (PAIR, LIST, NOTHING, PRINTED)[turn % 4], 1 + turn % 3)
    for frame, mode in emission_faults(year, day):
        calls.frame(frame, mode)
    calls.total()


def refusals(calls: Calls) -> None:
    """Refusals in an open, a held and a closed month, for another year and with a full journal.

    The smallest number wins: every fault of the frame and its emission, then another year, then the month, then
    the journal.
    """
    for year, day in ((2024, 366), (2100, 32)):
        month = expected.month_of_day(year, day)
        good = coal(year, day)
        open_listed(calls, year, 2)
        offer_faults(calls, year, day)
        calls.offer(good)
        # Another year, in an open month.
        offer_faults(calls, year + 4, day if day < 366 else 365)
        calls.offer(replace(good, year=year + 4))
        calls.event(HOLD, month)
        calls.offer(good)
        calls.offer(replace(good, year=year - 4))
        if year == 2024:
            offer_faults(calls, year, day)
        calls.offer(coal(year, 200))
        # The journal is full from here on.
        calls.offer(coal(year, 200))
        calls.offer(replace(good, year=year + 4))
        calls.offer(good)
        calls.event(CLOSE, month)
        calls.offer(good)
        calls.offer(replace(good, year=year + 4))
        calls.offer(coal(year, 200))
        offer_faults(calls, year, day)
        calls.read_all()


# ---- Months and their states ----


def try_month(calls: Calls, chance: Chance, month: int) -> None:
    """Every event, offering and withdrawal in the present state of a month, those first that change nothing."""
    year = calls.book.year
    state = calls.book.state(month)
    for event in EVENTS:
        if book.NEEDED_STATE[event] != state:
            calls.event(event, month)
    day = chance.of(days_of(year, month))
    calls.offer(random_record(chance, calls.rows, year, day, 1 + chance.below(8)))
    here = [offering.number for offering in calls.book.standing() if offering.month == month]
    if here:
        calls.withdraw(chance.of(here))
    calls.line(month, chance.of(LINES))


def states(calls: Calls) -> None:
    """Each month goes through all its states, some twice; the others stay as they are."""
    for year, order in ((2024, (3, 12, 1, 7)), (2025, (2, 6, 11, 4, 10, 8, 5, 9))):
        chance = Chance(12 * year)
        open_listed(calls, year, 300)
        for turn, month in enumerate(order):
            days = days_of(year, month)
            for kind in range(1, 9):
                calls.offer(random_record(chance, calls.rows, year, chance.of(days), kind))
            try_month(calls, chance, month)
            calls.event(HOLD, month)
            try_month(calls, chance, month)
            calls.event(RELEASE, month)
            try_month(calls, chance, month)
            if turn % 2:
                calls.event(HOLD, month)
                calls.event(RELEASE, month)
            calls.event(HOLD, month)
            calls.close(month)
            try_month(calls, chance, month)
            before = [each.number for each in calls.book.standing() if each.month in order[:turn]]
            if before:
                calls.withdraw(chance.of(before))
        for month in NO_MONTHS:
            for event in EVENTS:
                calls.event(event, month)
        calls.read_all()


def closed_year(calls: Calls) -> None:
    """All months are closed: nothing is taken any more, and every line stays."""
    chance = Chance(366)
    year = 2096
    open_listed(calls, year, 60)
    for month in MONTHS:
        for _ in range(3):
            day = chance.of(days_of(year, month))
            calls.offer(random_record(chance, calls.rows, year, day, 1 + chance.below(8)))
        calls.event(HOLD, month)
    calls.withdraw(5)
    calls.read_all()
    for month in reversed(MONTHS):
        calls.event(CLOSE, month)
        calls.total()
    for month in MONTHS:
        for day in (days_of(year, month)[0], days_of(year, month)[-1]):
            calls.offer(coal(year, day))
        calls.withdraw(3 * month)
        calls.event(chance.of(EVENTS), month)
    calls.withdraw(5)
    calls.withdraw(37)
    calls.read_all()


# ---- Withdrawals ----


def withdrawals(calls: Calls) -> None:
    """Numbers that were never given, that no longer stand, and in every state of the month."""
    year = 2023
    open_listed(calls, year, 30)
    for number in (*NO_NUMBERS, 1, 2):
        calls.withdraw(number)
    chance = Chance(17)
    days = (5, 40, 70, 100, 5, 40, 70, 100, 5, 40)
    for day, kind in zip(days, (1, 2, 3, 4, 5, 6, 7, 8, 1, 6)):
        calls.offer(random_record(chance, calls.rows, year, day, kind))
    for number in (*NO_NUMBERS, 11, 12, 30, 31, 256, 257):
        calls.withdraw(number)
    # The last and the first; the next number is new each time.
    for number in (10, 10, 1):
        calls.withdraw(number)
        calls.total()
        calls.offer(coal(year, 5, 10 + number))
        calls.total()
    calls.withdraw(1)
    calls.withdraw(11)
    calls.withdraw(14)
    # February is held and March closed; number 3 was withdrawn before.
    calls.event(HOLD, 2)
    calls.event(HOLD, 3)
    calls.withdraw(3)
    calls.withdraw(2)
    calls.withdraw(2)
    calls.close(3)
    calls.withdraw(3)
    calls.withdraw(7)
    calls.withdraw(7)
    calls.withdraw(6)
    calls.event(CLOSE, 2)
    calls.withdraw(6)
    calls.withdraw(2)
    calls.event(HOLD, 4)
    calls.withdraw(4)
    calls.event(RELEASE, 4)
    calls.withdraw(8)
    calls.offer(coal(year, 91))
    calls.withdraw(14)
    calls.total()
    # All that can be withdrawn is: only closed months have entries.
    for number in range(0, 16):
        calls.withdraw(number)
    calls.read_all()


# ---- Full journals ----


def small_journals(calls: Calls) -> None:
    """Few entries of memory. A withdrawal gives none back, and its number is not given again."""
    for year, entries in ((2004, 0), (2005, 1), (2006, 2), (2007, 5)):
        calls.open(year, entries)
        calls.total()
        for turn in range(entries + 2):
            calls.offer(coal(year, 30 + 40 * turn, 500 + turn), PRINTED)
            calls.total()
        for number in range(1, entries + 2):
            calls.withdraw(number)
            calls.offer(coal(year, 300), PRINTED)
            calls.total()
        calls.event(HOLD, 10)
        calls.offer(coal(year, 300), PRINTED)
        calls.event(RELEASE, 10)
        calls.offer(coal(year, 300), PRINTED)
        calls.read_all()
    # More offers at once than there is memory.
    calls.open(2008, 7)
    calls.offer(coal(2008, 366, 3), PRINTED, times=3)
    calls.offer(coal(2009, 365), PRINTED, times=5)
    calls.offer(coal(2008, 1, 5), PRINTED, times=9)
    calls.total()
    calls.offer(coal(2008, 1), PRINTED, times=2)
    for number in (7, 8, 3, 1):
        calls.withdraw(number)
    calls.read_all()


# The records with the most grams of all that are added, and of all that are deducted.
LARGEST_ADDED = replace(figures.record_of(4, 0, 80_000, 100_000, 0, 0, 0), tier="M")
LARGEST_DEDUCTED = power_sold(2024, 366, 800_000)


def large_journals(calls: Calls) -> None:
    """Journals of 60,000 entries, with the most grams on either side."""
    largest = [Factor(emissions.LARGEST_RATE[class_number], 1000) for class_number, _ in LISTED]
    open_listed(calls, 2024, 60_000, largest)
    calls.offer(LARGEST_DEDUCTED, times=59_990)
    calls.total()
    chance = Chance(60_000)
    for kind in (8, 7, 6, 5, 4, 3, 2, 1, 6, 8):
        calls.offer(random_record(chance, calls.rows, 2024, 1 + chance.below(366), kind))
    calls.offer(LARGEST_DEDUCTED)
    calls.offer(coal(2024, 1))
    calls.offer(coal(2023, 1))
    for number in (1, 59_990, 59_991, 60_000, 60_000, 60_001, 0):
        calls.withdraw(number)
    calls.offer(coal(2024, 1), times=1000)
    calls.event(HOLD, 12)
    calls.withdraw(30_000)
    calls.close(12)
    calls.withdraw(30_001)
    calls.offer(LARGEST_DEDUCTED)
    calls.read_all()
    open_listed(calls, 2024, 60_010, largest)
    calls.offer(LARGEST_ADDED, LIST, times=60_000)
    month = expected.month_of_day(2024, LARGEST_ADDED.day)
    calls.read_month(month)
    calls.offer(LARGEST_ADDED, LIST)
    calls.offer(LARGEST_ADDED, LIST, times=12)
    for number in (60_001, 60_010, 60_000, 32_768, 2, 60_000):
        calls.withdraw(number)
    calls.offer(LARGEST_ADDED, LIST)
    calls.event(HOLD, month)
    calls.close(month)
    calls.withdraw(1)
    calls.read_all()


# ---- The net total ----


def negative_totals(calls: Calls) -> None:
    """Only what is sold, then bought as much, a gram more and a gram less."""
    year = 2077
    open_listed(calls, year, 20)
    calls.row(row_of(emissions.POWER, 0, Factor(10, 1000)))
    steam = usual_record(8, 2, year=year, day=365)
    energy = usual_record(8, 0, year=year, day=181, tier="M")
    for sold in (power_sold(year, 1, 10_000), steam, energy, power_sold(year, 59, 0)):
        calls.offer(sold)
        calls.total()
    calls.offer(replace(steam, kind=7, day=364))
    calls.total()
    calls.offer(replace(energy, kind=7, day=182))
    calls.total()
    calls.offer(replace(power_sold(year, 2, 10_000), kind=5))
    calls.total()
    # 1 g: a kilogram of bought carbon dioxide with a loss of one thousandth.
    calls.offer(usual_record(3, 0, year=year, day=90, share=1, readings=(bits(1.0),)))
    calls.total()
    calls.withdraw(8)
    calls.withdraw(5)
    calls.total()
    calls.withdraw(2)
    calls.total()
    for line in NO_LINES:
        calls.year_line(line)
        calls.line(1, line)
    for month, line in zip(NO_MONTHS, NO_LINES):
        calls.line(month, 1)
        calls.line(month, line)
    calls.read_all()


# ---- Random books ----

RANDOM_YEARS = (2000, 2024, 2025, 2096, 2100, 2199)


def random_offer(calls: Calls, chance: Chance, busy: list[int]) -> None:
    year = calls.book.year
    month = chance.of(busy) if chance.below(4) else chance.of(MONTHS)
    record = random_record(chance, calls.rows, year, chance.of(days_of(year, month)), 1 + chance.below(8))
    mode = PAIR
    change = chance.below(16)
    if change == 0:
        record = replace(record, year=chance.of((year - 1, year + 1, 2000 + chance.below(200))))
    elif change == 1:
        record = replace(record, day=chance.of((0, 365, 366, 367)))
    elif change == 2:
        mode = chance.below(4)
    elif change == 3:
        record = replace(record, readings=record.readings[:-1] + (chance.below(2**32),))
    elif change == 4:
        record = replace(record, tier=chance.of("MDX"), share=chance.of((None, 1000, 1001)))
    frame = bytearray(frame_of(record, chance.of(NAMES) if chance.below(6) == 0 else b""))
    if change == 5:
        frame[chance.below(len(frame))] ^= 1 << chance.below(8)
    calls.frame(bytes(frame), mode, 2 + chance.below(3) if chance.below(12) == 0 else 1)


def random_withdrawal(calls: Calls, chance: Chance) -> None:
    last = len(calls.book.offerings)
    if chance.below(6) == 0:
        calls.withdraw(chance.of((*NO_NUMBERS, last + 1)))
    else:
        calls.withdraw(1 + chance.below(1 + last))


def random_event(calls: Calls, chance: Chance, busy: list[int]) -> None:
    if chance.below(12) == 0:
        calls.event(chance.of(EVENTS), chance.of(NO_MONTHS))
        return
    month = chance.of(busy)
    event = chance.of((HOLD, HOLD, RELEASE, RELEASE, RELEASE, CLOSE))
    if event == CLOSE and calls.book.state(month) == HELD:
        calls.close(month)
    else:
        calls.event(event, month)


def random_reading(calls: Calls, chance: Chance) -> None:
    sort = chance.below(4)
    if sort < 2:
        calls.line(chance.of((*MONTHS, 0, 13)), chance.of((*LINES, 8)))
    elif sort == 2:
        calls.year_line(chance.of((*LINES, 0, 8)))
    else:
        calls.total()


def random_books(calls: Calls) -> None:
    """Offers, withdrawals, events and readings in any order; the plant list grows in between."""
    for turn, year in enumerate(RANDOM_YEARS):
        chance = Chance(1000 * year + turn)
        waiting = [row_of(*question, figures.random_factor(chance, question[0])) for question in LISTED]
        waiting += waiting[:1]
        calls.open(year, 30 + chance.below(50))
        for _ in range(6):
            calls.row(waiting.pop(chance.below(len(waiting))))
        busy = [chance.of(MONTHS) for _ in range(5)]
        for _ in range(140):
            sort = chance.below(40)
            if sort < 26:
                random_offer(calls, chance, busy)
            elif sort < 31:
                random_withdrawal(calls, chance)
            elif sort < 36:
                random_event(calls, chance, busy)
            elif sort < 39:
                random_reading(calls, chance)
            elif waiting:
                calls.row(waiting.pop())
        calls.read_all()


# ---- The whole ----


def check_rules() -> None:
    """Facts that were settled by hand."""
    year = Book(2024, 60_010)
    assert year.room == 60_000 and Book(2024, 59_999).room == 59_999
    coal_grams = 1_741_750
    printed = emissions.printed_table
    assert year.offer(frame_of(coal(2024, 366)), printed) == (1, coal_grams)
    assert year.offer(frame_of(coal(2024, 60)), printed) == (2, coal_grams)
    sold = usual_record(8, 2, day=60, readings=(bits(1000.0), bits(1000.0)))
    assert year.offer(frame_of(sold), printed) == (3, 296_259)
    assert year.line(12, 1) == year.line(2, 1) == (1, coal_grams) and year.line(3, 1) == (0, 0)
    assert year.year_line(1) == (2, 2 * coal_grams) and year.year_line(7) == (1, 296_259)
    assert year.total() == (3, 2 * coal_grams - 296_259)
    assert year.turn(HOLD, 2) == 2 and year.withdraw(2) == (2, coal_grams)
    assert year.turn(CLOSE, 2) == 2 and year.total() == (2, coal_grams - 296_259)
    year.check()
    refused = [
        (lambda: year.withdraw(2), 17),
        (lambda: year.withdraw(3), 18),
        (lambda: year.turn(RELEASE, 2), 18),
        (lambda: year.offer(frame_of(coal(2024, 60)), printed), 15),
        (lambda: year.offer(frame_of(coal(2025, 60)), printed), 14),
        (lambda: Book(2024, 0).offer(frame_of(coal(2024, 60)), printed), 16),
        (lambda: year.turn(HOLD, 0), 19),
        (lambda: year.line(12, 8), 19),
    ]
    for ask, number in refused:
        try:
            ask()
        except Refused as refusal:
            assert (refusal.layer, refusal.number, refusal.place) == (expected.BOOK, number, 0)
        else:
            raise AssertionError(f"not refused by {number}")
    assert sorted(book.LINE_OF_KIND.items()) == list(zip(range(1, 9), (1, 2, 2, 3, 4, 6, 5, 7)))
    assert book.tonnes(-1) == "-0.000001" and book.tonnes(1_741_750) == "1.741750"


def generate() -> Calls:
    calls = Calls()
    for part in (
        openings,
        calendar,
        every_kind,
        plant_lists,
        refusals,
        states,
        closed_year,
        withdrawals,
        small_journals,
        large_journals,
        negative_totals,
        random_books,
    ):
        part(calls)
    calls.end()
    return calls


# What each call can refuse; only the total refuses nothing.
REFUSALS = {
    OPENING: {(expected.RECORD, 6)},
    ROW: {(FACTOR, 16)},
    OFFER: {
        *((expected.FRAME, number) for number in range(1, 6)),
        *((expected.RECORD, number) for number in range(6, 12)),
        *((FACTOR, number) for number in (12, 13)),
        *((expected.BOOK, number) for number in (14, 15, 16)),
    },
    WITHDRAW: {(expected.BOOK, 17), (expected.BOOK, 18)},
    EVENT: {(expected.BOOK, 18), (expected.BOOK, 19)},
    LINE: {(expected.BOOK, 19)},
    YEAR_LINE: {(expected.BOOK, 19)},
    TOTAL: set(),
}

# Places that some offering must be refused at.
PLACES = {(5, tag) for tag in range(1, 6)} | {(9, index) for index in range(6)} | {(11, 1), (11, 2)}


def check_reach(calls: Calls) -> None:
    """Every call is taken and refused in every way that there is, in every state; sums reach both ends."""
    refused = {number: set() for number in REFUSALS}
    places = set()
    taken = set()
    totals = []
    for sent, answer in zip(calls.sent, calls.answers):
        words = answer.split()
        if words[0] == "refused":
            refused[sent[0]].add((words[1], int(words[2])))
            if sent[0] == OFFER:
                places.add((int(words[2]), int(words[3])))
        else:
            taken.add(sent[0])
        if words[0] == "total":
            totals.append(int(words[2]))
    assert refused == REFUSALS and taken == set(REFUSALS)
    assert {number for answers in refused.values() for _, number in answers} == set(range(1, 20))
    assert PLACES <= places
    assert calls.met == {
        *((event, state, PAST[event]) for event, state in book.NEEDED_STATE.items()),
        *(
            (event, state, "refused")
            for event in EVENTS
            for state in (OPEN, HELD, CLOSED)
            if book.NEEDED_STATE[event] != state
        ),
        ("withdraw", OPEN, "withdrawn"),
        ("withdraw", HELD, "withdrawn"),
        ("withdraw", CLOSED, "refused"),
    }
    assert {(each.month, each.line) for each in calls.entered} == {(m, line) for m in MONTHS for line in LINES}
    records = [each.entry.record for each in calls.entered]
    assert {(record.kind, record.item) for record in records} == set(PAIRS)
    both_tiers = {(kind, tier) for kind in expected.ITEMS for tier in expected.TIERS}
    assert {(record.kind, record.tier) for record in records} == both_tiers
    assert {expected.days_in_year(record.year) for record in records if record.day == 366} == {366}
    assert max(totals) == 60_000 * 240_000_000_000 and min(totals) == -59_990 * 8_000_000_000
    assert {1, 0, -1} <= {(total > 0) - (total < 0) for total in totals}


def main(arguments: list[str]) -> int:
    check_rules()
    calls = generate()
    check_reach(calls)
    sent = b"".join(calls.sent)
    answers = "".join(answer + "\n" for answer in calls.answers)
    assert len(sent) < LARGEST_INPUT
    status = files.settle(
        {"crates/book_cases/stdin": sent, "crates/book_cases/stdout": answers.encode("ascii")}, arguments
    )
    sorts = Counter(call[0] for call in calls.sent)
    counted = ", ".join(f"{sorts[number]} {name}" for number, name in enumerate(NAMES_OF_CALLS))
    print(f"{len(calls.sent)} calls ({counted}), {len(sent)} bytes")
    return status


if __name__ == "__main__":
    sys.exit(main(sys.argv[1:]))
