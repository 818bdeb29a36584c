"""A year's book, calculated a second time: its entries, months, lines and net total.

The calculation is written from the rules and shares nothing with the program. A book keeps the offerings,
withdrawals and events that were taken, each in their order, and nothing else counts: the state of a month and
every figure are worked out from these lists when they are asked for. Frames and records come from expected.py,
emissions from emissions.py.

Opening takes a year and memory for some entries, of which the first 60,000 may be used. A month is open at
first; hold makes it held, release open again, and close ends a held month. A frame that is offered needs an open
month, a withdrawal an open or a held one. An entry that was withdrawn stays in the journal, but no longer
stands. A line of a month has the count and the grams of its standing entries. The net total takes lines 6 and 7
off lines 1 to 5.

The book refuses, besides what the layers below refuse, all with place 0 and the smallest number first:

    14  the record is of another year
    15  the month of an offering is not open
    16  the journal is full
    17  the number names no standing entry
    18  the state of the month forbids the withdrawal or the event
    19  a month is outside 1 to 12, or a line outside 1 to 7

    python3 tools/book.py LOGFILE

prints what the program `carbon_year` prints for a log.
"""

import sys

sys.dont_write_bytecode = True

from dataclasses import dataclass
from fractions import Fraction

import emissions
import expected
import files
from emissions import Entry, Source
from expected import BOOK, Refused

MOST_ENTRIES = 60_000

MONTHS = range(1, 13)
LINES = range(1, 8)
DEDUCTED_LINES = (6, 7)

LINE_OF_KIND = {
    expected.FUEL: 1,
    expected.CARBONATE: 2,
    expected.BOUGHT_CO2: 2,
    expected.WASTEWATER: 3,
    expected.POWER_BOUGHT: 4,
    expected.HEAT_BOUGHT: 5,
    expected.POWER_SOLD: 6,
    expected.HEAT_SOLD: 7,
}

OPEN, HELD, CLOSED = "open", "held", "closed"
HOLD, RELEASE, CLOSE = "hold", "release", "close"

# The state in which a month can have each event, and the state that follows.
NEEDED_STATE = {HOLD: OPEN, RELEASE: HELD, CLOSE: HELD}
NEXT_STATE = {HOLD: HELD, RELEASE: OPEN, CLOSE: CLOSED}


@dataclass(frozen=True)
class Offering:
    """An offering that was taken."""

    number: int
    month: int
    line: int
    entry: Entry


# ---- Figures ----

# A count of entries and grams.
Figure = tuple[int, int]


def sign(offering: Offering) -> int:
    return -1 if offering.line in DEDUCTED_LINES else 1


def added(offerings: list[Offering]) -> Figure:
    return len(offerings), sum(offering.entry.grams for offering in offerings)


def net(offerings: list[Offering]) -> Figure:
    return len(offerings), sum(sign(offering) * offering.entry.grams for offering in offerings)


def check_near(figure: Figure, exact: Fraction) -> None:
    """The grams of a figure are at most half a gram for each entry away from the exact emissions."""
    count, grams = figure
    assert abs(grams - exact) <= Fraction(count, 2)


# ---- The book ----


class Book:
    """The book of a year, with memory for a number of entries."""

    def __init__(self, year: int, entries: int):
        self.year = expected.check_year(year)
        self.room = min(entries, MOST_ENTRIES)
        self.offerings: list[Offering] = []
        self.withdrawals: list[int] = []
        self.events: list[tuple[str, int]] = []
        # The lines of each closed month as they were at its closing, for check() alone.
        self.when_closed: dict[int, list[Figure]] = {}

    # What the taken calls come to.

    def state(self, month: int) -> str:
        """What the last event of the month made it."""
        for event, of_month in reversed(self.events):
            if of_month == month:
                return NEXT_STATE[event]
        return OPEN

    def standing(self, months=MONTHS, lines=LINES) -> list[Offering]:
        withdrawn = set(self.withdrawals)
        return [
            offering
            for offering in self.offerings
            if offering.number not in withdrawn and offering.month in months and offering.line in lines
        ]

    # Calls that change the book.

    def offer(self, frame: bytes, source: Source) -> tuple[int, int]:
        """The number and the grams of the new entry."""
        return self.enter(emissions.entry_of(frame, source))

    def enter(self, entry: Entry) -> tuple[int, int]:
        """The end of an offering, behind what a frame comes to with a source."""
        record = entry.record
        month = expected.month_of_day(record.year, record.day)
        if record.year != self.year:
            raise Refused(BOOK, 14, 0)
        if self.state(month) != OPEN:
            raise Refused(BOOK, 15, 0)
        if len(self.offerings) >= self.room:
            raise Refused(BOOK, 16, 0)
        number = len(self.offerings) + 1
        self.offerings.append(Offering(number, month, LINE_OF_KIND[record.kind], entry))
        return number, entry.grams

    def withdraw(self, number: int) -> tuple[int, int]:
        """The number and the grams of the entry that no longer stands."""
        if not 1 <= number <= len(self.offerings) or number in self.withdrawals:
            raise Refused(BOOK, 17, 0)
        offering = self.offerings[number - 1]
        if self.state(offering.month) == CLOSED:
            raise Refused(BOOK, 18, 0)
        self.withdrawals.append(number)
        return number, offering.entry.grams

    def turn(self, event: str, month: int) -> int:
        """The month that has had the event."""
        if month not in MONTHS:
            raise Refused(BOOK, 19, 0)
        if self.state(month) != NEEDED_STATE[event]:
            raise Refused(BOOK, 18, 0)
        if event == CLOSE:
            self.when_closed[month] = [self.line(month, line) for line in LINES]
        self.events.append((event, month))
        return month

    # Calls that read it.

    def line(self, month: int, line: int) -> Figure:
        if month not in MONTHS or line not in LINES:
            raise Refused(BOOK, 19, 0)
        return added(self.standing(months=[month], lines=[line]))

    def year_line(self, line: int) -> Figure:
        if line not in LINES:
            raise Refused(BOOK, 19, 0)
        return added(self.standing(lines=[line]))

    def total(self) -> Figure:
        return net(self.standing())

    # What must hold of every book.

    def check(self) -> None:
        """Sums are near the exact emissions, years are their months, and closed months stay as they were."""
        for line in LINES:
            for month in MONTHS:
                offerings = self.standing(months=[month], lines=[line])
                check_near(self.line(month, line), sum(offering.entry.exact for offering in offerings))
            months = [self.line(month, line) for month in MONTHS]
            assert self.year_line(line) == tuple(map(sum, zip(*months)))
        exact_net = sum(sign(offering) * offering.entry.exact for offering in self.standing())
        check_near(self.total(), exact_net)
        counts, grams = zip(*map(self.year_line, LINES))
        assert self.total() == (sum(counts), sum(grams[:5]) - grams[5] - grams[6])
        assert sum(counts) == len(self.offerings) - len(self.withdrawals)
        assert set(self.when_closed) == {month for month in MONTHS if self.state(month) == CLOSED}
        for month, lines in self.when_closed.items():
            assert [self.line(month, line) for line in LINES] == lines


# ---- The printed year of a log ----

LOG_ENTRIES = 1000

# An empty plant list for measured factors, the printed table for default ones.
LOG_SOURCE = emissions.pair(emissions.plant_list([]), emissions.printed_table)

NO_YEAR = "0 0 0\n"


def frames_of(log: bytes) -> tuple[list[bytes], bool]:
    """The frames behind the year of a log, and whether the end cuts one, or its length, off."""
    frames = []
    left = log[2:]
    while left:
        length = expected.number_of(left[:2])
        if len(left) < 2 + length:
            return frames, True
        frames.append(left[2 : 2 + length])
        left = left[2 + length :]
    return frames, False


def book_of(log: bytes) -> tuple[Book, list[Refused], bool]:
    """The book of a log with a lawful year, what it refused, and whether the end is cut off."""
    book = Book(expected.number_of(log[:2]), LOG_ENTRIES)
    refusals = []
    frames, cut = frames_of(log)
    for frame in frames:
        try:
            book.offer(frame, LOG_SOURCE)
        except Refused as refusal:
            refusals.append(refusal)
    return book, refusals, cut


def tonnes(grams: int) -> str:
    """Tonnes with six decimals, which is exact."""
    whole, rest = divmod(abs(grams), 10**6)
    return f"{'-' if grams < 0 else ''}{whole}.{rest:06d}"


def printed_rows(book: Book, refused: int) -> list[str]:
    """The nine lines of a book's year, with the number of frames that were refused."""
    figures = [(line, *book.year_line(line)) for line in LINES] + [("T", *book.total())]
    first = f"{book.year} {len(book.offerings)} {refused}"
    return [first] + [f"{name} {count} {tonnes(grams)}" for name, count, grams in figures]


def printed_year(log: bytes) -> str:
    """What the program prints for a log."""
    if len(log) < 2:
        return NO_YEAR
    try:
        book, refusals, cut = book_of(log)
    except Refused:
        return NO_YEAR
    return "".join(row + "\n" for row in printed_rows(book, len(refusals) + cut))


if __name__ == "__main__":
    sys.exit(files.print_of_log("book.py", printed_year, sys.argv[1:]))
