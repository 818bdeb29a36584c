"""What the program `ledger` answers to its commands, calculated a second time.

    python3 tools/ledger.py SCRIPT

prints what the program prints for a script of commands.

Commands come one to a line, and each is answered with one line, `print` with nine. A line without words, or
with `#` as its first character, is passed over. Words are separated by spaces, tabs and carriage returns. Numbers are decimal digits alone. HEX is bytes in hexadecimal, either case read
and upper case written, and `-` for no bytes.

    open YEAR ENTRIES       `year YEAR`; a new book in place of the old one
    rows N                  `rows N`; a new, empty plant list with room for N rows
    row CLASS ITEM TIER FIRST LAST RATE SHARE
                            `row K`, the number of rows
    source WORD             `source WORD`; `pair`, `list`, `printed` or `none` for the offers that follow
    offer HEX               `taken NUMBER GRAMS`
    withdraw NUMBER         `withdrawn NUMBER GRAMS`
    hold M, release M, close M
                            `held M`, `released M`, `closed M`
    line M L                `line M L COUNT GRAMS`
    yearline L              `yearline L COUNT GRAMS`
    total                   `total COUNT GRAMS`
    statement BYTES         `statement HEX`, made in a buffer of that many bytes
    print                   the printed year
    month YEAR DAY          `month M`
    record HEX              `record YEAR DAY KIND ITEM TIER SHARE READINGS`, with `-` for a missing share
    quantities HEX          `quantities Q1,Q2,..`
    name HEX                `name HEX`
    frame YEAR DAY KIND ITEM TIER SHARE READINGS NAME
                            `frame HEX`

A refusal is answered with `refused LAYER NUMBER PLACE`. A command that is not understood is answered with
`error` and the first of these reasons: the command is unknown, its words are too few or too many, a word, from
left to right, is none of its kind, or no year is open where a book is needed. Last comes memory that is asked
for beyond the limit. Such a command changes nothing.
"""

import sys

sys.dont_write_bytecode = True

from collections.abc import Callable
from dataclasses import dataclass

import book
import expected
import figures
import files
from book import CLOSE, HOLD, LINES, RELEASE, Book
from book_calls import PAST
from cases import hexadecimal, joined, word
from emissions import FACTOR, Row
from expected import BOOK, Record, Refused

# The reasons, in the order of the checks.
UNKNOWN_COMMAND = "unknown command"
WRONG_COUNT = "wrong number of words"
NOT_A_NUMBER = "not a number"
TOO_LARGE = "number too large"
NOT_HEXADECIMAL = "not hexadecimal"
NOT_A_LETTER = "not a letter"
UNKNOWN_SOURCE = "unknown source"
NOT_READINGS = "not readings"
NO_YEAR = "no year is open"
TOO_MANY_ENTRIES = "too many entries"
TOO_MANY_ROWS = "too many rows"
TOO_MANY_BYTES = "too many bytes"

# The most entries, rows or bytes that a command may ask memory for.
MOST_MEMORY = 1_000_000

FIRST_ROOM = 64
STATEMENT_BYTES = 116
# No frame is longer than this buffer.
FRAME_BUFFER = 100


class NotUnderstood(Exception):
    """A command that is not understood, with the reason as its text."""


# ---- Words ----

DIGITS = frozenset("0123456789")
HEXADECIMAL_DIGITS = frozenset("0123456789abcdefABCDEF")


def words_of(line: str) -> list[str]:
    """The words of a line; none of a comment."""
    if line.startswith("#"):
        return []
    spaced = line.replace("\t", " ").replace("\r", " ")
    return [each for each in spaced.split(" ") if each]


def number_up_to(largest: int) -> Callable[[str], int]:
    def read(digits: str) -> int:
        if not digits or not set(digits) <= DIGITS:
            raise NotUnderstood(NOT_A_NUMBER)
        # Python itself refuses to read very many digits.
        digits = digits.lstrip("0") or "0"
        if len(digits) > len(str(largest)) or int(digits) > largest:
            raise NotUnderstood(TOO_LARGE)
        return int(digits)

    return read


a_number = number_up_to(2**32 - 1)
a_byte = number_up_to(2**8 - 1)
two_bytes = number_up_to(2**16 - 1)


def some_bytes(digits: str) -> bytes:
    if digits == "-":
        return b""
    if len(digits) % 2 or not set(digits) <= HEXADECIMAL_DIGITS:
        raise NotUnderstood(NOT_HEXADECIMAL)
    return bytes.fromhex(digits)


def a_letter(letter: str) -> str:
    if len(letter) != 1:
        raise NotUnderstood(NOT_A_LETTER)
    return letter


SOURCES = {"pair": figures.PAIR, "list": figures.LIST, "printed": figures.PRINTED, "none": figures.NOTHING}


def a_source(name: str) -> str:
    if name not in SOURCES:
        raise NotUnderstood(UNKNOWN_SOURCE)
    return name


def a_share(digits: str) -> int | None:
    return None if digits == "-" else a_number(digits)


def some_readings(listed: str) -> tuple[int, ...]:
    """One, two or five readings, each of eight hexadecimal digits."""
    patterns = listed.split(",")
    for digits in patterns:
        if len(digits) != 8 or not set(digits) <= HEXADECIMAL_DIGITS:
            raise NotUnderstood(NOT_READINGS)
    if len(patterns) not in (1, 2, 5):
        raise NotUnderstood(NOT_READINGS)
    return tuple(int(digits, 16) for digits in patterns)


def set_of(item: int, readings: tuple[int, ...]) -> str:
    """The reading set that the number of readings picks."""
    if len(readings) == 2:
        return "water" if item == 1 else "steam"
    return {1: "amount", 5: "wastewater"}[len(readings)]


def listed_readings(readings: tuple[int, ...]) -> str:
    return ",".join(f"{reading:08X}" for reading in readings)


# ---- The statement ----


def statement_of(year: Book) -> bytes:
    """The statement of a book; the net grams are in two's complement."""
    lines = [(line, *year.year_line(line)) for line in LINES]
    count, grams = year.total()
    parts = [(0x11, word(year.year))]
    parts += [(0x12, bytes([line]) + word(of_line) + mass.to_bytes(8, "big")) for line, of_line, mass in lines]
    parts.append((0x13, word(count) + grams.to_bytes(8, "big", signed=True)))
    statement = joined(parts)
    assert len(statement) == STATEMENT_BYTES
    return statement


# ---- The ledger ----


class Ledger:
    """A run of the program: the book, the plant list and the source as the commands so far left them."""

    def __init__(self):
        self.book: Book | None = None
        # The frames that were refused since the opening.
        self.refused = 0
        self.rows: list[Row] = []
        self.room = FIRST_ROOM
        self.source_name = "pair"

    def answer(self, line: str) -> list[str]:
        """The lines that answer one line, given without its newline."""
        words = words_of(line)
        if not words:
            return []
        try:
            return self.obey(words[0], words[1:]).split("\n")
        except NotUnderstood as reason:
            return [f"error {reason}"]
        except Refused as refusal:
            return [str(refusal)]

    def obey(self, name: str, words: list[str]) -> str:
        if name not in COMMANDS:
            raise NotUnderstood(UNKNOWN_COMMAND)
        command = COMMANDS[name]
        if len(words) != len(command.kinds):
            raise NotUnderstood(WRONG_COUNT)
        meant = [read(each) for read, each in zip(command.kinds, words)]
        if command.needs_book and self.book is None:
            raise NotUnderstood(NO_YEAR)
        return command.obey(self, *meant)

    # Commands that need no book.

    def open(self, year: int, entries: int) -> str:
        if entries > MOST_MEMORY:
            raise NotUnderstood(TOO_MANY_ENTRIES)
        # Refused before the old book is given up.
        self.book = Book(year, entries)
        self.refused = 0
        return f"year {year}"

    def new_rows(self, room: int) -> str:
        if room > MOST_MEMORY:
            raise NotUnderstood(TOO_MANY_ROWS)
        self.rows = []
        self.room = room
        return f"rows {room}"

    def row(self, class_number: int, item: int, tier: str, first: int, last: int, rate: int, share: int) -> str:
        if len(self.rows) == self.room:
            raise Refused(FACTOR, 16, 0)
        self.rows.append(Row(class_number, item, tier, first, last, rate, share))
        return f"row {len(self.rows)}"

    def choose(self, source_name: str) -> str:
        self.source_name = source_name
        return f"source {source_name}"

    def month(self, year: int, day: int) -> str:
        return f"month {expected.month_of_day(year, day)}"

    def record(self, frame: bytes) -> str:
        read = expected.record_of(frame)
        share = "-" if read.share is None else read.share
        return (
            f"record {read.year} {read.day} {read.kind} {read.item} {read.tier} {share} "
            f"{listed_readings(read.readings)}"
        )

    def quantities(self, frame: bytes) -> str:
        return "quantities " + ",".join(map(str, expected.quantities(expected.record_of(frame))))

    def name(self, frame: bytes) -> str:
        return "name " + hexadecimal(expected.name_of(frame))

    def frame(
        self,
        year: int,
        day: int,
        kind: int,
        item: int,
        tier: str,
        share: int | None,
        readings: tuple[int, ...],
        name: bytes,
    ) -> str:
        record = Record(year, day, kind, item, tier, share, set_of(item, readings), readings)
        return "frame " + hexadecimal(expected.write(record, name, FRAME_BUFFER))

    # Commands that change the book.

    def offer(self, frame: bytes) -> str:
        source = figures.source_of(self.rows, SOURCES[self.source_name])
        try:
            return "taken %d %d" % self.book.offer(frame, source)
        except Refused:
            self.refused += 1
            raise

    def withdraw(self, number: int) -> str:
        return "withdrawn %d %d" % self.book.withdraw(number)

    def hold(self, month: int) -> str:
        return f"{PAST[HOLD]} {self.book.turn(HOLD, month)}"

    def release(self, month: int) -> str:
        return f"{PAST[RELEASE]} {self.book.turn(RELEASE, month)}"

    def close(self, month: int) -> str:
        return f"{PAST[CLOSE]} {self.book.turn(CLOSE, month)}"

    # Commands that read it.

    def line(self, month: int, line: int) -> str:
        return "line %d %d %d %d" % (month, line, *self.book.line(month, line))

    def year_line(self, line: int) -> str:
        return "yearline %d %d %d" % (line, *self.book.year_line(line))

    def total(self) -> str:
        return "total %d %d" % self.book.total()

    def statement(self, room: int) -> str:
        if room > MOST_MEMORY:
            raise NotUnderstood(TOO_MANY_BYTES)
        if room < STATEMENT_BYTES:
            raise Refused(BOOK, 20, STATEMENT_BYTES)
        return "statement " + hexadecimal(statement_of(self.book))

    def print(self) -> str:
        return "\n".join(book.printed_rows(self.book, self.refused))


@dataclass(frozen=True)
class Command:
    """What obeys a command, how each of its words is read, and whether it needs a book."""

    obey: Callable[..., str]
    kinds: tuple[Callable[[str], object], ...] = ()
    needs_book: bool = False


COMMANDS = {
    "open": Command(Ledger.open, (a_number, a_number)),
    "rows": Command(Ledger.new_rows, (a_number,)),
    "row": Command(Ledger.row, (a_byte, a_byte, a_letter, two_bytes, two_bytes, a_number, two_bytes)),
    "source": Command(Ledger.choose, (a_source,)),
    "offer": Command(Ledger.offer, (some_bytes,), needs_book=True),
    "withdraw": Command(Ledger.withdraw, (a_number,), needs_book=True),
    "hold": Command(Ledger.hold, (a_number,), needs_book=True),
    "release": Command(Ledger.release, (a_number,), needs_book=True),
    "close": Command(Ledger.close, (a_number,), needs_book=True),
    "line": Command(Ledger.line, (a_number, a_number), needs_book=True),
    "yearline": Command(Ledger.year_line, (a_number,), needs_book=True),
    "total": Command(Ledger.total, needs_book=True),
    "statement": Command(Ledger.statement, (a_number,), needs_book=True),
    "print": Command(Ledger.print, needs_book=True),
    "month": Command(Ledger.month, (a_number, a_number)),
    "record": Command(Ledger.record, (some_bytes,)),
    "quantities": Command(Ledger.quantities, (some_bytes,)),
    "name": Command(Ledger.name, (some_bytes,)),
    "frame": Command(
        Ledger.frame,
        (a_number, a_number, a_number, a_number, a_letter, a_share, some_readings, some_bytes),
    ),
}


def printed(script: bytes) -> str:
    """What the program prints for a script; each of its bytes is a character."""
    ledger = Ledger()
    lines = script.decode("latin-1").split("\n")
    return "".join(answer + "\n" for line in lines for answer in ledger.answer(line))


if __name__ == "__main__":
    sys.exit(files.print_of_log("ledger.py", printed, sys.argv[1:]))
