"""Writes scripts for the program `ledger`, and what it must print for them.

    python3 tools/ledger_script.py            writes crates/ledger/stdin and crates/ledger/stdout, a script that
                                              gives every command in every way, and examples/year.ledger and
                                              examples/year.ledger.out, a brewery's leap year
    python3 tools/ledger_script.py --check    compares these files with what it would write

The answers come from ledger.py alone; those that were settled by hand stand here beside their commands.
"""

import sys

sys.dont_write_bytecode = True

from collections import Counter
from dataclasses import replace

import book
import book_calls
import emissions
import expected
import figures
import files
import ledger
import year_log
from book import CLOSE, CLOSED, HELD, HOLD, LINES, MONTHS, OPEN, RELEASE
from book_calls import LISTED, USUAL_FACTORS, coal, days_of, power_sold, row_of
from cases import NAMES, PAIRS, Chance, bits, frame_of, hexadecimal, usual_record
from emissions import FACTOR, Factor, Row
from expected import BOOK, FRAME, RECORD, Record
from figures import record_of
from ledger import Ledger, listed_readings

LARGEST_INPUT = 80_000


# ---- Lines with their answers ----


def row_line(row: Row) -> str:
    return (
        f"row {row.class_number} {row.item} {row.tier} {row.first_year} {row.last_year} {row.rate} {row.share}"
    )


def offer_line(record: Record, name: bytes = b"") -> str:
    return "offer " + hexadecimal(frame_of(record, name))


def frame_line(record: Record, name: bytes = b"") -> str:
    share = "-" if record.share is None else record.share
    return (
        f"frame {record.year} {record.day} {record.kind} {record.item} {record.tier} {share} "
        f"{listed_readings(record.readings)} {hexadecimal(name)}"
    )


class Script:
    """A script as it is written, with the answers of a ledger that obeys it."""

    def __init__(self):
        self.ledger = Ledger()
        self.lines: list[str] = []
        self.answers: list[str] = []
        # Each command with its answer's first line, and each event and withdrawal with the state that it met.
        self.answered: list[tuple[str, str]] = []
        self.met: set[tuple[str, str, str]] = set()
        self.entered: list[book.Offering] = []

    def say(self, line: str, *settled: str) -> str:
        """Adds a line and answers its first answer; the answers that were settled by hand must be given."""
        words = ledger.words_of(line)
        before = self.ledger.book
        state = self.state_met(words)
        answers = self.ledger.answer(line)
        if settled:
            assert answers == list(settled), (line, answers)
        self.lines.append(line)
        self.answers += answers
        if self.ledger.book is not before:
            self.end(before)
        if not words:
            assert not answers
            return ""
        if state is not None:
            self.met.add((words[0], state, answers[0].split()[0]))
        self.answered.append((words[0], answers[0]))
        return answers[0]

    def state_met(self, words: list[str]) -> str | None:
        """The state of the month that a lawful event, or the withdrawal of a standing entry, meets."""
        year = self.ledger.book
        if year is None or len(words) != 2 or not set(words[1]) <= ledger.DIGITS:
            return None
        number = int(words[1])
        if words[0] in book_calls.PAST and number in MONTHS:
            return year.state(number)
        if words[0] == "withdraw" and any(each.number == number for each in year.standing()):
            return year.state(year.offerings[number - 1].month)
        return None

    def end(self, year: book.Book | None) -> None:
        """The last word on a book: its laws hold."""
        if year is not None:
            year.check()
            self.entered += year.offerings

    # Several lines.

    def rows(self, rows: list[Row], room: int) -> None:
        self.say(f"rows {room}")
        for row in rows:
            self.say(row_line(row))

    def read_months(self, *months: int) -> None:
        for month in months:
            for line in LINES:
                self.say(f"line {month} {line}")

    def read_year(self) -> None:
        for line in LINES:
            self.say(f"yearline {line}")
        for line in ("total", "statement 116", "print"):
            self.say(line)

    # What is written.

    def written(self) -> bytes:
        return "\n".join(self.lines).encode("ascii")

    def printed(self) -> bytes:
        return "".join(answer + "\n" for answer in self.answers).encode("ascii")


LISTED_ROWS = [row_of(*question, factor) for question, factor in zip(LISTED, USUAL_FACTORS)]


# ---- Commands that are not understood ----

# For each kind of word, words that are none of it, with the reason.
BAD_NUMBERS = [
    ("x", ledger.NOT_A_NUMBER),
    ("-1", ledger.NOT_A_NUMBER),
    ("1.0", ledger.NOT_A_NUMBER),
    ("4294967296", ledger.TOO_LARGE),
    ("18446744073709551617", ledger.TOO_LARGE),
]
BAD_WORDS = {
    ledger.a_number: BAD_NUMBERS,
    ledger.a_byte: BAD_NUMBERS[:1] + [("256", ledger.TOO_LARGE), ("4294967297", ledger.TOO_LARGE)],
    ledger.two_bytes: BAD_NUMBERS[:1] + [("65536", ledger.TOO_LARGE), ("4294967297", ledger.TOO_LARGE)],
    ledger.a_share: BAD_NUMBERS + [("--", ledger.NOT_A_NUMBER)],
    ledger.some_bytes: [(bad, ledger.NOT_HEXADECIMAL) for bad in ("0", "010", "0G", "--", "0x01", "01,02")],
    ledger.a_letter: [(bad, ledger.NOT_A_LETTER) for bad in ("MD", "68")],
    ledger.a_source: [(bad, ledger.UNKNOWN_SOURCE) for bad in ("Pair", "LIST", "nothing", "prin", "-")],
    ledger.some_readings: [
        (bad, ledger.NOT_READINGS)
        for bad in (
            "-",
            "447A000",
            "447A00000",
            "447A000G",
            "447A0000,",
            ",447A0000",
            "447A0000,,447A0000",
            "447A0000,447A0000,447A0000",
            "447A0000" + 3 * ",447A0000",
            "447A0000" + 5 * ",447A0000",
        )
    ],
}

# Good words for each command.
GOOD_WORDS = {
    "open": "2024 5",
    "rows": "3",
    "row": "4 0 M 2024 2024 5703 1000",
    "source": "pair",
    "offer": "-",
    "withdraw": "1",
    "hold": "13",
    "release": "13",
    "close": "13",
    "line": "1 1",
    "yearline": "1",
    "total": "",
    "statement": "116",
    "print": "",
    "month": "2024 60",
    "record": "-",
    "quantities": "-",
    "name": "-",
    "frame": "2024 366 1 2 D - 447A0000 -",
}

NO_COMMANDS = ["Open", "TOTAL", "totals", "tota", "total,", "-", "2024", "print#", "open2024 5", "error", "\\"]


def bad_commands(script: Script) -> None:
    """Every command with too few and too many words, and with each word bad in each way."""
    for line in NO_COMMANDS:
        script.say(line, "error unknown command")
    script.say("Total 1 2 3", "error unknown command")
    for name, words in GOOD_WORDS.items():
        good = words.split()
        if good:
            script.say(" ".join([name, *good[:-1]]), "error wrong number of words")
            script.say(name, "error wrong number of words")
        script.say(" ".join([name, *good, "0"]), "error wrong number of words")
        for at, kind in enumerate(ledger.COMMANDS[name].kinds):
            for bad, reason in BAD_WORDS[kind]:
                # The words behind the first bad one are not looked at.
                behind = good[at + 1 :] if len(bad) % 2 else ["?" for _ in good[at + 1 :]]
                script.say(" ".join([name, *good[:at], bad, *behind]), f"error {reason}")


def no_year(script: Script) -> None:
    """All that can be asked before a year is open."""
    script.say("# Before a year is open.")
    script.say("")
    needing = [name for name, command in ledger.COMMANDS.items() if command.needs_book]
    assert len(needing) == 10
    for name in needing:
        script.say(f"{name} {GOOD_WORDS[name]}", "error no year is open")
    bad_commands(script)
    # Refused openings open none.
    for line in ("open 1999 5", "open 2200 0", "open 65536 1", "open 4294967295 1000000"):
        script.say(line, "refused record 6 0")
    for line in ("open 2024 1000001", "open 1999 1000001", "open 2024 4294967295"):
        script.say(line, "error too many entries")
    script.say("rows 1000001", "error too many rows")
    script.say("rows 4294967295", "error too many rows")
    for line in ("total", "print", "offer 09", "withdraw 0", "hold 300", "line 0 300", "statement 1000001"):
        script.say(line, "error no year is open")
    # Words come before the book.
    script.say("statement x", "error not a number")
    script.say("withdraw 4294967296", "error number too large")
    script.say("offer 1", "error not hexadecimal")


def spaces(script: Script) -> None:
    """Comments, blank lines, spaces, tabs, carriage returns, zeros in front, and both cases of hexadecimal."""
    for line in ("# total", "#", "#total", "", "   ", "\t", "\r", " \t \r", "# open 2024 \r"):
        script.say(line)
    script.say("  month   2024\t\t60  ", "month 2")
    script.say("month 2023 60\r", "month 3")
    script.say("\tmonth 2024 366 \r", "month 12")
    script.say("month 00000000002024 " + 60 * "0" + "1", "month 1")
    script.say("month 2024 " + 400 * "0", "refused record 6 0")
    script.say("month 2024 " + 300 * "9", "error number too large")
    script.say("month 2024\r 60", "month 2")
    script.say("name 0100", "refused frame 1 0")
    script.say("name 07e8", "refused frame 1 0")
    script.say("frame 2024 366 1 2 D - 447a0000 4a6B", f"frame {EXAMPLE}0700024A6B")
    script.say(f"record {EXAMPLE.lower()}", "record 2024 366 1 2 D - 447A0000")


# ---- Frames, settled by hand ----

# The frame of docs/FRAMES.md.
EXAMPLE = "01000407E8016E020001010300010204000144050004447A0000"


def frames(script: Script) -> None:
    script.say("frame 2024 366 1 2 D - 447A0000 -", f"frame {EXAMPLE}")
    script.say("frame 2024 366 1 2 D - 447A0000 4731", f"frame {EXAMPLE}0700024731")
    script.say(f"record {EXAMPLE}", "record 2024 366 1 2 D - 447A0000")
    script.say(f"quantities {EXAMPLE}", "quantities 1000")
    script.say(f"name {EXAMPLE}", "name -")
    script.say(f"name {EXAMPLE}0700024731", "name 4731")
    # The examples of docs/REFUSALS.md; reading, quantities and offers are refused alike.
    for frame, refusal in (
        ("-", "frame 5 1"),
        ("09", "frame 1 0"),
        ("09FFFF", "frame 2 0"),
        ("02000101020009", "frame 3 4"),
        ("010005", "frame 4 0"),
        ("01000407E8", "frame 1 0"),
        ("0200010103000102", "frame 5 1"),
    ):
        for name in ("record", "quantities", "name"):
            script.say(f"{name} {frame}", f"refused {refusal}")
    # The readings of docs/RECORDS.md.
    for pattern, quantity in (
        ("49435000", 800_000),
        ("49434FF8", 800_000),
        ("3F000000", 1),
        ("40200000", 3),
        ("00000001", 0),
    ):
        script.say(f"quantities {EXAMPLE[:-8]}{pattern}", f"quantities {quantity}")
    for pattern in ("49435001", "80000000"):
        script.say(f"quantities {EXAMPLE[:-8]}{pattern}", "refused record 9 1")
    # A frame without readings that has a name.
    script.say(f"name {EXAMPLE[:-14]}070001FF", "refused frame 5 5")
    # The name is told of a record that is none.
    script.say(f"name {EXAMPLE[:-8]}80000000070003FF000A", "name FF000A")
    for year, day, answer in (
        (2024, 366, "month 12"),
        (2023, 366, "refused record 6 0"),
        (2100, 366, "refused record 6 0"),
        (2024, 60, "month 2"),
        (2023, 60, "month 3"),
        (1999, 1, "refused record 6 0"),
        (2200, 1, "refused record 6 0"),
        (67_560, 1, "refused record 6 0"),
        (2024, 65_537, "refused record 6 0"),
        (2024, 0, "refused record 6 0"),
        (4_294_967_295, 4_294_967_295, "refused record 6 0"),
    ):
        script.say(f"month {year} {day}", answer)
    for year in (2023, 2024):
        for month in MONTHS:
            for day in (days_of(year, month)[0], days_of(year, month)[-1]):
                script.say(f"month {year} {day}", f"month {month}")


def written_frames(script: Script) -> None:
    """Every kind and item is written and read; the writer's refusals in their order."""
    for turn, (kind, item) in enumerate(PAIRS):
        record = usual_record(kind, item, day=1 + 11 * turn, tier="MD"[turn % 2])
        name = NAMES[turn % len(NAMES)] if turn % 3 else b""
        frame = hexadecimal(frame_of(record, name))
        script.say(frame_line(record, name), f"frame {frame}")
        if turn % 4 == 0 or kind > 1:
            script.say(f"record {frame}", "record" + frame_line(record).removeprefix("frame").removesuffix(" -"))
            script.say(f"quantities {frame}")
            script.say(f"name {frame}", f"name {hexadecimal(name)}")
    script.say(
        "frame 2024 1 2 1 M 980 3F800000 -",
        "frame 01000407E80001020001020300010104" + "00014D0500043F80000006000203D4",
    )
    long_name = 16 * "5A"
    script.say(
        f"frame 2024 1 3 0 D 40 3F800000 {long_name}",
        "frame 01000407E800010200010303000100040001440500043F8000000600020028070010" + long_name,
    )
    # Whatever else is wrong, a long name is told first, then the smallest number.
    for words, refusal in (
        (f"2023 366 9 9 x 1001 BF800000 {long_name}5A", "frame 4 0"),
        (f"4294967295 1 1 2 D - 447A0000 {long_name * 3}", "frame 4 0"),
        ("2023 366 9 9 x 1001 BF800000 -", "record 6 0"),
        ("67560 366 1 2 D - 447A0000 -", "record 6 0"),
        ("2024 65902 1 2 D - 447A0000 -", "record 6 0"),
        ("2024 0 1 2 D - 447A0000 -", "record 6 0"),
        ("1999 1 1 2 D - 447A0000 -", "record 6 0"),
        ("2200 1 1 2 D - 447A0000 -", "record 6 0"),
        ("2024 366 257 2 x 1001 BF800000 -", "record 7 0"),
        ("2024 366 1 258 x 1001 BF800000 -", "record 7 0"),
        ("2024 366 256 256 D - 447A0000 -", "record 7 0"),
        ("2024 366 4294967295 4294967295 D - 447A0000 -", "record 7 0"),
        ("70000 366 257 2 D - 447A0000 -", "record 6 0"),
        ("2024 366 0 0 D - 447A0000 -", "record 7 0"),
        ("2024 366 9 0 D - 447A0000 -", "record 7 0"),
        ("2024 366 1 0 D - 447A0000 -", "record 7 0"),
        ("2024 366 1 22 D - 447A0000 -", "record 7 0"),
        ("2024 366 7 3 D - 447A0000 -", "record 7 0"),
        ("2024 366 1 2 m 1001 BF800000 -", "record 8 0"),
        ("2024 366 1 2 d - 447A0000 -", "record 8 0"),
        ("2024 366 1 2 - - 447A0000 -", "record 8 0"),
        ("2024 366 1 2 # - 447A0000 -", "record 8 0"),
        ("2024 366 1 2 M 1001 447A0000,447A0000 -", "record 9 0"),
        ("2024 366 1 1 M - 447A0000,42480000 -", "record 9 0"),
        ("2024 366 7 0 M - 447A0000,42480000 -", "record 9 0"),
        ("2024 366 7 1 M - 447A0000 -", "record 9 0"),
        ("2024 366 7 2 M - 447A0000,447A0000,447A0000,447A0000,447A0000 -", "record 9 0"),
        ("2024 366 4 0 M - 447A0000,447A0000 -", "record 9 0"),
        ("2024 366 1 2 M 1001 BF800000 -", "record 9 1"),
        # 1000 kg of water at 19 degrees.
        ("2024 366 7 1 M - 447A0000,41980000 -", "record 9 2"),
        ("2024 366 8 2 M - 447A0000,00000000 -", "record 9 2"),
        ("2024 366 4 0 M 1001 447A0000,447A0000,80000000,7FC00000,00000000 -", "record 9 3"),
        ("2024 366 4 0 M - 447A0000,447A0000,00000000,7FC00000,00000000 -", "record 9 4"),
        ("2024 366 4 0 M - 447A0000,447A0000,00000000,00000000,FF800000 -", "record 9 5"),
        ("2024 366 2 1 M 1001 447A0000 -", "record 10 0"),
        ("2024 366 2 1 M 65536 447A0000 -", "record 10 0"),
        ("2024 366 3 0 M 4294967295 447A0000 -", "record 10 0"),
        ("2024 366 3 0 M 65576 447A0000 -", "record 10 0"),
        ("2024 366 3 0 M - 447A0000 -", "record 10 0"),
        ("2024 366 5 0 M 0 447A0000 -", "record 10 0"),
    ):
        script.say(f"frame {words}", f"refused {refusal}")


def read_faults(script: Script) -> None:
    """What the frame and the record layer refuse, asked in three ways."""
    for frame in book_calls.layer_faults(2024, 366)[4:]:
        short = hexadecimal(frame[:70])
        script.say(f"record {short}")
        script.say(f"quantities {short}")
        script.say(f"name {short}")


# ---- Emissions, settled by hand ----

METHANE_ROW = row_of(emissions.METHANE, 0, Factor(7500, 279))


def basin(*values: float, **changes) -> Record:
    return replace(record_of(4, 0, *values, tier="M"), **changes)


def emission_figures(script: Script) -> None:
    """The figures of docs/EMISSIONS.md and its errors to avoid."""
    script.say("open 2024 30", "year 2024")
    script.say("source pair", "source pair")
    script.say("rows 2", "rows 2")
    script.say(row_line(METHANE_ROW), "row 1")
    script.say("row 4 0 M 2024 2024 5701 1000", "row 2")
    script.say(f"offer {EXAMPLE}", "taken 1 1741750")
    kilowatt_hours = record_of(5, 0, 5, tier="M")
    for number, (record, grams) in enumerate(
        (
            (record_of(1, 21, 1), 21_622),
            (record_of(7, 1, 1000, 70), 23_027),
            (record_of(7, 1, 1000, 20), 0),
            (record_of(7, 2, 1000, 1000), 296_259),
            (record_of(7, 2, 1000, 950), 296_039),
            (basin(100, 2000, 200, 0, 0), 376_650),
            (basin(100, 2000, 200, 0, 13), 13_950),
            (basin(100, 2000, 200, 100, 0), 167_400),
            (kilowatt_hours, 2851),
            (record_of(3, 0, 250, share=40), 10_000),
            (record_of(7, 2, 800_000, 21_999), 185_583_878),
        ),
        start=2,
    ):
        script.say(offer_line(record), f"taken {number} {grams}")
    script.say(offer_line(basin(100, 2000, 200, 0, 14)), "refused factor 13 0")
    script.say("rows 1", "rows 1")
    script.say(offer_line(kilowatt_hours), "refused factor 12 0")
    script.say("row 4 0 M 2024 2024 5703 1000", "row 1")
    script.say("row 4 0 M 2024 2024 5701 1000", "refused factor 16 0")
    script.say(offer_line(kilowatt_hours), "taken 13 2852")
    # Added up by hand: lines 1, 2, 3, 4 and 5.
    script.say("yearline 1", "yearline 1 2 1763372")
    script.say("yearline 2", "yearline 2 1 10000")
    script.say("yearline 3", "yearline 3 3 558000")
    script.say("yearline 4", "yearline 4 2 5703")
    script.say("yearline 5", "yearline 5 5 186199203")
    script.say("total", "total 13 188536278")
    script.say("line 6 5", "line 6 5 5 186199203")
    script.say("line 12 1", "line 12 1 1 1741750")
    script.say(
        "print",
        "2024 13 2",
        "1 2 1.763372",
        "2 1 0.010000",
        "3 3 0.558000",
        "4 2 0.005703",
        "5 5 186.199203",
        "6 0 0.000000",
        "7 0 0.000000",
        "T 13 188.536278",
    )


def every_kind(script: Script) -> None:
    """Every kind and item with each source, and rows that never answer."""
    script.rows(LISTED_ROWS, 8)
    script.say("open 2024 160")
    for turn, (kind, item) in enumerate(PAIRS):
        tier = "D" if kind == expected.FUEL and item not in (2, 21) else "M"
        record = usual_record(kind, item, day=1 + 11 * turn, tier=tier)
        if kind == expected.WASTEWATER:
            record = replace(record, readings=figures.basin(13).readings)
        for name in ("pair", "list", "printed", "none") if kind > 1 or item in (2, 3) else ("printed", "pair"):
            if ledger.SOURCES[name] != ledger.SOURCES[script.ledger.source_name]:
                script.say(f"source {name}", f"source {name}")
            script.say(offer_line(record, NAMES[turn % len(NAMES)] if turn % 5 == 0 else b""))
    script.read_year()
    script.say("source pair")
    sold = power_sold(2031, 100, 5)
    script.say("open 2031 10", "year 2031")
    script.say("rows 9", "rows 9")
    script.say(offer_line(sold), "refused factor 12 0")
    for number, row in enumerate(
        (
            "4 0 M 2032 2032 5703 1000",
            "4 0 M 2031 2030 5703 1000",
            "4 0 M 0 65535 100001 1000",
            "4 0 M 2031 2031 5703 999",
            "4 0 m 2031 2031 5703 1000",
            "255 255 - 65535 65535 4294967295 65535",
            "4 1 M 2031 2031 5703 1000",
        ),
        start=1,
    ):
        script.say(f"row {row}", f"row {number}")
        script.say(offer_line(sold), "refused factor 12 0")
    script.say("row 4 0 M 0 65535 5701 1000", "row 8")
    script.say(offer_line(sold), "taken 1 2851")
    script.say("row 4 0 M 2031 2031 5703 1000", "row 9")
    script.say(offer_line(sold), "taken 2 2851")
    script.say("row 4 0 M 2031 2031 5703 1000", "refused factor 16 0")
    # A row that is not understood is not kept, also where the list is full.
    script.say("row 256 0 M 2031 2031 5703 1000", "error number too large")
    script.say("source printed", "source printed")
    script.say(offer_line(sold), "refused factor 12 0")
    # A new year keeps the plant list and the source.
    script.say("open 2032 2", "year 2032")
    script.say(offer_line(power_sold(2032, 100, 5)), "refused factor 12 0")
    script.say(offer_line(coal(2032, 366)), "taken 1 1741750")
    script.say("source list", "source list")
    script.say(offer_line(coal(2032, 366)), "refused factor 12 0")
    # Now the first of the rows is of this year.
    script.say(offer_line(power_sold(2032, 100, 5)), "taken 2 2852")
    script.say("total", "total 2 1738898")
    script.say("rows 0", "rows 0")
    script.say("row 4 0 M 2032 2032 5701 1000", "refused factor 16 0")
    script.say(offer_line(power_sold(2032, 100, 5)), "refused factor 12 0")
    script.say("withdraw 2", "withdrawn 2 2852")
    script.say("total", "total 1 1741750")
    script.say("source none", "source none")
    script.say(offer_line(coal(2032, 366)), "refused factor 12 0")
    script.say("source pair", "source pair")


def first_list(script: Script) -> None:
    """At first the plant list has room for 64 rows, and offers use the pair."""
    for number in range(1, 65):
        script.say(f"row 4 0 M 2024 2024 {5700 + number} 1000", f"row {number}")
    for _ in range(2):
        script.say("row 4 0 M 2024 2024 1 1000", "refused factor 16 0")
    script.say("open 2024 2", "year 2024")
    script.say(offer_line(power_sold(2024, 1, 10)), "taken 1 5701")
    script.say(f"offer {EXAMPLE}", "taken 2 1741750")
    script.say("total", "total 2 1736049")


# ---- The book, settled by hand ----


def book_refusals(script: Script) -> None:
    script.say("source printed")
    script.say("open 2024 1", "year 2024")
    for number in (0, 1, 2, 70_000, 65_537, 4_294_967_295):
        script.say(f"withdraw {number}", "refused book 17 0")
    script.say(offer_line(coal(2023, 365)), "refused book 14 0")
    script.say(f"offer {EXAMPLE}", "taken 1 1741750")
    # A second frame for memory of one row; a withdrawal gives none back.
    script.say(f"offer {EXAMPLE}", "refused book 16 0")
    for month in (0, 13, 255, 256, 257, 268, 65_537, 4_294_967_295):
        for name in ("hold", "release", "close"):
            script.say(f"{name} {month}", "refused book 19 0")
        script.say(f"line {month} 1", "refused book 19 0")
    for line in (0, 8, 255, 256, 257, 65_537, 4_294_967_295):
        script.say(f"line 1 {line}", "refused book 19 0")
        script.say(f"yearline {line}", "refused book 19 0")
    script.say("line 300 300", "refused book 19 0")
    script.say("close 12", "refused book 18 0")
    script.say("release 12", "refused book 18 0")
    script.say("hold 12", "held 12")
    script.say("hold 12", "refused book 18 0")
    script.say(f"offer {EXAMPLE}", "refused book 15 0")
    script.say(offer_line(coal(2025, 365)), "refused book 14 0")
    script.say("release 12", "released 12")
    script.say(f"offer {EXAMPLE}", "refused book 16 0")
    script.say("withdraw 01", "withdrawn 1 1741750")
    script.say("withdraw 1", "refused book 17 0")
    script.say(f"offer {EXAMPLE}", "refused book 16 0")
    script.say("total", "total 0 0")
    # Seven offers, of which one was taken; the withdrawal changes neither count.
    empty = [f"{line} 0 0.000000" for line in LINES]
    script.say("print", "2024 1 6", *empty, "T 0 0.000000")
    # A line that is not understood is no offer.
    script.say("offer 0", "error not hexadecimal")
    script.say("offer", "error wrong number of words")
    script.say("print", "2024 1 6", *empty, "T 0 0.000000")
    # Refused openings keep the book and its counts, an opening starts anew.
    for year in (1999, 2200, 67_560, 0):
        script.say(f"open {year} 5", "refused record 6 0")
    script.say("open 2025 1000001", "error too many entries")
    script.say("open 1999 1000001", "error too many entries")
    script.say("open 2025 4294967296", "error number too large")
    script.say("print", "2024 1 6", *empty, "T 0 0.000000")
    script.say("hold 12", "held 12")
    script.say("close 12", "closed 12")
    for name in ("hold", "release", "close"):
        script.say(f"{name} 12", "refused book 18 0")
    script.say(f"offer {EXAMPLE}", "refused book 15 0")
    script.say("open 2024 2", "year 2024")
    script.say("print", "2024 0 0", *empty, "T 0 0.000000")
    script.say(f"offer {EXAMPLE}", "taken 1 1741750")
    script.say(offer_line(coal(2024, 335)), "taken 2 1741750")
    script.say(offer_line(coal(2024, 336)), "refused book 16 0")
    script.say("hold 12", "held 12")
    script.say("close 12", "closed 12")
    script.say("withdraw 1", "refused book 18 0")
    script.say("withdraw 2", "withdrawn 2 1741750")
    script.say("withdraw 2", "refused book 17 0")
    script.say("withdraw 70000", "refused book 17 0")
    script.say("line 12 1", "line 12 1 1 1741750")
    script.say("line 11 1", "line 11 1 0 0")
    # Memory for no entry, and the most that can be asked for.
    script.say("open 2000 0", "year 2000")
    script.say(offer_line(coal(2000, 366)), "refused book 16 0")
    script.say("print", "2000 0 1", *empty, "T 0 0.000000")
    script.say("open 2199 1000000", "year 2199")
    script.say(offer_line(coal(2199, 365)), "taken 1 1741750")
    script.say(offer_line(coal(2199, 366)), "refused record 6 0")
    script.say("rows 1000000", "rows 1000000")
    script.say("row 4 0 M 2199 2199 5703 1000", "row 1")
    script.say("rows 1000001", "error too many rows")
    script.say("row 4 0 M 2199 2199 5703 1000", "row 2")


EMPTY_FIELDS = [f"12000B{line:02X}0000" + 16 * "0" for line in LINES]


def statements(script: Script) -> None:
    """Statements with a net total of zero, above it and below it, and too short buffers."""
    script.say("source printed")
    script.say("open 2024 9", "year 2024")
    nothing = "statement 11000207E8" + "".join(EMPTY_FIELDS) + "13000A0000" + 16 * "0"
    for room in (116, 117, 200, 1_000_000):
        script.say(f"statement {room}", nothing)
    for room in (0, 1, 115):
        script.say(f"statement {room}", "refused book 20 116")
    script.say("statement 1000001", "error too many bytes")
    script.say("statement 4294967295", "error too many bytes")
    script.say("statement 4294967296", "error number too large")
    # 1,741,750 is 1A93B6 in hexadecimal, 296,259 is 48543.
    script.say(f"offer {EXAMPLE}", "taken 1 1741750")
    grams = "00000000001A93B6"
    script.say(
        "statement 116",
        "statement 11000207E8" + f"12000B010001{grams}" + "".join(EMPTY_FIELDS[1:]) + f"13000A0001{grams}",
    )
    script.say(
        "print", "2024 1 0", "1 1 1.741750", *(f"{line} 0 0.000000" for line in range(2, 8)), "T 1 1.741750"
    )
    script.say("withdraw 1", "withdrawn 1 1741750")
    script.say(offer_line(usual_record(8, 2, readings=(bits(1000), bits(1000)))), "taken 2 296259")
    script.say("total", "total 1 -296259")
    script.say(
        "statement 116",
        "statement 11000207E8" + "".join(EMPTY_FIELDS[:6]) + "12000B0700010000000000048543"
        "13000A0001FFFFFFFFFFFB7ABD",
    )
    script.say(
        "print", "2024 2 0", *(f"{line} 0 0.000000" for line in range(1, 7)), "7 1 0.296259", "T 1 -0.296259"
    )
    # A gram: a kilogram of bought carbon dioxide with a loss of one thousandth.
    script.say("withdraw 2", "withdrawn 2 296259")
    script.say(offer_line(usual_record(3, 0, share=1, readings=(bits(1),))), "taken 3 1")
    script.say("total", "total 1 1")
    script.say("statement 115", "refused book 20 116")
    # The most grams that an entry can have.
    script.say("source list")
    script.say("rows 2")
    script.say("row 3 0 M 2024 2024 30000 1000", "row 1")
    script.say("row 4 0 M 2024 2024 100000 1000", "row 2")
    script.say(offer_line(basin(80_000, 100_000, 0, 0, 0)), "taken 4 240000000000")
    script.say(offer_line(power_sold(2024, 1, 800_000)), "taken 5 8000000000")
    script.say("total", "total 3 232000000001")
    # 240,000,000,000 is 37E11D6000 in hexadecimal, 8,000,000,000 is 1DCD65000.
    script.say(
        "statement 116",
        "statement 11000207E8" + EMPTY_FIELDS[0] + "12000B0200010000000000000001"
        "12000B03000100000037E11D6000" + EMPTY_FIELDS[3] + EMPTY_FIELDS[4] + "12000B06000100000001DCD65000"
        + EMPTY_FIELDS[6] + f"13000A0003{232_000_000_001:016X}",
    )


def offer_refusals(script: Script) -> None:
    """Every refusal of an offer, in an open, a held and a closed month, for another year and with no room."""
    script.rows(LISTED_ROWS, 8)
    script.say("open 2024 2", "year 2024")
    names = {figures.LIST: "list", figures.PRINTED: "printed", figures.PAIR: "pair", figures.NOTHING: "none"}
    good = coal(2024, 60)
    for turn, frame in enumerate(book_calls.layer_faults(2024, 60)):
        if turn % 6 == 0:
            script.say(f"source {names[turn // 6 % 4]}")
        script.say(f"offer {hexadecimal(frame)}")
    for frame, mode in book_calls.emission_faults(2024, 60):
        script.say(f"source {names[mode]}")
        script.say(f"offer {hexadecimal(frame)}")
    script.say("source pair")
    script.say(offer_line(good), "taken 1 1741750")
    for frame, mode in book_calls.emission_faults(2028, 60)[::2]:
        script.say(f"source {names[mode]}")
        script.say(f"offer {hexadecimal(frame)}")
    script.say("source pair")
    script.say(offer_line(replace(good, year=2028)), "refused book 14 0")
    script.say("hold 2", "held 2")
    script.say(offer_line(good), "refused book 15 0")
    script.say(offer_line(replace(good, year=2020)), "refused book 14 0")
    script.say(offer_line(replace(good, tier="M", item=3)), "refused factor 12 0")
    script.say(offer_line(coal(2024, 61)), "taken 2 1741750")
    script.say(offer_line(coal(2024, 61)), "refused book 16 0")
    script.say(offer_line(good), "refused book 15 0")
    script.say(offer_line(coal(2025, 61)), "refused book 14 0")
    script.say("close 2", "closed 2")
    script.say(offer_line(good), "refused book 15 0")
    script.say(f"offer {hexadecimal(frame_of(good)[:-1])}", "refused frame 1 19")
    script.say("withdraw 1", "refused book 18 0")
    script.say("withdraw 2", "withdrawn 2 1741750")
    script.read_months(2, 3)
    script.read_year()


def months_and_lines(script: Script) -> None:
    """Every month and line has an entry; all months are closed, and nothing changes any more."""
    chance = Chance(32_151)
    script.rows(LISTED_ROWS, 8)
    script.say("open 2096 100")
    for month in MONTHS:
        for kind in (1, 2, 4, 5, 6, 7, 8):
            day = chance.of(days_of(2096, month))
            script.say(offer_line(book_calls.random_record(chance, LISTED_ROWS, 2096, day, kind)))
    script.read_months(*MONTHS)
    for month in MONTHS:
        for name in ("hold", "release", "hold") if month % 3 else ("hold",):
            script.say(f"{name} {month}")
    for number in (84, 3, 40):
        script.say(f"withdraw {number}")
    script.read_year()
    for month in reversed(MONTHS):
        script.say(f"close {month}", f"closed {month}")
    for month in MONTHS:
        script.say(offer_line(coal(2096, days_of(2096, month)[-1])), "refused book 15 0")
        script.say(f"withdraw {7 * month - 1}", "refused book 18 0")
        script.say(f"{chance.of(book_calls.EVENTS)} {month}", "refused book 18 0")
    script.read_year()


# ---- Random commands ----

RANDOM_LINES = 590
RANDOM_YEARS = (2000, 2024, 2025, 2100, 2199)


def random_frame(chance: Chance, script: Script) -> bytes:
    """The frame of a record of the book's year, sometimes damaged."""
    year = script.ledger.book.year if script.ledger.book else 2024
    day = chance.of(days_of(year, chance.of(MONTHS)))
    record = book_calls.random_record(chance, script.ledger.rows, year, day, 1 + chance.below(8))
    change = chance.below(16)
    if change == 0:
        record = replace(record, year=chance.of((max(2000, year - 1), min(2199, year + 1), 1999)))
    elif change == 1:
        record = replace(record, day=chance.of((0, 365, 366, 367)))
    elif change == 2:
        record = replace(record, readings=record.readings[:-1] + (chance.below(2**32),))
    elif change == 3:
        record = replace(record, tier=chance.of("MDX"), share=chance.of((None, 1000, 1001)))
    frame = bytearray(frame_of(record, chance.of(NAMES) if chance.below(6) == 0 else b""))
    if change == 4:
        frame[chance.below(len(frame))] ^= 1 << chance.below(8)
    elif change == 5:
        frame = frame[: chance.below(len(frame))]
    return bytes(frame)


def random_row(chance: Chance) -> str:
    class_number, item = chance.of(LISTED)
    row = row_of(class_number, item, figures.random_factor(chance, class_number), chance.of("MMMMMD"))
    change = chance.below(8)
    if change == 0:
        row = replace(row, first_year=chance.of(RANDOM_YEARS))
    elif change == 1:
        row = replace(row, rate=chance.below(2**32))
    elif change == 2:
        row = replace(row, share=chance.below(2000), class_number=chance.below(7))
    return row_line(row)


def random_month(chance: Chance) -> int:
    return chance.of((1, 2, 2, 2, 6, 12, chance.of((0, 3, 13, 258))))


def random_command(chance: Chance, script: Script) -> str:
    """A command that is understood, if a book is open."""
    sort = chance.below(100)
    last = len(script.ledger.book.offerings) if script.ledger.book else 0
    if sort < 36:
        return f"offer {hexadecimal(random_frame(chance, script))}"
    if sort < 45:
        return f"withdraw {chance.below(last + 3)}"
    if sort < 58:
        return f"{chance.of((HOLD, HOLD, RELEASE, RELEASE, CLOSE))} {random_month(chance)}"
    if sort < 65:
        return f"line {random_month(chance)} {chance.below(9)}"
    if sort < 69:
        return f"yearline {chance.below(9)}"
    if sort < 73:
        return "total"
    if sort < 74:
        return f"statement {chance.of((0, 115, 116, 400, chance.below(200)))}"
    if sort < 76:
        return "print"
    if sort < 79:
        return f"month {2000 + chance.below(201)} {chance.below(369)}"
    if sort < 86:
        frame = hexadecimal(random_frame(chance, script))
        return f"{chance.of(('record', 'quantities', 'name'))} {frame}"
    if sort < 89:
        record = book_calls.random_record(chance, script.ledger.rows, 2024, chance.below(369), 1 + chance.below(8))
        change = chance.below(4)
        if change == 0:
            record = replace(record, item=chance.below(4))
        elif change == 1:
            record = replace(record, share=chance.below(1200))
        return frame_line(record, chance.bytes(chance.below(19)) if chance.below(2) else b"")
    if sort < 94:
        return random_row(chance)
    if sort < 98:
        return f"source {chance.of((*9 * ('pair',), 'list', 'printed', 'none'))}"
    if sort < 99:
        return f"open {chance.of((*RANDOM_YEARS, 1999))} {10 + chance.below(40)}"
    return f"rows {6 + chance.below(8)}"


def damaged(chance: Chance, line: str) -> str:
    """A line with a word or a character that is changed, added or missing."""
    words = line.split(" ")
    at = chance.below(len(words))
    change = chance.below(4)
    if change == 0:
        words.insert(at, chance.of(words))
    elif change == 1:
        words.pop(at)
    else:
        place = chance.below(len(words[at]))
        words[at] = words[at][:place] + chance.of("0aFgM-+.,x ") * (change - 2) + words[at][place + 1 :]
    return " ".join(words)


def spaced(chance: Chance, line: str) -> str:
    """The same words with other spaces, and perhaps in lower case behind the first."""
    first, _, rest = line.partition(" ")
    if first in ("offer", "record", "quantities", "name"):
        rest = rest.lower()
    return chance.of(("", " ")) + first + chance.of((" ", "  ", "\t")) + rest + chance.of(("", " ", "\r", " \r"))


def random_commands(script: Script) -> None:
    chance = Chance(20_240_366)
    script.rows(LISTED_ROWS, 10)
    script.say("source pair")
    script.say("open 2024 60")
    for _ in range(RANDOM_LINES):
        line = random_command(chance, script)
        change = chance.below(12)
        if change == 0:
            line = damaged(chance, line)
        elif change == 1:
            line = spaced(chance, line)
        script.say(line)
        # A new list gets most of its rows at once.
        if line.startswith("rows ") and not script.ledger.rows:
            for row in LISTED_ROWS[chance.below(2) : script.ledger.room]:
                script.say(row_line(row))
    script.read_year()


def generate() -> Script:
    script = Script()
    for part in (
        no_year,
        spaces,
        frames,
        written_frames,
        read_faults,
        first_list,
        emission_figures,
        every_kind,
        book_refusals,
        bad_commands,
        statements,
        offer_refusals,
        months_and_lines,
        random_commands,
    ):
        part(script)
    script.end(script.ledger.book)
    return script


# ---- What the script reaches ----

READ = {*((FRAME, number) for number in range(1, 6)), *((RECORD, number) for number in range(6, 11))}
EVENT = {(BOOK, 18), (BOOK, 19)}

# What each command can refuse.
REFUSALS = {
    "open": {(RECORD, 6)},
    "row": {(FACTOR, 16)},
    "offer": READ | {(RECORD, 11), (FACTOR, 12), (FACTOR, 13), (BOOK, 14), (BOOK, 15), (BOOK, 16)},
    "withdraw": {(BOOK, 17), (BOOK, 18)},
    "hold": EVENT,
    "release": EVENT,
    "close": EVENT,
    "line": {(BOOK, 19)},
    "yearline": {(BOOK, 19)},
    "statement": {(BOOK, 20)},
    "month": {(RECORD, 6)},
    "record": READ,
    "quantities": READ,
    "name": {(FRAME, number) for number in range(1, 6)},
    "frame": {(FRAME, 4), *((RECORD, number) for number in range(6, 11))},
}

MEMORY = {"open": ledger.TOO_MANY_ENTRIES, "rows": ledger.TOO_MANY_ROWS, "statement": ledger.TOO_MANY_BYTES}


def reasons_of(name: str) -> set[str]:
    """What can be wrong with a known command."""
    command = ledger.COMMANDS[name]
    reasons = {ledger.WRONG_COUNT} | {reason for kind in command.kinds for _, reason in BAD_WORDS[kind]}
    if command.needs_book:
        reasons.add(ledger.NO_YEAR)
    if name in MEMORY:
        reasons.add(MEMORY[name])
    return reasons


def check_reach(script: Script) -> None:
    """Every command is obeyed, refused and not understood in every way that there is, in every state."""
    for name in ledger.COMMANDS:
        answers = [answer for command, answer in script.answered if command == name]
        refused = {
            (answer.split()[1], int(answer.split()[2])) for answer in answers if answer.startswith("refused ")
        }
        assert refused == REFUSALS.get(name, set()), (name, refused)
        reasons = {answer.removeprefix("error ") for answer in answers if answer.startswith("error ")}
        assert reasons == reasons_of(name), (name, reasons)
        assert any(not answer.startswith(("refused ", "error ")) for answer in answers)
    assert {number for layers in REFUSALS.values() for _, number in layers} == set(range(1, 21))
    offers = [answer.split() for command, answer in script.answered if command == "offer"]
    places = {(int(words[2]), int(words[3])) for words in offers if words[0] == "refused"}
    assert book_calls.PLACES <= places
    assert script.met == {
        *((event, state, book_calls.PAST[event]) for event, state in book.NEEDED_STATE.items()),
        *(
            (event, state, "refused")
            for event in book_calls.EVENTS
            for state in (OPEN, HELD, CLOSED)
            if book.NEEDED_STATE[event] != state
        ),
        ("withdraw", OPEN, "withdrawn"),
        ("withdraw", HELD, "withdrawn"),
        ("withdraw", CLOSED, "refused"),
    }
    assert {(each.month, each.line) for each in script.entered} == {(m, line) for m in MONTHS for line in LINES}
    records = [each.entry.record for each in script.entered]
    assert {(record.kind, record.item) for record in records} == set(PAIRS)
    # The script read as bytes gives the same answers.
    assert ledger.printed(script.written()).encode("ascii") == script.printed()


# ---- The brewery's year ----

YEAR = year_log.YEAR
NAMES_OF_MONTHS = (
    "January February March April May June July August September October November December".split()
)

# What was read on each month's last day: tens of cubic metres of natural gas, kWh bought, kg of steam at 950 kPa.
READ_MONTHLY = (
    (4210.5, 182_400, 48_650),
    (3987, 171_300, 52_300),
    (3720.25, 175_900, 50_125),
    (3305, 172_650.5, 46_800),
    (2975.5, 176_250, 41_200),
    (2650.75, 181_100, 33_475),
    (2244, 188_725, 30_150),
    (2198.5, 190_480, 29_900),
    (2371, 183_300, 32_750),
    (2860.5, 179_950.25, 38_400),
    (3390, 184_775, 44_900),
    (4405.25, 190_125, 49_800),
)

# What was measured of the brewery's own: class, item, rate and share of a row, and what it says.
MEASURED = (
    (emissions.CARBONATES, 1, 43_971, 1000, "calcium carbonate: 0.43971 tCO2 per t"),
    (emissions.CARBONATES, 2, 52_380, 1000, "sodium bicarbonate: 0.52380 tCO2 per t"),
    (emissions.METHANE, 0, 7500, 279, "wastewater: 0.075 tCH4 per t of COD, warming potential 27.9"),
    (emissions.POWER, 0, 5703, 1000, "power: 0.5703 tCO2 per MWh"),
    (emissions.HEAT, 0, 985, 1000, "heat of the neighbour's boiler: 0.0985 tCO2 per GJ"),
)

# What else each month has, as lines that are comments, commands, or frames after what they are.
Lines = list[str | tuple[str, bytes]]


def bought_power(day: int, kilowatt_hours: float) -> bytes:
    return year_log.frame(day, 5, 0, "M", kilowatt_hours, name=b"GRID")


def solar(day: int, kilowatt_hours: float) -> bytes:
    return year_log.frame(day, 6, 0, "M", kilowatt_hours, name=b"SOLAR")


def coal_burnt(day: int, kilograms: float) -> bytes:
    return year_log.frame(day, 1, 2, "D", kilograms, name=b"COAL")


def carbonate(day: int, item: int, kilograms: float, purity: int | None = None) -> bytes:
    return year_log.frame(day, 2, item, "M", kilograms, share=purity)


def month_ends(month: int, *late: str | tuple[str, bytes]) -> Lines:
    """A month is held, late frames and withdrawals follow, and it is closed."""
    return [f"# {NAMES_OF_MONTHS[month - 1]} is checked and closed.", f"hold {month}", *late, f"close {month}"]


MONTHS_EXTRA: dict[int, Lines] = {
    1: [
        ("31 diesel of the fork lifts, 598.5 kg", year_log.frame(31, 1, 11, "D", 598.5)),
    ],
    2: [
        *month_ends(1),
        ("7 bought carbon dioxide, 2500 kg, loss 4 %", year_log.bottled(38, 2500, 40)),
        ("28 the basin, inlet and outlet exchanged", year_log.basin(59, 6150, 186.25, 2140.5, 2100, 310)),
        ("28 the basin, put right", year_log.basin(59, 6150, 2140.5, 186.25, 2100, 310)),
        ("29 diesel, 640.75 kg", year_log.frame(60, 1, 11, "D", 640.75)),
    ],
    3: [
        *month_ends(2),
        ("14 bituminous coal for the old boiler, 18,500 kg", coal_burnt(74, 18_500)),
        ("21 sodium bicarbonate, 320 kg, purity missing: 98 % applies", carbonate(81, 2, 320)),
        ("22 calcium carbonate, 1250 kg, purity 96.5 %", carbonate(82, 1, 1250, 965)),
    ],
    4: [
        "# March is held, but its steam meter is late: a held month takes no frame.",
        "hold 3",
        ("March 30: steam of the second line", year_log.steam(90, 12_400, 900)),
        "release 3",
        ("March 30, again", year_log.steam(90, 12_400, 900)),
        "hold 3",
        "close 3",
        ("4 bought carbon dioxide, the loss is missing", year_log.bottled(95, 2500, None)),
        ("4 bought carbon dioxide, loss 4 %", year_log.bottled(95, 2500, 40)),
        ("5 bituminous coal, 16,250 kg", coal_burnt(96, 16_250)),
        ("5 bituminous coal, the same frame a second time", coal_burnt(96, 16_250)),
    ],
    5: [
        "# The coal of April 5 was booked twice; a held month lets an entry be withdrawn.",
        "hold 4",
        "line 4 1",
        "withdraw 20",
        "line 4 1",
        "close 4",
        ("9 gasoline, 212.5 kg", year_log.frame(130, 1, 10, "D", 212.5)),
        ("10 liquefied petroleum gas, 385 kg", year_log.frame(131, 1, 14, "D", 385)),
        ("31 solar power sold, 8400.5 kWh", solar(152, 8400.5)),
    ],
    6: [
        *month_ends(5),
        ("8 hot water bought, 41,000 kg at 82.125 degrees Celsius", year_log.frame(160, 7, 1, "D", 41_000, 82.125)),
        ("9 a fuel that is not in the table", year_log.frame(161, 1, 22, "D", 400)),
        ("30 heat of the neighbour's boiler, 96,500 MJ", year_log.frame(182, 7, 0, "M", 96_500)),
        ("30 solar power sold, 11,250 kWh", solar(182, 11_250)),
    ],
    7: [
        *month_ends(6),
        ("8 bought carbon dioxide, 3250 kg, loss 3.5 %", year_log.bottled(190, 3250, 35)),
        ("31 the basin", year_log.basin(213, 7320, 1985, 174.5, 2450, 355)),
        ("31 solar power sold, 12,040.25 kWh", solar(213, 12_040.25)),
    ],
    8: [
        *month_ends(7),
        ("31 the basin, more methane than formed: 3250 kg", year_log.basin(244, 7100, 1900, 180, 2400, 3250)),
        ("31 the basin, put right: 325 kg", year_log.basin(244, 7100, 1900, 180, 2400, 325)),
    ],
    9: [
        *month_ends(8),
        ("1 heat sold to the greenhouses, 12,000 MJ", year_log.frame(245, 8, 0, "D", 12_000)),
        ("2 hot water sold, 9500 kg at 65.5 degrees Celsius", year_log.frame(246, 8, 1, "D", 9500, 65.5)),
        ("3 steam sold, 1800 kg at 400 kPa", year_log.frame(247, 8, 2, "D", 1800, 400)),
        ("6 a tier letter for estimates, which is none", year_log.frame(250, 7, 0, "E", 3000)),
    ],
    10: [
        *month_ends(9),
        ("1 bought carbon dioxide, 2750 kg, loss 3.5 %", year_log.bottled(275, 2750, 35)),
        ("16 hot water at 19.5 degrees Celsius, too cold", year_log.frame(290, 7, 1, "D", 20_500, 19.5)),
        ("17 hot water bought, 20,500 kg at 79.5 degrees Celsius", year_log.frame(291, 7, 1, "D", 20_500, 79.5)),
    ],
    11: [
        *month_ends(10),
        ("13 fuel oil for the spare boiler, 1120 kg", year_log.frame(318, 1, 9, "D", 1120)),
        ("30 a frame that ends inside its readings", year_log.steam(335, 49_800, 950)[:27]),
    ],
    12: [
        *month_ends(11),
        ("15 steam sold, 2100 kg at 400 kPa", year_log.frame(350, 8, 2, "D", 2100, 400)),
        ("31 is day 366, the last of the leap year: 1000 kg of bituminous coal", coal_burnt(366, 1000)),
        ("and 1000 kg of steam at 1000 kPa", year_log.steam(366, 1000, 1000)),
        ("day 366 of 2023, which has 365", year_log.frame(366, 7, 2, "D", 1000, 1000, year=YEAR - 1)),
        ("January 1 of 2025: of another year", year_log.frame(1, 7, 0, "D", 3100, year=YEAR + 1)),
    ],
}


def brewery() -> Script:
    script = Script()

    def say(lines: Lines) -> None:
        for line in lines:
            if isinstance(line, tuple):
                about, frame = line
                script.say(f"# {about}")
                line = f"offer {hexadecimal(frame)}"
            script.say(line)

    say(
        [
            "# A brewery's leap year, for the program `ledger`: python3 tools/ledger.py examples/year.ledger",
            "# calculates what it prints. What a meter delivered stands above its frame.",
            "",
            f"# The year {YEAR}, with memory for 100 entries.",
            f"open {YEAR} 100",
            "",
            "# The plant list: factors that were measured, for tier M. Default ones, for tier D, are printed.",
            f"rows {len(MEASURED)}",
        ]
    )
    for class_number, item, rate, share, about in MEASURED:
        say([f"# {about}", f"row {class_number} {item} M {YEAR} {YEAR} {rate} {share}"])
    say(["source pair"])
    say(
        [
            "",
            "# How a frame is made, and what is in it: 1000 kg of bituminous coal on December 31.",
            f"month {YEAR} 366",
            f"frame {YEAR} 366 1 2 D - 447A0000 434F414C",
            f"record {hexadecimal(coal_burnt(366, 1000))}",
            f"quantities {hexadecimal(coal_burnt(366, 1000))}",
            f"name {hexadecimal(coal_burnt(366, 1000))}",
        ]
    )
    for month, (gas, power, steam) in zip(MONTHS, READ_MONTHLY):
        last = days_of(YEAR, month)[-1]
        end = last - days_of(YEAR, month)[0] + 1
        say(
            [
                "",
                f"# ---- {NAMES_OF_MONTHS[month - 1]} ----",
                *MONTHS_EXTRA[month],
                (f"{end} natural gas, {10 * gas:,g} cubic metres", year_log.gas(last, gas)),
                (f"{end} power bought, {power:,} kWh", bought_power(last, power)),
                (f"{end} steam bought, {steam:,} kg at 950 kPa", year_log.steam(last, steam, 950)),
            ]
        )
    say(["", *month_ends(12), "# Nothing opens it again.", "release 12"])
    say(["", "# The lines of December, then those of the year and the net total."])
    script.read_months(12)
    script.say("")
    script.read_year()
    script.end(script.ledger.book)
    return script


# The frames of the brewery that are refused, in order: their numbers.
BREWERY_REFUSED = [11, 15, 10, 7, 13, 8, 9, 1, 6, 14]


def check_brewery(script: Script) -> None:
    """What was settled by hand of the brewery's year."""
    offers = [answer.split() for name, answer in script.answered if name == "offer"]
    assert [int(words[2]) for words in offers if words[0] == "refused"] == BREWERY_REFUSED
    assert not any(answer.startswith("error") for _, answer in script.answered)
    year = script.ledger.book
    # 36 monthly readings, 8 other fuels of which one was booked twice, 5 + 2, 3, 7 and 3 + 3 others.
    assert [year.year_line(line)[0] for line in LINES] == [20, 6, 3, 12, 17, 3, 4]
    assert year.line(12, 1)[0] == 2 and year.line(12, 5)[0] == 2
    assert all(year.state(month) == CLOSED for month in MONTHS)
    grams = [int(words[2]) for words in offers if words[0] == "taken"]
    assert 1_741_750 in grams and 296_259 in grams
    assert ledger.printed(script.written()).encode("ascii") == script.printed()


def main(arguments: list[str]) -> int:
    script = generate()
    check_reach(script)
    year = brewery()
    check_brewery(year)
    sent = script.written()
    assert len(sent) < LARGEST_INPUT
    status = files.settle(
        {
            "crates/ledger/stdin": sent,
            "crates/ledger/stdout": script.printed(),
            "examples/year.ledger": year.written() + b"\n",
            "examples/year.ledger.out": year.printed(),
        },
        arguments,
    )
    sorts = Counter(answer.split()[0] for _, answer in script.answered)
    counted = f"{sorts['refused']} refused, {sorts['error']} not understood"
    print(f"{len(script.answered)} commands ({counted}), {len(sent)} bytes; {len(year.answered)} of a year")
    return status


if __name__ == "__main__":
    sys.exit(main(sys.argv[1:]))
