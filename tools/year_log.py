"""Writes the log of a brewery's year, for the program `carbon_year` to read.

    python3 tools/year_log.py            writes examples/year.log, the same bytes as
                                         crates/carbon_year/stdin, and what the program must print
                                         as crates/carbon_year/stdout
    python3 tools/year_log.py --check    compares these files with what it would write

The program has no plant factors. Carbonates, wastewater and power ask for one, as does all that is measured, so
the book refuses them by 12; lines 3, 4 and 6 stay empty, and line 2 has bought carbon dioxide alone.
"""

import sys

sys.dont_write_bytecode = True

import book
import expected
import files
from cases import bits, frame_of
from expected import Record

YEAR = 2024


def frame(day, kind, item, tier, *values, year=YEAR, share=None, name=b""):
    """The frame of a record, lawful or not, whose readings are the binary32 nearest to the values."""
    readings = tuple(bits(value) for value in values)
    return frame_of(Record(year, day, kind, item, tier, share, "", readings), name)


def gas(day, tens_of_cubic_metres):
    return frame(day, 1, 21, "D", tens_of_cubic_metres, name=b"GAS-1")


def steam(day, kilograms, kilopascals):
    return frame(day, 7, 2, "D", kilograms, kilopascals, name=b"STEAM-IN")


def bottled(day, kilograms, loss):
    """Bought carbon dioxide, with the loss in thousandths."""
    return frame(day, 3, 0, "M", kilograms, share=loss, name=b"CO2-TANK")


def power(day, kilowatt_hours, year=YEAR):
    return frame(day, 5, 0, "D", kilowatt_hours, year=year, name=b"GRID")


def basin(day, *values):
    """Wastewater: cubic metres, inlet and outlet COD in g per cubic metre, kg COD in sludge, kg methane."""
    return frame(day, 4, 0, "M", *values, name=b"BASIN")


TAKEN = 0

# Each frame with the number that refuses it.
FRAMES = [
    (TAKEN, gas(31, 4210.5)),
    (12, power(31, 182400)),
    (TAKEN, steam(31, 48650, 950)),
    # diesel of the fork lifts, kg
    (TAKEN, frame(31, 1, 11, "D", 598.5)),
    (TAKEN, bottled(38, 2500, 40)),
    (TAKEN, steam(45, 52300, 950)),
    # the basin's inlet and outlet exchanged
    (11, basin(59, 6150, 186.25, 2140.5, 2100, 310)),
    (12, basin(59, 6150, 2140.5, 186.25, 2100, 310)),
    # February 29
    (TAKEN, gas(60, 3987)),
    (12, power(60, 171300)),
    (TAKEN, frame(60, 1, 11, "D", 640.75)),
    # bituminous coal for the old boiler, kg
    (TAKEN, frame(74, 1, 2, "D", 18500, name=b"COAL")),
    # sodium bicarbonate, kg, purity missing
    (12, frame(81, 2, 2, "M", 320)),
    # calcium carbonate, kg, purity 96.5 %
    (12, frame(82, 2, 1, "M", 1250, share=965)),
    (TAKEN, gas(91, 3720.25)),
    # the loss is missing
    (10, bottled(95, 2500, None)),
    (TAKEN, bottled(95, 2500, 40)),
    # unknown tag 08 behind a lawful record
    (2, frame(96, 1, 2, "D", 1000) + bytes.fromhex("080001 00")),
    (TAKEN, frame(96, 1, 2, "D", 16250, name=b"COAL")),
    (TAKEN, gas(121, 3105)),
    (12, power(121, 176250)),
    # gasoline and liquefied petroleum gas, kg
    (TAKEN, frame(130, 1, 10, "D", 212.5)),
    (TAKEN, frame(131, 1, 14, "D", 385)),
    # sent late, for March
    (TAKEN, steam(90, 50125, 900)),
    (TAKEN, gas(152, 2650.75)),
    # power of the solar roof, sold, kWh
    (12, frame(152, 6, 0, "M", 8400.5, name=b"SOLAR")),
    # hot water bought, kg and degrees Celsius
    (TAKEN, frame(160, 7, 1, "D", 41000, 82.125)),
    # no such fuel
    (7, frame(161, 1, 22, "D", 400)),
    (TAKEN, gas(182, 2244)),
    # heat bought as energy, MJ
    (TAKEN, frame(182, 7, 0, "D", 96500)),
    (TAKEN, bottled(190, 3250, 35)),
    (TAKEN, gas(213, 2198.5)),
    (12, basin(213, 7320, 1985, 174.5, 2450, 355)),
    (TAKEN, gas(244, 2371)),
    # heat sold to the greenhouses: energy in MJ, hot water, saturated steam
    (TAKEN, frame(245, 8, 0, "D", 12000)),
    (12, frame(246, 8, 1, "M", 9500, 65.5)),
    (TAKEN, frame(246, 8, 1, "D", 9500, 65.5)),
    (TAKEN, frame(247, 8, 2, "D", 1800, 400)),
    # a tier letter for estimates, which is none
    (8, frame(250, 7, 0, "E", 3000)),
    (TAKEN, gas(274, 2860.5)),
    (TAKEN, bottled(275, 2750, 35)),
    # carbonate of another sort, kg, purity 100 %
    (12, frame(275, 2, 3, "M", 75.5, share=1000)),
    # water below 20 degrees
    (9, frame(290, 7, 1, "D", 20500, 19.5)),
    (TAKEN, frame(291, 7, 1, "D", 20500, 79.5)),
    (TAKEN, gas(305, 3390)),
    (TAKEN, frame(310, 8, 0, "D", 15500)),
    # fuel oil for the spare boiler, kg
    (TAKEN, frame(318, 1, 9, "D", 1120)),
    # a frame that ends inside its readings
    (1, steam(335, 49800, 950)[:27]),
    (TAKEN, steam(335, 49800, 950)),
    (TAKEN, gas(335, 3985)),
    (12, power(336, 190125)),
    (TAKEN, frame(350, 8, 2, "D", 2100, 400)),
    # day 366 of 2023, which has 365 days
    (6, frame(366, 7, 2, "D", 1000, 1000, year=YEAR - 1)),
    # day 366 of 2024, the last day of the leap year: 1000 kg of steam, 1000 kg of bituminous coal
    (TAKEN, steam(366, 1000, 1000)),
    (TAKEN, frame(366, 1, 2, "D", 1000)),
    (TAKEN, gas(366, 4405.25)),
    # lawful records of the next year
    (14, frame(1, 7, 0, "D", 3100, year=YEAR + 1)),
    (12, power(1, 5900, year=YEAR + 1)),
]


def with_length(each: bytes) -> bytes:
    return len(each).to_bytes(2, "big") + each


def log() -> bytes:
    """The year, each frame after its length, and at the end a frame that is cut off: refused."""
    whole = YEAR.to_bytes(2, "big") + b"".join(with_length(each) for _, each in FRAMES)
    return whole + with_length(gas(366, 120))[:-9]


# What the fuel of check_prints() prints.
ONE_FUEL = """\
2024 1 0
1 1 1.741750
2 0 0.000000
3 0 0.000000
4 0 0.000000
5 0 0.000000
6 0 0.000000
7 0 0.000000
T 1 1.741750
"""


def check_prints() -> None:
    """Prints, counts and refusals that were settled by hand."""
    lawful_year = YEAR.to_bytes(2, "big")
    fuel = bytes.fromhex("001A 010004 07E8016E 020001 01 030001 02 040001 44 050004 447A0000")
    assert book.printed_year(lawful_year + fuel) == ONE_FUEL
    for end, first in (
        (b"", "2024 0 0"),
        (fuel + b"\x00", "2024 1 1"),
        (fuel + b"\x00\x00", "2024 1 1"),
        (fuel[:-1], "2024 0 1"),
        (1001 * fuel, "2024 1000 1"),
    ):
        assert book.printed_year(lawful_year + end).splitlines()[0] == first
    assert book.printed_year((2023).to_bytes(2, "big") + fuel).splitlines()[0] == "2023 0 1"
    # 1000 kg of steam at 1000 kPa, sold.
    sold = with_length(frame(366, 8, 2, "D", 1000, 1000))
    assert book.printed_year(lawful_year + sold).splitlines()[7:] == ["7 1 0.296259", "T 1 -0.296259"]
    for unlawful in (b"", b"\x07", (1999).to_bytes(2, "big") + fuel, (2200).to_bytes(2, "big") + fuel):
        assert book.printed_year(unlawful) == "0 0 0\n"
        assert expected.log_counts(unlawful) == (0, 0, 0)
    # Of 1,001 lawful records the book takes 1,000; a record without a factor is a lawful one.
    assert expected.log_counts(lawful_year + 1001 * fuel + b"\x00") == (YEAR, 1001, 1)
    assert expected.log_counts(lawful_year + with_length(power(366, 1))) == (YEAR, 1, 0)
    year, refusals, cut = book.book_of(log())
    year.check()
    assert cut and [refusal.number for refusal in refusals] == [number for number, _ in FRAMES if number != TAKEN]
    assert [year.year_line(line)[0] for line in book.LINES] == [20, 4, 0, 0, 8, 0, 5]
    assert year.line(2, 1)[0] == 2, "both of February 29"


def main(arguments: list[str]) -> int:
    check_prints()
    whole = log()
    printed = book.printed_year(whole)
    status = files.settle_log("year.log", "carbon_year", whole, printed, arguments)
    print(f"{len(whole)} bytes: {printed.splitlines()[0]}")
    return status


if __name__ == "__main__":
    sys.exit(main(sys.argv[1:]))
