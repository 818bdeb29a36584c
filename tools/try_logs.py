"""Runs the program `carbon_year` on logs that are empty, cut, full, long or generated, and compares what it prints.

    python3 tools/try_logs.py PROGRAM

For the first logs the expected text is settled by hand here; for the generated ones it is calculated by book.py.
"""

import sys

sys.dont_write_bytecode = True

import subprocess
from dataclasses import replace

import book
from cases import Chance, frame_of, random_record
from expected import days_in_year

YEAR = (2024).to_bytes(2, "big")

# Day 366 of 2024, 1000 kg of coal by the printed table: 1,741,750 g.
COAL = bytes.fromhex("010004 07E8016E 020001 01 030001 02 040001 44 050004 447A0000")


def long(frame: bytes) -> bytes:
    """A frame after its length."""
    return len(frame).to_bytes(2, "big") + frame


def year_with(first: str, fuel: str) -> str:
    """A year in which only fuel was burnt."""
    empty = "".join(f"{line} 0 0.000000\n" for line in range(2, 8))
    return f"{first}\n1 {fuel}\n{empty}T {fuel}\n"


NOTHING = "0 0.000000"
ONE = "1 1.741750"

# What each log is, the log, and what it prints.
SETTLED = [
    ("empty input", b"", "0 0 0\n"),
    ("one byte", YEAR[:1], "0 0 0\n"),
    ("a year below the range", (1999).to_bytes(2, "big") + long(COAL), "0 0 0\n"),
    ("a year above the range", (2200).to_bytes(2, "big") + long(COAL), "0 0 0\n"),
    ("the first year", (2000).to_bytes(2, "big"), year_with("2000 0 0", NOTHING)),
    ("the last year", (2199).to_bytes(2, "big"), year_with("2199 0 0", NOTHING)),
    ("a year alone", YEAR, year_with("2024 0 0", NOTHING)),
    ("one frame", YEAR + long(COAL), year_with("2024 1 0", ONE)),
    ("a frame of another year", (2023).to_bytes(2, "big") + long(COAL), year_with("2023 0 1", NOTHING)),
    ("a cut length", YEAR + long(COAL) + b"\x00", year_with("2024 1 1", ONE)),
    ("a length without its frame", YEAR + long(COAL) + b"\x00\x1a", year_with("2024 1 1", ONE)),
    ("a cut frame", YEAR + long(COAL)[:-1], year_with("2024 0 1", NOTHING)),
    ("an empty frame", YEAR + long(b"") + long(COAL), year_with("2024 1 1", ONE)),
    ("a full journal", YEAR + 1000 * long(COAL), year_with("2024 1000 0", "1000 1741.750000")),
    ("a frame more than the journal takes", YEAR + 1001 * long(COAL), year_with("2024 1000 1", "1000 1741.750000")),
    ("frames of 65,535 bytes", YEAR + 3 * long(COAL + bytes(65535 - len(COAL))) + long(COAL), year_with("2024 1 3", ONE)),
    ("a frame of 65,535 bytes, cut", YEAR + long(COAL) + long(bytes(65535))[:-1], year_with("2024 1 1", ONE)),
]


def generated(seed: int) -> bytes:
    """Frames of random records, some of another year, some damaged, and perhaps a cut end."""
    chance = Chance(seed)
    year = 2000 + chance.below(200)
    log = year.to_bytes(2, "big")
    for _ in range(chance.below(60)):
        record, name = random_record(chance)
        of_year = min(2199, year + (chance.below(12) == 0))
        record = replace(record, year=of_year, day=1 + chance.below(days_in_year(of_year)))
        # Most factors are those of the printed table.
        if chance.below(4):
            record = replace(record, tier="D")
        frame = bytearray(frame_of(record, name))
        if chance.below(10) == 0:
            frame[chance.below(len(frame))] ^= 1 << chance.below(8)
        log += long(bytes(frame))
    return log[: -1 - chance.below(20)] if chance.below(4) == 0 else log


def main(arguments: list[str]) -> int:
    if len(arguments) != 1:
        print("usage: python3 tools/try_logs.py PROGRAM", file=sys.stderr)
        return 2
    logs = list(SETTLED)
    for name, log, text in SETTLED:
        assert book.printed_year(log) == text, name
    for seed in range(200):
        log = generated(seed)
        logs.append((f"generated log {seed}", log, book.printed_year(log)))
    status = 0
    for name, log, text in logs:
        run = subprocess.run([arguments[0]], input=log, capture_output=True)
        if run.returncode != 0 or run.stdout != text.encode("ascii") or run.stderr:
            print(f"{name}: printed {run.stdout!r}, expected {text!r}", file=sys.stderr)
            status = 1
    negative = sum("T" in text and text.splitlines()[-1].split()[2].startswith("-") for _, _, text in logs)
    assert negative > 0, "no net total is negative"
    print(f"{len(logs)} logs tried, {negative} with a negative net total")
    return status


if __name__ == "__main__":
    sys.exit(main(sys.argv[1:]))
