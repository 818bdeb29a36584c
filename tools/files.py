"""Writes generated files, or compares them with what would be written; reads logs that a command names."""

import sys
from collections.abc import Callable
from pathlib import Path

REPOSITORY = Path(__file__).resolve().parent.parent


def settle(contents: dict[str, bytes], arguments: list[str]) -> int:
    """Writes each file, named from the repository's root; with `--check` only compares.

    Answers the exit status: 0, or 1 where a compared file differs, or 2 for other arguments.
    """
    if arguments not in ([], ["--check"]):
        print("usage: the only argument is --check", file=sys.stderr)
        return 2
    status = 0
    for name, content in contents.items():
        path = REPOSITORY / name
        if not arguments:
            path.parent.mkdir(parents=True, exist_ok=True)
            path.write_bytes(content)
        elif not path.is_file():
            print(f"{name}: missing", file=sys.stderr)
            status = 1
        elif path.read_bytes() != content:
            print(f"{name}: differs from what this script writes", file=sys.stderr)
            status = 1
    return status


def settle_log(example: str, program: str, log: bytes, printed: str, arguments: list[str]) -> int:
    """Settles a log as an example and as a program's input, and what the program must print for it."""
    return settle(
        {
            f"examples/{example}": log,
            f"crates/{program}/stdin": log,
            f"crates/{program}/stdout": printed.encode("ascii"),
        },
        arguments,
    )


def print_of_log(script: str, calculate: Callable[[bytes], str], arguments: list[str]) -> int:
    """Prints what is calculated for the log that the only argument names. Answers the exit status."""
    if len(arguments) != 1:
        print(f"usage: python3 tools/{script} LOGFILE", file=sys.stderr)
        return 2
    try:
        log = Path(arguments[0]).read_bytes()
    except OSError as error:
        print(f"{arguments[0]}: {error.strerror}", file=sys.stderr)
        return 2
    sys.stdout.write(calculate(log))
    return 0
