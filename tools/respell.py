"""Brings the repository's own definitions, fields, constructors and lemmas to the library's spelling of names.

    python3 tools/respell.py          rewrites crates/*/src, specs and proofs in place
    python3 tools/respell.py --list   prints each old name with its new one and writes nothing

Run once, on sources as /opt/rattle/port/port.py leaves them. Words are joined by `_`, types and modules are in camel
case. A dash is left only between two names that are themselves functions or types, as in `length-append`. Names of the
code, strings, inputs and outputs are left alone. It stops where two names would fall together.
"""

import re
import sys
from pathlib import Path

ROOT = Path(__file__).resolve().parent.parent
WORD = r"[A-Za-z_◌][A-Za-z0-9_'\-◌]*"
TOKEN = re.compile(r"(?<![A-Za-z0-9_'\-◌])" + WORD + r"(?![A-Za-z0-9_'\-◌])")
# a definition: a name at the head of a line and its type; a field; a constructor
HEAD = re.compile(r"^\s*(?:\| )?(?:(?:abbrev|unfoldable|pub|record|data|mutual)\s+)*(" + WORD + r")(?=\s*[:({])")
CONSTRUCTOR = re.compile(r"^\s+(?:pub )?(" + WORD + r") : ")
# units, in comments
KEPT = {"kPa", "kJ"}
# words of the library by which lemmas are named
LIBRARY = set(
    "length append take drop sum sum_by map get_or set add sub mul div mod cond nat_le nat_lt le lt cons nil mul_right"
    " zero suc one".split()
)
# names that would fall together with another
CHOSEN = {"One-value": "OneValueAtEach", "same-shape": "shape_is_same", "grams-of": "grams_along", "first-missing": "first_missing_is"}
# fields of two records may have one name
SHARED = {"from_january", "to_december", "from_fuel", "to_heat_sold"}
# goals, invariants and measures are named by Rattle after the code
MADE = re.compile(r":\s*goal\.")


def antt_files():
    return sorted(p for p in ROOT.glob("crates/*/*/**/*.antt") if p.parts[len(ROOT.parts) + 2] in ("specs", "proofs"))


def code_files():
    return sorted(ROOT.glob("crates/*/src/**/*.rt"))


def without_comments(text, mark):
    return "\n".join(line.split(mark)[0] if line.lstrip().startswith(mark) else line for line in text.split("\n"))


def defined():
    """Names that the repository's specs and proofs define: definitions, fields, constructors, lemmas."""
    names = set()
    for path in antt_files():
        goals = path.name in ("Answers.antt", "Invariants.antt")
        for line in without_comments(path.read_text(), "--").split("\n"):
            if line.lstrip().startswith(("use ", "pub use ", "open ")):
                continue
            for pattern in (HEAD, CONSTRUCTOR):
                found = pattern.match(line)
                if found and not (goals and MADE.search(line)):
                    names.add(found[1])
    return names


def is_type(name):
    return name[0].isupper()


def snake(word):
    return re.sub(r"(?<=[a-z0-9])([A-Z])", lambda m: "_" + m[1].lower(), word)


def camel(parts):
    return "".join(p[0].upper() + p[1:] for p in parts)


def respelled(name, known):
    if "◌" in name:
        return name
    if name in CHOSEN:
        return CHOSEN[name]
    parts = name.split("-")
    if is_type(name) and all(parts):
        return camel(parts)
    parts = [snake(p) for p in parts]
    out = parts[0]
    for before, after in zip(parts, parts[1:]):
        out += ("-" if before in known and after in known else "_") + after
    return out


def renaming():
    names = defined()
    known = LIBRARY
    used = set()
    for path in antt_files():
        used |= set(TOKEN.findall(without_comments(path.read_text(), "--")))
    # folders of the proofs of the code's functions have the functions' names
    modules = {p.parent.name for p in antt_files()}
    # locals and parameters in camel case
    camels = {t for t in used if re.match(r"[a-z][A-Za-z0-9_']*$", t) and re.search(r"[a-z0-9][A-Z]", t)} - KEPT
    table = {n: respelled(n, known) for n in (names & used) | camels}
    table = {old: new for old, new in table.items() if old != new}
    problems = []
    seen = {}
    for old, new in sorted(table.items()):
        if new in used - modules and new not in SHARED:
            problems.append(f"{old}: {new} is used already")
        if new in seen and new not in SHARED:
            problems.append(f"{old} and {seen[new]} would both be {new}")
        seen[new] = old
    return table, problems


def main(arguments):
    table, problems = renaming()
    if arguments == ["--list"]:
        for old, new in sorted(table.items()):
            print(old, new)
        for problem in problems:
            print("problem:", problem)
        return 0
    if problems:
        print("\n".join(problems), file=sys.stderr)
        return 1
    for path in antt_files() + code_files():
        text = path.read_text()
        goals = path.name == "Answers.antt"

        def turned(found):
            # `w` is Rattle's record of a branch, whose fields are named after the code
            if goals and text[: found.start()].endswith("w."):
                return found[0]
            return table.get(found[0], found[0])

        new = TOKEN.sub(turned, text)
        if new != text:
            path.write_text(new)
    return 0


if __name__ == "__main__":
    sys.exit(main(sys.argv[1:]))
