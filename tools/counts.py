#!/usr/bin/env python3
"""Counts the files that a change touches, by those that name an example of it that is there already.

    tools/counts.py               prints the table that docs/ARCHITECTURE.md quotes ('Where a change goes')
    tools/counts.py --check       compares the two
    tools/counts.py --write       puts the table into the document
    tools/counts.py --files WHAT  names the files of a row, as 'kind' or 'json'

A file counts if the example's name stands in it outside comments. Tests, sessions and bodies that are wrong on purpose do not count, nor
do crates that are the example's own. Documents are those for users: docs/ without what tells how the program is made (ARCHITECTURE, ARGUMENTS, CALLS,
DECISIONS, DEFINITIONS, GATE, PROOFS, TOUR) and how captures are converted, README, help.txt, and the words that bash completes. This needs Python 3.8, and
takes seconds. The status is 0, or 1 if the document has another table or there is no such row.
"""

import argparse
import functools
import pathlib
import re
import sys

ROOT = pathlib.Path(__file__).resolve().parent.parent
DOCUMENT = ROOT / "docs/ARCHITECTURE.md"

# What is changed, by which name it is counted, how code and documents write this, and the crates that do not count.
ROWS = [
    ("an action", "ShowWord", r"ShowWord", r"", r""),
    ("an event", "ejected", r"EJECTED", r"ejected", r""),
    ("a rule", "NotCapable", r"NotCapable", r"NotCapable", r""),
    ("a register of every node", "SPLIT_TIMEOUT_LO", r"SPLIT_TIMEOUT_LO", r"SPLIT_TIMEOUT", r""),
    ("a register that a run keeps", "BUS_MANAGER_ID", r"BUS_MANAGER_ID|bus_manager_id", r"BUS_MANAGER_ID", r""),
    ("a word over logs", "json", r"[Jj]son", r"json", r"fw_log_json|fw_log_json_packets"),
    ("a word over scripts", "dub", r"[Dd]ub", r"dub", r"fw_(?!script_words|tool)\w*"),
    ("a transaction label", "BusManager", r"BusManager", r"BUS_MANAGER", r""),
    ("a kind of device", "Camcorder", r"Camcorder|CAMCORDER|camcorder", r"camcorder", r""),
    ("a limit of scripts", "MOST_RESETS", r"MOST_RESETS", r"10,000 bus resets", r""),
]

HEAD = "| A change | counted by | src | specs | proofs | documents | files |\n|---|---|---|---|---|---|---|\n"

PARTS = ("src", "specs", "proofs")
COMMENTS = {".rt": re.compile(r"//.*"), ".antt": re.compile(r"--.*")}
TESTS = re.compile(r"fw_tests\w*|fire_rows|fire_sessions")

HOW_IT_IS_MADE = {
    "ARCHITECTURE.md",
    "ARGUMENTS.md",
    "CALLS.md",
    "CAPTURES.md",
    "DECISIONS.md",
    "DEFINITIONS.md",
    "GATE.md",
    "PROOFS.md",
    "TOUR.md",
}
BESIDE_DOCS = ("README.md", "crates/fire_sessions/data/help.txt", "tools/completion.bash")


@functools.lru_cache(maxsize=None)
def text_of(path):
    """What a file says outside comments."""
    text = path.read_text(encoding="utf-8")
    comment = COMMENTS.get(path.suffix)
    return comment.sub("", text) if comment else text


@functools.lru_cache(maxsize=None)
def code_files(part):
    """The files of this part of all crates but tests, each after its crate."""
    crates = [it for it in sorted((ROOT / "crates").iterdir()) if not TESTS.fullmatch(it.name)]
    return [(it.name, file) for it in crates for file in sorted((it / part).rglob("*")) if file.suffix in COMMENTS]


def documents():
    texts = (it for it in sorted((ROOT / "docs").rglob("*")) if it.is_file() and it.suffix != ".png")
    yield from (it for it in texts if it.name not in HOW_IT_IS_MADE)
    yield from (ROOT / it for it in BESIDE_DOCS)


def files_of(row):
    """The files that name the example of a row, in each part of the crates and in documents."""
    _, _, code, told, own = row
    name, apart = re.compile(rf"\b(?:{code})\b"), re.compile(own)
    found = {
        part: [file for crate, file in code_files(part) if not apart.fullmatch(crate) and name.search(text_of(file))]
        for part in PARTS
    }
    found["documents"] = [it for it in documents() if told and re.search(rf"\b{told}\b", text_of(it))]
    return found


def table():
    lines = []
    for row in ROWS:
        counts = [len(files) for files in files_of(row).values()]
        lines.append(f"| {row[0]} | `{row[1]}` | " + " | ".join(map(str, [*counts, sum(counts)])) + " |\n")
    return HEAD + "".join(lines)


def show_files(what):
    rows = [row for row in ROWS if what in row[0] or what == row[1]]
    for row in rows:
        print(f"{row[0]}, by {row[1]}:")
        for files in files_of(row).values():
            print("".join(f"  {it.relative_to(ROOT)}\n" for it in files), end="")
    return 0 if rows else 1


def compare(write):
    """Whether the document has the table that is printed; writes it there if that is asked for."""
    text = DOCUMENT.read_text(encoding="utf-8")
    there = re.search(re.escape(HEAD) + r"(?:\|.*\n)*", text)
    if there and write:
        DOCUMENT.write_text(text[: there.start()] + table() + text[there.end() :], encoding="utf-8")
    elif not there or there.group() != table():
        print("counts: the table in docs/ARCHITECTURE.md is another one; tools/counts.py --write puts it right")
        return 1
    return 0


def main():
    about = argparse.RawDescriptionHelpFormatter
    parser = argparse.ArgumentParser(prog="tools/counts.py", description=__doc__, formatter_class=about, usage=argparse.SUPPRESS)
    how = parser.add_mutually_exclusive_group()
    how.add_argument("--check", action="store_true", help="compare the table with the document's")
    how.add_argument("--write", action="store_true", help="put the table into the document")
    how.add_argument("--files", metavar="WHAT", help="name the files of the rows of this change or example")
    given = parser.parse_args()
    if given.files:
        return show_files(given.files)
    if given.check or given.write:
        return compare(given.write)
    print(table(), end="")
    return 0


if __name__ == "__main__":
    sys.exit(main())
