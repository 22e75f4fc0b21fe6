#!/usr/bin/env python3
"""Holds a built program against the sessions that the gate runs, from outside: status, note and output of each call.

    tools/sessions.py [PROGRAM]

PROGRAM is dist/fire. The rows are those of calls.txt, dubs.txt and refusals.txt in crates/fire_sessions/data, whose README.md has their
forms; those of the other tables need a source or a sink that fails, or many calls each, and are left to the gate. This needs Python 3.8,
and takes some seconds. The status is 0 if each row is met, 1 if one is not, and 2 if there is no program.
"""

import pathlib
import subprocess
import sys

ROOT = pathlib.Path(__file__).resolve().parent.parent
DATA = ROOT / "crates/fire_sessions/data"


def rows(table):
    """The rows of a table, without its empty lines and comments."""
    lines = (DATA / table).read_text().splitlines()
    return [line for line in lines if line and not line.startswith("#")]


def split(text, mark):
    """What stands before a mark, and what after it, or None if there is no mark."""
    before, found, after = text.partition(mark)
    return before, after if found else None


def bytes_of(names):
    """Those of the files, one after another."""
    return b"".join((DATA / name).read_bytes() for name in names.split() if name != "nothing")


class Program:
    def __init__(self, path):
        self.path = path

    def call(self, words, given):
        """The status, the note and the output of a call. A word that has spaces has `_` in place of each."""
        words = [word.replace("_", " ") for word in words.split()]
        ended = subprocess.run([self.path, *words], input=given, capture_output=True, check=False)
        return ended.returncode, ended.stderr.decode("ascii", "replace"), ended.stdout


def meets_call(program, row):
    """WORDS < INPUT > OUTPUT, or WORDS | WORDS < INPUT > OUTPUT; and : STATUS NOTE after it if the status is not 0."""
    row, ending = split(row, " : ")
    words, rest = split(row, "< ")
    given, output = split(rest, " > ")
    status, note = (ending.split(" ", 1) + [""])[:2] if ending else ("0", "")
    first, second = split(words, " | ")
    found = program.call(first, bytes_of(given))
    if second is not None:
        found = program.call(second, found[2])
    return found == (int(status), f"{note}\n" if note else "", bytes_of(output))


def meets_dub(program, row):
    """SCRIPT : BYTES FIRST SUM, the first bytes of a reel in hexadecimal (`-` for none) and the sum of all."""
    script, due = split(row, " : ")
    length, first, total = due.split()
    status, note, blocks = program.call("dub", bytes_of(script))
    begins = b"" if first == "-" else bytes.fromhex(first)
    return (status, note, len(blocks), sum(blocks)) == (0, "", int(length), int(total)) and blocks.startswith(begins)


def pieces():
    """The named pieces of which scripts are put together."""
    found, name = {}, None
    for line in rows("pieces.txt"):
        if line.startswith("  "):
            found[name] += f"{line[2:]}\n"
        else:
            name = line.rstrip(":")
            found[name] = ""
    return found


def script_of(words, named):
    """The script of pieces, each NAME, NAME*COUNT, or a file in a folder."""
    script = ""
    for word in words.split():
        name, count = split(word, "*")
        text = (DATA / name).read_text() if "/" in name else named[name]
        script += text * int(count or 1)
    return script


def meets_refusal(program, row, named):
    """PIECES ; LINE ; LINE > LOG LENGTH : NOTE, with no lines, or no log, if they are not there."""
    row, note = split(row, " : ")
    row, log = split(row, " > ")
    what, lines = split(row, " ; ")
    script = script_of(what, named) + ("" if lines is None else lines.replace(" ; ", "\n") + "\n")
    status, told, written = program.call("run", script.encode())
    if (status, told) != (3, f"{note}\n"):
        return False
    if log is None:
        return True
    name, length = log.split()
    return written == bytes_of(name)[: int(length)]


def main(words):
    path = pathlib.Path(words[0] if words else ROOT / "dist/fire").resolve()
    if len(words) > 1 or (words and words[0].startswith("-")):
        print(__doc__, file=sys.stderr)
        return 2
    if not path.is_file():
        print(f"there is no program {path}", file=sys.stderr)
        return 2
    program, named, passed, failed = Program(path), pieces(), 0, 0
    forms = {"calls.txt": meets_call, "dubs.txt": meets_dub, "refusals.txt": lambda it, row: meets_refusal(it, row, named)}
    for table, meets in forms.items():
        for row in rows(table):
            if meets(program, row):
                passed += 1
            else:
                failed += 1
                print(f"WRONG {table}: {row}")
    print(f"sessions: {passed} passed, {failed} failed")
    return 1 if failed else 0


if __name__ == "__main__":
    sys.exit(main(sys.argv[1:]))
