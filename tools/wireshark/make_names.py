#!/usr/bin/env python3
"""Makes the tables of names of the dissector, fire1394/names.lua, of what the program calls them.

    tools/wireshark/make_names.py PROGRAM

The program is asked, by logs that have each code. check.py compares the tables with what it makes.
"""

from __future__ import annotations

import pathlib
import re
import sys
from typing import List

sys.dont_write_bytecode = True

from making import codes, frames, registers, sayings  # noqa: E402
from making.asking import Program  # noqa: E402

NAMES = pathlib.Path(__file__).resolve().parent / "fire1394/names.lua"
HEAD = "-- The names that the program has, by which the dissector tells what it finds. Made by ../make_names.py.\nreturn {\n"
RATED = "oMPR"  # a register that begins with a data rate


def key_text(key: object) -> str:
    if isinstance(key, int):
        return f"[{key:#x}]"
    return key if re.fullmatch("[A-Za-z_][A-Za-z_0-9]*", key) else f"[{key!r}]"


def value_text(value: object, indent: str = "    ") -> str:
    """A value in Lua. A record (a named tuple) is on one line, and each entry of a table on its own."""
    if isinstance(value, bool):
        return "true" if value else "false"
    if isinstance(value, int):
        return f"{value:#x}" if value > 63 else str(value)
    if isinstance(value, str):
        return f'"{value}"'
    if isinstance(value, tuple):
        parts = (f"{key} = {value_text(part)}" for key, part in value._asdict().items() if part is not None)
        return "{ " + ", ".join(parts) + " }"
    return table_text(value, indent)


def table_text(table: object, indent: str) -> str:
    rows = [value_text(it, indent + "    ") for it in table] if isinstance(table, list) else [
        f"{key_text(key)} = {value_text(it, indent + '    ')}" for key, it in sorted(table.items())
    ]
    return "{\n" + "".join(f"{indent}    {row},\n" for row in rows) + indent + "}"


def names(program: Program) -> dict:
    rows = registers.rows(program)
    firsts = {row.name: registers.first_channel(program, row) for row in rows}
    sets = {name: first for name, first in firsts.items() if first is not None}
    fields = {row.name: registers.fields(program, row) for row in rows if row.name not in sets}
    return {
        **codes.codes(program),
        "saying": sayings.sayings(program),
        "outcome_value": sayings.outcome_rows(program),
        "rate": registers.rates(program, next(row for row in rows if row.name == RATED)),
        "registers": rows,
        "fields": {name: told for name, told in fields.items() if told},
        "first_channel": sets,
        **frames.frame_names(program)._asdict(),
    }


def text(program: Program) -> str:
    """The tables in Lua."""
    return HEAD + "".join(f"    {key} = {value_text(table)},\n" for key, table in names(program).items()) + "}\n"


def main(words: List[str]) -> int:
    if len(words) != 1 or words[0].startswith("-"):
        print("usage: make_names.py PROGRAM", file=sys.stderr)
        return 2
    NAMES.write_text(text(Program(words[0])))
    return 0


if __name__ == "__main__":
    sys.exit(main(sys.argv[1:]))
