"""The registers that have a name, and the fields of their words, found by asking what `explain` says of words with a
single bit."""

from __future__ import annotations

import os
import re
from typing import Dict, List, NamedTuple, Optional

from .asking import Program, request, swap, write

OFFSETS = range(0, 0x2000, 4)
BITS = 32
ALL_ONES = 0xFFFFFFFF
SHOWN = {"0": "decimal", "000000": "company", "S100": "rate", "node 0": "node"}  # by how 0 is shown


class Row(NamedTuple):
    """So many registers of a name from an offset on; one has no index."""

    name: str
    first: int
    count: int
    is_indexed: bool


class Field(NamedTuple):
    """A field of a word; the last three are of an amount, which a swap makes less or more."""

    label: str
    first: int
    last: int
    shown: str
    less: Optional[str] = None
    more: Optional[str] = None
    noun: Optional[str] = None


def rows(program: Program) -> List[Row]:
    told = program.words([request(4, offset) for offset in OFFSETS])
    found: Dict[str, Row] = {}
    for offset, line in zip(OFFSETS, told):
        place = re.search(r" read_quadlet_request (\w+)(?:\[(\d+)\])?$", line)
        if place:
            first = offset - 4 * int(place[2] or 0)
            found[place[1]] = Row(place[1], first, (offset - first) // 4 + 1, place[2] is not None)
    return list(found.values())


def bit(number: int) -> int:
    return 1 << (BITS - 1 - number)


def parts(line: str, word: int) -> List[str]:
    """What a line says after a word, part by part."""
    return line.partition(f" {word:08x}")[2].split(", ")[1:]


def fields(program: Program, row: Row) -> List[Field]:
    """The fields of a register's word, in the order in which they are told; of most registers there are none."""
    words = [0, *map(bit, range(BITS)), ALL_ONES]
    told = [parts(line, word) for line, word in zip(program.words([write(row.first, word) for word in words]), words)]
    zero, *single = told[:-1]
    found = []
    for at, text in enumerate(zero):
        label = os.path.commonprefix([each[at] for each in told]).rpartition(" ")[0]
        mine = [number for number in range(BITS) if single[number][at] != text]
        found.append(Field(label, mine[0], mine[-1], SHOWN[text[len(label) + 1 :]]))
    return [amount(program, row, field) for field in found]


def rates(program: Program, row: Row) -> Dict[int, str]:
    """The names of data rates, by a register that begins with one."""
    told = program.words([write(row.first, rate << BITS - 2) for rate in range(4)])[:4]
    return {rate: re.search(r", rate (\w+)", line)[1] for rate, line in enumerate(told)}


def amount(program: Program, row: Row, field: Field) -> Field:
    """The field, with the words of a swap if it is told as less or more."""
    one = bit(field.last)
    up, down = program.words([swap(row.first, 0, one), swap(row.first, one, 0)])[:2]
    more, less = (re.search(r", ([a-z ]+) 1 ([a-z-][a-z -]*)$", line) for line in (up, down))
    if not more or not less or more[1] == field.label:
        return field
    return field._replace(less=less[1], more=more[1], noun=more[2])


def first_channel(program: Program, row: Row) -> Optional[int]:
    """Of a set of channels, the one at bit 0."""
    taken = re.search(r", channels taken (\d+)$", program.words([write(row.first, ALL_ONES >> 1)])[0])
    return int(taken[1]) if taken else None
