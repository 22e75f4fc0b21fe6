"""The names of AV/C frames: of their codes, subunits and opcodes, and the words that first operands have."""

from __future__ import annotations

import itertools
import re
from typing import Dict, Iterable, NamedTuple

from .asking import CONTROL, UNIT, Program, frame

NO_OPCODE = 0xEE  # without a name at every address
TAPE = 4 << 3
BYTES = range(256)
Names = Dict[int, str]


class Frames(NamedTuple):
    ctypes: Names
    subunits: Names
    opcodes: Names
    tape_opcodes: Names
    operands: Dict[int, Names]
    tape_operands: Dict[int, Names]


def told(program: Program, frames: Iterable[Iterable[int]]) -> Iterable[str]:
    """What is told of each frame after `AV/C`."""
    lines = program.words([frame(*data) for data in frames])
    return [re.split(r" (?:not )?AV/C ", line)[1] for line in lines[:-1]]


def codes(program: Program) -> Names:
    texts = told(program, ([code, UNIT, NO_OPCODE] for code in range(16)))
    names = [text.split(" unit ")[0] for text in texts]
    return {code: name for code, name in enumerate(names) if name != f"code {code}"}


def subunits(program: Program) -> Names:
    texts = told(program, ([CONTROL, kind << 3, NO_OPCODE] for kind in range(32)))
    names = [re.match(r"CONTROL (.*) subunit 0 ", text) for text in texts]
    return {kind: name[1] for kind, name in enumerate(names) if name and name[1] != f"type {kind}"}


def opcodes(program: Program, address: int, who: str) -> Names:
    texts = told(program, ([CONTROL, address, opcode] for opcode in BYTES))
    names = [text.split(f"CONTROL {who} ", 1)[1] for text in texts]
    return {opcode: name for opcode, name in enumerate(names) if name != f"opcode {opcode:02x}"}


def operands(program: Program, address: int, names: Names) -> Dict[int, Names]:
    """The words of first operands; what is told with digits is no word."""
    found: Dict[int, Names] = {}
    asked = list(itertools.product(names, BYTES))
    texts = told(program, ([CONTROL, address, opcode, operand] for opcode, operand in asked))
    for (opcode, operand), text in zip(asked, texts):
        word = text.split(names[opcode] + " ", 1)[1]
        if not word.endswith(f"{operand:02x}"):
            found.setdefault(opcode, {})[operand] = word
    return found


def frame_names(program: Program) -> Frames:
    of_all = opcodes(program, UNIT, "unit")
    of_tape = opcodes(program, TAPE, "tape subunit 0")
    own = {opcode: name for opcode, name in of_tape.items() if opcode not in of_all}
    words = operands(program, UNIT, of_all)
    return Frames(codes(program), subunits(program), of_all, own, words, operands(program, TAPE, own))
