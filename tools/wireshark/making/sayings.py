"""What `explain` says of events and outcomes beside their names."""

from __future__ import annotations

from typing import Dict, NamedTuple

from .asking import Program
from .codes import EVENTS, OUTCOMES, SYSTEMS, TAPE_EVENT, VALUE, event, outcome

DECIMAL, HEXADECIMAL = str(VALUE), f"{VALUE:08x}"


class Outcome(NamedTuple):
    """The label of an outcome's value, and how that is shown."""

    label: str
    shown: str


def sayings(program: Program) -> Dict[int, str]:
    told = program.words([event(code, (SYSTEMS[0],) if code == TAPE_EVENT else ()) for code in EVENTS])
    says = {code: line.split(": ", 1)[1] for code, line in zip(EVENTS, told)}
    says[TAPE_EVENT] = says[TAPE_EVENT].split(" tape ")[0]
    return says


def of_value(text: str) -> Outcome:
    """What `, LABEL VALUE` says."""
    label, _, value = text[2:].rpartition(" ")
    if label.endswith(" rcode"):
        return Outcome(label[: -len(" rcode")], "rcode")
    return Outcome(label, {DECIMAL: "decimal", HEXADECIMAL: "hexadecimal"}[value])


def outcome_rows(program: Program) -> Dict[int, Outcome]:
    """Of each outcome that has a value. A response code of such a size has no name: it is told as one."""
    told = program.words([outcome(code, VALUE) for code in OUTCOMES])
    texts = {code: line.split(" slot 0", 1)[1] for code, line in zip(OUTCOMES, told)}
    return {code: of_value(text) for code, text in texts.items() if text}
