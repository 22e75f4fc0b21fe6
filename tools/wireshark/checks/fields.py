"""Each field of each packet, and its column Info, against what the program says of the entry."""

from __future__ import annotations

import json
from typing import Dict, Iterator, List, Tuple

from captures.checks.counted import Checks
from making import codes
from making.asking import Program, log_of

from . import expected, tshark

INFO = "_ws.col.Info"
DATA = "ieee1394.data"  # of which -T json has colons between the bytes
MOST_TOLD = 20  # differences of a run


def joined(logs: Dict[str, bytes]) -> Iterator[bytes]:
    """The logs, and before each a bus reset: no request of one is answered in the next."""
    for log in logs.values():
        yield log_of([codes.reset()])
        yield log


def due_of(program: str, logs: Dict[str, bytes]) -> List[Tuple[str, expected.Entry]]:
    """What is due of each packet of the joined logs, with the log that it is of."""
    found: List[Tuple[str, expected.Entry]] = []
    between = expected.entries(program, log_of([codes.reset()]))
    for name, log in logs.items():
        found += [("between two logs", entry) for entry in between]
        found += [(name, entry) for entry in expected.entries(program, log)]
    return found


def fields_of(due: List[Tuple[str, expected.Entry]]) -> List[str]:
    return sorted({field for _, entry in due for field in entry.fields})


def check_fields(checks: Checks, program: str, what: str, logs: Dict[str, bytes]) -> None:
    """Of whole logs."""
    due = due_of(program, logs)
    fields = fields_of(due)
    rows = tshark.rows(tshark.capture_of(joined(logs)), [*fields, INFO])
    checks.check(f"{what}: {len(rows)} packets, due are {len(due)}", len(rows) == len(due))
    told = 0
    for number, ((name, entry), row) in enumerate(zip(due, rows), 1):
        wrong = list(expected.differences(entry, row, INFO))
        told += bool(wrong)
        if told <= MOST_TOLD:
            checks.check(f"{name}, packet {number}: {'; '.join(wrong)}"[:1000], not wrong)
    checks.check(f"{what}: {told} of {len(due)} packets differ", told == 0)


def values_of(layers: object) -> Iterator[Tuple[str, str]]:
    """Each field that `-T json` has, wherever it stands."""
    for key, value in layers.items() if isinstance(layers, dict) else ():
        for each in value if isinstance(value, list) else [value]:
            yield from [(key, each)] if isinstance(each, str) else values_of(each)


def check_json(checks: Checks, program: str, logs: Dict[str, bytes]) -> None:
    """The same by `-T json`, of one log of each kind of entry."""
    name = "crates/fire_sessions/data/each_kind/log.version_1"
    due = expected.entries(program, logs[name])
    packets = json.loads(tshark.run(tshark.capture_of([logs[name]]), "-T", "json", "--no-duplicate-keys"))
    checks.check(f"{name} by -T json: {len(packets)} packets", len(packets) == len(due) > 10)
    for number, (entry, packet) in enumerate(zip(due, packets), 1):
        shown = list(values_of(packet["_source"]["layers"]["ieee1394"]))
        missing = [
            field
            for field, values in entry.fields.items()
            if not expected.are_same(values, [value.replace(":", "") if field == DATA else value for key, value in shown if key == field])
        ]
        checks.check(f"{name}, packet {number} by -T json: {missing}", not missing)

