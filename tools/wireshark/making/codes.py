"""The names of codes, as `json` has them: each key whose name is a key too."""

from __future__ import annotations

from typing import Dict, Iterator, List, Tuple

from .asking import EVENT, NODES, OUTCOME, PACKET, RESET, SHOWN, STREAM, Entry, Program, packet, quadlets, request

Codes = Dict[str, Dict[int, str]]

NOBODY = 255
EVENTS_WITHOUT_DEVICE, TAPE_EVENT, SYSTEMS = (1, 6, 8), 4, (525, 625)
EVENTS, OUTCOMES = range(1, 12), range(1, 13)
WITHOUT_VALUE = (2, 9)  # outcomes
REQUESTS_AND_RESPONSES = ((0, 4), (1, 4), (2, 3), (4, 3), (5, 4), (6, 4), (7, 4), (8, 4))  # and their quadlets
FUNCTIONS = {1: 8, 2: 8, 3: 4, 4: 4, 5: 8, 6: 8, 7: 4}  # of locks, with a length that each may have
VALUE = 0x12345


def reset() -> Entry:
    """A bus reset of four nodes of all kinds and speeds, with ports of all states."""
    rows = [node << 24 | node for node in range(4)]
    ports = (0x84, 0xC4, 0xC4, 0xD0)
    self_ids = [0x80000000 | node << 24 | 1 << 22 | node << 14 | ports[node] for node in range(4)]
    pairs = [word for self_id in self_ids for word in (self_id, self_id ^ 0xFFFFFFFF)]
    return RESET, quadlets(1, 0x03FF0004, *rows, *pairs)


def packets() -> Iterator[Entry]:
    for tcode, size in REQUESTS_AND_RESPONSES:
        yield packet(tcode, 0, 0, *([0] if size == 4 else []))
    for function, length in FUNCTIONS.items():
        yield request(9, 0, length << 16 | function, *[0] * (length // 4))
    yield packet(11, 0, 0, 2)
    for rcode in range(16):
        yield packet(2, rcode << 12, 0)
    for retry in range(4):
        yield PACKET, quadlets(NODES[1] | retry << 8 | 4 << 4, NODES[0], 0)


def event(code: int, tape: Tuple[int, ...] = ()) -> Entry:
    device = NOBODY if code in EVENTS_WITHOUT_DEVICE else 0
    return EVENT, quadlets(code << 24 | device << 16, *tape)


def events() -> Iterator[Entry]:
    for code in EVENTS:
        if code == TAPE_EVENT:
            yield from (event(code, (system,)) for system in SYSTEMS)
        else:
            yield event(code)


def outcome(code: int, value: int) -> Entry:
    return OUTCOME, quadlets(code << 24, 0 if code in WITHOUT_VALUE else value)


def outcomes() -> Iterator[Entry]:
    return (outcome(code, VALUE) for code in OUTCOMES)


def streams() -> Iterator[Entry]:
    """Isochronous packets with each first byte of FDF."""
    return ((STREAM, quadlets(0x000840A0, 0x00780000, 0x80000000 | first << 16)) for first in range(256))


def coded(value: object) -> Iterator[Tuple[str, int, str]]:
    """Each code with its name that is in an object."""
    if isinstance(value, dict):
        for key, inner in value.items():
            yield from coded(inner)
            names = value.get(f"{key}_name")
            pairs = zip(inner, names) if isinstance(names, list) else [(inner, names)]
            yield from ((key, code, name) for code, name in pairs if name is not None)
    elif isinstance(value, list):
        for inner in value:
            yield from coded(inner)


def formats(objects: List[dict]) -> Dict[int, str]:
    """The names of streams, by the first byte of FDF if FMT is 0."""
    named = [told for told in objects if told.get("format_name") is not None]
    return {int(told["fdf"][:2], 16): told["format_name"] for told in named}


def codes(program: Program) -> Codes:
    objects = program.objects([reset(), *packets(), *events(), *outcomes(), (SHOWN, quadlets(0, 0)), *streams()])
    found: Codes = {"format": formats(objects)}
    for told in objects:
        for key, code, name in coded(told):
            found.setdefault(told["kind_name"] if key == "code" else key, {})[code] = name
    return found
