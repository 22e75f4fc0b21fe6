"""What each packet must show: what the program says of its entry, by `json` and by `explain`."""

from __future__ import annotations

import json
import subprocess
from typing import Dict, Iterator, List, NamedTuple

LONGEST_INFO = 4095  # bytes that a column of Wireshark has
VERSION_AT = 7  # the byte of a log that has its version
PREFIX = "ieee1394."


class Entry(NamedTuple):
    """The values of each field of an entry, and its words."""

    fields: Dict[str, List[str]]
    words: str


def told(program: str, word: str, log: bytes) -> List[str]:
    """A line for each entry, of a damaged log too."""
    return subprocess.run([program, word], input=log, capture_output=True, check=False).stdout.decode().splitlines()


def texts(value: object) -> List[str]:
    if isinstance(value, list):
        return [text for inner in value for text in texts(inner)]
    if isinstance(value, bool):
        return [str(int(value))]
    return [str(value)] if value not in (None, "") else []


def flat(told_of: dict) -> Iterator[tuple]:
    """The fields of an object; those of the objects in a list are fields of that."""
    for key, value in told_of.items():
        if key in ("nodes", "self_ids"):
            for each in value:
                yield from ((f"{key}.{inner}", text) for inner, text in flat(each))
        else:
            yield key, texts(value)


def fields_of(told_of: dict) -> Dict[str, List[str]]:
    found: Dict[str, List[str]] = {}
    for key, value in flat(told_of):
        found.setdefault(PREFIX + key, []).extend(value)
    return found


def entries(program: str, log: bytes) -> List[Entry]:
    """Packets of version 2 have the epoch too, which `json` has of bus resets alone."""
    found, epoch = [], "0"
    for line, words in zip(told(program, "json", log), told(program, "explain", log)):
        fields = fields_of(json.loads(line))
        epoch = fields.get(f"{PREFIX}epoch", [epoch])[0]
        if log[VERSION_AT] == 2:
            fields[f"{PREFIX}epoch"] = [epoch]
        found.append(Entry(fields, words.split(" ", 1)[1][:LONGEST_INFO]))
    return found


def is_same(due: str, shown: str) -> bool:
    """Whether a value is shown: in the digits that `json` has, or as a number of these digits."""
    return shown == due or (shown.startswith("0x") and int(shown, 16) == int(due, 16))


def are_same(due: List[str], shown: List[str]) -> bool:
    return len(due) == len(shown) and all(map(is_same, due, shown))


def differences(due: Entry, row: Dict[str, List[str]], info: str) -> Iterator[str]:
    for field, shown in row.items():
        expected = due.fields.get(field, [])
        if field != info and not are_same(expected, shown):
            yield f"{field} is {shown}, due is {expected}"
    if row[info] != [due.words]:
        yield f"Info is {row[info]}, due is {due.words}"
