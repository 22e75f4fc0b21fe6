"""The logs that are looked at: those of the repository, one of each name, and those of scripts drawn at random."""

from __future__ import annotations

import pathlib
import random
import re
import subprocess
from typing import Dict, Iterator

from captures.log_reader import LogFault, Rest, read_log, version_of
from making import asking, codes, frames

ROOT = pathlib.Path(__file__).resolve().parents[3]
PLACES = ("examples/*.log", "tools/captures/vectors/*.log", "crates/fire_sessions/data/**/*")
WORDS = (0, 0xFFFFFFFF, 0x80000000, 0x803F807A, 0x8100A07A, 0x00001333, 0x7FFFFFFE, 0x12345678)
Logs = Dict[str, bytes]


def is_log(data: bytes) -> bool:
    try:
        return bool(version_of(Rest([data])))
    except LogFault:
        return False


def of_the_repository() -> Logs:
    paths = sorted({path for place in PLACES for path in ROOT.glob(place) if path.is_file()})
    read = ((path, path.read_bytes()) for path in paths)
    return {str(path.relative_to(ROOT)): data for path, data in read if is_log(data)}


def are_whole(logs: Logs) -> Logs:
    """Those that to_pcapng.py finds no fault in."""
    return {name: log for name, log in logs.items() if is_whole(log)}


def is_whole(log: bytes) -> bool:
    try:
        return bool(list(read_log([log])))
    except LogFault:
        return False


def of_each_name() -> Iterator[asking.Entry]:
    """Entries of each code, of each register with some words and swaps, and frames of each opcode."""
    yield codes.reset()
    yield from (*codes.packets(), *codes.events(), *codes.outcomes(), *codes.streams())
    for offset in (*range(0, 0x240, 4), *range(0x3FC, 0x418, 4), 0x7FC, 0x800, *range(0x8FC, 0xA04, 4), 0xB00, 0xD00, 0x1004, 0x1400):
        yield from (asking.request(4, offset), asking.request(5, offset, 4 << 16), asking.request(1, offset, 4 << 16, 0x00FFB27F))
        yield from answered_swaps(offset)
    for code in frames.BYTES:
        yield from (asking.frame(code % 17, address, code, *range(0x71, 0x71 + code % 7)) for address in (0x20, 0xFF, 0x18, 0xF0))
        yield from (asking.frame(0, code, 0xC3, 0x75), asking.frame(*range(code % 4)))


def answered_swaps(offset: int) -> Iterator[asking.Entry]:
    """Words written, and swaps with answers that say that they were made, or not."""
    for number, word in enumerate(WORDS):
        old, new = word, WORDS[number - 1]
        yield asking.write(offset, word)
        yield asking.swap(offset, old, new)
        found = old if number % 3 else new
        yield asking.PACKET, asking.quadlets(asking.NODES[0] | 11 << 4, asking.NODES[1], 0, 4 << 16 | 2, found)


def random_script(rng: random.Random) -> str:
    """Some decks that connect, command and reset each other."""
    count = rng.randrange(2, 6)
    lines = [f"device d{node} {rng.choice(('deck', 'camcorder', 'computer'))} 3 {rng.choice((100, 200, 400))}" for node in range(count)]
    lines += [f"cable d{node}.{rng.randrange(1, 3)} d{node + 1}.0" for node in range(count - 1)]
    lines += ["wait 8000"]
    for _ in range(rng.randrange(20, 90)):
        one, other = (f"d{rng.randrange(count)}" for _ in range(2))
        lines.append(
            rng.choice((
                f"connect {one} {one}.0 {other}.0 any {rng.randrange(16)}", f"broadcast {one} {other}.0 0", f"step {one} {rng.randrange(9)}",
                f"reset {one}", *[f"settle {rng.randrange(60)}"] * 4, f"break {one} 0", f"insert {one} {rng.randrange(99)} {rng.choice((525, 625))}",
                f"command {one} {other} {rng.choice(('0020C375', '0020C460', '01FF30FFFFFFFFFF', '012051710000FF'))}", f"die {one}",
                f"cycles {rng.randrange(4)}", f"wait {rng.choice((1, 800, 8000))}", f"read {one} {other} {rng.choice(('404', '40C', '900'))}",
                f"show {one} {rng.choice(('904', '220', '224', '21C'))}", f"swap {one} {other} 904 803F007A 813F007A", f"lose {one}",
            ))
        )
    return "\n".join([*lines, "end", ""])


def log_of_script(program: str, script: str) -> bytes:
    """Lines that are refused are left out."""
    lines = script.splitlines()
    while True:
        text = "\n".join([*lines, ""]).encode()
        ended = subprocess.run([program, "run"], input=text, capture_output=True, check=False)
        refused = re.match(rb"line (\d+): ", ended.stderr)
        if not refused:
            return ended.stdout
        del lines[int(refused[1]) - 1]


def of_random_scripts(program: str, count: int, seed: int = 1394) -> Logs:
    rng = random.Random(seed)
    return {f"random script {number}": log_of_script(program, random_script(rng)) for number in range(count)}
