#!/usr/bin/env python3
"""Makes a log of the lines that `fire json` writes of one: the same bytes again.

examples:
  fire json < some.log | log_of_json.py > same.log
  fire json < some.log | jq -c 'select(.channel != 63)' | log_of_json.py > less.log

Each line is read by Python's parser of JSON, and its object by the layouts of
docs/LOG.md and of the standards: nothing here comes from the program. There is
no report but of a line that is none of `fire json`.
"""

import os
import sys

sys.path.insert(0, os.path.dirname(os.path.realpath(__file__)))  # a user may have Python leave it out
sys.dont_write_bytecode = True  # where it is installed, nothing comes beside it

from captures import interrupts  # noqa: E402

interrupts.end_quietly()  # before the rest is loaded, which takes longer

import json  # noqa: E402

from captures import frame, streams  # noqa: E402
from captures.tally import Tally  # noqa: E402

RESET = 1
NOBODY = 255
REQUESTS = {0, 1, 4, 5, 9}
CYCLE_START = 8
WITH_QUADLET = {0, 6, CYCLE_START}
WITH_LENGTH = {1, 5, 7, 9, 11}
INSERTED = 4
LONGEST_LINE = 1 << 20  # bytes, more than any that `fire json` writes


def packed(*fields):
    """Fields of (value, bits), the most significant first, as bytes."""
    value = total = 0
    for field, bits in fields:
        if not 0 <= field < 1 << bits:
            raise ValueError(f"{field} has more than {bits} bits")
        value, total = value << bits | field, total + bits
    return value.to_bytes(total // 8, "big")


def or_nobody(number):
    return NOBODY if number is None else number


def self_id(it):
    """A self-ID packet and its inverse."""
    ports = [(port, 2) for port in it["port_status"]]
    if it["extended"]:
        head = [(it["sequence"], 3), (0, 2), *ports, (0, 1)]
    else:
        head = [
            *[(it["link_active"], 1), (it["gap_count"], 6), (it["scode"], 2), (it["delay"], 2)],
            *[(it["contender"], 1), (it["power_class"], 3), *ports, (it["initiated_reset"], 1)],
        ]
    packet = packed((2, 2), (it["phy_id"], 6), (it["extended"], 1), *head, (it["more_packets"], 1))
    return packet + bytes(255 - byte for byte in packet)


def reset(it):
    nodes = it["nodes"]
    if [node["node"] for node in nodes] != list(range(len(nodes))):
        raise ValueError("the nodes are not in order")
    ends = [(it["root"], 8), (or_nobody(it["manager"]), 8), (it["initiator"], 8), (len(nodes), 8)]
    rows = [
        packed(*[(node[key], 8) for key in ("device", "output_plugs", "input_plugs", "device_kind")])
        for node in nodes
    ]
    return packed((it["epoch"], 32), *ends) + b"".join(rows) + b"".join(map(self_id, it["self_ids"]))


def packet(it):
    tcode = it["tcode"]
    heads = [(int(it["dst_id"], 16), 16), (it["tlabel"], 6), (it["retry"], 2), (tcode, 4), (it["priority"], 4)]
    if tcode in REQUESTS or tcode == CYCLE_START:
        rest = [(int(it["offset"], 16), 48)]
    else:
        rest = [(it["rcode"], 4), (0, 44)]
    head = packed(*heads, (int(it["src_id"], 16), 16), *rest)
    if tcode in WITH_LENGTH:
        head += packed((it["data_length"], 16), (it.get("extended_tcode", 0), 16))
    data = bytes.fromhex(it.get("data", ""))
    if tcode in WITH_LENGTH and "data" in it and len(data) != it["data_length"]:
        raise ValueError("data_length is another than that of the data")
    if tcode in WITH_QUADLET and len(data) != 4:
        raise ValueError("the data is no quadlet")
    return head + data + bytes(-len(data) % 4)


def isochronous(it):
    head = packed((it["data_length"], 16), (it["tag"], 2), (it["channel"], 6), (it["tcode"], 4), (it["sy"], 4))
    first = [(0, 2), (it["sid"], 6), (it["dbs"], 8), (it["fn"], 2), (it["qpc"], 3), (it["sph"], 1), (0, 2), (it["dbc"], 8)]
    return head + packed(*first, (2, 2), (it["fmt"], 6), (int(it["fdf"], 16), 24)) + bytes.fromhex(it["data"])


def event(it):
    tape = packed((it["tape"], 16), (it["system"], 16)) if it["code"] == INSERTED else b""
    return packed((it["code"], 8), (or_nobody(it["device"]), 8), (0, 16)) + tape


def outcome(it):
    return packed((it["code"], 8), (it["device"], 8), (it["slot"], 8), (0, 8)) + bytes.fromhex(it["value"])


def shown(it):
    below = int(it["offset"], 16) - 0xFFFF_F000_0000
    return packed((it["device"], 8), (0, 8), (below, 16)) + bytes.fromhex(it["word"])


BODIES = {1: reset, 2: packet, 3: isochronous, 4: event, 5: outcome, 6: shown, 7: lambda it: b""}


def log_in_parts(lines, version):
    """The header of the log of this version that these lines are of, and then each entry."""
    yield b"1394" + packed((version, 32), (0, 64))
    epoch = 0
    for line in lines:
        it = json.loads(line)
        body = BODIES[it["kind"]](it)
        epoch = it["epoch"] if it["kind"] == RESET else epoch
        stamp = [(epoch, 32)] if version == 2 else []
        yield packed((it["kind"], 8), (0, 8), (len(body) // 4, 16), *stamp, (int(it["cycle"]), 64)) + body


def log_of(lines, version):
    """The bytes of that log."""
    return b"".join(log_in_parts(lines, version))


def lines_of(source, tally):
    """The lines of standard input, counted."""
    while True:
        line = source.read_line(LONGEST_LINE)
        if not line:
            return
        tally.read += 1
        yield line


def work(options):
    tally = Tally()
    source, output = streams.standard_input(), streams.standard_output()
    try:
        for part in log_in_parts(lines_of(source, tally), int(options.version)):
            output.write(part)
    except (ArithmeticError, AttributeError, LookupError, RecursionError, TypeError, ValueError) as why:
        what = " ".join(f"{type(why).__name__}: {why}".split())
        tally.damage = f"line {tally.read}: no line of fire json ({what:.60})"
    return tally


def parser():
    words = frame.Parser("log_of_json", __doc__, "damaged: the log has the lines before")
    words.add_argument("version", nargs="?", choices=("1", "2"), default="2", help="the version of the log, 2 if left out")
    return words


TOOL = frame.Tool("log_of_json", None, parser(), work)


if __name__ == "__main__":
    sys.exit(frame.run(TOOL, sys.argv[1:]))
