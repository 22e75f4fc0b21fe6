#!/usr/bin/env python3
"""Runs the built program while memory, reads and writes fail, one at a time, and on long input; tells what is not as it should be.

    tools/faults.py [PROGRAM]

PROGRAM is crates/fire/out/fire, which ./fire builds. It needs Linux on x86-64 and Python 3.8, and takes some seconds. The status is
0 if all holds, 1 if something does not, and 2 if there is no program. It is no part of the gate: it shows of the program,
as it was built, what is proved of its calls.
"""

import pathlib
import sys

sys.dont_write_bytecode = True

from traced import Change, run  # noqa: E402

ROOT = pathlib.Path(__file__).resolve().parent.parent
EXAMPLES = sorted(it for it in (ROOT / "examples").glob("*.script") if not it.with_suffix(".note").exists())

# A script with a refused line, and what is due then.
REFUSED = b"device a deck 1 100\nshow manager 220\nend\nend\n"
NO_MEMORY, READ_FAULT, WRITE_FAULT = (8, b"no memory\n"), (5, b"read fault\n"), (6, b"write fault\n")

# How much more memory may be resident on long input than on short input, in kB.
SLACK = 128


class Report:
    """Counts the runs of a kind, and prints those that are not as they should be."""

    def __init__(self):
        self.wrong = 0

    def section(self, name, runs):
        count = 0
        for what, holds, ended in runs:
            count += 1
            if not holds:
                self.wrong += 1
                print(f"WRONG {name}, {what}: status {ended.status}, {len(ended.output)} bytes, {ended.errors!r}")
        print(f"{name}: {count} runs")


def is_front(ended, due, told):
    """The run ended so, and a prefix of what was due was written."""
    return (ended.status, ended.errors) == told and due.output.startswith(ended.output)


def is_same(ended, due):
    return (ended.status, ended.output, ended.errors) == (due.status, due.output, due.errors)


def growths(program, words, data):
    """Each growth is refused: the run ends for want of memory with a prefix, of `run` with nothing, or as without the refusal."""
    due = run(program, words, data, Change(growths=True))
    for number in range(1, due.calls + 1):
        ended = run(program, words, data, Change(growths=True, number=number))
        wanting = is_front(ended, due, NO_MEMORY) and (words != ["run"] or not ended.output)
        yield f"growth {number} of {words[0]}", wanting or is_same(ended, due), ended


def transfers(program, words, data, descriptor, told):
    """Each read or write fails, and the run ends so with a prefix; or it moves one byte, and the run ends as it would."""
    due = run(program, words, data, Change(descriptor=descriptor))
    for number in range(1, due.calls + 1):
        ended = run(program, words, data, Change(descriptor=descriptor, number=number))
        yield f"call {number} of {words[0]} fails", is_front(ended, due, told), ended
        ended = run(program, words, data, Change(descriptor=descriptor, number=number, short=True))
        yield f"call {number} of {words[0]} moves a byte", is_same(ended, due), ended


def notes(program):
    """The note of a refused line isn't written, or byte by byte."""
    due = run(program, ["run"], REFUSED, Change(descriptor=2))
    for number in range(1, due.calls + 1):
        ended = run(program, ["run"], REFUSED, Change(descriptor=2, number=number))
        yield f"write {number} of the note fails", (ended.status, ended.output) == (6, due.output), ended
        ended = run(program, ["run"], REFUSED, Change(descriptor=2, number=number, short=True))
        yield f"write {number} of the note moves a byte", is_same(ended, due), ended


def long_script(size):
    """A script of so many bytes: skipped lines, and commands that write and that do not."""
    first, last = b"device a deck 1 100\ndevice b deck 1 100\ncable a.0 b.0\n", b"end\n"
    block = b"# " + b"x" * 120 + b"\n\nwait 8000\nconnect a a.0 b.0 any 8\nsettle 20\nshow a 904\nbreak a 0\nsettle 20\n"
    blocks = (size - len(first) - len(last)) // len(block)
    script = first + blocks * block + last
    return script[: -len(last)] + b"\n" * (size - len(script)) + last


def lengths(program):
    """Long input is read in the memory of short input; the decoded log goes through each word."""
    short, long = long_script(1000), long_script(1_000_000)
    short_log, long_log = run(program, ["run"], short), run(program, ["run"], long)
    yield "a script of 1,000,000 bytes", long_log.status == 0 and long_log.resident <= short_log.resident + SLACK, long_log
    print(f"  run: {short_log.resident} kB resident on {len(short)} bytes, {long_log.resident} kB on {len(long)}")
    for word in ("decode", "dv"):
        little, much = run(program, [word], short_log.output), run(program, [word], long_log.output)
        yield f"{word} of its log", much.status == 0 and much.resident <= little.resident + SLACK, much
        print(f"  {word}: {little.resident} kB on {len(short_log.output)} bytes, {much.resident} kB on {len(long_log.output)}")


def sessions():
    """The examples, with the words that run them, and those that read their logs."""
    for path in EXAMPLES:
        yield path.stem, path.read_bytes()


def main(program):
    if not pathlib.Path(program).is_file():
        print(f"there is no {program}: ./fire builds it", file=sys.stderr)
        return 2
    report = Report()
    report.section("long input", lengths(program))
    report.section("a note that fails", notes(program))
    # The last flush is met before the note of the refused line is written.
    report.section("the log of a refused line", transfers(program, ["run"], REFUSED, 1, WRITE_FAULT))
    report.section("help: writes", transfers(program, ["help"], b"", 1, WRITE_FAULT))
    for name, script in sessions():
        log = run(program, ["run"], script)
        report.section(f"{name} runs", [("run", (log.status, log.errors) == (0, b""), log)])
        for words, data in ((["run"], script), (["decode"], log.output), (["dv"], log.output)):
            report.section(f"{name}, {words[0]}: growths", growths(program, words, data))
            report.section(f"{name}, {words[0]}: reads", transfers(program, words, data, 0, READ_FAULT))
            report.section(f"{name}, {words[0]}: writes", transfers(program, words, data, 1, WRITE_FAULT))
    print("all hold" if not report.wrong else f"{report.wrong} are wrong")
    return 1 if report.wrong else 0


if __name__ == "__main__":
    sys.exit(main(sys.argv[1] if len(sys.argv) > 1 else str(ROOT / "crates/fire/out/fire")))
