#!/usr/bin/env python3
"""Checks the dissector, and its tables of names, against the program: of each packet each field that tshark shows is
what `json` has, and the column Info has the words of `explain`.

    tools/wireshark/check.py [--scripts N] [--damaged N] [PROGRAM [LOG]...]

PROGRAM is dist/fire if none is named. Looked at are the logs of the repository, one that has each name, those of N
scripts drawn at random (20), N that are damaged (100), and those that are named. Without tshark the tables alone are
checked, and that is said. The last line says how much passed and failed; the status is 0 if nothing failed, 1 if
something did, and 2 if there is no such program.
"""

from __future__ import annotations

import argparse
import pathlib
import shutil
import sys
from typing import List

HERE = pathlib.Path(__file__).resolve().parent
sys.path[:1] = [str(HERE), str(HERE.parent)]
sys.dont_write_bytecode = True

import make_names  # noqa: E402
from captures.checks.counted import Checks  # noqa: E402
from checks import fields, hostile, links, logs  # noqa: E402
from making.asking import Program, log_of  # noqa: E402


def check_all(checks: Checks, options: argparse.Namespace) -> None:
    program = options.program
    checks.check(f"{make_names.NAMES.name} has the program's names", make_names.text(Program(program)) == make_names.NAMES.read_text())
    if not shutil.which("tshark"):
        checks.skipped("the dissector, since tshark is not installed")
        return
    repository = logs.of_the_repository()
    named = {path: pathlib.Path(path).read_bytes() for path in options.logs}
    fields.check_fields(checks, program, "each name", {"each name": log_of(logs.of_each_name())})
    fields.check_fields(checks, program, "the repository's logs", logs.are_whole({**repository, **named}))
    fields.check_fields(checks, program, "random scripts", logs.of_random_scripts(program, options.scripts))
    fields.check_json(checks, program, logs.are_whole(repository))
    links.check_links(checks)
    hostile.check_hostile(checks, repository, options.damaged)


def main(words: List[str]) -> int:
    parser = argparse.ArgumentParser(prog="check.py")
    parser.add_argument("--scripts", type=int, default=20)
    parser.add_argument("--damaged", type=int, default=100)
    parser.add_argument("program", nargs="?", default=str(HERE.parent.parent / "dist/fire"))
    parser.add_argument("logs", nargs="*")
    options = parser.parse_args(words)
    if shutil.which(options.program) is None:
        print(f"there is no program {options.program}", file=sys.stderr)
        return 2
    checks = Checks()
    check_all(checks, options)
    print(f"{checks.passed} passed, {checks.failed} failed")
    return 1 if checks.failed else 0


if __name__ == "__main__":
    sys.exit(main(sys.argv[1:]))
