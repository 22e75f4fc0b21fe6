#!/usr/bin/env python3
"""Checks the tools for captures: the vectors byte for byte, the laws on hostile captures, and what a user may do to
them.

    tools/captures/check.py [FIRE]

FIRE is the program (dist/fire, or crates/fire/out/fire, which ./fire builds): the logs that come out go through its
`decode` too, and the inputs of the vectors are made of its logs anew. nosy-dump and tshark are asked if they are
installed. This takes some seconds. The last line says how much passed and failed; the status is 0 if nothing failed,
1 if something did, and 2 if there is no such program.
"""

from __future__ import annotations

import pathlib
import shutil
import sys
from typing import Callable, Dict, List, Optional

sys.path[0] = str(pathlib.Path(__file__).resolve().parent.parent)

from captures.checks.as_real import check_as_real, check_laid  # noqa: E402
from captures.checks.cases import check_cases  # noqa: E402
from captures.checks.check_laws import check_laws  # noqa: E402
from captures.checks.counted import Checks  # noqa: E402
from captures.checks.growing import check_growing  # noqa: E402
from captures.checks.nodes_and_time import check_nodes_and_time  # noqa: E402
from captures.checks.outside import check_outside  # noqa: E402
from captures.checks.program import check_inputs, check_program  # noqa: E402
from captures.checks.users import check_users  # noqa: E402
from captures.checks.vectors import check_vectors, logs_of_vectors  # noqa: E402


def check_all(checks: Checks, program: Optional[str]) -> None:
    logs: Dict[bytes, str] = logs_of_vectors()
    groups = (check_vectors, check_cases, check_nodes_and_time, check_as_real, check_laid)
    for group in (*groups, check_users, check_growing, check_outside):
        attempt(checks, group, checks)
    attempt(checks, check_laws, checks, logs)
    if program is None:
        checks.skipped("decode of each log, since no program was named")
    else:
        attempt(checks, check_program, checks, program, logs)
        attempt(checks, check_inputs, checks, program)


def attempt(checks: Checks, group: Callable[..., None], *arguments: object) -> None:
    """A group of checks that cannot go on has failed."""
    try:
        group(*arguments)
    except Exception as fault:
        checks.check(f"{group.__name__} cannot go on: {type(fault).__name__}: {fault}", False)


def main(words: List[str]) -> int:
    if len(words) > 1 or (words and shutil.which(words[0]) is None):
        print(f"there is no program {' '.join(words)}", file=sys.stderr)
        return 2
    checks = Checks()
    check_all(checks, words[0] if words else None)
    print(f"{checks.passed} passed, {checks.failed} failed")
    return 1 if checks.failed else 0


if __name__ == "__main__":
    sys.exit(main(sys.argv[1:]))
