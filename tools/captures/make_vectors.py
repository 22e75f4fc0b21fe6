#!/usr/bin/env python3
"""Makes the vectors anew: the inputs of the tools, of logs that FIRE writes of scripts, and what the tools make of
them.

    tools/captures/make_vectors.py FIRE

FIRE is the program (dist/fire, or crates/fire/out/fire, which ./fire builds). The names of the files that became
others are told, for `git diff` to show. The texts NAME.watch, and watch_requests_of_the_dead.log, are not made by
this.
"""

from __future__ import annotations

import pathlib
import subprocess
import sys
from typing import Dict, List

sys.path[0] = str(pathlib.Path(__file__).resolve().parent.parent)

from captures.checks.tools import VECTORS, run_here  # noqa: E402
from captures.checks.vectors import OUTPUT, vectors  # noqa: E402
from captures.making import odd_logs  # noqa: E402
from captures.making.inputs import Logs, inputs  # noqa: E402


def made(fire: str) -> Dict[str, bytes]:
    """All files, by name."""

    def run(script: str) -> bytes:
        return subprocess.run([fire, "run"], input=script.encode(), stdout=subprocess.PIPE, check=True).stdout

    files = inputs(Logs(run))
    for vector in vectors():
        ended = run_here(vector.tool, vector.words, files[vector.input])
        files[f"{vector.name}.{OUTPUT.get(vector.tool, 'log')}"] = ended.output
        files[f"{vector.name}.report"] = ended.report.encode()
    files.update({f"{name}.log": log() for name, log in odd_logs.LOGS.items()})
    return files


def main(words: List[str]) -> int:
    if len(words) != 1:
        print(__doc__, file=sys.stderr)
        return 2
    for name, data in sorted(made(words[0]).items()):
        path = VECTORS / name
        if not path.exists() or path.read_bytes() != data:
            path.write_bytes(data)
            print(name)
    return 0


if __name__ == "__main__":
    sys.exit(main(sys.argv[1:]))
