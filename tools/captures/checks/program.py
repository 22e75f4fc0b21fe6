"""With the program: it reads each log that the tools make, and the inputs of the vectors are what is made of its
logs."""

from __future__ import annotations

import subprocess
from typing import Dict

from ..making.inputs import Logs, inputs
from . import read_log
from .counted import Checks
from .tools import VECTORS

MOST = 600  # logs


def check_program(checks: Checks, program: str, logs: Dict[bytes, str]) -> None:
    """The status is 0, and there is a line an entry."""
    for log, what in list(logs.items())[:MOST]:
        if not log:  # none was made, which is told already
            continue
        ended = subprocess.run([program, "decode"], input=log, capture_output=True, check=False)
        lines = len(ended.stdout.splitlines())
        checks.check(f"{what}: decode, {ended.stderr!r}", ended.returncode == 0 and lines == len(read_log.read(log)))


def check_inputs(checks: Checks, program: str) -> None:
    """The inputs of the vectors are those that make_vectors.py makes."""

    def run(script: str) -> bytes:
        return subprocess.run([program, "run"], input=script.encode(), capture_output=True, check=False).stdout

    for name, data in inputs(Logs(run)).items():
        checks.check(f"{name} is what is made of the program's logs", data == (VECTORS / name).read_bytes())
