#!/usr/bin/env python3
"""Makes a capture of dumpiso of a log; `to_isodump.py --help` says more, and docs/CAPTURES.md the rest."""

import os
import sys

sys.path.insert(0, os.path.dirname(os.path.realpath(__file__)))  # a user may have Python leave it out
sys.dont_write_bytecode = True  # where it is installed, nothing comes beside it

from captures import interrupts  # noqa: E402

interrupts.end_quietly()  # before the rest is loaded, which takes longer

from captures import frame, to_isodump  # noqa: E402

if __name__ == "__main__":
    sys.exit(frame.run(to_isodump.TOOL, sys.argv[1:]))
