#!/usr/bin/env python3
"""Makes a log of the kernel's firewire trace events; `from_trace.py --help` says more, and docs/CAPTURES.md the rest."""

import os
import sys

sys.path.insert(0, os.path.dirname(os.path.realpath(__file__)))  # a user may have Python leave it out
sys.dont_write_bytecode = True  # where it is installed, nothing comes beside it

from captures import interrupts  # noqa: E402

interrupts.end_quietly()  # before the rest is loaded, which takes longer

from captures import frame, from_trace  # noqa: E402

if __name__ == "__main__":
    sys.exit(frame.run(from_trace.TOOL, sys.argv[1:]))
