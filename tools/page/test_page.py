#!/usr/bin/env python3
"""Tests of the page: of its files, and of the viewer in Chromium.

    tools/page/test_page.py                      the tests, and the fuzzer over 40 pages; two to three minutes
    tools/page/test_page.py full                 with 500,000 entries and 500 pages
    tools/page/test_page.py fuzz [PAGES [SEED]]  the fuzzer alone: pages of which lines are damaged
    tools/page/test_page.py -k WORD ..           the tests whose names have a word

They need Debian's packages chromium, chromium-driver and python3-selenium. If the first python3 of the path has no
selenium, another one that has is looked for, and runs them. Without a browser the tests of files are run, and it is said
that the others are skipped. The status is 0 if each test that was run passed.
"""

import importlib
import importlib.util
import os
import shutil
import subprocess
import sys
import unittest

HERE = os.path.dirname(os.path.abspath(__file__))
TESTS = ["files", "vectors", "use", "damage", "looks", "fuzz"]


def has_selenium(python):
    return subprocess.run([python, "-c", "import selenium"], capture_output=True, check=False).returncode == 0


def take_a_python_with_selenium():
    """Goes on as another python3, if this one has no selenium and another one has."""
    if importlib.util.find_spec("selenium"):
        return
    for folder in [*os.get_exec_path(), "/usr/bin"]:
        python = shutil.which("python3", path=folder)
        if python and os.path.realpath(python) != os.path.realpath(sys.executable) and has_selenium(python):
            os.execv(python, [python, *sys.argv])


def suites_of(words, lacking):
    """The suites that are asked for, of which those that need a browser are left out if there is none."""
    suites = ["fuzz"] if words[:1] == ["fuzz"] else [*TESTS, "long"] if words[:1] == ["full"] else TESTS
    if lacking:
        print(f"test_page: the tests in a browser are skipped, since these packages are not here: {' '.join(lacking)}", flush=True)
    return [f"tests.{suite}" for suite in suites if suite == "files" or not lacking]


def main(words):
    sys.dont_write_bytecode = True
    take_a_python_with_selenium()
    sys.path.insert(0, HERE)
    fuzz, browser = importlib.import_module("tests.fuzz"), importlib.import_module("tests.browser")
    suites, options = suites_of(words, browser.LACKING), words
    if words[:1] in (["full"], ["fuzz"]):
        fuzz.PAGES, options = 500, words[1:]
    if words[:1] == ["fuzz"]:
        (fuzz.PAGES, fuzz.SEED), options = [int(word) for word in options] + [fuzz.PAGES, fuzz.SEED][len(options) :], []
    ended = unittest.main(module=None, argv=[sys.argv[0], *options, *suites], exit=False)
    return 0 if ended.result.wasSuccessful() else 1


if __name__ == "__main__":
    sys.exit(main(sys.argv[1:]))
