#!/usr/bin/env python3
"""Wrong edits of the viewer that test_page.py must refuse: each is made in a copy, and the tests that are named must fail there.

    tools/page/planted.py [WORD ..]      all, or those whose file or sentence has a word

It needs a browser, as test_page.py does, and takes some ten minutes. The status is 0 if each edit is refused.
"""

import pathlib
import re
import shutil
import subprocess
import sys
import tempfile

HERE = pathlib.Path(__file__).resolve().parent

# What is wrong, the file, the text that stands there once, what stands there then, and the tests that refuse it.
EDITS = (
    ("a swap that was not made counts as made", "transactions.js",
     "words.includes(', no swap') ? 'hm' : ''", "words.includes(', no swap') ? 'yes' : ''", "test_each_vector"),
    ("an answer joins a request of another label", "transactions.js", "* 64 + label", "* 64", "test_each_vector"),
    ("a further entry of a run has no row", "streams.js",
     "      build.rowOf[e] = run.row;\n", "      if (build.rowOf[e - 1] !== run.row) build.rowOf[e] = run.row;\n", "test_each_vector"),
    ("the offset is read a digit early", "data.js", "fffff0000'; ", "fffff000';  ", "test_each_vector"),
    ("the strip is by holders though it stopped", "account.js", "!end.stopped && ", "", "who_vouches"),
    ("locks that holders has not judged do not matter", "account.js", "!end.notJudged && ", "", "not_judged"),
    ("swaps that holders did not see do not matter", "account.js", "!watched.missed && ", "", "who_vouches"),
    ("a channel that is taken unseen has no lane", "watching.js",
     "words.startsWith('? CHANNELS_AVAILABLE')", "words.startsWith('? NOTHING')", "watch_at"),
    ("only trouble keeps other rows", "layout.js", "if (this.onlyTrouble && !rows.trouble[row]) return false;",
     "if (this.onlyTrouble && !rows.trouble[row] && kind > RUN) return false;", "only_trouble"),
    ("a filter of devices keeps those of node 1", "layout.js", "return node >= 0 && (log.from[e] - LOCAL_BUS === node",
     "return node >= 0 && (log.from[e] - LOCAL_BUS === 1", "filters"),
    ("search passes over what watch says", "words.js", ", ...linesOf(log.watched, first, last)", "", "search_finds"),
    ("text is put as markup", "dom.js", "made.textContent = text;", "made.innerHTML = text;", "data_goes"),
    ("a page that was cut is as whole", "rows.js", "whole = end && end.status === 0;", "whole = !end || end.status === 0;", "was_cut"),
    ("a page that was cut in its last line is whole", "data.js", "if (isWhole) keepEnding", "keepEnding", "was_cut"),
    ("nobody is told that a page was cut in its head", "../shell.html", "(If this stays, the page was not written to its end.)", "",
     "in_its_head"),
    ("names of devices are counted from 1", "buses.js", "names[device] ||", "names[device - 1] ||", "names_of"),
    ("a damaged line stops the reading", "scan.js", "    this.fine = false;\n    return 0;", "    throw new Error(key);", "damaged_lines"),
    ("a bus reset without its nodes is taken as whole", "buses.js", "Array.isArray(x) ? x.filter(Boolean) : []", "x", "damaged_lines"),
    ("the selected row is not in the address", "bar.js", "whenSelected.push(sayBetween, shareRow);",
     "whenSelected.push(sayBetween);", "anchor"),
    ("grey is too light to read", "../style/colours.css", "--dim: #586474", "--dim: #98a4b4", "contrast"),
)


def is_refused(file, old, new, tests):
    """Whether the tests fail with an edit that is made in a copy, which has the vectors of the repository."""
    with tempfile.TemporaryDirectory() as folder:
        root = pathlib.Path(folder)
        (root / "crates").symlink_to(HERE.parent.parent / "crates")
        copy = root / "tools/page"
        shutil.copytree(HERE, copy, ignore=shutil.ignore_patterns("__pycache__"))
        path = copy / "src/viewer" / file
        text = path.read_text()
        if text.count(old) != 1:
            raise SystemExit(f"planted: {path.name} has this {text.count(old)} times: {old}")
        path.write_text(text.replace(old, new))
        ran = subprocess.run([sys.executable, copy / "test_page.py", "-k", tests], capture_output=True, text=True, check=False)
        if "skipped, since" in ran.stdout:
            raise SystemExit(ran.stdout.strip())
        return ran.returncode == 1 and re.search("^(FAIL|ERROR): test", ran.stderr, re.M) is not None


def main(words):
    missed = 0
    for what, file, old, new, tests in EDITS:
        if words and not any(word in f"{file} {what}" for word in words):
            continue
        refused = is_refused(file, old, new, tests)
        missed += not refused
        print(f"{what}: {'refused by ' + tests if refused else 'NOT REFUSED'}", flush=True)
    return 1 if missed else 0


if __name__ == "__main__":
    sys.exit(main(sys.argv[1:]))
