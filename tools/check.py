#!/usr/bin/env python3
"""Compares what people read with what the program does: its help, the examples, the commands that documents show with what they write, the
manual pages, JSON by another parser, and what `watch` and `audit` say of a thousand runs.

    tools/check.py [PROGRAM]

PROGRAM is dist/fire, which ships. .ci/run makes this check after the gate; it needs Python 3.8, and takes half a minute. The status is 0 if
all holds, 1 if something does not, and 2 if there is no program.
"""

import itertools
import os
import pathlib
import re
import select
import shlex
import shutil
import subprocess
import sys
import tempfile

sys.dont_write_bytecode = True

from log_of_json import log_of  # noqa: E402
from runs import COUNT, check_runs  # noqa: E402

ROOT = pathlib.Path(__file__).resolve().parent.parent
EXAMPLES = ROOT / "examples"
HELP = ROOT / "crates/fire_sessions/data/help.txt"
VERSION_AT = 7  # the byte of a log that has its version

# What a log without its end is told with: `explain` tells its entries first.
CUT_OFF = 4

# The words that tell what they were given before they wait for more, of a log that is this long at the least; and how long an answer may take.
TOLD_AT_ONCE = [["decode"], ["explain"], ["json"], ["convert", "1"], ["convert", "2"], ["holders"], ["watch"]]
LONG_LOG, SECONDS_FOR_AN_ANSWER = 2_000, 20

# How a body reads from a source, and who does so without passing on: the reader of scripts yet.
READ = re.compile(r"\bsource\s*\.read\(|\bSource::read\(")
READS_BY_ITSELF = ["crates/fw_script/src/reader/input.rt"]

# What completes words, what the manual pages say of them, and what the launcher's help of a word says; each word of the help is in all three.
COMPLETION = ROOT / "tools/completion.bash"
WORDS = ROOT / "tools/launcher/words.txt"
MANUAL = ROOT / "docs/man/fire.1"

# The format of logs, as the repository and as the manual have it.
FORMAT = ROOT / "docs/LOG.md"
FORMAT_MANUAL = ROOT / "docs/man/fire-log.5"

# The lines of scripts, as the repository and as the manual have them.
SCRIPTS = ROOT / "docs/SCRIPT.md"
SCRIPTS_MANUAL = ROOT / "docs/man/fire-script.5"

# The documents whose commands are tried. One is shown as a line `    $ COMMAND`, with lines `    > ..` if it has more than one, and below
# it what it writes to standard output, which may have empty lines within; all of a document are run in one folder, in which `./fire` is the program as the launcher calls it.
SHOWN = [
    "README.md",
    "docs/AUDIT.md",
    "docs/SCRIPT.md",
    "docs/RECIPES.md",
    "docs/CAPTURES.md",
    "docs/TEXTS.md",
    "docs/EXPLORE.md",
    "examples/README.md",
]
MAY_BE_MISSING = ["jq"]  # tools that a machine need not have: commands that use one of these are then skipped, and that is said
SHOWN_COMMAND = re.compile(r"^    \$ (.*\n(?:    > .*\n)*)((?:\n*    (?!\$ ).*\n)*)", re.M)

# How a script says what explores it, in a comment.
COMMAND_OF_EXPLORE = re.compile(r"^# \./fire (explore .*) < examples/", re.M)

# The marks of the lines in a page, with the words that they are of.
MARKS = {"{": "json", "=": "explain", "@": "holders", "~": "watch"}

# What a page that is read first may have.
FIRST_PAGE = ROOT / "README.md"
MOST_LINES, MOST_COLUMNS = 110, 100

# What each crate took in the gate; the launcher reads it.
SECONDS = ROOT / "tools/gate_seconds.txt"

wrong = 0


def due(what, holds):
    """Tells what does not hold."""
    global wrong
    if not holds:
        wrong += 1
        print(f"WRONG {what}")


def run(program, words, data=b""):
    ended = subprocess.run([program, *words], input=data, capture_output=True, check=False)
    return ended.returncode, ended.stdout, ended.stderr


def forms():
    """The forms of words that the help lists."""
    return re.findall(r"^  ([a-z]+(?: [a-zA-Z0-9]+)?) {2,}", HELP.read_text(), re.M)


def check_help(program):
    """The program's help and version are the launcher's, which needs no build, and the manual and the completion have each word."""
    text = HELP.read_bytes()
    for word in ("help", "--help", "-h"):
        due(f"help of the program: {word}", run(program, [word]) == (0, text, b""))
        due(f"help of the launcher: {word}", run(ROOT / "fire", [word]) == (0, text, b""))
    for word in ("version", "--version", "-V"):
        status, output, errors = run(ROOT / "fire", [word])
        due(f"version: {word}", run(program, [word]) == (status, re.sub(rb"build \w+\n", b"", output), errors))
    due("no words", run(program, []) == (2, b"", b"usage\n"))
    due("no words of the launcher", run(ROOT / "fire", []) == (2, b"", text))
    manual, completion = MANUAL.read_text(), COMPLETION.read_text()
    for form in forms():
        word = form.split()[0]
        due(f"{MANUAL.name} has no {form}", re.search(rf'^\.B[RI]? "?{word}\b', manual, re.M))
        due(f"{COMPLETION.name} has no {form}", re.search(rf"\b{word}\b", completion))
    check_words()


def check_words():
    """The launcher's help of a word is of each word, in its forms, and fits a terminal."""
    text = WORDS.read_text()
    told = dict(re.findall(r"^== (\w+)\n(.*?)(?=^== |\Z)", text, re.M | re.S))
    for form in forms():
        own = told.get(form.split()[0], "")
        due(f"{WORDS.name} has no {form}", re.search(rf"^fire {form}\b", own, re.M))
        due(f"{WORDS.name} says of {form} nothing of its statuses", re.search(r"^  0  ", own, re.M))
    due(f"{WORDS.name} has lines of more than 80 columns", all(len(line) <= 80 for line in text.splitlines()))


def check_paragraphs(program, script, explored):
    """Each paragraph of an exploration, put after the script, is a script that is carried out, and ends as it is told."""
    begin = script.read_text().replace("\nend\n", "\n")
    for paragraph in explored.read_text().split("\n\n")[1:]:
        status, log, _ = run(program, ["run"], (begin + paragraph).encode())
        lines = {it.split(" ", 1)[1] for it in run(program, ["explain"], log)[1].decode().splitlines()}
        told = [it[2:] for it in paragraph.splitlines() if it.startswith(("# outcome", "# event", "# shown"))]
        due(f"{explored.name}: a paragraph that does not end so: {paragraph}", status == 0 and told and lines.issuperset(told))


def check_example(program, script):
    """A script ends as it says, and its log and the words of that are beside it, if they are there."""
    log, words, note, trace, page, explored = (script.with_suffix(end) for end in (".log", ".txt", ".note", ".trace", ".html", ".explore"))
    told = note.read_bytes() if note.exists() else b""
    status, written, errors = run(program, ["run"], script.read_bytes())
    due(f"{script.name}: status {status}, {errors!r}", (status, errors) == (3 if told else 0, told))
    if log.exists():
        due(f"{log.name} is no log of {script.name}", written == log.read_bytes())
        ended = run(program, ["explain"], written)
        due(f"{words.name} is not what explains {log.name}", ended[:2] == (CUT_OFF if told else 0, words.read_bytes()))
    traced = run(program, ["trace"], script.read_bytes())
    due(f"{script.name}: trace ends with {traced[0]}, {traced[2]!r}", traced[::2] == (status, errors))
    if trace.exists():
        due(f"{trace.name} is not what traces {script.name}", traced[1] == trace.read_bytes())
    told_in = COMMAND_OF_EXPLORE.search(script.read_text())
    due(f"{script.name}: its comment has no command of explore", explored.exists() == bool(told_in))
    if explored.exists() and told_in:
        ended = run(program, shlex.split(told_in[1]), script.read_bytes())
        due(f"{explored.name} is not what {told_in[1]} writes", ended == (0, explored.read_bytes(), b""))
        check_paragraphs(program, script, explored)
    if page.exists():
        due(f"{page.name} is not the page of {log.name}", run(program, ["page"], written) == (0, page.read_bytes(), b""))
    if not told:
        status, verdict, _ = run(program, ["audit"], written)
        due(f"{script.name}: {verdict!r}", status == 0 and verdict.startswith(b"sound "))
    return written


def check_log(program, what, log):
    """Its objects are read by Python's parser, and make the same log again; so does converting it there and back."""
    status, lines, _ = run(program, ["json"], log)
    lines = lines.decode("ascii").splitlines()
    due(f"{what}: the objects make another log", log_of(lines, log[VERSION_AT]) == log)
    if status == 0:
        other = 3 - log[VERSION_AT]
        converted = run(program, ["convert", str(other)], log)[1]
        due(f"{what}: converted to {other}", log_of(lines, other) == converted)
        due(f"{what}: converted back", run(program, ["convert", str(3 - other)], converted)[1] == log)


def check_holders(program, what, log):
    """`holders` ends as `audit` does."""
    holders, audit = (run(program, [word], log) for word in ("holders", "audit"))
    due(f"{what}: holders ends with {holders[0]}, {holders[2]!r}", holders[::2] == audit[::2])


def check_silence(program, what, log):
    """Of a log of `run` that `audit` finds sound, `watch` tells no word that changed unseen, and no finding."""
    if run(program, ["audit"], log)[0] == 0:
        told = [it.split(b" ", 2)[1] for it in run(program, ["watch"], log)[1].splitlines()]
        due(f"{what}: watch finds something in a sound log", not {b"?", b"!"} & set(told))


def answers(program, words, parts):
    """Whether a word, of whose input each part comes when the one before was answered, has written all that it writes of the parts so far."""
    given = told = b""
    with subprocess.Popen([program, *words], bufsize=0, stdin=subprocess.PIPE, stdout=subprocess.PIPE, stderr=subprocess.DEVNULL) as waiting:
        for part in parts:
            waiting.stdin.write(part)
            given += part
            expected = run(program, words, given)[1]
            while len(told) < len(expected) and select.select([waiting.stdout], [], [], SECONDS_FOR_AN_ANSWER)[0]:
                told += waiting.stdout.read(len(expected) - len(told)) or expected
            if told != expected:
                return False
    return True


def check_answers(program, what, log):
    """A log that grows is told entry by entry, through pipes that stay open."""
    if len(log) < LONG_LOG:
        return
    parts = [log[at:at + 300] for at in range(0, LONG_LOG, 300)]
    for words in TOLD_AT_ONCE:
        due(f"{what}: {' '.join(words)} waits before it answers", answers(program, words, parts))


def check_page(program, what, log):
    """The lines of its page with a mark are what the word of that mark writes, and the last one says how the page ended."""
    status, page, note = run(program, ["page"], log)
    lines = page.decode("ascii").splitlines()
    for mark, word in MARKS.items():
        own = [line if mark == "{" else line[1:] for line in lines if line.startswith(mark)]
        due(f"{what}: the lines of {word} in its page", run(program, [word], log)[1].decode("ascii").splitlines() == own)
    told = f":log {status} {note.decode('ascii')}".strip()
    due(f"{what}: its page does not end with {told}", [line for line in lines if line.startswith(":")][-1:] == [told])
    due(f"{what}: its page has markup", not any("<" in line for line in lines if line.startswith((*MARKS, ":"))))


def logs_of_sessions():
    """The logs of the sessions that the gate runs."""
    for log in sorted((ROOT / "crates/fire_sessions/data").glob("*/log*")):
        yield f"{log.parent.name}/{log.name}", log.read_bytes()


def workshop(program, room):
    """A folder with what documents name: the examples, the tools, and `fire`, which is the program as the launcher calls it."""
    for name in ("docs", "examples", "tools"):
        (room / name).symlink_to(ROOT / name)
    call = ROOT / "tools/launcher/call.sh"
    (room / "fire").write_text(f"#!/bin/sh\nprogram='{program}' words='{WORDS}'\n. '{call}'\nhelp_of \"$@\"\ncall \"$@\"\n")
    (room / "fire").chmod(0o755)


def run_shown(command, room):
    """What a shown command writes to standard output, in this folder, in which `fire` is found too."""
    words = {**os.environ, "PATH": f"{room}:{os.environ['PATH']}", "LC_ALL": "C", "PYTHONDONTWRITEBYTECODE": "1"}
    ended = subprocess.run(["sh", "-c", command], cwd=room, env=words, stdin=subprocess.DEVNULL, capture_output=True, check=False)
    return ended.stdout.decode(errors="replace")


def first_difference(shown, written):
    """The first line that is another one, as it is shown and as it was written."""
    for line, other in itertools.zip_longest(shown.splitlines(), written.splitlines()):
        if line != other:
            return f"  shown {line!r}, written {other!r}"
    return ""


def check_document(program, name):
    """Each command of a document that is shown with what it writes writes that; how many there are."""
    shown = SHOWN_COMMAND.findall((ROOT / name).read_text())
    with tempfile.TemporaryDirectory() as folder:
        room = pathlib.Path(folder)
        workshop(program, room)
        for command, output in shown:
            missing = [it for it in MAY_BE_MISSING if re.search(rf"\b{it} ", command) and not shutil.which(it)]
            if missing:
                print(f"check: skipped in {name}, since there is no {missing[0]}: {command.splitlines()[0]} ..")
                continue
            written = run_shown(command.replace("\n    > ", "\n"), room)
            shown_there = re.sub(r"(?m)^    ", "", output)
            due(f"{name}: {command.strip()}\n{first_difference(shown_there, written)}", written == shown_there)
    return len(shown)


def check_first_page():
    """The first page fits: neither too long nor too wide."""
    lines = FIRST_PAGE.read_text().splitlines()
    wide = [number for number, line in enumerate(lines, 1) if len(line) > MOST_COLUMNS]
    due(f"{FIRST_PAGE.name} has {len(lines)} lines, and wider ones than {MOST_COLUMNS} at {wide}", len(lines) <= MOST_LINES and not wide)


def check_manual_examples(program):
    """Each example of the manual is a command that ends well."""
    examples = MANUAL.read_text().split(".SH EXAMPLES\n.nf\n")[1].split(".fi")[0]
    with tempfile.TemporaryDirectory() as folder:
        room = pathlib.Path(folder)
        workshop(program, room)
        for command in examples.splitlines():
            run_shown(f"{{ {command}; }} > written; echo $? >> statuses", room)
        statuses = (room / "statuses").read_text().split()
        due(f"{MANUAL.name}: statuses of its examples are {statuses}", statuses and set(statuses) == {"0"})


def numbered(text):
    """The numbers and names of a list such as `1 second-over, 2 died`, with blanks in names as hyphens."""
    return {int(number): re.sub(r"\s+", "-", name.strip()) for number, name in re.findall(r"(\d+)\s+([a-z][a-z\s-]*[a-z])", text)}


def check_manuals():
    """The manual of logs has the events and outcomes of docs/LOG.md, that of scripts the lines of docs/SCRIPT.md, and that of the program
    the statuses of README."""
    manual, text = FORMAT_MANUAL.read_text(), FORMAT.read_text()
    events = {int(code): name for code, name in re.findall(r"^\| (\d+) \| `([a-z-]+)` \|", text, re.M)}
    due(f"{FORMAT_MANUAL.name}: other events", events and numbered(manual.split(".SS Events")[1].split("Events 1")[0]) == events)
    outcomes = numbered(re.split(r"Outcomes\s+are\s", text)[1].split(";")[0])
    told = numbered(manual.split(".SS Outcomes")[1].split(".SH")[0])
    due(f"{FORMAT_MANUAL.name}: other outcomes", outcomes and told == outcomes)
    lines = re.findall(r"^- `(\w+(?: [A-Z]+)*)`", SCRIPTS.read_text().split("\n## Commands")[1].split("\n## ")[0], re.M)
    told = [" ".join(filter(None, it)) for it in re.findall(r"^\.B (\w+)(?: \\fI([A-Z ]+)\\fP)?$", SCRIPTS_MANUAL.read_text(), re.M)]
    due(f"{SCRIPTS_MANUAL.name}: other lines", lines and [it for it in told if it in lines] == lines)
    statuses = re.findall(r"^\| (\d+) \| ", (ROOT / "README.md").read_text(), re.M)
    exits = re.findall(r"^\.B (\d+)$", MANUAL.read_text().split(".SH EXIT STATUS")[1], re.M)
    due(f"{MANUAL.name}: other statuses", statuses and exits == statuses)


def check_reads():
    """Nothing but `fw_outside::ask`, which passes on what is kept back before it reads, reads from a source."""
    for path in sorted((ROOT / "crates").glob("*/src/**/*.rt")):
        crate = path.relative_to(ROOT / "crates").parts[0]
        if crate != "fw_outside" and not crate.startswith("fw_tests") and str(path.relative_to(ROOT)) not in READS_BY_ITSELF:
            due(f"{path.relative_to(ROOT)} reads from a source by itself", not READ.search(path.read_text()))


def check_seconds():
    """The seconds of the gate name each crate, and no other."""
    listed = [line.split()[0] for line in SECONDS.read_text().splitlines() if line and not line.startswith("#")]
    crates = re.findall(r"^(\w+):", (ROOT / "crates.txt").read_text(), re.M)
    due(f"{SECONDS.name} names other crates than crates.txt", sorted(listed) == sorted(crates))


def main(words):
    program = pathlib.Path(words[0] if words else ROOT / "dist/fire").resolve()
    if not program.is_file():
        print(f"there is no program {program}", file=sys.stderr)
        return 2
    check_help(program)
    check_manuals()
    check_seconds()
    check_reads()
    scripts = sorted(EXAMPLES.glob("*.script"))
    for script in scripts:
        log = check_example(program, script)
        check_log(program, script.stem, log)
        check_holders(program, script.stem, log)
        check_silence(program, script.stem, log)
        check_page(program, script.stem, log)
        check_answers(program, script.stem, log)
    kept = list(logs_of_sessions())
    for what, log in kept:
        check_log(program, what, log)
        check_holders(program, what, log)
        check_page(program, what, log)
        # Those that are laid by hand for `watch` have other labels, which an audit passes over.
        if not what.startswith("watch_"):
            check_silence(program, what, log)
    for it in check_runs(program):
        due(it, False)
    shown = sum(check_document(program, name) for name in SHOWN)
    due("the documents show no command", shown)
    check_manual_examples(program)
    check_first_page()
    print(f"check: {len(scripts)} examples, {len(kept)} logs of sessions, {COUNT} runs and {shown} shown commands, {wrong} wrong")
    return 1 if wrong else 0


if __name__ == "__main__":
    sys.exit(main(sys.argv[1:]))
