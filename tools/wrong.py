#!/usr/bin/env python3
"""Tries the wrong bodies that the gate does not: the contracts of their crate must refuse each.

    tools/wrong.py [CRATE ..]                  tries those of these crates, or of all
    tools/wrong.py --stale [CRATE ..]          tries those that may no longer be refused
    tools/wrong.py --check [CRATE ..]          tries none, and names the crates that have some of these; in seconds
    tools/wrong.py --from FOLDER [CRATE ..]    tries the edits FOLDER/CRATE/*.edit, and names those that are let through

They stand in crates/CRATE/wrong, in the form of those in must-fail, which the gate tries. The file `tried` beside them has the
checksums of what they were last refused on: of the crate, of what it can reach by names of the crates below (contracts, types, constants,
definitions, lemmas: reach.py), of the kit, and of each edit. A crate is stale if one of these is another one now; each run without --from
that finds edits refused writes it anew. Another kit alone makes --stale try them, and is told by --check, but is no fault of the
repository.

The crates and what stands below them are proved first, unless the toolchain has kept that they are; all take as long as the gate. This
needs Python 3.8, and rt on the PATH. The status is 0 if each is refused, or with --check no crate is stale, 1 if not, and 2 if it cannot
be told.
"""

import argparse
import pathlib
import re
import shutil
import subprocess
import sys
import tempfile

sys.dont_write_bytecode = True

import basis
import record

ROOT = pathlib.Path(__file__).resolve().parent.parent

# What a proof does not stand on, but for the edits.
ASIDE = shutil.ignore_patterns("out", "must-fail", "wrong")

# What the toolchain says of an edit.
SAID = re.compile(r"must-fail (\w+)/([\w.-]+\.edit): (refused, as it must be|NOT REFUSED|BAD EDIT|NOT TRIED)(.*)")
REFUSED = "refused, as it must be"
WEAK = ("(only because", "(only by")


def arguments():
    about = argparse.RawDescriptionHelpFormatter
    parser = argparse.ArgumentParser(prog="tools/wrong.py", description=__doc__, formatter_class=about, usage=argparse.SUPPRESS)
    how = parser.add_mutually_exclusive_group()
    how.add_argument("--stale", action="store_true", help="only those that may no longer be refused")
    how.add_argument("--check", action="store_true", help="name the stale crates, and try nothing")
    how.add_argument("--from", dest="folder", type=pathlib.Path, help="the edits of this folder, in a folder a crate")
    parser.add_argument("crates", nargs="*", metavar="CRATE")
    return parser.parse_args()


def edits_in(folder):
    return sorted(it for it in folder.glob("*.edit") if it.is_file()) if folder.is_dir() else []


def chosen(given, deps):
    """The edits that are asked for, by crate: those of a folder, or those of the repository."""
    at = (lambda it: given.folder / it) if given.folder else (lambda it: ROOT / "crates" / it / "wrong")
    if given.folder and not given.folder.is_dir():
        raise basis.Unreadable(f"there is no folder {given.folder}")
    unknown = [it for it in given.crates if it not in deps]
    if unknown:
        raise basis.Unreadable(f"crates.txt has no crate {unknown[0]}")
    found = {it: edits_in(at(it)) for it in dict.fromkeys(given.crates or sorted(deps))}
    lacking = [it for it in given.crates if not found[it]]
    if lacking or not any(found.values()):
        raise basis.Unreadable(f"no edits in {at(lacking[0]) if lacking else given.folder or ROOT / 'crates'}")
    return {crate: edits for crate, edits in found.items() if edits}


def copied(edits, to):
    """Copies what the gate reads, with these edits in the place where the gate looks for them, and no others."""
    for name in ("crates.txt", "HANDLES"):
        shutil.copy2(ROOT / name, to)
    shutil.copytree(ROOT / "crates", to / "crates", ignore=ASIDE)
    for crate, files in edits.items():
        (to / "crates" / crate / "must-fail").mkdir()
        for it in files:
            shutil.copy2(it, to / "crates" / crate / "must-fail")


def said_of(folder, crates):
    """Runs the toolchain over a copy, shows what it says itself, and answers what it says of each edit."""
    said = {}
    with subprocess.Popen(
        ["rt", "ci", *crates], cwd=folder, stdin=subprocess.DEVNULL, stdout=subprocess.PIPE, stderr=subprocess.STDOUT, text=True, errors="replace"
    ) as ran:
        for line in ran.stdout:
            found = SAID.search(line)
            if found:
                said[found[1], found[2]] = found[3], found[4].strip(": \n")
            if line.startswith("rt: "):
                print(line, end="", flush=True)
    return said


def told(edits, said):
    """Names each edit that is not refused, and each that is refused by less than a contract; answers those that are refused."""
    refused = {crate: [] for crate in edits}
    for crate, files in edits.items():
        for it in files:
            what, why = said.get((crate, it.name), ("NOT TRIED", "its crate is not proved, or the toolchain stopped"))
            if what == REFUSED:
                refused[crate].append(it)
            if what != REFUSED or why.startswith(WEAK):
                print(f"{crate}/{it.name}: {what.split(',')[0]} {why}".rstrip())
    count = sum(map(len, refused.values()))
    of = sum(map(len, edits.values()))
    print(f"{of} tried, {count} refused, {of - count} not")
    return refused, count == of


def tried(edits, is_kept):
    """Tries edits, by crate; if they are the repository's, writes what they were refused on. Answers whether each is refused."""
    with tempfile.TemporaryDirectory() as folder:
        copy = pathlib.Path(folder)
        copied(edits, copy)
        ground = basis.Ground(copy, basis.kit())
        sums = {it: {at.name: ground.of_edit(it, at) for at in edits_in(copy / "crates" / it / "must-fail")} for it in edits}
        stood = {it: ground.of(it) for it in edits}
        refused, are_all = told(edits, said_of(copy, list(edits)))
        for crate, files in refused.items() if is_kept else ():
            record.write(ROOT / "crates" / crate / "wrong", stood[crate], {it.name: sums[crate][it.name] for it in files})
    return are_all


def stale(edits, of_any_kit):
    """The edits that may no longer be refused, by crate, each crate named with the reason. Those that were last refused with another kit
    are among them, or, if any kit will do, are told and no more."""
    ground, found, others = basis.Ground(ROOT, basis.kit()), {}, 0
    for crate, files in edits.items():
        folder = ROOT / "crates" / crate / "wrong"
        stands_on = dict(ground.of(crate))
        if of_any_kit:
            others += record.is_of_another_kit(folder, ground.line)
            stands_on["kit"] = record.kit_of(folder)
        why, left = record.stale(folder, stands_on, {it: ground.of_edit(crate, it) for it in files})
        if left:
            print(f"{crate}: {why}; to be tried: {len(left)} of {len(files)}", flush=True)
            found[crate] = left
    if others:
        print(f"the wrong bodies of {others} crates were last refused with another kit than {ground.line}")
    return found


def run():
    given = arguments()
    deps = basis.deps_of(ROOT)
    edits = chosen(given, deps)
    if given.stale or given.check:
        crates, edits = len(edits), stale(edits, of_any_kit=given.check)
        print(f"{len(edits)} of {crates} crates with wrong bodies are stale")
    if given.check or not edits:
        return 1 if edits else 0
    return 0 if tried(edits, not given.folder) else 1


def main():
    try:
        return run()
    except (basis.Unreadable, OSError, shutil.Error) as error:
        print(f"tools/wrong.py: {error}", file=sys.stderr)
        return 2
    except KeyboardInterrupt:
        return 130


if __name__ == "__main__":
    sys.exit(main())
