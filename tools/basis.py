"""What it stands on that a crate's contracts refuse a wrong body: checksums of it, for `wrong.py`.

A crate's own part is all that its proof reads of it: src, specs and proofs, without comments. Of the crates below it counts what it can
reach by names, as `reach.py` says, beginning with the words of its own part, each declaration by a mark of its own; an edit that reaches more than its crate has that in its own
sum. The kit is its line, as `rt version` says it.
"""

import base64
import functools
import hashlib
import subprocess

import reach
import record

PARTS = ("src", "specs", "proofs")


class Unreadable(Exception):
    """The repository's files are not as they have to be."""


def text_of(path):
    try:
        return path.read_text(encoding="utf-8")
    except (OSError, UnicodeDecodeError) as error:
        raise Unreadable(f"cannot read {path}: {error}") from error


def deps_of(root):
    """The libraries that each crate of crates.txt names, those of the kit too."""
    found = {}
    for line in text_of(root / "crates.txt").splitlines():
        head, mark, deps = line.partition("#")[0].partition(":")
        if mark and head.split():
            found[head.split()[0]] = deps.split()
    return found


def below(crate, deps):
    """The crates of the repository that a crate stands on, in the order of the alphabet."""
    found, left = set(), [crate]
    while left:
        new = [it for it in deps[left.pop()] if it in deps and it not in found]
        found.update(new)
        left += new
    return sorted(found)


def files_of(folder, *parts):
    found = [it for part in parts for it in (folder / part).rglob("*") if it.suffix in (".rt", ".antt") and it.is_file()]
    return sorted(found)


def sum_of(parts):
    made = hashlib.sha256()
    for it in parts:
        made.update(f"{len(it)}\n{it}".encode())
    return made.hexdigest()[:32]


def marks_of(texts):
    """A mark of four characters for each text, in order, without a space between them."""
    return b"".join(sorted(base64.b64encode(hashlib.sha256(it.encode()).digest()[: record.MARK * 3 // 4]) for it in set(texts))).decode()


def kit():
    """The line of the kit."""
    try:
        ran = subprocess.run(["rt", "version"], stdout=subprocess.PIPE, stderr=subprocess.STDOUT, errors="replace", check=False)
    except OSError as error:
        raise Unreadable(f"cannot run rt: {error}") from error
    if ran.returncode or not ran.stdout.strip():
        raise Unreadable("rt version says nothing")
    return ran.stdout.strip().splitlines()[0]


class Ground:
    """A tree of the repository, as what refusals stand on."""

    def __init__(self, root, line):
        self.root, self.line, self.deps = root, line, deps_of(root)
        self.reach, self.kept = reach.Reach(self.deps, self.declaring), {}
        self.names = functools.lru_cache(maxsize=None)(self.reach.names)

    def own(self, crate, *parts):
        """The files of a crate, each by its place in it, with its text."""
        folder = self.root / "crates" / crate
        return [(str(it.relative_to(folder)), text_of(it)) for it in files_of(folder, *parts)]

    def declaring(self, crate):
        """The files that declare what those above can reach, by part, each by its place in the repository, with its text."""
        files = {part: [(f"{crate}/{name}", text) for name, text in self.own(crate, part)] for part in PARTS}
        lemmas = [it for it in files["proofs"] if it[0].count("/") == 2]
        return {"src": files["src"], "specs": files["specs"], "lemmas": lemmas}

    def of(self, crate):
        """What the refusals of a crate's wrong bodies stand on, by name."""
        if crate not in self.kept:
            files = self.own(crate, *PARTS)
            if not files:
                raise Unreadable(f"crates/{crate} has no src, specs or proofs")
            words = frozenset().union(*(reach.own_words(*it) for it in files))
            reached, covering = self.reach.reached(below(crate, self.deps), words)
            own, more = reach.own_parts(files)
            sums = {"crate": marks_of(own), "below": marks_of(reached), "kit": self.line}
            self.kept[crate] = {**sums, "new": {"crate": marks_of(more), "below": marks_of(covering)}}, words, reached
        return self.kept[crate][0]

    def of_edit(self, crate, file):
        """A sum of an edit: of its bytes, and of what it reaches that its crate does not."""
        self.of(crate)
        crates, (_, words, reached) = below(crate, self.deps), self.kept[crate]
        text = file.read_bytes()
        digest = hashlib.sha256(text).hexdigest()[:32]
        new = reach.own_words(file.name, text.decode(errors="replace")) - words
        can_lead_on = any(new & self.names(it) for it in crates)
        more = set(self.reach.reached(crates, words | new)[0]).difference(reached) if can_lead_on else ()
        return sum_of([digest, *sorted(more)]) if more else digest
