"""The file `tried` beside a crate's wrong bodies: on what they were last refused, for `wrong.py`.

    # a line that is not read
    crate MARKS
    below MARKS
    kit LINE
    edit SUM NAME.edit

`crate` has a mark for each part of the crate's text, `below` one for each declaration that it reaches: if one of them is there no longer, it
changed, and if one is new that matters (`reach.py` says which). It is written by a run alone, and never by hand. What it lacks, or has in another form, counts as changed.
"""

import os

NAME = "tried"
HEAD = "# What the wrong bodies beside this file were last refused on. tools/wrong.py writes it.\n"
PARTS = {"crate": "its own text changed", "below": "what it reaches below it changed", "kit": "the kit is another one"}

# How many characters a mark has.
MARK = 4


def read(folder):
    """What is recorded, by name, and the sums of edits, by file; None if there is no record."""
    try:
        text = (folder / NAME).read_text(encoding="utf-8", errors="replace")
    except FileNotFoundError:
        return None
    parts, edits = {}, {}
    for line in text.splitlines():
        name, _, rest = line.partition(" ")
        if name == "edit":
            digest, _, file = rest.partition(" ")
            edits[file] = digest
        elif name in PARTS:
            parts[name] = rest
    return parts, edits


def kit_of(folder):
    """The kit with which a crate's edits were last refused; None if that is not recorded."""
    found = read(folder)
    return found[0].get("kit") if found else None


def is_of_another_kit(folder, line):
    return kit_of(folder) not in (None, line)


def marks_in(text):
    return {text[at : at + MARK] for at in range(0, len(text), MARK)}


def is_as_recorded(name, recorded, stands_on):
    """Whether a part is as it was: of what has marks, nothing is there no longer, and nothing of what matters is new."""
    if name == "kit":
        return recorded == stands_on[name]
    return marks_in(stands_on["new"][name]) <= marks_in(recorded) <= marks_in(stands_on[name])


def stale(folder, stands_on, sums):
    """Why a crate's edits are to be tried, and which: all if what they stand on changed, else those that are not recorded as they are.
    `sums` has those of the edits, by file."""
    found = read(folder)
    if found is None:
        return f"no record {folder.name}/{NAME}", list(sums)
    parts, edits = found
    for name, why in PARTS.items():
        if name not in parts:
            return f"{folder.name}/{NAME} has no line '{name}'", list(sums)
        if not is_as_recorded(name, parts[name], stands_on):
            return why, list(sums)
    return "edits that are not recorded as refused", [it for it, digest in sums.items() if edits.get(it.name) != digest]


def write(folder, stands_on, refused):
    """Records that edits were refused, by their names with their sums; those that were recorded on the same before stay, as far as they
    are there."""
    found = read(folder)
    stood = bool(found) and all(name in found[0] and is_as_recorded(name, found[0][name], stands_on) for name in PARTS)
    edits = found[1] if stood else {}
    edits = {name: digest for name, digest in edits.items() if (folder / name).is_file()}
    edits.update(refused)
    lines = [f"{name} {stands_on[name]}\n" for name in PARTS]
    lines += [f"edit {edits[name]} {name}\n" for name in sorted(edits)]
    new = folder / f".{NAME}.new"
    new.write_text(HEAD + "".join(lines), encoding="utf-8")
    os.replace(new, folder / NAME)
