"""Splits texts of src, specs and proofs into items, for `reach.py`: by comments, literals and brackets, and no deeper."""

import functools
import re

WORD = re.compile(r"\w+")

LITERAL = r"""b?r(?P<hash>\#*)".*?"(?P=hash)|b?"(?:\\.|[^"\\])*"|b?'(?:\\(?:x\w\w|u\{\w+\}|.)|[^'\\\n])'"""

# Of src: comments; brackets, and where the clauses of a function begin. Each beside the literals, in which there are none.
COMMENTS = re.compile(rf"(?P<comment>//[^\n]*|/\*.*?\*/)|{LITERAL}", re.S)
MARKS = re.compile(rf"(?P<mark>[][(){{}};])|(?P<clause>\b(?:requires|ensures)\b)|{LITERAL}", re.S)

# Of specs and proofs: comments, and what stands for one space; likewise.
NOTES = re.compile(r'(?P<comment>(?<!\S)--[^\n]*)|"(?:\\.|[^"\\\n])*"')
SPACES = re.compile(r'(?P<space>\s+)|"(?:\\.|[^"\\\n])*"')

# What a block ends, unless it is a clause's; all else ends at a semicolon.
BLOCKS = re.compile(
    r"(?:\s*#!?\[(?:[^][]|\[[^][]*\])*\])*\s*(?:pub(?:\([^)]*\))?\s+)?(?:unsafe\s+)?"
    r"(?:(?:const\s+)?fn|struct|enum|union|trait|impl|mod|\w+!)(?:\b|(?=[\s{]))"
)
INNER_ATTRIBUTE = re.compile(r"\s*#!\[(?:[^][]|\[[^][]*\])*\]")


def without_comments(text):
    return COMMENTS.sub(lambda it: " " if it["comment"] else it[0], text)


def without_notes(text):
    return NOTES.sub(lambda it: "" if it["comment"] else it[0], text)


def trimmed(text):
    """A text without the layout of its lines."""
    return "\n".join(it for it in map(str.strip, text.splitlines()) if it)


def joined(text):
    """A text of specs or proofs in one line."""
    return SPACES.sub(lambda it: " " if it["space"] else it[0], text)


def tops(text, begin=0):
    """Each mark that stands in no bracket, with the place after it, from a place on; not the brackets of a clause."""
    depth, is_clause = 0, False
    for it in MARKS.finditer(text, begin):
        mark = it["mark"]
        if it["clause"] and not depth:
            is_clause = True
        if not mark:
            continue
        opens = mark in "{(["
        depth += opens - (mark in "})]")
        if depth != opens:
            continue
        if not is_clause:
            yield it.end(), mark
        elif mark == "}":
            is_clause = False


def items(text):
    """The items of a text without comments, in order; together they are the text."""
    begin = 0
    while found := INNER_ATTRIBUTE.match(text, begin):
        yield found[0]
        begin = found.end()
    for end, mark in tops(text, begin):
        if mark == ";" or (mark == "}" and BLOCKS.match(text, begin)):
            yield text[begin:end]
            begin = end
    if text[begin:].strip():
        yield text[begin:]


def block_of(item):
    """What stands before an item's first block and in it; the block is None if there is none."""
    begin = None
    for end, mark in tops(item):
        if mark == "{":
            begin = end
        if mark == "}":
            return item[: begin - 1], item[begin : end - 1]
    return item, None


@functools.lru_cache(maxsize=None)
def imports(use):
    """The names that a line `use` brings, each with its path; a glob has the name ''."""
    stack, path, parts, found = [], "", [], []

    def ended():
        if parts:
            whole = path + parts[0]
            name = re.split(r"::|\.", whole.replace("::self", ""))[-1] if len(parts) == 1 else parts[-1]
            found.append(("" if name == "*" else name, " ".join([whole, *parts[1:]])))
        parts.clear()

    for it in re.findall(r"[{},;]|[^\s{},;]+", re.split(r"\buse\b", use, maxsplit=1)[1]):
        if it == "{":
            stack.append(path)
            path += parts.pop() if parts else ""
        elif it == "}":
            ended()
            path = stack.pop()
        elif it in ",;":
            ended()
        else:
            parts.append(it)
    ended()
    return found


def lines(text):
    """The lines of specs or proofs at the left margin, each with those that it goes on in."""
    found = []
    for it in without_notes(text).splitlines():
        if it.strip() and (it[0].isspace() or it[0] in "})]") and found:
            found[-1] += "\n" + it
        elif it.strip():
            found.append(it)
    return found
