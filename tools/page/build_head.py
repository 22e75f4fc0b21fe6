#!/usr/bin/env python3
"""Makes what a page begins and ends with, of src/ and tail.html.

    tools/page/build_head.py --write     writes the constants HEAD and TAIL, crates/fw_page/src/head.rt and tail.rt; and, for
                                         sessions, head.html and tail.html beside the lines of pages; and the examples' pages
    tools/page/build_head.py --check     compares them with what it would write
    tools/page/build_head.py --head      writes HEAD to standard output: with lines and tail.html after it, a page
    tools/page/build_head.py --script    the viewer alone, for who wants to look at it as one file

HEAD is the shell with the styles and the script in it, and with their hashes in its policy, so that a browser runs and
applies nothing else. The script is the files of src/viewer/ in the order below, which is that of use: each calls those
before it. The status is 0; 1 if a file is another than the sources say; 2 if no such option is there.
"""

import base64
import hashlib
import pathlib
import sys

HERE = pathlib.Path(__file__).resolve().parent
CRATE = HERE.parent.parent / "crates/fw_page/src"
SESSIONS = HERE.parent.parent / "crates/fire_sessions/data"
# The pages among the examples, each with the lines that it has.
EXAMPLES = {"bus_reset": "reset_between_half_steps", "competing_decks": "competing_decks"}
STYLES = "colours bar rows panel drawing screens print".split()
VIEWER = """terms dom scan data transactions streams rows buses holders watching account phrases words layout drawing nodes strip
summary row view overview search filters bar panel key print main""".split()

# The first characters of the lines of a log: no line of HEAD or TAIL begins with one.
MARKS = tuple("{=@~>:")

DOCUMENTED = '''\
//! What each page {verb} with. Made by `tools/page/build_head.py --write`; its `--check` compares.

/// {what}
pub const {name}: &str = r##"{text}"##;
'''
HEAD_IS = "Styles, the viewer, and the beginning of the element of lines."
TAIL_IS = "The end of the element of lines, and of the page."


def read(*names):
    return HERE.joinpath(*names).read_text()


def script():
    return "\n" + "\n".join(read("src/viewer", f"{name}.js") for name in VIEWER)


def style():
    return "\n" + "\n".join(read("src/style", f"{name}.css") for name in STYLES)


def digest(text):
    """As a policy names a script or a style."""
    return "sha256-" + base64.b64encode(hashlib.sha256(text.encode()).digest()).decode()


def in_shell(shell, parts):
    for name, part in parts.items():
        shell = shell.replace(f"{{{name}_HASH}}", digest(part))
    for name, part in parts.items():
        before, after = shell.split(f"{{{name}}}")
        shell = before + part + after
    return shell


def head():
    parts = {"STYLE": style(), "PLAIN": read("src/style/plain.css"), "SCRIPT": script()}
    wrong = [mark for part in parts.values() for mark in ("</script", "</style", "<!--") if mark in part]
    whole = in_shell(read("src/shell.html"), parts)
    wrong += [line for line in whole.split("\n") if line.startswith(MARKS) or not line.isascii()]
    if wrong:
        raise SystemExit(f"build_head: a head may not have these: {wrong[:3]}")
    return whole


def made():
    """The files that are made, each with its text."""
    begins, ends, pages = head(), read("tail.html"), SESSIONS / "pages"
    texts = {
        CRATE / "head.rt": DOCUMENTED.format(verb="begins", what=HEAD_IS, name="HEAD", text=begins),
        CRATE / "tail.rt": DOCUMENTED.format(verb="ends", what=TAIL_IS, name="TAIL", text=ends),
        pages / "head.html": begins,
        pages / "tail.html": ends,
    }
    for name, lines in EXAMPLES.items():
        texts[SESSIONS / f"examples/{name}.html"] = begins + (pages / f"{lines}.lines").read_text() + ends
    return texts


def check():
    stale = [path.name for path, text in made().items() if not path.exists() or path.read_text() != text]
    if stale:
        print(f"build_head: {', '.join(stale)}: not made of tools/page as it is: run tools/page/build_head.py --write", file=sys.stderr)
    return 1 if stale else 0


def write():
    for path, text in made().items():
        path.write_text(text)
    return 0


def main(words):
    if words == ["--head"]:
        sys.stdout.write(head())
    elif words == ["--script"]:
        sys.stdout.write(script())
    elif words in (["--write"], ["--check"]):
        return write() if words == ["--write"] else check()
    else:
        print(__doc__, file=sys.stderr)
        return 2
    return 0


if __name__ == "__main__":
    sys.exit(main(sys.argv[1:]))
