#!/usr/bin/env python3
"""Looks at what the pages point at, by name: each file must be there.

    tools/pointers.py            the pages of this repository
    tools/pointers.py PREFIX     those that were installed below PREFIX, from where they lie

An installed page may name a file of the repository in a paragraph that says so, with the word `repository`. The status is 0 if nothing
is missing, and 1 if something is.
"""

import pathlib
import re
import sys

ROOT = pathlib.Path(__file__).resolve().parent.parent

# A path from the top, or a page by its name alone.
POINTER = re.compile(r"(?<![\w/.$-])((?:\.ci|docs|tools|crates|dist|examples|share/doc/fire)/[\w./*-]*|[A-Z]{3,}\.md\b)")

# What is no pointer: a part of the kernel's sources, names that stand for others, and a folder that is there only while something is in it.
OTHERS = re.compile(r"tools/firewire|.*/(CRATE|NAME)\b|tools/untried")

# Pages that are for who changes the code: they are not installed, or say that they are about the repository.
ABOUT_THE_REPOSITORY = "This page is about the repository"


def pages_here():
    tools = [path for pattern in ("from_*.py", "to_*.py", "log_of_json.py") for path in ROOT.glob(f"tools/{pattern}")]
    folders = [path for pattern in ("*.md", "docs/*.md", "docs/man/*", "examples/*.md", "tools/*.md") for path in ROOT.glob(pattern)]
    return sorted([*folders, *tools, ROOT / "tools/launcher/words.txt"])


def pages_installed(prefix):
    top = prefix / "share/doc/fire"
    pages = [path for pattern in ("*.md", "docs/*.md", "examples/*.md", "tools/*.py") for path in top.glob(pattern)]
    return sorted([*pages, *(prefix / "share/man").glob("man*/*"), prefix / "lib/fire/words.txt"])


def paragraphs(text):
    """Paragraphs, each item of a list and each row of a table as one of its own."""
    return re.split(r"\n\s*\n|\n(?=- |\||== |\.TP|\.SH)", text)


def is_there(pointer, page, top):
    """Whether the pointer, which may have a `*`, leads to something from one of the places that it may be meant from."""
    name = pointer.rstrip(".").rstrip("/")
    if name.startswith("share/doc/fire"):
        return any(top.parent.parent.parent.glob(name))
    folders = [page.parent, top, top / "docs"]
    return any(any(folder.glob(name)) for folder in folders if folder.is_dir())


def missing(page, top, is_installed):
    """The pointers of a page that lead nowhere."""
    text = page.read_text(encoding="utf-8")
    if is_installed and ABOUT_THE_REPOSITORY in text:
        return
    for paragraph in paragraphs(text):
        if is_installed and "repository" in paragraph:
            continue
        for pointer in POINTER.findall(paragraph):
            is_of_an_installation = pointer.startswith("share/") and not is_installed
            if not OTHERS.match(pointer) and not is_of_an_installation and not is_there(pointer, page, top):
                yield pointer


def main(words):
    prefix = pathlib.Path(words[0]) if words else None
    top = prefix / "share/doc/fire" if prefix else ROOT
    pages = pages_installed(prefix) if prefix else pages_here()
    wrong = [(page, pointer) for page in pages for pointer in missing(page, top, prefix is not None)]
    for page, pointer in wrong:
        print(f"WRONG {page.relative_to(prefix or ROOT)} points at {pointer}, which is not there")
    print(f"pointers: {len(pages)} pages, {len(wrong)} wrong")
    return 1 if wrong or len(pages) < 10 else 0


if __name__ == "__main__":
    sys.exit(main(sys.argv[1:]))
