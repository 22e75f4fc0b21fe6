"""The declarations of a file of src, specs or proofs, for `reach.py`, which says what counts of each and how it is found."""

import functools
import re

import scan

# ---- src: how an item begins, after its attributes
ATTRIBUTES = re.compile(r"(?:\s*#\[(?:[^][]|\[[^][]*\])*\])*\s*")
ITEM = re.compile(
    r"(?P<visible>pub(?:\([^)]*\))?\s+)?(?:unsafe\s+)?"
    r"(?:(?P<use>(?:ghost\s+)?use)\b|(?P<impl>impl)\b"
    r"|(?P<kind>const\s+fn|fn|struct|enum|union|const|static|type|trait|mod|macro_rules!|ghost)\s+(?P<name>\w+))"
)
DECLARED = re.compile(r"\b(fn|struct|enum|union|const|static|type|trait|mod|ghost)\s+(\w+)")
TYPES = ("struct", "enum", "union", "type", "trait")
FOR = re.compile(r"\bfor\b(?!\s*<)")

# What of a type no text uses that was checked without it: what it derives, and what its own crate alone may see.
DERIVED = re.compile(r"#\[derive\([^)]*\)\]\s*")
WITHIN = re.compile(r"\bpub\((?:crate|super)\)\s+")

# ---- specs and proofs: how a line at the left margin begins
LINE = re.compile(
    r"(?P<how>(?:(?:pub|abbrev|unfoldable) )*)(?:(?P<kind>use|mod|module|record|data|ruleset|mutual|open|unfolding) )?(?P<first>\S*)"
)
SIGNATURE = re.compile(r"\S+(?: \{[^}]*\}| \([^)]*\))* :(?:\s|$)")
INNER = re.compile(r"^\s+((?:(?:pub|abbrev|unfoldable) )*)(\S+)(?: \S+)* :(?:\s|$)", re.M)

# Where a function says its own name, which is no use of another that has it; and characters that words have.
OWN_NAME = re.compile(r"\bfn\s+\w+")
WORDS = re.compile(r"\w")

# A path that leads to a declaration of the repository.
INSIDE = re.compile(r"(?:crate|self|super|fw_\w+)::|Rattle\.fw_")

# What makes a word one that calls a method, and one that calls another function.
METHOD, FUNCTION = "method ", "function "


def words_of(text):
    return frozenset(scan.WORD.findall(text))


def code_words(words):
    return frozenset(how + it for it in words for how in ("", METHOD, FUNCTION))


def seen_of(item):
    """What others see of a type, without what it derives."""
    return WITHIN.sub("", DERIVED.sub("", item))


def key_of(name):
    """By which word a name is found: its longest; '' if it has none."""
    return max(scan.WORD.findall(name), key=len, default="")


@functools.lru_cache(maxsize=None)
def standing(part):
    """A part of a name as it stands in a text: one of other characters than words has is no part of a longer one."""
    return re.compile(re.escape(part) if WORDS.search(part) else rf"(?<![^\s()\[\]{{}},]){re.escape(part)}(?![^\s()\[\]{{}},;])")


class Brought:
    """What a file brings in: by the words of its names, the paths, each with its own words."""

    def __init__(self):
        self.at = {}

    def add(self, name, path):
        self.at.setdefault(key_of(name), []).append((name.split("◌"), path, words_of(path)))

    def to(self, text, words):
        """The paths of what can stand in a text, and their words."""
        found = [it for key in self.at.keys() & {"", *words} for it in self.at[key] if all(standing(part).search(text) for part in it[0] if part)]
        return sorted(path for _, path, _ in found), words.union(*(more for _, _, more in found))


class Declaration:
    """A text that counts if it is reached: by one of its names, if it has any, and by a word of its gate, if that has any. A name has a
    scope, the crate or file whose words alone find it, or ''. `offers` are the calls by which a trait's functions are found."""

    offers = frozenset()

    def __init__(self, file, text, names, gate=frozenset(), has_code=False, passes_on=False):
        used = OWN_NAME.sub("", text)
        paths, words = file.brought.to(used, words_of(used))
        self.words = code_words(words) if has_code or "contracts" in words else words
        self.names, self.gate, self.passes_on = [(scope, key) for scope, key in names if key], gate, passes_on
        self.file, self.text = file.name, "\n".join([file.name, text, *paths])


class Source:
    """The declarations of a file of src, and the names of its types; with the bodies of its functions, and what `proved` has of each by its
    name, if that is given."""

    def __init__(self, name, text, proved=None):
        self.proved = proved
        items = [(it, self.start(it)) for it in scan.items(scan.without_comments(text))]
        self.name, self.found, self.types, self.brought = name, [], set(), Brought()
        self.modules = {found["name"] for _, found in items if found and found["kind"] == "mod"}
        for it, found in items:
            for name, path in scan.imports(it) if found and found["use"] else ():
                self.brought.add(name, path)
            if it.lstrip().startswith("#!"):
                self.brought.add("", it.strip())
        for it, found in items:
            self.item(it, found)

    @staticmethod
    def start(item):
        return ITEM.match(item, ATTRIBUTES.match(item).end())

    def put(self, text, scope, keys, **more):
        self.found.append(Declaration(self, scan.trimmed(text), [(scope, key) for key in keys], **more))

    def item(self, text, found, head="", gate=frozenset()):
        """Puts an item; one of an `impl` with the head of this, and what it brings in, and its gate."""
        if not found:
            return self.put(head + text, "", [], has_code=True)
        kind, name, visible = found["kind"], found["name"], found["visible"] or ""
        bare = text[: found.start()] + text[found.start() + len(visible) :]
        scope = "" if visible.strip() == "pub" or "macro_export" in text[: found.start()] else self.name.partition("/")[0]
        if kind in TYPES:
            self.types.add(name)
        if found["use"]:
            self.passed(text if visible or self.modules else "", scope)
        elif found["impl"]:
            self.implementation(text, text[found.start() :])
        elif kind == "trait" or (kind == "mod" and scan.block_of(text)[1] is not None):
            call = METHOD if kind == "trait" else FUNCTION
            keys = [call + it if how == "fn" else it for how, it in DECLARED.findall(text)]
            self.put(self.bodiless(bare) if kind == "trait" else bare, scope, keys, has_code=True)
            self.found[-1].offers = frozenset(keys if kind == "trait" else ())
        elif kind == "fn":
            self.put(head + self.function(bare, name), scope, [(METHOD if head else FUNCTION) + name], gate=gate)
        elif kind != "mod":
            bare = seen_of(bare) if kind in TYPES else bare
            self.put(head + bare, scope, code_words({name}), gate=gate, has_code=True)

    def passed(self, use, scope):
        for name, path in scan.imports(use) if use else ():
            key, is_inside = key_of(name), INSIDE.match(path) or path.partition("::")[0] in self.modules
            self.put(path, scope, code_words({key} - {""}), passes_on=bool(is_inside and key and " as " not in path))

    def implementation(self, text, bare):
        gate = words_of(scan.block_of(bare)[0])
        if FOR.search(scan.block_of(bare)[0]):
            self.put(self.bodiless(text), "", [], gate=gate, has_code=True)
        else:
            head, inner = scan.block_of(text)
            inside = [(it, self.start(it)) for it in scan.items(inner)]
            head += "".join(it for it, found in inside if found and found["use"])
            for it, found in inside:
                self.item(it, found, head, gate)

    def function(self, text, name):
        return scan.block_of(text)[0] if self.proved is None else "\n".join([text, *self.proved.get(name, ())])

    def bodiless(self, text):
        """A trait, or the `impl` of one, without the bodies of its functions, unless they count."""
        if self.proved is not None:
            return text
        head, inner = scan.block_of(text)
        inside = [(it, self.start(it)) for it in scan.items(inner or "")]
        return "\n".join([head, *(scan.block_of(it)[0] if found and found["kind"] == "fn" else it for it, found in inside)])


class Definitions:
    """The declarations of a file of specs, or of one of lemmas, without the proofs of these."""

    types = frozenset()

    def __init__(self, name, text, are_lemmas=False):
        self.name, self.are_lemmas, self.brought, self.begun, self.at, self.found = name, are_lemmas, Brought(), [], {}, []
        lines = [(it, LINE.match(it)) for it in scan.lines(text)]
        for it, found in lines:
            for name, path in scan.imports(it) if found["kind"] == "use" else ():
                self.brought.add(name, path)
        for it, found in lines:
            self.line(it, found)
        self.found += [Declaration(self, scan.joined("\n".join(parts)), names) for names, _, parts in self.begun]

    def line(self, text, found):
        kind, how, first = found["kind"], found["how"], found["first"]
        if kind == "use" and how:
            for name, path in scan.imports(text):
                passes_on = bool(INSIDE.match(path) and " as " not in path and key_of(name))
                self.found.append(Declaration(self, path, [("", key_of(name))], passes_on=passes_on))
        elif kind in ("unfolding", "open") or not (how or kind or SIGNATURE.match(text)):
            self.goes_on(text, first)
        elif kind not in ("use", "mod"):
            inner = INNER.finditer(text) if kind in ("data", "module", "mutual") else ()
            names = [(how, first), *((how if kind == "data" else it[1], it[2]) for it in inner)]
            is_whole = not self.are_lemmas or bool(kind) or "abbrev" in how or "unfoldable" in how
            bare = how.replace("pub ", "") + text[found.end("how") :]
            self.begun.append(([(self.scope(how), key_of(it)) for how, it in names], is_whole, [bare]))
            self.at[first] = self.begun[-1]

    def scope(self, how):
        return "" if "pub" in how or self.name.endswith("/Lib.antt") else self.name

    def goes_on(self, text, first):
        """A line of what was begun: of that with this name, if there is one, or of the last."""
        if not self.begun:
            self.begun.append(([], True, []))
        _, is_whole, parts = self.at.get(first, self.begun[-1])
        if is_whole:
            parts.append(text)
