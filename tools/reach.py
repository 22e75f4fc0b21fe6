"""What a crate can reach by names of what the crates below it declare, for `basis.py`.

A declaration is an item of src, without comments and without the bodies of functions; a definition of specs; or a lemma of proofs,
without its proof. What the check of a crate takes of one below it takes by a name that stands in a text, or by the type of a value, and
a type stands in a declaration that was reached: tactics have no list of lemmas but what a text names and what the toolchain has. So what
a crate reaches is found by words: it is each declaration whose name is among the words of the crate's own text, each whose name is among
the words of these, and so on till nothing is new.

That is more than can matter, never less:
- a name counts wherever it stands, in a clause, a pattern, an attribute, a literal, and without its path; but a text reaches only its own
  crate, and those that stand in it or in what it brings in;
- functions are called in code alone. So one is reached by a word of the crate itself, or of what below it has code that is seen: macros,
  constants, types, `const fn`, and definitions that cite a function's contract; not by a clause or a definition that has the same word. A
  function that is no method is reached by a word of the crate itself only if that stands in a path or a `use`, or its file has a glob;
- a method that is no trait's is reached if a type of its `impl` is too. The `impl` of a trait is reached as a whole if a type or trait of
  its head is, since operators, `?`, `for` and formats name no method; if its head names nothing of the repository, it is reached by all;
- a trait goes by the names of its functions too, a data type of specs by its constructors, a module in braces by all that it has;
- what is not `pub` is reached by what the same crate declares, in specs and proofs by what the same file does;
- what a file brings in by `use` counts, with its path, in each declaration that has the name. What a file passes on to others counts as a
  declaration, but if it can lead to one alone: if it gives no other name, its path is in the repository, and one below has that name;
- what has none of these forms is reached by all.
Left out are the lines `mod`: a file counts as the crate's, named or not. And whether an item is `pub` is no part of its text, nor what
fields of a type its own crate alone sees, nor what a type derives: what was checked before it did compares and copies no value of it, and
if it does so no longer, what compares or copies one is refused by the gate.

A declaration that is reached since it was added is none that the refused text spoke of: that has a meaning without it, by the same paths,
and is refused as before. It counts only if it can take a call from another: if it is a method that has the name of a trait's function. So
it is with the parts of the crate's own text: each counts, a function with its body and its answers, and one more counts only so.
"""

import collections
import re

import declared
import scan

# The paths of a text of src and its lines `use`; and a glob among these.
PATHS = re.compile(r"\buse\s[^;]*;|(?:\w+::)+\w+")
GLOB = re.compile(r"\buse\s[^;\n]*\*")


def own_words(name, text):
    """The words of a file of the crate itself, without its comments, or of all of an edit; with those by which it calls."""
    if name.endswith(".antt"):
        words = declared.words_of(scan.without_notes(text))
        return words | declared.code_words(words) if "contracts" in words else words
    if name.endswith(".rt"):
        text = scan.without_comments(text)
    words = declared.words_of(text)
    paths = words if GLOB.search(text) else declared.words_of(" ".join(PATHS.findall(text)))
    return words.union((declared.METHOD + it for it in words), (declared.FUNCTION + it for it in paths))


def own_parts(files):
    """The parts of a crate's own files, each as a text that counts: the items of src, each function with its body and with what is proved
    of it, each file of answers by itself, the definitions of specs, and lemmas with their proofs; and those of which one more matters too."""
    proved = {}
    for name, text in files:
        folders = name.split("/")[1:-1] if name.startswith("proofs/") else ()
        for folder in folders:
            proved.setdefault(folder, []).append(f"{name}\n{scan.joined(scan.without_notes(text))}")
    answers = sorted(set().union(*proved.values()))
    found = [it for name, text in files if name.startswith("src/") for it in declared.Source(name, text, proved).found]
    found += [it for name, text in files if name.endswith(".antt") and name.count("/") == 1 for it in declared.Definitions(name, text).found]
    offered = frozenset().union(*(it.offers for it in found))
    covering = [it.text for it in found if it.gate and not it.offers and any(key in offered for _, key in it.names)]
    return sorted([*(it.text for it in found), *answers]), sorted(covering)


class Reach:
    """What the words of a text reach of crates, each of which is read once, by a function from its name to its files by part."""

    def __init__(self, crates, files_of):
        self.crates, self.files_of, self.read = frozenset(crates), files_of, {}

    def of(self, crate):
        """The declarations of a crate, each with the words that find it, the names that others find in it, and those of its types."""
        if crate not in self.read:
            parts = self.files_of(crate)
            files = [declared.Source(*it) for it in parts["src"]] + [declared.Definitions(*it) for it in parts["specs"]]
            files += [declared.Definitions(*it, are_lemmas=True) for it in parts["lemmas"]]
            found, hidden = [it for file in files for it in file.found], {"": set()}
            for scope, key in (name for it in found for name in it.names):
                hidden.setdefault(scope, set()).add(key)
            for it in found:
                it.crate, it.at, it.leads = crate, [self.place(crate, *name) for name in it.names], None
                it.plain = {key.split()[-1] for _, key in it.names}
                for scope in (crate, it.file):
                    it.words = it.words.union(f"{scope} {word}" for word in it.words & hidden.get(scope, frozenset()))
            self.read[crate] = found, hidden[""], {name for file in files for name in file.types}
        return self.read[crate]

    @staticmethod
    def place(crate, scope, key):
        """What finds a name: in its scope, everywhere for a method, or in texts that can name its crate."""
        return f"{scope} {key}" if scope else key if key.startswith(declared.METHOD) else f"{crate}.{key}"

    def names(self, crate):
        """The words by which a crate can be reached."""
        return {crate}.union(*((*(key for _, key in it.names), *it.gate) for it in self.of(crate)[0]))

    def found_by(self, words, *own):
        """What words find, of the crates that are among them, and of their own."""
        return words.union(f"{crate}.{word}" for crate in (self.crates & words).union(own) for word in words & self.of(crate)[1])

    def leads(self, it):
        """What a declaration leads to if it is reached."""
        if it.leads is None:
            it.leads = self.found_by(it.words, it.crate)
        return it.leads

    def reached(self, crates, words):
        """The texts of what is reached of these crates, in order; and those of them of which one more matters too: of methods that have the
        name of a trait's function, since such a method takes the calls of that."""
        here, types = [it for crate in crates for it in self.of(crate)[0]], set().union(*(self.of(crate)[2] for crate in crates))
        counts = collections.Counter(name for it in here if not it.passes_on for name in it.plain)
        waiting, known, taken, left = {}, set(), {}, set(self.found_by(words))
        for it in here:
            waiting.setdefault(it.crate, []).append((it, [at for at in (it.at, it.gate & types) if at]))
        while left:
            word = left.pop()
            known.add(word)
            for it, wanted in waiting.pop(word, ()):
                while wanted and not known.isdisjoint(wanted[0]):
                    wanted = wanted[1:]
                for name in wanted[0] if wanted else ():
                    waiting.setdefault(name, []).append((it, wanted))
                if not wanted and id(it) not in taken:
                    taken[id(it)] = it
                    left |= self.leads(it) - known
        offered = frozenset().union(*(it.offers for it in here))
        found = [it for it in taken.values() if not (it.passes_on and counts[min(it.plain)] == 1)]
        covering = [it for it in found if it.gate and not it.offers and any(key in offered for _, key in it.names)]
        return sorted(it.text for it in found), sorted(it.text for it in covering)
