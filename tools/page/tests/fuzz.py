"""Damaged pages: lines of the vectors are edited at random, one to six edits a page. Of each page: no message in the console, each
entry has a row, each row can be shown with its panel; search, filters and print run."""

import random

from tests.browser import ALL_ROWS, Browser, page_of, text_of, vectors

PAGES = 40
SEED = 1394
VALUES = ("9007199254740993 -1 1e999 0.5 null true \"x\" [] {} [null] {\"a\":{\"b\":[1,null]}} 65535 65536 4294967296 255 63 64".split()
          + ["1" + "0" * 400, ""])
LINES = """{ {} {"cycle":0} {"cycle":1,"kind":9} {"cycle":"9007199254740993","kind":7} [] x = @ ~ > : :log {"__proto__":{"cycle":1}} \\ "
&lt;b&gt; --> ]]>""".split() + ["", ":log 9 x", ":holders 9 entry 1: NoMove", "@99 x", "~5 ! x", ">    1 device a deck 1 100", "\0", "\u2028",
                                "\ud83d\ude00", "~1 ? CHANNELS_AVAILABLE channels taken 1 2 3 64 999999999999",
                                "@judged 1 read, not judged 1 lock with labels other than 0: see watch"]
MARKS = '{=@~>:x "'
ODD_CHARACTERS = [0, 9, 34, 38, 44, 58, 62, 92, 123, 125, 160, 8232, 65533, 127]
SEARCH = """const done = arguments[0];
filter.device = 0; filter.channel = 0; rearrange(); filter.reset(); onlyTrouble(); onlyTrouble(); fillPrint();
view.scrollTo(layout.total); view.scrollTo(0); $('filter').open = true;
search('a').then(() => { nextMatch(1); nextTrouble(1); done(); });"""


def with_another_value(line, chosen):
    colons = [at for at, c in enumerate(line) if c in ": "]
    if not colons:
        return line
    at = chosen.choice(colons) + 1
    end = min([found for found in (line.find(c, at) for c in ", }]") if found >= 0] or [len(line)])
    return line[:at] + chosen.choice(VALUES) + line[end:]


def damaged(line, chosen):
    """One line, edited."""
    at, to = sorted(chosen.randrange(len(line) + 1) for _ in (0, 1))
    edits = (
        lambda: line[:at] + line[at + 1 :],
        lambda: line[:at] + chr(chosen.choice(ODD_CHARACTERS)) + line[at:],
        lambda: line[:at],
        lambda: line[:at] + line[to:],
        lambda: chosen.choice(MARKS) + line[1:],
        lambda: chosen.choice(LINES),
        lambda: line * 2,
        lambda: "".join(chr(chosen.randrange(32, 127)) for _ in range(chosen.randrange(80))).replace("<", "?"),
        lambda: with_another_value(line, chosen),
    )
    return chosen.choice(edits)()


def damaged_page(lines, chosen):
    """A part of a vector, of which some lines are edited, and some are elsewhere."""
    first = chosen.choice([0, chosen.randrange(len(lines))])
    lines = lines[: chosen.randrange(12)] + lines[first : first + 90] + lines[-2:]
    for _ in range(chosen.randint(1, 6)):
        at, other, which = chosen.randrange(len(lines)), chosen.randrange(len(lines)), chosen.randrange(8)
        if which == 0:
            lines[at], lines[other] = lines[other], lines[at]
        elif which == 1:
            lines.insert(at, lines[other])
        elif which == 2 and len(lines) > 3:
            del lines[at]
        elif which == 3:
            lines.insert(at, chosen.choice(LINES))
        else:
            lines[at] = damaged(lines[at], chosen)
    return lines


class Fuzz(Browser):
    def test_damaged_pages(self):
        chosen = random.Random(SEED)
        texts = {name: text_of(name).split("\n")[:-1] for name in vectors()}
        for number in range(PAGES):
            name = chosen.choice(list(texts))
            lines = damaged_page(texts[name], chosen)
            with self.subTest(f"page {number} of {name}"):
                self.show(page_of("\n".join(lines) + "\n"))
                self.assertEqual(self.js("return log.count"), sum(line.startswith("{") for line in lines))
                self.assertEqual(self.js(ALL_ROWS), [])
                self.browser.execute_async_script(SEARCH)
                self.quiet()
