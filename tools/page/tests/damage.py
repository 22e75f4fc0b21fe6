"""Tests of what a page must bear: it was cut, its lines are damaged, it is taller than a browser draws."""

import re

import build_head
from tests.browser import ALL_ROWS, Browser, page_of, text_of

ODD = ["{", "{}", '{"cycle":}', '{"cycle":5', '{"cycle":-1,"kind":2}', '{"cycle":%s,"kind":7}' % ("9" * 400),
       '{"cycle":"18446744073709551615","kind":7}', '{"cycle":1,"kind":0}', '{"cycle":1,"kind":2,"tcode":99}', "x", "?", ">", "@", "~",
       "=", ":", ": ", ":__proto__ 1", "@     ", "~0 ? CHANNELS_AVAILABLE channels taken 99999", "@  1 ? 4 left: 70:deck 1, 5:",
       '{"cycle":1,"kind":5,"code":300}', '{"cycle":1,"kind":3,"channel":64}']

# A bus reset of which a part is not what it should be.
RESETS = [('"nodes"', '"knots"'), (r'"self_ids":\[', '"self_ids":[null,7,'), (r'"phy_id":\d+', '"phy_id":9999'),
          (r'"manager":\d+', '"manager":{}')]

IN_SIGHT = """const box = $('row' + arguments[0]).getBoundingClientRect(), sight = $('view').getBoundingClientRect();
return box.top >= sight.top - 1 && box.bottom <= sight.bottom + 1"""


class Damage(Browser):
    def says_that_it_was_cut(self, page):
        self.show(page)
        self.assertIn("not written to its end", self.top())
        self.assertIn("does not say how the log goes on", self.js("return textOf(rows.count - 1)"))
        self.js("for (let row = 1; row < rows.count; row++) { view.select(row); showPanel(row); } view.scrollTo(layout.total)")
        self.quiet()

    def test_a_page_that_was_cut(self):
        head = build_head.head()
        for name in ("competing_decks.script", "sixty_three_nodes", "nosy_play", "cut_in_a_stream"):
            lines = text_of(name)
            for part in range(12):
                with self.subTest(f"{name}, part {part}"):
                    self.says_that_it_was_cut(head + lines[: len(lines) * part // 12 + part])
            self.says_that_it_was_cut(head + lines[:-1])
            self.show(head + lines)
            self.assertNotIn("not written to its end", self.top())

    def test_a_page_that_was_cut_in_its_head(self):
        head = build_head.head()
        for at in (head.index("<script>") + 50, head.index("<div id=\"app\"")):
            self.load(head[:at])
            self.assertIn("the page was not written to its end", self.js("return document.body.innerText"))

    def test_damaged_lines(self):
        lines = text_of("competing_decks").split("\n")
        reset = next(line for line in lines if '"kind":1,' in line)
        odd = [line for line in ODD + [re.sub(old, new, reset) for old, new in RESETS] for _ in (0, 1)]
        middle = len(lines) // 2
        for page in ([*odd, *lines], [*lines[:middle], *odd, *lines[middle:]], odd):
            self.show(page_of("\n".join(page) + "\n"))
            self.assertEqual(self.js("return log.count"), sum(line.startswith("{") for line in page))
            self.assertEqual(self.js(ALL_ROWS), [])
            self.assertGreater(self.js("return layout.shown.filter(row => textOf(row).includes('not understood')).length"), 20)
            self.quiet()

    def test_a_line_of_ten_million_bytes(self):
        for start in ('{"cycle":1,"kind":2,"x":"', "=0 node 1 to node 2 label 3 ", "@   0 takes ", "~0 ? ", ">", "odd"):
            long = start + "a label 1 to " * 800000
            self.show(page_of(f'{{"cycle":0,"kind":7}}\n{long}\n' + text_of("empty")))
            self.assertEqual(self.js(ALL_ROWS), [])
            self.js("search('label')")
            self.wait("$('found').textContent !== '' && !$('found').textContent.endsWith('..')")
            self.quiet(start)

    def test_more_rows_than_a_browser_draws(self):
        head = build_head.head().replace("const TALLEST = 16e6;", "const TALLEST = 2500;")
        script = re.search("<script>(.*?)</script>", head, re.S).group(1)
        head = re.sub("script-src '[^']*'", f"script-src '{build_head.digest(script)}'", head)
        self.show(head + text_of("competing_decks") + build_head.read("tail.html"))
        self.assertEqual(self.js("return $('sheet').offsetHeight"), 2500)
        for row in (1, 40, 90, 130):
            self.js("view.select(arguments[0])", row)
            self.assertTrue(self.js(IN_SIGHT, row), row)
        self.key("End")
        self.assertTrue(self.js("return view.drawn.has(rows.count - 1)"))
        self.quiet()
