"""A page of 500,000 entries: it opens, and is searched, filtered and scrolled, in seconds. It is long, so it is run by an argument."""

import time

from tests.browser import Browser, page_of, text_of

ENTRIES = 500000
SECONDS_TO_DRAW = 8  # of processor time of the browser's main thread


class Long(Browser):
    def lines(self):
        """The lines of a log between its first bus resets and its end, again and again, until there are enough entries."""
        lines = text_of("competing_decks").split("\n")[:-1]
        first = next(at for at, line in enumerate(lines) if '"kind":2,' in line)
        last = next(at for at, line in enumerate(lines) if '"kind":7,' in line)
        middle, end = lines[first:last], lines[last:]
        again = ENTRIES // sum(line.startswith("{") for line in middle)
        return "\n".join(lines[:first] + middle * again + end) + "\n"

    def test_half_a_million_entries(self):
        self.browser.execute_cdp_cmd("Performance.enable", {"timeDomain": "threadTicks"})
        self.show(page_of(self.lines()))
        metrics = {it["name"]: it["value"] for it in self.browser.execute_cdp_cmd("Performance.getMetrics", {})["metrics"]}
        self.assertGreater(self.js("return log.count"), ENTRIES * 0.99)
        self.assertLess(metrics["TaskDuration"], SECONDS_TO_DRAW)
        for act in ("view.scrollTo(layout.total / 2)", "onlyTrouble()", "onlyTrouble()", "goToEntry(400000)"):
            began = time.monotonic()
            self.js(act)
            self.assertLess(time.monotonic() - began, 20, act)
        self.assertTrue(self.js("return view.drawn.has(rows.rowOf[400000])"))
        self.browser.execute_async_script("search('swap made').then(arguments[0])")
        self.assertGreater(self.js("return found.rows.length"), 10000)
        self.quiet()
