"""Tests of what a user does: search, filters, keys, the panel, bus resets, the address."""

from tests.browser import Browser

STOPS = """const ids = [];
for (const e of document.querySelectorAll('a, button, input, select, summary, [tabindex]')) {
  if (e.tabIndex >= 0 && e.checkVisibility()) ids.push(e.id || e.tagName);
}
return ids"""

IS_OF_DEVICE_1 = """return layout.shown.filter(row => rows.kind[row] >= EXCHANGE && rows.kind[row] <= ANSWER).every(row => {
  const bus = busOf(rows.section[row]), e = rows.first[row];
  return [log.from[e], log.to[e]].some(id => (bus.nodes[id - LOCAL_BUS] || {}).device === 1); })"""


class Use(Browser):
    def test_search(self):
        self.open("competing_decks")
        self.js("$('query').value = 'swap made'; search('swap made')")
        self.wait("found.rows.length > 0")
        self.assertEqual(self.js("return found.rows.length"), 27)
        first = self.js("return view.selected")
        self.assertEqual(self.js("return $('found').textContent"), "1 / 27")
        self.key("n")
        self.assertEqual(self.js("return $('found').textContent"), "2 / 27")
        self.assertGreater(self.js("return view.selected"), first)
        self.key("p")
        self.assertEqual(self.js("return view.selected"), first)
        self.js("search('nothing has this')")
        self.wait("$('found').textContent === 'none'")
        self.quiet()

    def test_search_finds_what_watch_says(self):
        self.open("nosy_leak")
        self.js("search('node 0 takes channel 0')")
        self.wait("$('found').textContent === '1 / 1'")
        self.quiet()

    def test_only_trouble(self):
        self.open("competing_decks")
        self.key("t")
        kept = "return layout.shown.filter(row => rows.kind[row] > SECTION && !rows.trouble[row] && rows.kind[row] !== FINISH)"
        self.assertEqual(self.js(kept), [])
        self.assertEqual(self.js("return layout.shown.filter(row => rows.trouble[row]).length"),
                         self.js("return rows.troubles[AMBER] + rows.troubles[RED]"))
        self.key("t")
        self.assertEqual(self.js("return layout.shown.length"), self.js("return rows.count"))

    def test_filters(self):
        self.open("a_session_with_everything")
        self.js("$('filter').open = true")
        self.wait("$('show-read')")
        self.js("$('show-read').click()")
        self.assertEqual(self.js("return layout.shown.filter(row => classOf(row) === 'read').length"), 0)
        self.assertEqual(self.js("return $('filtered').textContent"), "1")
        self.js("filter.reset(); filter.device = 1; rearrange()")
        self.assertTrue(self.js(IS_OF_DEVICE_1))
        self.assertTrue(2 < self.js("return layout.shown.length") < self.js("return rows.count"))
        self.js("filter.reset(); filter.channel = 0; rearrange()")
        self.assertIn("channel 0", self.js("return layout.shown.slice(1).map(textOf).join()"))
        self.js("showAll()")
        self.assertEqual(self.js("return layout.shown.length"), self.js("return rows.count"))
        self.quiet()

    def test_select_panel_partner_and_mark(self):
        self.open("competing_decks")
        self.js("goToEntry(8); document.querySelector('#row' + rows.rowOf[8]).click()")
        self.js("$('panel').querySelector('details').open = true")
        self.wait("$('panel').querySelector('pre')")
        text = self.js("return $('panel').textContent")
        for words in ("Entry 8", "takes channel 5", '"tcode_name":"lock_request"', "fffff0000224", "Go to its answer, 14"):
            self.assertIn(words, text)
        self.js("[...$('panel').querySelectorAll('button')].find(button => button.textContent.startsWith('Go to')).click()")
        self.assertEqual(self.js("return view.selected"), self.js("return rows.rowOf[14]"))
        self.key("m")
        self.js("goToEntry(log.count - 1)")
        self.assertIn("16,000 cycles, 2 s", self.js("return $('between').textContent"))
        self.key("Escape")
        self.assertTrue(self.js("return $('panel').hidden"))
        self.key("ArrowUp")
        self.assertLess(self.js("return view.selected"), self.js("return rows.rowOf[log.count - 1]"))
        self.quiet()

    def test_a_run_opens_to_its_entries(self):
        self.open("nosy_lost_packets")
        self.js("view.select(rows.kind.indexOf(FLOW)); showPanel()")
        self.assertEqual(self.js("return $('panel').querySelectorAll('details').length"), 2)
        self.open("a_session_with_everything")
        self.js("view.select(rows.kind.indexOf(RUN)); showPanel()")
        listed = self.js("return $('panel').querySelectorAll('details').length")
        self.assertEqual(listed, self.js("const row = rows.kind.indexOf(RUN); return rows.last[row] - rows.first[row] + 1"))
        self.js("$('panel').querySelector('details').open = true")
        self.wait("$('panel').querySelector('details table')")
        self.quiet()

    def test_bus_resets_and_where(self):
        self.open("competing_decks")
        self.assertEqual(self.js("return $('resets').options.length"), 7)
        self.js("$('resets').value = '5'; $('resets').onchange()")
        self.assertIn("reset 5 of 6", self.js("return $('where').textContent"))
        self.key("]")
        self.assertIn("reset 6 of 6", self.js("return $('where').textContent"))
        self.key("[")
        self.assertIn("reset 5 of 6", self.js("return $('where').textContent"))

    def test_anchor(self):
        self.open("competing_decks", "#e100")
        self.assertEqual(self.js("return view.selected"), self.js("return rows.rowOf[100]"))
        for entry in (7, 120):
            self.js("goToEntry(arguments[0])", entry)
            self.wait(f"location.hash === '#e' + rows.first[rows.rowOf[{entry}]]")
        self.browser.refresh()
        self.wait("window.took !== undefined && view.selected === rows.rowOf[120]")
        self.quiet()

    def test_keyboard(self):
        self.open("competing_decks")
        self.assertEqual(self.js("return document.activeElement.id"), "view")
        self.key("?")
        self.assertTrue(self.js("return $('help').open && $('key').offsetHeight > 100"))
        self.key("Escape")
        self.assertFalse(self.js("return $('help').open"))
        self.js("goToEntry(8); showPanel()")
        stops = self.js(STOPS)
        self.assertEqual(stops[:8], ["resets", "query", "previous", "next", "trouble", "SUMMARY", "SUMMARY", "view"])
        self.assertIn("close", stops)
        self.assertLess(len(stops), 20)
        self.quiet()

    def test_names_of_a_script(self):
        self.open("competing_decks.script")
        self.assertEqual(self.js("return names"), ["a", "b", "c"])
        self.assertTrue(self.js("return document.title").startswith("FireWire: a, c, b"))
        self.js("goToEntry(15)")
        label = self.js("return $('row' + rows.rowOf[15]).getAttribute('aria-label')")
        self.assertIn("b to b", label)
        self.assertNotRegex(label, r"\b(deck|node|device) \d")
        self.assertIn("answers 13", label)
        self.js("goToEntry(16); showPanel()")
        self.assertIn("17 step b 2", self.js("return $('panel').textContent"))
        self.open("refused.script")
        self.assertIn("line 9: BadLine", self.js('return layout.shown.map(textOf).join("\\n")'))
        self.assertEqual(self.js("return document.querySelectorAll('script').length"), 1)
