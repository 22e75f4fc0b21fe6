"""Tests of how a page looks: widths, dark, paper, without scripts."""

import base64

from tests.browser import Browser, page_of, text_of


class Looks(Browser):
    def test_nothing_is_loaded_and_nothing_is_wide(self):
        for width, height in ((1280, 800), (800, 600), (390, 844)):
            self.size(width, height)
            for name in ("competing_decks", "sixty_three_nodes", "of_others", "empty"):
                self.open(name)
                self.js("view.scrollTo(layout.total / 2)")
                self.assertEqual(self.js("return performance.getEntriesByType('resource').length"), 0)
                self.assertLessEqual(self.js("return document.documentElement.scrollWidth"), width, (name, width))
                self.quiet(name)

    def test_more_columns_than_there_is_room_for(self):
        self.open("sixty_three_nodes")
        self.js("showAllNodes(true); rearrange(); goToSection(rows.sections.length - 2)")
        self.assertEqual(self.js("return busOf(rows.sections.length - 2).shown.length"), 63)
        self.js("$('view').scrollLeft = 1e5; view.draw()")
        words = "return document.querySelector('.packet .words').getBoundingClientRect().width"
        self.assertGreater(self.js(words), 180)
        self.quiet()

    def test_dark_and_light(self):
        ground = "return getComputedStyle(document.body).backgroundColor"
        self.size(1280, 800, "dark")
        self.open("competing_decks")
        dark = self.js(ground)
        self.size(1280, 800, "light")
        self.assertNotEqual(dark, self.js(ground))

    def test_print(self):
        self.open("competing_decks")
        pdf = base64.b64decode(self.browser.execute_cdp_cmd("Page.printToPDF", {})["data"])
        self.assertTrue(pdf.startswith(b"%PDF"))
        printed = self.js("return document.querySelectorAll('#printed tbody tr').length")
        self.assertEqual(printed, self.js("return layout.shown.length - 1"))
        self.quiet()

    def test_without_scripts(self):
        self.browser.execute_cdp_cmd("Emulation.setScriptExecutionDisabled", {"value": True})
        try:
            self.load(page_of(text_of("competing_decks")))
            self.assertIn("grep '^='", self.browser.find_element("css selector", "body noscript").text)
            self.assertIn("=8000 event second-over", self.browser.find_element("id", "log").text)
        finally:
            self.browser.execute_cdp_cmd("Emulation.setScriptExecutionDisabled", {"value": False})
