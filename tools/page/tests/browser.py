"""Chromium without a window, and pages to show in it: HEAD, the lines of a vector, TAIL."""

import pathlib
import shutil
import tempfile
import unittest

import build_head

HERE = build_head.HERE
# Lines of logs stand with the sessions, whose program writes them; those of scripts here.
VECTORS = (HERE.parent.parent / "crates/fire_sessions/data/pages", HERE / "vectors")
CHROMIUM = next(filter(None, map(shutil.which, ("chromium", "chromium-browser", "google-chrome"))), None)
DRIVER = shutil.which("chromedriver")
try:
    from selenium import webdriver
    from selenium.webdriver.chrome.service import Service
except ImportError:
    webdriver = None
PACKAGES = {"chromium": CHROMIUM, "chromium-driver": DRIVER, "python3-selenium": webdriver}
LACKING = [package for package, there in PACKAGES.items() if not there]
ARGUMENTS = ("--headless=new", "--no-sandbox", "--disable-gpu", "--disable-dev-shm-usage", "--window-size=1280,800")

# Shows each row with its panel; answers those that are not drawn, and entries without a row.
ALL_ROWS = """const lost = [];
for (let row = 1; row < rows.count; row++) {
  view.select(row); showPanel();
  const box = $('row' + row);
  if (!box || !box.textContent && rows.kind[row] !== RUN || box.offsetHeight < 1 || $('panel').hidden) lost.push('row ' + row);
}
for (let e = 0; e < log.count; e++) if (rows.rowOf[e] < 1) lost.push('entry ' + e);
return lost"""

WAIT = """const done = arguments[0], end = Date.now() + 60000;
(function look() { if (%s) done(); else if (Date.now() > end) throw "%s"; else setTimeout(look, 20); })();"""


def vectors():
    """The names of the vectors, each with the file of its lines."""
    return {path.name[: -len(".lines")]: path for folder in VECTORS for path in sorted(folder.glob("*.lines"))}


def text_of(name):
    return vectors()[name].read_text()


def lines_of(name, mark):
    """The lines of a mark; without it, but for those of `json`, of which it is the first character."""
    return [line if mark == "{" else line[1:] for line in text_of(name).split("\n")[:-1] if line[0] == mark]


def page_of(lines):
    return build_head.head() + lines + build_head.read("tail.html")


def start_browser():
    options = webdriver.ChromeOptions()
    options.binary_location = CHROMIUM
    for argument in ARGUMENTS:
        options.add_argument(argument)
    options.set_capability("goog:loggingPrefs", {"browser": "ALL"})
    browser = webdriver.Chrome(service=Service(DRIVER), options=options)
    browser.set_script_timeout(120)
    browser.set_page_load_timeout(300)
    return browser


@unittest.skipIf(LACKING, "no browser here")
class Browser(unittest.TestCase):
    """One browser for the tests of a class; after each its window is as before."""

    @classmethod
    def setUpClass(cls):
        cls.browser = start_browser()
        cls.folder = tempfile.TemporaryDirectory()
        cls.path = pathlib.Path(cls.folder.name) / "x.html"
        cls.size(1280, 800)

    @classmethod
    def tearDownClass(cls):
        cls.browser.quit()
        cls.folder.cleanup()

    @classmethod
    def size(cls, width, height, scheme="light"):
        metrics = {"width": width, "height": height, "deviceScaleFactor": 1, "mobile": width < 600}
        cls.browser.execute_cdp_cmd("Emulation.setDeviceMetricsOverride", metrics)
        cls.browser.execute_cdp_cmd("Emulation.setEmulatedMedia", {"features": [{"name": "prefers-color-scheme", "value": scheme}]})

    def tearDown(self):
        self.size(1280, 800)
        self.browser.get_log("browser")

    def load(self, text, place=""):
        self.path.write_text(text, newline="", encoding="utf-8", errors="replace")
        self.browser.get("about:blank")
        self.browser.get(self.path.as_uri() + place)

    def show(self, text, place=""):
        """Shows a page; its viewer has drawn when this is over."""
        self.load(text, place)
        self.wait("window.took !== undefined")

    def open(self, name, place=""):
        self.show(page_of(text_of(name)), place)

    def wait(self, condition):
        self.browser.execute_async_script(WAIT % (condition, condition.replace('"', "'")))

    def js(self, text, *arguments):
        return self.browser.execute_script(text, *arguments)

    def key(self, key):
        self.js("document.body.dispatchEvent(new KeyboardEvent('keydown', { key: arguments[0], bubbles: true }))", key)

    def top(self):
        return self.js("return document.querySelector('.top').textContent")

    def quiet(self, name=""):
        """The console has no message."""
        self.assertEqual([entry["message"] for entry in self.browser.get_log("browser")], [], name)
