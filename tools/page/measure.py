#!/usr/bin/env python3
"""How long pages take in Chromium: `tools/page/measure.py PAGE.html ..`, several in turn.

Of each page: processor time of the browser's main thread until all is drawn, reading the file included, and what of it the
viewer's script took; what the clock says between the script's start and its end; a jump, a scroll by three rows, only trouble,
and a search, by the clock; memory of the script. Processor time says more than the clock if others use the machine.
"""

import os
import pathlib
import sys
import time

sys.dont_write_bytecode = True
sys.path.insert(0, os.path.dirname(os.path.abspath(__file__)))

from test_page import take_a_python_with_selenium  # noqa: E402

JUMPS = """const began = performance.now();
for (let i = 1; i <= 30; i++) { view.scrollTo(layout.total * i / 31); document.body.offsetHeight; }
return (performance.now() - began) / 30"""
SCROLLS = """const began = performance.now();
for (let i = 0; i < 60; i++) { view.scrollTo(view.scrolled() + 78); document.body.offsetHeight; }
return (performance.now() - began) / 60"""
ONLY_TROUBLE = """const began = performance.now();
onlyTrouble(); document.body.offsetHeight;
const took = performance.now() - began;
onlyTrouble();
return took"""
SEARCH = "const done = arguments[0], began = performance.now(); search('no-units').then(() => done(performance.now() - began));"


def measure(browser, page):
    """What one page takes, as sentences."""
    browser.get("about:blank")
    browser.get(page.resolve().as_uri())
    while browser.execute_script("return window.took === undefined"):
        time.sleep(0.05)
    browser.execute_script("document.body.offsetHeight")
    metrics = {it["name"]: it["value"] for it in browser.execute_cdp_cmd("Performance.getMetrics", {})["metrics"]}
    yield f"{page.name}: {page.stat().st_size / 1e6:.1f} MB"
    yield f"main thread {metrics['TaskDuration']:.2f} s, script {metrics['ScriptDuration']:.2f} s"
    yield f"viewer {browser.execute_script('return window.took')} ms by the clock"
    yield f"jump {browser.execute_script(JUMPS):.0f} ms"
    yield f"scroll {browser.execute_script(SCROLLS):.0f} ms"
    yield f"only trouble {browser.execute_script(ONLY_TROUBLE):.0f} ms"
    yield f"search {browser.execute_async_script(SEARCH):.0f} ms"
    yield f"memory {browser.execute_cdp_cmd('Runtime.getHeapUsage', {})['usedSize'] / 1e6:.0f} MB"


def main(words):
    take_a_python_with_selenium()
    from tests.browser import start_browser

    for word in words:
        browser = start_browser()
        try:
            browser.execute_cdp_cmd("Performance.enable", {"timeDomain": "threadTicks"})
            print("; ".join(measure(browser, pathlib.Path(word))), flush=True)
        finally:
            browser.quit()


if __name__ == "__main__":
    main(sys.argv[1:])
