"""Tests of what a page is made of; they need no browser."""

import re
import unittest

import build_head
from tests.browser import text_of, vectors

# Ways to put text into a page as markup, to run a text, or to load something.
FORBIDDEN = """innerHTML outerHTML insertAdjacentHTML document.write eval( Function( DOMParser srcdoc http: https: fetch(
import( XMLHttpRequest WebSocket sendBeacon""".split()
LEAST_CONTRAST = {"ink": 7, "dim": 4.5, "read": 4.5, "swap": 4.5, "write": 4.5, "bid": 4.5, "ok": 4.5, "bad": 4.5, "warn": 4.5,
                  "life": 2.8, "hold": 3}


def light_of(colour):
    """The relative luminance of a colour, as contrast is computed of it (WCAG)."""
    digits = "".join(c * 2 for c in colour) if len(colour) == 3 else colour
    parts = [int(digits[at : at + 2], 16) / 255 for at in (0, 2, 4)]
    linear = [part / 12.92 if part <= 0.04045 else ((part + 0.055) / 1.055) ** 2.4 for part in parts]
    return sum(weight * part for weight, part in zip((0.2126, 0.7152, 0.0722), linear))


def contrast(one, other):
    dark, light = sorted([light_of(one), light_of(other)])
    return (light + 0.05) / (dark + 0.05)


class Files(unittest.TestCase):
    def test_only_the_viewer_may_run(self):
        head = build_head.head()
        (script,) = re.findall("<script>(.*?)</script>", head, re.S)
        styles = " ".join(f"'{build_head.digest(style)}'" for style in re.findall("<style>(.*?)</style>", head, re.S))
        policy = re.search(r'Content-Security-Policy"\s+content="([^"]*)"', head).group(1)
        self.assertEqual(policy, f"default-src 'none'; style-src {styles}; script-src '{build_head.digest(script)}'")

    def test_data_goes_through_text_alone(self):
        script = build_head.script().replace("'http://www.w3.org/2000/svg'", "")
        self.assertEqual([way for way in FORBIDDEN if way in script], [])

    def test_lines_are_one_element(self):
        self.assertTrue(build_head.head().endswith('<xmp id="log" hidden>\n'))
        self.assertTrue(build_head.read("tail.html").startswith("</xmp>\n"))

    def test_lines_of_head_and_tail_have_no_mark(self):
        for part in (build_head.head(), build_head.read("tail.html")):
            self.assertEqual([line for line in part.split("\n") if line.startswith(build_head.MARKS)], [])

    def test_sources_are_short(self):
        for path in sorted(build_head.HERE.rglob("src/**/*.*")):
            lines = path.read_text().split("\n")
            self.assertLessEqual(len(lines), 171, path.name)
            self.assertEqual([line for line in lines if len(line) > 120], [], path.name)

    def test_lines_of_vectors(self):
        self.assertGreater(len(vectors()), 30)
        for name in vectors():
            text = text_of(name)
            self.assertNotIn("<", text, name)
            self.assertTrue(all(32 <= ord(c) < 127 or c == "\n" for c in text), name)
            self.assertTrue(all(line.startswith(build_head.MARKS) for line in text.split("\n")[:-1]), name)
            self.assertTrue(text.split("\n")[-2].startswith(":log "), name)

    def test_colours_have_contrast(self):
        schemes = re.findall(r":root \{(.*?)\}", build_head.style(), re.S)
        self.assertEqual(len(schemes), 2)
        for scheme in schemes:
            colours = dict(re.findall(r"--(\w+): #(\w+)", scheme))
            for name, least in LEAST_CONTRAST.items():
                self.assertGreaterEqual(contrast(colours["bg"], colours[name]), least, name)
