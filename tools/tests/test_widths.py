"""How wide texts are told to be, beside fonts that are installed."""
import functools
import glob
import json
import subprocess
import unicodedata
import unittest

from calls import python_with
from sigdorf_tools import widths
from sigdorf_tools.widths import TABLE, WIDTHS, width_of, wrapped

# Fonts of the families that pictures name, or as wide as these, upright and bold.
FILES = [("DejaVuSans.ttf", "DejaVuSans-Bold.ttf"), ("LiberationSans-Regular.ttf", "LiberationSans-Bold.ttf"), ("arial.ttf", "arialbd.ttf"), ("NotoSans-Regular.ttf", "NotoSans-Bold.ttf")]
MEASURE = """
import json, sys
from fontTools.ttLib import TTFont
font = TTFont(sys.argv[1])
glyphs, advances, size = font.getBestCmap(), font["hmtx"], font["head"].unitsPerEm
print(json.dumps({letter: advances[glyphs[ord(letter)]][0] / size for letter in sys.stdin.read() if ord(letter) in glyphs}))
"""


@functools.cache
def file_of(name):
    return next(iter(glob.glob(f"/usr/share/fonts/**/{name}", recursive=True)), None)


class Widths(unittest.TestCase):
    def test_table(self):
        """No letter is there twice, and wider classes come later."""
        letters = "".join(letters for _, _, letters in TABLE)
        self.assertEqual(len(letters), len(WIDTHS))
        self.assertEqual([row[0] for row in TABLE], sorted(row[0] for row in TABLE))
        self.assertEqual([letter for letter in map(chr, range(0x20, 0x180)) if letter.isprintable() and unicodedata.normalize("NFD", letter)[0] not in WIDTHS], [])

    def test_installed_fonts(self):
        """fontTools measures each letter of the table, alone and with marks, in the fonts that are there."""
        python = python_with("fontTools")
        found = [(file_of(name), is_bold) for names in FILES for is_bold, name in enumerate(names) if file_of(name)]
        if not python or not found:
            self.skipTest("it needs fontTools and a font")
        letters = "".join(letter for letter in map(chr, [*range(0x20, 0x1E00), *range(0x2010, 0x2300)]) if letter.isprintable() and unicodedata.normalize("NFD", letter)[0] in WIDTHS)
        for file, is_bold in found:
            done = subprocess.run([python, "-c", MEASURE, file], input=letters, capture_output=True, text=True, check=True)
            wider = [letter for letter, width in json.loads(done.stdout).items() if width > width_of(letter, 1, bool(is_bold)) + 1e-6]
            self.assertEqual(wider, [], file)

    def test_other_letters(self):
        """What is in no table is told generously, and measured where there is something to measure by."""
        class Font:
            @staticmethod
            def getlength(text):
                return 500 * len(text)
        fonts, widths.fonts = widths.fonts, lambda is_bold: []
        try:
            width_of.cache_clear()
            self.assertEqual([round(width_of(text, 10), 1) for text in ("\u6c34", "\U0001f600", "\u0e01", "e\u0301", "\u200b")], [10.5, 14, 12, 6.6, 0])
            width_of.cache_clear()
            widths.fonts = lambda is_bold: [Font]
            self.assertEqual([round(width_of(text, 10), 1) for text in ("\u6c34a", "ab")], [100, 13.2])
        finally:
            widths.fonts = fonts
            width_of.cache_clear()

    def test_wrapped(self):
        self.assertEqual(wrapped("one two three", 10, 50), ["one two", "three"])
        self.assertEqual(wrapped("WWWW a", 10, 21), ["WW", "WW", "a"])
        self.assertEqual(wrapped("", 10, 50), [])
        for text in ("A best plan: the least total is 145.", "Plan of " + "W" * 90, "\u6c34" * 40):
            for most in (60, 200, 500):
                lines = wrapped(text, 20, most, True)
                self.assertEqual("".join(lines).replace(" ", ""), text.replace(" ", ""))
                self.assertLessEqual(max(width_of(line, 20, True) for line in lines), most)
