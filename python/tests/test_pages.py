"""What the pages show of the package is what comes out."""
import doctest
import pathlib
import re
import subprocess
import sys
import unittest
from fractions import Fraction

from limited import Limited, numpy, sigdorf

try:
    import pandas
except ImportError:
    pandas = None

ROOT = pathlib.Path(__file__).resolve().parents[2]


class Pages(Limited):
    def assert_right(self, page):
        words = {"sigdorf": sigdorf, "numpy": numpy, "pandas": pandas, "Fraction": Fraction}
        text = (ROOT / "docs" / page).read_text(encoding="utf-8")
        test = doctest.DocTestParser().get_doctest(text, words, page, page, 0)
        told = []
        result = doctest.DocTestRunner(verbose=False).run(test, out=told.append)
        self.assertTrue(result.attempted)
        self.assertFalse(result.failed, "".join(told))

    def test_exact(self):
        self.assert_right("EXACT.md")

    @unittest.skipUnless((ROOT / "python" / "README.md").exists(), "the package's own page isn't here")
    def test_package(self):
        self.assert_right("../python/README.md")

    def test_tracking(self):
        self.assert_right("TRACKING.md")

    @unittest.skipUnless(pandas, "pandas is not there")
    def test_python(self):
        self.assert_right("PYTHON.md")

    def test_tracker(self):
        done = subprocess.run([sys.executable, "-B", ROOT / "examples" / "tracker.py"], capture_output=True, text=True)
        page = (ROOT / "docs" / "TRACKING.md").read_text(encoding="utf-8")
        shown = re.search(r"\n    \$ .*tracker\.py\n((?:    .*\n)+)", page)[1]
        self.assertEqual((done.returncode, done.stdout), (0, re.sub("^    ", "", shown, flags=re.MULTILINE)), done.stderr)
        for line in re.findall(r"^    (found|moved|lost)( = .*)$", page, re.MULTILINE):
            self.assertIn("".join(line), (ROOT / "examples" / "tracker.py").read_text(encoding="utf-8"))


if __name__ == "__main__":
    unittest.main()
