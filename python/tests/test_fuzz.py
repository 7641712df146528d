"""A few of the random calls of fuzz.py."""
import pathlib
import subprocess
import sys
import unittest

from limited import Limited

FUZZ = pathlib.Path(__file__).with_name("fuzz.py")


class Fuzz(Limited):
    def assert_passes(self, kind, count):
        done = subprocess.run([sys.executable, "-B", FUZZ, kind, str(count)], capture_output=True, text=True)
        self.assertEqual((done.returncode, done.stdout.splitlines()[-1:]), (0, [f"{count} passed, 0 failed"]), done.stdout + done.stderr)

    def test_calls(self):
        self.assert_passes("calls", 2000)

    def test_answers(self):
        self.assert_passes("answers", 500)


if __name__ == "__main__":
    unittest.main()
