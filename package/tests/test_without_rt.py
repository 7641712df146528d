"""Where the toolchain isn't there: one sentence that says what it is and what goes without it."""
import shutil
import subprocess
import unittest

from calls import ROOT, PackageTest

PATH = "/usr/bin:/bin"


@unittest.skipIf(shutil.which("rt", path=PATH), f"rt is in {PATH}")
class WithoutToolchain(PackageTest):
    def setUp(self):
        super().setUp()
        # A clone where nothing is built.
        for name in ("auction", "test", "crates.txt"):
            shutil.copy(ROOT / name, self.folder)
        (self.folder / "crates").mkdir()

    def assert_refused(self, *words):
        done = subprocess.run([self.folder / words[0], *words[1:]], env={"PATH": PATH}, capture_output=True, text=True, timeout=60, stdin=subprocess.DEVNULL)
        self.assertEqual((done.returncode, done.stdout), (127, ""), done.stderr)
        self.assertEqual(done.stderr.count("\n"), 1, done.stderr)
        self.assertIn("Rattle toolchain", done.stderr)
        self.assertIn("without it", done.stderr)

    def test_program(self):
        self.assert_refused("auction", "solve", "examples/crew.arcs")

    def test_tests(self):
        self.assert_refused("test")
